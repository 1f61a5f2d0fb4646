"""The octets of a text, read from the first on."""

DIGITS = b"0123456789"


class NotOfTheForm(Exception):
    """"the text or the DER contents are not of the type's form"."""


class Octets:
    """A text, and the place up to which it is read."""

    def __init__(self, text):
        self.text = text
        self.place = 0

    def next_is(self, octets):
        """Whether one of these octets comes next."""
        return self.place < len(self.text) and self.text[self.place] in octets

    def take(self, octets):
        """Reads exactly these octets."""
        end = self.place + len(octets)
        if self.text[self.place:end] != octets:
            raise NotOfTheForm
        self.place = end

    def take_one(self, octets):
        """Reads one of these octets."""
        if not self.next_is(octets):
            raise NotOfTheForm
        self.place += 1
        return self.text[self.place - 1:self.place]

    def take_digits(self, count):
        """Reads a field of exactly so many digits; "a field of the right digit count is of the form at any number"."""
        return int(b"".join(self.take_one(DIGITS) for _ in range(count)))

    def count_digits(self):
        """How many digits come next."""
        end = self.place
        while end < len(self.text) and self.text[end] in DIGITS:
            end += 1
        return end - self.place

    def take_end(self):
        """Nothing may be left."""
        if self.place != len(self.text):
            raise NotOfTheForm
