"""Dates, times and durations of ASN.1: a text becomes unaligned PER or DER, and octets of either become text again.

    >>> import anafzir
    >>> anafzir.encode("DATE", "2006-06-13")
    b'\\x05X'
    >>> anafzir.decode("DATE", b"\\x05\\x58")
    '2006-06-13'
    >>> anafzir.DURATION.encode("P0Y0M1D", "der").hex()
    '1f22023144'
    >>> anafzir.encode("Basic=Date Date=Y Year=L9|Basic=Date Date=Y Year=L8", "-123456789").hex()
    '04f8a432eb'
    >>> anafzir.encode("DATE", "2006-02-29")
    Traceback (most recent call last):
    anafzir.NoSuchValue: 4: There is no such date, time or difference.

This is the library libanafzir behind Python's ctypes. The library is the one that the environment variable ANAFZIR_LIBRARY
names where that is set and not empty; else libanafzir.so.0 in PREFIX/lib where this module is in
PREFIX/lib/pythonX.Y/site-packages; else the one that the system's loader finds.

A text, and a type's text, is a str or bytes; a str is taken as its UTF-8, and any str is taken: what is not ASCII is in no type
and no text, and is refused. Octets are bytes, a bytearray or a memoryview, and are copied before the library sees them. Calls may
run in several threads at once; Python's lock is not held while the library works.
"""

import ctypes
import os
from functools import lru_cache, partial
from operator import index
from typing import Any, Callable, ClassVar, Literal, NoReturn, Optional, Union

__version__ = "0.3.0"

__all__ = [
    "DATE", "DATE_TIME", "DURATION", "TIME_OF_DAY", "Type", "decode", "encode",
    "Refused", "BadType", "MixedType", "BadForm", "NoSuchValue", "NotInType", "NotCanonical", "ShortRoom",
]

_Text = Union[str, bytes]
_Octets = Union[bytes, bytearray, memoryview]
_Rules = Literal["per", "der"]

_LIBRARY = "libanafzir.so.0"

# Enough for every result: ANAFZIR_ROOM of the C header.
_ROOM = ctypes.c_size_t(136)
_Room = ctypes.c_char * _ROOM.value

_LOWEST_YEAR, _HIGHEST_YEAR = -2**31, 2**31 - 1


class Refused(ValueError):
    """There is no result. Where several reasons hold, the one with the lowest number is given."""

    # 1 to 7, as in the C header; its name there, without ANAFZIR_; and the library's sentence for it.
    number: ClassVar[int]
    name: ClassVar[str]
    sentence: ClassVar[str]

    def __str__(self) -> str:
        return f"{self.number}: {self.sentence}"


class BadType(Refused):
    """The type cannot be read, has more than six lists or two that are equal, or a limit has no place in it: years without a date,
    hour 24 without a time."""

    number, name = 1, "BAD_TYPE"


class MixedType(Refused):
    """The type's lists can each be read and do not belong together: they differ in more than Year, or in Years of two rows."""

    number, name = 2, "MIXED_TYPE"


class BadForm(Refused):
    """The input does not look like a value of the type."""

    number, name = 3, "BAD_FORM"


class NoSuchValue(Refused):
    """There is no such date, time or difference: 30 February, 24:00:01, 12:34:60Z.

    Second 60 exists at the end of 23:59 UTC alone, as in 05:29:60+05:30; a local time may have it in any minute.
    """

    number, name = 4, "NO_SUCH_VALUE"


class NotInType(Refused):
    """The value exists, and the type does not have it: a Year setting that it does not name, or a limit leaves it out."""

    number, name = 5, "NOT_IN_TYPE"


class NotCanonical(Refused):
    """Decoding only: the octets are not what the encoder writes for the value."""

    number, name = 6, "NOT_CANONICAL"


class ShortRoom(Refused):
    """The room is shorter than the result. This module lends room for every result, so it is here for completeness alone."""

    number, name = 7, "SHORT_ROOM"


_REFUSALS = {
    refusal.number: refusal
    for refusal in (BadType, MixedType, BadForm, NoSuchValue, NotInType, NotCanonical, ShortRoom)
}


class _Limits(ctypes.Structure):
    """struct anafzir_limits."""

    _fields_ = [
        ("years", ctypes.c_uint32), ("lowest", ctypes.c_int32), ("highest", ctypes.c_int32), ("no_hour_24", ctypes.c_uint32),
        ("counts", ctypes.c_uint32), ("lowest_count", ctypes.c_uint32), ("highest_count", ctypes.c_uint32),
    ]


class _Outcome(ctypes.Structure):
    """struct anafzir_outcome."""

    _fields_ = [("number", ctypes.c_uint32), ("bits", ctypes.c_uint32), ("length", ctypes.c_size_t)]


_Coder = Callable[..., Any]


def _places() -> list[str]:
    """Where the library is looked for, one after the other."""
    chosen = os.environ.get("ANAFZIR_LIBRARY")
    if chosen:
        return [chosen]
    versioned = os.path.normpath(os.path.join(os.path.realpath(__file__), "../../.."))
    # Elsewhere than in an installed tree, the folder above is any folder, and nothing is loaded from there.
    if not os.path.basename(versioned).startswith("python"):
        return [_LIBRARY]
    return [os.path.join(os.path.dirname(versioned), _LIBRARY), _LIBRARY]


def _load() -> ctypes.CDLL:
    """The first library that can be loaded."""
    tried = []
    for place in _places():
        try:
            return ctypes.CDLL(place)
        except OSError as error:
            tried.append(f"{place} ({error})")
    raise ImportError("Anafzir's library cannot be loaded; tried: " + "; ".join(tried), name=__name__)


def _not_the_library(library: ctypes.CDLL, why: str) -> ImportError:
    """The error for a library that is another one."""
    return ImportError(f"{library._name} is not the library of Anafzir {__version__}: {why}", name=__name__)


def _function(library: ctypes.CDLL, name: str, restype: Any, *argtypes: Any) -> Any:
    """A function of the library with its types in C."""
    try:
        function = getattr(library, name)
    except AttributeError:
        raise _not_the_library(library, f"it has no {name}") from None
    function.argtypes = argtypes
    function.restype = restype
    return function


def _coder(library: ctypes.CDLL, name: str) -> Any:
    """One of the four functions that encode and decode."""
    octets, length = ctypes.c_char_p, ctypes.c_size_t
    return _function(library, name, _Outcome, octets, length, _Limits, octets, length, _Room, length)


def _answers_well(encode_per: _Coder) -> bool:
    """Whether the library gives the known octets of a date, and leaves it out under a limit."""
    room = _Room()
    for limits, wanted in ((_Limits(), (0, 15, 2)), (_Limits(1, 1582, 2005), (5, 0, 0))):
        outcome = encode_per(b"DATE", 4, limits, b"2006-06-13", 10, room, _ROOM)
        if (outcome.number, outcome.bits, outcome.length) != wanted:
            return False
    return room.raw == b"\x05\x58" + bytes(_ROOM.value - 2)


def _text_octets(text: _Text) -> bytes:
    """A text as the library takes it. Every str has such octets, one with lone surrogates too."""
    if isinstance(text, str):
        return str.encode(text, "utf-8", "surrogatepass")
    if isinstance(text, bytes):
        return _plain_octets(text)
    raise TypeError(f"a text is str or bytes, not {type(text).__name__}")


def _plain_octets(octets: _Octets) -> bytes:
    """Octets that nothing changes during a call, and whose length is what len says."""
    if type(octets) is bytes:
        return octets
    if isinstance(octets, (bytes, bytearray, memoryview)):
        return memoryview(octets).tobytes()
    raise TypeError(f"octets are bytes, a bytearray or a memoryview, not {type(octets).__name__}")


def _year(year: Optional[int]) -> Optional[int]:
    """A year of 32 bits, or None."""
    if year is None:
        return None
    number = int(index(year))
    if not _LOWEST_YEAR <= number <= _HIGHEST_YEAR:
        raise ValueError(f"the year {number} is outside 32 bits")
    return number


def _limits(lowest: Optional[int], highest: Optional[int], no_hour_24: bool) -> _Limits:
    """The limits as the library takes them: where one year is given, the other side is open."""
    if lowest is None and highest is None:
        return _Limits(no_hour_24=no_hour_24)
    return _Limits(
        1, _LOWEST_YEAR if lowest is None else lowest, _HIGHEST_YEAR if highest is None else highest, no_hour_24
    )


class Type:
    """A type: its text, and limits beside it. It never changes, and can be a key of a dict.

    The text is "DATE", "TIME-OF-DAY", "DATE-TIME" or "DURATION", or settings such as "Basic=Date Date=YMD Year=Basic", or up to six
    such lists with `|` between them. They differ in Year alone: Basic and Proleptic, or any of Negative and L5 to L9, in any order.
    `lowest` and `highest` leave out the years below and above them, as astronomical years: 0 is the year 0000, -1 is -0001; where one
    is given alone, the other side is open. `no_hour_24` leaves out 24:00:00.

    Nothing is judged here: a type that cannot be read is refused, with BadType or MixedType, where it is first used. Two types are
    equal where the library sees the same octets and the same limits.
    """

    __slots__ = ("text", "lowest", "highest", "no_hour_24", "_octets", "_length", "_limits")

    text: _Text
    lowest: Optional[int]
    highest: Optional[int]
    no_hour_24: bool
    _octets: bytes
    _length: ctypes.c_size_t
    _limits: _Limits

    def __new__(
        cls, text: _Text, *, lowest: Optional[int] = None, highest: Optional[int] = None, no_hour_24: bool = False
    ) -> "Type":
        lowest, highest, no_hour_24, octets = _year(lowest), _year(highest), bool(no_hour_24), _text_octets(text)
        length, limits = ctypes.c_size_t(len(octets)), _limits(lowest, highest, no_hour_24)
        made = super().__new__(cls)
        for slot, value in zip(Type.__slots__, (text, lowest, highest, no_hour_24, octets, length, limits)):
            object.__setattr__(made, slot, value)
        return made

    def encode(self, text: _Text, rules: _Rules = "per") -> bytes:
        """The octets of a text in unaligned PER, or in DER."""
        return self._ask(_ENCODERS, rules, _text_octets(text))[0]

    def decode(self, octets: _Octets, rules: _Rules = "per") -> str:
        """The canonical text of octets in unaligned PER, or in DER."""
        return self._ask(_DECODERS, rules, _plain_octets(octets))[0].decode("ascii")

    def encode_with_bits(self, text: _Text) -> tuple[bytes, int]:
        """The octets of a text in unaligned PER, and how many bits they have before the last one is filled."""
        return self._ask(_ENCODERS, "per", _text_octets(text))

    def decode_with_bits(self, octets: _Octets) -> tuple[str, int]:
        """The canonical text of octets in unaligned PER, and how many bits they have before the last one is filled."""
        text, bits = self._ask(_DECODERS, "per", _plain_octets(octets))
        return text.decode("ascii"), bits

    def _ask(self, coders: dict[str, _Coder], rules: str, given: bytes) -> tuple[bytes, int]:
        """The result and its bits in PER; or the refusal is raised."""
        try:
            coder = coders[rules]
        except (KeyError, TypeError):
            raise ValueError(f"the rules are 'per' or 'der', not {rules!r}") from None
        room = _Room()
        outcome = coder(self._octets, self._length, self._limits, given, len(given), room, _ROOM)
        if outcome.number != 0:
            raise _refusal(outcome.number)
        return room[:outcome.length], outcome.bits

    def _key(self) -> tuple[bytes, bytes]:
        """What the library sees."""
        return self._octets, bytes(self._limits)

    def __eq__(self, other: object) -> bool:
        return self._key() == other._key() if isinstance(other, Type) else NotImplemented

    def __hash__(self) -> int:
        return hash(self._key())

    def __setattr__(self, name: str, value: object) -> NoReturn:
        raise AttributeError("a type does not change")

    def __delattr__(self, name: str) -> NoReturn:
        raise AttributeError("a type does not change")

    def __repr__(self) -> str:
        given = {"lowest": self.lowest, "highest": self.highest, "no_hour_24": self.no_hour_24 or None}
        return f"Type({self.text!r}" + "".join(f", {name}={value}" for name, value in given.items() if value is not None) + ")"

    def __reduce__(self) -> tuple[Callable[[], "Type"], tuple[()]]:
        return partial(type(self), self.text, lowest=self.lowest, highest=self.highest, no_hour_24=self.no_hour_24), ()


def encode(type: Union[Type, _Text], text: _Text, rules: _Rules = "per") -> bytes:
    """The octets of a text in unaligned PER, or in DER, under a type or the text of one."""
    return _type(type).encode(text, rules)


def decode(type: Union[Type, _Text], octets: _Octets, rules: _Rules = "per") -> str:
    """The canonical text of octets in unaligned PER, or in DER, under a type or the text of one."""
    return _type(type).decode(octets, rules)


def _type(given: Union[Type, _Text]) -> Type:
    """A type, or the one with this text and without limits."""
    return given if isinstance(given, Type) else _type_without_limits(_text_octets(given))


@lru_cache(maxsize=128)
def _type_without_limits(octets: bytes) -> Type:
    """A type, kept for the next call, since making one takes longer than using it."""
    return Type(octets)


def _refusal(number: int) -> Exception:
    """The error for a number."""
    if number not in _REFUSALS:
        return RuntimeError(f"Anafzir's library returns {number}, which this module does not know")
    return _REFUSALS[number]()


def _take_sentences(library: ctypes.CDLL) -> None:
    """Gives each refusal the library's sentence for it."""
    message = _function(library, "anafzir_message", ctypes.c_char_p, ctypes.c_uint32)
    for number, refusal in _REFUSALS.items():
        sentence = message(number)
        if not sentence:
            raise _not_the_library(library, f"it has no sentence for {number}")
        refusal.sentence = sentence.decode("utf-8", "replace")


_library = _load()
_ENCODERS = {"per": _coder(_library, "anafzir_per_encode"), "der": _coder(_library, "anafzir_der_encode")}
_DECODERS = {"per": _coder(_library, "anafzir_per_decode"), "der": _coder(_library, "anafzir_der_decode")}
if not _answers_well(_ENCODERS["per"]):
    raise _not_the_library(_library, "it answers otherwise")
_take_sentences(_library)

DATE = Type("DATE")
TIME_OF_DAY = Type("TIME-OF-DAY")
DATE_TIME = Type("DATE-TIME")
DURATION = Type("DURATION")
