"""The Year settings of document 01, "What a type is", and of #103: "Geology people need `Year=L6` to `L9`"."""

from collections import namedtuple

# a Year setting: its word; its family, the settings that share the rows of Table 2; and the ranges of its years, each with
# its lowest and its highest
YearSetting = namedtuple("YearSetting", "word family ranges")

# by the encodings of Table 2: YEAR-ENCODING and ANY-YEAR-ENCODING
YEAR, ANY_YEAR = "YEAR", "ANY-YEAR"

# "five digits after a sign, first digit not 0", and "A sign with six to nine digits, the first not 0"
DIGITS_AFTER_A_SIGN = range(5, 10)


def large(digits):
    """L5 to L9: the years of so many digits, of either sign."""
    lowest, highest = 10 ** (digits - 1), 10 ** digits - 1
    return YearSetting("L%d" % digits, ANY_YEAR, ((lowest, highest), (-highest, -lowest)))


# "Basic (1582 to 9999), Proleptic (0000 to 1581), Negative (-9999 to -0001)", and the large ones
YEAR_SETTINGS = (
    YearSetting("Basic", YEAR, ((1582, 9999),)),
    YearSetting("Proleptic", YEAR, ((0, 1581),)),
    YearSetting("Negative", ANY_YEAR, ((-9999, -1),)),
    *(large(digits) for digits in DIGITS_AFTER_A_SIGN),
)

# each range with its setting's word, and the family of each word
YEAR_RANGES = tuple((setting.word, *ends) for setting in YEAR_SETTINGS for ends in setting.ranges)
FAMILIES = {setting.word: setting.family for setting in YEAR_SETTINGS}


def families(words):
    """The families of these settings: one where all are "of one row", and none of no setting."""
    return {FAMILIES[word] for word in words}
