"""Prints, for chosen years and five of the "six forms", how many dates exist and the sum of their indices."""

from gregorian import exists

YEARS = (
    -2147483648, -999999999, -9999, -401, -400, -101, -100, -8, -4, -1,
    0, 1, 4, 100, 400, 1581, 1582, 1600, 1900, 1999,
    2000, 2004, 2009, 2015, 2020, 2021, 2026, 9999, 99999, 999999999,
    2147483647,
)


def count_and_sum(indices):
    """The count and the sum of the indices at which a date exists."""
    indices = list(indices)
    return len(indices), sum(indices)


def one_octet(form, year):
    """The indices of a form with one field of 0 to 255."""
    return (index for index in range(256) if exists(form, year, index))


def two_octets_as_one(form, year):
    """The indices of a form with one field of 0 to 65535."""
    return (index for index in range(65536) if exists(form, year, index))


def two_octets(form, year):
    """The indices 256 * a + b of a form with two fields, a and b of 0 to 255."""
    return (256 * a + b for a in range(256) for b in range(256) if exists(form, year, a, b))


def main():
    """For each year: a line with its side of 0000 (1 before it) and its distance, then one for each form."""
    for year in YEARS:
        print(int(year < 0), abs(year))
        print(*count_and_sum(one_octet("YM", year)))
        print(*count_and_sum(two_octets("YMD", year)))
        print(*count_and_sum(two_octets_as_one("YD", year)))
        print(*count_and_sum(one_octet("YW", year)))
        print(*count_and_sum(two_octets("YWD", year)))


if __name__ == "__main__":
    main()
