"""Prints, for every year from -3000 to 3000 and six far ones, the lengths of months that exist or don't ("What exists")."""

from gregorian import leap_year, month_length, weeks_in_year, year_length

YEARS = (
    *range(-3000, 3001),
    -2147483648, -2147483647, -2147483646,
    2147483645, 2147483646, 2147483647,
)

MONTHS = (*range(15), 255, 256, 257, 268, 2147483648, 4294967295)


def main():
    """One line for each year: "Gregorian rule for all years, negative and 0000 too"."""
    for year in YEARS:
        lengths = [month_length(year, month) for month in MONTHS]
        print(year, int(leap_year(year)), year_length(year), weeks_in_year(year), *lengths)


if __name__ == "__main__":
    main()
