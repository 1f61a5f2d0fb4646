"""Prints, for chosen years: year, leap, year length, weeks, and the twelve month lengths ("What exists")."""

from gregorian import leap_year, month_length, weeks_in_year, year_length

# first and last year of each range, both included
RANGES = (
    (-2147483648, -2147483645),
    (-1000000001, -999999997),
    (-100000001, -99999998),
    (-100001, -99998),
    (-10001, -9995),
    (-404, 404),
    (1581, 1600),
    (1899, 1901),
    (1999, 2030),
    (9996, 10001),
    (99998, 100001),
    (99999998, 100000001),
    (999999997, 1000000001),
    (2147483644, 2147483647),
)


def main():
    """One line for each year, ascending: "Gregorian rule for all years, negative and 0000 too"."""
    for first, last in RANGES:
        for year in range(first, last + 1):
            lengths = [month_length(year, month) for month in range(1, 13)]
            print(year, int(leap_year(year)), year_length(year), weeks_in_year(year), *lengths)


if __name__ == "__main__":
    main()
