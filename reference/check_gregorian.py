"""Checks gregorian.py ("What exists") against datetime and calendar, and outside 1 to 9999 by walking from there."""

import calendar
from datetime import date, timedelta

from checks import agree
from gregorian import exists, leap_year, month_length, new_year, weekday, weeks_in_year, year_length

# 2000 to 2027 hold each weekday of 1 January in a common and in a leap year
YEARS_IN_FULL = (1, 4, 100, 400, 1581, 1582, 1600, 1900, 1999, *range(2000, 2031), 9996, 9998)

FAR_YEARS = (
    *range(-2147483648, -2147483648 + 1000),
    *range(-1000000400, -999999600),
    *range(-987654400, -987654000),
    *range(-100000400, -99999600),
    *range(-10000200, -9999800),
    *range(-1000200, -999800),
    *range(-100400, -99600),
    *range(-10400, -9600),
    *range(99600, 100400),
    *range(999800, 1000200),
    *range(9999800, 10000200),
    *range(99999600, 100000400),
    *range(123456400, 123456800),
    *range(999999600, 1000000400),
    *range(2147483647 - 1000, 2147483648),
)

# first and last year of a walk from day to day, with nine digits of either sign
FAR_WALKS = ((-999999999, -999999960), (-100000020, -99999981), (100000000, 100000039), (999999960, 999999999))

NO_MONTHS = (-2147483648, -12, -1, 0, 13, 14, 255, 256, 257, 268, 2147483648, 4294967295)


def is_made(make, *fields):
    """Whether datetime makes a date of the fields."""
    try:
        make(*fields)
    except ValueError:
        return False
    return True


def facts(year):
    """Leap, year length, weeks and month lengths by gregorian.py."""
    lengths = [month_length(year, month) for month in range(1, 13)]
    return leap_year(year), year_length(year), weeks_in_year(year), lengths


def facts_by_datetime(year):
    """Leap, year length, weeks and month lengths by datetime and calendar, from 1 to 9999."""
    lengths = [calendar.monthrange(year, month)[1] for month in range(1, 13)]
    last_day = date(year, 12, 31).timetuple().tm_yday
    return calendar.isleap(year), last_day, date(year, 12, 28).isocalendar()[1], lengths


def check_years_of_datetime():
    """Every year that datetime reaches, and the months that "one table" doesn't have."""
    day_0 = date(2000, 1, 1)
    for year in range(1, 10000):
        agree(facts(year), facts_by_datetime(year), "leap, year length, weeks, months of", year)
        agree(new_year(year), (date(year, 1, 1) - day_0).days, "day count of 1 January", year)
        agree(weekday(new_year(year)), date(year, 1, 1).isoweekday(), "weekday of 1 January", year)
        for month in NO_MONTHS:
            agree(month_length(year, month), 0, "length of month", month, "of", year)


def check_dates_of_datetime(year):
    """Every date of the year in each of the "six forms", and the refusal of their neighbours."""
    agree(exists("Y", year), True, "Y", year)
    for month in (*range(-1, 15), *NO_MONTHS):
        agree(exists("YM", year, month), 1 <= month <= 12, "YM", year, month)
        for day in (*range(-1, 34), 255, 256, 257, 284):
            expected = 1 <= month <= 12 and is_made(date, year, month, day)
            agree(exists("YMD", year, month, day), expected, "YMD", year, month, day)

    day = date(year, 1, 1)
    while day.year == year:
        ordinal_day = day.timetuple().tm_yday
        agree(exists("YMD", year, day.month, day.day), True, "YMD", day)
        agree(exists("YD", year, ordinal_day), True, "YD", year, ordinal_day)
        agree(exists("YWD", *day.isocalendar()), True, "YWD", *day.isocalendar())
        day += timedelta(1)
    for other in (-366, -365, -1, 0, *range(ordinal_day + 1, 1000), 65535):
        agree(exists("YD", year, other), False, "YD", year, other)

    for week in (*range(-2, 60), 255, 256, 257, 308, 309):
        expected = is_made(date.fromisocalendar, year, week, 1)
        agree(exists("YW", year, week), expected, "YW", year, week)
        for day_of_week in (*range(-1, 15), 255, 256, 257, 263):
            expected = is_made(date.fromisocalendar, year, week, day_of_week)
            agree(exists("YWD", year, week, day_of_week), expected, "YWD", year, week, day_of_week)


def year_of_datetime(year):
    """A year from 1 to 9999, some times 10000 years away; by the last four digits, without a quotient."""
    digits = int(str(abs(year))[-4:])
    if digits == 0:
        return 400
    return digits if year > 0 else 10000 - digits


def check_last_dates(year):
    """The first and the last month, day and week of a year exist, and their neighbours don't."""
    _, days, weeks, lengths = facts_by_datetime(year_of_datetime(year))
    agree(exists("Y", year), True, "Y", year)
    for month in range(14):
        length = lengths[month - 1] if 1 <= month <= 12 else 0
        agree(exists("YM", year, month), length > 0, "YM", year, month)
        for day in (0, 1, 28, 29, 30, 31, 32):
            agree(exists("YMD", year, month, day), 1 <= day <= length, "YMD", year, month, day)
    for ordinal_day in (0, 1, 365, 366, 367):
        agree(exists("YD", year, ordinal_day), 1 <= ordinal_day <= days, "YD", year, ordinal_day)
    for week in (0, 1, 52, 53, 54):
        agree(exists("YW", year, week), 1 <= week <= weeks, "YW", year, week)
        for day_of_week in (0, 1, 7, 8):
            expected = 1 <= week <= weeks and 1 <= day_of_week <= 7
            agree(exists("YWD", year, week, day_of_week), expected, "YWD", year, week, day_of_week)


def check_period():
    """400 years are a whole number of weeks, so every year has the facts of the year 400 or 10000 years on."""
    days = (date(2001, 1, 1) - date(1601, 1, 1)).days
    agree(days % 7, 0, "days over whole weeks in 400 years")
    for year in (*range(-3000, 1), *range(10000, 12001), *FAR_YEARS):
        agree(facts(year), facts_by_datetime(year_of_datetime(year)), "leap, year length, weeks, months of", year)
        agree(facts(year), facts(year + 400), "period of 400 years from", year)
        agree(new_year(year + 400) - new_year(year), days, "days in 400 years from", year)
        agree(new_year(year + 1) - new_year(year), year_length(year), "day count over", year)
        agree(sum(month_length(year, month) for month in range(1, 13)), year_length(year), "sum of months of", year)
        for month in NO_MONTHS:
            agree(month_length(year, month), 0, "length of month", month, "of", year)
        check_last_dates(year)


def walk_days(first_year, last_year, day_of_week, week_year, week):
    """Walks day by day from 1 January, with its weekday and week, and returns the weekday after the walk and the last week."""
    for year in range(first_year, last_year + 1):
        ordinal_day = 0
        for month in range(1, 13):
            for day in range(1, month_length(year, month) + 1):
                ordinal_day += 1
                if day_of_week == 1:
                    if (month == 12 and day >= 29) or (month == 1 and day <= 4):
                        # "Week 01 contains 4 January": the week that ended was the last of its year
                        agree(weeks_in_year(week_year), week, "weeks walked in", week_year)
                        agree(exists("YWD", week_year, week + 1, 1), False, "YWD", week_year, week + 1, 1)
                        week_year, week = week_year + 1, 1
                    else:
                        week += 1
                agree(exists("YMD", year, month, day), True, "YMD", year, month, day)
                agree(exists("YD", year, ordinal_day), True, "YD", year, ordinal_day)
                agree(exists("YWD", week_year, week, day_of_week), True, "YWD", week_year, week, day_of_week)
                day_of_week = day_of_week % 7 + 1
            agree(exists("YMD", year, month, day + 1), False, "YMD", year, month, day + 1)
        agree(exists("YD", year, ordinal_day + 1), False, "YD", year, ordinal_day + 1)
        agree(weekday(new_year(year + 1)), day_of_week, "weekday of 1 January", year + 1)
    return day_of_week, week_year, week


def check_year_walk():
    """Year by year, down from 1 January 0001 to the year -3000 and up from 1 January 9999 to the year 12000."""
    for start, step, end in ((1, -1, -3000), (9999, 1, 12000)):
        first = date(start, 1, 1)
        year, day, day_of_week = start, (first - date(2000, 1, 1)).days, first.isoweekday()
        while year != end:
            # the year that is passed over: the one before when walking down
            length = step * facts_by_datetime(year_of_datetime(min(year, year + step)))[1]
            year += step
            day += length
            day_of_week = (day_of_week - 1 + length) % 7 + 1
            agree(new_year(year), day, "day count of 1 January", year)
            agree(weekday(new_year(year)), day_of_week, "weekday of 1 January", year)


def check_day_walk():
    """Day by day, up from -1199 to 1 January 0001, three periods on, and up from 9999, past a period."""
    # the walk starts on a Monday and closes on the Monday that datetime has
    monday = date(1, 1, 1).isoweekday()
    end = walk_days(-1199, 0, monday, -1200, weeks_in_year(-1200))
    agree(end, (monday, 0, weeks_in_year(0)), "weekday, week year and week at the end of 0000")

    before = date(9999, 1, 1) - timedelta(1)
    day_of_week, _, _ = walk_days(9999, 10400, date(9999, 1, 1).isoweekday(), *before.isocalendar()[:2])
    agree(day_of_week, date(401, 1, 1).isoweekday(), "weekday of 1 January 10401, 25 periods after 401")


def check_far_walks():
    """Day by day at years of nine digits, from the weekday and the week of the year of datetime that is whole periods away."""
    for first, last in FAR_WALKS:
        start = date(year_of_datetime(first + 400), 1, 1)
        week_year, week, _ = (start - timedelta(1)).isocalendar()
        day_of_week, _, _ = walk_days(first, last, start.isoweekday(), week_year + first - start.year, week)
        after = date(year_of_datetime(last + 1), 1, 1)
        agree(day_of_week, after.isoweekday(), "weekday of 1 January", last + 1)


def main():
    """Ends with a message at the first disagreement; prints nothing when there is none."""
    check_years_of_datetime()
    for year in YEARS_IN_FULL:
        check_dates_of_datetime(year)
    check_period()
    check_year_walk()
    check_day_walk()
    check_far_walks()


if __name__ == "__main__":
    main()
