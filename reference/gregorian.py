"""The calendar of document 01, "What exists": "Gregorian rule for all years, negative and 0000 too"."""

# "one table, a row for common years and a row for leap years"
MONTH_LENGTHS = (
    (31, 28, 31, 30, 31, 30, 31, 31, 30, 31, 30, 31),
    (31, 29, 31, 30, 31, 30, 31, 31, 30, 31, 30, 31),
)


def leap_year(year):
    """"leap when divisible by 4 and not by 100, or by 400"."""
    return (year % 4 == 0 and year % 100 != 0) or year % 400 == 0


def month_length(year, month):
    """"month lengths in one table"; 0 where there is no such month."""
    if not 1 <= month <= 12:
        return 0
    return MONTH_LENGTHS[leap_year(year)][month - 1]


def year_length(year):
    """"Ordinal day 1 to 365 or 366"."""
    return 366 if leap_year(year) else 365


def leap_days_up_to(year):
    """Leap years up to and including this one, counted from 0001; no "quotient cut toward zero", as // rounds down."""
    return year // 4 - year // 100 + year // 400


def new_year(year):
    """The day count of 1 January; 1 January 2000 is day 0."""
    return 365 * (year - 2000) + leap_days_up_to(year - 1) - leap_days_up_to(1999)


def weekday(day):
    """"weekday 1 (Monday) to 7" of a day count; day 0, 1 January 2000, is a Saturday (6)."""
    return (day + 5) % 7 + 1


def first_monday(year):
    """The day count of the Monday of week 01: "Week 01 contains 4 January"."""
    fourth_of_january = new_year(year) + 3
    return fourth_of_january - (weekday(fourth_of_january) - 1)


def weeks_in_year(year):
    """"weeks 1 to 52, or 53 where the year has it"."""
    return (first_monday(year + 1) - first_monday(year)) // 7


def year_exists(year):
    """"for all years, negative and 0000 too"."""
    return True


def month_exists(year, month):
    """A month exists when "one table" has a length for it."""
    return month_length(year, month) > 0


def day_exists(year, month, day):
    """A day of a month exists from 1 to the month's length in the "one table"."""
    return 1 <= day <= month_length(year, month)


def ordinal_day_exists(year, ordinal_day):
    """"Ordinal day 1 to 365 or 366"."""
    return 1 <= ordinal_day <= year_length(year)


def week_exists(year, week):
    """"weeks 1 to 52, or 53 where the year has it"."""
    return 1 <= week <= weeks_in_year(year)


def weekday_exists(year, week, day_of_week):
    """"weekday 1 (Monday) to 7", of a week that exists."""
    return 1 <= day_of_week <= 7 and week_exists(year, week)


# "Date: Y, YM, YMD, YD, YW, YWD"
DATE_FORMS = {
    "Y": year_exists,
    "YM": month_exists,
    "YMD": day_exists,
    "YD": ordinal_day_exists,
    "YW": week_exists,
    "YWD": weekday_exists,
}


def exists(form, year, *fields):
    """Whether a date exists, of one of the "six forms" that "What a type is" lists."""
    return DATE_FORMS[form](year, *fields)
