"""When a man attains pensionable age, from the text of the Schedule and its tables."""
import calendar, datetime, json, sys

day = datetime.date.fromisoformat
# The days of the tables, as they are printed: each row begins on the 6th of a month and ends on the 5th of the next one.
BEFORE_66 = ['2019-03-06', '2019-05-06', '2019-07-06', '2019-09-06', '2019-11-06', '2020-01-06', '2020-03-06', '2020-05-06',
             '2020-07-06', '2020-09-06']
BEFORE_68 = ['2044-05-06', '2044-07-06', '2044-09-06', '2044-11-06', '2045-01-06', '2045-03-06', '2045-05-06', '2045-07-06',
             '2045-09-06', '2045-11-06', '2046-01-06', '2046-03-06']
# What the Schedule says of the days that a month lacks.
TAKEN = {'1960-07-31': '2026-11-30', '1960-12-31': '2027-09-30', '1961-01-31': '2027-11-30'}


def anniversary(birth, years):
    if (birth.month, birth.day) == (2, 29) and not calendar.isleap(birth.year + years):
        return datetime.date(birth.year + years, 3, 1)
    return birth.replace(year=birth.year + years)


def row(birth, first):
    """The row of a birth in a table whose first row begins on that day."""
    months = 12 * (birth.year - first.year) + birth.month - first.month
    return months - (birth.day < 6)


def between_66_and_67(birth):
    if birth.isoformat() in TAKEN:
        return day(TAKEN[birth.isoformat()])
    months = birth.month - 1 + row(birth, day('1960-04-06')) + 1
    return datetime.date(birth.year + 66 + months // 12, months % 12 + 1, birth.day)


def attained(birth):
    if birth < day('1953-12-06'):
        return anniversary(birth, 65)
    if birth <= day('1954-10-05'):
        return day(BEFORE_66[row(birth, day('1953-12-06'))])
    if birth < day('1960-04-06'):
        return anniversary(birth, 66)
    if birth <= day('1961-03-05'):
        return between_66_and_67(birth)
    if birth < day('1977-04-06'):
        return anniversary(birth, 67)
    if birth <= day('1978-04-05'):
        return day(BEFORE_68[row(birth, day('1977-04-06'))])
    return anniversary(birth, 68)


days = [attained(day(birth)).isoformat() for birth in json.load(sys.stdin)['births']]
print(json.dumps({'pension_days': days}, separators=(',', ':')))
