"""When the employment ends, from the text of the law. A day that a month lacks is that month's last."""
import calendar, datetime, json, sys

LONGER = [(20, 7), (15, 6), (12, 5), (10, 4), (8, 3), (5, 2), (2, 1)]


def later(day, months):
    index = day.year * 12 + day.month - 1 + months
    year, month = index // 12, index % 12 + 1
    return datetime.date(year, month, min(day.day, calendar.monthrange(year, month)[1]))


def month_end(day):
    return day.replace(day=calendar.monthrange(day.year, day.month)[1])


def ends(began, given, in_probation):
    for years, months in LONGER:
        if later(began, 12 * years) <= given:
            return month_end(later(given, months))
    if in_probation and given < later(began, 6):
        return given + datetime.timedelta(14)
    four_weeks = given + datetime.timedelta(28)
    return four_weeks.replace(day=15) if four_weeks.day <= 15 else month_end(four_weeks)


given = json.load(sys.stdin)
day = datetime.date.fromisoformat
print('{"employment_ends":"%s"}' % ends(day(given['began']), day(given['given']), given['in_probation']))
