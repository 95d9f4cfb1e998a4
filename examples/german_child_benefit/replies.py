"""What a claimant receives for a month, from the text of the law."""
import datetime, json, sys

day = datetime.date.fromisoformat
OF_NUMBER_TWO = ('Training', 'BetweenTwoTrainings', 'WithoutPlaceOfTraining', 'VoluntaryService')


def has_completed(birth, years, at):
    """Whether that year of life is over as the day begins: completed at the end of the day before the birthday, and of one
    who was born on a 29th February at the end of that month."""
    ended = datetime.date(birth.year + years, birth.month, 1) + datetime.timedelta(birth.day - 2)
    if (birth.month, birth.day) == (2, 29):
        ended = datetime.date(birth.year + years, 2, 28)
    return ended < at


def is_considered(child, first):
    birth = day(child['birth'])
    if not has_completed(birth, 18, first):
        return (birth.year, birth.month) <= (first.year, first.month)
    if child['is_disabled']:
        return True
    if child['situation'] == 'SeekingWork':
        return not has_completed(birth, 21, first)
    is_employed = child['hours_a_week'] > 20
    return (child['situation'] in OF_NUMBER_TWO and not has_completed(birth, 25, first)
            and not (child['has_first_training'] and is_employed))


given = json.load(sys.stdin)
first = day(given['first_day_of_month'])
considered = sum(is_considered(child, first) for child in given['children'])
if first.day != 1 or first.year < 2023:
    print('fault AssertionFailed')
else:
    amount = 250 if first.year < 2025 else 255 if first.year < 2026 else 259
    print('{"considered":%d,"total":"%d.00"}' % (considered, amount * considered))
