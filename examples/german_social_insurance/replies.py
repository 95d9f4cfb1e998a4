"""What an employee bears, from the text of the law. Each contribution is taken to the nearest cent, a half up."""
from decimal import Decimal
from fractions import Fraction
import datetime, json, sys

day = datetime.date.fromisoformat
SAXONY, WEST = 'Saxony', 'West'


def completes(birth, years):
    """The last day of that year of life: the one before the birthday, and the last of February for those of a 29th."""
    try:
        return birth.replace(year=birth.year + years) - datetime.timedelta(1)
    except ValueError:
        return datetime.date(birth.year + years, 2, 28)


def contribution(wage, ceiling, percent):
    part = Fraction(min(wage, Decimal(ceiling))) * percent
    return Decimal((part + Fraction(1, 2)) // 1) / 100


def care_percent(given, month):
    births = [day(text) for text in given['births_of_children']]
    percent = 1 + Fraction('2.4') / 2 if given['workplace'] == SAXONY else Fraction('1.7')
    birth = day(given['birth'])
    if not births and birth.year >= 1940 and completes(birth, 23) < month:
        percent += Fraction('0.6')
    young = [b for b in births if completes(b, 25) >= month]
    return percent - Fraction('0.25') * len(young[1:5])


def reply(given):
    month, wage = day(given['first_day_of_month']), Decimal(str(given['wage']))
    if wage <= 2000:
        return 'fault AssertionFailed'
    ceiling = 7550 if given['workplace'] == WEST else 7450
    additional = 100 * Fraction(given.get('additional_rate', '0.017'))
    pension = contribution(wage, ceiling, Fraction('9.3'))
    unemployment = contribution(wage, ceiling, Fraction('1.3'))
    health = contribution(wage, 5175, Fraction('7.3')) + contribution(wage, 5175, additional / 2)
    care = contribution(wage, 5175, care_percent(given, month))
    return '{"borne":"%.2f","care":"%.2f","health":"%.2f","pension":"%.2f","unemployment":"%.2f"}' % (
        pension + unemployment + health + care, care, health, pension, unemployment)


print(reply(json.load(sys.stdin)))
