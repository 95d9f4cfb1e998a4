"""What the tax is, from the text of the law, in exact fractions up to the one rounding."""
from fractions import Fraction
import json, sys

LIMITS = [(11294, 0), (28797, 11), (82341, 30), (177106, 41), (None, 45)]


def of_a_part(quotient):
    tax, below = Fraction(0), Fraction(0)
    for top, rate in LIMITS:
        top = quotient if top is None else min(quotient, Fraction(top))
        tax += max(Fraction(0), top - below) * rate / 100
        below = top
    return tax


def schedule(income, parts):
    return parts * of_a_part(income / parts)


def tax(given):
    adults = Fraction(2 if given['household'] == 'Couple' else 1)
    halves = sum(1 if child < 2 else 2 for child in range(given['children']))
    income = Fraction(given['income'])
    alone, together = schedule(income, adults), schedule(income, adults + Fraction(halves, 2))
    due = max(together, alone - 1759 * halves)
    difference = max(Fraction(0), (1444 if adults == 2 else 873) - due * Fraction('45.25') / 100)
    whole = (max(Fraction(0), due - difference) + Fraction(1, 2)) // 1
    return whole if whole >= 61 else 0


given = json.load(sys.stdin)
is_taken = Fraction(given['income']).denominator == 1 and Fraction(given['income']) >= 0 and given['children'] >= 0
print('{"tax":"%d.00"}' % tax(given) if is_taken else 'fault AssertionFailed')
