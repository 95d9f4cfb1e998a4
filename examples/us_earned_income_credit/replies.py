"""What the credit is, from the text of the law. Each percentage is taken to the nearest cent, a half up."""
from decimal import Decimal, ROUND_HALF_UP
import json, sys

# By the number of qualifying children: credit percentage, earned income amount, phaseout percentage, phaseout amount.
ROWS = [('7.65', 8260, '7.65', 10330), ('34', 12390, '15.98', 22720), ('40', 17400, '21.06', 22720),
        ('45', 17400, '21.06', 22720)]


def part(percentage, amount):
    return (Decimal(percentage) * amount / 100).quantize(Decimal('0.01'), ROUND_HALF_UP)


def is_eligible(given):
    if given['qualifying_children'] > 0:
        return True
    ages = [given['age']] + [given['age_of_spouse']] * given['is_joint_return']
    return not given['is_dependent'] and any(age in range(25, 65) for age in ages)


def credit(given):
    earned, gross, disqualified = (Decimal(str(given[name])) for name in
                                   ('earned_income', 'adjusted_gross_income', 'disqualified_income'))
    if not is_eligible(given) or disqualified > 11600:
        return Decimal(0)
    credit_percentage, most, phaseout_percentage, phaseout = ROWS[min(3, max(0, given['qualifying_children']))]
    phaseout += 6920 * given['is_joint_return']
    excess = max(Decimal(0), max(gross, earned) - phaseout)
    limit = max(Decimal(0), part(credit_percentage, most) - part(phaseout_percentage, excess))
    return min(part(credit_percentage, min(earned, most)), limit)


given = json.load(sys.stdin)
print('{"credit":"%.2f","is_eligible":%s}' % (credit(given), json.dumps(is_eligible(given))))
