"""What the tax is, from the rate schedules as the law prints them: each bracket taxed at its own rate."""
from decimal import Decimal
import json, sys

SCHEDULES = {
    'Single': [(11600, 10), (47150, 12), (100525, 22), (191950, 24), (243725, 32), (609350, 35), (None, 37)],
    'MarriedFilingJointly': [(23200, 10), (94300, 12), (201050, 22), (383900, 24), (487450, 32), (731200, 35), (None, 37)],
    'HeadOfHousehold': [(16550, 10), (63100, 12), (100500, 22), (191950, 24), (243700, 32), (609350, 35), (None, 37)],
}
DEDUCTIONS = {'Single': 14600, 'MarriedFilingJointly': 29200, 'HeadOfHousehold': 21900}


def reply(given):
    status = given['status']
    taxable = max(Decimal(0), Decimal(str(given['adjusted_gross_income'])) - DEDUCTIONS[status])
    tax, below = Decimal(0), Decimal(0)
    for top, rate in SCHEDULES[status]:
        top = taxable if top is None else min(taxable, Decimal(top))
        tax += max(Decimal(0), top - below) * rate / 100
        below = top
    return '{"tax":"%.2f","taxable_income":"%.2f"}' % (tax, taxable)


print(reply(json.load(sys.stdin)))
