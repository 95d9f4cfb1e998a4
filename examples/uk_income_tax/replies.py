"""What the tax is, from the text of the allowance and the rates. Each charge is taken to the nearest penny, a half up."""
from decimal import Decimal, ROUND_CEILING, ROUND_HALF_UP
import json, sys

PENNY = Decimal('0.01')


def allowance(income):
    if income <= 100000:
        return Decimal(12570)
    left = 12570 - (income - 100000) / 2
    return max(Decimal(0), left.to_integral_value(ROUND_CEILING))


def penny(amount):
    return amount.quantize(PENNY, ROUND_HALF_UP)


def reply(given):
    income = Decimal(str(given['net_income']))
    free = allowance(income)
    taxable = max(Decimal(0), income - free)
    above = lambda limit: max(Decimal(0), taxable - limit)
    tax = penny(taxable * 20 / 100) + penny(above(37700) * 20 / 100) + penny(above(125140) * 5 / 100)
    return '{"allowance":"%.2f","tax":"%.2f","taxable":"%.2f"}' % (free, tax, taxable)


print(reply(json.load(sys.stdin)))
