"""The income tax from the text of the law, exactly; and what it becomes where each product is rounded to the cent."""
import json, sys
from fractions import Fraction as F


def cents(amount):
    """To the nearest cent, a half away from zero; no amount is below it here."""
    return F(int(amount * 100 + F(1, 2)), 100)


def tariff(x, product):
    """The tax of so many whole euros, its products made by that function, and rounded down."""
    y, z = F(x - 11784, 10000), F(x - 17005, 10000)
    if x <= 11784:
        tax = F(0)
    elif x <= 17005:
        tax = product((product(F('954.80') * y) + 1400) * y)
    elif x <= 66760:
        tax = product((product(F('181.19') * z) + 2397) * z) + F('991.21')
    elif x <= 277825:
        tax = F('0.42') * x - F('10636.31')
    else:
        tax = F('0.45') * x - F('18971.06')
    return int(tax)


given = json.load(sys.stdin)
times = 2 if given['is_joint'] else 1
x = int(F(given['taxable']) / times)
taxes = times * tariff(x, lambda exact: exact), times * tariff(x, cents)
print('{"tax":"%d.00","tax_by_amounts":"%d.00"}' % taxes)
