"""What a family pays: the last section that applies, since each that says that it holds notwithstanding others names those in front of
it, and sections 4 and 5 never apply together."""
from decimal import Decimal
import json, sys


def fee(hours, children, income):
    if income > 30000:
        return 240
    if children >= 2 and income <= 30000:
        return 0
    if children >= 4:
        return 40
    return 120 if hours <= 25 else 180


given = json.load(sys.stdin)
print('{"fee":"%d.00"}' % fee(given['hours'], given['children'], Decimal(str(given['income']))))
