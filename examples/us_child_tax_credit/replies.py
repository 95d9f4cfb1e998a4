"""What the credit is, from the text of the law."""
from decimal import Decimal, ROUND_CEILING
import json, sys


def is_under_17(birth):
    """Whether the seventeenth birthday falls behind the last day of 2024."""
    return int(birth[:4]) + 17 > 2024


given = json.load(sys.stdin)
full = sum(2000 if d['is_qualifying_child'] and is_under_17(d['birth']) else 500 for d in given['dependents'])
threshold = 400000 if given['is_joint_return'] else 200000
over = max(Decimal(0), Decimal(str(given['modified_income'])) - threshold) / 1000
print('{"credit":"%.2f"}' % max(0, full - 50 * int(over.to_integral_value(ROUND_CEILING))))
