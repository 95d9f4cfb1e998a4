"""The leave that is due for a calendar year, from the text of the law, which says nothing of less than half a day."""
import json, sys
from fractions import Fraction

given = json.load(sys.stdin)
due = Fraction(given['days_of_a_year'])
if not given['six_months_are_over'] or given['ends_in_first_half']:
    due = due * given['full_months'] / 12
whole = int(due)
left = due - whole
if left == 0 or left >= Fraction(1, 2):
    print('{"days":%d}' % (whole + (left > 0)))
else:
    print('no value Rounding.days')
