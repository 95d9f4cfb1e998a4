"""What the draft says of a household, section by section: what the sections that apply give, that two contradict each other,
or that none says anything."""
from decimal import Decimal
import json, sys

given = json.load(sys.stdin)
income = Decimal(str(given['income']))
by_income = [amount for applies, amount in [(income < 20000, 300), (20000 < income <= 30000, 150), (income > 30000, 0)] if applies]
notwithstanding = [amount for applies, amount in [(given['age_of_youngest'] < 3, 400), (given['heating'] == 'DistrictHeating', 100)]
                   if applies]
amounts = notwithstanding or by_income
if len(amounts) > 1:
    print('conflict HeatingSubsidy.subsidy')
elif not amounts:
    print('no value HeatingSubsidy.subsidy')
else:
    print('{"subsidy":"%d.00"}' % amounts[0])
