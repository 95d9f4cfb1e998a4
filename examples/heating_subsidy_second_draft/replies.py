"""What the second draft says of a household: the last section that applies and says that it holds notwithstanding the ones in
front of it, else the section of the income, of which there is none at one income."""
from decimal import Decimal
import json, sys


def subsidy(income, age_of_youngest, heating):
    if heating == 'DistrictHeating':
        return 100
    if age_of_youngest < 3:
        return 400
    return 300 if income < 20000 else None if income == 20000 else 150 if income <= 30000 else 0


given = json.load(sys.stdin)
amount = subsidy(Decimal(str(given['income'])), given['age_of_youngest'], given['heating'])
print('no value HeatingSubsidy.subsidy' if amount is None else '{"subsidy":"%d.00"}' % amount)
