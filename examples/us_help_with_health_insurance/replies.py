"""Which help there is, and which part of an income is to be paid, from the text of the law; or where it says nothing or two things."""
import json, sys
from fractions import Fraction

# The last income of a tier in percent, and its first and last percentage; a tier begins where the one before it ends.
TIERS = ((133, '2.0', '2.0'), (150, '3.0', '4.0'), (200, '4.0', '6.3'), (250, '6.3', '8.05'), (300, '8.05', '9.5'))


def help_with(share, has_expanded):
    if has_expanded and share <= Fraction(138, 100):
        return 'Medicaid'
    return 'PremiumCredit' if 1 <= share <= 4 else 'NoHelp' if share > 4 else None


def percentages(share):
    """What each tier says that has the income."""
    begin = None
    for end, first, last in TIERS:
        if (begin is None or share >= Fraction(begin, 100)) and share <= Fraction(end, 100):
            part = (share * 100 - begin) / (end - begin) if begin else 0
            yield (Fraction(first) + (Fraction(last) - Fraction(first)) * part) / 100
        begin = end
    if share >= 3:
        yield Fraction('9.5') / 100


def written(number):
    """A decimal, or a fraction where it doesn't end within nine digits."""
    scaled = number * 10**9
    return '%s' % float(number) if scaled.denominator == 1 else str(number)


given = json.load(sys.stdin)
share = Fraction(given['share_of_poverty_line'])
found, told = help_with(share, given['state_has_expanded']), list(percentages(share))
if found is None:
    print('no value HelpWithInsurance.help')
elif len(told) > 1:
    print('conflict HelpWithInsurance.percentage')
else:
    print('{"help":"%s","percentage":"%s"}' % (found, written(told[0])))
