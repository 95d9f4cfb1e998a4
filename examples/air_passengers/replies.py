"""What a passenger of a cancelled flight receives, from the text of the regulation."""
import json, sys


def due(given, offer):
    if given['extraordinary'] or given['days_of_notice'] >= 14:
        return False
    if offer is None:
        return True
    before, behind = (120, 240) if given['days_of_notice'] >= 7 else (60, 120)
    return not (offer['leaves_earlier'] <= before and offer['arrives_later'] < behind)


def amount(given):
    if given['kilometres'] <= 1500:
        return 250, 120
    if given['area'] == 'WithinTheUnion' or given['kilometres'] <= 3500:
        return 400, 180
    return 600, 240


given = json.load(sys.stdin)
offer = None if given['offer'] == 'NoRerouting' else given['offer']['Offered']
full, late = amount(given)
paid = 0 if not due(given, offer) else full / 2 if offer is not None and offer['arrives_later'] <= late else full
print('{"compensation":"%.2f"}' % paid)
