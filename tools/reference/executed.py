"""What `exec` writes: a listing is read and verified, and then its code is run."""
from .images import Refused
from .machine import Code
from .verifier import verified


def refusals(data):
    """The lines of which each may refuse a listing; none where it is accepted."""
    try:
        verified(data)
    except Refused as refused:
        code, places = refused.args
        of = '' if code == 'L2' else ' at line %d' if code in ('L1', 'V1') else ' at instruction %d'
        return {'listing refused %s%s' % (code, of % place if of else '') for place in places or {None}}
    return set()


def executed(data, scope, given):
    """The replies of which any may be given to a listing and an input, whose bytes are asked for where it is run."""
    found = refusals(data)
    if found:
        return found
    code = Code(data.decode())
    return {code.run(scope, given() if any(s.name == scope for s in code.listing.scopes) else b'')[0]}
