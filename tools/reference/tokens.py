"""The tokens of woven code, each with what it spells and where it begins."""
import datetime, re
from fractions import Fraction
from typing import NamedTuple, Optional

MOST = 2**63 - 1
KEYWORDS = frozenset('''
declaration scope structure enumeration data content input output internal context condition definition rule
equals consequence fulfilled not assertion label exception of if then else match with anything and or xor true
false boolean integer decimal money date duration year month day increasing decreasing among exists sum to in
initially contains get_year get_month get_day
'''.split())
PAIRS = ('under condition', 'depends on', 'list of', 'for all', 'we have', 'such that', 'number of', 'map each',
         'combine all', 'with pattern', 'date round', 'round of', 'output of')
PAIR = re.compile('|'.join(r'%s[ \t\r\n]+%s' % tuple(pair.split()) for pair in PAIRS))
SYMBOL = re.compile(r'--|!=|<=|>=|[:.,;()\[\]{}+\-*/=<>]')
NUMBER = re.compile(r'([0-9]+)(?:\.([0-9]+))?(?:([ \t]*%))?')
MONEY = re.compile(r'\$([0-9]+(?:,[0-9]{3})*)(?:\.([0-9]{1,2}))?')
DATE = re.compile(r'\|([0-9]{4})-([0-9]{2})-([0-9]{2})\|')


class Pos(NamedTuple):
    file: int
    line: int
    column: int


class Token(NamedTuple):
    """`kind` is 'U', 'w', 'INT', 'DEC', 'MONEY' or 'DATE', and else the word or symbol itself; it ends in front of `end`."""
    kind: str
    value: object
    pos: Pos
    end: Optional[Pos] = None


class Fault(tuple):
    """A pair of a code and a position; `told` is what else is known of it, for whom an explanation helps."""

    def __new__(cls, code, pos, **told):
        made = super().__new__(cls, (code, pos))
        made.told = told
        return made


class Refused(Exception):
    """A source is refused: each pair of a code and a position may be told; without any, where is not known here."""

    def __init__(self, faults):
        super().__init__(faults)
        self.faults = faults


def within(condition, value, pos):
    if not condition:
        raise Refused([Fault('E5', pos)])
    return value


def number(found, pos):
    whole, places, percent = found.groups()
    if percent:
        places = places or ''
        value = Fraction(int(whole + places), 100 * 10**len(places))
        return Token('DEC', within(len(whole) <= 9 and len(places) <= 7, value, pos), pos)
    if places:
        value = Fraction(int(whole + places), 10**len(places))
        return Token('DEC', within(len(whole) <= 9 and len(places) <= 9, value, pos), pos)
    return Token('INT', within(int(whole) <= MOST, int(whole), pos), pos)


def money(found, pos):
    cents = 100 * int(found[1].replace(',', '')) + int((found[2] or '').ljust(2, '0'))
    return Token('MONEY', within(cents <= MOST, cents, pos), pos)


def date(found, pos):
    try:
        return Token('DATE', datetime.date(*map(int, found.groups())), pos)
    except ValueError:
        raise Refused([Fault('E5', pos)])


def goes_on(text, at):
    """Whether a word goes on there."""
    return at < len(text) and ('_' + text[at]).isidentifier()


def name_end(text, at):
    end = at + 1
    while goes_on(text, end):
        end += 1
    return end


def token_at(text, at, pos):
    """The token that begins there, and where it ends."""
    for form, make in ((NUMBER, number), (MONEY, money), (DATE, date)):
        if found := form.match(text, at):
            return make(found, pos), found.end()
    if (found := PAIR.match(text, at)) and not goes_on(text, found.end()):
        return Token(' '.join(found[0].split()), None, pos), found.end()
    if 'A' <= text[at] <= 'Z' or text[at].isidentifier() and text[at] != '_':
        word = text[at:name_end(text, at)]
        kind = 'U' if 'A' <= word[0] <= 'Z' else word if word in KEYWORDS else 'w'
        return Token(kind, word, pos), at + len(word)
    if found := SYMBOL.match(text, at):
        return Token(found[0], None, pos), found.end()
    raise Refused([Fault('E4', pos, text=text[at:].split('\n')[0])])


def passed(text, at):
    """Where to go on behind what is no token: at the end of a literal, or of one character."""
    found = NUMBER.match(text, at) or MONEY.match(text, at) or DATE.match(text, at)
    return found.end() if found else at + 1


def taken(text, at, pos, faults):
    """The token that begins there, and where to go on; none where that is told among the faults, which are passed over."""
    try:
        return token_at(text, at, pos)
    except Refused as refused:
        if faults is None:
            raise
        faults += refused.faults
        return None, passed(text, at)


def tokens_in(text, file, line, faults):
    at, start = 0, 0
    while at < len(text):
        pos = Pos(file, line, len(text[start:at].encode()) + 1)
        if text[at] == '\n':
            line, start = line + 1, at + 1
        if text[at] in ' \t\r\n':
            at += 1
        elif text[at] == '#' and text[at + 1:at + 2] != '[':
            at = text.find('\n', at) if '\n' in text[at:] else len(text)
        else:
            token, end = taken(text, at, pos, faults)
            line, start = line + text.count('\n', at, end), max(start, text.rfind('\n', at, end) + 1)
            at = end
            if token:
                yield token._replace(end=Pos(file, line, len(text[start:at].encode()) + 1))


def tokens_of(pieces, faults=None):
    """The tokens of some pieces of code, each a text with the file and the line at which it begins. Where a list of faults is given,
    what is no token is told there and passed over."""
    return [token for piece in pieces for token in tokens_in(*piece, faults)]
