"""Regions by intervals and sets: what narrowings leave of each dimension, what is decided of a cut, and the point."""
import datetime
from fractions import Fraction

M = 2**63 - 1
EPOCH = datetime.date(1970, 1, 1)
FIRST = (datetime.date.min - EPOCH).days
LAST = (datetime.date.max - EPOCH).days
SIDES = {'yes': True, 'no': False}


class Unreadable(Exception):
    pass


class Span:
    """The numbers between two ends, of which each may be open; an end that no narrowing made is None."""

    def __init__(self, kind):
        self.kind = kind
        self.low, self.high = {'day': (FIRST, LAST)}.get(kind, (-M, M))
        self.low_closed = self.high_closed = True
        self.bounded_below = self.bounded_above = False

    def narrow(self, question, bound, side):
        if side:
            closed = question == 'at_most'
            if bound < self.high or (bound == self.high and not closed):
                self.high, self.high_closed = bound, closed and (bound != self.high or self.high_closed)
            if not self.bounded_above or bound <= self.upper:
                self.upper, self.bounded_above = bound, True
        else:
            closed = question == 'below'
            if bound > self.low or (bound == self.low and not closed):
                self.low, self.low_closed = bound, closed and (bound != self.low or self.low_closed)
            if not self.bounded_below or bound >= self.lower:
                self.lower, self.bounded_below = bound, True

    def ends(self):
        """The least and the greatest whole number."""
        return (self.low if self.low_closed else self.low + 1), (self.high if self.high_closed else self.high - 1)

    def empty(self):
        if self.kind == 'decimal':
            return self.low > self.high or (self.low == self.high and not (self.low_closed and self.high_closed))
        low, high = self.ends()
        return low > high

    def decided(self, question, bound):
        if self.kind == 'decimal':
            low, high = (self.low, not self.low_closed), (self.high, not self.high_closed)
        else:
            low, high = ((end, False) for end in self.ends())
        all_below = high[0] < bound or (high[0] == bound and (high[1] or question == 'at_most'))
        none_below = low[0] > bound or (low[0] == bound and (low[1] or question == 'below'))
        return True if all_below else False if none_below else None

    def has(self, value):
        above = value > self.low or (value == self.low and self.low_closed)
        return above and (value < self.high or (value == self.high and self.high_closed))

    def point(self):
        default = FIRST if self.kind == 'day' else 0
        if self.has(default):
            return default
        if self.kind != 'decimal':
            low, high = self.ends()
            return low if low > default else high
        if self.bounded_below and self.has(self.lower):
            return self.lower
        if self.bounded_above and self.has(self.upper):
            return self.upper
        if self.bounded_below and self.bounded_above:
            return (self.lower + self.upper) / 2
        return self.lower + 1 if self.bounded_below else self.upper - 1


class Choice:
    """Some of the truth values or cases, by number."""

    def __init__(self, kind, count):
        self.kind, self.left = kind, set(range(count))

    def holds(self, question, bound):
        wanted = 1 if question == 'true' else bound
        return {value for value in self.left if (value == wanted)}

    def narrow(self, question, bound, side):
        self.left = self.holds(question, bound) if side else self.left - self.holds(question, bound)

    def empty(self):
        return not self.left

    def decided(self, question, bound):
        held = self.holds(question, bound)
        return True if held == self.left else False if not held else None

    def point(self):
        return min(self.left)


def scalar(kind, word):
    if kind == 'day':
        return (datetime.date.fromisoformat(word) - EPOCH).days
    return Fraction(word) if kind == 'decimal' else int(word)


def shown(kind, value):
    if kind == 'day':
        return (EPOCH + datetime.timedelta(days=value)).isoformat()
    return ('false', 'true')[value] if kind == 'truth' else str(value)


class Region:
    def __init__(self, words):
        self.room, self.kinds = int(words.pop(0)), []
        while (kind := words.pop(0)) != '|':
            self.kinds.append((kind, int(words.pop(0)) if kind == 'cases' else 2))
        if any(kind == 'cases' and count > 128 for kind, count in self.kinds):
            raise Unreadable
        self.made = []

    def cut(self, words):
        dim, question = int(words.pop(0)), words.pop(0)
        if dim >= len(self.kinds):
            raise Unreadable
        kind = self.kinds[dim][0]
        fitting = {'true': kind == 'truth', 'case': kind == 'cases'}.get(question, kind not in ('truth', 'cases'))
        if not fitting:
            raise Unreadable
        bound = None if question == 'true' else int(words.pop(0)) if question == 'case' else scalar(kind, words.pop(0))
        if kind == 'decimal' and (10**9 % bound.denominator or abs(bound) > 10**9):
            raise Unreadable
        return dim, question, bound

    def left(self):
        left = [Choice(kind, count) if kind in ('truth', 'cases') else Span(kind) for kind, count in self.kinds]
        for dim, question, bound, side in self.made:
            left[dim].narrow(question, bound, side)
        return left

    def empty(self):
        return any(part.empty() for part in self.left())

    def narrow(self, words):
        dim, question, bound = self.cut(words)
        if len(self.made) == self.room:
            raise Unreadable
        self.made.append((dim, question, bound, SIDES[words.pop(0)]))

    def restore(self, words):
        if not self.made:
            raise Unreadable
        self.made.pop()

    def ask(self, call, words):
        if call == 'decided':
            dim, question, bound = self.cut(words)
            known = None if self.empty() else self.left()[dim].decided(question, bound)
            return {True: 'yes', False: 'no', None: 'open'}[known]
        if call == 'point':
            dim = int(words.pop(0))
            if dim >= len(self.kinds) or self.empty():
                raise Unreadable
            return shown(self.kinds[dim][0], self.left()[dim].point())
        if call == 'last':
            return self.last()
        return {'empty': str(self.empty()).lower(), 'room': str(self.room - len(self.made))}[call]

    def last(self):
        if not self.made:
            return 'none'
        dim, question, bound, side = self.made[-1]
        kind = self.kinds[dim][0]
        bound = '' if bound is None else ' %s' % (bound if kind == 'cases' else shown(kind, bound))
        return '%d %s%s %s' % (dim, question, bound, 'yes' if side else 'no')


def region(text):
    words = text.split(' ')
    try:
        region, answers = Region(words), []
        while words:
            call = words.pop(0)
            if call in ('narrow', 'restore'):
                getattr(region, call)(words)
            else:
                answers.append(region.ask(call, words))
        return ', '.join(answers)
    except Unreadable:
        return 'unreadable'
