"""What a program gives on an input: its outputs, a conflict, no value or a fault."""
import calendar, datetime
from fractions import Fraction

from .tokens import MOST


class Stop(Exception):
    """How a run ends without outputs: 'conflict', 'no value' or 'fault', with what it names."""


class Fault(Exception):
    """What goes wrong in an operation, without where."""


def fitting(n):
    n = Fraction(n)
    if abs(n.numerator) > MOST or n.denominator > MOST:
        raise Fault('Overflow')
    return n


def whole(n):
    return int(fitting(n))


def nearest(q):
    """The nearest whole number, a half away from zero."""
    n = (2 * abs(q.numerator) + q.denominator) // (2 * q.denominator)
    return n if q >= 0 else -n


def moved(day, span, rounding):
    year, month = divmod(12 * day.year + day.month - 1 + span[0], 12)
    if not 1 <= year <= 9999:
        raise Fault('Overflow')
    last = calendar.monthrange(year, month + 1)[1]
    more = span[1]
    if day.day > last and rounding is None:
        raise Fault('AmbiguousDate')
    try:
        start = datetime.date(year, month + 1, min(day.day, last))
        up = 1 if day.day > last and rounding == 'increasing' else 0
        return start + datetime.timedelta(days=up) + datetime.timedelta(days=more)
    except OverflowError:
        raise Fault('Overflow')


def negated(span):
    return -span[0], -span[1]


def spans(parts):
    return tuple(whole(part) for part in parts)


def order(kind, a, b):
    """Less than zero, zero or more, as a stands to b."""
    if kind == 'duration':
        if a[1] == b[1] == 0:
            a, b = a[0], b[0]
        elif a[0] == b[0] == 0:
            a, b = a[1], b[1]
        else:
            raise Fault('Uncomparable')
    return (a > b) - (a < b)


ORDERS = {'<': lambda o: o < 0, '<=': lambda o: o <= 0, '>': lambda o: o > 0, '>=': lambda o: o >= 0,
          '=': lambda o: o == 0, '!=': lambda o: o != 0}


def binary(row, a, b, rounding):
    operator, left, right = row
    if operator in ORDERS:
        return ORDERS[operator](order(left, a, b))
    if operator == 'xor':
        return a != b
    if left == 'date':
        if right == 'date':
            return 0, (a - b).days
        return moved(a, b if operator == '+' else negated(b), rounding)
    if left == 'duration':
        if operator == '*':
            return spans((a[0] * b, a[1] * b))
        other = b if operator == '+' else negated(b)
        return spans((a[0] + other[0], a[1] + other[1]))
    if operator == '/':
        if b == 0:
            raise Fault('DivisionByZero')
        q = Fraction(a) / Fraction(b)
        return whole(nearest(q)) if left == 'money' and right != 'money' else fitting(q)
    exact = {'+': lambda: a + b, '-': lambda: a - b, '*': lambda: Fraction(a) * Fraction(b)}[operator]()
    if 'money' in (left, right):
        return whole(nearest(Fraction(exact)))
    return whole(exact) if left == 'integer' else fitting(exact)


def prefix(row, a):
    word, kind = row
    if word == '-':
        return negated(a) if kind == 'duration' else -a
    return {'not': lambda: not a, 'integer': lambda: int(a),
            'decimal': lambda: Fraction(a, 100) if kind == 'money' else Fraction(a),
            'money': lambda: whole(nearest(Fraction(a) * 100)),
            'round of': lambda: 100 * nearest(Fraction(a, 100)) if kind == 'money' else Fraction(nearest(a)),
            'get_year': lambda: a.year, 'get_month': lambda: a.month, 'get_day': lambda: a.day}[word]()


class Runs:
    """The scopes of a program, with the types that they are declared over."""

    def __init__(self, types, scopes, forests):
        self.types, self.scopes, self.forests = types, scopes, forests
        self.numbers = {scope.name: n for n, scope in reversed(list(enumerate(scopes)))}

    def outputs(self, number, given):
        """The outputs of a scope, in order of declaration; `given` has for each item a value or None."""
        return Run(self, number, given).outputs()

    def decided(self, number, target, definition):
        """Told of each judging that ends, but for those of functions; the definition is None where none holds."""


class Run:
    """One run of one scope."""

    def __init__(self, runs, number, given):
        self.runs, self.number, self.given = runs, number, given
        self.scope, self.forest = runs.scopes[number], runs.forests[number]
        self.values = {}

    def outputs(self):
        for n in self.scope.order:
            self.item(n, self.scope.items[n])
        for condition, pos in self.scope.assertions:
            if not self.value(condition, []):
                raise Stop('fault', 'AssertionFailed', pos)
        return [self.values[n] for n, i in enumerate(self.scope.items) if i.kind.endswith('output')]

    def item(self, n, item):
        if item.kind == 'called':
            self.values[n] = self.called(n, item)
        elif item.kind.startswith('input') or self.given[n] is not None:
            self.values[n] = self.given[n]
        elif not item.params:
            self.values[n] = self.judged((n, None), [], item, item.pos)

    def judged(self, target, args, item, pos, may_be_empty=False):
        found = self.target(target, args)
        if not item.params:
            self.runs.decided(self.number, target, found and found[0])
        if found is not None:
            return found[1]
        if item.condition and not may_be_empty:
            return False
        if may_be_empty:
            return None
        raise Stop('no value', target, self.number, pos)

    def called(self, n, item):
        items = self.runs.scopes[item.called].items
        given = [None] * len(items)
        for k, inner in enumerate(items):
            if inner.kind.split()[0] in ('input', 'context'):
                given[k] = self.judged((n, k), [], inner, item.pos, inner.kind.startswith('context'))
        return self.runs.outputs(item.called, given)

    # ---- judging

    def target(self, target, args):
        """The definition that holds with its value, or None; more than one is a conflict."""
        if target not in self.forest:
            return None
        groups, roots = self.forest[target]
        return self.one(target, [lambda g=g: self.group(target, groups, g, args) for g in roots])

    def one(self, target, members):
        held = [found for found in (member() for member in members) if found is not None]
        if len(held) > 1:
            positions = [self.scope.definitions[n].pos for n in sorted(n for n, _ in held)]
            raise Stop('conflict', target, self.number, positions)
        return held[0] if held else None

    def group(self, target, groups, g, args):
        own, above = groups[g]
        found = self.one(target, [lambda e=e: self.group(target, groups, e, args) for e in above])
        return found if found is not None else self.one(target, [lambda n=n: self.definition(n, args) for n in own])

    def definition(self, n, args):
        d = self.scope.definitions[n]
        if d.condition is not None and not self.value(d.condition, args):
            return None
        return n, self.value(d.body, args)

    # ---- expressions

    def value(self, expr, bound):
        return getattr(self, expr[0].replace(' ', '_') + '_value')(bound, *expr[1:])

    def at(self, pos, operation):
        try:
            return operation()
        except Fault as fault:
            raise Stop('fault', str(fault), pos)

    def literal_value(self, bound, pos, kind, value):
        return value

    def item_value(self, bound, pos, n):
        return self.values[n]

    def local_value(self, bound, pos, k):
        return bound[k]

    def output_value(self, bound, pos, n, k):
        return self.values[n][k]

    def field_value(self, bound, pos, base, k):
        return self.value(base, bound)[k]

    def case_value(self, bound, pos, case, content):
        return case[1], None if content is None else self.value(content, bound)

    def test_value(self, bound, pos, part, case):
        return self.value(part, bound)[0] == case[1]

    def structure_value(self, bound, pos, number, fields):
        values = dict((k, self.value(e, bound)) for k, e in fields)
        return [values[k] for k in sorted(values)]

    def list_value(self, bound, pos, parts):
        return [self.value(part, bound) for part in parts]

    def binary_value(self, bound, first, pos, row, left, right):
        a = self.value(left, bound)
        if row[0] == 'and':
            return a and self.value(right, bound)
        if row[0] == 'or':
            return a or self.value(right, bound)
        b = self.value(right, bound)
        return self.at(pos, lambda: binary(row, a, b, self.scope.rounding))

    def prefix_value(self, bound, pos, row, part):
        a = self.value(part, bound)
        return self.at(pos, lambda: prefix(row, a))

    def number_of_value(self, bound, pos, part):
        return len(self.value(part, bound))

    def sum_value(self, bound, pos, kind, part):
        total = (0, 0) if kind == 'duration' else Fraction(0) if kind == 'decimal' else 0
        for element in self.value(part, bound):
            total = self.at(pos, lambda: binary(('+', kind, kind), total, element, None))
        return total

    def contains_value(self, bound, first, pos, over, part):
        elements, wanted = self.value(over, bound), self.value(part, bound)
        kind = 'duration' if isinstance(wanted, tuple) else None
        return any(self.at(pos, lambda: order(kind, element, wanted)) == 0 for element in elements)

    def call_value(self, bound, pos, n, args):
        values = [self.value(arg, bound) for arg in args]
        item = self.scope.items[n]
        return self.judged((n, None), values, item, item.pos)

    def scope_call_value(self, bound, pos, number, fields, k):
        items = self.runs.scopes[number].items
        given = [False if i.kind.startswith('input') and i.condition else None for i in items]
        for n, e in fields:
            given[n] = self.value(e, bound)
        return self.runs.outputs(number, given)[k]

    def if_value(self, bound, pos, test, yes, no):
        return self.value(yes if self.value(test, bound) else no, bound)

    def match_value(self, bound, pos, subject, arms):
        k, content = self.value(subject, bound)
        for case, body in arms:
            if case is None or case[0] == k:
                return self.value(body, bound + [content] if case and case[1] else bound)

    def for_all_value(self, bound, pos, over, body):
        return all(self.value(body, bound + [element]) for element in self.value(over, bound))

    def exists_value(self, bound, pos, over, body):
        return any(self.value(body, bound + [element]) for element in self.value(over, bound))

    def map_each_value(self, bound, pos, over, body):
        return [self.value(body, bound + [element]) for element in self.value(over, bound)]

    def list_of_value(self, bound, pos, over, body):
        return [element for element in self.value(over, bound) if self.value(body, bound + [element])]

    def combine_value(self, bound, pos, over, start, body):
        elements, total = self.value(over, bound), self.value(start, bound)
        for element in elements:
            total = self.value(body, bound + [element, total])
        return total
