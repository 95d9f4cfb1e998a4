"""The jump code of expressions: each form by its parts, laid behind what stands in front."""
import datetime
from fractions import Fraction

from .expressions import BINARY as GIVEN_BETWEEN, PREFIX as GIVEN_BEFORE
from .machine import BINARY, ORDERED, ROUNDINGS, UNARY

ZERO = {'integer': 0, 'decimal': Fraction(0), 'money': 0, 'duration': (0, 0)}
LEAST = {**ZERO, 'boolean': False, 'date': datetime.date(1, 1, 1)}
NUMBERS = {row: number for number, row in {**BINARY, **UNARY, **ORDERED}.items()}
EQUAL = NUMBERS['=']


def number_of(row):
    """The number of an operator between operands."""
    return 29 if row[0] == 'xor' else NUMBERS.get(row[0]) or NUMBERS[row]


class Laid:
    """Instructions, with the entries of their own that they name. A jump is put with no place, and filled in later."""

    def __init__(self):
        self.code, self.constants, self.positions, self.targets = [], [], [], []

    def put(self, name, *numbers):
        self.code.append([name, *numbers])
        return len(self.code) - 1

    def filled(self, *jumps):
        """The jumps go to the next instruction."""
        for jump in jumps:
            self.code[jump][-1] = len(self.code)

    def constant(self, t, value, name='const'):
        self.constants.append([t, value])
        self.put(name, len(self.constants) - 1)
        return t

    def positioned(self, name, *numbers):
        *numbers, pos = numbers
        self.positions.append(pos)
        self.put(name, *numbers, len(self.positions) - 1)

    def over(self, jump, part):
        """A part, and a jump over it in front."""
        out = self.put(*jump, None)
        part()
        self.filled(out)

    def branch(self, jump, one, other):
        """Two sides: a jump to the second one, and behind the first one a jump over the second."""
        to_other = self.put(jump, None)
        one()
        out = self.put('jump', None)
        self.filled(to_other)
        other()
        self.filled(out)

    def loop(self, body):
        start = self.put('next', None)
        body()
        self.put('jump', start)
        self.filled(start)

    def search(self, ends_on, test):
        """A loop that the first element ends for which a test gives that truth value, which is pushed then."""
        start = self.put('next', None)
        test()
        if ends_on:
            self.over(['jumpfalse'], lambda: self.found(True))
            self.put('jump', start)
        else:
            self.over(['jumpfalse'], lambda: self.put('jump', start))
            self.found(False)
        self.filled(start)
        self.constant('boolean', not ends_on)
        self.filled(self.out)

    def found(self, ends_on):
        self.put('leave')
        self.constant('boolean', ends_on)
        self.out = self.put('jump', None)


class Expressions(Laid):
    """Expressions of a scope: their code pushes the value. The types of local names are those that are bound so far."""

    def __init__(self, types, scopes):
        super().__init__()
        self.types, self.scopes = types, scopes
        self.case_starts = starts(types.enumerations, lambda e: len(e.parts))
        self.function_starts = starts(scopes, lambda s: sum(map(is_function, s.items)))
        self.number = self.scope = self.items = None

    def push(self, expr, bound, expected=None):
        """Lays the code of an expression, and gives its type."""
        return getattr(self, expr[0].replace(' ', '_') + '_code')(bound, expected, *expr[1:])

    def case_number(self, case):
        return self.case_starts[case[0]] + case[1]

    def content_type(self, case):
        return self.types.enumerations[case[0]].parts[case[1]][1]

    def outputs(self, scope):
        return [i for i in self.scopes[scope].items if i.kind.endswith('output')]

    def least(self, t):
        """The default of a type."""
        if t in LEAST:
            return LEAST[t]
        if t[0] == 'list':
            return []
        if t[0] == 'structure':
            return [self.least(field) for _, field in self.types.structures[t[1]].parts]
        content = self.content_type((t[1], 0))
        return 0, content and self.least(content)

    # ---- names and literals

    def literal_code(self, bound, expected, pos, kind, value):
        return self.constant(kind, value)

    def item_code(self, bound, expected, pos, n):
        self.put('slot', n)
        return self.items[n].type

    def local_code(self, bound, expected, pos, k):
        self.put('local', k)
        return bound[k]

    def output_code(self, bound, expected, pos, n, k):
        self.put('slot', n)
        self.put('field', k)
        return self.outputs(self.items[n].called)[k].type

    def field_code(self, bound, expected, pos, base, k):
        t = self.push(base, bound)
        self.put('field', k)
        return self.types.structures[t[1]].parts[k][1]

    # ---- operators

    def prefix_code(self, bound, expected, pos, row, part):
        self.push(part, bound)
        self.positioned('op', NUMBERS[row], 0, pos)
        return GIVEN_BEFORE[row]

    def binary_code(self, bound, expected, first, pos, row, left, right):
        self.push(left, bound)
        if row[0] == 'and':
            self.branch('jumpfalse', lambda: self.push(right, bound), lambda: self.constant('boolean', False))
        elif row[0] == 'or':
            self.branch('jumpfalse', lambda: self.constant('boolean', True), lambda: self.push(right, bound))
        else:
            self.push(right, bound)
            self.positioned('op', number_of(row), ROUNDINGS.index(self.scope.rounding), pos)
        return GIVEN_BETWEEN[row]

    def number_of_code(self, bound, expected, pos, part):
        self.push(part, bound)
        self.put('length')
        return 'integer'

    def if_code(self, bound, expected, pos, test, yes, no):
        given = []
        self.push(test, bound)
        self.branch('jumpfalse', lambda: given.append(self.push(yes, bound, expected)), lambda: self.push(no, bound, given[0]))
        return given[0]

    # ---- cases and structures

    def case_code(self, bound, expected, pos, case, content):
        if content is not None:
            self.push(content, bound, self.content_type(case))
        self.put('tagnone' if content is None else 'tag', self.case_number(case))
        return 'enumeration', case[0]

    def test_code(self, bound, expected, pos, part, case):
        self.push(part, bound)
        self.put('iscase', self.case_number(case))
        return 'boolean'

    def match_code(self, bound, expected, pos, subject, arms):
        """The value that is matched is the last local name, until an arm takes it off."""
        enumeration, t, ends = self.push(subject, bound)[1], expected, []
        self.put('bind')
        for case, body in arms:
            if case is None:
                t = self.arm(bound, None, False, body, t)
                break
            self.put('local', len(bound))
            self.put('iscase', self.case_number((enumeration, case[0])))
            to_next = self.put('jumpfalse', None)
            t = self.arm(bound, (enumeration, case[0]), case[1], body, t)
            ends.append(self.put('jump', None))
            self.filled(to_next)
        else:
            self.constant(t, self.least(t))
            self.put('drop', 1)
        self.filled(*ends)
        return t

    def arm(self, bound, case, binds, body, expected):
        if not binds:
            self.put('drop', 1)
            return self.push(body, bound, expected)
        self.put('local', len(bound))
        self.put('content')
        self.put('drop', 1)
        self.put('bind')
        t = self.push(body, bound + [self.content_type(case)], expected)
        self.put('drop', 1)
        return t

    def structure_code(self, bound, expected, pos, number, fields):
        written = [k for k, _ in fields]
        for k, part in fields:
            self.push(part, bound, self.types.structures[number].parts[k][1])
        if written != sorted(written):
            for _ in fields:
                self.put('bind')
            for k in range(len(fields)):
                self.put('local', len(bound) + written[::-1].index(k))
            self.put('drop', len(fields))
        self.put('pack', len(fields))
        return 'structure', number

    # ---- lists

    def list_code(self, bound, expected, pos, parts):
        if not parts:
            return self.constant(expected, [])
        t = expected and expected[1]
        for part in parts:
            t = self.push(part, bound, t)
        self.put('list', len(parts))
        return 'list', t

    def of_element(self, test):
        """A test of the element that `next` pushed."""
        self.put('bind')
        test()
        self.put('drop', 1)

    def quantified(self, bound, over, body, ends_on):
        element = self.push(over, bound)[1]
        self.put('iter')
        self.search(ends_on, lambda: self.of_element(lambda: self.push(body, bound + [element])))
        return 'boolean'

    def for_all_code(self, bound, expected, pos, over, body):
        return self.quantified(bound, over, body, False)

    def exists_code(self, bound, expected, pos, over, body):
        return self.quantified(bound, over, body, True)

    def contains_code(self, bound, expected, first, pos, over, part):
        self.push(over, bound)
        self.push(part, bound)
        self.put('bind')
        self.put('iter')
        self.search(True, lambda: (self.put('local', len(bound)), self.positioned('op', EQUAL, 0, pos)))
        self.put('drop', 1)
        return 'boolean'

    def map_each_code(self, bound, expected, pos, over, body):
        element, given = self.push(over, bound)[1], []
        self.constant(None, [], 'iterlist')
        collected = self.constants[-1]
        self.loop(lambda: self.of_element(lambda: (given.append(self.push(body, bound + [element])), self.put('collect'))))
        collected[0] = ('list', given[0])
        return collected[0]

    def list_of_code(self, bound, expected, pos, over, body):
        t = self.push(over, bound)
        self.constant(t, [], 'iterlist')
        keep = lambda: (self.put('local', len(bound)), self.put('collect'))
        kept = lambda: (self.push(body, bound + [t[1]]), self.over(['jumpfalse'], keep))
        self.loop(lambda: self.of_element(kept))
        return t

    def combine_code(self, bound, expected, pos, over, start, body):
        element, t = self.push(over, bound)[1], self.push(start, bound)
        for _ in range(2):
            self.put('bind')
        self.put('local', len(bound))
        self.put('local', len(bound) + 1)
        self.put('drop', 2)
        self.put('iter')
        self.loop(lambda: (self.put('bind'), self.put('bind'), self.push(body, bound + [element, t], t), self.put('drop', 2)))
        return t

    def sum_code(self, bound, expected, pos, kind, part):
        self.constant(kind, ZERO[kind])
        self.push(part, bound)
        self.put('iter')
        self.loop(lambda: self.positioned('op', NUMBERS[('+', kind, kind)], 0, pos))
        return kind

    # ---- calls

    def call_code(self, bound, expected, pos, n, args):
        for part, t in zip(args, self.items[n].params):
            self.push(part, bound, t)
        self.put('call', self.function_starts[self.number] + sum(map(is_function, self.items[:n])), len(args))
        return self.items[n].type

    def scope_call_code(self, bound, expected, pos, number, fields, k):
        items, given = self.scopes[number].items, [n for n, _ in fields]
        self.put('scope', number)
        for n, part in fields:
            self.push(part, bound, items[n].type)
            self.put('pass', n)
        for n, item in enumerate(items):
            if item.kind.startswith('input') and item.condition and n not in given:
                self.constant('boolean', False)
                self.put('pass', n)
        self.put('enter')
        self.put('field', k)
        return self.outputs(number)[k].type


def is_function(item):
    return bool(item.params)


def starts(things, count):
    """For each thing how many parts stand in front of its own."""
    found, before = [], 0
    for thing in things:
        found.append(before)
        before += count(thing)
    return found
