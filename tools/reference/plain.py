"""Plain scopes at random, and what an audit may say of them, by trying an input of each cell of what their conditions ask.

The inputs come of the constants with which a source was made: no table, tree or search has a part in them."""
import datetime
import itertools
import random
from fractions import Fraction

from .answers import Program
from .audit import Table
from .meaning import Stop

FINE, FOUND, UNSETTLED = 0, 6, 7
MOST_INPUTS = 400
DECLARED = '''declaration enumeration E:
  -- First
  -- Second content integer
  -- Third
declaration structure P:
  data amount content money
  data married content boolean
'''
CASES = ['First', 'Second', 'Third']
CONTENTS = [None, 0, None]
CONSTANTS = {'integer': [-5, 0, 10], 'money': [0, 1_000, 20_050], 'decimal': [Fraction(0), Fraction(1, 2), Fraction(2)],
             'date': [datetime.date(2000, 2, 29), datetime.date(2024, 1, 1), datetime.date(2024, 12, 31)]}
LITERALS = {'integer': '%d'.__mod__, 'money': lambda c: '$%d.%02d' % divmod(c, 100), 'decimal': lambda c: '%.1f' % c,
            'date': '|%s|'.__mod__}
STEPS = {'integer': 1, 'money': 1, 'decimal': Fraction(1, 8), 'date': datetime.timedelta(1)}
COMPARED = ['<', '<=', '>', '>=', '=', '!=']


class PlainScope:
    """A scope that asks of inputs alone and calls nothing, with the constants that it asks each of its inputs about."""

    def __init__(self, made):
        self.random = made
        kinds = ['integer', 'money', 'decimal', 'date', 'boolean', 'E', 'P']
        self.inputs = [('a%d' % n, made.choice(kinds)) for n in range(made.choice([1, 1, 2, 2, 3]))]
        self.terms = [term for name, kind in self.inputs for term in self.terms_of(name, kind)]
        self.asked = {text: set() for text, _ in self.terms}
        self.targets, self.blocks = [], []
        for n in range(made.choice([1, 1, 1, 2, 3])):
            self.add_target('x%d' % n)
        if made.random() < 0.1:
            self.blocks.append(('', ['assertion %s' % self.formula(1)]))

    def terms_of(self, name, kind):
        return [(name + '.amount', 'money'), (name + '.married', 'boolean')] if kind == 'P' else [(name, kind)]

    def source(self):
        lines = ['declaration scope S:']
        lines += ['  input %s content %s' % declared for declared in self.inputs]
        lines += ['  %s %s %s' % declared for declared in self.targets]
        for condition, definitions in self.blocks:
            lines += ['scope S%s:' % condition, *['  ' + line for line in definitions]]
        return ('```catala\n%s%s\n```\n' % (DECLARED, '\n'.join(lines))).encode()

    # ---- conditions

    def constant(self, text, kind):
        found = self.random.choice(CONSTANTS[kind])
        self.asked[text].add(found)
        return LITERALS[kind](found)

    def atom(self, text, kind):
        if kind == 'boolean':
            return text
        if kind == 'E':
            return '%s with pattern %s' % (text, self.random.choice(CASES))
        sides = [text, self.constant(text, kind)]
        if self.random.random() < 0.2:
            sides.reverse()
        return '%s %s %s' % (sides[0], self.random.choice(COMPARED), sides[1])

    def formula(self, height):
        if not height or self.random.random() < 0.3:
            return '(%s)' % self.atom(*self.random.choice(self.terms))
        form = self.random.choice(['%s and %s', '%s or %s', '%s xor %s', 'not %s', 'if %s then %s else %s'])
        return '(%s)' % (form % tuple(self.formula(height - 1) for _ in range(form.count('%s'))))

    def parts(self, text, kind):
        """Conditions that part the values of a term."""
        if kind == 'boolean':
            return [text, 'not ' + text]
        if kind == 'E':
            return ['%s with pattern %s' % (text, case) for case in CASES]
        bounds = sorted(self.random.sample(CONSTANTS[kind], self.random.choice([1, 2])))
        self.asked[text].update(bounds)
        written = [LITERALS[kind](bound) for bound in bounds]
        between = ['%s >= %s and %s < %s' % (text, low, text, high) for low, high in zip(written, written[1:])]
        return ['%s < %s' % (text, written[0]), *between, '%s >= %s' % (text, written[-1])]

    def slipped(self, conditions):
        """The conditions, at times with a slip: one is left out or doubled, or a bound is in both or in none."""
        how, at = self.random.random(), self.random.randrange(len(conditions))
        if how < 0.05:
            return conditions[:at] + conditions[at + 1:]
        if how < 0.1:
            return conditions + [conditions[at]]
        if how < 0.25:
            old, new = self.random.choice([('<', '<='), ('>=', '>')])
            conditions[at] = conditions[at].replace(old + ' ', new + ' ', 1)
        return conditions

    # ---- definitions

    def add_target(self, name):
        is_condition = self.random.random() < 0.2
        kind = self.random.choice(['output', 'output', 'internal', 'context output'])
        self.targets.append((kind, name, 'condition' if is_condition else 'content integer'))
        block = ' under condition %s' % self.formula(0) if self.random.random() < 0.1 else ''
        self.blocks.append((block, list(self.definitions(name, is_condition))))

    def definitions(self, name, is_condition):
        style = self.random.random()
        if style < 0.4:
            conditions = self.slipped(self.parts(*self.random.choice(self.terms)))
            if self.random.random() < 0.4:
                others = self.slipped(self.parts(*self.random.choice(self.terms)))
                conditions = ['(%s) and (%s)' % pair for pair in itertools.product(conditions, others)]
            yield from [self.definition('', name, c, is_condition) for c in conditions]
        elif style < 0.7:
            yield self.definition('label base ', name, self.random.choice([None, None, self.formula(1)]), is_condition)
            for label in self.random.choice([['one'], ['one'], ['one', 'two'], ['one', 'one']]):
                yield self.definition('label %s exception base ' % label, name, self.formula(1), is_condition)
            if self.random.random() < 0.4:
                yield self.definition('exception one ', name, self.formula(1), is_condition)
        else:
            one, two = self.formula(2), self.formula(1)
            apart = [one, 'not %s and %s' % (one, two), 'not (%s or %s)' % (one, two)]
            conditions = self.random.choice([[one, two], [one, 'not ' + one], apart])
            yield from [self.definition('', name, c, is_condition) for c in conditions]

    def definition(self, front, name, condition, is_condition):
        under = '' if condition is None else ' under condition %s' % condition
        then = 'consequence ' * bool(under)
        if is_condition:
            held = self.random.choice(['fulfilled', 'not fulfilled'])
            return '%srule %s%s %s%s' % (front, name, under, then, held)
        return '%sdefinition %s%s %sequals %s' % (front, name, under, then, self.consequence())

    def consequence(self):
        """A literal, or an integer that was declared before; at times what ends in a fault for some values."""
        whole = [name for name, kind in self.inputs if kind == 'integer']
        before = [name for _, name, kind in self.targets[:-1] if kind == 'content integer']
        if whole and self.random.random() < 0.1:
            divisor = self.random.choice(whole)
            self.asked[divisor].add(0)
            return 'integer of (10 / %s)' % divisor
        if whole + before and self.random.random() < 0.2:
            return self.random.choice(whole + before)
        return '%d' % self.random.randrange(5)

    # ---- inputs

    def values(self, text, kind):
        """Values of a term, some in each cell of what is asked of it."""
        if kind == 'boolean':
            return [False, True]
        if kind == 'E':
            return list(enumerate(CONTENTS))
        asked = sorted(self.asked[text]) or CONSTANTS[kind][:1]
        return sorted({c + d * STEPS[kind] for c in asked for d in (-1, 0, 1)})

    def all_inputs(self):
        """An input for each choice of values; none where there would be too many."""
        values = [self.values(*term) for term in self.terms]
        count = 1
        for choices in values:
            count *= len(choices)
        return itertools.product(*values) if count <= MOST_INPUTS else None

    def given(self, values):
        left = iter(values)
        items = [[next(left), next(left)] if kind == 'P' else next(left) for _, kind in self.inputs]
        return items + [None] * len(self.targets)


def endings(scope, program):
    """How the runs end on all inputs that are tried: with a value, a conflict, no value or a fault."""
    number, found = program.runs.numbers['S'], set()
    for values in scope.all_inputs():
        try:
            program.runs.outputs(number, scope.given(values))
            found.add('value')
        except Stop as stop:
            found.add(stop.args[0])
    return found


def statuses(found):
    """The statuses with which an audit may end: Found or Complete, as a run fails or none does; or Masked by a fault."""
    told = FOUND if found & {'conflict', 'no value'} else FINE
    return {told, UNSETTLED} if 'fault' in found else {told}


def plain_scope(seed):
    """A plain scope: its source, the most cells of a target, and the statuses with which an audit may end."""
    made = random.Random(seed)
    scope = PlainScope(made)
    while scope.all_inputs() is None:
        scope = PlainScope(made)
    source = scope.source()
    program = Program({'a.md': source}, 'a.md')
    table = Table(program, program.runs.numbers['S'])
    if not table.is_plain():
        raise ValueError('not plain:\n%s' % source.decode())
    return source, max(table.cell_count(target) for target in table.targets), statuses(endings(scope, program))
