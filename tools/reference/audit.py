"""The table of a scope's guards, and how its targets are judged in each cell of its terms: an audit by trying all."""
import datetime
import itertools
from collections import namedtuple
from fractions import Fraction

Term = namedtuple('Term', 'expr function params path kind')
Atom = namedtuple('Atom', 'term cut')
Target = namedtuple('Target', 'number name function may_be_empty definitions groups roots')
NUMBERS = ('integer', 'decimal', 'money', 'date')
TURNED = {'<': '>', '<=': '>=', '>': '<', '>=': '<=', '=': '=', '!=': '!='}
FIRST_DAY, LAST_DAY, GREATEST = datetime.date(1, 1, 1), datetime.date(9999, 12, 31), 2**63 - 1
MOST_CELLS = 20_000


def constant_of(expr):
    """The number, amount or date that a literal or a negated one is."""
    if expr[0] == 'literal' and expr[2] in NUMBERS:
        return expr[3]
    if expr[0] == 'prefix' and expr[2][0] == '-' and expr[3][0] == 'literal' and expr[2][1] in NUMBERS:
        return -expr[3][3]
    return None


def without_positions(expr, function, params):
    """An expression but for its positions; a parameter is one thing in all definitions of its function."""
    if isinstance(expr, tuple) and expr and expr[0] == 'local':
        k = expr[2]
        return ('parameter', function, k) if k < params else ('bound', k - params)
    if isinstance(expr, tuple) and expr and isinstance(expr[0], str):
        skipped = 2 if expr[0] in ('binary', 'contains') else 1
        return (expr[0], *[without_positions(part, function, params) for part in expr[1 + skipped:]])
    if isinstance(expr, (tuple, list)):
        return tuple(without_positions(part, function, params) for part in expr)
    return expr


class Table:
    """What the guards of a scope ask: its terms, its atoms, and the guard of each definition."""

    def __init__(self, program, number):
        self.scopes, self.types, self.number = program.scopes, program.types, number
        self.scope, self.forest = program.scopes[number], program.forests[number]
        self.terms, self.atoms, self.term_numbers, self.atom_numbers = [], [], {}, {}
        self.targets = [self.target(t) for t in self.all_targets()]

    def all_targets(self):
        for n in self.scope.order:
            item = self.scope.items[n]
            if item.kind == 'called':
                inner = self.scopes[item.called].items
                yield from ((n, k) for k, i in enumerate(inner) if i.kind.split()[0] in ('input', 'context'))
            elif not item.kind.startswith('input'):
                yield n, None

    def target(self, target):
        item = self.scope.items[target[0]]
        inner = None if target[1] is None else self.scopes[item.called].items[target[1]]
        name = item.name if inner is None else '%s.%s' % (item.name, inner.name)
        empty = item.condition if inner is None else inner.condition or inner.kind.startswith('context')
        own = [(n, d) for n, d in enumerate(self.scope.definitions) if d.target == target]
        definitions = [(n, self.guard(d)) for n, d in own]
        groups, roots = self.forest.get(target, ([], []))
        return Target(target, name, bool(item.params), empty, dict(definitions), groups, roots)

    # ---- guards

    def guard(self, d):
        self.here = d.target[0], d.params
        return ('constant', True) if d.condition is None else self.guard_of(d.condition)

    def guard_of(self, expr):
        form, *parts = expr
        if form == 'literal' and parts[1] == 'boolean':
            return 'constant', parts[2]
        if form == 'prefix' and parts[1][0] == 'not':
            return 'not', self.guard_of(parts[2])
        if form == 'binary' and parts[2][0] in ('and', 'or', 'xor'):
            return parts[2][0], self.guard_of(parts[3]), self.guard_of(parts[4])
        if form == 'binary' and parts[2][0] in TURNED:
            return self.compared(expr, parts[2], parts[3], parts[4])
        if form == 'if':
            return 'if', self.guard_of(parts[1]), self.guard_of(parts[2]), self.guard_of(parts[3])
        if form == 'test':
            return self.ask(parts[1], ('enumeration', parts[2][0]), ('case', parts[2][1]))
        return self.ask(expr, 'boolean', ('true',))

    def compared(self, expr, row, left, right):
        operator, kind, _ = row
        if kind in NUMBERS and constant_of(right) is not None:
            return self.against(operator, left, kind, constant_of(right))
        if kind in NUMBERS and constant_of(left) is not None:
            return self.against(TURNED[operator], right, kind, constant_of(left))
        return self.ask(expr, 'boolean', ('true',))

    def against(self, operator, expr, kind, constant):
        below = lambda: self.ask(expr, kind, ('below', constant))
        at_most = lambda: self.ask(expr, kind, ('at most', constant))
        equal = lambda: ('and', at_most(), ('not', below()))
        return {'<': below, '<=': at_most, '>': lambda: ('not', at_most()), '>=': lambda: ('not', below()),
                '=': equal, '!=': lambda: ('not', equal())}[operator]()

    def ask(self, expr, kind, cut):
        key = (without_positions(expr, *self.here), kind)
        if key not in self.term_numbers:
            self.term_numbers[key] = len(self.terms)
            self.terms.append(Term(expr, *self.here, self.path(expr), kind))
        atom = Atom(self.term_numbers[key], cut)
        if atom not in self.atom_numbers:
            self.atom_numbers[atom] = len(self.atoms)
            self.atoms.append(atom)
        return 'atom', self.atom_numbers[atom]

    def path(self, expr):
        """The input, with the fields that lead to a part of it; None where the term is derived."""
        if expr[0] == 'item' and self.scope.items[expr[2]].kind.startswith('input'):
            return expr[2], ()
        if expr[0] == 'field':
            base = self.path(expr[2])
            return base and (base[0], base[1] + (expr[3],))
        return None

    # ---- judging

    def atoms_in(self, guard):
        if guard[0] == 'atom':
            return {guard[1]}
        return set().union(*[self.atoms_in(part) for part in guard[1:] if isinstance(part, tuple)])

    def is_plain(self):
        return all(t.path is not None for t in self.terms) and not self.scope.calls \
            and not any(i.params for i in self.scope.items)

    def cells(self, target):
        """For each term of a target some values of which each cell of its cuts has one."""
        asked = {self.atoms[a] for g in target.definitions.values() for a in self.atoms_in(g)}
        terms = sorted({atom.term for atom in asked})
        return terms, [sorted(set(samples(self.types, self.terms[t].kind, [a.cut for a in asked if a.term == t])))
                       for t in terms]

    def cell_count(self, target):
        """Into how many cells the cuts of a target part the values of its terms."""
        asked = {self.atoms[a] for g in target.definitions.values() for a in self.atoms_in(g)}
        count = 1
        for term in {atom.term for atom in asked}:
            kind, cuts = self.terms[term].kind, sum(1 for atom in asked if atom.term == term)
            cases = len(self.types.enumerations[kind[1]].parts) if isinstance(kind, tuple) else 2
            count *= cuts + 1 if kind in NUMBERS else cases
        return count

    def verdict(self, target):
        """Covered, or how the rules fail in some cell: a conflict, or no value; None where there are too many cells."""
        terms, values = self.cells(target)
        count = 1
        for choices in values:
            count *= len(choices)
        if count > MOST_CELLS:
            return None
        found = set()
        for valuation in itertools.product(*values):
            known = dict(zip(terms, valuation))
            found.add(self.judged(target, lambda a: holds(self.atoms[a].cut, known[self.atoms[a].term])))
        flaws = found & ({'conflict'} if target.may_be_empty else {'conflict', 'empty'})
        return flaws or {'covered'}

    def judged(self, target, answers):
        return self.one([self.group(target, g, answers) for g in target.roots])

    def group(self, target, g, answers):
        own, above = target.groups[g]
        found = self.one([self.group(target, e, answers) for e in above])
        if found != 'empty':
            return found
        return self.one(['held' if truth(target.definitions[n], answers) else 'empty' for n in own])

    def one(self, members):
        if 'conflict' in members or members.count('held') > 1:
            return 'conflict'
        return 'held' if 'held' in members else 'empty'


def truth(guard, answers):
    form, *parts = guard
    if form == 'constant':
        return parts[0]
    if form == 'atom':
        return answers(parts[0])
    values = [truth(part, answers) for part in parts]
    return {'not': lambda: not values[0], 'and': lambda: all(values), 'or': lambda: any(values),
            'xor': lambda: values[0] != values[1], 'if': lambda: values[1] if values[0] else values[2]}[form]()


def holds(cut, value):
    if cut[0] == 'true':
        return value
    return {'below': lambda: value < cut[1], 'at most': lambda: value <= cut[1], 'case': lambda: value == cut[1]}[cut[0]]()


def samples(types, kind, cuts):
    """Values of a type, with one at least of each cell that these cuts make."""
    if kind == 'boolean':
        return [False, True]
    if isinstance(kind, tuple):
        return list(range(len(types.enumerations[kind[1]].parts)))
    constants = sorted({cut[1] for cut in cuts})
    if kind == 'decimal':
        around = [constants[0] - 1, *constants, constants[-1] + 1]
        return [Fraction(c) for c in around] + [(Fraction(a) + b) / 2 for a, b in zip(around, around[1:])]
    if kind == 'date':
        near = [c + datetime.timedelta(d) for c in constants for d in (-1, 0, 1)
                if FIRST_DAY.toordinal() <= c.toordinal() + d <= LAST_DAY.toordinal()]
        return near
    return [c + d for c in constants for d in (-1, 0, 1) if -GREATEST <= c + d <= GREATEST]
