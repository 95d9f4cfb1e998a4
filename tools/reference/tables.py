"""What `table` writes: where the values of a target's terms lie, and which definition decides there."""
from collections import namedtuple

from .answers import Given
from .audit import NUMBERS
from .report import Region, Scoped

ASKED = {'below': ('%s < %s', '%s >= %s'), 'at most': ('%s <= %s', '%s > %s'), 'case': ('%s is %s', '%s is not %s'),
         'true': ('%s', 'not %s')}
FINE, UNSETTLED = 0, 7

Leaf = namedtuple('Leaf', 'way region result')  # way: each atom on it with its answer; result: None in the rest


def leaves(scoped, target, tree):
    """The leaves and rests of a tree in preorder."""
    def below(node, way, region):
        if isinstance(node, tuple):
            atom, yes, no = node
            for side, answer in ((yes, True), (no, False)):
                yield from below(side, [*way, (atom, answer)], region.answering(scoped.table.atoms[atom], answer))
        else:
            yield Leaf(way, region, scoped.judged(target, region) if node == 'leaf' else None)
    return below(tree, [], Region(scoped.program.types, scoped.table.terms))


class Rows:
    """The rows of the targets of a scope."""

    def __init__(self, program, number, budget):
        self.scoped = Scoped(program, number, budget)
        self.program, self.budget = program, budget
        self.scope, self.table = self.scoped.scope, self.scoped.table

    def term(self, term):
        """The path of a free term, or where a derived one first stands."""
        if term.path is None:
            return 'term at %s' % self.program.at(term.expr[1])
        item, fields = term.path
        names, t = [self.scope.items[item].name], self.scope.items[item].type
        for k in fields:
            name, t = self.program.types.structures[t[1]].parts[k]
            names.append(name)
        return '.'.join(names)

    def condition(self, number, answer):
        atom = self.table.atoms[number]
        term = self.table.terms[atom.term]
        form = ASKED[atom.cut[0]][0 if answer else 1]
        if atom.cut[0] == 'true':
            return form % self.term(term)
        return form % (self.term(term), self.constant(term.kind, atom.cut[1]))

    def constant(self, kind, value):
        if kind in NUMBERS:
            return Given(self.program.types).written(value, kind).strip('"')
        return self.program.types.enumerations[kind[1]].parts[value][0]

    def result(self, target, how, definition):
        if how == 'held':
            return 'definition at %s' % self.program.at(self.scope.definitions[definition].pos)
        return how if how == 'conflict' else self.absent(target)

    def absent(self, target):
        """The word for a target of which nothing holds."""
        item, inner = target.number
        called = None if inner is None else self.program.scopes[self.scope.items[item].called].items[inner]
        if called and called.kind.startswith('context'):
            return 'not given'
        return 'false' if target.may_be_empty else 'no value'

    def row(self, target, leaf):
        region = ' and '.join(self.condition(*step) for step in leaf.way) or 'always'
        return '%s : %s' % (region, self.result(target, *leaf.result))

    def lines(self, target):
        """The lines of a target, and whether its leaves were spent."""
        tree, _, is_spent = self.scoped.search(target)
        rows = [self.row(target, leaf) for leaf in leaves(self.scoped, target, tree) if leaf.result]
        rest = ['rest not shown, budget %d' % self.budget] if is_spent else []
        return ['table %s.%s' % (self.scope.name, target.name), *rows, *rest], is_spent


def table(program, scope, wanted=None, budget=100_000):
    """The reply, of a scope that is there, and its status; None where the scope has no target of that name."""
    rows = Rows(program, program.runs.numbers[scope], budget)
    found = [rows.lines(target) for target in rows.table.targets if wanted in (None, target.name)]
    if wanted is not None and not found:
        return None
    is_spent = any(spent for _, spent in found)
    return '\n'.join(line for lines, _ in found for line in lines), UNSETTLED if is_spent else FINE
