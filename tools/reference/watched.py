"""Runs of verified code that are watched: before each step the state has the shape that the verifier found for its place."""
import datetime
from fractions import Fraction

from .machine import Code, Machine, needed

FLAT_TYPES = {'boolean': bool, 'integer': int, 'money': int, 'decimal': Fraction, 'date': datetime.date}
MOST_STEPS = 200_000


class Values:
    """Whether values are of the types of shapes."""

    def __init__(self, kinds):
        self.kinds, self.enumerations = kinds, kinds.types.enumerations

    def has(self, value, number):
        kind = self.kinds.all[number]
        if isinstance(kind, str):
            return type(value) is FLAT_TYPES[kind] if kind in FLAT_TYPES else [type(part) for part in value] == [int, int]
        word, of = kind
        if word == 'enumeration':
            return type(value) is tuple and self.has_case(*value, self.enumerations[of].parts)
        if word == 'list':
            return type(value) is list and all(self.has(part, of) for part in value[:3])
        return type(value) is list and len(value) == len(of) and all(map(self.has, value, of))

    def has_case(self, k, content, cases):
        t = cases[k][1]
        return content is None if t is None else self.has(content, self.kinds.of(t))


class Watched(Machine):
    """A machine whose state is compared with the shape of its place."""

    def __init__(self, listing, scope, slots, shapes):
        super().__init__(listing, scope, slots)
        self.shapes, self.values, self.bases = shapes, Values(shapes.kinds), [(0, 0, 0, 0)]

    def sizes(self):
        return len(self.operands), len(self.defaults), len(self.loops), len(self.pending)

    def watch(self):
        needed(self.steps < MOST_STEPS, 'it ends')
        shape = self.shapes.found[self.place]
        operands, defaults, loops, pending = self.bases[-1]
        own = self.operands[operands:]
        needed(len(own) == len(shape.operands) and all(map(self.values.has, own, shape.operands)), 'operands')
        needed(len(self.locals) == len(shape.locals) and all(map(self.values.has, self.locals, shape.locals)), 'locals')
        needed(all(self.slots[i] is not None for i in range(len(self.slots)) if shape.filled >> i & 1), 'slots')
        needed(len(self.defaults) - defaults == len(shape.defaults), 'default frames')
        needed(len(self.loops) - loops == len(shape.loops), 'loops')
        needed([scope for scope, _ in self.pending[pending:]] == [scope for scope, _ in shape.pending], 'pending frames')

    def do_call(self, f, n):
        super().do_call(f, n)
        self.bases.append(self.sizes())

    def do_enter(self):
        super().do_enter()
        self.bases.append(self.sizes())

    def do_return(self):
        self.bases.pop()
        return super().do_return()


def watched(text, shapes):
    """The code of a listing, whose runs are watched."""
    return Code(text, lambda *started: Watched(*started, shapes))
