"""The shapes of code: what is known of a state at each place to which a run may come."""
import heapq
from collections import namedtuple

from .expressions import BINARY as GIVEN_BETWEEN, PREFIX as GIVEN_BEFORE
from .machine import BINARY, ORDERED, UNARY

# Of operands, default frames, loops and pending frames those that were made since the frame was entered. Slots that are filled or
# passed are the bits of a number. A default frame is the place of its beginning and whether it was checked since it last took an
# entry; a loop is the place of its beginning with how many default frames and pending frames stood there.
Shape = namedtuple('Shape', 'operands locals filled defaults loops pending')
START = Shape((), (), 0, (), (), ())


class BadShape(Exception):
    """The code has no shapes."""


def needed(test):
    if not test:
        raise BadShape


class Kinds:
    """Types as numbers: equal ones have one number. A structure's type is the list of the types of its fields."""

    def __init__(self, code):
        self.code, self.types = code, code.tables.types
        self.all, self.numbers, self.known = [], {}, {}

    def number(self, kind):
        if kind not in self.numbers:
            self.numbers[kind] = len(self.all)
            self.all.append(kind)
        return self.numbers[kind]

    def of(self, t):
        """The number of a declared type."""
        if t not in self.known:
            self.known[t] = self.number(self.made(t))
        return self.known[t]

    def made(self, t):
        if isinstance(t, str) or t[0] == 'enumeration':
            return t
        if t[0] == 'list':
            return 'list', self.of(t[1])
        return 'fields', tuple(self.of(part) for _, part in self.types.structures[t[1]].parts)

    def fields(self, kinds):
        return self.number(('fields', tuple(kinds)))

    def outputs(self, scope):
        return self.fields(self.of(item.type) for item in self.code.tables.scopes[scope].items if item.kind.endswith('output'))

    def item(self, scope, i):
        """The type of a slot."""
        items = self.code.tables.scopes[scope].items
        needed(i < len(items))
        return self.outputs(items[i].called) if items[i].kind == 'called' else self.of(items[i].type)


class Shapes:
    """The greatest shapes: callers before what they call, and places in their order."""

    def __init__(self, code):
        self.code, self.tables, self.kinds = code, code.tables, Kinds(code)
        self.found, self.left, self.ranks, self.owners = {}, [], {}, {}
        self.rank(code.calls)
        for owner, places in code.belonging.items():
            self.owners.update(dict.fromkeys(places, owner))
        for n, scope in enumerate(self.tables.scopes):
            self.join(scope.entry, START._replace(filled=self.inputs(n)))
        while self.left:
            _, k = heapq.heappop(self.left)
            self.step(k)

    def rank(self, calls):
        """The functions and scopes by the longest chain of calls that leads to each."""
        callers = {owner: {other for other, called in calls.items() if owner in called} for owner in calls}
        while callers:
            free = [owner for owner, of in callers.items() if not of & callers.keys()]
            self.ranks.update(dict.fromkeys(free, len(self.ranks)))
            for owner in free:
                del callers[owner]

    def inputs(self, scope):
        return sum(1 << i for i, item in enumerate(self.tables.scopes[scope].items) if item.kind.startswith('input'))

    # ---- meeting shapes

    def join(self, k, shape):
        """A shape of an instruction: it is met by those that were found before, or less is known there."""
        needed(k < len(self.code.code))
        before = self.found.get(k, shape)
        met = self.met(before, shape)
        if k not in self.found or met != before:
            self.found[k] = met
            heapq.heappush(self.left, (self.ranks[self.owners[k]], k))

    def met(self, a, b):
        places = lambda s: (s.operands, s.locals, s.loops, [place for place, _ in s.defaults], [scope for scope, _ in s.pending])
        needed(places(a) == places(b))
        defaults = tuple((place, one and other) for (place, one), (_, other) in zip(a.defaults, b.defaults))
        pending = tuple((scope, one & other) for (scope, one), (_, other) in zip(a.pending, b.pending))
        return a._replace(filled=a.filled & b.filled, defaults=defaults, pending=pending)

    # ---- what instructions do

    def step(self, k):
        name, *numbers = self.code.code[k]
        self.place, self.owner = k, self.owners[k]
        self.scope = self.code.scope_of(self.owner)
        shape = getattr(self, name + '_')(self.found[k], *numbers)
        if shape is not None:
            self.join(k + 1, shape)

    def pushed(self, shape, *kinds):
        return shape._replace(operands=shape.operands + kinds)

    def popped(self, shape, *kinds):
        """Without operands of these types on top, the last of which is the top."""
        needed(len(shape.operands) >= len(kinds) and shape.operands[len(shape.operands) - len(kinds):] == kinds)
        return shape._replace(operands=shape.operands[:len(shape.operands) - len(kinds)])

    def top(self, shape, n=1):
        needed(len(shape.operands) >= n)
        return shape.operands[len(shape.operands) - n:]

    def flat(self, *kinds):
        return [self.kinds.of(kind) for kind in kinds]

    def boolean(self, shape):
        return self.popped(shape, *self.flat('boolean'))

    def split(self, shape, word):
        """The parts of the type on top, which is a list or has fields; and the shape without it."""
        kind, = self.top(shape)
        needed(self.kinds.all[kind][0] == word)
        return self.kinds.all[kind][1], self.popped(shape, kind)

    def constant(self, k):
        return self.kinds.of(self.tables.constants[k][0])

    # ---- operands, slots and locals

    def const_(self, shape, k):
        return self.pushed(shape, self.constant(k))

    def slot_(self, shape, i):
        needed(shape.filled >> i & 1)
        return self.pushed(shape, self.kinds.item(self.scope, i))

    def local_(self, shape, i):
        needed(i < len(shape.locals))
        return self.pushed(shape, shape.locals[i])

    def store_(self, shape, i):
        needed(self.owner[0] == 'scope')
        shape = self.popped(shape, self.kinds.item(self.scope, i))
        return shape._replace(filled=shape.filled | 1 << i)

    def bind_(self, shape):
        kind, = self.top(shape)
        return self.popped(shape, kind)._replace(locals=shape.locals + (kind,))

    def drop_(self, shape, n):
        needed(n <= len(shape.locals))
        return shape._replace(locals=shape.locals[:len(shape.locals) - n])

    def op_(self, shape, n, r, p):
        if n in UNARY:
            return self.pushed(self.popped(shape, *self.flat(UNARY[n][1])), *self.flat(GIVEN_BEFORE[UNARY[n]]))
        left, right = [self.kinds.all[kind] for kind in self.top(shape, 2)]
        row = BINARY.get(n) or (ORDERED.get(n, 'xor'), left, right)
        needed(row[1:] == (left, right) and row in GIVEN_BETWEEN)
        return self.pushed(self.popped(shape, *self.top(shape, 2)), *self.flat(GIVEN_BETWEEN[row]))

    # ---- jumps

    def given_(self, shape, i, t):
        needed(i < len(self.tables.scopes[self.scope].items))
        self.join(t, shape._replace(filled=shape.filled | 1 << i))
        return shape

    def jump_(self, shape, t):
        self.join(t, shape)

    def jumpfalse_(self, shape, t):
        shape = self.boolean(shape)
        self.join(t, shape)
        return shape

    # ---- structures, lists and cases

    def pack_(self, shape, n):
        kinds = self.top(shape, n)
        return self.pushed(self.popped(shape, *kinds), self.kinds.fields(kinds))

    def list_(self, shape, n):
        kinds = self.top(shape, n)
        needed(len(set(kinds)) == 1)
        return self.pushed(self.popped(shape, *kinds), self.kinds.number(('list', kinds[0])))

    def field_(self, shape, i):
        kinds, shape = self.split(shape, 'fields')
        needed(i < len(kinds))
        return self.pushed(shape, kinds[i])

    def case(self, c):
        """The type of a case, and of its content."""
        content = self.code.content(c)
        return self.kinds.of(('enumeration', self.code.cases[c][0])), content and self.kinds.of(content)

    def tag_(self, shape, c):
        kind, content = self.case(c)
        needed(content is not None)
        return self.pushed(self.popped(shape, content), kind)

    def tagnone_(self, shape, c):
        kind, content = self.case(c)
        needed(content is None)
        return self.pushed(shape, kind)

    def iscase_(self, shape, c):
        return self.pushed(self.popped(shape, self.case(c)[0]), *self.flat('boolean'))

    def content_(self, shape):
        kind, content = self.case(self.code.code[self.place - 3][1])
        return self.pushed(self.popped(shape, kind), content)

    def length_(self, shape):
        _, shape = self.split(shape, 'list')
        return self.pushed(shape, *self.flat('integer'))

    # ---- loops

    def iter_(self, shape):
        _, shape = self.split(shape, 'list')
        return shape._replace(loops=shape.loops + ((self.place, len(shape.defaults), len(shape.pending)),))

    def iterlist_(self, shape, k):
        return self.iter_(shape)

    def innermost(self, shape):
        needed(shape.loops)
        return shape.loops[-1][0], shape._replace(loops=shape.loops[:-1])

    def collected(self, place):
        """The type of the list that a loop collects."""
        name, *numbers = self.code.code[place]
        return self.constant(numbers[0]) if name == 'iterlist' else None

    def next_(self, shape, t):
        place, ended = self.innermost(shape)
        needed(place == self.place - 1)
        collected = self.collected(place)
        self.join(t, ended if collected is None else self.pushed(ended, collected))
        return self.pushed(shape, self.split(self.found[place], 'list')[0])

    def collect_(self, shape):
        collected = self.collected(self.innermost(shape)[0])
        needed(collected is not None)
        return self.popped(shape, self.kinds.all[collected][1])

    def leave_(self, shape):
        return self.innermost(shape)[1]

    # ---- calls

    def call_(self, shape, f, n):
        scope, i = self.tables.function_items[f]
        item = self.tables.scopes[scope].items[i]
        params = tuple(map(self.kinds.of, item.params))
        needed(n == len(params))
        self.join(self.tables.functions[f], START._replace(locals=params, filled=shape.filled))
        return self.pushed(self.popped(shape, *params), self.kinds.of(item.type))

    def scope_(self, shape, s):
        return shape._replace(pending=shape.pending + ((s, 0),))

    def own_pending(self, shape):
        """The top pending frame, which was made inside the innermost loop; and the shape without it."""
        needed(len(shape.pending) > (shape.loops[-1][2] if shape.loops else 0))
        return *shape.pending[-1], shape._replace(pending=shape.pending[:-1])

    def pass_(self, shape, i):
        scope, passed, below = self.own_pending(self.popped(shape, *self.top(shape)))
        needed(self.kinds.item(scope, i) == self.top(shape)[0])
        return below._replace(pending=below.pending + ((scope, passed | 1 << i),))

    def enter_(self, shape):
        scope, passed, below = self.own_pending(shape)
        needed(passed & self.inputs(scope) == self.inputs(scope))
        return self.pushed(below, self.kinds.outputs(scope))

    def return_(self, shape):
        if self.owner[0] == 'scope':
            kind = self.kinds.outputs(self.scope)
        else:
            scope, i = self.tables.function_items[self.owner[1]]
            kind = self.kinds.of(self.tables.scopes[scope].items[i].type)
        left = self.popped(shape, kind)
        needed(not (left.operands or left.defaults or left.loops or left.pending))

    # ---- defaults

    def held_kind(self, place):
        """The type of the values of a default frame."""
        return self.kinds.of(self.tables.targets[self.code.code[place][1]][2])

    def own_frames(self, shape, n):
        """The frames below the top n ones, which were made inside the innermost loop."""
        needed(len(shape.defaults) >= n + (shape.loops[-1][1] if shape.loops else 0))
        return shape.defaults[:len(shape.defaults) - n]

    def begin_(self, shape, v):
        return shape._replace(defaults=shape.defaults + ((self.place, False),))

    def marked(self, shape, checked):
        return shape._replace(defaults=self.own_frames(shape, 1) + ((shape.defaults[-1][0], checked),))

    def hold_(self, shape, d):
        shape = self.marked(shape, False)
        return self.popped(shape, self.held_kind(shape.defaults[-1][0]))

    def merge_(self, shape):
        below = self.own_frames(shape, 2)
        (other, _), (place, checked) = shape.defaults[-2:]
        needed(checked and self.held_kind(place) == self.held_kind(other))
        return shape._replace(defaults=below + ((other, False),))

    def check_(self, shape, v):
        return self.marked(shape, True)

    def held_(self, shape, t):
        needed(shape.defaults)
        self.join(t, shape)
        return shape

    def take_(self, shape, t):
        below = shape._replace(defaults=self.own_frames(shape, 1))
        place, checked = shape.defaults[-1]
        needed(checked)
        self.join(t, below)
        return self.pushed(below, self.held_kind(place))

    def novalue_(self, shape, v):
        """Nothing follows."""

    def assert_(self, shape, p):
        return self.boolean(shape)
