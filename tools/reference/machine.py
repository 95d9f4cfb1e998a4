"""A machine that runs listings of jump code: what each instruction does, from the machine's table alone."""
import re
from collections import namedtuple

import oracle_json as forms

from .answers import Given, target_text
from .meaning import Fault, Stop, binary, prefix

Declared = namedtuple('Declared', 'name parts')
Item = namedtuple('Item', 'name kind pos type condition params called')
ScopeOf = namedtuple('ScopeOf', 'name entry items')
Types = namedtuple('Types', 'structures enumerations')
Pos = namedtuple('Pos', 'file line column')
KINDS = {'inputoutput': 'input output', 'contextoutput': 'context output'}
FLAT = ('boolean', 'integer', 'decimal', 'money', 'date', 'duration')
ROUNDINGS = (None, 'increasing', 'decreasing')
ORDERED = {30: '<', 31: '<=', 32: '>', 33: '>=', 34: '=', 35: '!='}
BINARY = {n: row for n, row in enumerate([
    ('+', 'integer', 'integer'), ('-', 'integer', 'integer'), ('*', 'integer', 'integer'), ('/', 'integer', 'integer'),
    ('+', 'decimal', 'decimal'), ('-', 'decimal', 'decimal'), ('*', 'decimal', 'decimal'), ('/', 'decimal', 'decimal'),
    ('+', 'money', 'money'), ('-', 'money', 'money'), ('*', 'money', 'decimal'), ('*', 'decimal', 'money'),
    ('*', 'money', 'integer'), ('*', 'integer', 'money'), ('/', 'money', 'decimal'), ('/', 'money', 'integer'),
    ('/', 'money', 'money'), ('+', 'date', 'duration'), ('-', 'date', 'duration'), ('-', 'date', 'date'),
    ('+', 'duration', 'duration'), ('-', 'duration', 'duration'), ('*', 'duration', 'integer')], 1)}
UNARY = {24: ('-', 'integer'), 25: ('-', 'decimal'), 26: ('-', 'money'), 27: ('-', 'duration'), 28: ('not', 'boolean'),
         36: ('integer', 'decimal'), 37: ('decimal', 'integer'), 38: ('decimal', 'money'), 39: ('money', 'decimal'),
         40: ('money', 'integer'), 41: ('round of', 'decimal'), 42: ('round of', 'money'), 43: ('get_year', 'date'),
         44: ('get_month', 'date'), 45: ('get_day', 'date')}


class Bad(Exception):
    """A listing is none, or its code does what no valid code does."""


def needed(test, what):
    if not test:
        raise Bad(what)


class Listing:
    """A listing, read line by line."""

    def __init__(self, text):
        lines = text.split('\n')
        needed(lines[0] == 'catala-code 1' and lines[-1] == '', 'first or last line')
        self.files, structures, enumerations, self.scopes = [], [], [], []
        self.targets, self.definitions, self.functions, self.positions, self.constants = [], [], [], [], []
        self.code, constants = [], []
        order = ['catala-code', 'file', 'structure', 'enumeration', 'scope', 'target', 'definition', 'function', 'position',
                 'const']
        last = 0
        for line in lines[1:-1]:
            word, _, rest = line.partition(' ')
            inside = {'field': 'structure', 'case': 'enumeration', 'item': 'scope'}.get(word)
            rank = len(order) if word.isdigit() else order.index(inside or word)
            needed(rank >= last and (inside is None or rank == last), line)
            last = rank
            if word == 'file':
                self.files.append(rest)
            elif word == 'structure':
                structures.append(Declared(rest, []))
            elif word == 'field':
                name, _, t = rest.partition(' ')
                structures[-1].parts.append((name, t))
            elif word == 'enumeration':
                enumerations.append(Declared(rest, []))
            elif word == 'case':
                name, _, t = rest.partition(' ')
                enumerations[-1].parts.append((name, t or None))
            elif word == 'scope':
                name, entry = rest.split(' ')
                self.scopes.append((name, int(entry), []))
            elif word == 'item':
                self.scopes[-1][2].append(rest.split(' ', 3))
            elif word == 'target':
                self.targets.append(rest.split(' '))
            elif word == 'definition':
                self.definitions.append(self.position(rest))
            elif word == 'function':
                self.functions.append(int(rest))
            elif word == 'position':
                self.positions.append(self.position(rest))
            elif word == 'const':
                constants.append(rest)
            else:
                name, *numbers = rest.split(' ')
                needed(int(word) == len(self.code) and word == str(int(word)), line)
                self.code.append((name, *map(int, numbers)))
        self.declare(structures, enumerations, constants)

    def position(self, text):
        return Pos(*map(int, text.split(':')))

    def type(self, text):
        if text.startswith('list of '):
            return ('list', self.type(text[len('list of '):]))
        return text if text in FLAT else self.named[text]

    def declare(self, structures, enumerations, constants):
        self.named = {d.name: ('structure', n) for n, d in enumerate(structures)}
        self.named.update({d.name: ('enumeration', n) for n, d in enumerate(enumerations)})
        typed = lambda d: Declared(d.name, [(name, t and self.type(t)) for name, t in d.parts])
        self.types = Types(list(map(typed, structures)), list(map(typed, enumerations)))
        self.cases = [(e, k) for e, d in enumerate(enumerations) for k in range(len(d.parts))]
        numbers = {name: n for n, (name, _, _) in enumerate(self.scopes)}
        self.scopes = [ScopeOf(name, entry, [self.item(numbers, *item) for item in items]) for name, entry, items in self.scopes]
        self.targets = [(self.target(numbers, place), self.position(at)) for place, at in self.targets]
        given = Given(self.types)
        for text in constants:
            t, json = re.match(r'((?:list of )*\S+) (.*)', text).groups()
            self.constants.append((self.type(t), given.read(forms.parsed(json.encode()), self.type(t), [])))

    def item(self, numbers, name, kind, position, what):
        if kind == 'called':
            return Item(name, kind, self.position(position), None, False, [], numbers[what])
        result, params = re.fullmatch(r'((?:list of )*\S+)(?: of (.*))?', what).groups()
        params = [self.type(t) for t in params.split(', ')] if params else []
        t = 'boolean' if result == 'condition' else self.type(result)
        return Item(name, KINDS.get(kind, kind), self.position(position), t, result == 'condition', params, None)

    def target(self, numbers, place):
        scope, name, *inner = place.split('.')
        number = numbers[scope]
        items = self.scopes[number].items
        item = next(n for n, i in enumerate(items) if i.name == name)
        if not inner:
            return number, (item, None)
        of = self.scopes[items[item].called].items
        return number, (item, next(n for n, i in enumerate(of) if i.name == inner[0]))

    def is_function(self, v):
        number, (item, inner) = self.targets[v][0]
        return inner is None and bool(self.scopes[number].items[item].params)


class Machine:
    """A run of a scope of a listing: its stacks, the log, and the number of steps."""

    def __init__(self, listing, scope, slots):
        self.listing, self.place, self.steps, self.log = listing, listing.scopes[scope].entry, 0, []
        self.operands, self.defaults, self.loops, self.frames, self.pending = [], [], [], [], []
        self.slots, self.locals = list(slots), []

    def watch(self):
        """What is asked of the state before each step."""
        needed(self.place < len(self.listing.code), 'place %d' % self.place)

    def run(self):
        while True:
            self.watch()
            self.steps += 1
            name, *numbers = self.listing.code[self.place]
            self.place += 1
            outputs = getattr(self, 'do_' + name)(*numbers)
            if outputs is not None:
                return outputs

    def truth(self):
        b = self.operands.pop()
        needed(type(b) is bool, 'a boolean is wanted')
        return b

    def pop_all(self, n):
        needed(len(self.operands) >= n, 'operands')
        values = self.operands[len(self.operands) - n:]
        del self.operands[len(self.operands) - n:]
        return values

    def position(self, p):
        return self.listing.positions[p]

    # ---- operands, slots and locals

    def do_const(self, k):
        self.operands.append(self.listing.constants[k][1])

    def do_slot(self, i):
        needed(self.slots[i] is not None, 'slot %d isn\'t filled' % i)
        self.operands.append(self.slots[i])

    def do_local(self, i):
        self.operands.append(self.locals[i])

    def do_store(self, i):
        self.slots[i] = self.operands.pop()

    def do_bind(self):
        self.locals.append(self.operands.pop())

    def do_drop(self, n):
        needed(len(self.locals) >= n, 'locals')
        del self.locals[len(self.locals) - n:]

    def do_op(self, n, r, p):
        values = self.pop_all(1 if n in UNARY else 2)
        try:
            self.operands.append(self.result(n, ROUNDINGS[r], values))
        except Fault as fault:
            raise Stop('fault', str(fault), self.position(p))

    def result(self, n, rounding, values):
        if n in UNARY:
            return prefix(UNARY[n], *values)
        if n == 29:
            return binary(('xor', 'boolean', 'boolean'), *values, rounding)
        if n in ORDERED:
            return binary((ORDERED[n], 'duration' if isinstance(values[0], tuple) else None, None), *values, rounding)
        return binary(BINARY[n], *values, rounding)

    # ---- jumps

    def do_given(self, i, t):
        if self.slots[i] is not None:
            self.place = t

    def do_jump(self, t):
        self.place = t

    def do_jumpfalse(self, t):
        if not self.truth():
            self.place = t

    # ---- structures, lists and cases

    def do_pack(self, n):
        self.operands.append(self.pop_all(n))

    def do_list(self, n):
        self.operands.append(self.pop_all(n))

    def do_field(self, i):
        self.operands.append(self.operands.pop()[i])

    def do_tag(self, c):
        self.operands.append((self.listing.cases[c][1], self.operands.pop()))

    def do_tagnone(self, c):
        self.operands.append((self.listing.cases[c][1], None))

    def do_iscase(self, c):
        self.operands.append(self.operands.pop()[0] == self.listing.cases[c][1])

    def do_content(self):
        content = self.operands.pop()[1]
        needed(content is not None, 'content')
        self.operands.append(content)

    def do_length(self):
        self.operands.append(len(self.operands.pop()))

    # ---- loops

    def do_iter(self):
        self.loops.append([self.operands.pop(), 0, None])

    def do_iterlist(self, k):
        needed(self.listing.constants[k][1] == [], 'an empty list is wanted')
        self.loops.append([self.operands.pop(), 0, []])

    def do_next(self, t):
        elements, at, collected = loop = self.loops[-1]
        if at < len(elements):
            loop[1] += 1
            self.operands.append(elements[at])
            return
        self.loops.pop()
        if collected is not None:
            self.operands.append(collected)
        self.place = t

    def do_collect(self):
        self.loops[-1][2].append(self.operands.pop())

    def do_leave(self):
        self.loops.pop()

    # ---- calls

    def do_call(self, f, n):
        self.frames.append((self.slots, self.locals, self.place))
        self.locals = self.pop_all(n)
        self.place = self.listing.functions[f]

    def do_scope(self, s):
        self.pending.append((s, [None] * len(self.listing.scopes[s].items)))

    def do_pass(self, i):
        self.pending[-1][1][i] = self.operands.pop()

    def do_enter(self):
        scope, slots = self.pending.pop()
        self.frames.append((self.slots, self.locals, self.place))
        self.slots, self.locals, self.place = slots, [], self.listing.scopes[scope].entry

    def do_return(self):
        if self.frames:
            self.slots, self.locals, self.place = self.frames.pop()
            return None
        needed(len(self.operands) == 1 and not self.defaults and not self.loops and not self.pending, 'what is left')
        return self.operands.pop()

    # ---- defaults

    def do_begin(self, v):
        self.defaults.append(([], []))

    def do_hold(self, d):
        self.defaults[-1][0].append((d, self.operands.pop()))

    def do_merge(self):
        held, _ = self.defaults.pop()
        self.defaults[-1][0].extend(held)

    def do_check(self, v):
        held, checked = self.defaults[-1]
        checked[:] = [v]
        if len(held) > 1:
            number, target = self.listing.targets[v][0]
            raise Stop('conflict', target, number, [self.listing.definitions[d] for d in sorted(d for d, _ in held)])

    def do_held(self, t):
        if self.defaults[-1][0]:
            self.place = t

    def do_take(self, t):
        held, checked = self.defaults.pop()
        needed(len(held) < 2 and checked, 'take')
        if not self.listing.is_function(checked[0]):
            self.log.append((checked[0], held[0][0] if held else None))
        if held:
            self.operands.append(held[0][1])
        else:
            self.place = t

    def do_novalue(self, v):
        (number, target), pos = self.listing.targets[v]
        raise Stop('no value', target, number, pos)

    def do_assert(self, p):
        if not self.truth():
            raise Stop('fault', 'AssertionFailed', self.position(p))


class Code:
    """A listing that runs its scopes on inputs."""

    def __init__(self, text, machine=Machine):
        self.text, self.listing, self.machine = text, Listing(text), machine

    def at(self, pos):
        return '%s:%d:%d' % (self.listing.files[pos.file], pos.line, pos.column)

    def run(self, scope, data):
        """The reply of `run` on these bytes, and the number of steps that the run takes, where it is run."""
        reply, machine = self.ran(scope, data)
        return reply, machine and machine.steps

    def logged(self, scope, data):
        """The reply of `run` on these bytes, and the log of the run."""
        reply, machine = self.ran(scope, data)
        return reply, machine.log if machine else []

    def ran(self, scope, data):
        """The reply, and the machine as the run leaves it, where it is run."""
        scopes = self.listing.scopes
        number = next((n for n, s in enumerate(scopes) if s.name == scope), None)
        if number is None:
            return 'no such scope %s' % scope, None
        given = Given(self.listing.types)
        try:
            slots = given.input(forms.parsed(data), scopes[number].items)
        except forms.NotJson:
            return 'input refused I1', None
        except forms.Refused as refused:
            return 'input refused %s %s' % (refused.args[0], forms.path_text(refused.args[1])), None
        machine = self.machine(self.listing, number, slots)
        try:
            values = machine.run()
        except Stop as stop:
            return self.stopped(*stop.args), machine
        outputs = [i for i in scopes[number].items if i.kind.endswith('output')]
        return forms.object_text({i.name: given.written(v, i.type) for v, i in zip(values, outputs)}), machine

    def stopped(self, what, *told):
        if what == 'fault':
            return 'fault %s at %s' % (told[0], self.at(told[1]))
        target = target_text(self.listing.scopes, told[0], told[1])
        if what == 'no value':
            return 'no value %s at %s' % (target, self.at(told[2]))
        return 'conflict %s at %s' % (target, ' '.join(map(self.at, told[2])))
