"""Which program a tree is, or the faults that stand against it: those of the first kind of which any stands."""
from collections import namedtuple

from .grammar import Block, Enumeration, Name, Scope, Structure
from .tokens import Fault, Refused

MOST_ITEMS, MOST_DEFINITIONS, MOST_CASES, MOST_PARAMETERS, HIGHEST, LONGEST = 4096, 65536, 128, 8, 64, 256

Item = namedtuple('Item', 'name pos kind type condition params called')
Program = namedtuple('Program', 'structures enumerations scopes')
Declared = namedtuple('Declared', 'name pos parts')  # parts: (name, type) of each field or case
ScopeOf = namedtuple('ScopeOf', 'name pos items definitions assertions rounding order calls')
Definition = namedtuple('Definition', 'target params label exception condition body pos')
Local = namedtuple('Local', 'name type')

RANK = ('integer', 'decimal', 'money', 'date', 'duration')


def list_of(lists, base):
    for _ in range(lists):
        base = ('list', base)
    return base


class Names:
    """What is declared, and the faults of names, counts, cycles and heights of types."""

    def __init__(self, tree):
        self.tree, self.faults = tree, []
        self.types, self.scope_numbers = {}, {}
        self.structures = [d for d in tree if isinstance(d, Structure)]
        self.enumerations = [d for d in tree if isinstance(d, Enumeration)]
        self.scopes = [d for d in tree if isinstance(d, Scope)]
        for number, declared in enumerate(self.structures):
            self.types.setdefault(declared.name.text, ('structure', number))
        for number, declared in enumerate(self.enumerations):
            self.types.setdefault(declared.name.text, ('enumeration', number))
        for number, declared in enumerate(self.scopes):
            self.scope_numbers.setdefault(declared.name.text, number)

    def once(self, names):
        seen = {}
        for name in names:
            if name.text in seen:
                self.faults.append(Fault('E8', name.pos, first=seen[name.text]))
            seen.setdefault(name.text, name.pos)

    def count(self, most, positions):
        if len(positions) > most:
            self.faults.append(Fault('E20', positions[most]))

    def known(self, name, *known):
        if not any(name.text in names for names in known):
            self.faults.append(Fault('E9', name.pos, text=name.text, among=[text for names in known for text in names]))

    def type(self, written):
        if isinstance(written.base, Name):
            self.known(written.base, self.types)
            return list_of(written.lists, self.types.get(written.base.text))
        return list_of(written.lists, written.base)

    def declarations(self):
        self.once([d.name for d in self.tree if not isinstance(d, Block)])
        structures = [self.declared(s, [(name, self.type(t)) for name, t in s.fields]) for s in self.structures]
        enumerations = [self.declared(e, [(name, t and self.type(t)) for name, t in e.cases])
                        for e in self.enumerations]
        for e in self.enumerations:
            self.count(MOST_CASES, [name.pos for name, _ in e.cases])
        items = []
        for scope in self.scopes:
            self.once([v.name for v in scope.variables])
            self.count(MOST_ITEMS, [v.name.pos for v in scope.variables])
            items.append([self.item(v) for v in scope.variables])
        return structures, enumerations, items

    def declared(self, of, parts):
        self.once([name for name, _ in parts])
        return Declared(of.name.text, of.name.pos, [(name.text, t) for name, t in parts])

    def item(self, variable):
        if variable.called:
            self.known(variable.called, self.scope_numbers)
            called = self.scope_numbers.get(variable.called.text)
            return Item(variable.name.text, variable.name.pos, 'called', 'boolean', False, [], called)
        self.once([name for name, _ in variable.params])
        self.count(MOST_PARAMETERS, [name.pos for name, _ in variable.params])
        written = 'boolean' if variable.type is None else self.type(variable.type)
        params = [self.type(t) for _, t in variable.params]
        return Item(variable.name.text, variable.name.pos, variable.kind, written, variable.type is None, params, None)

    # ---- names in blocks

    def blocks(self):
        definitions = []
        for block in self.tree:
            if isinstance(block, Block):
                self.known(block.name, self.scope_numbers)
                if block.name.text in self.scope_numbers:
                    self.block(block, dict.fromkeys(v.name.text for s in self.scopes if s.name.text == block.name.text
                                                    for v in s.variables))
                definitions += [use.pos for use in block.uses if use.target]
        self.count(MOST_DEFINITIONS, definitions)

    def block(self, block, items):
        if block.condition:
            self.expression(block.condition, items, [])
        for use in block.uses:
            bound = []
            if use.target:
                self.known(use.target.name, items)
                self.once(use.target.params)
                bound = [name.text for name in use.target.params]
            if use.condition:
                self.expression(use.condition, items, bound)
            if use.form in ('definition', 'assertion'):
                self.expression(use.body, items, bound)

    def expression(self, node, items, bound):
        """Names that name nothing whatever the types are, and fields that are given twice."""
        form, parts = node.form, node.parts
        if form in ('name', 'call'):
            self.known(parts[0], items, bound)
        if form in ('case', 'content', 'test'):
            self.case(parts[2] if form == 'test' else parts[0])
        if form == 'sum':
            self.type(parts[0])
        if form == 'structure':
            self.known(parts[0], self.types)
        if form == 'scope call':
            self.known(parts[0], self.scope_numbers)
        if form in ('structure', 'scope call'):
            self.once([name for name, _ in parts[1]])
        for part, more in bodies(node):
            self.expression(part, items, bound + more)
        if form == 'match':
            for arm in parts[1]:
                if arm.case:
                    self.case(arm.case)

    def case(self, case):
        if case.type:
            self.known(case.type, self.types)


def bodies(node):
    """The parts of an expression, each with the names that are bound in it."""
    form, parts = node.form, node.parts
    if form in ('parentheses', 'field', 'test'):
        return [(parts[0], [])]
    if form in ('prefix', 'sum', 'content'):
        return [(parts[1], [])]
    if form == 'binary':
        return [(parts[2], []), (parts[3], [])]
    if form == 'list':
        return [(part, []) for part in parts[0]]
    if form == 'call':
        return [(part, []) for part in parts[1]]
    if form in ('structure', 'scope call'):
        return [(value, []) for _, value in parts[1]]
    if form == 'if':
        return [(part, []) for part in parts]
    if form == 'match':
        return [(parts[0], [])] + [(arm.body, [arm.name.text] if arm.name else []) for arm in parts[1]]
    if form == 'each':
        return [(parts[2], []), (parts[3], [parts[1].text])]
    if form == 'combine':
        name, over, total, start, body = parts
        return [(over, []), (start, []), (body, [name.text, total.text])]
    return []


def refuse(faults):
    """Refuses where faults stand: at one of them."""
    if faults:
        raise Refused(faults)


def reachable(graph, start):
    seen, todo = set(), list(graph[start])
    while todo:
        n = todo.pop()
        if n not in seen:
            seen.add(n)
            todo += graph[n]
    return seen


def on_cycle(graph):
    return [n for n in range(len(graph)) if n in reachable(graph, n)]


def cycle_of(graph, start):
    """The shortest way from a number back to it, without its end."""
    ways, seen = [[start]], {start}
    for way in ways:
        for n in graph[way[-1]]:
            if n == start:
                return way
            if n not in seen:
                seen.add(n)
                ways.append([*way, n])


def ordered(graph):
    """In each place the first number not yet listed of which all that it depends on is."""
    listed, left = [], list(range(len(graph)))
    while left:
        n = next(n for n in left if all(m in listed for m in graph[n]))
        listed.append(n)
        left.remove(n)
    return listed


def longest(graph, order):
    """For each number, how many numbers the longest chain has that it begins."""
    lengths = {}
    for n in order:
        lengths[n] = 1 + max([lengths[m] for m in graph[n]], default=0)
    return lengths


def base_of(t):
    while isinstance(t, tuple) and t[0] == 'list':
        t = t[1]
    return t


class Types:
    """The declared types: cycles and heights."""

    def __init__(self, structures, enumerations):
        self.structures, self.enumerations = structures, enumerations
        self.all = structures + enumerations
        self.graph = [sorted({self.number(base_of(t)) for _, t in d.parts if isinstance(base_of(t), tuple)})
                      for d in self.all]

    def number(self, t):
        return t[1] + (len(self.structures) if t[0] == 'enumeration' else 0)

    def height(self, t):
        lists = 0
        while isinstance(t, tuple) and t[0] == 'list':
            t, lists = t[1], lists + 1
        return lists + (self.heights[self.number(t)] if isinstance(t, tuple) else 1)

    def check(self, tree):
        refuse([Fault('E18', self.all[n].pos, cycle=[self.all[k].name for k in cycle_of(self.graph, n)]) for n in on_cycle(self.graph)])
        self.heights = {}
        faults = []
        for n in ordered(self.graph):
            parts = [self.height(t) for _, t in self.all[n].parts if t]
            self.heights[n] = 1 + max(parts, default=0)
            if self.heights[n] > HIGHEST and max(parts, default=0) <= HIGHEST:
                faults.append(Fault('E20', self.all[n].pos))
        return faults


def high_lists(types, names):
    """Written lists that are too high though what they are made of is not, at their bases."""
    faults = []
    for written in names.written:
        base = names.types.get(written.base.text) if isinstance(written.base, Name) else written.base
        inside = types.height(base)
        if inside <= HIGHEST < inside + written.lists:
            faults.append(Fault('E20', written.pos))
    return faults


def written_types(tree):
    for d in tree:
        if isinstance(d, Structure):
            yield from (t for _, t in d.fields)
        elif isinstance(d, Enumeration):
            yield from (t for _, t in d.cases if t)
        elif isinstance(d, Scope):
            for v in d.variables:
                yield from ([v.type] if v.type else []) + [t for _, t in v.params]


def declarations_of(tree):
    """What a tree declares; refused where names, counts, cycles or heights of types are out of order."""
    names = Names(tree)
    structures, enumerations, items = names.declarations()
    names.blocks()
    refuse(names.faults)
    names.written = list(written_types(tree))
    types = Types(structures, enumerations)
    refuse(types.check(tree) + high_lists(types, names))
    return names, types, items
