"""Programs of trees: blocks, orders and exceptions; or where they are refused."""
from .checker import LONGEST, Definition, Local, ScopeOf, bodies, declarations_of
from .checker import cycle_of, longest, on_cycle, ordered, reachable, refuse
from .expressions import Expressions, Faulty, together
from .grammar import Block
from .tokens import Fault


def walk(expr):
    """The expression and each one in it, from the left."""
    if isinstance(expr, tuple) and expr and isinstance(expr[0], str) and len(expr) > 1:
        yield expr
    if isinstance(expr, (tuple, list)):
        for part in expr:
            if isinstance(part, (tuple, list)):
                yield from walk(part)


def items_named(expr):
    return [e[2] for e in walk(expr) if e[0] in ('item', 'output', 'call')]


def functions_named(expr):
    return [e[2] for e in walk(expr) if e[0] == 'call']


def scopes_named(expr):
    return [e[2] for e in walk(expr) if e[0] == 'scope call']


class Body:
    """What the blocks of one scope say."""

    def __init__(self, tree, names, types, all_items, number):
        self.number, self.items, self.all_items = number, all_items[number], all_items
        self.types, self.names = types, names
        self.blocks = [b for b in tree if isinstance(b, Block) and names.scope_numbers[b.name.text] == number]
        self.expressions = Expressions(names, types, self.items, all_items)
        self.definitions, self.assertions, self.conditions = [], [], []

    def faults(self):
        found = [Fault('E19', i.pos, why='a function that is not internal') for i in self.items if i.params and i.kind != 'internal']
        rounds = [(use.pos, use.body) for b in self.blocks for use in b.uses if use.form == 'date round']
        found += [Fault('E19', pos, why='a second rounding of dates') for k, (pos, way) in enumerate(rounds)
                  if any(way != other for _, other in rounds[:k])]
        self.rounding = rounds[0][1] if rounds else None
        for block in self.blocks:
            parts = [lambda: self.boolean(block.condition, [])] if block.condition else []
            parts += [lambda u=u: self.use(block, u) for u in block.uses]
            try:
                together(*parts)
            except Faulty as faulty:
                found += faulty.faults
        return found

    def boolean(self, node, bound):
        """A condition or an assertion: no type is expected of it beforehand."""
        x = self.expressions.meant(node, bound, None)
        if x.type != 'boolean':
            raise Faulty(Fault('E10', x.operator, nodes=[node], types=[x.type], expected='boolean'))
        return x

    def use(self, block, use):
        if use.form == 'assertion':
            self.assertions.append((self.boolean(use.body, []).expr, use.pos))
        elif use.target:
            self.define(block, use)

    def define(self, block, use):
        target, params, t, condition = self.aim(use.target)
        if use.form == 'rule' and not condition:
            raise Faulty(Fault('E19', use.pos, why='a rule on what is no condition'))
        named = [Local(name.text, p) for name, p in zip(use.target.params, params)]
        hidden = [Local(None, p) for p in params]
        parts = []
        if block.condition:
            parts.append(lambda: self.boolean(block.condition, hidden))
        if use.condition:
            parts.append(lambda: self.boolean(use.condition, named))
        if use.form == 'definition':
            parts.append(lambda: self.expressions.meant(use.body, named, t))
        found = together(*parts)
        body = found.pop().expr if use.form == 'definition' else ('literal', use.pos, 'boolean', use.body)
        whole = ('binary', found[0].first, None, ('and', 'boolean', 'boolean'), found[0].expr, found[1].expr) \
            if len(found) == 2 else found[0].expr if found else None
        self.definitions.append(Definition(target, len(params), use.label, use.exception, whole, body, use.pos))

    def aim(self, target):
        """The target's numbers, the types of its parameters, its own type, and whether it is a condition."""
        name = target.name
        number = self.expressions.numbers.get(name.text)
        if number is None:
            raise Faulty(Fault('E9', name.pos, text=name.text, among=[*self.expressions.numbers]))
        item = self.items[number]
        if target.inner is None:
            if item.kind in ('input', 'input output', 'called'):
                raise Faulty(Fault('E19', name.pos, why='a definition of a called scope' if item.called is not None else 'a definition of an input'))
            found = (number, None), item.params, item.type, item.condition
        else:
            found = self.called_aim(target, number, item)
        if len(target.params) != len(found[1]):
            raise Faulty(Fault('E10', name.pos, why='a definition of a function without its parameters' if found[1]
                               else 'parameters of what is no function'))
        return found

    def called_aim(self, target, number, item):
        if item.kind != 'called':
            fields = dict(self.types.structures[item.type[1]].parts) if item.type[0] == 'structure' else {}
            raise Faulty(Fault('E19', target.name.pos, why='a definition of a field') if target.inner.text in fields
                         else Fault('E9', target.inner.pos, text=target.inner.text, among=[*fields]))
        items = self.all_items[item.called]
        k = next((k for k, i in enumerate(items) if i.name == target.inner.text and i.kind != 'called'), None)
        if k is None:
            raise Faulty(Fault('E9', target.inner.pos, text=target.inner.text,
                               among=[i.name for i in items if i.kind.split()[0] in ('input', 'context')]))
        if items[k].kind.split()[0] not in ('input', 'context'):
            raise Faulty(Fault('E19', target.name.pos, why='a definition of what a called scope computes'))
        return (number, k), [], items[k].type, items[k].condition

    # ---- what depends on what

    def expressions_of(self, definition):
        return [e for e in (definition.condition, definition.body) if e]

    def item_graph(self, named=items_named):
        graph = [[] for _ in self.items]
        for d in self.definitions:
            graph[d.target[0]] += [n for e in self.expressions_of(d) for n in named(e)]
        return graph

    def function_graph(self):
        return [deps if item.params else [] for item, deps in zip(self.items, self.item_graph(functions_named))]

    def calls(self, tree):
        """The scopes that the scope calls, each once, by first appearance; an item stands in the declaration."""
        places = [(i.pos, i.called) for i in self.items if i.kind == 'called']
        written = [(pos, n) for b in self.blocks for pos, n in self.written_calls(b)]
        return list(dict.fromkeys(n for _, n in sorted(places + written)))

    def written_calls(self, block):
        todo = [block.condition] if block.condition else []
        todo += [e for u in block.uses for e in (u.condition, u.body) if isinstance(e, tuple)]
        while todo:
            node = todo.pop()
            if node.form == 'scope call':
                yield node.parts[0].pos, self.names.scope_numbers[node.parts[0].text]
            todo += [part for part, _ in bodies(node)]


def program_of(tree):
    """The program; refused at one of the faults of the first kind of which any stands."""
    names, types, all_items = declarations_of(tree)
    found = [Body(tree, names, types, all_items, n) for n in range(len(all_items))]
    refuse([fault for body in found for fault in body.faults()])
    calls = [body.calls(tree) for body in found]
    refuse([Fault('E17', pos, cycle=[names.scopes[k].name.text for k in cycle_of(calls, body.number)])
            for body in found for pos, n in called_places(body) if n == body.number or body.number in reachable(calls, n)])
    refuse([Fault('E16', body.items[n].pos, cycle=[body.items[k].name for k in cycle_of(body.item_graph(), n)])
            for body in found for n in on_cycle(body.item_graph())])
    orders = [ordered(body.item_graph()) for body in found]
    faults = []
    for body, order in zip(found, orders):
        lengths = longest(body.function_graph(), order)
        faults += [Fault('E20', item.pos) for n, item in enumerate(body.items) if lengths[n] == LONGEST + 1]
    scope_order = ordered(calls)
    lengths = longest(calls, scope_order)
    refuse(faults + [Fault('E20', names.scopes[n].name.pos) for n in range(len(found)) if lengths[n] == LONGEST + 1])
    scopes = [ScopeOf(names.scopes[b.number].name.text, names.scopes[b.number].name.pos, b.items, b.definitions,
                      b.assertions, b.rounding, order, calls[b.number]) for b, order in zip(found, orders)]
    return types, scopes, forests_of(scopes)


def called_places(body):
    """Where a scope calls others: names of declarations, and words of scope calls."""
    yield from ((i.pos, i.called) for i in body.items if i.kind == 'called')
    for block in body.blocks:
        yield from body.written_calls(block)


# ---- exceptions

def key_of(number, d):
    if d.label:
        return d.label.text
    return ('alone', number) if d.exception else ('base',)


def forests_of(scopes):
    """The forest of each scope; refused at a fault of the first kind that stands in any."""
    kinds = {'E12': [], 'E13': [], 'E14': [], 'E15': [], 'E20': []}
    forests = [forest_of(scope, kinds) for scope in scopes]
    for code, positions in kinds.items():
        refuse([Fault(code, pos, **told) for pos, told in positions])
    return forests


def forest_of(scope, kinds):
    """For each target its groups, by their first definitions: (definitions, groups that except it); and the roots."""
    targets = {}
    for number, d in enumerate(scope.definitions):
        targets.setdefault(d.target, {}).setdefault(key_of(number, d), []).append(number)
    return {target: linked(scope.definitions, groups, kinds) for target, groups in targets.items()}


def linked(definitions, groups, kinds):
    keys = list(groups)
    written = lambda d: d.exception and (d.exception[1].text if d.exception[1] else True)
    roots = [k for k in keys if definitions[groups[k][0]].exception is None]
    above = {k: [] for k in keys}
    excepts = {}
    for key in keys:
        first = definitions[groups[key][0]]
        for number in groups[key]:
            d = definitions[number]
            if d.exception and d.exception[1] and d.exception[1].text not in groups:
                kinds['E12'].append((d.exception[1].pos, {'text': d.exception[1].text, 'among': [k for k in keys if isinstance(k, str)]}))
            if d.label and written(d) != written(first):
                kinds['E13'].append((d.label.pos, {'first': first.pos}))
            if d.exception and not d.exception[1] and len(roots) != 1:
                kinds['E14'].append((d.exception[0], {'bases': [definitions[groups[k][0]].pos for k in roots]}))
        if first.exception:
            on = first.exception[1].text if first.exception[1] else roots[0] if len(roots) == 1 else None
            if on in groups:
                above[on].append(key)
                excepts[key] = on
    for key in keys:
        length, at = 1, key
        while at in excepts and length <= len(keys):
            length, at = length + 1, excepts[at]
        if length > len(keys) and is_on_cycle(excepts, key):
            kinds['E15'] += [(definitions[n].exception[0], {}) for n in groups[key]]
        elif length == LONGEST + 1:
            kinds['E20'].append((definitions[groups[key][0]].exception[0], {}))
    numbers = {k: n for n, k in enumerate(keys)}
    return [(groups[k], [numbers[e] for e in above[k]]) for k in keys], [numbers[k] for k in roots]


def is_on_cycle(excepts, key):
    at = excepts.get(key)
    while at is not None and at != key:
        at, excepts = excepts.get(at), {k: v for k, v in excepts.items() if k != at}
    return at == key
