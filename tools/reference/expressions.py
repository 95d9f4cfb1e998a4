"""What expressions mean: each name as what it names, with types; or the faults that stand in them."""
from collections import namedtuple

from .checker import HIGHEST, Local, list_of
from .grammar import Name
from .tokens import Fault

Typed = namedtuple('Typed', 'first operator expr type')
Each = {'for all': 'boolean', 'exists': 'boolean', 'list of': None, 'map each': None}
MOST_ELEMENTS = 2**63 - 1

BINARY = {}
for kind in ('integer', 'decimal'):
    BINARY.update({(o, kind, kind): kind for o in '+-*'})
    BINARY[('/', kind, kind)] = 'decimal'
for kind in ('decimal', 'integer'):
    BINARY[('*', 'money', kind)] = BINARY[('*', kind, 'money')] = BINARY[('/', 'money', kind)] = 'money'
BINARY.update({(o, k, k): k for o in '+-' for k in ('money', 'duration')})
BINARY.update({('/', 'money', 'money'): 'decimal', ('+', 'date', 'duration'): 'date', ('-', 'date', 'duration'): 'date',
               ('-', 'date', 'date'): 'duration', ('*', 'duration', 'integer'): 'duration'})
BINARY.update({(o, 'boolean', 'boolean'): 'boolean' for o in ('and', 'or', 'xor')})
ORDERED = ('integer', 'decimal', 'money', 'date', 'duration')
BINARY.update({(o, k, k): 'boolean' for o in ('<', '<=', '>', '>=', '=', '!=') for k in ORDERED})
BINARY.update({(o, 'boolean', 'boolean'): 'boolean' for o in ('=', '!=')})
PREFIX = {('-', k): k for k in ('integer', 'decimal', 'money', 'duration')}
PREFIX.update({('not', 'boolean'): 'boolean', ('integer', 'decimal'): 'integer', ('decimal', 'integer'): 'decimal',
               ('decimal', 'money'): 'decimal', ('money', 'decimal'): 'money', ('money', 'integer'): 'money',
               ('round of', 'decimal'): 'decimal', ('round of', 'money'): 'money'})
PREFIX.update({(get, 'date'): 'integer' for get in ('get_year', 'get_month', 'get_day')})
SUMMED = ('integer', 'decimal', 'money', 'duration')


class Faulty(Exception):
    """An expression has none: these faults stand in it."""

    def __init__(self, *faults):
        super().__init__(faults)
        self.faults = list(faults)


def together(*parts):
    """What parts give that don't hang on each other; or the faults of all of them."""
    answers, faults = [], []
    for part in parts:
        try:
            answers.append(part())
        except Faulty as faulty:
            faults += faulty.faults
    if faults:
        raise Faulty(*faults)
    return answers


def fault_unless(test, code, pos, **told):
    if not test:
        raise Faulty(Fault(code, pos, **told))


def named_in(parts):
    return [name for name, _ in parts]


def is_list(t):
    return isinstance(t, tuple) and t[0] == 'list'


class Expressions:
    """Expressions in a scope with these items."""

    def __init__(self, names, types, items, all_items):
        self.names, self.types, self.items, self.all_items = names, types, items, all_items
        self.numbers = {}
        for number, item in enumerate(items):
            self.numbers.setdefault(item.name, number)

    def meant(self, node, bound, expected):
        """The expression; where a type is expected and another one stands, that is a mismatch at its operator."""
        x = getattr(self, node.form.replace(' ', '_') + '_of')(node, bound, expected, *node.parts)
        if node.form not in ('parentheses', 'if', 'match') and expected is not None:
            fault_unless(x.type == expected, 'E10', x.operator, nodes=[node], types=[x.type], expected=expected)
        return x

    def found(self, node, expr, t, operator=None):
        return Typed(node.pos, operator or node.pos, expr, t)

    def known_item(self, name, bound):
        fault_unless(name.text in self.numbers, 'E9', name.pos, text=name.text,
                     among=[*self.numbers, *[local.name for local in bound if local.name]])

    def innermost(self, name, bound):
        return next((k for k in reversed(range(len(bound))) if bound[k].name == name.text), None)

    # ---- names and literals

    def literal_of(self, node, bound, expected, kind, value):
        return self.found(node, ('literal', node.pos, kind, value), kind)

    def name_of(self, node, bound, expected, name):
        k = self.innermost(name, bound)
        if k is not None:
            return self.found(node, ('local', node.pos, k), bound[k].type)
        self.known_item(name, bound)
        number = self.numbers[name.text]
        item = self.items[number]
        fault_unless(item.kind != 'called', 'E10', name.pos, why='a called scope without the name of its output')
        fault_unless(not item.params, 'E10', name.pos, why='a function without its arguments')
        return self.found(node, ('item', node.pos, number), item.type)

    def case_named(self, case):
        if case.type is None:
            found = [(e, k) for e, of in enumerate(self.types.enumerations)
                     for k in [next((k for k, (name, _) in enumerate(of.parts) if name == case.name.text), None)]
                     if k is not None]
            fault_unless(len(found) == 1, 'E9', case.name.pos, text=case.name.text,
                         among=[name for of in self.types.enumerations for name in named_in(of.parts)],
                         enumerations=[self.types.enumerations[e].name for e, _ in found])
            return found[0]
        t = self.names.types.get(case.type.text)
        fault_unless(t is not None, 'E9', case.type.pos, text=case.type.text, among=[*self.names.types])
        cases = self.types.enumerations[t[1]].parts if t[0] == 'enumeration' else []
        k = next((k for k, (name, _) in enumerate(cases) if name == case.name.text), None)
        fault_unless(k is not None, 'E9', case.name.pos, text=case.name.text, among=named_in(cases))
        return t[1], k

    def content(self, case):
        return self.types.enumerations[case[0]].parts[case[1]][1]

    def case_of(self, node, bound, expected, case):
        found = self.case_named(case)
        fault_unless(self.content(found) is None, 'E10', node.pos, why='a case without its content',
                     types=[self.content(found)])
        return self.found(node, ('case', node.pos, found, None), ('enumeration', found[0]))

    def content_of(self, node, bound, expected, case, part):
        found = self.case_named(case)
        content = self.content(found)
        x = self.meant(part, bound, content)
        fault_unless(content is not None, 'E10', node.pos, why='a content of a case that has none')
        return self.found(node, ('case', node.pos, found, x.expr), ('enumeration', found[0]))

    def parentheses_of(self, node, bound, expected, part):
        return self.meant(part, bound, expected)._replace(first=node.pos)

    # ---- operators

    def binary_of(self, node, bound, expected, operator, pos, left, right):
        a, b = together(lambda: self.meant(left, bound, None), lambda: self.meant(right, bound, None))
        if operator == 'contains':
            fault_unless(is_list(a.type) and a.type[1] == b.type and ('=', b.type, b.type) in BINARY, 'E10', pos,
                         operator=operator, nodes=[left, right], types=[a.type, b.type])
            return Typed(a.first, pos, ('contains', node.pos, pos, a.expr, b.expr), 'boolean')
        row = (operator, a.type, b.type)
        fault_unless(row in BINARY, 'E10', pos, operator=operator, nodes=[left, right], types=[a.type, b.type], wanted=expected)
        return Typed(a.first, pos, ('binary', a.first, pos, row, a.expr, b.expr), BINARY[row])

    def prefix_of(self, node, bound, expected, word, part):
        x = self.meant(part, bound, None)
        if word == 'number of':
            fault_unless(is_list(x.type), 'E10', node.pos, operator=word, nodes=[part], types=[x.type])
            return self.found(node, ('number of', node.pos, x.expr), 'integer')
        fault_unless((word, x.type) in PREFIX, 'E10', node.pos, operator=word, nodes=[part], types=[x.type])
        return self.found(node, ('prefix', node.pos, (word, x.type), x.expr), PREFIX[(word, x.type)])

    def type_of(self, written):
        base = self.names.types.get(written.base.text) if isinstance(written.base, Name) else written.base
        fault_unless(base is not None, 'E9', written.pos, text=getattr(written.base, 'text', ''), among=[*self.names.types])
        return list_of(written.lists, base)

    def sum_of(self, node, bound, expected, written, part):
        t, x = together(lambda: self.type_of(written), lambda: self.meant(part, bound, None))
        fault_unless(t in SUMMED and x.type == ('list', t), 'E10', node.pos, nodes=[part], types=[x.type], expected=('list', t),
                     why=None if t in SUMMED else 'a sum of what has none')
        return self.found(node, ('sum', node.pos, t, x.expr), t)

    def test_of(self, node, bound, expected, part, pos, case):
        x, k = together(lambda: self.meant(part, bound, None), lambda: self.case_named(case))
        fault_unless(x.type == ('enumeration', k[0]), 'E10', pos, nodes=[part], types=[x.type], expected=('enumeration', k[0]))
        return Typed(x.first, pos, ('test', node.pos, x.expr, k), 'boolean')

    # ---- fields, calls and literals of structures

    def field_of(self, node, bound, expected, base, name):
        if base.form == 'name' and self.innermost(base.parts[0], bound) is None:
            number = self.numbers.get(base.parts[0].text)
            if number is not None and self.items[number].kind == 'called':
                k, t = self.output(self.items[number].called, name)
                return self.found(node, ('output', node.pos, number, k), t)
        x = self.meant(base, bound, None)
        fault_unless(isinstance(x.type, tuple) and x.type[0] == 'structure', 'E10', x.first, why='a field of what is no structure',
                     nodes=[base], types=[x.type])
        k, t = self.part(self.types.structures[x.type[1]].parts, name)
        return Typed(x.first, x.first, ('field', x.first, x.expr, k), t)

    def part(self, parts, name):
        k = next((k for k, (text, _) in enumerate(parts) if text == name.text), None)
        fault_unless(k is not None, 'E9', name.pos, text=name.text, among=named_in(parts))
        return k, parts[k][1]

    def output(self, scope, name):
        return self.part([(i.name, i.type) for i in self.all_items[scope] if i.kind.endswith('output')], name)

    def call_of(self, node, bound, expected, name, args):
        fault_unless(self.innermost(name, bound) is None, 'E10', name.pos, why='arguments of what is no function')
        self.known_item(name, [])
        number = self.numbers[name.text]
        item = self.items[number]
        fault_unless(item.params, 'E10', name.pos, why='arguments of what is no function')
        parts = [lambda a=a, t=t: self.meant(a, bound, t).expr for a, t in zip(args, item.params)]
        count = lambda: fault_unless(len(args) == len(item.params), 'E10', name.pos, why='another number of arguments')
        _, *values = together(count, *parts)
        return self.found(node, ('call', node.pos, number, values), item.type)

    def values(self, fields, part, bound):
        def value(name, node):
            k, t = part(name)
            return k, self.meant(node, bound, t).expr
        return together(*[lambda f=f: value(*f) for f in fields])

    def structure_of(self, node, bound, expected, name, fields):
        t = self.names.types.get(name.text)
        fault_unless(t is not None, 'E9', name.pos, text=name.text, among=[*self.names.types])
        fault_unless(t[0] == 'structure', 'E10', name.pos, why='fields of what is no structure')
        parts = self.types.structures[t[1]].parts
        values = self.values(fields, lambda w: self.part(parts, w), bound)
        given = {k for k, _ in values}
        fault_unless(len(values) == len(given) == len(parts), 'E10', name.pos, why='a structure without some of its fields',
                     lacks=[text for k, (text, _) in enumerate(parts) if k not in given])
        return self.found(node, ('structure', node.pos, t[1], values), t)

    def scope_call_of(self, node, bound, expected, scope, fields, name):
        fault_unless(scope.text in self.names.scope_numbers, 'E9', scope.pos, text=scope.text, among=[*self.names.scope_numbers])
        number = self.names.scope_numbers[scope.text]
        items = self.all_items[number]
        given = {i.name: (k, i.type) for k, i in reversed(list(enumerate(items)))
                 if i.kind.split()[0] in ('input', 'context')}

        def part(w):
            fault_unless(w.text in given, 'E9', w.pos, text=w.text, among=[*given])
            return given[w.text]
        values, (k, t) = together(lambda: self.values(fields, part, bound), lambda: self.output(number, name))
        needed = {k for k, i in enumerate(items) if i.kind.startswith('input') and not i.condition}
        numbers = [k for k, _ in values]
        fault_unless(needed <= set(numbers) and len(set(numbers)) == len(numbers), 'E10', scope.pos,
                     why='a scope without some of its inputs', lacks=[items[k].name for k in sorted(needed - set(numbers))])
        return self.found(node, ('scope call', node.pos, number, values, k), t)

    # ---- lists

    def low_list(self, node, expr, t):
        fault_unless(self.types.height(('list', t)) <= HIGHEST, 'E20', node.pos)
        return self.found(node, expr, ('list', t))

    def list_of(self, node, bound, expected, parts):
        element = expected[1] if is_list(expected) else None
        if not parts:
            fault_unless(element is not None, 'E10', node.pos, why='an empty list of no known type')
            return self.low_list(node, ('list', node.pos, []), element)
        first = self.meant(parts[0], bound, element)
        rest = together(*[lambda p=p: self.meant(p, bound, first.type).expr for p in parts[1:]])
        return self.low_list(node, ('list', node.pos, [first.expr] + rest), first.type)

    def each_of(self, node, bound, expected, word, name, over, body):
        whole, over = over, self.meant(over, bound, None)
        fault_unless(is_list(over.type), 'E10', node.pos, nodes=[whole], types=[over.type], why='elements of what is no list')
        where, x = body, self.meant(body, bound + [Local(name.text, over.type[1])], None)
        expr = (word, node.pos, over.expr, x.expr)
        if word == 'map each':
            return self.low_list(node, expr, x.type)
        fault_unless(x.type == 'boolean', 'E10', node.pos, nodes=[where], types=[x.type], expected='boolean')
        return self.found(node, expr, over.type if word == 'list of' else 'boolean')

    def combine_of(self, node, bound, expected, name, over, total, start, body):
        whole = over
        over, start = together(lambda: self.meant(over, bound, None), lambda: self.meant(start, bound, None))
        fault_unless(is_list(over.type), 'E10', node.pos, nodes=[whole], types=[over.type], why='elements of what is no list')
        inner = bound + [Local(name.text, over.type[1]), Local(total.text, start.type)]
        x = self.meant(body, inner, start.type)
        return self.found(node, ('combine', node.pos, over.expr, start.expr, x.expr), start.type)

    # ---- branches and arms

    def if_of(self, node, bound, expected, test, yes, no):
        def branches():
            a = self.meant(yes, bound, expected)
            return a, self.meant(no, bound, a.type)
        asked = test
        test, (a, b) = together(lambda: self.meant(asked, bound, None), branches)
        fault_unless(test.type == 'boolean', 'E10', node.pos, nodes=[asked], types=[test.type], expected='boolean')
        return self.found(node, ('if', node.pos, test.expr, a.expr, b.expr), a.type)

    def match_of(self, node, bound, expected, subject, arms):
        x = self.meant(subject, bound, None)
        fault_unless(isinstance(x.type, tuple) and x.type[0] == 'enumeration', 'E10', node.pos, nodes=[subject], types=[x.type],
                     why='a match of what is no enumeration')
        first = self.arm(node, x.type[1], arms[0], bound, expected)
        rest = together(*[lambda a=a: self.arm(node, x.type[1], a, bound, first[2]) for a in arms[1:]])
        arms = [(case, body) for case, body, _ in [first] + rest]
        self.fault_unless_complete(node, [case for case, _ in arms], x.type[1])
        return self.found(node, ('match', node.pos, x.expr, arms), first[2])

    def arm(self, node, enumeration, arm, bound, expected):
        """The case, with whether its content has a name, or None for `anything`; the body; and its type."""
        if arm.case is None:
            x = self.meant(arm.body, bound, expected)
            return None, x.expr, x.type
        case = self.case_named(arm.case)
        fault_unless(case[0] == enumeration, 'E10', node.pos, why='an arm for a case of another enumeration')
        if arm.name:
            fault_unless(self.content(case) is not None, 'E10', node.pos, why='a name for the content of a case that has none')
            bound = bound + [Local(arm.name.text, self.content(case))]
        x = self.meant(arm.body, bound, expected)
        return (case[1], arm.name is not None), x.expr, x.type

    def fault_unless_complete(self, node, cases, enumeration):
        """Each case once, or `anything` last in the place of some."""
        named = [case[0] for case in cases if case]
        declared = named_in(self.types.enumerations[enumeration].parts)
        lacks = [name for k, name in enumerate(declared) if k not in named and None not in cases]
        twice = [declared[k] for k in sorted(set(named)) if named.count(k) > 1]
        is_last = None not in cases or cases.index(None) == len(cases) - 1
        fault_unless(not lacks and not twice and is_last, 'E11', node.pos, lacks=lacks, twice=twice)
