"""The jump code of a program, and its listing: what `emit` writes, once more."""
from .answers import Given, replies_of
from .lowered import Expressions, is_function, starts

EMPTY, NEVER, ALWAYS = None, ('never',), ('always',)


class Default:
    """Exceptions, and what holds where none of them does: under a justification a consequence or a default."""

    def __init__(self, exceptions, justification, consequence):
        self.exceptions, self.justification, self.consequence = exceptions, justification, consequence


class Lowering(Expressions):
    """The code of the scopes of a program, each behind the one declared before it, with the functions of a scope in front
    of its body."""

    def __init__(self, program):
        super().__init__(program.types, program.scopes)
        self.names, self.forests = program.names, program.forests
        self.entries, self.functions = [], []
        self.definitions = [d.pos for scope in self.scopes for d in scope.definitions]
        self.definition_starts = starts(self.scopes, lambda s: len(s.definitions))
        for self.number, self.scope in enumerate(self.scopes):
            self.items = self.scope.items
            self.put_scope()

    # ---- scopes

    def put_scope(self):
        for n, item in enumerate(self.items):
            if is_function(item):
                self.functions.append(len(self.code))
                self.variable(n, item)
                self.put('return')
        self.entries.append(len(self.code))
        for n in self.scope.order:
            self.put_item(n, self.items[n])
        for condition, pos in self.scope.assertions:
            self.push(condition, [])
            self.positioned('assert', pos)
        outputs = [n for n, item in enumerate(self.items) if item.kind.endswith('output')]
        for n in outputs:
            self.put('slot', n)
        self.put('pack', len(outputs))
        self.put('return')

    def put_item(self, n, item):
        kind = item.kind.split()[0]
        if kind == 'called':
            self.called(n, item)
        elif kind == 'context':
            self.over(['given', n], lambda: self.stored(n, item))
        elif kind != 'input' and not is_function(item):
            self.stored(n, item)

    def stored(self, n, item):
        self.variable(n, item)
        self.put('store', n)

    def called(self, n, item):
        self.put('scope', item.called)
        for k, inner in enumerate(self.scopes[item.called].items):
            kind = inner.kind.split()[0]
            if kind == 'input':
                self.target((n, k), item.pos, inner)
                self.put('pass', k)
            elif kind == 'context':
                self.judged((n, k), item.pos, inner, [])
                self.over(['take'], lambda: self.put('pass', k))
        self.put('enter')
        self.put('store', n)

    # ---- targets and terms

    def variable(self, n, item):
        self.target((n, None), item.pos, item)

    def target(self, target, pos, of):
        """The value of a target, or what there is where none of its definitions holds."""
        v = self.judged(target, pos, of, of.params)
        absent = lambda: self.constant('boolean', False) if of.condition else self.put('novalue', v)
        self.branch('take', lambda: None, absent)

    def judged(self, target, pos, of, bound):
        """A default frame that has what the target comes to."""
        self.targets.append((self.number, target, pos))
        v = len(self.targets) - 1
        self.put('begin', v)
        self.add(self.term(target), v, of.type, bound)
        self.put('check', v)
        return v

    def term(self, target):
        if target not in self.forests[self.number]:
            return EMPTY
        groups, roots = self.forests[self.number][target]
        return Default([self.group(groups, g) for g in roots], NEVER, EMPTY)

    def group(self, groups, g):
        own, above = groups[g]
        return Default([self.group(groups, other) for other in above], ALWAYS, Default(list(map(self.definition, own)), NEVER, EMPTY))

    def definition(self, n):
        condition = self.scope.definitions[n].condition
        return Default([], ALWAYS if condition is None else ('where', condition), n)

    def add(self, term, v, t, bound):
        """Adds what a term comes to to the default frame on top."""
        if isinstance(term, int):
            self.push(self.scope.definitions[term].body, bound, t)
            self.put('hold', self.definition_starts[self.number] + term)
        elif term is not EMPTY:
            self.add_default(term, v, t, bound)

    def add_default(self, term, v, t, bound):
        consequence = lambda: self.add(term.consequence, v, t, bound)
        if not term.exceptions:
            self.under(term.justification, consequence, bound)
        elif len(term.exceptions) == 1 and term.justification == NEVER:
            self.add(term.exceptions[0], v, t, bound)
        else:
            self.put('begin', v)
            for exception in term.exceptions:
                self.add(exception, v, t, bound)
            self.put('check', v)
            if term.justification != NEVER:
                checked = lambda: (consequence(), self.put('check', v))
                self.over(['held'], lambda: self.under(term.justification, checked, bound))
            self.put('merge')

    def under(self, justification, part, bound):
        if justification == ALWAYS:
            part()
        elif justification != NEVER:
            self.push(justification[1], bound)
            self.over(['jumpfalse'], part)

    # ---- the listing

    def listing(self):
        return ''.join(line + '\n' for line in self.lines())

    def lines(self):
        yield 'catala-code 1'
        yield from ('file %s' % name for name in self.names)
        yield from self.declared()
        yield from ('target %s %s' % (self.place(number, *target), at(pos)) for number, target, pos in self.targets)
        yield from ('definition %s' % at(pos) for pos in self.definitions)
        yield from ('function %d' % entry for entry in self.functions)
        yield from ('position %s' % at(pos) for pos in self.positions)
        given = Given(self.types)
        yield from ('const %s %s' % (self.type(t), given.written(value, t)) for t, value in self.constants)
        yield from (' '.join(map(str, (n, *instruction))) for n, instruction in enumerate(self.code))

    def declared(self):
        for structure in self.types.structures:
            yield 'structure %s' % structure.name
            yield from ('field %s %s' % (name, self.type(t)) for name, t in structure.parts)
        for enumeration in self.types.enumerations:
            yield 'enumeration %s' % enumeration.name
            yield from ('case %s%s' % (name, ' ' + self.type(t) if t else '') for name, t in enumeration.parts)
        for scope, entry in zip(self.scopes, self.entries):
            yield 'scope %s %d' % (scope.name, entry)
            yield from ('item %s %s %s %s' % (i.name, i.kind.replace(' ', ''), at(i.pos), self.what(i)) for i in scope.items)

    def what(self, item):
        if item.kind == 'called':
            return self.scopes[item.called].name
        params = ' of ' + ', '.join(map(self.type, item.params)) if item.params else ''
        return ('condition' if item.condition else self.type(item.type)) + params

    def type(self, t):
        if isinstance(t, str):
            return t
        if t[0] == 'list':
            return 'list of %s' % self.type(t[1])
        return (self.types.structures if t[0] == 'structure' else self.types.enumerations)[t[1]].name

    def place(self, number, item, inner):
        scope = self.scopes[number]
        of = scope.items[item]
        names = [scope.name, of.name] + ([] if inner is None else [self.scopes[of.called].items[inner].name])
        return '.'.join(names)


def at(pos):
    return '%d:%d:%d' % (pos.file, pos.line, pos.column)


def listings(files, main, scope):
    """Each reply that `emit` may give, without its last line feed: the listing, or what refuses the source or the scope."""
    return replies_of(files, main, lambda program: listing(program, scope).rstrip('\n'))


def listing(program, scope):
    """The listing of a program, where it has that scope."""
    return Lowering(program).listing() if scope in program.runs.numbers else 'no such scope %s' % scope
