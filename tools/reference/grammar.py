"""Programs as trees, read from tokens by descent. Where a list of tokens is no program, the token is told with which it begins none any
more; at the end of the text, and where an expression is too deep, only that."""
from collections import namedtuple

from .tokens import Fault, Refused

FORMS = ('if', 'match', 'for all', 'exists', 'map each', 'list of', 'combine all')
PREFIXES = ('integer', 'decimal', 'money', 'round of', 'get_year', 'get_month', 'get_day', 'number of')
COMPARED = ('<', '<=', '>', '>=', '=', '!=', 'contains')
LEVELS = {1: ('or', 'xor'), 2: ('and',), 5: ('+', '-'), 6: ('*', '/')}
DEEPEST = 256

Name = namedtuple('Name', 'text pos')
Type = namedtuple('Type', 'lists base pos')  # base: the keyword, or the Name of a type; pos of the base
Case = namedtuple('Case', 'type name')  # type: a Name or None
Node = namedtuple('Node', 'form pos height parts end')  # pos of the first token, end of the last one; parts by form
Variable = namedtuple('Variable', 'kind name type params called')
Structure = namedtuple('Structure', 'name fields')
Enumeration = namedtuple('Enumeration', 'name cases')
Scope = namedtuple('Scope', 'name variables')
Block = namedtuple('Block', 'name condition uses')
Target = namedtuple('Target', 'name inner params')
Use = namedtuple('Use', 'form pos label exception target condition body')  # exception: None, (pos, Name or None)
Arm = namedtuple('Arm', 'case name body')  # case None: anything


class Reader:
    def __init__(self, tokens):
        self.tokens, self.at = tokens, 0
        self.behind_arms = None  # where the last match ended at two dashes that begin no arm

    def kind(self, ahead=0):
        return self.tokens[self.at + ahead].kind if self.at + ahead < len(self.tokens) else None

    def take(self, *kinds):
        """The next token, which has one of these kinds."""
        if self.kind() not in kinds:
            raise self.unexpected()
        self.at += 1
        return self.tokens[self.at - 1]

    def unexpected(self):
        """Where `with pattern` begins no match, it may have begun a test that breaks off behind it. Two dashes behind the arms of a
        match may begin one more, which breaks off behind them."""
        first = self.at + (self.at == self.behind_arms)
        last = first + (self.kind() == 'with pattern' and self.kind(1) == '--')
        positions = [token.pos for token in self.tokens[first:last + 1]]
        return Refused([Fault('E6', pos) for pos in positions or [None]])

    def taken(self, *kinds):
        return self.take(*kinds) if self.kind() in kinds else None

    def name(self, kind):
        token = self.take(kind)
        return Name(token.value, token.pos)

    def several(self, part, *between):
        parts = [part()]
        while self.taken(*between):
            parts.append(part())
        return parts

    # ---- declarations and blocks

    def program(self):
        items = []
        while self.kind() is not None:
            items.append(self.declaration() if self.taken('declaration') else self.block())
        return items

    def declaration(self):
        what = self.take('structure', 'enumeration', 'scope').kind
        name = self.name('U')
        self.take(':')
        parts = []
        if what == 'structure':
            while not parts or self.kind() == 'data':
                self.take('data')
                parts.append(self.typed('content'))
            return Structure(name, parts)
        if what == 'enumeration':
            while not parts or self.kind() == '--':
                self.take('--')
                parts.append((self.name('U'), self.type() if self.taken('content') else None))
            return Enumeration(name, parts)
        while self.kind() in ('input', 'output', 'internal', 'context', 'w'):
            parts.append(self.variable())
        return Scope(name, parts)

    def typed(self, word):
        name = self.name('w')
        self.take(word)
        return name, self.type()

    def type(self):
        lists = 0
        while self.taken('list of'):
            lists += 1
        token = self.take('boolean', 'integer', 'decimal', 'money', 'date', 'duration', 'U')
        return Type(lists, Name(token.value, token.pos) if token.kind == 'U' else token.kind, token.pos)

    def variable(self):
        if self.kind() == 'w':
            name = self.name('w')
            self.take('scope')
            return Variable('called', name, None, [], self.name('U'))
        kind = self.take('input', 'output', 'internal', 'context').kind
        if kind in ('input', 'context') and self.taken('output'):
            kind += ' output'
        name = self.name('w')
        written = None if self.taken('condition') else self.take('content') and self.type()
        params = self.several(lambda: self.typed('content'), ',') if self.taken('depends on') else []
        return Variable(kind, name, written, params, None)

    def block(self):
        self.take('scope')
        name = self.name('U')
        condition = self.expression() if self.taken('under condition') else None
        self.take(':')
        uses = []
        while self.kind() in ('label', 'exception', 'definition', 'rule', 'assertion', 'date round'):
            uses.append(self.use())
        return Block(name, condition, uses)

    def use(self):
        if self.kind() == 'assertion':
            return Use('assertion', self.take('assertion').pos, None, None, None, None, self.expression())
        if self.kind() == 'date round':
            pos = self.take('date round').pos
            return Use('date round', pos, None, None, None, None, self.take('increasing', 'decreasing').kind)
        label = self.name('w') if self.taken('label') else None
        word = self.taken('exception')
        exception = (word.pos, self.name('w') if self.kind() == 'w' else None) if word else None
        form = self.take('definition', 'rule')
        name = self.name('w')
        inner = self.name('w') if self.taken('.') else None
        params = self.several(lambda: self.name('w'), ',') if self.taken('of') else []
        condition = None
        if self.taken('under condition'):
            condition = self.expression()
            self.take('consequence')
        if form.kind == 'definition':
            self.take('equals')
            body = self.expression()
        else:
            body = self.taken('not') is None
            self.take('fulfilled')
        return Use(form.kind, form.pos, label, exception, Target(name, inner, params), condition, body)

    # ---- expressions

    def node(self, form, pos, *parts, below=()):
        height = 1 + max([part.height for part in below], default=0)
        if height > DEEPEST:
            raise Refused([Fault('E7', None)])
        return Node(form, pos, height, parts, self.tokens[self.at - 1].end)

    def expression(self):
        return self.level(1)

    def level(self, k):
        """An expression of this level or a higher one, or a form, with which reading ends."""
        if self.kind() in FORMS:
            return self.form()
        if k == 3:
            return self.prefixed(3, 'not') if self.kind() == 'not' else self.level(4)
        if k == 7:
            return self.prefixed(7, '-') if self.kind() == '-' else self.level(8)
        if k == 4:
            return self.comparison()
        if k == 8:
            return self.prefix()
        left = self.level(k + 1)
        while self.kind() in LEVELS[k] and not ends_in_form(left):
            operator = self.take(*LEVELS[k])
            right = self.level(k + 1)
            left = self.node('binary', left.pos, operator.kind, operator.pos, left, right, below=(left, right))
        return left

    def prefixed(self, k, word):
        pos = self.take(word).pos
        part = self.level(k)
        return self.node('prefix', pos, word, part, below=(part,))

    def comparison(self):
        left = self.level(5)
        if ends_in_form(left):
            return left
        if self.kind() in COMPARED:
            operator = self.take(*COMPARED)
            right = self.level(5)
            return self.node('binary', left.pos, operator.kind, operator.pos, left, right, below=(left, right))
        if self.kind() == 'with pattern' and self.kind(1) != '--':
            pos = self.take('with pattern').pos
            return self.node('test', left.pos, left, pos, self.case(), below=(left,))
        return left

    def case(self):
        name = self.name('U')
        if self.kind() == '.' and self.kind(1) == 'U':
            self.take('.')
            return Case(name, self.name('U'))
        return Case(None, name)

    def prefix(self):
        if self.kind() in PREFIXES:
            token = self.take(*PREFIXES)
            if not token.kind.endswith(' of'):
                self.take('of')
            part = self.level(8)
            return self.node('prefix', token.pos, token.kind, part, below=(part,))
        if self.kind() == 'sum':
            pos = self.take('sum').pos
            written = self.type()
            self.take('of')
            part = self.level(8)
            return self.node('sum', pos, written, part, below=(part,))
        if self.kind() == 'w' and self.kind(1) == 'of':
            name = self.name('w')
            self.take('of')
            args = self.several(self.highest, ',')
            return self.node('call', name.pos, name, args, below=args)
        if self.kind() == 'U':
            start = self.at
            case = self.case()
            if self.taken('content'):
                part = self.level(8)
                pos = (case.type or case.name).pos
                return self.node('content', pos, case, part, below=(part,))
            self.at = start
        return self.highest()

    def highest(self):
        base = self.base()
        while self.kind() == '.':
            self.take('.')
            base = self.node('field', base.pos, base, self.name('w'), below=(base,))
        return base

    def base(self):
        kind = self.kind()
        if kind == 'w':
            name = self.name('w')
            return self.node('name', name.pos, name)
        if kind == '(':
            pos = self.take('(').pos
            part = self.expression()
            self.take(')')
            return self.node('parentheses', pos, part, below=(part,))
        if kind == '[':
            pos = self.take('[').pos
            parts = [] if self.kind() == ']' else self.several(self.expression, ';')
            self.take(']')
            return self.node('list', pos, parts, below=parts)
        if kind == 'output of':
            return self.scope_call()
        if kind == 'U' and self.kind(1) == '{':
            name = self.name('U')
            if self.kind(1) == '}':
                self.take('{')
                raise self.unexpected()
            fields = self.fields()
            return self.node('structure', name.pos, name, fields, below=[value for _, value in fields])
        if kind == 'U':
            case = self.case()
            return self.node('case', (case.type or case.name).pos, case)
        token = self.take('INT', 'DEC', 'MONEY', 'DATE', 'true', 'false')
        if token.kind == 'INT' and token.value <= 999_999_999 and self.kind() in ('year', 'month', 'day'):
            unit = self.take('year', 'month', 'day').kind
            months = {'year': 12, 'month': 1, 'day': 0}[unit] * token.value
            return self.node('literal', token.pos, 'duration', (months, token.value if unit == 'day' else 0))
        types = {'INT': 'integer', 'DEC': 'decimal', 'MONEY': 'money', 'DATE': 'date'}
        value = token.value if token.kind in types else token.kind == 'true'
        return self.node('literal', token.pos, types.get(token.kind, 'boolean'), value)

    def fields(self):
        self.take('{')
        fields = []
        while self.taken('--'):
            name = self.name('w')
            self.take(':')
            fields.append((name, self.expression()))
        self.take('}')
        return fields

    def scope_call(self):
        pos = self.take('output of').pos
        scope = self.name('U')
        self.take('with')
        fields = self.fields()
        self.take('.')
        return self.node('scope call', pos, scope, fields, self.name('w'), below=[value for _, value in fields])

    def form(self):
        token = self.take(*FORMS)
        if token.kind == 'if':
            test = self.expression()
            self.take('then')
            yes = self.expression()
            self.take('else')
            no = self.expression()
            return self.node('if', token.pos, test, yes, no, below=(test, yes, no))
        if token.kind == 'match':
            subject = self.expression()
            self.take('with pattern')
            arms = [self.arm()]
            while self.kind() == '--' and self.kind(1) in ('U', 'anything'):
                arms.append(self.arm())
            if self.kind() == '--':
                self.behind_arms = self.at
            return self.node('match', token.pos, subject, arms, below=[subject] + [arm.body for arm in arms])
        name = self.name('w')
        self.take('among')
        over = self.expression()
        if token.kind == 'combine all':
            self.take('in')
            total = self.name('w')
            self.take('initially')
            start = self.expression()
            self.take('with')
            body = self.expression()
            return self.node('combine', token.pos, name, over, total, start, body, below=(over, start, body))
        self.take({'for all': 'we have', 'map each': 'to'}.get(token.kind, 'such that'))
        body = self.expression()
        return self.node('each', token.pos, token.kind, name, over, body, below=(over, body))

    def arm(self):
        self.take('--')
        if self.taken('anything'):
            case = name = None
        else:
            case = self.case()
            name = self.name('w') if self.taken('of') else None
        self.take(':')
        return Arm(case, name, self.expression())


def ends_in_form(node):
    if node.form in ('if', 'match', 'each', 'combine'):
        return True
    last = node.parts[-1] if node.parts else None
    return node.form in ('binary', 'prefix', 'sum', 'content') and ends_in_form(last)


def tree_of(tokens):
    return Reader(tokens).program()
