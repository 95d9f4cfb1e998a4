"""Sources at random whose expressions are of every form, typed as they are made, each with inputs of its scope."""
import json, random, re

DECLARED = '''declaration structure P:
  data a content integer
  data b content money
  data c content list of integer
declaration enumeration E:
  -- F
  -- G content integer
  -- H content P
declaration enumeration D:
  -- X content boolean
  -- Y
declaration scope T:
  input a content integer
  input q condition
  context output b content integer
  output c content boolean
  context k condition
  input output e content E
  internal g content integer depends on u content integer
scope T:
  definition b under condition a > -1 consequence equals a * 2
  exception definition b under condition q consequence equals 7
  definition c equals k xor q
  definition g of u under condition u > 3 consequence equals u - a
  definition g of u under condition u <= 3 consequence equals 0 - u
declaration scope S:
  input n content integer
  input p content boolean
  input s content P
  input l content list of integer
  input en content E
  internal m content integer
  t scope T
  internal f content integer depends on u content integer, v content list of integer
'''
DEFINED = '''  definition m equals n + 1
  definition t.a equals n
  definition t.e equals en
  definition f of u, v under condition u > 0 consequence equals u + number of v
  exception definition f of u, v under condition exists z among v such that z > u consequence equals 100
'''
SOMETIMES = ['  date round increasing\n', '  date round decreasing\n', '  rule t.q under condition p consequence fulfilled\n',
             '  definition t.b under condition n > 1 consequence equals 40\n',
             '  definition f of u, v under condition u <= 0 consequence equals sum integer of v\n']
INPUTS = [('n', 'integer'), ('p', 'boolean'), ('s', 'P'), ('l', 'list of integer'), ('en', 'E'), ('m', 'integer')]
LABELS = [[''], ['', ''], ['', 'exception '], ['label a ', 'exception a '], ['label a ', 'exception a ', 'exception a '],
          ['label a ', 'label b exception a ', 'exception b '], ['label a ', 'label b exception a ', 'label b exception a ']]
TYPES = ['boolean', 'integer', 'decimal', 'money', 'date', 'duration', 'P', 'E', 'D', 'list of integer', 'list of E', 'list of P',
         'list of boolean', 'list of money', 'list of duration', 'list of decimal']
ORDERED = ['integer', 'decimal', 'money', 'date', 'duration']
CASES = {'E': [('F', None), ('G', 'integer'), ('H', 'P')], 'D': [('X', 'boolean'), ('Y', None)]}

# A part in braces is an expression of that type. Where `!` stands behind it a type is expected of it, and where `?` stands
# one is if it is expected of the whole.
LEAVES = {'boolean': ['true', 'false'], 'integer': ['0', '1', '2', '5', '9223372036854775807', 't.b'],
          'decimal': ['0.5', '2.0', '0.0', '-1.25', '33%'], 'money': ['$0', '$10.05', '-$3', '$1,000.50'],
          'date': ['|2024-01-31|', '|2023-03-01|', '|9999-12-01|'], 'duration': ['1 month', '31 day', '2 year', '0 day'],
          'P': ['s', 'P { -- b: $1 -- a: 3 -- c: [1; 2] }'], 'E': ['F', 'G content 2'], 'D': ['Y', 'X content true']}
COMPARED = ['({%s} %s {%s})' % (t, operator, t) for t in ORDERED for operator in ('<', '<=', '>', '>=', '=', '!=')]
ADDED = {t: ['({%s} %s {%s})' % (t, operator, t) for operator in '+-'] for t in ('integer', 'decimal', 'money', 'duration')}
FORMS = {
    'boolean': ['({boolean} %s {boolean})' % operator for operator in ('and', 'or', 'xor', '=', '!=')]
    + ['not ({boolean})', '({list of integer} contains {integer})', '({list of duration} contains {duration})']
    + ['(({E}) with pattern %s)' % case for case in 'FGH'] + COMPARED[::3],
    'integer': ADDED['integer'] + ['({integer} * {integer})', '-({integer})', 'sum integer of ({list of integer})', '({P}).a',
                                   'get_month of ({date})', 'integer of ({decimal})', 'f of ({integer!}), ({list of integer!})']
    + ['number of ({%s})' % t for t in TYPES if t.startswith('list')],
    'decimal': ADDED['decimal'] + ['({decimal} * {decimal})', '({decimal} / {decimal})', '({integer} / {integer})',
                                   'decimal of ({integer})', '({money} / {money})', 'round of ({decimal})',
                                   'sum decimal of ({list of decimal})'],
    'money': ADDED['money'] + ['({money} * {decimal})', '({money} / {integer})', 'sum money of ({list of money})', '({P}).b'],
    'date': ['({date} + {duration})'],
    'duration': ADDED['duration'] + ['({date} - {date})', '({duration} * {integer})'],
    'P': ['P { -- a: {integer!} -- b: {money!} -- c: {list of integer!} }',
          'P { -- c: {list of integer!} -- a: {integer!} -- b: {money!} }'],
    'E': ['G content ({integer!})', 'H content ({P!})', 'F'],
    'D': ['X content ({boolean!})', 'Y'],
    'list of integer': ['({P}).c'],
}
PART = re.compile(r'{([^{}?!]+)([?!]?)}')


class Made:
    """One source, with inputs."""

    def __init__(self, seed):
        self.random, self.names = random.Random(seed), 0

    def name(self):
        self.names += 1
        return 'w%d' % self.names

    def sometimes(self, chance):
        return self.random.random() < chance

    # ---- expressions: of a type, with parts below so many others, where names are bound and a type is expected or isn't

    def expression(self, t, depth, bound, expected=False):
        known = [name for name, kind in bound if kind == t]
        if known and self.sometimes(0.35):
            return self.random.choice(known)
        if depth <= 0:
            return self.leaf(t, expected)
        forms = [lambda: self.filled('(if {boolean} then {%s?} else {%s!})' % (t, t), depth, bound, expected),
                 lambda: self.leaf(t, expected), lambda: self.match(t, depth, bound, expected), lambda: self.combined(t, depth, bound)]
        forms += [lambda: self.filled(self.random.choice(FORMS[t]), depth, bound, expected)] * 8 if t in FORMS else []
        forms += [lambda: self.quantified(depth, bound)] * 2 if t == 'boolean' else []
        forms += [lambda: self.called({'boolean': 'c', 'integer': 'b', 'E': 'e'}[t], depth, bound)] if t in ('boolean', 'integer', 'E') else []
        forms += [lambda: self.elements(t, depth, bound, expected)] * 2 + [lambda: self.over(t, depth, bound)] * 2 \
            if t.startswith('list') else []
        return self.random.choice(forms)()

    def filled(self, form, depth, bound, expected):
        is_expected = {'': False, '!': True, '?': expected}
        return PART.sub(lambda part: self.expression(part[1], depth - 1, bound, is_expected[part[2]]), form)

    def leaf(self, t, expected):
        if not t.startswith('list'):
            return self.random.choice(LEAVES[t])
        if expected and self.sometimes(0.5):
            return '[]'
        return '[%s]' % '; '.join(self.leaf(t[8:], False) for _ in range(self.random.choice([1, 2, 3])))

    def elements(self, t, depth, bound, expected):
        parts = [self.expression(t[8:], depth - 1, bound, expected or k > 0) for k in range(self.random.randrange(4))]
        return '[%s]' % '; '.join(parts or ([] if expected else [self.expression(t[8:], depth - 1, bound)]))

    def list_and_name(self):
        return self.random.choice([t for t in TYPES if t.startswith('list')]), self.name()

    def quantified(self, depth, bound):
        t, name = self.list_and_name()
        words = self.random.choice([('for all', 'we have'), ('exists', 'such that')])
        test = self.expression('boolean', depth - 1, bound + [(name, t[8:])])
        return '(%s %s among %s %s %s)' % (words[0], name, self.expression(t, depth - 1, bound), words[1], test)

    def over(self, t, depth, bound):
        other, name = self.list_and_name()
        if self.sometimes(0.5):
            body = self.expression(t[8:], depth - 1, bound + [(name, other[8:])])
            return '(map each %s among %s to %s)' % (name, self.expression(other, depth - 1, bound), body)
        test = self.expression('boolean', depth - 1, bound + [(name, t[8:])])
        return '(list of %s among %s such that %s)' % (name, self.expression(t, depth - 1, bound), test)

    def combined(self, t, depth, bound):
        other, name = self.list_and_name()
        gathered = self.name()
        body = self.expression(t, depth - 1, bound + [(name, other[8:]), (gathered, t)], True)
        parts = name, self.expression(other, depth - 1, bound), gathered, self.expression(t, depth - 1, bound), body
        return '(combine all %s among %s in %s initially %s with %s)' % parts

    def match(self, t, depth, bound, expected):
        kind = self.random.choice(list(CASES))
        cases = self.random.sample(CASES[kind], len(CASES[kind]))
        is_open = self.sometimes(0.4)
        arms = []
        for case, content in cases[:self.random.randrange(len(cases))] if is_open else cases:
            name = self.name() if content and self.sometimes(0.7) else None
            body = self.expression(t, depth - 1, bound + ([(name, content)] if name else []), expected or bool(arms))
            arms.append('-- %s%s : (%s)' % (case, ' of ' + name if name else '', body))
        if is_open:
            arms.append('-- anything : (%s)' % self.expression(t, depth - 1, bound, expected or bool(arms)))
        return '(match (%s) with pattern %s)' % (self.expression(kind, depth - 1, bound), ' '.join(arms))

    def called(self, output, depth, bound):
        fields = [('a', 'integer'), ('e', 'E')]
        fields += [field for field in [('q', 'boolean'), ('b', 'integer'), ('k', 'boolean')] if self.sometimes(0.35)]
        self.random.shuffle(fields)
        parts = ' '.join('-- %s: %s' % (name, self.expression(t, depth - 1, bound, True)) for name, t in fields)
        return 'output of T with { %s }.%s' % (parts, output)

    # ---- sources and inputs

    def source(self):
        outputs = [('x%d' % k, self.random.choice(TYPES)) for k in range(self.random.choice([1, 1, 2]))]
        kinds = ['  %s %s content %s\n' % (self.random.choice(['output', 'context output']), *output) for output in outputs]
        sometimes = [line for line in self.random.sample(SOMETIMES[:2], 1) + SOMETIMES[2:] if self.sometimes(0.5)]
        lines = [DECLARED, *kinds, 'scope S:\n', *sometimes, DEFINED]
        lines += [self.definition(label, *output) for output in outputs for label in self.random.choice(LABELS)]
        if self.sometimes(0.3):
            lines.append('  assertion %s\n' % self.expression('boolean', 2, INPUTS))
        return ('```catala\n%s```\n' % ''.join(lines)).encode()

    def definition(self, label, name, t):
        condition = '' if self.sometimes(0.6) else ' under condition %s consequence' % self.expression('boolean', 2, INPUTS)
        body = self.expression(t, self.random.choice([2, 3]), INPUTS, True)
        return '  %sdefinition %s%s equals %s\n' % (label, name, condition, body)

    def input(self):
        choice = self.random.choice
        return json.dumps({'n': choice([0, 1, 2, 3, -1]), 'p': choice([True, False]),
                           's': {'a': choice([0, 4]), 'b': choice(['1.50', '0']), 'c': choice([[], [1, 2, 3]])},
                           'l': choice([[], [1], [3, 2, 5]]),
                           'en': choice(['F', {'G': 3}, {'H': {'a': 1, 'b': '2', 'c': []}}])}).encode()
