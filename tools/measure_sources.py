"""The sources that tools/measure runs: each of a size, or at the limits of the language."""
HEAD = ['declaration scope S:', '  input n content integer', '  output x content integer', 'scope S:']
FILE = 4 * 2**20
LIKE = '''  definition tax_due under condition
    taxable_income >= %d and taxable_income < %d and not (number_of_children = %d or is_exempt)
  consequence equals
    (taxable_income - %d) * 3 + (taxable_income - %d) * number_of_children * 2 - 150 * number_of_children'''
WORDS = 'A paragraph of the law, which says in words what the definitions below it compute, and which no program reads.\n'


def block(lines):
    return '\n'.join(['```catala', *lines, '```', ''])


def definitions(count):
    return block(HEAD + ['  definition x under condition n = %d consequence equals n' % k for k in range(count)])


def items(count):
    return block(['declaration scope S:', '  input n content integer', *('  output x%d content integer' % k for k in range(count)),
                  'scope S:', *('  definition x%d equals n + %d' % (k, k) for k in range(count))])


def scopes(count):
    """Scopes each of which has one variable, and no scope calls another."""
    names = ['S'] + ['S%d' % k for k in range(1, count)]
    return block([line for name in names for line in
                  ('declaration scope %s:' % name, '  input n content integer', '  output x content integer',
                   'scope %s:' % name, '  definition x equals n')])


def law(count):
    """Law text around a small program."""
    return block(HEAD + ['  definition x equals n']) + 'A line of the law, which no program reads.\n' * count


DECLARED = ['declaration scope S:', '  input taxable_income content integer', '  input number_of_children content integer',
            '  input is_exempt content boolean', '  output tax_due content integer']


def files(size, words):
    """Files of this many bytes together, each of at most 4 MiB: blocks of eight definitions, with paragraphs between them."""
    texts, number, left = [], 0, size
    while left > 0:
        room = min(FILE, left) - 4096
        parts, used = ([block(DECLARED)], 300) if not texts else ([], 0)
        while used < room:
            lines = ['scope S:'] + [LIKE % (k, k + 10, k + 5, k, k) for k in range(number, number + 8)]
            part = WORDS * words + block(lines)
            parts.append(part)
            used += len(part)
            number += 8
        texts.append(''.join(parts))
        left -= FILE
    return texts


# Forms that stand in themselves, each some 256 deep.
NESTED = [('(%s)', 250), ('if true then %s else n', 250), ('%s + n', 250), ('n + (%s)', 125), ('[%s]', 250), ('f of %s', 1)]


def deep_files(size):
    """Files of this many bytes together, each of at most 4 MiB: definitions whose expressions are as deep as they may be."""
    deep = []
    for form, times in NESTED:
        text = 'n'
        for _ in range(times):
            text = form % text
        deep.append('  definition x equals %s' % text)
    part, left, texts = block(['scope S:', *deep]), size, []
    while left > 0:
        texts.append(block(HEAD) + part * max(1, (min(FILE, left) - 4096) // len(part)))
        left -= FILE
    return texts


# Where a source that is read to its end is refused in the stage behind: what stands in its last block.
ENDS = [
    ('woven', '```catala\nscope S:\n'),
    ('read as tokens', block(['@'])),
    ('parsed', block(['scope S:', '  definition'])),
    ('checked', block(['scope S:', '  definition tax_due equals true'])),
    ('built', ''),
]


# Each form that goes over a list, and the type that it gives.
OVER_LISTS = [
    ('`number of`', 'number of l', 'integer'),
    ('`sum`', 'sum integer of l', 'integer'),
    ('`map each`', 'number of (map each w among l to w + 1)', 'integer'),
    ('`list of .. such that`', 'number of (list of w among l such that w > 500)', 'integer'),
    ('`for all`', 'for all w among l we have w >= 0', 'boolean'),
    ('`exists`', 'exists w among l such that w < 0', 'boolean'),
    ('`combine all`', 'combine all w among l in s initially 0 with s + w', 'integer'),
    ('`contains`', 'l contains (0 - 1)', 'boolean'),
]


def over_list(form, kind):
    return block(['declaration scope S:', '  input l content list of integer', '  output x content %s' % kind, 'scope S:',
                  '  definition x equals %s' % form])


def nested(form, times):
    """A scope whose one definition has a form in itself so often."""
    text = 'n'
    for _ in range(times):
        text = form % text
    return block(HEAD + ['  definition x equals %s' % text])


def deep_call(height, call):
    """A call below an expression of that height."""
    text = call
    for k in range((height - 4) // 2):
        text = '(0 + %s)' % text
    return text


def functions(count, height):
    """A chain of functions, each called below an expression of that height."""
    lines = ['declaration scope S:', '  input n content integer', '  output x content integer']
    lines += ['  internal f%d content integer depends on a content integer' % k for k in range(count)]
    lines += ['scope S:', '  definition x equals %s' % deep_call(height, 'f0 of n')]
    lines += ['  definition f%d of a equals %s' % (k, deep_call(height, 'f%d of a' % (k + 1))) for k in range(count - 1)]
    return block(lines + ['  definition f%d of a equals a' % (count - 1)])


def called(count, height):
    """A chain of scopes, each called in an expression of that height."""
    lines = []
    for k in range(count):
        name = 'S%d' % k if k else 'S'
        body = deep_call(height, 'output of S%d with { -- n : n } . x' % (k + 1)) if k + 1 < count else 'n'
        lines += ['declaration scope %s:' % name, '  input n content integer', '  output x content integer',
                  'scope %s:' % name, '  definition x equals %s' % body]
    return block(lines)


def exceptions(count):
    """A chain of exceptions, each to the one before."""
    lines = ['  label l0 definition x equals n']
    lines += ['  label l%d exception l%d definition x under condition n > %d consequence equals %d' % (k, k - 1, k, k)
              for k in range(1, count)]
    return block(HEAD + lines)


def declared(count):
    """A chain of scopes, each called by a declared item."""
    lines = []
    for k in range(count):
        name = 'S%d' % k if k else 'S'
        lines += ['declaration scope %s:' % name, '  input n content integer', '  output x content integer']
        lines += ['  t scope S%d' % (k + 1)] if k + 1 < count else []
        lines += ['scope %s:' % name]
        lines += ['  definition t.n equals n', '  definition x equals t.x'] if k + 1 < count else ['  definition x equals n']
    return block(lines)


DEEP = [
    ('254 parentheses', nested('(%s)', 254)),
    ('253 `if`, each in the one before', nested('if true then %s else n', 253)),
    ('253 `combine`, each in the one before', nested('combine all w among [n] in s initially 0 with %s', 253)),
    ('126 lists, each of the length of the one before', nested('number of [%s]', 126)),
    ('256 functions, each called at height 250', functions(256, 250)),
    ('256 scopes, each called in an expression of height 240', called(256, 240)),
    ('256 scopes, each called by an item', declared(256)),
    ('256 exceptions, each to the one before', exceptions(256)),
]
