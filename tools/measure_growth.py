"""Work whose cost may grow no faster than a source and an input do, each of a size, for tools/measure and tests/growth.

Each makes the files of a call of a size, its words and what it is given, and begins the reply that is due."""
import json, math, subprocess, sys

from measure_audits import bands, source
from measure_runs import measured
from measure_sources import HEAD, block, definitions, items, law, scopes


class Call:
    """A call of the program over files of its own, after a call whose reply becomes one of the files where there is one."""

    def __init__(self, words, files, given=b'', reply=b'', first=None):
        self.words, self.files, self.given, self.reply, self.first = words, files, given, reply, first


def run(text, given, reply):
    return Call(['run', 'S', 'a.md'], {'a.md': text}, json.dumps(given).encode(), reply)


def audit(scope, text, said):
    return Call(['audit', scope, 'a.md'], {'a.md': text}, reply=b'audit %s\n%s' % (scope.encode(), said))


def check(scope, text):
    return Call(['check', scope, 'a.md', 'made'], {'a.md': text}, reply=b'Yes\n', first=['audit', scope, 'a.md'])


def table(scope, text, said):
    return Call(['table', scope, 'a.md'], {'a.md': text}, reply=b'table %s.%s\n' % (scope.encode(), said))


def emit(text):
    return Call(['emit', 'S', 'a.md'], {'a.md': text}, reply=b'catala-code 1\n')


def executed(text, given, reply):
    return Call(['exec', 'S', 'made'], {'a.md': text}, json.dumps(given).encode(), reply, ['emit', 'S', 'a.md'])


def trace(text, given, reply):
    return Call(['trace', 'S', 'a.md'], {'a.md': text}, json.dumps(given).encode(), reply)


def many(text, inputs, reply):
    return Call(['many', 'S', 'a.md'], {'a.md': text}, json.dumps(inputs).encode(), reply)


def grid(count):
    """A rule for each cell of a square of two amounts; so many rules or a few less."""
    side = int(count ** 0.5)
    lines = ['declaration scope S:', '  input a content money', '  input b content money', '  output x content integer', 'scope S:']
    def part(name, k):
        asked = (['%s >= $%d' % (name, 10 * k)] if k else []) + (['%s < $%d' % (name, 10 * (k + 1))] if k + 1 < side else [])
        return ' and '.join(asked)
    return block(lines + ['  definition x under condition %s and %s consequence equals %d' % (part('a', j), part('b', k), j * side + k)
                          for j in range(side) for k in range(side)])


def both(parts):
    """Parts joined by `and`, half by half, since nothing nests deeper than 256."""
    if len(parts) == 1:
        return parts[0]
    half = len(parts) // 2
    return '(%s and %s)' % (both(parts[:half]), both(parts[half:]))


def ladder(count):
    """A definition for each of some truth values where it is the first that holds, and one where none does: so many parts in all."""
    values = round((2 * count) ** 0.5)
    asked = [['not b%d' % j for j in range(k)] + ['b%d' % k] * (k + 1 < values) for k in range(values)]
    return block(['declaration scope S:', *('  input b%d content boolean' % k for k in range(values)), '  output x content integer',
                  'scope S:', *('  definition x under condition %s consequence equals %d' % (both(parts), k)
                                for k, parts in enumerate(asked))])


def chains(count):
    """Variables with a base and four exceptions, each to the one before and over a term of its own: so many definitions."""
    variables = count // 5
    lines = ['declaration scope S:', '  input n content integer', *('  output x%d content integer' % k for k in range(variables)), 'scope S:']
    for k in range(variables):
        lines.append('  label a%d_0 definition x%d equals 0' % (k, k))
        lines += ['  label a%d_%d exception a%d_%d definition x%d under condition n * %d > 5 consequence equals %d'
                  % (k, j, k, j - 1, k, 4 * k + j + 1, j) for j in range(1, 5)]
    return block(lines)


def derived_gaps(count):
    """So many bands of what a scope computes, between each two of which a number is missing."""
    lines = ['declaration scope Derived:', '  input n content integer', '  internal y content integer', '  output x content integer',
             'scope Derived:', '  definition y equals n * 2']
    return block(lines + ['  definition x under condition y >= %d and y < %d consequence equals %d' % (10 * k, 10 * k + 9, k)
                          for k in range(count)])


def findings(count):
    """Variables with a gap each, whose inputs all have a value in each finding: so many values in all."""
    side = round(count ** 0.5)
    return block(['declaration scope S:', *('  input b%d content boolean' % k for k in range(side)),
                  *('  output x%d content integer' % k for k in range(side)), 'scope S:',
                  *('  definition x%d under condition b%d consequence equals 0' % (k, k) for k in range(side))])


def shared_condition(count):
    """A block under a condition of a few parts, with so many definitions."""
    parts = ' and '.join('n != %d' % (1000000 + k) for k in range(4))
    return block(HEAD[:3] + ['scope S under condition %s:' % parts] +
                 ['  definition x under condition n = %d consequence equals n' % k for k in range(count)])


def joined(count):
    """A block under a condition of so many parts, as many definitions of it, with conditions of their own or parameters, and one that is refused."""
    asked = both(['n != %d' % (1000000 + k) for k in range(count)])
    own = ['  definition x under condition n = %d consequence equals n' % k for k in range(count // 2)]
    called = ['  definition f of a under condition a = %d consequence equals a' % k for k in range(count // 2)]
    return block([*HEAD[:3], '  internal f content integer depends on a content integer', 'scope S under condition %s:' % asked,
                  *own, *called, '  definition x equals true'])


def literal(count):
    """A structure of so many fields, which a literal gives in their order."""
    return block(['declaration structure T:', *('  data f%d content integer' % k for k in range(count)), 'declaration scope S:',
                  '  input n content integer', '  output x content integer', 'scope S:',
                  '  definition x equals T { %s } . f0' % ' '.join('-- f%d : n' % k for k in range(count))])


def turned(count):
    """The same, which the literal gives from the last to the first."""
    head, body = literal(count).split('T {')
    given, rest = body.split(' }', 1)
    return head + 'T {' + ''.join(' --' + part for part in reversed(given.split(' --')[1:])) + ' }' + rest


def articles(count):
    """A law of so many articles, each of which defines a variable under its heading."""
    declared = ['declaration scope S:', '  input n content integer', *('  output x%d content integer' % k for k in range(count))]
    return block(declared) + ''.join('# Article %d\n%s' % (k, block(['scope S:', '  definition x%d equals n + %d' % (k, k)]))
                                     for k in range(count))


def unknown_keys(count):
    """An input with so many keys that name nothing."""
    return {'n': 1, **{'k%d' % k: 0 for k in range(count)}}


def persons(count):
    """A list of so many structures."""
    text = block(['declaration structure P:', '  data income content integer', 'declaration scope S:', '  input l content list of P',
                  '  output x content integer', 'scope S:', '  definition x equals sum integer of map each p among l to p.income'])
    return run(text, {'l': [{'income': 1} for _ in range(count)]}, b'{"x":%d}\n' % count)


def lay(folder, program, call):
    """Lays the files of a call down."""
    for name, text in call.files.items():
        (folder / name).write_text(text)
    if call.first:
        made = subprocess.run([program, *call.first], cwd=folder, stdout=subprocess.PIPE)
        (folder / 'made').write_bytes(made.stdout)


# What grows, the call of a size, and the greatest size that tools/measure takes.
WORK = [
    ('definitions of one variable', lambda n: run(definitions(n), {'n': 1}, b'{"x":1}\n'), 64_000),
    ('variables of a scope', lambda n: run(items(n), {'n': 1}, b'{"x0":1,'), 4_000),
    ('scopes', lambda n: run(scopes(n), {'n': 1}, b'{"x":1}\n'), 32_000),
    ('lines of law', lambda n: run(law(n), {'n': 1}, b'{"x":1}\n'), 64_000),
    ('definitions under the condition of a block', lambda n: run(shared_condition(n), {'n': 1}, b'{"x":1}\n'), 16_000),
    ('parts of the condition of a block, and its definitions, up to the end of checking',
     lambda n: run(joined(n), {'n': 1}, b'source refused E10 '), 4_000),
    ('fields of a structure literal', lambda n: run(literal(n), {'n': 1}, b'{"x":1}\n'), 64_000),
    ('fields of a structure literal, the last one first', lambda n: run(turned(n), {'n': 1}, b'{"x":1}\n'), 64_000),
    ('keys of an input that name nothing', lambda n: run(definitions(2), unknown_keys(n), b'input refused '), 640_000),
    ('structures in a list', persons, 640_000),
    ('an audit of bands', lambda n: audit('Bands', source(bands(n, 'in order')), b'rate: Covered'), 32_000),
    ('an audit of bands in any order', lambda n: audit('Bands', source(bands(n, 'shuffled')), b'rate: Covered'), 32_000),
    ('a check of bands', lambda n: check('Bands', source(bands(n, 'in order'))), 32_000),
    ('an audit of a grid', lambda n: audit('S', grid(n), b'x: Covered'), 32_400),
    ('a check of a grid', lambda n: check('S', grid(n)), 32_400),
    ('a table of bands', lambda n: table('Bands', source(bands(n, 'in order')), b'rate'), 32_000),
    ('a table of a grid', lambda n: table('S', grid(n), b'x'), 32_400),
    ('an audit of a ladder of truth values, by its parts', lambda n: audit('S', ladder(n), b'x: Covered'), 240_000),
    ('an audit of chains of exceptions over terms of their own', lambda n: audit('S', chains(n), b'x0: Covered'), 16_000),
    ('an audit of bands of a computed number with gaps',
     lambda n: audit('Derived', derived_gaps(n), b'y: Covered\nx: Undecided derived at '), 16_000),
    ('an audit whose findings write all inputs, by the values written', lambda n: audit('S', findings(n), b'x0: Found no value '), 640_000),
    ('the code of definitions of one variable', lambda n: emit(definitions(n)), 64_000),
    ('the code of variables of a scope', lambda n: emit(items(n)), 4_000),
    ('the code of scopes', lambda n: emit(scopes(n)), 32_000),
    ('the code of a structure literal, the last field first', lambda n: emit(turned(n)), 64_000),
    ('the listing of definitions of one variable, run', lambda n: executed(definitions(n), {'n': 1}, b'{"x":1}\n'), 64_000),
    ('the listing of variables of a scope, run', lambda n: executed(items(n), {'n': 1}, b'{"x0":1,'), 4_000),
    ('the listing of scopes, run', lambda n: executed(scopes(n), {'n': 1}, b'{"x":1}\n'), 32_000),
    ('a trace of articles', lambda n: trace(articles(n), {'n': 1}, b'S.x0 by a.md:'), 4_000),
    ('many inputs', lambda n: many(items(20), [{'n': k} for k in range(n)], b'{"x0":0,'), 64_000),
    ('a drill', lambda n: Call(['drill', str(n), 'none'], {}, reply=b'bands %d ' % n), 1_000),
]


def growth(folder, program):
    """Times of three sizes, each four times the one before, and the exponent of the last step."""
    print('\n| What grows | sizes | time | memory | exponent |\n|---|---|---|---|---|')
    for told, make, most in WORK:
        sizes = most // 16, most // 4, most
        took = []
        for size in sizes:
            call = make(size)
            lay(folder, program, call)
            took.append(measured(folder, [program, *call.words], call.given))
            if not took[-1][2].startswith(call.reply):
                print('%s, %d: %r' % (told, size, took[-1][2][:80]), file=sys.stderr)
        exponent = math.log(took[2][0] / max(took[1][0], 0.001)) / math.log(4)
        print('| %s | %s | %s | %s | %.2f |' % (told, ', '.join(format(size, ',') for size in sizes),
                                              ', '.join('%.2f s' % each[0] for each in took),
                                              ', '.join('%.0f MiB' % each[1] for each in took), exponent), flush=True)


def doubled_types(count):
    """Structure types, each with the one before twice."""
    return [line for k in range(1, count + 1) for line in
            ('declaration structure T%d:' % k, *('  data %s content %s' % (name, 'T%d' % (k - 1) if k > 1 else 'integer')
                                                 for name in 'ab'))]


def doubled_output(count):
    values = ['n', *('v%d' % k for k in range(1, count)), 'x']
    return block([*doubled_types(count), *HEAD[:2], *('  internal v%d content T%d' % (k, k) for k in range(1, count)),
                  '  output x content T%d' % count, 'scope S:',
                  *('  definition %s equals T%d { -- a : %s -- b : %s }' % (values[k], k, values[k - 1], values[k - 1])
                    for k in range(1, count + 1))])


def doubled_input(count):
    return block([*doubled_types(count), *HEAD[:3], '  input t content T%d' % count, 'scope S:',
                  '  definition x under condition n > 3 consequence equals n'])


def doubled(folder, program):
    """What would be made of types that double: what is too much is known before it is made."""
    print('\n| Structure types, each with the one before twice | number | time | memory | bytes written |\n|---|---|---|---|---|')
    for told, mode, made in (('as an output', 'run', doubled_output), ("as an audit's input", 'audit', doubled_input)):
        for count in (8, 13, 18, 24, 60):
            (folder / 'a.md').write_text(made(count))
            took, memory, reply = measured(folder, [program, mode, 'S', 'a.md'], b'{"n":1}')
            print('| %s | %d | %.2f s | %.0f MiB | %s |' % (told, count, took, memory, format(len(reply), ',')), flush=True)
