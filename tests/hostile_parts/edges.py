"""Each limit of the language that is none of expressions, at its edge and one past it."""
from typing import NamedTuple, Optional

from measure_sources import HEAD, block, called, declared, definitions, exceptions, files, functions, items, over_list

from .forms import MOST, of_height

FILE, ALL, INPUT = 4 * 2**20, 16 * 2**20, 64 * 2**20
# Of outputs, the list among them.
PARTS = 2**24


class Edge(NamedTuple):
    """A call by what it is at the edge of, its files, its words and standard input, how its reply begins, and where it is known, how long
    it is."""
    name: str
    files: dict
    words: list
    given: bytes
    status: int
    reply: bytes
    length: Optional[int] = None


def run(name, source, status, reply, given=b'{"n":1}', **files):
    text = source if isinstance(source, bytes) else source.encode()
    return Edge(name, {'a.md': text, **files}, ['run', 'S', 'a.md'], given, status, reply)


def both(name, most, make, code, given=b'{"n":1}', reply=b'{"x'):
    """At the edge it is accepted, and one past it is refused."""
    yield run('%d %s' % (most, name), make(most), 0, reply, given)
    yield run('%d %s' % (most + 1, name), make(most + 1), 4, b'source refused %s at ' % code, given)


def structures(count):
    """Types, each of which has the one before as a part."""
    lines = ['declaration structure A0:', '  data a content integer']
    for k in range(1, count - 1):
        lines += ['declaration structure A%d:' % k, '  data a content A%d' % (k - 1)]
    return block(lines + HEAD + ['  definition x equals n'])


def alternatives(count):
    lines = ['declaration enumeration A0:', '  -- C content integer']
    for k in range(1, count - 1):
        lines += ['declaration enumeration A%d:' % k, '  -- C content A%d' % (k - 1)]
    return block(lines + HEAD + ['  definition x equals n'])


def lists(count):
    kind = 'list of ' * (count - 2) + 'integer'
    return block(['declaration structure L:', '  data y content ' + kind, *HEAD, '  definition x equals n'])


def nested_lists(count):
    """Of a type so high, by an expression alone."""
    return valued('number of ' + '[' * (count - 1) + 'n' + ']' * (count - 1))


def cases(count):
    return block(['declaration enumeration E:', *('  -- C%d' % k for k in range(count))] + HEAD + ['  definition x equals n'])


def parameters(count):
    names = ['a%d' % k for k in range(count)]
    declared = '  internal f content integer depends on ' + ', '.join('%s content integer' % name for name in names)
    return block([*HEAD[:2], declared, *HEAD[2:], '  definition f of %s equals a0' % ', '.join(names),
                  '  definition x equals f of %s' % ', '.join(['n'] * count)])


def valued(text, kind='integer'):
    return block([*HEAD[:2], '  output x content ' + kind, HEAD[3], '  definition x equals ' + text])


def chains():
    yield from both('exceptions in a chain', 256, exceptions, b'E20', given=b'{"n":1}')
    yield from both('functions in a chain', 256, lambda count: functions(count, 10), b'E20')
    yield from both('scopes in a chain of items', 256, declared, b'E20')
    yield from both('scopes in a chain of calls', 256, lambda count: called(count, 10), b'E20')
    yield from both('items', 4096, lambda count: items(count - 1), b'E20')
    yield from both('cases', 128, cases, b'E20')
    yield from both('parameters', 8, parameters, b'E20')
    yield from both('structures in each other', 64, structures, b'E20')
    yield from both('enumerations in each other', 64, alternatives, b'E20')
    yield from both('lists in each other', 64, lists, b'E20')
    yield from both('lists in each other in an expression', 64, nested_lists, b'E20')


def literals():
    for text, kind, reply in (('9223372036854775807', 'integer', b'{"x":9223372036854775807}'), ('9223372036854775808', 'integer', b''),
                              ('999999999.999999999', 'decimal', b'{"x":"999999999.999999999"}'), ('1000000000.0', 'decimal', b''),
                              ('0.1234567890', 'decimal', b''), ('999999999.9999999%', 'decimal', b'{"x":"9999999.999999999"}'),
                              ('1000000000%', 'decimal', b''), ('0.12345678%', 'decimal', b''),
                              ('$92233720368547758.07', 'money', b'{"x":"92233720368547758.07"}'),
                              ('$92233720368547758.08', 'money', b''), ('999999999 day', 'duration', b'{"x":{"days":999999999,'),
                              ('|0001-01-01|', 'date', b'{"x":"0001-01-01"}'), ('|0000-12-31|', 'date', b''),
                              ('|9999-12-31|', 'date', b'{"x":"9999-12-31"}'), ('|9999-12-32|', 'date', b'')):
        yield run('the literal %s' % text, valued(text, kind), 0 if reply else 4, reply or b'source refused E5 at a.md:6:23\n')
    yield run('the literal 1000000000 day', valued('1000000000 day', 'duration'), 4, b'source refused E6 at a.md:6:34\n')
    for number, status, reply in ((2**63 - 1, 0, b'{"x":'), (2**63, 5, b'input refused I5 n\n'), (-2**63 + 1, 0, b'{"x":-'),
                                  (-2**63, 5, b'input refused I5 n\n')):
        yield run('%d in an input' % number, valued('n'), status, reply, b'{"n":%d}' % number)
    for depth, reply in ((127, b'input refused I4 n\n'), (128, b'input refused I1\n')):
        yield run('inputs %d deep' % depth, valued('n'), 5, reply, b'{"n":%s%s}' % (b'[' * (depth - 1), b']' * (depth - 1)))


def included(count):
    """So many files, each of which includes the next one."""
    names = ['a.md'] + ['f%d.md' % k for k in range(1, count)]
    files = {name: b'> Include: %s\n' % following.encode() for name, following in zip(names, names[1:])}
    return {**files, names[-1]: block(HEAD + ['  definition x equals n']).encode()}


def sizes():
    """Sources and files at their greatest length, and a byte more."""
    text = block(HEAD + ['  definition x equals n']).encode()
    for more in (0, 1):
        status, reply = (14, b'too large a.md\n') if more else (0, b'{"x":1}\n')
        yield run('bytes of a file', text + b' ' * (FILE + more - len(text)), status, reply)
        status, reply = (4, b'source refused E3 at f63.md:1:1\n') if more else (0, b'{"x":1}\n')
        yield Edge('%d files' % (64 + more), included(64 + more), ['run', 'S', 'a.md'], b'{"n":1}', status, reply)
        last = b'x' if more else b''
        main = text + b''.join(b'> Include: g%d.md\n' % k for k in range(5))
        full = {'g%d.md' % k: b' ' * FILE for k in range(3)}
        laid = {'a.md': main, **full, 'g3.md': b' ' * (FILE - len(main)), 'g4.md': last}
        status, reply = (14, b'too large g4.md\n') if more else (0, b'{"x":1}\n')
        yield Edge('bytes of all files', laid, ['run', 'S', 'a.md'], b'{"n":1}', status, reply)


LISTED = {'integer': b'1', 'list of integer': b'[]', 'boolean': b'true', 'money': b'"0.01"', 'date': b'"2024-01-31"',
          'duration': b'{"days":1,"months":0}'}


def long_inputs():
    """Inputs and certificates at their greatest length, and a byte more: blanks, brackets, and lists of each kind."""
    numbers = over_list('number of l', 'integer')
    for more in (0, 1):
        for name, begin, filler, end in (('blanks', b'{"l":[]', b' ', b'}'), ('numbers', b'{"l":[1', b',-48313', b']}'),
                                         ('brackets', b'', b'[', b''), ('certificate', b'', b'split 0\n', b'')):
            given = to_length(begin, filler, end) + b' ' * more
            status, reply = {'blanks': (0, b'{"x":0}\n'), 'numbers': (0, b'{"x":'), 'brackets': (5, b'input refused I1\n'),
                             'certificate': (8, b'certificate refused C4\n')}[name] if not more else (14, b'too large -\n')
            words = ['check' if name == 'certificate' else 'run', 'S', 'a.md']
            yield Edge('bytes of an input, ' + name, {'a.md': numbers.encode()}, words, given, status, reply)
    for kind, filler in LISTED.items():
        source = numbers.replace('list of integer', 'list of ' + kind).encode()
        given = to_length(b'{"l":[' + filler, b',' + filler, b']}')
        for mode in ('run', 'trace') if kind == 'integer' else ('run',):
            reply = b'S.x by a.md:6:3\n{"x":' if mode == 'trace' else b'{"x":'
            yield Edge('bytes of an input, ' + kind, {'a.md': source}, [mode, 'S', 'a.md'], given, 0, reply)
    for element, reply in ((b'{"n":1}', b'{"x":1}\n'), (b'{}', b'input refused I2 n\n'), (b'1', b'input refused I4 (input)\n')):
        given = to_length(b'[' + element, b',' + element, b']')
        count = 1 + (INPUT - len(element) - 2) // (len(element) + 1)
        words = ['many', 'S', 'a.md']
        yield Edge('%d times %s' % (count, element.decode()), {'a.md': valued('n').encode()}, words, given, 0, reply, count * len(reply))
    source = block(HEAD + ['  definition x under condition n %s consequence equals n' % asked for asked in ('>= 0', '< 0')]).encode()
    for name, given, status, reply in long_certificates():
        yield Edge('certificates, ' + name, {'a.md': source}, ['check', 'S', 'a.md'], given, status, reply)


def doubled(count):
    """Structure types, each with the one before twice, as an output."""
    lines = ['declaration structure A0:', '  data a content integer', '  data b content integer']
    bodies = 'A0 { -- a : n -- b : n }'
    outer = ['declaration scope S:', '  input n content integer', '  output x content A%d' % (count - 1)]
    uses = ['scope S:']
    for k in range(1, count):
        lines += ['declaration structure A%d:' % k, '  data a content A%d' % (k - 1), '  data b content A%d' % (k - 1)]
        outer.append('  internal y%d content A%d' % (k - 1, k - 1))
        uses.append('  definition y%d equals %s' % (k - 1, bodies))
        bodies = 'A%d { -- a : y%d -- b : y%d }' % (k, k - 1, k - 1)
    return block(lines + outer + uses + ['  definition x equals ' + bodies])


def in_modes(name, source, modes):
    """A source in modes, each with how it ends."""
    for words, status, reply in modes:
        given = b'[{"n":1},{"n":1}]' if words[0] == 'many' else b'{"n":1}'
        yield Edge(name, {'a.md': source.encode()}, [words[0], 'S', 'a.md', *words[1:]], given, status, reply)


def deep_files(size):
    """Files of definitions whose expressions are as deep as they may be."""
    deep = ['  definition x equals %s' % of_height(form, adds, 'n', MOST)
            for form, adds in (('(%s)', 1), ('if true then %s else n', 1), ('%s + n', 1), ('n + (%s)', 2))]
    part, first = block(['scope S:', *deep]), block(HEAD)
    return [(first if k == 0 else '') + part * ((FILE - 2**13) // len(part)) for k in range(size // FILE)]


# Full files by their texts, and how each mode ends: of all definitions several hold.
GIVEN = b'{"taxable_income":7,"number_of_children":1,"is_exempt":false}'
TEXTS = [('much law', 'tax_due', GIVEN, lambda: files(ALL - 2**12, 8)), ('little law', 'tax_due', GIVEN, lambda: files(ALL - 2**12, 0)),
         ('deep expressions', 'x', b'{"n":1}', lambda: deep_files(ALL))]
FULL = {'run': (1, b'conflict S.%s at '), 'audit': (6, b'audit S\n%s: Found '), 'emit': (0, b'catala-code 1\n')}


def full_sources():
    """Files that are full, of definitions with much law and with little, and of deep expressions."""
    for name, target, given, texts in TEXTS:
        parts = {'g%d.md' % k: text.encode() for k, text in enumerate(texts())}
        sources = {'a.md': b''.join(b'> Include: %s\n' % part.encode() for part in parts), **parts}
        for mode, (status, reply) in FULL.items():
            reply = reply.replace(b'%s', target.encode())
            yield Edge('bytes of all files, ' + name, sources, [mode, 'S', 'a.md'], given, status, reply)


def large():
    """What takes seconds."""
    yield from full_sources()
    yield from both('definitions', 65536, definitions, b'E20')
    yield from in_modes('65536 definitions', definitions(65536), (
        (['trace'], 0, b'S.x by a.md:7:3'), (['emit'], 0, b'catala-code 1\n'), (['emit', '-'], 0, b'catala-code 1\n'),
        (['audit'], 6, b'audit S\nx: Found no value'), (['many'], 0, b'{"x":1}\n{"x":1}\n')))
    yield from in_modes('4096 items', items(4095), (
        (['trace'], 0, b'S.x0 by a.md:'), (['emit', '-'], 0, b'catala-code 1\n'), (['audit'], 0, b'audit S\nx0: Covered\n')))
    yield run('parts of an output', doubled(18), 0, b'{"x":{"a":')
    yield run('too many parts of an output', doubled(24), 13, b'')
    for count in (PARTS - 1, PARTS):
        given = b'{"l":[1' + b',1' * (count - 1) + b']}'
        status, reply = (0, b'{"x":[1,') if count < PARTS else (13, b'')
        yield run('an output of %d numbers' % count, over_list('l', 'list of integer'), status, reply, given)
    for bands in (0, 1, 1000, 1001):
        is_drilled = bands in (1, 1000)
        reply = b'bands %d runs 1000 sum ' % bands if is_drilled else b'usage'
        yield Edge('bands of a drill', {}, ['drill', str(bands), 'none'], b'', 0 if is_drilled else 9, reply)
    yield from audited()


def audited():
    """Audits of the most definitions and of the most leaves."""
    lines = ['  definition x under condition n %s consequence equals %d' % (asked, k) for k, asked in
             enumerate(['< 0'] + ['>= %d and n < %d' % (k, k + 1) for k in range(65534)] + ['>= 65534'])]
    # A file has no room for all of them.
    half = len(lines) // 2
    bands = {'a.md': (block(HEAD + lines[:half]) + '\n> Include: b.md\n').encode(), 'b.md': block(['scope S:'] + lines[half:]).encode()}
    yield Edge('definitions of an audit', bands, ['audit', 'S', 'a.md'], b'', 0, b'audit S\nx: Covered\nverdict Complete\n')
    few = {'a.md': block(HEAD + lines[:3] + ['  definition x under condition n >= 2 consequence equals 9']).encode()}
    for leaves, status in (('1', 7), ('1000000', 0), ('0', 9), ('1000001', 9)):
        words = ['audit', 'S', 'a.md', '--cases', leaves]
        yield Edge('leaves of an audit', few, words, b'', status, b'usage' if status == 9 else b'audit S\n')
    for count, status, reply in ((19, 0, b'audit S\nx: Covered\n'), (20, 7, b'audit S\nx: Undecided budget 1000000\n')):
        odd = ' xor '.join('b%d' % k for k in range(count))
        asked = block(['declaration scope S:', *('  input b%d content boolean' % k for k in range(count)), *HEAD[2:],
                       '  definition x under condition %s consequence equals 1' % odd,
                       '  definition x under condition not (%s) consequence equals 2' % odd])
        words = ['audit', 'S', 'a.md', '--cases', '1000000']
        yield Edge('%d truth values' % count, {'a.md': asked.encode()}, words, b'', status, reply)


def to_length(begin, filler, end):
    """As many fillers as an input has room for, and blanks."""
    return (begin + filler * ((INPUT - len(begin) - len(end)) // len(filler)) + end).ljust(INPUT)


def cited(last):
    """A certificate whose tree has 16,777,216 leaves, each name the one before twice; and one more."""
    names = [['name %d' % k, 'split 0', *(['cite %d' % (k - 1)] * 2 if k else ['leaf'] * 2)] for k in range(24)]
    lines = ['catala-certificate 2', 'scope S', 'var x', *sum(names, []), 'tree', *last, 'end', '']
    return '\n'.join(lines).encode()


def long_certificates():
    head, halves = b'catala-certificate %d\nscope S\nvar x\n', INPUT // len(b'split 0\nleaf\n') - 10
    yield 'leaves', cited(['cite 23']), 0, b'Yes\n'
    yield 'leaves and one more', cited(['split 0', 'cite 23', 'leaf']), 8, b'certificate refused C6 at line 103\n'
    def behind_blanks(text):
        return b' ' * (INPUT - len(text) - 1) + b'\n' + text
    yield 'bytes', behind_blanks(head % 2 + b'tree\n' + b'split 0\nleaf\n' * halves + b'leaf\nend\n'), 0, b'Yes\n'
    yield ('bytes of the older form', behind_blanks(head % 1 + b'split 0\nleaf\n' * halves + b'leaf\nend\n'), 0,
           b'Yes\ncatala-certificate 2\n')
    yield ('bytes, all splits first', behind_blanks(head % 1 + b'split 0\n' * halves + b'leaf\n' * (halves + 1) + b'end\n'), 0,
           b'Yes\ncatala-certificate 2\n')


def long_listings():
    """Listings at their greatest length, and a byte more: a long constant, and as many instructions as there is room for."""
    counted = b'0 const 0\n1 length\n2 store 0\n3 slot 0\n4 pack 1\n5 return\n'
    list_of = b'item x output 0:1:1 integer\nconst list of integer [1%s]\n'
    jumps = [b'%d jump %d\n' % (k, k + 1) for k in range(INPUT // len(b'1000000 jump 1000001\n') - 100_000)]
    last = len(jumps)
    for name, reply, text in (('a constant', b'{"x":', list_of % (b',-48313' * (INPUT // 7 - 1_000)) + counted),
                              ('instructions', b'{}\n', b''.join([*jumps, b'%d pack 0\n%d return\n' % (last, last + 1)]))):
        front = b'catala-code 1\nfile %s\nscope S 0\n'
        for more in (0, 1):
            listing = front % (b'a' * (INPUT + more - len(front % b'') - len(text))) + text
            status, begins = (14, b'too large code\n') if more else (0, reply)
            yield Edge('bytes of a listing, ' + name, {'code': listing}, ['exec', 'S', 'code'], b'{}', status, begins)


def edges(is_sample):
    """Those that take long are no part of a sample."""
    yield from chains()
    yield from literals()
    yield from sizes()
    if not is_sample:
        yield from large()
        yield from long_inputs()
        yield from long_listings()
