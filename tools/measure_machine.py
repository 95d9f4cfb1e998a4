"""What tools/measure tells of the machine: what an instruction takes, beside a plain interpreter of the same listing in C.

The interpreter is first held against the second implementation, by the outcome and the number of steps of each case and each input
of a statute."""
import json, pathlib, subprocess, sys

from measure_persons import over_persons, people, statute
from measure_runs import compiled, measured
from measure_sources import block
from reference.listings import case_codes, statute_codes

TOOLS = pathlib.Path(__file__).resolve().parent


def twice(form, declared=(), items=(), uses=()):
    """A scope that goes over a list, and for each a of it over the list once more, by a form: behind what is declared in front of it,
    and with items and definitions of its own."""
    return block([*declared, 'declaration scope S:', '  input l content list of integer', *items, '  output x content integer',
                  'scope S:', *uses, '  definition x equals sum integer of map each a among l to %s' % form])


INTEGERS = twice('combine all b among l in t initially 0 with if a * 3 < b + 7 then t + 1 else t - 1')
DECIMALS = twice('integer of sum decimal of map each b among l to (decimal of a * 0.25 + decimal of b) / 8.0')
DATES = twice('number of (list of b among l such that get_year of (|2024-01-31| + (1 month * a + 1 day * b)) < 2027)',
              uses=['  date round decreasing'])
FUNCTIONS = twice('sum integer of map each b among l to rate of (if a < b then a else b)',
                  items=['  internal rate content integer depends on n content integer'],
                  uses=['  definition rate of n under condition n >= %d and n < %d consequence equals %d' % (100 * k, 100 * k + 100, k)
                        for k in range(10)])
LARGER = ['declaration scope T:', '  input a content integer', '  input b content integer', '  internal larger content integer',
          '  output y content integer', 'scope T:', '  label base definition larger equals a',
          '  exception base definition larger under condition b > a consequence equals b', '  definition y equals larger - a']
SCOPES = twice('sum integer of map each b among l to output of T with { -- a : a -- b : b } . y', LARGER)
PAIRS = ['declaration structure P:', '  data a content integer', '  data b content integer', 'declaration enumeration E:',
         '  -- Neither', '  -- Both content P']
CASES = twice('number of (list of e among map each b among l to (if a < b then Both content P { -- a : a -- b : b } else Neither) '
              'such that match e with pattern -- Neither : false -- Both of p : p.b - p.a < 10)', PAIRS)
YEARS = statute('sum money of map each y among years to (%s)' % over_persons(), ['years content list of integer'])

# What is done over and over, the scope and its source, and its input, of lists alone.
WORK = [(told, 'S', source, {'l': list(range(1_000))}) for told, source in (
    ('sums and comparisons of integers', INTEGERS), ('sums, products and quotients of decimals', DECIMALS),
    ('dates and durations', DATES), ('calls of a function of ten definitions', FUNCTIONS),
    ('calls of a scope with an exception', SCOPES), ('lists of structures and cases', CASES))]
WORK.append(('seven brackets of a thousand incomes', 'Tax', YEARS, {'persons': people(1_000), 'years': list(range(300))}))


def interpreter(folder):
    return compiled(folder, 'machine.c', (TOOLS / 'machine.c').read_text(), ['cc', '-I', str(TOOLS)])


def interpreted(folder, peer, listing, scope, data):
    """The line of the outcome and that of the steps, as the interpreter has them."""
    (folder / 'listing').write_text(listing)
    told = subprocess.run([peer, 'listing', scope], cwd=folder, input=data, stdout=subprocess.PIPE).stdout
    return told.decode().split('\n')[:2]


def differing(folder, peer):
    """How many runs of cases and statutes the interpreter ends otherwise than the second implementation, which are told."""
    count = wrong = 0
    for place, code, scope, data in (*case_codes(), *statute_codes()):
        reply, steps = code.run(scope, data)
        if steps is None:
            continue
        told, want = interpreted(folder, peer, code.text, scope, data), [reply, 'steps %d' % steps]
        count, wrong = count + 1, wrong + (told != want)
        if told != want:
            print('%s\n  in C %s\n  here %s' % (place.name, told, want), file=sys.stderr)
    print('%d runs in C beside the second implementation, %d differ' % (count, wrong), file=sys.stderr)
    return wrong


def taken(folder, words, given):
    """The seconds of a call beyond those of the same call on empty lists, the MiB, and what it writes."""
    took, memory, reply = measured(folder, words, json.dumps(given).encode())
    none, _, _ = measured(folder, words, json.dumps({name: [] for name in given}).encode())
    return took - none, memory, reply.decode()


def emitted(folder, program, scope, given):
    """What an emit tells behind the listing: the steps and the line of the run; nothing where the program takes no input there."""
    told = subprocess.run([program, 'emit', scope, 'a.md', '-'], cwd=folder, input=json.dumps(given).encode(), stdout=subprocess.PIPE)
    lines = told.stdout.decode().split('\n')
    return lines[-3:-1] if lines[-3:-2] and lines[-3].startswith('steps ') else []


def lay(folder, program, scope, source):
    """Lays a source and its listing down."""
    (folder / 'a.md').write_text(source)
    (folder / 'listing').write_bytes(subprocess.run([program, 'emit', scope, 'a.md'], cwd=folder, stdout=subprocess.PIPE).stdout)


def machine(folder, program):
    peer = interpreter(folder)
    if peer is None or differing(folder, peer):
        print('there is no interpreter in C that is right', file=sys.stderr)
        return
    print('\n| Work | instructions | an instruction | in C | times | millions a second | in C | memory | in C |')
    print('|---|---|---|---|---|---|---|---|---|')
    for told, scope, source, given in WORK:
        lay(folder, program, scope, source)
        took, memory, reply = taken(folder, [program, 'run', scope, 'a.md'], given)
        other, of_c, lines = taken(folder, [peer, 'listing', scope], given)
        line, steps, _ = lines.split('\n', 2)
        count = int(steps.split()[1])
        print('| %s | %s | %.1f ns | %.1f ns | %.1f | %.0f | %.0f | %.0f MiB | %.0f MiB |'
              % (told, format(count, ','), took / count * 1e9, other / count * 1e9, took / other, count / took / 1e6, count / other / 1e6,
                 memory, of_c), flush=True)
        if [reply, emitted(folder, program, scope, given) or [steps, line]] != [line + '\n', [steps, line]]:
            print('differs: %r, in C %r in %s' % (reply[:100], line[:100], steps), file=sys.stderr)
