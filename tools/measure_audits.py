"""What tools/measure tells of audits: of bands, beside z3 and beside the check of the certificate, of deep certificates, and of
`drill`, beside C in which its bands are compiled.

Of the forms in which z3 may be asked this is the fastest that was found: truth values for the bounds, in their order. With an
integer in their place it takes up to ten times as long; with a sum of indicators, `at-least`, all pairs, or one band after
another, longer still. Its general solver and its SAT solver are asked, and the sooner answer counts."""
import datetime, random, shutil, subprocess, sys

from measure_runs import compiled, measured

COUNTS = 100, 1_000, 10_000
MOST = 600
SOLVERS = '(check-sat)', '(check-sat-using (then simplify sat))'
# A drill's runs, done as often as a word says: what is asked of each income, and how far one is from the one before.
AGAIN = 200
DRILL = '''#include <stdio.h>
#include <stdlib.h>
static int rate(long long income, int *held) {
  int found = 0;
  *held = 0;
%s
  return found;
}
int main(int count, char **words) {
  long long sum = 0;
  for (int again = count > 1 ? atoi(words[1]) : 1; again; again--) {
    volatile long long step = %d;
    sum = 0;
    for (int run = 0; run < 1000; run++) {
      int held, found = rate(run * step, &held);
      if (held != 1) return 1;
      sum += found;
    }
  }
  printf("%%lld\\n", sum);
}
'''
# Bands whose source is nearly as long as a file may be, and how the bounds of each type are written by their number.
TYPED_BANDS = 32_768
BOUNDS = {
    'integer': '{}'.format,
    'money': '${}.50'.format,
    'decimal': '{}.125'.format,
    'date': lambda number: '|%s|' % (datetime.date(1, 1, 1) + datetime.timedelta(days=100 * number)),
}
HEAD = ['```catala', 'declaration scope Bands:', '  input income content money', '  output rate content integer', 'scope Bands:']


def bands(count, order):
    """Bands of a thousand each: the bound from which one holds, but for the first, and the one in front of which it ends."""
    made = [(1_000 * k if k else None, 1_000 * (k + 1) if k + 1 < count else None) for k in range(count)]
    if order == 'shuffled':
        random.Random(0).shuffle(made)
    return made


def joined(band, forms, word):
    """What the bounds of a band ask, by the forms of the lower and of the upper one."""
    return word.join(form % bound for bound, form in zip(band, forms) if bound is not None)


def source(made):
    """A scope with a definition for each band."""
    asked = [joined(band, ['income >= $%d', 'income < $%d'], ' and ') for band in made]
    lines = ['  definition rate under condition %s consequence equals %d' % (text, k) for k, text in enumerate(asked)]
    return '\n'.join([*HEAD, *lines, '```', ''])


def cuts(made):
    """For z3, of each bound whether the income is below it, which implies that it is below the next one."""
    bounds = sorted({bound for band in made for bound in band if bound is not None})
    lines = ['(declare-const below%d Bool)' % bound for bound in bounds]
    return lines + ['(assert (=> below%d below%d))' % pair for pair in zip(bounds, bounds[1:])]


def held(band):
    """That the income is in a band."""
    return '(and %s)' % joined(band, ['(not below%d)', 'below%d'], ' ')


def in_none(made):
    """Whether some income is in no band."""
    return '\n'.join([*cuts(made), *('(assert (not %s))' % held(band) for band in made), ''])


def in_two(made):
    """Whether some income is in two bands: of each half of them whether one has it and whether two have, half by half."""
    lines, parts = [], [(held(band), 'false') for band in made]
    while len(parts) > 1:
        joint = []
        for (one, two), (other, others) in zip(parts[::2], parts[1::2]):
            k = len(lines)
            lines.append('(declare-const a%d Bool) (declare-const t%d Bool) (assert (=> a%d (or %s %s))) '
                         '(assert (=> t%d (or %s %s (and %s %s))))' % (k, k, k, one, other, k, two, others, one, other))
            joint.append(('a%d' % k, 't%d' % k))
        parts = joint + parts[2 * len(joint):]
    return '\n'.join([*cuts(made), *lines, '(assert %s)' % parts[0][1], ''])


def cells(took, memory):
    return '%s | %.0f MiB' % ('%.2f s' % took if took < MOST else 'over %d s' % MOST, memory)


def of_z3(folder, made):
    """What z3 takes for both questions, each asked for itself."""
    told = []
    for ask in (in_none, in_two):
        took, memory, reply = min(measured(folder, ['z3', '-in'], (ask(made) + solver).encode(), MOST) for solver in SOLVERS)
        told.append(cells(took, memory))
        if reply != b'unsat\n' and took < MOST:
            print('z3 answers %r' % reply[:100], file=sys.stderr)
    return told


def audits(folder, program):
    has_z3 = shutil.which('z3') is not None
    version = subprocess.run(['z3', '--version'], stdout=subprocess.PIPE).stdout.decode().split()[2] if has_z3 else 'is not there'
    print('\n| Bands | in order | audit | memory | check | memory | z3 %s: in no band | memory | in two bands | memory |' % version)
    print('|---|---|---|---|---|---|---|---|---|---|')
    for count in COUNTS:
        for order in ('in order', 'shuffled'):
            made = bands(count, order)
            (folder / 'a.md').write_text(source(made))
            took, memory, audit = measured(folder, [program, 'audit', 'Bands', 'a.md'], most=MOST)
            told = [cells(took, memory)]
            if b'\nverdict Complete\n' not in audit:
                print('%d bands: %r' % (count, audit[:100]), file=sys.stderr)
            (folder / 'certificate').write_bytes(audit)
            took, memory, reply = measured(folder, [program, 'check', 'Bands', 'a.md', 'certificate'], most=MOST)
            told.append(cells(took, memory))
            if reply != b'Yes\n':
                print('%d bands: %r' % (count, reply[:100]), file=sys.stderr)
            told += of_z3(folder, made) if has_z3 else ['', '', '', '']
            print('| %d | %s | %s |' % (count, order, ' | '.join(told)), flush=True)


def typed_bands(folder, program):
    """Bands of each type whose values have an order, and the checks of their certificates."""
    print('\n| Bands of | audit | memory | check | memory |\n|---|---|---|---|---|')
    for of, bound in BOUNDS.items():
        made = [(bound(k) if k else None, bound(k + 1) if k + 1 < TYPED_BANDS else None) for k in range(TYPED_BANDS)]
        asked = [joined(band, ['income >= %s', 'income < %s'], ' and ') for band in made]
        lines = ['  definition rate under condition %s consequence equals %d' % (text, k) for k, text in enumerate(asked)]
        head = [line.replace('content money', 'content ' + of) for line in HEAD]
        (folder / 'a.md').write_text('\n'.join([*head, *lines, '```', '']))
        took, memory, audit = measured(folder, [program, 'audit', 'Bands', 'a.md'], most=MOST)
        (folder / 'certificate').write_bytes(audit)
        checked, most, reply = measured(folder, [program, 'check', 'Bands', 'a.md', 'certificate'], most=MOST)
        print('| %s | %s | %s |' % (of, cells(took, memory), cells(checked, most)), flush=True)
        if reply != b'Yes\n':
            print('bands of %s: %r' % (of, reply[:100]), file=sys.stderr)


def certificates(folder, program):
    """Checks of a tree that asks one atom over and over: each split behind the first has an empty side."""
    (folder / 'a.md').write_text(source(bands(2, 'in order')))
    print('\n| Splits, each in the one before | certificate | check | memory |\n|---|---|---|---|')
    for splits in (300_000, 1_200_000, 4_800_000):
        lines = ['catala-certificate 2', 'scope Bands', 'var rate', 'tree', *['split 0'] * splits, *['leaf'] * (splits + 1), 'end', '']
        (folder / 'certificate').write_text('\n'.join(lines))
        took, memory, reply = measured(folder, [program, 'check', 'Bands', 'a.md', 'certificate'], most=MOST)
        size = (folder / 'certificate').stat().st_size / 2**20
        print('| %s | %.1f MiB | %s |' % (format(splits, ','), size, cells(took, memory)), flush=True)
        if reply != b'Yes\n':
            print('%d splits: %r' % (splits, reply[:100]), file=sys.stderr)


def drill_in_c(made):
    """The runs of a drill: of each income each band is asked, so that a second one that has it would be seen."""
    asked = [joined(band, ['income >= %dLL', 'income < %dLL'], ' && ') or '1' for band in made]
    lines = ['  if (%s) { found = %d; ++*held; }' % (text, k) for k, text in enumerate(asked)]
    return DRILL % ('\n'.join(lines), len(made))


def drills(folder, program):
    """Beside the same runs in C: a whole call, and of many runs in one call those of one."""
    print('\n| Bands of `drill` | time | memory | in C | times | in C without start-up |\n|---|---|---|---|---|---|')
    for count in (1, 10, 100, 1_000):
        took, memory, reply = measured(folder, [program, 'drill', str(count), 'none'], most=MOST)
        in_c = compiled(folder, 'drill.c', drill_in_c(bands(count, 'in order')), ['cc'])
        other, _, told = measured(folder, [in_c])
        again, _, _ = measured(folder, [in_c, str(AGAIN)])
        total = sum(run * count // 1_000 for run in range(1_000))
        want = 'bands %d runs 1000 sum %d leaves %d Complete\n' % (count, total, count)
        print('| %d | %s | %.4f s | %.0f | %.5f s |' % (count, cells(took, memory), other, took / other, again / AGAIN), flush=True)
        if [reply, told] != [want.encode(), b'%d\n' % total]:
            print('differs: %r, in C %r and by the rules %r' % (reply[:100], told[:100], want), file=sys.stderr)
