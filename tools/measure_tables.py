"""What tools/measure tells of tables and of dead definitions: those of bands and of grids, beside the audit of the same source, whose search
they go by."""
import sys

from measure_audits import MOST, bands, cells, source
from measure_growth import grid
from measure_runs import measured

BANDS = 1_000, 10_000, 32_000
RULES = 10_000, 32_400


def sources():
    """Each source with its scope and its variable, by what it is."""
    for count in BANDS:
        for order in ('in order', 'shuffled'):
            yield '%s bands, %s' % (format(count, ','), order), 'Bands', 'rate', source(bands(count, order))
    for count in RULES:
        yield 'a grid of %s rules' % format(count, ','), 'S', 'x', grid(count)


def tables(folder, program):
    print('\n| Source | audit | memory | table | memory | written | times the audit |\n|---|---|---|---|---|---|---|')
    for told, scope, variable, text in sources():
        (folder / 'a.md').write_text(text)
        audited, memory, _ = measured(folder, [program, 'audit', scope, 'a.md'], most=MOST)
        took, more, reply = measured(folder, [program, 'table', scope, 'a.md'], most=MOST)
        print('| %s | %s | %s | %.1f MiB | %.1f |' % (told, cells(audited, memory), cells(took, more), len(reply) / 2**20, took / audited),
              flush=True)
        if not reply.startswith(b'table %s.%s\n' % (scope.encode(), variable.encode())):
            print('%s: %r' % (told, reply[:100]), file=sys.stderr)


def definitions(folder, program):
    """Reports on definitions, each of which decides, and checks of their certificates."""
    print('\n| Source | audit | memory | dead | memory | times the audit | check | memory |\n|---|---|---|---|---|---|---|---|')
    for told, scope, _, text in sources():
        (folder / 'a.md').write_text(text)
        audited, memory, _ = measured(folder, [program, 'audit', scope, 'a.md'], most=MOST)
        took, more, reply = measured(folder, [program, 'dead', scope, 'a.md'], most=MOST)
        (folder / 'dead').write_bytes(reply)
        checked, least, answer = measured(folder, [program, 'dead', scope, 'a.md', 'dead'], most=MOST)
        print('| %s | %s | %s | %.1f | %s |' % (told, cells(audited, memory), cells(took, more), took / audited, cells(checked, least)),
              flush=True)
        if not reply.startswith(b'dead %s\n' % scope.encode()) or answer != b'Yes\n':
            print('%s: %r, %r' % (told, reply[:100], answer[:100]), file=sys.stderr)
