"""What tools/measure tells of many inputs: a statute of brackets on each element of an array, beside the same in C and in Python, and
beside a run for each element.

Each peer reads standard input by its library into that library's own tree, and writes the same lines."""
import json, subprocess, sys, time

from measure_persons import brackets_in_c, earners, steps, tax
from measure_runs import compiled, measured
from measure_sources import block

MOST_BYTES = 64 * 2**20
COUNTS = 1_000, 10_000, 100_000, 1_000_000, None
RUNS = 100
IN_C = '''#include <jansson.h>
#include <stdio.h>
int main(void) {
  json_t *all = json_loadf(stdin, 0, NULL), *one;
  size_t k;
  json_array_foreach(all, k, one) {
    long long t = 0, a;
    int b;
%s
    printf("{\\"tax\\":\\"%%lld.%%02lld\\"}\\n", t / 100, t %% 100);
  }
}
'''
IN_PYTHON = '''import json, sys
def cents(text):
    whole, part = text.split('.')
    return 100 * int(whole) + int(part)
def tax(c):
    return sum(((c - low) * rate + 50) // 100 for low, rate in %r if c > low)
for one in json.load(sys.stdin):
    print('{"tax":"%%d.%%02d"}' %% divmod(tax(cents(one['income'])), 100))
'''


def array_of(count):
    """An array of so many records, or of as many as an input may have."""
    size, records = 2, []
    for one in (json.dumps(person, separators=(',', ':')) for person in earners()):
        size += len(one) + 1
        if len(records) == count or count is None and size > MOST_BYTES:
            break
        records.append(one)
    return ('[%s]' % ','.join(records)).encode(), len(records)


def a_run_each(folder, program, data):
    """Seconds of clock for a record, of so many that are run one by one."""
    began = time.perf_counter()
    for one in data[1:-1].replace(b'},{', b'}\n{').splitlines()[:RUNS]:
        subprocess.run([program, 'run', 'Tax', 'a.md'], cwd=folder, input=one, stdout=subprocess.DEVNULL, check=True)
    return (time.perf_counter() - began) / RUNS


def many(folder, program):
    (folder / 'a.md').write_text(block(['declaration scope Tax:', '  input income content money', '  output tax content money', 'scope Tax:',
                                        '  definition tax equals %s' % tax('income')]))
    others = [('C', [compiled(folder, 'brackets.c', IN_C % brackets_in_c(), ['cc'])]), ('Python', [sys.executable, '-c', IN_PYTHON % steps()])]
    print('\n| Records | MiB | time | a record | memory | a record | in C | in Python |\n|---|---|---|---|---|---|---|---|')
    for count in COUNTS:
        data, records = array_of(count)
        took, memory, reply = measured(folder, [program, 'many', 'Tax', 'a.md'], data)
        cells = []
        for told, words in others:
            if not words[0]:
                cells.append('-')
                continue
            seconds, _, lines = measured(folder, words, data)
            cells.append('%.2f s' % seconds)
            if lines != reply:
                print('differs from %s: %r and %r' % (told, reply[:100], lines[:100]), file=sys.stderr)
        print('| %d | %.1f | %.2f s | %.1f us | %.0f MiB | %.0f B | %s |' % (records, len(data) / 2**20, took, took / records * 1e6, memory,
                                                                         memory * 2**20 / records, ' | '.join(cells)))
    print('\nA run for each record takes %.1f ms of clock.' % (1_000 * a_run_each(folder, program, array_of(RUNS)[0])))
