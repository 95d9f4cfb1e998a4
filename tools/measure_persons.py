"""A statute of brackets over persons, and what tools/measure tells of it beside the same in C, whose JSON jansson reads."""
import itertools, json, random, sys

from measure_runs import compiled, measured
from measure_sources import block

COUNTS = 10, 1_000, 10_000, 100_000, 1_000_000
BRACKETS = [(0, 10), (11_000_00, 12), (44_725_00, 22), (95_375_00, 24), (182_100_00, 32), (231_250_00, 35), (578_125_00, 37)]
BRACKET = '(if %s > %s then (%s - %s) * %d%% else $0)'
# What is read of the JSON of one, in front of the brackets.
READ_INCOME = '''    sscanf(json_string_value(json_object_get(one, "income")), "%lld.%d", &a, &b);
    long long c = a * 100 + b;
'''
READ_PERSONS = '''#include <jansson.h>
#include <stdio.h>
int main(void) {
  json_t *all = json_loadf(stdin, 0, NULL), *list = json_object_get(all, "persons"), *one;
  size_t k;
  long long t = 0, a;
  int b;
  json_array_foreach(list, k, one) {
%s
  }
  printf("{\\"total\\":\\"%%lld.%%02lld\\"}\\n", t / 100, t %% 100);
}
'''


def amount(cents):
    return '$%d.%02d' % divmod(cents, 100)


def steps():
    """Each bracket adds the difference of its rate to that of the one below."""
    return [(low, rate - before) for (low, rate), (_, before) in zip(BRACKETS, [(0, 0), *BRACKETS])]


def tax(income):
    """What the brackets come to for an income."""
    return ' + '.join(BRACKET % (income, amount(low), income, amount(low), rate) for low, rate in steps())


def statute(total, inputs=()):
    """A scope of a list of persons, with further inputs, whose one output is that."""
    return block(['declaration structure Person:', '  data income content money', 'declaration scope Tax:',
                  '  input persons content list of Person', *('  input %s' % declared for declared in inputs),
                  '  output total content money', 'scope Tax:', '  definition total equals %s' % total])


def over_persons():
    return 'sum money of map each p among persons to %s' % tax('p.income')


def brackets_in_c():
    """What is added to t for the income of one, of c cents."""
    return READ_INCOME + '\n'.join('    if (c > %dLL) t += ((c - %dLL) * %d + 50) / 100;' % (low, low, rate) for low, rate in steps())


def earners():
    """Persons of any income, without end and the same at each call."""
    chance = random.Random(0)
    while True:
        yield {'income': '%d.%02d' % divmod(chance.randrange(80_000_000), 100)}


def people(count):
    return list(itertools.islice(earners(), count))


def given(count):
    return json.dumps({'persons': people(count)}, separators=(',', ':')).encode()


def a_person(count, least, form, used, of_none):
    """What each of so many persons takes more than none do; of fewer than the least count it isn't told, since start-up is more."""
    return form % ((used - of_none) / count) if count >= least else ''


def persons(folder, program):
    """Reading alone is the run of a scope which takes the same input and does nothing with it."""
    in_c = compiled(folder, 'brackets.c', READ_PERSONS % brackets_in_c(), ['cc'])
    if in_c is None:
        print('jansson is not there', file=sys.stderr)
        return
    (folder / 'a.md').write_text(statute(over_persons()))
    (folder / 'read.md').write_text(statute('$0'))
    words = [program, 'run', 'Tax', 'a.md']
    none, least, _ = measured(folder, words, given(0))
    print('\n| Persons | time | reading alone | in C | times | a person | memory | reading alone | in C | a person |')
    print('|---|---|---|---|---|---|---|---|---|---|')
    for count in COUNTS:
        data = given(count)
        took, memory, reply = measured(folder, words, data)
        read, reading, _ = measured(folder, [program, 'run', 'Tax', 'read.md'], data)
        other, of_c, told = measured(folder, [in_c], data)
        print('| %s | %.3f s | %.3f s | %.3f s | %.1f | %s | %.0f MiB | %.0f MiB | %.0f MiB | %s |'
              % (format(count, ','), took, read, other, took / other, a_person(count, 1_000, '%.2f µs', took * 1e6, none * 1e6), memory,
                 reading, of_c, a_person(count, 100_000, '%.0f bytes', memory * 2**20, least * 2**20)), flush=True)
        if reply != told:
            print('differs: %r and in C %r' % (reply[:100], told[:100]), file=sys.stderr)
