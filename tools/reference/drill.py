"""What `drill` writes: a source of so many bands, its runs, and the verdict and the leaves of its audit.

A source of many bands is long to run and to audit here: of it the closed forms are told, which small ones are found to have."""
import json
import re

from .answers import Program
from .report import Scoped, verdict_of

RUNS = 1000
MOST_BANDS = 1000
MOST_TRIED = 40
USAGE = 'usage: catala MODE SCOPE FILE [EXTRA] [--cases N]'
HEAD = '''```catala
declaration scope Bands:
  input income content money
  output rate content integer
scope Bands:
'''


def condition(bands, band):
    low = ['income >= $%d' % (1000 * band)] if band > 0 else []
    high = ['income < $%d' % (1000 * (band + 1))] if band + 1 < bands else []
    return ' and '.join(low + high)


def source(bands):
    """The source of so many bands."""
    under = [condition(bands, band) for band in range(bands)]
    words = [' under condition %s consequence' % text if text else '' for text in under]
    return HEAD + ''.join('  definition rate%s equals %d\n' % line for line in zip(words, range(bands))) + '```\n'


def leaves(tree):
    """How many leaves nodes have, of which a split is a triple."""
    return leaves(tree[1]) + leaves(tree[2]) if isinstance(tree, tuple) else int(tree == 'leaf')


def tried(bands):
    """The sum of the rates, the number of leaves and the verdict."""
    program = Program({'none': source(bands).encode()}, 'none')
    replies = [program.run('Bands', b'{"income":%d}' % (run * bands)) for run in range(RUNS)]
    lines, trees = Scoped(program, program.runs.numbers['Bands'], bands).lines()
    return sum(json.loads(reply)['rate'] for reply in replies), sum(leaves(tree) for _, tree in trees), verdict_of(lines)


def closed(bands):
    """The same, as the rules have it."""
    return sum(run * bands // RUNS for run in range(RUNS)), bands, 'Complete'


def drill(words):
    """The reply to the words behind `drill`."""
    if len(words) != 2 or not re.fullmatch('[1-9][0-9]{0,3}', words[0]) or words[1] != 'none' or int(words[0]) > MOST_BANDS:
        return USAGE
    bands = int(words[0])
    told = tried(bands) if bands <= MOST_TRIED else closed(bands)
    return 'bands %d runs %d sum %d leaves %d %s' % (bands, RUNS, *told)
