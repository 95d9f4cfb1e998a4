"""Forests of exceptions, as the calls `forest` and `forest_chain` give them, by the rules in `reference`."""
from collections import namedtuple

from reference.grammar import Reader
from reference.programs import forests_of
from reference.tokens import Refused, tokens_of

KINDS = {'E12': 'LabelUnknown', 'E13': 'LabelSplit', 'E14': 'ExceptionAmbiguous', 'E15': 'ExceptionCycle',
         'E20': 'TooMany'}
Scope = namedtuple('Scope', 'definitions')


def shown(runs, groups):
    return '; '.join(runs(own) + (' < ' + runs(others) if others else '') for own, others in groups)


def forest(runs, text):
    """What the call may give, where `runs` shows numbers: the groups of both variables, or one of some refusals."""
    lines = [line + ' equals true\n' for line in text.split('; ')]
    reader = Reader(tokens_of([(''.join(lines), 0, 1)]))
    uses = [reader.use() for _ in lines]
    try:
        made, = forests_of([Scope([use._replace(target=use.target.name.text) for use in uses])])
    except Refused as refused:
        return {'%s %d:%d:%d' % (KINDS[code], *pos) for code, pos in refused.faults}
    return {' | '.join('%s: %s' % (variable, shown(runs, made[variable][0]) if variable in made else '-')
                       for variable in 'xy')}


def chain(runs, text):
    definitions = ['label g%d exception g%d definition x' % (last, last - 1) for last in range(1, int(text))]
    return forest(runs, '; '.join(['label g0 definition x', *definitions]))


CALLS = {'forest': forest, 'forest_chain': chain}
