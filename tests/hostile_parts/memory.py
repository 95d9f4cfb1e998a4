"""Each allocation of each call is refused, alone and with all that follow: the answer is want of memory, with nothing written, and of
many inputs with the lines of the first ones, or the whole right one."""
import errno, functools

from .calls import CALLS, lacking
from .compared import differs
from .pieces import Piece, Tried
from .refusing import LAST, Refusing, has_compiler, library
from .table import out_of_table, told

FEW = 120
# So many pieces of each call.
SHARES = 4


def memory(program, is_sample):
    if not has_compiler():
        print('memory: skipped, since cc is missing')
        return
    library()
    yield Piece('every form', every_form)
    for call in CALLS:
        for share in range(SHARES):
            yield Piece('%s, %d of %d' % (call.name, share + 1, SHARES), functools.partial(refusals, program, call, share, is_sample))


def every_form():
    yield Tried('sources with every form', 'a.md', ' '.join(lacking()) and 'it lacks ' + ' '.join(lacking()))


def refusals(program, call, share, is_sample):
    """A share of the allocations of a call, each refused."""
    with Refusing(program) as runs:
        right = runs.answer(call)
        if share == 0:
            yield Tried('calls', call.name, wrong_answer(runs, call, right))
        count = sum(kind == 'alloc' for kind, _ in runs.asked(call))
        for k in range(1, count + 1, max(1, count // FEW) if is_sample else 1)[share::SHARES]:
            for last, kind in ((k, 'allocations refused alone'), (LAST, 'allocations refused with all that follow')):
                ended = runs.refused(call, 'alloc', k, last, errno.ENOMEM)
                wrong = '' if ended == right or is_want(call, ended, right) else told(ended)
                yield Tried(kind, '%s %d' % (call.name, k), wrong)


def is_want(call, ended, right):
    """Whether memory ran out behind whole lines of the right answer: those of the first of many inputs, else none."""
    lines = right.out.splitlines(True) if call.words[0] == 'many' else []
    return (ended.status, ended.err) == (13, b'') and ended.out in {b''.join(lines[:k]) for k in range(len(lines) + 1)}


def wrong_answer(runs, call, right):
    """What is wrong with the answer when nothing is refused: it is the second implementation's."""
    if right.status != call.status:
        return 'status %d is due: %s' % (call.status, told(right))
    return out_of_table(call.words, right) or differs(runs.files, call.words, runs.given(call), right)[1]
