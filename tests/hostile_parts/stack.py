"""The deepest sources where the address space has no room for the stack to grow: the answer is want of memory or the right one."""
import functools

from measure_sources import DEEP, HEAD, block, definitions, over_list

from .deep import STACKS
from .forms import FORMS, GIVEN, nested_sources
from .odd_bytes import PLAIN
from .pieces import Piece, Tried
from .runs import Ended, Runs
from .table import out_of_table, told

STEP, ROOM = 4, 1536
# By so many KiB the stack of a call is more or less from time to time.
SPREAD = 16
# The loader's status where the libraries have no room, and the signals with which the system ends a program that it can't load.
LOADER = {127, -9, -11}
# From less to more than large calls take.
SPACES = [4_096 * 5**k // 4**k for k in range(24)]
# An environment takes at most a fourth of the stack, and a word of it 128 KiB.
FULL = {'HOSTILE_%d' % k: 'n' * 80_000 for k in range(3)}
MODES = ['run', 'audit', 'check', 'emit', 'trace', 'many', 'table', 'dead', 'exec']


@functools.cache
def deepest():
    """A plain source, the deepest calls, and each form at its greatest height, with an input."""
    return [('plain', PLAIN, b'{"n":1}'), *((name, text.encode(), b'{"n":1}') for name, text in DEEP),
            *((*next(nested_sources(k))[:2], GIVEN) for k in range(len(FORMS)))]


def least(works, low, high, step):
    """The least number, up to a step, from which on it works."""
    while high - low > step:
        middle = (low + high) // 2
        low, high = (low, middle) if works(middle) else (middle, high)
    return high


def in_space(runs, words, given, kib):
    return runs.ended(words, given, limit='ulimit -v %d' % kib)


def loads(runs, kib):
    """Whether the program is there in so much address space, by a call that reads no file."""
    return in_space(runs, [], b'', kib).status not in LOADER


def calls(runs, source, given, modes=MODES):
    """A call of each mode on a source, or on its listing, with its answer where memory is there."""
    runs.put({'a.md': source})
    runs.put({'code': runs.ended(['emit', 'S', 'a.md']).out})
    for words in [[mode, 'S', 'code' if mode == 'exec' else 'a.md'] for mode in modes] + ([['emit', 'S', 'a.md', '-']] if 'emit' in modes else []):
        now = b'[%s,%s]' % (given, given) if words[0] == 'many' else given
        yield words, now, runs.ended(words, now)


def is_right(words, ended, right):
    """Whether it is the answer, or want of memory, of many inputs behind whole lines."""
    is_front = words[0] == 'many' and right.out.startswith(ended.out) and ended.out.endswith(b'\n')
    return ended == right or (ended.status, ended.err) == (13, b'') and (not ended.out or is_front)


def spaces(program, begin, number, is_sample):
    """Each address space from the least on in which the program is there."""
    name, source, given = deepest()[number]
    with Runs(program) as runs:
        for words, now, right in calls(runs, source, given, MODES[:1] if is_sample else MODES):
            for kib in range(begin, begin + ROOM, 16 * STEP if is_sample else STEP if words[0] == 'run' else 4 * STEP):
                ended = in_space(runs, words, now, kib)
                wrong = '' if is_right(words, ended, right) else told(ended)
                yield Tried('address spaces', '%s in %s, %d KiB' % (name, ' '.join(words), kib), wrong)


def drills(program, begin):
    with Runs(program) as runs:
        words = ['drill', '100', 'none']
        right = runs.ended(words)
        for kib in range(begin, begin + ROOM, 4 * STEP):
            ended = in_space(runs, words, b'', kib)
            yield Tried('address spaces', 'drill, %d KiB' % kib, '' if is_right(words, ended, right) else told(ended))


def stacks(program, is_sample):
    """The deepest sources on five eighths of the smaller stack, and on all of it where the environment takes what of it an environment may."""
    with Runs(program) as runs:
        for name, source, given in deepest()[::4 if is_sample else 1]:
            for words, now, right in calls(runs, source, given):
                for kind, kib, more in (('five eighths of a stack', STACKS[0] * 5 // 8, None), ('a stack behind a full environment', STACKS[0], FULL)):
                    ended = runs.ended(words, now, limit='ulimit -s %d' % kib, more=more)
                    wrong = out_of_table(words, ended) or ('' if ended == right else told(ended))
                    yield Tried(kind, '%s in %s' % (name, ' '.join(words)), wrong)


def taken_first(program):
    """What the program takes of the stack before it reads is enough: the deepest sources run on a stack on which a plain one just does."""
    with Runs(program) as runs:
        runs.put({'a.md': PLAIN})
        plain = ['run', 'S', 'a.md']
        right = runs.ended(plain, b'{"n":1}')
        enough = least(lambda kib: runs.ended(plain, b'{"n":1}', limit='ulimit -s %d' % kib) == right, 64, 4096, STEP) + SPREAD
        for name, source, given in deepest():
            for words, now, right in calls(runs, source, given):
                ended = runs.ended(words, now, limit='ulimit -s %d' % enough)
                yield Tried('what is taken of the stack first', '%s in %s' % (name, ' '.join(words)), '' if ended == right else told(ended))


def large_calls():
    """Calls that take much memory: a source, its words and its standard input."""
    wide, numbers, few = definitions(20_000), over_list('number of l', 'integer'), PLAIN.decode()
    for words in (['run'], ['trace'], ['audit'], ['emit'], ['emit', '-']):
        yield wide, words, b'{"n":1}'
    yield numbers, ['run'], b'{"l":[1' + b',-48313' * 500_000 + b']}'
    yield few, ['many'], b'[{"n":1}' + b',{"n":2},{}' * 200_000 + b']'
    tree = b'split 0\nleaf\n' * 200_000 + b'leaf\nend\n'
    halves = block(HEAD + ['  definition x under condition n %s consequence equals n' % asked for asked in ('>= 0', '< 0')])
    yield halves, ['check'], b'catala-certificate 1\nscope S\nvar x\n' + tree


def large(program):
    """Calls that take much memory, where there is from little of it to enough."""
    with Runs(program) as runs:
        for source, (mode, *more), given in large_calls():
            runs.put({'a.md': source.encode()})
            words = [mode, 'S', 'a.md', *more]
            right = runs.ended(words, given)
            for kib in SPACES:
                ended = in_space(runs, words, given, kib)
                yield Tried('large calls in little memory', '%s, %d KiB' % (' '.join(words), kib),
                            '' if is_right(words, ended, right) else told(ended))


def stack(program, is_sample):
    with Runs(program) as runs:
        begin = least(lambda kib: loads(runs, kib), 0, 1 << 16, STEP)
    for number, (name, _, _) in enumerate(deepest()[:7] if is_sample else deepest()):
        yield Piece('address spaces, ' + name, functools.partial(spaces, program, begin, number, is_sample))
    yield Piece('address spaces, drill', functools.partial(drills, program, begin))
    if not is_sample:
        yield Piece('large calls in little memory', functools.partial(large, program))
    yield Piece('five eighths of the smaller stack', functools.partial(stacks, program, is_sample))
    yield Piece('what is taken of the stack first', functools.partial(taken_first, program))
