"""Words as no user writes them: lists of words at random, of each of which the second implementation tells the reply and the status."""
import random

from reference.answers import Program, is_allowed
from reference.lowering import Lowering
from reference.modes import replies

from .compared import on_disk, text_of
from .odd_bytes import PLAIN
from .pieces import Tried
from .runs import Runs
from .table import out_of_table, told

MODES = ['run', 'many', 'trace', 'audit', 'check', 'emit', 'table', 'dead', 'exec', 'drill']
CODE = Lowering(Program({'a.md': PLAIN}, 'a.md')).listing().encode()
FILES = {'a.md': PLAIN, 'code': CODE, 'in': b'{"n":1}', 'array': b'[{"n":1},{"n":2}]', '--': b'law', '-a.md': PLAIN}
NUMBERS = ['5', '0', '', '1000000', '1000001', '+5', '+', ' 5', '05', '-1', '\u0665', '1_000', '9' * 30, '5=5']
ODD = ['', ' ', '-', '--', '--cases', *('--cases=' + number for number in NUMBERS), '--case', '--case=5', '--CASES=5', '-c', '-c5', '-h',
       '--help', '-V', '--version', 'help', 'RUN', 'runs', '5', '1', '1000', '1001', '0', '03', '+3', 'none', 'None', '\u0665', '\n',
       'a\n.md', 'a.md\n', 'in\n', '-a.md', 'S ', 'n' * 1000, '\u00e9', 'e\u0301', '\u202e', '\u2028']
PLAIN_WORDS = ['S', 'S', 'a.md', 'a.md', 'code', 'in', 'array', '-', '3', 'none', '--cases', '7']


def lists(count):
    """Lists of words: of a call with one word or two changed, put in or left out, and of any words."""
    chance = random.Random(2)
    for k in range(count):
        words = [chance.choice(MODES), 'S', 'a.md', *chance.choice(([], ['in'], ['array'], ['-'], ['--cases', '5']))]
        if words[0] == 'drill' and chance.random() < 0.5:
            words[1:] = ['3', 'none']
        if words[0] == 'exec' and chance.random() < 0.7:
            words[2] = 'code'
        for _ in range(chance.randrange(3)):
            at = chance.randrange(len(words) + 1)
            words[at:at + chance.randrange(2)] = [chance.choice(ODD + PLAIN_WORDS)] * chance.randrange(2)
        yield words if k % 4 else [chance.choice(MODES + ODD + PLAIN_WORDS) for _ in range(chance.randrange(7))]


def here(text, status):
    """A reply, without its last line feed, and its status, where the files lie on a disk."""
    reply = on_disk(text.removesuffix('\n'))
    return reply, 11 if status == 10 and reply.startswith('read fault') else status


def odd_words(program, is_sample):
    with Runs(program) as runs:
        runs.put(FILES)
        for words in lists(100 if is_sample else 4_000):
            ended = runs.ended(words, FILES['in'])
            found = {here(*pair) for pair in replies(words, {**FILES, '-': FILES['in']})}
            is_one = any(ended.status == status and is_allowed(text_of(ended), {want}) for want, status in found)
            wrong = out_of_table(words, ended) or ('' if is_one else 'allowed is %r, got %s' % (sorted(found)[:2], told(ended)))
            yield Tried('lists of words, compared', repr(words), wrong)
