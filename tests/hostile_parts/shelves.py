"""The top call over files and outputs in memory, of which each read and each put fails, and what is past each room: by a program of one
file, probe.rs, that is no crate of the repository and that the toolchain tries without a proof."""
import pathlib, shutil, subprocess, tempfile

from oracle_sources import shown
from reference.cases import TOP
from reference.modes import replies

from .calls import files, puts, with_keys
from .odd_bytes import PLAIN
from .pieces import Piece, Tried

HERE = pathlib.Path(__file__).resolve().parent
NEEDED = 'cat_probe: cat_io cat_app cat_rows\n'
SECONDS = 1_200
# The bytes of keys whose lines pass together what is gathered, and that the probe's output has room for.
LONG = (40_000, 40_000, 1)
FAILING = {'read': 'a read', 'put': 'a put', 'room': 'what is past a room'}


def shown_bytes(data):
    return ''.join(shown(c.encode()) if c in '\n\r\t' else c if ' ' <= c <= '~' and c != '\\' else '\\x%02x' % ord(c)
                   for c in data.decode('latin-1'))


def line(what, number, words, now):
    """A call of which that fails, as the probe reads it."""
    kept = ['%s=%s' % (shown(name.encode()), shown_bytes(data)) for name, data in now.items()]
    return '\\/'.join(['%s %d' % (what, number), shown(' '.join(words).encode()), *kept])


def calls():
    """The words of a call, the files that there are, and the names in the order in which they are read."""
    every = files()
    law, given = {name: every[name] for name in ('a.md', 'b.md')}, every['input.json']
    array = b'[%s,{},%s]' % (given, given)
    for words, more, last in (
            ('run All a.md', {'-': given}, '-'), ('run All a.md input.json', {'input.json': given}, 'input.json'),
            ('many All a.md', {'-': array}, '-'), ('many All a.md', {'-': with_keys(given, LONG)}, '-'),
            ('trace All a.md', {'-': given}, '-'), ('emit All a.md -', {'-': given}, '-'), ('emit All a.md', {}, ''),
            ('audit All a.md', {}, ''), ('audit Bands a.md', {}, ''),
            ('check Bands a.md', {'-': every['certificate']}, '-'), ('check Bands a.md older', {'older': every['older']}, 'older'),
            ('table All a.md', {}, ''), ('table Bands a.md band', {}, ''), ('dead All a.md', {}, ''),
            ('dead Bands a.md dead', {'dead': every['dead']}, 'dead'), ('run All a.md none', {}, 'none'), ('run None a.md', {}, ''),
            ('run All a.md', {}, '-')):
        yield words.split(), {**law, **more}, ['a.md', 'b.md', *([last] if last else [])]
    for name in ('code', 'lines', 'numbers'):
        yield ['exec', 'All', name], {name: every[name], '-': given}, [name, '-'][:1 + (name == 'code')]
    yield ['drill', '2', 'none'], {}, []
    nul, inner = 'x\0.md', b'> Include: \0\r.md\n' + PLAIN
    yield ['run', 'S', nul], {nul: PLAIN, '-': b'{"n":1}'}, [nul, '-']
    yield ['run', 'S', 'a.md'], {'a.md': inner, '\0\r.md': b'law', '-': b'{"n":1}'}, ['a.md', '\0\r.md', '-']
    yield ['run', 'S', 'a.md'], {'a.md': inner}, ['a.md', '\0\r.md']


def due():
    """Each line that is asked, with the status and the text that are due: by the second implementation where nothing fails."""
    for words, now, names in calls():
        [(text, status)] = replies(words, now)
        yield line('read', 0, words, now), status, text
        for k, name in enumerate(names, 1):
            yield line('read', k, words, now), 11, 'read fault %s\n' % name
        pieces = puts(words, text.encode())
        fronts = [b''.join(pieces[:k]).decode() for k in range(len(pieces) + 1)]
        for k in range(1, len(pieces) + 1):
            yield line('put', k, words, now), 12, fronts[k - 1]
        for room in sorted({0, 1, len(text) // 2, len(text) - 1, len(text), len(text) + 1}):
            taken = [front for front in fronts if len(front.encode()) <= room][-1]
            yield line('room', room, words, now), status if taken == text else 12, taken


def house(folder):
    """The repository's crates, with the probe beside them."""
    shutil.copytree(TOP / 'crates', folder / 'crates', ignore=shutil.ignore_patterns('out', 'must-fail'))
    (folder / 'crates.txt').write_text((TOP / 'crates.txt').read_text() + NEEDED)
    crate = folder / 'crates' / 'cat_probe'
    (crate / 'src').mkdir(parents=True)
    shutil.copy(HERE / 'probe.rs', crate / 'src' / 'main.rt')
    return crate


def probed(asked):
    """What the probe answers to each line; nothing where the toolchain doesn't try it."""
    with tempfile.TemporaryDirectory() as folder:
        ended = subprocess.run(['rt', 'try', '--seconds', str(SECONDS)], cwd=house(pathlib.Path(folder)), stdout=subprocess.PIPE,
                               stderr=subprocess.PIPE, input=''.join(text + '\n' for text in asked).encode())
    answers = ended.stdout.decode('utf-8', 'replace').split('\n')[:-1]
    return answers if len(answers) == len(asked) else [ended.stderr.decode('utf-8', 'replace')[-300:]] * len(asked)


def in_memory():
    lines = list(due())
    for (asked, status, text), answer in zip(lines, probed([asked for asked, _, _ in lines])):
        want, (what, words) = '%d %s' % (status, shown(text.encode())), asked.split('\\/')[:2]
        kind = 'nothing' if what == 'read 0' else FAILING[what.split()[0]]
        wrong = '' if answer == want else 'want %r, got %r' % (want[:100], answer[:300])
        yield Tried('calls over files and outputs in memory, of which %s fails' % kind, '%s, %s' % (words, what), wrong)


def shelves(program, is_sample):
    if is_sample:
        return
    if not shutil.which('rt'):
        print('shelves: skipped, since the toolchain is missing')
    else:
        yield Piece('shelves and sinks in memory', in_memory, True)
