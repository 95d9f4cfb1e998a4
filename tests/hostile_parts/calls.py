"""The calls whose memory and devices fail: of each mode one that does its work over a source with every form, and of each refusal one."""
import functools, pathlib, re
from typing import NamedTuple

from reference.answers import Program
from reference.dead import dead
from reference.lowering import Lowering
from reference.report import audit
from reference.tokens import KEYWORDS, PAIRS, SYMBOL

SOURCE = pathlib.Path(__file__).resolve().parent / 'source'


class Call(NamedTuple):
    """A call by its name, its words, the status that is due, and the file that is its standard input."""
    name: str
    words: list
    status: int
    given: str = ''


def call(name, words, status, given=''):
    return Call(name, words.split(), status, given)


CALLS = [
    call('run', 'run All a.md input.json', 0),
    call('run on standard input', 'run All a.md', 0, 'input.json'),
    call('audit', 'audit All a.md', 6),
    call('complete audit', 'audit Bands a.md', 0),
    call('check', 'check Bands a.md certificate', 0),
    call('check of the older form', 'check Bands a.md older', 0),
    call('emit', 'emit All a.md', 0),
    call('emit with an input', 'emit All a.md input.json', 0),
    call('trace', 'trace All a.md input.json', 0),
    call('many', 'many All a.md inputs.json', 0),
    call('many long lines', 'many All a.md long.json', 0),
    call('tables', 'table All a.md', 0),
    call('a table', 'table Bands a.md band', 0),
    call('a table with a rest', 'table Bands a.md --cases 1', 7),
    call('definitions', 'dead All a.md', 7),
    call('definitions that all decide', 'dead Bands a.md', 0),
    call('definitions short of leaves', 'dead Bands a.md --cases 1', 7),
    call('a check of definitions', 'dead Bands a.md dead', 0),
    call('drill', 'drill 3 none', 0),
    call('exec', 'exec All code input.json', 0),
    call('conflict', 'run Drafted b.md both.json', 1),
    call('no value', 'run Drafted b.md none.json', 2),
    call('fault', 'run All a.md failed.json', 3),
    call('fault behind its code', 'emit All a.md failed.json', 3),
    call('fault behind what decided', 'trace All a.md failed.json', 3),
    call('conflict of a listing', 'exec Drafted code both.json', 1),
    call('refused source', 'run All refused.md input.json', 4),
    call('refused input', 'run All a.md refused.json', 5),
    call('refused array', 'many All a.md input.json', 5),
    call('refused certificate', 'check Bands a.md input.json', 8),
    call('refused certificate of definitions', 'dead Bands a.md certificate', 8),
    *(call('refused %s' % name, 'exec All %s input.json' % name, 15) for name in ('lines', 'tables', 'numbers', 'loops', 'shapes')),
    call('no such scope', 'run None a.md input.json', 9),
    call('no such target', 'table All a.md none', 9),
    call('missing file', 'run All a.md missing.json', 10),
]

# So many bytes of lines are gathered, and the bytes of keys whose lines pass that: together, and one by itself.
GATHERED = 2**16
LONG = (30_000, 30_000, 30_000, 70_000, 1, 2)
SYMBOLS = ': . , ; ( ) [ ] { } + - -- * / = != < <= > >='.split()


def lacking():
    """What of the language's words and symbols the source with every form lacks."""
    text = ''.join((SOURCE / name).read_text() for name in ('a.md', 'b.md'))
    words = [word for word in (*sorted(KEYWORDS), *PAIRS) if not re.search(r'\b%s\b' % word, text)]
    return words + [symbol for symbol in SYMBOLS if symbol not in SYMBOL.findall(text)]


def puts(words, reply):
    """The pieces in which a reply is written: all of it at once, but of many inputs whole lines, gathered as far as they may be."""
    if words[0] != 'many':
        return [reply]
    pieces = []
    for line in reply.splitlines(True):
        if pieces and len(pieces[-1]) + len(line) <= GATHERED:
            pieces[-1] += line
        else:
            pieces.append(line)
    return pieces


def with_keys(given, lengths):
    """An array of an input with a key that it hasn't, which the line of each names: of so many bytes."""
    return b'[%s]' % b','.join(given.replace(b'{', b'{"%s":1,' % (b'k' * length), 1) for length in lengths)


def refused_listings(code):
    """Listings that are refused: by a line, a table, a number, a jump back and a shape."""
    *lines, last = code.splitlines(True)
    number = int(last.split()[0])
    made = {'numbers': b'jump %d' % (2**32 - 1), 'loops': b'jump 0', 'shapes': b'length'}
    return {'lines': code + b'\n', 'tables': code.replace(b'\nconst integer ', b'\nconst boolean ', 1),
            **{name: b''.join([*lines, b'%d %s\n' % (number, what)]) for name, what in made.items()}}


@functools.cache
def files():
    """The files of the calls: those that are kept, the certificates and the listing that the second implementation writes, and what is made
    of them."""
    kept = {file.name: file.read_bytes() for file in SOURCE.iterdir()}
    certificate = audit(kept, 'a.md', 'Bands').encode() + b'\n'
    certified = dead(Program(kept, 'a.md'), 'Bands')[0].encode() + b'\n'
    code, given = Lowering(Program(kept, 'a.md')).listing().encode(), kept['input.json']
    failed, refused = given.replace(b'"n":42', b'"n":7777'), given.replace(b'"n":42', b'"n":4.2')
    return {**kept, 'certificate': certificate, 'dead': certified, 'both.json': b'{"income":10}', 'none.json': b'{"income":95}',
            'failed.json': failed, 'refused.json': refused, 'inputs.json': b'[%s]' % b','.join((given, refused, failed, given)),
            'long.json': with_keys(given, LONG), 'code': code, **refused_listings(code),
            'refused.md': kept['a.md'].replace(b'most equals 100', b'most equals true')}
