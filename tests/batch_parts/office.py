"""An office that has records and a law: it calls tools/batch, and knows the table that is wanted."""
import json, os, pathlib, random, re, shutil, subprocess
from typing import Dict, Iterable, Iterator, List, Tuple

from measure_batch import HEATINGS, SCOPE

TOP = pathlib.Path(__file__).resolve().parent.parent.parent
BATCH, PAGE = TOP / 'tools' / 'batch', TOP / 'docs' / 'BATCH.md'
STATUTE = TOP / 'examples' / 'heating_subsidy_second_draft' / 'law.md'  # An income of $20,000 is in no section of it.
REFUSED = len('input refused I1')
PATIENCE = 900  # Seconds for one batch.
Row = Dict[str, object]


class Failure(Exception):
    """What a test has seen in place of what it wants."""


def equal(seen: object, wanted: object, what: str) -> None:
    if seen != wanted:
        raise Failure('%s is\n%s\nand not\n%s' % (what, seen, wanted))


class Office:
    """A folder of records, and the program."""

    def __init__(self, program: pathlib.Path, folder: str):
        self.program, self.folder = str(program), pathlib.Path(folder)

    def file(self, name: str, text: str) -> pathlib.Path:
        (self.folder / name).write_text(text)
        return self.folder / name

    def words(self, *words: str, program: str = '', law: pathlib.Path = STATUTE, scope: str = SCOPE) -> List[str]:
        *options, records, results = words
        files = law, self.folder / records, self.folder / results
        return [str(word) for word in (BATCH, '--program', program or self.program, *options, scope, *files)]

    def batch(self, *words: str, status: int = 0, **others) -> Tuple[str, str]:
        """Runs a batch; gives what it wrote on standard output and on standard error."""
        ended = subprocess.run(self.words(*words, **others), stdout=subprocess.PIPE, stderr=subprocess.PIPE, text=True, timeout=PATIENCE)
        equal(ended.returncode, status, 'the status of %s with %r' % (' '.join(words), ended.stdout + ended.stderr))
        return ended.stdout, ended.stderr

    def told(self, given: bytes, mode: str = 'run') -> str:
        """What the program itself writes, without the last end of a line."""
        words = [self.program, mode, '--', SCOPE, STATUTE, '-']
        return subprocess.run(words, input=given, stdout=subprocess.PIPE).stdout.decode('utf-8', 'replace')[:-1]

    def lines(self, given: Iterable[str]) -> List[str]:
        """The lines of one call on all of them."""
        return self.told(('[%s]' % ','.join(given)).encode(), 'many').split('\n')

    def stand_in(self, script: str) -> str:
        """A program that does something else in front of what the program does; it counts its calls for many records."""
        file = self.file('stand_in', '#!/bin/sh\nroom=%s\n[ "$1" = many ] && echo many >>"$room/calls"\n%s\nexec %s "$@"\n'
                         % (self.folder, script, self.program))
        file.chmod(0o755)
        return str(file)

    def calls(self) -> int:
        return len((self.folder / 'calls').read_text().split()) if (self.folder / 'calls').exists() else 0

    def rows(self, name: str) -> List[Row]:
        return [json.loads(line) for line in (self.folder / name).read_text().splitlines()]

    def environment(self) -> Dict[str, str]:
        """An environment in which `catala` is the program."""
        (self.folder / 'bin').mkdir(exist_ok=True)
        shutil.copy(self.program, self.folder / 'bin' / 'catala')
        return {**os.environ, 'PATH': '%s:%s' % (self.folder / 'bin', os.environ['PATH'])}


def inputs(number: int) -> Iterator[Row]:
    """Inputs of the statute, of which some end in no value and some aren't taken."""
    drawn = random.Random(7)
    for _ in range(number):
        yield {'income': '%d.%02d' % (drawn.choice((20_000, drawn.randrange(60_000))), drawn.choice((0, drawn.randrange(100)))),
               'age_of_youngest': drawn.choice((2, 3, 9, 'nine')), 'heating': drawn.choice(HEATINGS)}


def wanted_row(record: int, key: object, line: str) -> Row:
    """The row of a record, by the line that the program writes on it."""
    if line.startswith('{'):
        return {'record': record, 'key': key, 'outcome': 'outputs', 'place': '', **json.loads(line)}
    front, _, place = (line[:REFUSED], '', line[REFUSED + 1:]) if line.startswith('input refused ') else line.partition(' at ')
    return {'record': record, 'key': key, 'outcome': front, 'place': place}


def blocks(kind: str) -> List[str]:
    """The blocks of the page in a language."""
    return re.findall(r'^```%s\n(.*?)^```$' % kind, PAGE.read_text(), re.M | re.S)


def said(told: str, wanted: str) -> None:
    if wanted not in told:
        raise Failure('%r is not said, but %r' % (wanted, told))


def missing(what: str, without: str) -> None:
    """Says that something isn't there, and what isn't tried then."""
    print('%s is missing: %s is not tried' % (what, without), flush=True)
