"""Pieces of what is tried: side by side, those that are measured alone, and with a record of what is done."""
import collections, hashlib, json, multiprocessing, pathlib, sys, time
from typing import Callable, NamedTuple

FORKS = multiprocessing.get_context('fork')
# What is left to be done, for the processes that are forked.
LEFT = []


class Tried(NamedTuple):
    """What was tried: its kind, what of it, what is wrong, and what is told of it in any case."""
    kind: str
    what: str
    wrong: str = ''
    told: str = ''


class Piece(NamedTuple):
    """A piece of a part by its name, and what goes through it. It has the machine to itself where it takes much of it."""
    name: str
    tries: Callable
    is_alone: bool = False


def done(part, piece):
    """What a piece tried and found."""
    began, kinds, wrong, told = time.monotonic(), collections.Counter(), [], []
    for tried in piece.tries():
        kinds[tried.kind] += 1
        wrong += ['%s, %s: %s' % (tried.kind, tried.what, tried.wrong)] if tried.wrong else []
        told += [tried.told] if tried.told else []
    return {'part': part, 'piece': piece.name, 'tried': kinds, 'wrong': wrong, 'told': told,
            'seconds': round(time.monotonic() - began, 1)}


class Record:
    """The pieces that are done of a program, in a file where one is named; those in which something is wrong are tried again."""

    def __init__(self, file, program, is_sample):
        self.file, self.found = file and pathlib.Path(file), {}
        self.of = [hashlib.sha256(pathlib.Path(program).read_bytes()).hexdigest(), is_sample]
        for line in self.file.read_text().splitlines() if self.file and self.file.exists() else []:
            kept = json.loads(line)
            if kept['of'] == self.of and not kept['wrong']:
                self.found[kept['part'], kept['piece']] = kept

    def add(self, found):
        self.found[found['part'], found['piece']] = found
        if self.file:
            with self.file.open('a') as file:
                file.write(json.dumps({'of': self.of, **found}) + '\n')


def all_done(parts, record, jobs):
    """Each piece of the parts that isn't done, as it ends: those that go side by side first."""
    LEFT[:] = [(part, piece) for part, pieces in parts for piece in pieces if (part, piece.name) not in record.found]
    with FORKS.Pool(jobs) as pool:
        yield from pool.imap_unordered(nth_done, [k for k, (_, piece) in enumerate(LEFT) if not piece.is_alone])
        # The processes end by themselves: one that is ended while it waits for its next piece may wait for ever.
        pool.close()
        pool.join()
    yield from (done(part, piece) for part, piece in LEFT if piece.is_alone)


def nth_done(k):
    return done(*LEFT[k])


def summed(record, parts):
    """How often each kind was tried in the parts, what was told and what is wrong."""
    kinds, told, wrong = collections.Counter(), [], []
    for part, pieces in parts:
        for piece in pieces:
            found = record.found[part, piece.name]
            kinds.update(found['tried'])
            told += found['told']
            wrong += found['wrong']
    return kinds, told, wrong


def say_seconds(record, parts):
    for part, pieces in parts:
        seconds = sum(record.found[part, piece.name]['seconds'] for piece in pieces)
        print('%s: %.0f s in %d pieces' % (part, seconds, len(pieces)), file=sys.stderr)
