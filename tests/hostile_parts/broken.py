"""Sources, inputs, certificates and listings that are cut and changed: each answer is in the table, and is one that the second
implementation allows where it reads the source in time."""
import functools, itertools
from typing import NamedTuple

from reference.answers import Program, is_allowed
from reference.certificate import checked
from reference.lowering import Lowering

from .changes import cut, with_other_bytes, with_other_lines
from .compared import allowed, in_time, on_disk, text_of
from .odd_bytes import ODD_INPUTS, PLAIN, long_inputs, long_sources, random_texts, with_odd_bytes
from .odd_words import CODE, odd_words
from .pieces import Piece, Tried
from .runs import Runs
from .statutes import statutes
from .table import out_of_table, told

# So many changes go through a piece.
MANY = 2_000


class Changed(NamedTuple):
    """A call whose source, input, certificate or listing is changed, and whether the second implementation is asked."""
    kind: str
    what: str
    files: dict
    words: list
    given: bytes
    is_compared: bool = True


def other_call(s, k):
    """The k-th call of the other modes in turn on a statute: its words behind the mode's, and its standard input."""
    mode = ('audit', 'trace', 'many', 'emit', 'check', 'emit')[k % 6]
    scope = s.certified if mode == 'check' else s.scope
    given = {'many': b'[%s,1,%s]' % (s.given, s.given), 'check': s.certificate}.get(mode, s.given)
    return [mode, scope, s.main] + (['-'] if k % 6 == 5 else []), given


def of_source(s, name, kind, changes, steps, is_sample):
    """Runs of a statute of which a file is changed, and calls of the other modes on each so-many-th. Of a sample each `step` is tried
    and one of each `share` of them is compared."""
    step, share, others = steps
    for k, (what, made) in enumerate(changes()):
        nth, rest = divmod(k, step if is_sample else 1)
        if rest == 0:
            files, what, is_compared = {**s.files, name: made}, '%s, %s' % (s.name, what), not is_sample or nth % share == 0
            yield Changed(kind, what, files, ['run', s.scope, s.main], s.given, is_compared)
            if nth % others == 0:
                words, given = other_call(s, nth // others)
                yield Changed(kind + ', in other modes', '%s, %s' % (words[0], what), files, words, given, is_compared)


def sources(s):
    """Kinds of changes of the files of a statute."""
    for name, text in s.files.items():
        yield name, 'sources cut', functools.partial(cut, text), (211, 3, 5)
        yield name, 'sources cut, with the block closed', functools.partial(cut, text, b'\n```\n'), (131, 3, 5)
        yield name, 'sources with a line changed', functools.partial(with_other_lines, text), (31, 1, 2)
        if s.name == 'every form':
            yield name, 'sources with a byte changed', functools.partial(with_other_bytes, text), (397, 12, 2)
            yield name, 'sources with odd bytes', functools.partial(with_odd_bytes, text), (7, 1, 2)


def of_input(s, kind, changes, step, call, is_sample):
    """Calls whose standard input is changed."""
    for k, (what, made) in enumerate(changes()):
        if not is_sample or k % step == 0:
            yield Changed(kind, '%s, %s' % (s.name, what), s.files, call, made)


def inputs(s):
    """Kinds of changes of a statute's input, in the modes that read one, of an array of inputs, and of its certificate."""
    array = b'[%s,{},%s]' % (s.given, s.given)
    calls = [('inputs', ['run', s.scope, s.main], s.given, 1), ('certificates', ['check', s.certified, s.main], s.certificate, 1),
             ('arrays', ['many', s.scope, s.main], array, 3), ('inputs of a trace', ['trace', s.scope, s.main], s.given, 3),
             ('inputs of an emit', ['emit', s.scope, s.main, '-'], s.given, 3)]
    for what, call, text, rarer in calls:
        yield what + ' cut', functools.partial(cut, text), 23 * rarer, call
        yield what + ' with a line changed', functools.partial(with_other_lines, text), 5 * rarer, call
        yield what + ' with odd bytes', functools.partial(with_odd_bytes, text), 29 * rarer, call
        if rarer == 1 or what == 'arrays':
            yield what + ' with a byte changed', functools.partial(with_other_bytes, text), 211 * rarer, call


def of_listing(s, kind, changes, step, is_sample):
    """Runs of the listing of a statute that is changed."""
    for k, (what, made) in enumerate(changes()):
        if not is_sample or k % step == 0:
            yield Changed(kind, '%s, %s' % (s.name, what), {'in': s.given}, ['exec', s.scope, '-', 'in'], made)


def listings(s):
    """Kinds of changes of a statute's listing."""
    text = Lowering(Program(s.files, s.main)).listing().encode()
    yield 'listings cut', functools.partial(cut, text), 997
    yield 'listings with a line changed', functools.partial(with_other_lines, text), 211
    yield 'listings with odd bytes', functools.partial(with_odd_bytes, text), 97


def single(is_sample):
    """Small sources, inputs and listings."""
    words, files = ['run', 'S', 'a.md'], {'a.md': PLAIN}
    for kind, changes, step in (('sources with a byte changed', with_other_bytes(PLAIN), 7),
                                ('sources with odd bytes', with_odd_bytes(PLAIN), 3)):
        for k, (what, made) in enumerate(changes):
            if not is_sample or k % step == 0:
                yield Changed(kind, 'plain, %s' % (what,), {'a.md': made}, words, b'{"n":1}')
    for k, (what, made) in enumerate(with_other_bytes(CODE)):
        if not is_sample or k % 31 == 0:
            yield Changed('listings with a byte changed', what, {'in': b'{"n":1}'}, ['exec', 'S', '-', 'in'], made)
    for k, made in enumerate(random_texts(100 if is_sample else 4_000, PLAIN, 0)):
        yield Changed('random sources', str(k), {'a.md': made}, words, b'{"n":1}')
    for k, made in enumerate(random_texts(100 if is_sample else 2_000, b'{"n":-12, "q":[true, "\\u00e9"]}', 1)):
        yield Changed('random inputs', str(k), files, words, made)
    for given in ODD_INPUTS:
        yield Changed('odd inputs', repr(given), files, words, given)
        yield Changed('odd inputs', 'many, %r' % given, files, ['many', *words[1:]], b'[{"n":1},%s]' % given)


def long_parts(is_sample):
    for name, made, given, scope in long_sources():
        yield Changed('parts of 1 MiB', name, {'a.md': made}, ['run', scope, 'a.md'], given, not is_sample)
    for name, given in long_inputs():
        yield Changed('parts of 1 MiB', 'input, %s' % name, {'a.md': PLAIN}, ['run', 'S', 'a.md'], given, not is_sample)


class Known:
    """What the second implementation allows; a source is read anew only when it changes."""

    def __init__(self):
        self.files, self.program = None, None

    def replies(self, change):
        mode, scope, main, *_ = change.words
        if change.files is not self.files:
            self.files, self.program = change.files, None
            try:
                self.program = Program(change.files, main)
            except Exception:  # What it is refused for is found out below.
                pass
        if self.program is None or scope not in self.program.runs.numbers or mode not in ('run', 'check'):
            return allowed(change.files, change.words, change.given)
        return {self.program.run(scope, change.given) if mode == 'run' else checked(self.program, scope, change.given)}


def wrong_change(known, change, ended):
    """Whether the answer was compared, and what is wrong with it."""
    wrong = out_of_table(change.words, ended)
    found = in_time(known.replies, change) if change.is_compared else None
    if wrong or found is None:
        return found is not None, wrong
    reply, found = text_of(ended), set(map(on_disk, found))
    return True, '' if is_allowed(reply, found) else 'allowed is %r, got %s' % (sorted(found)[:3], told(ended))


def tried(program, changes, first):
    known = Known()
    with Runs(program) as runs:
        for change in itertools.islice(changes(), first, first + MANY):
            runs.put(change.files)
            ended = runs.ended(change.words, change.given)
            was_compared, wrong = wrong_change(known, change, ended)
            yield Tried(change.kind + (', compared' if was_compared else ''), change.what, wrong)


def all_changes(is_sample):
    """All changes, by a name and a function that makes them."""
    for s in statutes():
        for name, *kind in sources(s):
            yield '%s, %s of %s' % (kind[0], s.name, name), functools.partial(of_source, s, name, *kind, is_sample)
        for kind in inputs(s):
            yield '%s, %s' % (kind[0], s.name), functools.partial(of_input, s, *kind, is_sample)
        for kind in listings(s):
            yield '%s, %s' % (kind[0], s.name), functools.partial(of_listing, s, *kind, is_sample)
    yield 'small ones', functools.partial(single, is_sample)
    yield 'long parts', functools.partial(long_parts, is_sample)


def broken(program, is_sample):
    yield Piece('lists of words', functools.partial(odd_words, program, is_sample))
    for name, changes in all_changes(is_sample):
        for first in range(0, sum(1 for _ in changes()), MANY):
            yield Piece('%s from %d' % (name, first), functools.partial(tried, program, changes, first))
