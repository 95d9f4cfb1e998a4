"""What explains a reply: by its status and its form."""
import re
from typing import List, Optional

from reference.answers import Program
from reference.report import Scoped

from . import audits, definitions, inputs, listings, outcomes, refusals, warnings
from .listings import Listing
from .notes import Note, Place
from .pages import Pages
from .program import Ended, Words, reply_on
from .sources import Source

PLACE = re.compile(r' ?(.*?):(\d+):(\d+)(?= |$)')
STOPPED = re.compile(r'(conflict|no value|fault) (\S+) at (.*)')
REFUSED = re.compile(r'source refused (E\d+) at (.*)')
INPUT = re.compile(r'input refused (I\d)(?: (.*))?', re.S)
CERTIFICATE = re.compile(r'certificate refused (C\d)(?: at line (\d+))?')
ACCEPTED = (0, 1, 2, 3, 5, 6, 7, 8)
FILES = {9: 'no such scope ', 10: 'missing file ', 11: 'read fault ', 14: 'too large '}
NO_TARGET = 'no such target '


def places_in(text: str) -> List[Place]:
    """The places that a reply names, one behind the other."""
    return [Place(name, int(line), int(column), int(column) + 1) for name, line, column in PLACE.findall(text)]


class Reply:
    """The reply of a call, and what was called: something of a source, or a listing, whose source is the one of which it was made."""

    def __init__(self, path: str, words: Words, ended: Ended, source: Source, pages: Pages, listing: Optional[Listing] = None):
        self.path, self.words, self.status, self.source, self.pages = path, words, ended.status, source, pages
        self.listing = listing
        self.text = ended.reply.decode('utf-8', 'surrogateescape').rstrip('\n')

    def program(self) -> Program:
        return Program(self.source.files, self.source.main)

    def notes(self) -> List[Note]:
        explained = {1: self.stopped, 2: self.stopped, 3: self.stopped, 4: self.refused, 5: self.input, 6: self.report, 7: self.report,
                     8: self.certificate, 9: self.named, 10: self.named, 11: self.named, 14: self.named, 15: self.listed}
        notes = explained[self.status]() if self.status in explained and self.words.mode != 'drill' else []
        if self.listing is not None:
            return notes
        is_built = self.source.is_small and self.status in ACCEPTED
        return notes + (warnings.warnings_of(self.source, self.pages, self.program()) if is_built else
                        warnings.of_files(self.source, self.pages))

    def declared(self) -> Optional[tuple]:
        """The types, and the items of the scope that is asked for; nothing where what declares them is too large."""
        if self.listing is not None:
            return self.listing.declared(self.words.scope)
        program = self.program() if self.source.is_small else None
        return program and (program.types, program.scopes[program.runs.numbers[self.words.scope]].items)

    def targets(self) -> List[str]:
        """The names of the targets of the scope that is asked for; none where the source is too large."""
        if not self.source.is_small:
            return []
        program = self.program()
        return [target.name for target in Scoped(program, program.runs.numbers[self.words.scope], 1).table.targets]

    def run(self, scope: str, given: str) -> str:
        """The program's reply of a scope on another input."""
        return reply_on(self.path, scope, self.words.file, given, self.source.files.read['-'])

    # ---- by status

    def stopped(self) -> List[Note]:
        outcome = self.text.rpartition('\n')[2]  # Behind the code and its steps, or what decided, where the words ask for these.
        what, name, rest = STOPPED.fullmatch(outcome).groups()
        places = places_in(rest)
        if what == 'conflict':
            return [outcomes.conflict(self.source, self.pages, places)]
        code, label = (name, '') if what == 'fault' else (what, 'has no value')
        return [outcomes.stopped(self.source, self.pages, code, places[0], label)]

    def refused(self) -> List[Note]:
        code, rest = REFUSED.fullmatch(self.text).groups()
        return refusals.notes_of(self.source, self.pages, code, places_in(rest)[0])

    def input(self) -> List[Note]:
        code, path = INPUT.fullmatch(self.text).groups()
        name = self.words.extra or '-'
        files = self.source.files if self.listing is None else self.listing.files
        data = files.content(name) if name != self.words.file else None  # Behind a source nothing is left.
        declared = self.declared() if data is not None else None
        if declared is None:
            part = self.pages.of_code(code)
            return [Note('reply', code, part.title.partition(' ')[2], [], [part.sentence], [part.mend])]
        given = inputs.Input(name, data, *declared)
        if self.words.mode == 'many' and code != 'I1':
            return [inputs.no_array(given, self.pages, code)]
        return inputs.notes_of(given, self.pages, code, path)

    def report(self) -> List[Note]:
        if self.words.mode == 'table':
            part = self.pages.of_line('rest not shown')
            return [Note('reply', 'rest not shown', '', [], [part.sentence], [part.mend])]
        program = self.program() if self.source.is_small else None
        if self.words.mode == 'dead':
            return definitions.notes_of(self.text, self.source, self.pages, program, self.words.scope)
        return audits.notes_of(self.text, self.source, self.pages, program, self.run)

    def certificate(self) -> List[Note]:
        code, line = CERTIFICATE.fullmatch(self.text).groups()
        is_open = self.words.mode == 'dead' and code == 'C3'
        part = self.pages.of_line('A leaf that is open') if is_open else self.pages.certificate(code)[0]
        name = self.words.extra or '-'
        lines = self.source.files.lines(name) if self.source.files.content(name) is not None and line else []
        shown = lines[int(line) - 1] if line and int(line) <= len(lines) else ''
        places = [Place(name, int(line), 1, len(shown.encode('utf-8', 'surrogateescape')) + 1)] if line else []
        return [Note('reply', code, '', places, [part.sentence])]

    def listed(self) -> List[Note]:
        return [listings.refused(self.listing, self.pages, self.text)]

    def named(self) -> List[Note]:
        if self.status == 9 and self.text.startswith(NO_TARGET):
            return [outcomes.no_target(self.pages, self.text[len(NO_TARGET):], self.targets())]
        code = FILES[self.status].strip()
        if not self.text.startswith(code):
            return [Note('reply', 'usage', '', [], [], self.pages.calls())]
        name = self.text[len(code) + 1:]
        if self.status == 9 and self.listing is not None:
            return [listings.no_scope(self.listing, self.pages, name)]
        if self.status == 9:
            return [outcomes.no_scope(self.source, self.pages, name)]
        return [outcomes.no_file(self.source, self.pages, code, name)]
