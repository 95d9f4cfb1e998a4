"""A listing that was run: the lines that its refusal means, the scopes and types that it tells, and the source of which it was made."""
import re
from typing import List, Optional

from reference.image_tables import ImageTables
from reference.images import Image

from .near import near_help
from .notes import Note, Place
from .pages import Pages
from .sources import MOST_TEXT, Files, Source

STOPS, FILE = (1, 2, 3), 'file '
REFUSED = re.compile(r'listing refused ([LV]\d)(?: at (line|instruction) (\d+))?')
ENTRY = re.compile(r'(?:scope [^ ]+|function) (\d+)')
SCOPE = re.compile(r'scope ([^ ]+) \d+')


class Listing:
    """A listing by the name of its file; without a line where it can't be read again."""

    def __init__(self, files: Files, name: str):
        self.files, self.name, self.content = files, name, files.content(name)
        self.lines: List[str] = files.lines(name) if self.content is not None else []

    def source(self, status: int) -> Source:
        """The source whose files it names, as far as these are there, where places of a reply lie in it; else one without a line. What was
        standard input when the listing was made isn't known any more."""
        front = self.lines[1] if status in STOPS and len(self.lines) > 1 else ''
        return Source(Files(b''), front[len(FILE):] if front.startswith(FILE) else '-')

    def declared(self, scope: str) -> Optional[tuple]:
        """The types, and the items of a scope; nothing where the listing can't be read again, or is large."""
        if self.content is None or len(self.content) > MOST_TEXT:
            return None
        tables = ImageTables(Image(self.content))
        return tables.types, tables.scopes[tables.numbers[scope]].items

    def place(self, number: int, label: str = '') -> Place:
        """The line of that number."""
        line = self.lines[number - 1] if number <= len(self.lines) else ''
        return Place(self.name, number, 1, len(line.encode('utf-8', 'surrogateescape')) + 1, label)

    def at_instruction(self, number: int) -> List[Place]:
        """The line of an instruction; behind the last one, the lines that say that a scope or a function begins there."""
        front = '%d ' % number
        own = [self.place(n) for n, line in enumerate(self.lines, 1) if line.startswith(front)]
        entries = ((n, ENTRY.fullmatch(line)) for n, line in enumerate(self.lines, 1))
        return own or [self.place(n, 'begins where no instruction is') for n, entry in entries if entry and int(entry[1]) >= number]


def refused(listing: Listing, pages: Pages, reply: str) -> Note:
    """Why a listing is refused: the line that is meant, and what is told of it."""
    code, what, number = REFUSED.fullmatch(reply).groups()
    part, = pages.listing(code)
    known = listing.lines and number
    places = [] if not known else [listing.place(int(number))] if what == 'line' else listing.at_instruction(int(number))
    return Note('reply', code, '', places, [part.sentence], [part.mend])


def no_scope(listing: Listing, pages: Pages, name: str) -> Note:
    """No scope of a name: those that the listing has."""
    names = [scope[1] for scope in map(SCOPE.fullmatch, listing.lines) if scope]
    listed = ['scopes of this listing: %s' % ', '.join('`%s`' % name for name in names)] if names else []
    return Note('reply', 'no such scope', '', [], [pages.of_code('no such scope').sentence, *listed], near_help(name, names))
