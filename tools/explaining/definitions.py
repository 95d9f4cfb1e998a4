"""What a report on definitions says of those that aren't seen to decide, and which others decide in their place."""
import re
from typing import List, NamedTuple, Optional

from reference.report import Scoped
from reference.tables import leaves

from .notes import Note, Place
from .pages import Pages
from .sources import Source

LINE = re.compile(r'(\S+) at (.*?):(\d+):(\d+): (never decides|Masked|Undecided derived|Undecided budget)(?: (.*))?')
HANGS_ON = re.compile(r'at (.*?):(\d+):(\d+) with .*')
CERTIFICATE = '\ncatala-dead '
MOST_LEAVES, MOST_PLACES = 2_000, 10


class Line(NamedTuple):
    """What is said of a definition of a variable, and the rest of that line."""
    name: str
    place: Place
    what: str
    told: str


def place_of(file: str, line: str, column: str) -> Place:
    return Place(file, int(line), int(column), int(column) + 1)


def open_lines(report: str) -> List[Line]:
    """The lines of definitions that aren't seen to decide."""
    lines = report.partition(CERTIFICATE)[0].split('\n')
    found = [line for line in map(LINE.fullmatch, lines) if line]
    return [Line(line[1], place_of(*line.group(2, 3, 4)), line[5], line[6] or '') for line in found]


class Explained:
    """The lines of a report on the definitions of a scope, with what explains them."""

    def __init__(self, source: Source, pages: Pages, program, scope: str):
        self.source, self.pages = source, pages
        self.scoped: Optional[Scoped] = Scoped(program, program.runs.numbers[scope], MOST_LEAVES) if program else None

    def note(self, line: Line) -> Note:
        part = self.pages.of_line('at P: %s' % line.what)
        places = [self.definition(line.place, line.what)]
        if line.what == 'never decides':
            places += self.in_its_place(line)
        if hangs := HANGS_ON.fullmatch(line.told) if line.what == 'Undecided derived' else None:
            at = place_of(*hangs.groups())
            pos = self.source.pos(at)
            places.append(self.source.place(pos, label='what it hangs on') if pos else at)
        return Note('reply', line.what, line.name, places, [part.sentence], [part.mend])

    def definition(self, place: Place, label: str) -> Place:
        pos = self.source.pos(place)
        return self.source.without_value(pos, label) if pos else place

    def in_its_place(self, line: Line) -> List[Place]:
        """The definitions that decide where this one might hold."""
        if self.scoped is None:
            return []
        definitions = self.scoped.scope.definitions
        target = next(target for target in self.scoped.table.targets if target.name == line.name)
        number = next(n for n in target.definitions if definitions[n].pos == self.source.pos(line.place))
        found = [leaf for leaf in leaves(self.scoped, target, self.scoped.search(target)[0]) if leaf.result]
        met = [leaf for leaf in found if self.scoped.definition(target, number, leaf.region)[0] != 'empty']
        others = sorted({leaf.result[1] for leaf in met if leaf.result[0] == 'held'})
        return [self.source.without_value(definitions[n].pos, 'decides in its place') for n in others[:MOST_PLACES]]


def notes_of(report: str, source: Source, pages: Pages, program, scope: str) -> List[Note]:
    """What is told of each definition of a scope that isn't seen to decide."""
    explained = Explained(source, pages, program, scope)
    return [explained.note(line) for line in open_lines(report)]
