"""What an audit leaves open: the definitions that would hold, their conditions as they are written, and how it is decided."""
import re
from typing import Callable, List, Optional

from reference.audit import NUMBERS, without_positions
from reference.grammar import tree_of
from reference.programs import walk
from reference.report import Region, Scoped

from .conditions import Written
from .notes import Note, Place
from .pages import Pages, help_in
from .report import Line, open_lines
from .sources import Source
from .witnesses import Search

AT = re.compile(r'(?:.*? )?at (.*)')
PLACE = re.compile(r' ?(.*?):(\d+):(\d+)(?= |$)')
OPPOSITE = {('<', '>='), ('<=', '>'), ('>', '<='), ('>=', '<'), ('=', '!='), ('!=', '=')}
COMPARED = ('<', '<=', '>', '>=', '=', '!=')
OF_LISTS = ('for all', 'exists', 'map each', 'list of', 'combine', 'number of', 'sum', 'contains')
MOST_LEAVES, MOST_CONDITIONS = 2_000, 10


def places_in(told: str) -> List[Place]:
    """The places that a line names."""
    found = AT.fullmatch(told)
    return [Place(name, int(line), int(column), int(column) + 1) for name, line, column in PLACE.findall(found[1])] if found else []


class Open:
    """What a line of a target leaves open, found again by the language in Python."""

    def __init__(self, program, scope: str, name: str, wants_derived: bool):
        number = program.runs.numbers[scope]
        self.scoped = Scoped(program, number, MOST_LEAVES)
        self.scope, self.table = program.scopes[number], self.scoped.table
        self.target = next(target for target in self.table.targets if target.name == name)
        _, regions, _ = self.scoped.search(self.target)
        fitting = [region for region in regions if bool(self.derived(region)) == wants_derived]
        self.region: Optional[Region] = next(iter(fitting or regions), None)

    def derived(self, region: Region) -> list:
        """The terms that it hangs on and that the scope computes."""
        return [self.table.terms[t] for t in sorted(region.asked) if self.table.terms[t].path is None]

    def held(self) -> list:
        """The definitions that contradict each other there; none in a gap."""
        def group(g):
            own, above = self.target.groups[g]
            found = [n for e in above for n in group(e)]
            return found or [n for n in own if self.scoped.definition(self.target, n, self.region)[0] == 'held']
        return [self.scope.definitions[n] for n in sorted(n for g in self.target.roots for n in group(g))]

    def rows(self) -> List[str]:
        """The rows that tell what to write, the surest at the end."""
        exprs = [term.expr for term in self.derived(self.region)]
        forms = {part[0] for expr in exprs for part in walk(expr)}
        rows = ['a comparison and its opposite'] if self.opposites() else []
        rows += ['a truth value that is compared'] if any(is_comparison(expr, 'boolean') for expr in exprs) else []
        rows += ['a match'] if 'match' in forms else []
        rows += ['a date that is moved back'] if any(part[0] == 'binary' and part[3] == ('-', 'date', 'duration')
                                                     for expr in exprs for part in walk(expr)) else []
        rows += ['what is asked of a list'] if forms & set(OF_LISTS) else []
        rows += ['a function'] if self.target.function or 'call' in forms else []
        if not rows and any(term.kind in NUMBERS for term in self.derived(self.region)):
            rows.append('a threshold on what is computed')
        return rows + ['whatever it asks']

    def opposites(self) -> Optional[tuple]:
        """Two comparisons of the same sides, of which the second one holds where the first one doesn't."""
        exprs = [term.expr for term in self.derived(self.region) if is_comparison(term.expr)]
        for k, first in enumerate(exprs):
            for second in exprs[k + 1:]:
                if sides(first) == sides(second) and (first[3][0], second[3][0]) in OPPOSITE:
                    return first, second
        return None


def is_comparison(expr, kind: str = '') -> bool:
    return expr[0] == 'binary' and expr[3][0] in COMPARED and kind in ('', expr[3][1])


def sides(expr) -> tuple:
    return tuple(without_positions(side, None, 0) for side in expr[4:])


class Explained:
    """The lines of a report, with what explains them."""

    def __init__(self, source: Source, pages: Pages, program, run: Callable[[str, str], str]):
        self.source, self.pages, self.program, self.run = source, pages, program, run
        self.written = Written(source, tree_of(source.tokens)) if program else None

    def note(self, line: Line) -> Note:
        part = self.pages.of_line(line.what)
        if self.program is None:
            return Note('reply', line.what, line.name, places_in(line.told), [part.sentence], [part.mend])
        told = {'Found': self.found, 'Masked': self.masked, 'Undecided derived': self.undecided, 'Undecided called': self.called}
        places, says, helps = told.get(line.what, lambda line: ([], [], []))(line)
        return Note('reply', line.what, line.name, places, [part.sentence, *says], helps or [part.mend])

    def found(self, line: Line):
        is_conflict = line.told.startswith('conflict')
        places = []
        for place in places_in(line.told):
            pos = self.source.pos(place)
            places.append(self.source.without_value(pos, 'holds') if is_conflict else self.source.place(pos, label='has no value'))
        return places, [], []

    def masked(self, line: Line):
        kind, place = line.told.split()[0], places_in(line.told)[0]
        fault = self.source.place(self.source.pos(place), label=kind)
        mend = [self.pages.of_line('Masked').mend, self.pages.of_code(kind).mend]
        opened = Open(self.program, line.scope, line.name, False)
        return [fault, *self.open_places(opened)], self.beside(line), mend

    def undecided(self, line: Line):
        opened = Open(self.program, line.scope, line.name, True)
        if opened.region is None:
            return places_in(line.told), [], []
        table = self.pages.titled('AUDIT.md', 'From derived to decided')
        helps = ['write ' + help_in(table, row) for row in opened.rows()]
        if pair := opened.opposites():
            helps.insert(0, '`not (%s)` in place of `%s`' % tuple(map(self.written.comparison, pair)))
        at = self.source.place(self.source.pos(places_in(line.told)[0]), label='what it hangs on')
        return first(at, self.open_places(opened)), self.beside(line), helps

    def open_places(self, opened: Open) -> List[Place]:
        """The definitions that would contradict each other, with the conditions of their blocks; of a gap the variable, and all that would
        not hold."""
        if not opened.region:
            return []
        held = opened.held()
        if held:
            return [place for d in held for place in self.written.conditions(d.pos, 'would hold')]
        item = opened.scope.items[opened.target.number[0]]
        others = [opened.scope.definitions[n] for n in sorted(opened.target.definitions)][:MOST_CONDITIONS]
        asked = [place for d in others for place in self.written.asked(d.pos, 'would not hold')]
        return [self.source.place(item.pos, label='would have no value'), *dict.fromkeys(asked)]

    def beside(self, line: Line) -> List[str]:
        """An input that shows more, where the program's run on it ends so."""
        found = Search(self.program, line.scope, self.source.tokens).found()
        is_so = found and self.run(line.scope, found[1]) == found[0]
        return ['found beside the report: %s with %s' % found] if is_so else []

    def called(self, line: Line):
        items = self.program.scopes[self.program.runs.numbers[line.scope]].items
        return [self.source.place(i.pos, label='calls %s' % line.told) for i in items if i.name == line.name], [], []


def first(place: Place, others: List[Place]) -> List[Place]:
    """The place in front of the others, or in front that one of these in which it begins."""
    around = [other for other in others if other[:3] == place[:3]]
    return around + [other for other in others if other not in around] if around else [place, *others]


def notes_of(report: str, source: Source, pages: Pages, program, run: Callable[[str, str], str]) -> List[Note]:
    """What is told of each line of a report that isn't Covered; `run` gives the program's reply of a scope on an input."""
    explained = Explained(source, pages, program, run)
    return [explained.note(line) for line in open_lines(report)]
