"""What is told of a call: notes with places in texts, as text for a person and as data for an editor."""
import itertools, json
from typing import Dict, List, NamedTuple, Optional, Set, Tuple

LONG, AROUND = 140, 60


class Place(NamedTuple):
    """A part of a line of a file, from a column to the one behind it, which count bytes from 1; `label` says what stands there."""
    file: str
    line: int
    column: int
    end: int
    label: str = ''


class Note(NamedTuple):
    """One thing that is told. `kind` is 'reply', 'further' or 'warning'; `says` are sentences, and `helps` what to do."""
    kind: str
    code: str
    name: str
    places: List[Place] = []
    says: List[str] = []
    helps: List[str] = []


def shown(line: str) -> str:
    """A line as it is shown: without its end, each tab one blank."""
    return line.rstrip('\r\n').replace('\t', ' ')


def width(line: str, column: int) -> int:
    """How many characters stand in front of a column of bytes."""
    return len(line.encode('utf-8', 'surrogateescape')[:column - 1].decode('utf-8', 'replace'))


def windowed(line: str, start: int, end: int) -> Tuple[str, int]:
    """A line around a part of it, and where the part begins in that; a short one is whole."""
    if len(line) <= LONG:
        return line, start
    front, behind = max(0, start - AROUND), min(len(line), max(end, start + AROUND))
    return '..' * (front > 0) + line[front:behind] + '..' * (behind < len(line)), start - front + 2 * (front > 0)


def by_lines(places: List[Place]) -> List[List[Place]]:
    """The places, those of one line together where they follow each other."""
    return [list(group) for _, group in itertools.groupby(places, lambda place: (place.file, place.line))]


def marked(line: str, places: List[Place], is_first: bool) -> List[str]:
    """The line with its places underlined, the one that the reply names by `^`, and below it what stands at the others."""
    first, starts = places[0], [width(line, place.column) for place in places]
    ends = [max(start + 1, width(line, place.end)) for start, place in zip(starts, places)]
    window, start = windowed(shown(line), starts[0], ends[0])
    marks = [' '] * max(len(window) + 1, *[end + start - starts[0] for end in ends])
    for place, begins, end in reversed(list(zip(places, starts, ends))):
        for at in range(max(0, begins + start - starts[0]), end + start - starts[0]):
            marks[at] = '^' if is_first and place is first else '-'
    below = ['%s%s' % (' ' * (begins + start - starts[0]), place.label) for place, begins in list(zip(places, starts))[1:] if place.label]
    return [window, ('%s %s' % (''.join(marks).rstrip(), first.label)).rstrip(), *below]


def excerpt(places: List[Place], lines: Optional[List[str]], is_first: bool, digits: int) -> List[str]:
    """The line of some places with what is meant underlined."""
    margin, place = ' ' * digits, places[0]
    head = '%s %s %s:%d:%d' % (margin, '-->' if is_first else ':::', place.file, place.line, place.column)
    if lines is None or not 0 < place.line <= len(lines) or place.column < 1:  # A listing may have places that are none.
        return [head]
    line, *marks = marked(lines[place.line - 1], places, is_first)
    return [head, margin + '  |', '%*d  | %s' % (digits, place.line, line), *['%s  | %s' % (margin, text) for text in marks]]


def title(note: Note) -> str:
    front = {'reply': '', 'further': 'further: ', 'warning': 'warning: '}[note.kind]
    return front + ' '.join(word for word in (note.code, note.name) if word)


def text_of(notes: List[Note], texts: Dict[str, List[str]]) -> str:
    """The notes for a person, each sentence once; `texts` has the lines of the files that are known."""
    out: List[str] = []
    said: Set[str] = set()
    for note in notes:
        out += ['', title(note)]
        digits = max([len(str(place.line)) for place in note.places], default=1)
        for at, places in enumerate(by_lines(note.places)):
            out += excerpt(places, texts.get(places[0].file), at == 0, digits)
        out += ['  ' + sentence for sentence in note.says if sentence not in said]
        said.update(note.says)
        out += ['  help: ' + sentence for sentence in note.helps]
    return '\n'.join(out[1:] + ['']) if out else ''


def data_of(notes: List[Note], reply: str, status: int) -> str:
    """The same as JSON."""
    listed = [{'kind': note.kind, 'code': note.code, 'name': note.name, 'says': note.says, 'helps': note.helps,
               'places': [place._asdict() for place in note.places]} for note in notes]
    return json.dumps({'status': status, 'reply': reply, 'notes': listed}, ensure_ascii=False, indent=1) + '\n'
