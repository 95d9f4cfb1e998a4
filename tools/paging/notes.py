"""What explains a reply, as data for the page: places with the pieces of lines that are meant."""
import pathlib, re
from typing import Callable, List, Optional

from explaining.notes import Note, Place
from explaining.pages import Pages
from explaining.sources import Source
from reference.tokens import Pos, Refused, token_at

REFUSED = re.compile(r'source refused (E\d+) at (.*):(\d+):(\d+)')


def place_of(place: Place, told: str) -> dict:
    """A place with the piece of its line, and what stands in front of that and behind it."""
    line = told.encode('utf-8', 'surrogateescape')
    cuts = (0, place.column - 1), (place.column - 1, place.end - 1), (place.end - 1, len(line))
    front, piece, behind = (line[start:end].decode('utf-8', 'replace').rstrip('\r') for start, end in cuts)
    return {'file': place.file, 'line': place.line, 'column': place.column, 'end': place.end, 'label': place.label,
            'front': front, 'piece': piece, 'behind': behind}


def line_of(source: Source, place: Place, given: str) -> str:
    """The line of a place, where that may be shown."""
    lines = source.files.lines(place.file) if place.file in ('-', given) or is_beside(place.file) else []
    return lines[place.line - 1] if place.line <= len(lines) else ''


def is_beside(name: str) -> bool:
    """Whether a file lies in the law's folder, in which this runs: lines of no other one are shown."""
    here = pathlib.Path.cwd().resolve()
    return here in pathlib.Path(name).resolve().parents


def as_data(notes: List[Note], source: Source, given: str) -> List[dict]:
    """The notes; the file of the input is called so."""
    told = []
    for note in notes:
        places = [place_of(place, line_of(source, place, given)) for place in note.places]
        for place in places:
            place['file'] = 'input' if place['file'] == given else place['file']
        told.append({'kind': note.kind, 'code': note.code, 'name': note.name, 'places': places, 'says': note.says, 'helps': note.helps})
    return told


def token_end(line: str, column: int) -> int:
    """Where the token ends that begins at a column of bytes; one place behind it where there is none."""
    at = len(line.encode('utf-8', 'surrogateescape')[:column - 1].decode('utf-8', 'replace'))
    try:
        _, end = token_at(line, at, Pos(0, 1, column))
    except (Refused, IndexError):
        return column + 1
    return column + len(line[at:end].encode('utf-8', 'surrogateescape'))


def first_words(reply: str, pages: Pages, line_at: Callable[[str, int], Optional[str]]) -> Optional[List[dict]]:
    """What the pages alone say of a refused source, before its grammar was looked at; nothing of another reply."""
    found = REFUSED.fullmatch(reply)
    if not found:
        return None
    code, file, number, column = found[1], found[2], int(found[3]), int(found[4])
    part = pages.of_code(code)
    line = line_at(file, number)
    end = token_end(line, column) if line is not None else column + 1
    place = place_of(Place(file, number, column, end), line or '')
    return [{'kind': 'reply', 'code': code, 'name': part.title.partition(' ')[2], 'places': [place],
             'says': [part.sentence], 'helps': [part.mend]}]
