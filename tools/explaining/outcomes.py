"""How a run ends without outputs, and how a call ends without a run: with the places that are meant."""
import os, pathlib, re
from typing import List

from .near import near_help
from .notes import Note, Place
from .pages import Pages
from .sources import Source

FENCE = re.compile(r'^\s*[`~]{2,}\s*\{?\.?catala\S*.*$', re.I)
OPENED = ('```catala', '```catala-metadata')


def conflict(source: Source, pages: Pages, places: List[Place]) -> Note:
    part = pages.of_code('conflict')
    positions = [source.pos(place) for place in places]
    shown = [source.without_value(pos, 'holds') if pos else place for place, pos in zip(places, positions)]
    return Note('reply', 'conflict', '', shown, [part.sentence], [part.mend])


def stopped(source: Source, pages: Pages, code: str, place: Place, label: str) -> Note:
    """A run that ends at one place: without a value, or in a fault."""
    part, pos = pages.of_code(code), source.pos(place)
    return Note('reply', code, '', [source.place(pos, label=label) if pos else place], [part.sentence], [part.mend])


def no_scope(source: Source, pages: Pages, name: str) -> Note:
    """No scope of a name: those that there are, or the lines that look as if they began code and don't."""
    part = pages.of_code('no such scope')
    scopes = [b for a, b in zip(source.tokens, source.tokens[1:]) if a.kind == 'scope' and b.kind == 'U']
    names = list(dict.fromkeys(token.value for token in scopes))
    places = [Place(file, number, 1, len(line.rstrip().encode('utf-8', 'surrogateescape')) + 1, 'begins no code')
              for file in source.names for number, line in enumerate(source.files.lines(file), 1)
              if FENCE.match(line) and line.rstrip() not in OPENED] if not names else []
    listed = ['scopes of this source: %s' % ', '.join('`%s`' % name for name in names)] if names else []
    return Note('reply', 'no such scope', '', places, [part.sentence, *listed], near_help(name, names) + [part.mend])


def no_target(pages: Pages, name: str, names: List[str]) -> Note:
    """No target of a name: those that the scope has."""
    part = pages.of_code('no such target')
    listed = ['targets of this scope: %s' % ', '.join('`%s`' % name for name in names)] if names else []
    return Note('reply', 'no such target', '', [], [part.sentence, *listed], near_help(name, names) + [part.mend])


def no_file(source: Source, pages: Pages, code: str, name: str) -> Note:
    """A file that can't be taken: with the include that names it, and the file beside that one which may be meant."""
    part = pages.of_code(code)
    places = [Place(i.file, i.line, 1, len(source.files.lines(i.file)[i.line - 1].encode('utf-8', 'surrogateescape')) + 1)
              for i in source.includes if i.name == name]
    helps = []
    for place in places:
        beside = str(pathlib.Path(place.file).parent / name)
        if beside != name and os.path.isfile(beside):
            helps.append('near to it: `%s`' % beside)
    folder = os.path.dirname(name) or '.'
    if not helps and code == 'missing file' and os.path.isdir(folder):
        helps = near_help(name, [os.path.join(os.path.dirname(name), other) for other in os.listdir(folder)])
    return Note('reply', code, '', places, [part.sentence], helps + [part.mend])
