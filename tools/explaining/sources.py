"""A source as the program read it: its files with their lines, its pieces of code, and the includes in it."""
import pathlib
from typing import Dict, List, NamedTuple, Optional, Tuple

import oracle_sources as sources
from reference.tokens import Pos, Token, tokens_of

from .notes import Place


MOST_TEXT, MOST_OF_PROGRAM = 512 * 1024, 64 * 1024
BEHIND_CONDITION = ('consequence', 'equals', 'fulfilled')


class Include(NamedTuple):
    """A line that includes a file."""
    file: str
    line: int
    name: str


class Files:
    """The files by name, read when they are asked for: those of the disk, and what was given on standard input."""

    def __init__(self, given: bytes):
        self.read: Dict[str, bytes] = {'-': given}
        self.parted: Dict[str, List[str]] = {}

    def __contains__(self, name: str) -> bool:
        return self.content(name) is not None

    def __getitem__(self, name: str) -> bytes:
        return self.read[name]

    def content(self, name: str) -> Optional[bytes]:
        """What is in a file; nothing where it can't be read, or is a pipe, which can't be read again."""
        try:
            if name not in self.read and pathlib.Path(name).is_file():
                self.read[name] = pathlib.Path(name).read_bytes()
        except (OSError, ValueError):
            return None
        return self.read.get(name)

    def lines(self, name: str) -> List[str]:
        """The lines of a file that was read; bytes that are no text are kept apart."""
        if name not in self.parted:
            self.parted[name] = self.read.get(name, b'').decode('utf-8', 'surrogateescape').split('\n')
        return self.parted[name]

    def texts(self) -> Dict[str, List[str]]:
        """The lines of each file that was read."""
        return {name: self.lines(name) for name in self.read}


class Pieces(sources.Gathering):
    """Gathers the pieces of code as they stand, and the includes."""

    def __init__(self, files):
        super().__init__(files)
        self.pieces: List[Tuple[str, int, int]] = []
        self.includes: List[Include] = []

    def add(self, name, what, at, part):
        file, line, _ = map(int, at.split(':'))
        if what == 'code':
            self.pieces.append((part.decode(), file, line))
        elif what == 'include':
            self.includes.append(Include(name, line, part.decode()))
            super().add(name, what, at, part)


class Source:
    """A source that is looked at again; `is_whole` where each file of it could be read, its blocks are in order and it has no
    more code than faults are sought in, and `is_small` where a program of it is built again, which takes longer."""

    def __init__(self, files: Files, main: str):
        self.files, self.main, self.is_whole, self.is_small = files, main, False, False
        gathered = Pieces(files)
        try:
            gathered.take(main)
            size = sum(len(text) for text, _, _ in gathered.pieces)
            self.is_whole, self.is_small = size <= MOST_TEXT, size <= MOST_OF_PROGRAM
        except sources.Refused:
            pass
        self.names, self.pieces, self.includes = gathered.taken, gathered.pieces, gathered.includes
        self.tokens: List[Token] = tokens_of(self.pieces if self.is_whole else [], [])  # What is no token is passed over.
        self.numbers = {token.pos: number for number, token in enumerate(self.tokens)}

    def pos(self, place: Place) -> Optional[Pos]:
        """The position of a place that the reply names; nothing where its file isn't known."""
        return Pos(self.names.index(place.file), place.line, place.column) if place.file in self.names else None

    def token(self, pos: Pos) -> Optional[Token]:
        """The token at a position."""
        return self.tokens[self.numbers[pos]] if pos in self.numbers else None

    def behind(self, pos: Optional[Pos]) -> List[Token]:
        """The tokens from a position on; none at the end."""
        return self.tokens[self.numbers[pos]:] if pos in self.numbers else []

    def place(self, pos: Pos, end: Optional[Pos] = None, label: str = '') -> Place:
        """The place from a position to an end on its line, or to the end of its token, or of one place."""
        if end is None:
            token = self.token(pos)
            end = token.end if token else pos._replace(column=pos.column + 1)
        column = end.column if end.line == pos.line else len(self.line(pos).rstrip().encode('utf-8', 'surrogateescape')) + 1
        return Place(self.names[pos.file], pos.line, pos.column, column, label)

    def line(self, pos: Pos) -> str:
        lines = self.files.lines(self.names[pos.file])
        return lines[pos.line - 1] if 0 < pos.line <= len(lines) else ''

    def without_value(self, pos: Pos, label: str) -> Place:
        """The definition that begins there, up to its condition, or else to its name."""
        ended = None
        for token in self.behind(pos):
            if token.kind in BEHIND_CONDITION:
                break
            ended = token.end
        return self.place(pos, ended, label)

    def text(self, pos: Pos, end: Pos) -> str:
        """The code from one position to another one, on one line."""
        lines = self.files.read[self.names[pos.file]].split(b'\n')[pos.line - 1:end.line]
        lines[-1] = lines[-1][:end.column - 1]
        lines[0] = lines[0][pos.column - 1:]
        return ' '.join(b'\n'.join(lines).decode('utf-8', 'replace').split())
