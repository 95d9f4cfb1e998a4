"""The pages' own words: the part that tells of a code, its sentence, what mends it, and the rows of its tables."""
import pathlib, re
from typing import Dict, List, NamedTuple

DOCS = pathlib.Path(__file__).resolve().parent.parent.parent / 'docs'
HEADING = re.compile(r'^(#{2,3}) (.+)$', re.M)
TOLD = re.compile(r'^\*(?:To mend it|What to do)\.\* (.*?)(?:\n\n|\Z)', re.M | re.S)
SENTENCE = re.compile(r'(?<=\.) (?=[A-Z])')
CALLS = 'The calls, in the order in which one needs them'
CODED = re.compile(r'[EI]\d+ ')
CELL = re.compile(r'(?<!\\)\|')
LINK = re.compile(r'\[([^]]*)\]\([^)]*\)')


class Part(NamedTuple):
    """A part of a page, under a heading; `mend` is empty where it says nothing of it."""
    page: str
    title: str
    text: str
    sentence: str
    mend: str


class Row(NamedTuple):
    """A row of a part's table: its first cells, and the last one, which helps."""
    keys: List[str]
    help: str


def flat(text: str) -> str:
    """A text on one line, without the addresses of links."""
    return ' '.join(LINK.sub(r'\1', text).split())


def first_sentence(text: str) -> str:
    return SENTENCE.split(text, maxsplit=1)[0]


def parts_of(page: str) -> List[Part]:
    """The parts of a page, each up to the next heading of any depth."""
    text = (DOCS / page).read_text()
    found = list(HEADING.finditer(text))
    parts = []
    for heading, following in zip(found, found[1:] + [None]):
        body = text[heading.end():following.start() if following else len(text)].strip()
        mend = TOLD.search(body)
        parts.append(Part(page, heading[2], body, first_sentence(flat(body.split('\n\n')[0])), flat(mend[1]) if mend else ''))
    return parts


class Pages:
    """The parts that explain, by what they are about; a page is read once and when it is asked for."""

    def __init__(self):
        self.read: Dict[str, List[Part]] = {}

    def parts(self, page: str) -> List[Part]:
        if page not in self.read:
            self.read[page] = parts_of(page)
        return self.read[page]

    def of_code(self, code: str) -> Part:
        """The part of REFUSALS.md whose title is the code, or begins with it."""
        return next(part for part in self.parts('REFUSALS.md') if part.title == code or part.title.split()[0] == code)

    def of_line(self, *words: str) -> Part:
        """The part of AUDIT.md in whose title these words stand."""
        return next(part for part in self.parts('AUDIT.md') if all(word in part.title for word in words))

    def titled(self, page: str, title: str) -> Part:
        return next(part for part in self.parts(page) if part.title == title)

    def calls(self) -> List[str]:
        """The calls in the order in which one needs them, each with what it does."""
        return ['%s: %s' % (row.keys[0], row.help) for row in rows_of(self.titled('EXPLAIN.md', CALLS))]

    def help(self) -> str:
        """The calls as a table for a terminal, with what the page says in front of it."""
        part = self.titled('EXPLAIN.md', CALLS)
        rows = [(row.keys[0].strip('`'), row.help.replace('`', '')) for row in rows_of(part)]
        wide = max(len(call) for call, _ in rows)
        lines = ['%-*s  %s' % (wide, call, does) for call, does in rows]
        return '\n'.join([*lines, '', flat(part.text.split('\n\n')[-1]).replace('`', ''), 'The page: %s' % (DOCS / 'EXPLAIN.md')])

    def asked(self, words: str) -> List[Part]:
        """The parts that tell of what a user asks for: a code or its name, a line of an audit, or a refusal of a certificate or a listing."""
        asked = words.lower()
        titled = [part for part in self.parts('REFUSALS.md')
                  if asked == part.title.lower() or CODED.match(part.title) and asked in part.title.lower().split()]
        shaped = [part for part in self.parts('AUDIT.md') if part.title.startswith('`') and asked in part.title.lower()]
        return titled or shaped or self.certificate(words) or self.listing(words)

    def certificate(self, code: str) -> List[Part]:
        """The row that tells of a refusal of a certificate, as a part."""
        return [Part(part.page, code, row.help, row.help, '') for part in self.parts('AUDIT.md') for row in rows_of(part)
                if row.keys[0].startswith('`certificate refused %s' % code.upper())]

    def listing(self, code: str) -> List[Part]:
        """The row that tells of a refusal of a listing, as a part."""
        return [Part(part.page, code, row.help, row.help, part.mend) for part in self.parts('MACHINE.md') for row in rows_of(part)
                if row.keys[0].startswith('`listing refused %s' % code.upper())]


def is_rule(line: str) -> bool:
    """Whether a line parts the head of a table from its rows."""
    return set(line) <= set('|-: ')


def rows_of(part: Part) -> List[Row]:
    """The rows of all tables of a part, without their heads."""
    lines, rows = part.text.split('\n'), []
    for before, line in zip(['', *lines], lines):
        if before.startswith('|') and line.startswith('|') and not is_rule(line):
            cells = [flat(cell.replace('\\|', '|')) for cell in CELL.split(line)[1:-1]]
            rows.append(Row(cells[:-1], cells[-1]))
    return rows


def help_in(part: Part, *keys: str) -> str:
    """What the row with these first cells says; nothing where there is none."""
    return next((row.help for row in rows_of(part) if row.keys[:len(keys)] == list(keys)), '')
