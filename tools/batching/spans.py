"""JSON as it is written: the members of an object with the text of each value, so that no digit of a number is lost."""
import json, re
from json.decoder import scanstring
from typing import List, NoReturn, Optional, Tuple

BLANK = r'[ \t\n\r]*'
PLAIN = r'"[^"\\\x00-\x1f]*"'
SCALAR = r'%s|-?(?:0|[1-9][0-9]*)(?:\.[0-9]+)?(?:[eE][-+]?[0-9]+)?|true|false|null' % PLAIN
BLANKS = re.compile(BLANK)
# A member whose name and value have nothing to be looked into, with what stands behind it; most are such ones.
SIMPLE = re.compile(r'%s(%s)%s:%s(%s)%s([,}])' % (BLANK, PLAIN, BLANK, BLANK, SCALAR, BLANK))
BARE = re.compile(r'[ !#-\[\]-~]*')
LONE = re.compile('[\ud800-\udfff]')
Members = List[Tuple[str, str]]


def no_json(name: str) -> NoReturn:
    raise ValueError('%s is no JSON' % name)


class Decoder(json.JSONDecoder):
    """Python's reading without `NaN` and its like. A worker that is sent one makes its own."""

    def __init__(self) -> None:
        super().__init__(parse_constant=no_json)

    def __reduce__(self) -> tuple:
        return Decoder, ()


DECODER = Decoder()


def is_value(data: bytes) -> bool:
    """Whether bytes are the text of one JSON value; some that are aren't for the program, as the half of a pair of surrogates."""
    try:
        DECODER.decode(data.decode())
    except (ValueError, RecursionError):
        return False
    return True


def members_of(text: str) -> Optional[Members]:
    """The members of an object, each name with the text of its value; nothing where it is no object."""
    try:
        found, end = members(text, BLANKS.match(text).end())
    except (ValueError, IndexError, StopIteration, RecursionError):
        return None
    return found if BLANKS.fullmatch(text, end) else None


def members(text: str, at: int) -> Tuple[Members, int]:
    """The members of an object that begins there, and where what is behind it begins."""
    if text[at] != '{':
        raise ValueError('no object')
    found: Members = []
    at += 1
    behind = BLANKS.match(text, at).end()
    if text[behind] == '}':
        return found, behind + 1
    end = ','
    while end == ',':
        simple = SIMPLE.match(text, at)
        if simple:
            name, value, end, at = simple[1][1:-1], simple[2], simple[3], simple.end()
        else:
            name, value, end, at = member(text, at)
        found.append((name, value))
    return found, at


def member(text: str, at: int) -> Tuple[str, str, str, int]:
    """A member that begins there: its name, the text of its value, what ends it, and where what is behind that begins."""
    at = BLANKS.match(text, at).end()
    if text[at] != '"':
        raise ValueError('no name')
    name, at = scanstring(text, at + 1, True)
    at = BLANKS.match(text, at).end()
    if text[at] != ':':
        raise ValueError('no value')
    start = BLANKS.match(text, at + 1).end()
    _, end = DECODER.scan_once(text, start)
    at = BLANKS.match(text, end).end()
    if text[at] not in ',}':
        raise ValueError('no end')
    return name, text[start:end], text[at], at + 1


def quoted(text: str) -> str:
    """The JSON of a text."""
    return '"%s"' % text if BARE.fullmatch(text) else json.dumps(text, ensure_ascii=LONE.search(text) is not None)


def object_of(found: Members) -> str:
    return '{%s}' % ','.join(['%s:%s' % (quoted(name), value) for name, value in found])


def cell_of(value: str) -> str:
    """What stands in a cell of a table for the text of a value: a text without its quotes, and anything else as it is."""
    return value if not value.startswith('"') else value[1:-1] if '\\' not in value else json.loads(value)
