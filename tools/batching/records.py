"""The records: how a file of them is cut into parts, and what each part gives to the program."""
import csv, io, json, pathlib, re
from dataclasses import dataclass
from typing import BinaryIO, Iterator, List, Optional, Tuple

from . import spans
from .refused import FAILED, Refused, WRONG_USE

MOST_BYTES = 48 * 1024 * 1024  # Of a part; an input of the program has at most 64 MiB.
KINDS = ('.jsonl', '.csv', '.parquet')
BARE = re.compile(r'true|false|-?(?:0|[1-9][0-9]*)')


@dataclass(frozen=True)
class Part:
    """Some records of a file: which part it is, the number of its first record, and where it begins and ends: bytes, or rows of Parquet."""
    number: int
    first: int
    size: int
    start: int
    end: int


@dataclass
class Record:
    """The key of a record as the text of a JSON value, empty where it has none, and the bytes that the program is given."""
    key: str
    given: bytes


def look_at_columns(file: pathlib.Path, key: Optional[str]) -> None:
    """Refuses a table in which a column is there twice, or the key isn't: of JSON lines each record is looked at alone."""
    if file.suffix == '.jsonl':
        return
    if file.suffix == '.csv':
        with open(file, 'rb') as opened:
            names = names_of(opened)
    else:
        names = parquet().ParquetFile(file).schema_arrow.names
    twice = [name for name in names if names.count(name) > 1]
    if twice:
        raise Refused(WRONG_USE, 'the column %s is there twice in %s' % (twice[0], file))
    if key is not None and names and key not in names:
        raise Refused(WRONG_USE, 'there is no column %s in %s' % (key, file))


def parts_of(file: pathlib.Path, size: int) -> Iterator[Part]:
    """The parts of a file, each of at most so many records."""
    if file.suffix == '.parquet':
        return parts_of_rows(parquet().ParquetFile(file).metadata.num_rows, size)
    return parts_of_lines(file, size)


def parts_of_rows(rows: int, size: int) -> Iterator[Part]:
    for number, start in enumerate(range(0, rows, size)):
        yield Part(number, start + 1, min(size, rows - start), start, min(start + size, rows))


def parts_of_lines(file: pathlib.Path, size: int) -> Iterator[Part]:
    number, first, held, start, at = 0, 1, 0, 0, 0
    with open(file, 'rb') as opened:
        for length, is_record in ends(opened, file.suffix == '.csv'):
            if held == size or held and at + length - start > MOST_BYTES:
                yield Part(number, first, held, start, at)
                number, first, held, start = number + 1, first + held, 0, at
            at += length
            held += is_record
    if held:
        yield Part(number, first, held, start, at)


def ends(opened: BinaryIO, is_csv: bool, has_names: bool = True) -> Iterator[Tuple[int, bool]]:
    """The bytes of each row, and whether it is a record: no blank line, and not the names of the columns. A row of CSV goes on behind
    the end of a line that stands within quotes."""
    length, quotes, is_names, is_blank = 0, 0, is_csv and has_names, True
    for line in opened:
        length += len(line)
        is_blank = is_blank and not line.strip()
        quotes += line.count(b'"') if is_csv else 0
        if quotes % 2 == 0:
            yield length, not is_blank and not is_names
            is_names, length, quotes, is_blank = is_names and is_blank, 0, 0, True
    if length:
        yield length, not is_names


def records_of(file: pathlib.Path, part: Part, key: Optional[str]) -> List[Record]:
    """The records of a part."""
    if file.suffix == '.parquet':
        return [of_row(row, key) for row in rows_of(file, part)]
    with open(file, 'rb') as opened:
        names = names_of(opened) if file.suffix == '.csv' else []
        opened.seek(part.start)
        data = opened.read(part.end - part.start)
    if file.suffix == '.csv':
        return list(of_csv(data, names, part.start == 0, key))
    return [of_line(line.strip(), key) for line in data.split(b'\n') if line.strip()]


# ---- JSON lines

def of_line(line: bytes, key: Optional[str]) -> Record:
    """What has a key is given without it, and all else, also what is no JSON, as it is."""
    try:
        found = spans.members_of(line.decode()) if key is not None else None
    except UnicodeDecodeError:
        found = None
    known = next((value for name, value in found or [] if name == key), '')
    if not known:
        return Record('', line)
    return Record(known, spans.object_of([(name, value) for name, value in found if name != key]).encode())


# ---- CSV

def names_of(opened: BinaryIO) -> List[str]:
    """The names of the columns, which stand in the first row that isn't blank."""
    front = 0
    for length, _ in ends(opened, True, False):
        opened.seek(front)
        text = opened.read(length).decode('utf-8-sig', 'surrogateescape')
        if text.strip():
            return cells_of(text) or []
        front += length
    return []


def cells_of(text: str) -> Optional[List[str]]:
    """The cells of a row; nothing where it is none by itself."""
    csv.field_size_limit(2 * MOST_BYTES)
    try:
        found = list(csv.reader(io.StringIO(text, newline='')))
    except csv.Error:
        return None
    return found[0] if len(found) == 1 else None


def of_csv(data: bytes, names: List[str], has_names: bool, key: Optional[str]) -> Iterator[Record]:
    """The records of rows, as `ends` cuts them. What is no row by itself is given as it is, so that it is refused."""
    at = 0
    for length, is_record in ends(io.BytesIO(data), True, has_names):
        row = data[at:at + length]
        at += length
        if is_record:
            cells = cells_of(row.decode('utf-8', 'surrogateescape'))
            yield Record('', row.strip()) if cells is None else of_cells(names, cells, key)


def of_cells(names: List[str], row: List[str], key: Optional[str]) -> Record:
    """A record of a row of cells. An empty cell is left out; cells without a name are given under the empty one, which no input has."""
    pairs = list(zip(names, row)) + [('', cell) for cell in row[len(names):]]
    given = [(name, value_of(cell)) for name, cell in pairs if cell and name != key]
    known = next((spans.quoted(cell) for name, cell in pairs if name == key and cell), '')
    return Record(known, spans.object_of(given).encode('utf-8', 'surrogateescape'))


def value_of(cell: str) -> str:
    """The text of the JSON value that a cell stands for: a truth value, a whole number, a list or what has names is written as JSON has
    it, and all else is a text. The language has no type of texts, so nothing is lost by it."""
    is_bare = BARE.fullmatch(cell) or cell[0] in '[{' and spans.is_value(cell.encode('utf-8', 'surrogateescape'))
    return cell if is_bare else json.dumps(cell, ensure_ascii=False)


# ---- Parquet, where pyarrow is there

def parquet():
    try:
        import pyarrow.parquet
    except ImportError:
        raise Refused(FAILED, 'pyarrow is missing, which reads and writes Parquet: give the records as .jsonl or .csv') from None
    return pyarrow.parquet


def rows_of(file: pathlib.Path, part: Part) -> Iterator[dict]:
    """The rows of a part, read from the groups in which they lie."""
    opened, at = parquet().ParquetFile(file), 0
    for group in range(opened.metadata.num_row_groups):
        size = opened.metadata.row_group(group).num_rows
        start, end = max(part.start - at, 0), min(part.end - at, size)
        if start < end:
            yield from opened.read_row_group(group).slice(start, end - start).to_pylist()
        at += size


def of_row(row: dict, key: Optional[str]) -> Record:
    """A record of Parquet: whole numbers, truth values, lists and what has names as JSON has them, and all else as texts."""
    given = {name: plain(value) for name, value in row.items() if value is not None and name != key}
    known = json.dumps(row[key], default=str, ensure_ascii=False) if row.get(key) is not None else ''
    return Record(known, json.dumps(given, default=str, ensure_ascii=False).encode())


def plain(value: object) -> object:
    """A value without numbers that JSON would round."""
    if isinstance(value, list):
        return [plain(one) for one in value]
    if isinstance(value, dict):
        return {name: plain(one) for name, one in value.items() if one is not None}
    return repr(value) if isinstance(value, float) else value
