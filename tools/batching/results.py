"""The table of results: a row for each record, parts of it as they come, and all of it in the order of the records."""
import csv, io, json, os, pathlib, shutil
from collections import Counter
from dataclasses import dataclass
from typing import Dict, Iterator, List, Optional, Tuple

from . import computing, kept, records, spans

OUTPUTS = 'outputs'
OWN = ('record', 'key', 'outcome', 'place')
PLACED = ('conflict ', 'no value ', 'fault ')
REFUSED = 'input refused '
BLOCK = 1 << 20


@dataclass(frozen=True)
class Task:
    """What is done with each part: the file of records, the name of their key, what is called, the names of the outputs, and where parts
    are put in which form."""
    file: str
    key: Optional[str]
    call: computing.Call
    outputs: Tuple[str, ...]
    folder: str
    kind: str


@dataclass(frozen=True)
class Done:
    """What is told of a part that was computed: its records, and how often each outcome came."""
    number: int
    size: int
    counts: Dict[str, int]


@dataclass
class Row:
    """What came of a record: `key` is the text of a JSON value, or empty, and so is each output."""
    record: int
    key: str
    outcome: str
    place: str
    outputs: spans.Members


def row_of(number: int, key: str, line: str) -> Row:
    found = spans.members_of(line)
    if found is not None:
        return Row(number, key, OUTPUTS, '', found)
    if line.startswith(PLACED):
        outcome, _, place = line.partition(' at ')
    elif line.startswith(REFUSED):
        code, _, place = line[len(REFUSED):].partition(' ')
        outcome = REFUSED + code
    else:
        outcome, place = line, ''
    return Row(number, key, outcome, place, [])


def column_of(name: str) -> str:
    """The column of an output: its name, but where that is one of the columns that each table has."""
    return 'output.' + name if name in OWN else name


# ---- parts

def kind_of(file: pathlib.Path) -> str:
    """The form of the parts of a table: those of Parquet lie there as CSV until all are there."""
    return '.jsonl' if file.suffix == '.jsonl' else '.csv'


def path_of(folder: str, number: int, ending: str) -> str:
    return os.path.join(folder, 'part-%06d%s' % (number, ending))


def compute(task: Task, part: records.Part) -> Done:
    """Computes a part, and puts its rows and then what is told of it into files, each whole. One that is there already, since a worker
    died before it could tell of it, is not computed again."""
    known = known_of(task.folder, part.number)
    if known is not None:
        return known
    given = records.records_of(pathlib.Path(task.file), part, task.key)
    if len(given) != part.size:
        raise computing.Broken('the file of records is another one than at the beginning')
    lines = computing.replies(task.call, [record.given for record in given])
    rows = [row_of(part.first + k, record.key, line) for k, (record, line) in enumerate(zip(given, lines))]
    done = Done(part.number, part.size, dict(Counter(row.outcome for row in rows)))
    kept.put(path_of(task.folder, part.number, task.kind), written(rows, task))
    kept.put(path_of(task.folder, part.number, '.json'), json.dumps(vars(done)))
    return done


def known_of(folder: str, number: int) -> Optional[Done]:
    """What is told of a part that was computed before; nothing of one that wasn't."""
    try:
        with open(path_of(folder, number, '.json'), encoding='utf-8') as opened:
            return Done(**json.load(opened))
    except FileNotFoundError:
        return None


def done_in(folder: str, parts: List[records.Part]) -> Dict[int, Done]:
    """The parts that were computed before, by their numbers."""
    found = (known_of(folder, part.number) for part in parts)
    return {part.number: part for part in found if part is not None}


def written(rows: List[Row], task: Task) -> str:
    """The rows of a part in the form of its kind."""
    if task.kind == '.jsonl':
        return ''.join([line_of(row) + '\n' for row in rows])
    text = io.StringIO(newline='')
    csv.writer(text, lineterminator='\n').writerows(cells_of(row, task.outputs) for row in rows)
    return text.getvalue()


def line_of(row: Row) -> str:
    own = row.record, row.key or 'null', spans.quoted(row.outcome), spans.quoted(row.place)
    outputs = [',%s:%s' % (spans.quoted(column_of(name)), value) for name, value in row.outputs]
    return '{"record":%d,"key":%s,"outcome":%s,"place":%s%s}' % (*own, ''.join(outputs))


def cells_of(row: Row, names: Tuple[str, ...]) -> List[str]:
    found = dict(row.outputs)
    outputs = [spans.cell_of(found[name]) for name in names] if row.outcome == OUTPUTS else [''] * len(names)
    return [str(row.record), spans.cell_of(row.key), row.outcome, row.place, *outputs]


# ---- all of it

def join(task: Task, parts: List[records.Part], file: pathlib.Path) -> None:
    """Puts the parts into the file, in the order of their records."""
    new = os.path.join(task.folder, 'all')
    columns = [*OWN, *map(column_of, task.outputs)]
    paths = [path_of(task.folder, part.number, task.kind) for part in parts]
    if file.suffix == '.parquet':
        join_rows(paths, columns, new)
    else:
        with open(new, 'wb') as into:
            if task.kind == '.csv':
                into.write((','.join(columns) + '\n').encode())
            for path in paths:
                with open(path, 'rb') as opened:
                    shutil.copyfileobj(opened, into, BLOCK)
    os.replace(new, file)


def join_rows(paths: List[str], columns: List[str], new: str) -> None:
    """Writes a table of Parquet, in which all but the number of a record is text; what is empty is null."""
    import pyarrow

    schema = pyarrow.schema([(name, pyarrow.int64() if name == 'record' else pyarrow.string()) for name in columns])
    with records.parquet().ParquetWriter(new, schema) as writer:
        for path in paths:
            cells = [[cell or None for cell in column] for column in zip(*rows_in(path))]
            cells[0] = list(map(int, cells[0]))
            writer.write_table(pyarrow.table([pyarrow.array(cell, kind.type) for cell, kind in zip(cells, schema)], schema=schema))


def rows_in(path: str) -> Iterator[List[str]]:
    csv.field_size_limit(2 * records.MOST_BYTES)
    with open(path, encoding='utf-8', newline='') as opened:
        yield from csv.reader(opened)
