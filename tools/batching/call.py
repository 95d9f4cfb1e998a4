"""The words of a call of tools/batch, and the batch from its beginning to its end."""
import os, pathlib, shutil, signal, subprocess, sys
from typing import List, NamedTuple, Optional

from . import cluster, computing, kept, records, results
from .progress import Progress
from .refused import FAILED, INTERRUPTED, NO_PROGRAM, Refused, WRONG_USE

TOP = pathlib.Path(__file__).resolve().parent.parent.parent
SIZE = 10_000
NUMBERS, TEXTS = ('--size', '--workers'), ('--program', '--key', '--scheduler')


class Asked(NamedTuple):
    """What a call asks for."""
    scope: str
    law: str
    file: pathlib.Path
    into: pathlib.Path
    program: Optional[str]
    key: Optional[str]
    scheduler: Optional[str]
    size: int
    workers: int
    is_anew: bool


def read_call(words: List[str]) -> Optional[Asked]:
    """What the words ask for; nothing where they are no call."""
    told, left, is_anew = {'--size': str(SIZE), '--workers': str(os.cpu_count() or 1)}, list(words), False
    while left and left[0].startswith('-'):
        option = left.pop(0)
        if option == '--anew':
            is_anew = True
        elif option in (*NUMBERS, *TEXTS) and left:
            told[option] = left.pop(0)
        else:
            return None
    are_numbers = all(told[option].isdecimal() and int(told[option]) > 0 for option in NUMBERS)
    if len(left) != 4 or not are_numbers:
        return None
    file, into = (pathlib.Path(name).absolute() for name in left[2:])
    if file == into or not {file.suffix, into.suffix} <= set(records.KINDS):
        return None
    return Asked(left[0], left[1], file, into, *map(told.get, TEXTS), int(told['--size']), int(told['--workers']), is_anew)


def program_of(asked: Optional[str]) -> str:
    """The program that is asked for, or the one that lies packed in this checkout."""
    if asked:
        found = shutil.which(os.path.abspath(asked))
        if found is None:
            raise Refused(NO_PROGRAM, 'there is no program %s' % asked)
        return found
    ran = subprocess.run([TOP / 'tools' / 'unpack'], stdout=subprocess.PIPE, text=True)
    if ran.returncode:
        raise Refused(ran.returncode, 'the program is not unpacked')
    return ran.stdout.strip()


def batch_of(asked: Asked, call: computing.Call) -> kept.Batch:
    """What has to be the same where a second call goes on with the parts of a first one."""
    told = os.stat(asked.file)
    return {'law': kept.sum_of_law(asked.law), 'program': kept.sum_of_file(call.program), 'scope': asked.scope, 'records': str(asked.file),
            'bytes': told.st_size, 'changed': told.st_mtime_ns, 'key': asked.key, 'size': asked.size, 'results': asked.into.suffix}


def compute(asked: Asked, task: results.Task, parts: List[records.Part]) -> Progress:
    """Computes the parts that aren't there yet, and tells how far it is."""
    progress = Progress(parts, results.done_in(task.folder, parts))
    left = [part for part in parts if part.number not in progress.done]
    if left:
        with cluster.client_of(asked.scheduler, min(asked.workers, len(left))) as client:
            cluster.compute(client, task, left, progress.take)
    progress.end()
    return progress


def run(asked: Asked) -> int:
    """Computes what isn't computed yet, and writes the table."""
    cluster.look_for_engine()
    if '.parquet' in (asked.file.suffix, asked.into.suffix):
        records.parquet()
    call = computing.Call(program_of(asked.program), asked.scope, asked.law, os.getcwd())
    outputs = computing.outputs_of(call)
    records.look_at_columns(asked.file, asked.key)
    batch = batch_of(asked, call)
    with kept.folder_of(asked.into, batch, asked.is_anew) as folder:
        parts = list(records.parts_of(asked.file, asked.size))
        task = results.Task(str(asked.file), asked.key, call, outputs, str(folder), results.kind_of(asked.into))
        progress = compute(asked, task, parts)
        kept.same(batch, batch_of(asked, call), 'while it ran')
        results.join(task, parts, asked.into)
    for outcome, number in progress.outcomes():
        print('%d %s' % (number, outcome))
    return 0


def stopped(*_: object) -> None:
    raise KeyboardInterrupt


def main(words: List[str], usage: str) -> int:
    if words in (['--help'], ['-h']):
        print(usage)
        return 0
    asked = read_call(words)
    if asked is None:
        print(usage, file=sys.stderr)
        return WRONG_USE
    signal.signal(signal.SIGTERM, stopped)
    try:
        return run(asked)
    except Refused as refused:
        status, why = refused.args
    except KeyboardInterrupt:
        status, why = INTERRUPTED, 'it was broken off; the same call goes on'
    except OSError as error:
        status, why = FAILED, str(error)
    except Exception as error:  # What a part ended with, or what the engine says of one that it gives up.
        status, why = FAILED, '%s: %s' % (type(error).__name__, error)
    print('tools/batch: %s' % why, file=sys.stderr)
    return status
