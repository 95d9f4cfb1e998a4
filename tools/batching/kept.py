"""The folder in which the parts of a batch are kept until all are there, so that a second call goes on with them."""
import contextlib, fcntl, hashlib, json, os, pathlib, re, shutil
from typing import Dict, Iterator, Union

from .refused import Refused, WRONG_USE

INCLUDE = re.compile(rb'^> Include: [ \t]*(.*?)[ \t]*\r?$', re.M)
BLOCK = 1 << 20
KNOWN, LOCK = 'batch.json', 'lock'
Batch = Dict[str, Union[str, int, None]]


def files_of(law: str) -> Iterator[bytes]:
    """What is in the law and in the files that it includes, whose names begin in the folder of the call."""
    left, read = [law], set()
    while left:
        name = left.pop(0)
        if name not in read and os.path.isfile(name):
            data = pathlib.Path(name).read_bytes()
            yield b'%s\0%d\0%s' % (os.fsencode(name), len(data), data)
            left += [found.decode('utf-8', 'surrogateescape') for found in INCLUDE.findall(data)]
        read.add(name)


def sum_of_law(law: str) -> str:
    total = hashlib.sha256()
    for text in files_of(law):
        total.update(text)
    return total.hexdigest()


def sum_of_file(name: str) -> str:
    total = hashlib.sha256()
    with open(name, 'rb') as opened:
        for block in iter(lambda: opened.read(BLOCK), b''):
            total.update(block)
    return total.hexdigest()


def same(one: Batch, other: Batch, when: str) -> None:
    """Refuses where two batches differ."""
    differs = [name for name in other if one.get(name) != other[name]]
    if differs:
        raise Refused(WRONG_USE, 'the batch differs %s, in: %s. With --anew its parts are dropped' % (when, ', '.join(differs)))


@contextlib.contextmanager
def folder_of(results: pathlib.Path, batch: Batch, is_anew: bool) -> Iterator[pathlib.Path]:
    """The folder of the parts of these results: new, or that of the same batch. It is gone once all went well."""
    folder = results.with_name(results.name + '.parts')
    known = folder / KNOWN
    if folder.exists() and not (folder / LOCK).exists() and any(folder.iterdir()):
        raise Refused(WRONG_USE, '%s is there, and holds no parts of a batch' % folder)
    folder.mkdir(exist_ok=True)
    with open(folder / LOCK, 'w') as lock:
        try:
            fcntl.flock(lock, fcntl.LOCK_EX | fcntl.LOCK_NB)  # The system lets go of it however the call ends.
        except BlockingIOError:
            raise Refused(WRONG_USE, 'another call computes %s now' % results) from None
        if is_anew:
            drop(folder)
        if known.exists():
            same(json.loads(known.read_text()), batch, 'from that of the parts in %s' % folder)
        put(str(known), json.dumps(batch))
        yield folder
        shutil.rmtree(folder)


def drop(folder: pathlib.Path) -> None:
    for file in folder.iterdir():
        if file.name != LOCK:
            file.unlink()


def put(path: str, text: str) -> None:
    """Writes a file such that it is there whole or not at all."""
    new = '%s.%d.new' % (path, os.getpid())
    with open(new, 'w', encoding='utf-8', errors='replace', newline='') as opened:
        opened.write(text)
    os.replace(new, path)
