"""The law's files and the folder in which they lie: the only ones that are read for the page and written by it."""
import hashlib, os, pathlib, re, stat, tempfile
from typing import Dict, List, NamedTuple, Optional, Set, Tuple

MOST_FILE, MOST_FILES = 4 * 1024 * 1024, 64
FENCES = ('```catala', '```catala-metadata')
INCLUDE = re.compile(r'> Include: [ \t]*(.+)')
NAME = re.compile(r'[A-Za-z0-9][A-Za-z0-9_-]{0,99}')


class NoLaw(Exception):
    """Why there is no law to work on."""


class Changed(Exception):
    """The file on the disk isn't the one that is to be written over."""


class State(NamedTuple):
    """What the file on the disk holds: its text, and a sum that tells it from other texts."""
    text: str
    sum: str


def sum_of(data: bytes) -> str:
    return hashlib.sha256(data).hexdigest()


def content(file: pathlib.Path, most: int = MOST_FILE) -> Optional[bytes]:
    """What is in a plain file that is no link; nothing where it isn't there, or is larger than that."""
    try:
        handle = os.open(file, os.O_RDONLY | os.O_NOFOLLOW | os.O_NONBLOCK)
    except OSError:
        return None
    with open(handle, 'rb') as opened:
        is_plain = stat.S_ISREG(os.fstat(handle).st_mode)
        data = opened.read(most + 1) if is_plain else b''
    return data if is_plain and len(data) <= most else None


class File:
    """A file of the law on the disk, which is read again when it has changed."""

    def __init__(self, file: pathlib.Path):
        self.file = file
        self.seen: Tuple = ()
        self.kept: Optional[State] = None

    def state(self) -> Optional[State]:
        """What the file holds now; nothing where it can't be read as text at the moment."""
        try:
            told = os.stat(self.file)
            seen = (told.st_mtime_ns, told.st_size, told.st_ino)
            if seen != self.seen or self.kept is None:
                data = content(self.file)
                self.kept = State(data.decode(), sum_of(data)) if data is not None else None
                self.seen = seen
        except (OSError, UnicodeDecodeError):
            self.kept, self.seen = None, ()
        return self.kept

    def save(self, text: str, over: str) -> State:
        """Writes the text, where the file still holds what has that sum."""
        data = text.encode()
        if len(data) > MOST_FILE:
            raise ValueError('a file of a law has at most %d MiB' % (MOST_FILE // 2**20))
        now = content(self.file)
        if sum_of(now if now is not None else b'') != over:
            raise Changed
        replaced(self.file, data)
        return State(text, sum_of(data))


class Law(File):
    """A law's own file in its folder, both as they are once links are followed, and the files of the folder that it includes."""

    def __init__(self, named: str):
        super().__init__(pathlib.Path(named).resolve())
        self.folder, self.name = self.file.parent, self.file.name
        self.files: Dict[str, File] = {self.name: self}
        self.included: Set[str] = set()
        data = content(self.file)
        if data is None:
            raise NoLaw('%s is no file of at most %d MiB' % (named, MOST_FILE // 2**20))
        try:
            data.decode()
        except UnicodeDecodeError as error:
            raise NoLaw('%s is no text in UTF-8: byte %d' % (named, error.start + 1))

    # ---- the files that it includes

    def is_name(self, name: str) -> bool:
        """Whether a name, as it is written, may be that of another file of the folder."""
        is_below = name == os.path.normpath(name) and not os.path.isabs(name) and name.split('/')[0] not in ('.', '..')
        return is_below and name != self.name and '\0' not in name

    def is_inside(self, name: str) -> bool:
        """Whether it is the name of another file of the folder, to which no link leads."""
        file = os.path.join(self.folder, name)
        return self.is_name(name) and os.path.realpath(file) == file and os.path.isfile(file)

    def file_of(self, name: str) -> Optional[File]:
        """The law's own file, or one of its folder that it has included; nothing of another one."""
        if name != self.name and not (name in self.included and self.is_inside(name)):
            return None
        return self.files.setdefault(name, File(self.folder / name))

    def includes(self, text: str, others: Dict[str, str]) -> List[str]:
        """The names of the files that a law with this text includes, each once, in the order in which they are read; the page holds
        the texts of `others`."""
        found: List[str] = []
        left = included_by(text)
        while left and len(found) < MOST_FILES:
            name = left.pop(0)
            if name not in found and '\0' not in name:
                found.append(name)
                left = included_by(others[name] if name in others else self.text_of(name)) + left
        self.included.update(found)
        return found

    def text_of(self, name: str) -> str:
        """The text of a file that is included, wherever it lies."""
        file = self.file_of(name)
        state = file.state() if file else None
        data = None if file else content(pathlib.Path(os.path.realpath(self.folder / name)))
        return state.text if state else (data or b'').decode('utf-8', 'replace')

    # ---- what lies beside the law

    def beside(self, name: str) -> pathlib.Path:
        """The file of that name in the folder itself."""
        if os.path.basename(name) != name or name in ('', '.', '..'):
            raise ValueError('%r is no name of a file' % name)
        return self.folder / name

    def text_beside(self, name: str) -> Optional[str]:
        """The text of a file beside the law; nothing where there is none."""
        data = content(self.beside(name))
        return data.decode('utf-8', 'replace') if data is not None else None

    def names(self, ending: str) -> List[str]:
        """The names of the files beside the law with this ending, without it."""
        return sorted(file.name[:-len(ending)] for file in self.folder.iterdir() if file.name.endswith(ending) and file.is_file())

    def written(self, texts: Dict[str, str]) -> None:
        """Writes new files beside the law, each whole; where one of them is there already, none is written."""
        files = {self.beside(name): text for name, text in texts.items()}
        there = [file.name for file in files if os.path.lexists(file)]
        if there:
            raise FileExistsError('%s is there already' % ', '.join(there))
        for file, text in files.items():
            with open(file, 'x', encoding='utf-8') as opened:
                opened.write(text)


def included_by(text: str) -> List[str]:
    """The names of the files that a text includes, without those in blocks of code."""
    names, is_code = [], False
    for line in text.split('\n') if '> Include: ' in text else []:
        bare = line[:-1] if line.endswith('\r') else line
        bare = bare.rstrip(' \t')
        if is_code or bare in FENCES:
            is_code = bare != '```' if is_code else True
        elif found := INCLUDE.fullmatch(bare):
            names.append(found[1])
    return names


def replaced(file: pathlib.Path, data: bytes) -> None:
    """Writes a file such that no other process meets half of it; it keeps its rights."""
    handle, new = tempfile.mkstemp(dir=file.parent, prefix='.%s.' % file.name)
    try:
        with open(handle, 'wb') as opened:
            opened.write(data)
            opened.flush()
            os.fsync(opened.fileno())
        os.chmod(new, stat.S_IMODE(os.stat(file).st_mode))
        os.replace(new, file)
    except BaseException:
        os.unlink(new)
        raise
