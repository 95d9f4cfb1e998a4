"""Runs of the calls whose allocations, opens, reads or writes are refused, by refuse.c."""
import atexit, functools, pathlib, shutil, subprocess, tempfile

from .calls import files
from .runs import Runs

HERE = pathlib.Path(__file__).resolve().parent
LAST = 2**31


@functools.cache
def library():
    """The library that refuses, made once for all that are forked from here."""
    folder = pathlib.Path(tempfile.mkdtemp(prefix='hostile-'))
    folder.chmod(0o755)
    atexit.register(shutil.rmtree, folder)
    subprocess.run(['cc', '-O1', '-shared', '-fPIC', '-o', folder / 'refuse.so', HERE / 'refuse.c'], check=True)
    return folder / 'refuse.so'


class Refusing(Runs):
    """Runs over the files of the calls, with the library before the program that refuses."""

    def __enter__(self):
        self.put(files())
        self.library = library()
        return self

    def given(self, call):
        """What the call has as standard input."""
        return self.files[call.given] if call.given else b''

    def answer(self, call):
        """How it ends when nothing is refused."""
        return self.ended(call.words, self.given(call))

    def asked(self, call):
        """The calls that it makes: of each the kind and the name of the file."""
        log = self.folder / 'log'
        self.ended(call.words, self.given(call), more={'LD_PRELOAD': str(self.library), 'HOSTILE_LOG': str(log)})
        return [tuple(line.split(' ', 1)) for line in log.read_text().splitlines()]

    def refused(self, call, kind, first, last, how):
        """How it ends when the calls of the kind from the first to the last are refused."""
        more = {'LD_PRELOAD': str(self.library), 'HOSTILE': '%s %d %d %d' % (kind, first, last, how)}
        return self.ended(call.words, self.given(call), more=more)


def has_compiler():
    return bool(shutil.which('cc'))
