"""The program that is called: where it lies, what its words name, and its reply, which is handed on as it is."""
import os, pathlib, shutil, subprocess, sys, tempfile, threading
from typing import List, NamedTuple, Optional

HERE = pathlib.Path(sys.argv[0]).resolve().parent
BLOCK = 65_536
OUTPUT_FAILED, NOT_FOUND = 12, 127
MODES = ('run', 'audit', 'check', 'emit', 'trace', 'many', 'table', 'dead', 'exec', 'drill')


class Words(NamedTuple):
    """What the words of a call name; what they don't name is empty."""
    mode: str
    scope: str
    file: str
    extra: str

    def reads_input(self) -> bool:
        """Whether standard input is read: named, or in place of a name."""
        return '-' in (self.file, self.extra) or self.mode in ('run', 'check', 'trace', 'many', 'exec') and bool(self.file) and not self.extra


class Ended(NamedTuple):
    """How a call ended; `given` is what was read of standard input."""
    status: int
    reply: bytes
    given: bytes


def read_words(words: List[str]) -> Words:
    """The mode and the names, without the option of a number of cases."""
    named, are_names = [], False
    left = list(words)
    while left:
        word = left.pop(0)
        if word == '--' and not are_names:
            are_names = True
        elif word == '--cases' and not are_names:
            left = left[1:]
        elif are_names or word == '-' or not word.startswith('-'):
            named.append(word)
    return Words(*(named + [''] * 4)[:4])


def found(asked: Optional[str]) -> Optional[str]:
    """The program that is asked for, or else the one beside this, of this checkout, or on the PATH."""
    if asked:
        return asked
    beside = [HERE / 'catala', HERE.parent / 'catala']
    return next((str(file) for file in beside if file.is_file() and os.access(file, os.X_OK)), None) or shutil.which('catala')


def hand_on(into, taken: List[bytes]) -> None:
    """Gives what comes from standard input to the program, and keeps it."""
    try:
        while block := os.read(0, BLOCK):
            taken.append(block)
            into.write(block)
            into.flush()
    except OSError:
        pass  # The program has ended without reading all of it.
    finally:
        try:
            into.close()
        except OSError:
            pass


def written(stream, data: bytes) -> bool:
    """Whether all of it was written to a standard stream, which may be closed."""
    if stream is None:
        return False
    try:
        stream.buffer.write(data)
        stream.buffer.flush()
    except OSError:
        os.dup2(os.open(os.devnull, os.O_WRONLY), stream.fileno())  # What is left of it is not tried again at the end.
        return False
    return True


def call(program: str, words: List[str]) -> Ended:
    """Runs the program, and writes its reply to standard output."""
    taken: List[bytes] = []
    is_read = read_words(words).reads_input() and sys.stdin is not None
    # Names may be of files that the caller opened, as those of a shell's `<(..)`.
    started = subprocess.Popen([program, *words], stdin=subprocess.PIPE if is_read else None, stdout=subprocess.PIPE, close_fds=False)
    if is_read:
        threading.Thread(target=hand_on, args=(started.stdin, taken), daemon=True).start()
    reply = started.stdout.read()
    status = started.wait()
    status = 128 - status if status < 0 else status
    return Ended(status if written(sys.stdout, reply) else OUTPUT_FAILED, reply, b''.join(taken))


def reply_on(program: str, scope: str, file: str, given: str, source: bytes) -> str:
    """The reply of a run on an input; the source stands on standard input where its name says so."""
    with tempfile.NamedTemporaryFile() as extra:
        extra.write(given.encode())
        extra.flush()
        ended = subprocess.run([program, 'run', '--', scope, file, extra.name], input=source, stdout=subprocess.PIPE)
    return ended.stdout.decode('utf-8', 'replace').rstrip('\n')
