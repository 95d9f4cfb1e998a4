"""Calls of the program: each with limits of time, of memory and of what it writes, and each may be stopped."""
import os, signal, subprocess, tempfile, threading
from typing import Dict, List, NamedTuple, Optional

SECONDS, SECONDS_OF_AUDIT = 10, 120  # Of a processor's time; on a busy machine a call may last longer.
WHILE = 6
KIBIBYTES, BLOCKS = 2 * 1024 * 1024, 2 * 1024 * 16  # 2 GiB of memory; blocks of 512 bytes, 16 MiB of a reply.
LIMITED = 'ulimit -t "$1"; ulimit -v "$2"; ulimit -f "$3"; ulimit -c 0; shift 3; exec "$@"'
STOPPED, TOO_LONG = -1, -2


class Ended(NamedTuple):
    """How a call ended: its status, below zero where it was ended here, and what it wrote."""
    status: int
    reply: str


def limited(words: List[str], seconds: int) -> List[str]:
    """The words of a call that is given limits."""
    return ['/bin/sh', '-c', LIMITED, 'sh', str(seconds), str(KIBIBYTES), str(BLOCKS), *words]


def end_group(started: subprocess.Popen) -> None:
    """Ends a process and those that it started, which are a group of their own."""
    try:
        os.killpg(started.pid, signal.SIGKILL)
    except ProcessLookupError:
        pass


class Program:
    """The program; `room` is a folder for the inputs of calls, which nobody else may read."""

    def __init__(self, path: str, room: str):
        self.path, self.room = path, room
        self.running: Dict[str, subprocess.Popen] = {}
        self.lock = threading.Lock()

    def call(self, folder: str, words: List[str], source: str, given: Optional[str] = None, job: str = '',
             seconds: int = SECONDS) -> Ended:
        """Runs the program in a folder with the source on standard input, and with an input in a file at the end of its words."""
        with tempfile.TemporaryFile(dir=self.room) as into, tempfile.TemporaryFile(dir=self.room) as out, \
                tempfile.NamedTemporaryFile(dir=self.room, suffix='.json') as extra:
            into.write(source.encode())
            into.seek(0)
            if given is not None:
                extra.write(given.encode())
                extra.flush()
                words = [*words, extra.name]
            status = self.status(limited([self.path, *words], seconds), folder, into, out, job, seconds)
            out.seek(0)
            reply = out.read().decode('utf-8', 'replace').rstrip('\n')
        return Ended(status, reply.replace(extra.name, 'input') if given is not None else reply)

    def status(self, words: List[str], folder: str, into, out, job: str, seconds: int) -> int:
        started = subprocess.Popen(words, cwd=folder, stdin=into, stdout=out, stderr=subprocess.DEVNULL, start_new_session=True)
        with self.lock:
            self.running[job or str(started.pid)] = started
        try:
            status = started.wait(WHILE * seconds)
        except subprocess.TimeoutExpired:
            end_group(started)
            started.wait()
            return TOO_LONG
        finally:
            with self.lock:
                self.running.pop(job or str(started.pid), None)
        if status == -signal.SIGKILL:
            return STOPPED
        return TOO_LONG if status == -signal.SIGXCPU else 128 - status if status < 0 else status

    def stop(self, job: str) -> bool:
        """Ends a call, or all those whose jobs have this name in front; whether any was running."""
        with self.lock:
            found = [started for name, started in self.running.items() if name == job or name.startswith(job + ' ')]
            for started in found:
                end_group(started)
        return bool(found)

    def stop_all(self) -> None:
        for job in list(self.running):
            self.stop(job)
