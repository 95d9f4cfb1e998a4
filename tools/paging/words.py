"""Asks a process of its own for what the language in Python knows of a source: explanations, and the forms of inputs.

It is a process apart, so that the page's answers don't wait for it, and so that it has limits of memory and of time too."""
import json, pathlib, subprocess, sys, threading
from typing import Optional

from .program import end_group, limited

SECONDS, SECONDS_OF_LIFE = 120, 100_000
WORKER = pathlib.Path(__file__).resolve().parent / 'worker.py'


class Overtaken(Exception):
    """A later question has come, so that nobody waits for the answer to this one."""


class Words:
    """The process, which is begun when it is asked for the first time, and again when it was ended."""

    def __init__(self, path: str, folder: str, room: str):
        self.path, self.folder, self.room, self.process = path, folder, room, None
        self.words = limited([sys.executable, '-B', str(WORKER), path, room], SECONDS_OF_LIFE)
        self.lock, self.turns, self.ended = threading.Lock(), {}, False

    def another(self) -> 'Words':
        """A second process, for questions that take longer."""
        return Words(self.path, self.folder, self.room)

    def asked(self, question: dict, of: str = '') -> Optional[object]:
        """The answer to a question; nothing where there is none. Of questions of one thing that wait, the last one alone is asked."""
        turn = self.turns[of] = self.turns.get(of, 0) + 1
        with self.lock:
            if of and turn != self.turns[of]:
                raise Overtaken
            return self.answer(json.dumps(question).encode() + b'\n')

    def answer(self, line: bytes) -> Optional[object]:
        if self.ended:
            return None
        if self.process is None or self.process.poll() is not None:
            self.process = subprocess.Popen(self.words, cwd=self.folder, stdin=subprocess.PIPE, stdout=subprocess.PIPE,
                                            stderr=subprocess.DEVNULL, start_new_session=True)
        timer = threading.Timer(SECONDS, end_group, (self.process,))
        timer.start()
        try:
            self.process.stdin.write(line)
            self.process.stdin.flush()
            told = self.process.stdout.readline()
        except OSError:
            return None
        finally:
            timer.cancel()
        return json.loads(told) if told.endswith(b'\n') else None

    def begin(self) -> None:
        """Begins the process before anything is asked, which takes a moment."""
        threading.Thread(target=self.asked, args=({'asks': 'nothing'},), daemon=True).start()

    def end(self) -> None:
        self.ended = True
        if self.process is not None and self.process.poll() is None:
            end_group(self.process)
