"""What is told on standard error while a batch runs."""
import sys, time
from collections import Counter
from typing import Dict, List, Tuple

from .records import Part
from .results import Done

PERIOD, SHOWN = 5.0, 4
CLEARED = '\r\x1b[K'


class Progress:
    """Tells how far a batch is: on a terminal in one line that changes, and else in a new line once in a while."""

    def __init__(self, parts: List[Part], done: Dict[int, Done]):
        self.done, self.parts, self.records = {}, len(parts), sum(part.size for part in parts)
        self.counts: Counter = Counter()
        self.is_terminal, self.size = sys.stderr.isatty(), 0
        for part in done.values():
            self.count(part)
        self.earlier, self.began = self.size, time.monotonic()
        self.told = self.began
        if done:
            print('goes on: %d of %d parts are there' % (len(done), self.parts), file=sys.stderr, flush=True)

    def count(self, part: Done) -> None:
        self.done[part.number] = part
        self.size += part.size
        self.counts.update(part.counts)

    def take(self, part: Done) -> None:
        """Counts a part that is done now, and tells of it."""
        self.count(part)
        now = time.monotonic()
        if self.is_terminal or now - self.told > PERIOD or len(self.done) in (1, self.parts):
            self.told = now
            print((CLEARED if self.is_terminal else '') + self.line(now), end='' if self.is_terminal else '\n', file=sys.stderr, flush=True)

    def line(self, now: float) -> str:
        speed = (self.size - self.earlier) / max(now - self.began, 0.001)
        shown = ', '.join('%s %d' % (outcome, number) for outcome, number in self.outcomes()[:SHOWN])
        return '%d of %d parts, %d of %d records, %.0f a second: %s' % (len(self.done), self.parts, self.size, self.records, speed, shown)

    def end(self) -> None:
        if self.is_terminal and self.size > self.earlier:
            print(file=sys.stderr)

    def outcomes(self) -> List[Tuple[str, int]]:
        """How often each outcome came, the most frequent one first."""
        return sorted(self.counts.items(), key=lambda pair: (-pair[1], pair[0]))
