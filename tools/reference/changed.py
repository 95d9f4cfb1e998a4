"""Listings that are changed line by line, or at random so that jumps and entries still lead to the same instructions."""
import re

from .images import COUNTS
from .verifier import JUMPS

NUMBER = re.compile(r'(?<!\w)\d+(?!\w)')
MOST_CHANGES = 3


def changed(lines):
    """The lines with each of them dropped, doubled and exchanged with the next one, also with the instructions numbered anew, and with
    each number changed by one."""
    for k, line in enumerate(lines):
        before, behind = lines[:k], lines[k + 1:]
        for made in (before + behind, before + [line, line] + behind, before + behind[:1] + [line] + behind[1:]):
            yield made
            if line[0].isdigit():
                yield numbered(made)
        for number in NUMBER.finditer(line):
            for other in {int(number[0]) + 1, abs(int(number[0]) - 1)}:
                yield before + ['%s%d%s' % (line[:number.start()], other, line[number.end():])] + behind


def numbered(lines):
    """The lines with the instructions numbered from 0 on."""
    first = next((k for k, line in enumerate(lines) if line[0].isdigit()), len(lines))
    return lines[:first] + ['%d %s' % (k, line.split(' ', 1)[1]) for k, line in enumerate(lines[first:])]


class Changing:
    """A listing whose instructions are changed at random."""

    def __init__(self, lines, made):
        first = next(k for k, line in enumerate(lines) if line[0].isdigit())
        self.head, self.made = [line.split(' ') for line in lines[:first]], made
        self.code = [line.split(' ')[1:] for line in lines[first:]]
        self.code = [[name, *map(int, numbers)] for name, *numbers in self.code]

    def lines(self):
        return [' '.join(words) for words in self.head] + [' '.join(map(str, (k, *words))) for k, words in enumerate(self.code)]

    def shift(self, at, by):
        """Jumps and entries to what stands behind a place lead on to it."""
        for words in self.code:
            if words[0] in JUMPS and words[1 + JUMPS[words[0]]] > at:
                words[1 + JUMPS[words[0]]] += by
        for words in self.head:
            if words[0] in ('scope', 'function') and int(words[-1]) > at:
                words[-1] = str(int(words[-1]) + by)

    def put_in(self, at):
        """A copy of an instruction, or one of those that need no number."""
        plain = [[name] for name, count in COUNTS.items() if count == 0]
        words = list(self.made.choice(self.code if self.made.random() < 0.7 else plain))
        self.shift(at, 1)
        self.code.insert(at, words)

    def take_out(self, at):
        if len(self.code) > 1:
            self.shift(at, -1)
            del self.code[at]

    def exchange(self, at):
        other = self.made.randrange(len(self.code))
        self.code[at], self.code[other] = self.code[other], self.code[at]

    def renumber(self, at):
        """Another number, which is that of an instruction behind this one where it is jumped to."""
        words = self.code[at]
        if len(words) > 1:
            k = self.made.randrange(1, len(words))
            is_jump = words[0] in JUMPS and k == 1 + JUMPS[words[0]]
            words[k] = self.made.randrange(at, len(self.code) + 1) if is_jump else max(words[k] + self.made.randrange(-2, 3), 0)

    def changed(self):
        for _ in range(self.made.randrange(1, MOST_CHANGES + 1)):
            at = self.made.randrange(len(self.code))
            self.made.choice([self.put_in, self.put_in, self.take_out, self.exchange, self.renumber])(at)
        return self.lines()
