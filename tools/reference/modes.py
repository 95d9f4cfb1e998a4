"""The reply and the status of each call of the program, by its words and by what its files hold."""
import re

from . import certificate, drill, report
from .answers import replies_of
from .dead import dead, dead_checked
from .executed import executed
from .lowering import listing
from .machine import Code
from .many import many
from .tables import table
from .trace import trace

USAGE = drill.USAGE
MOST_BYTES = 64 * 1024 * 1024
LAST = {'run': '-', 'many': '-', 'trace': '-', 'check': '-', 'exec': '-', 'audit': None, 'drill': None, 'emit': '', 'table': '', 'dead': ''}
STATUSES = {'conflict': 1, 'no value': 2, 'fault': 3, 'source refused': 4, 'input refused': 5, 'certificate refused': 8, 'usage:': 9,
            'no such scope': 9, 'no such target': 9, 'missing file': 10, 'too large': 14, 'listing refused': 15}
VERDICTS = {'Complete': 0, 'Found': 6, 'Masked': 7, 'Undecided': 7}


class Missing(Exception):
    """A file is missing, or too large."""


def status_of(line):
    """The status that a line tells which ends a reply."""
    return next((status for words, status in STATUSES.items() if line.startswith(words)), 0)


def taken(words):
    """The mode, scope, file, further word or None, and the number of cells; nothing where the words aren't a call's."""
    places, budget, left = [], None, list(words)
    while left:
        word = left.pop(0)
        if word == '--cases' or word.startswith('--cases='):
            number = word[len('--cases='):] if '=' in word else left.pop(0) if left else ''
            if budget is not None or not re.fullmatch(r'\+?[0-9]+', number) or not 1 <= int(number) <= 1_000_000:
                return None
            budget = int(number)
        elif word == '--':
            places, left = places + left, []
        elif word.startswith('-') and word != '-':
            return None
        else:
            places.append(word)
    mode, _, file, *extra = [*places, '', '', ''][:max(len(places), 3)]
    is_call = 3 <= len(places) <= 4 and mode in LAST and '\n' not in file and (not extra or LAST[mode] is not None)
    return (*places[:3], extra[0] if extra else LAST[mode] or None, budget or 100_000) if is_call else None


def told(files, name):
    if name not in files:
        raise Missing('missing file %s' % name)
    if len(files[name]) > MOST_BYTES:
        raise Missing('too large %s' % name)
    return files[name]


class Call:
    """A call of a mode that reads a source."""

    def __init__(self, files, words):
        self.files = files
        self.mode, self.scope, self.file, self.extra, self.budget = words

    def replies(self):
        """Each text that may be written, every line with its line feed, with the status."""
        try:
            given = lambda: told(self.files, self.extra)
            found = executed(told(self.files, self.file), self.scope, given) if self.mode == 'exec' \
                else replies_of(self.files, self.file, self.of_program)
        except Missing as missing:
            found = {str(missing)}
        pairs = [made if isinstance(made, tuple) else (made, status_of(made)) for made in found]
        return {(text + '\n' if text else '', status) for text, status in pairs}

    def of_program(self, program):
        if self.scope not in program.runs.numbers:
            return 'no such scope %s' % self.scope
        return getattr(self, self.mode)(program)

    def given(self):
        return told(self.files, self.extra)

    def run(self, program):
        return program.run(self.scope, self.given())

    def many(self, program):
        lines, refused = many(program, self.scope, self.given())
        return (refused, status_of(refused)) if refused else ('\n'.join(lines), 0)

    def trace(self, program):
        text = trace(program, self.scope, self.given())
        return text, status_of(text.split('\n')[-1])

    def audit(self, program):
        text = report.audited(program, self.scope, self.budget)
        return text, VERDICTS[next(line for line in reversed(text.split('\n')) if line.startswith('verdict')).split()[1]]

    def check(self, program):
        return certificate.checked(program, self.scope, self.given())

    def emit(self, program):
        """The listing; behind it the steps of a run and its reply, where an input is named that isn't refused."""
        text = listing(program, self.scope)
        if self.extra is None:
            return text.rstrip('\n')
        line, steps = Code(text).run(self.scope, self.given())
        return (line if steps is None else '%ssteps %d\n%s' % (text, steps, line)), status_of(line)

    def table(self, program):
        return table(program, self.scope, self.extra, self.budget) or 'no such target %s' % self.extra

    def dead(self, program):
        if self.extra is None:
            return dead(program, self.scope, self.budget)
        return dead_checked(program, self.scope, self.given())


def replies(words, files):
    """What the program may write, and the status with which it ends then: one reply, but where a place is left open."""
    call = taken(words)
    if call and call[0] == 'drill':
        line = drill.drill(call[1:3])
        return {(line + '\n', status_of(line))}
    return Call(files, call).replies() if call else {(USAGE + '\n', 9)}
