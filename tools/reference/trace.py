"""What `trace` writes: for each target that a run judges the definition that decides it, with the heading over that, and then the
reply of `run`."""
import oracle_json as forms

from .answers import target_text
from .meaning import Runs


class Traced(Runs):
    """Runs that note each decider: the scope, the target, and the definition that holds or None."""

    def __init__(self, program):
        super().__init__(program.types, program.scopes, program.forests)
        self.deciders = []

    def decided(self, number, target, definition):
        self.deciders.append((number, target, definition))


def heading_over(program, pos):
    """The last heading in front of the piece of code in which something stands."""
    piece = max(n for n, (file, line) in enumerate(program.starts) if file == pos.file and line <= pos.line)
    over = [text for before, text in program.headings if before <= piece]
    return over[-1] if over else None


def decider_line(program, number, target, pos):
    place = target_text(program.scopes, target, number)
    if pos is None:
        return '%s by none' % place
    heading = heading_over(program, pos)
    return '%s by %s%s' % (place, program.at(pos), '' if heading is None else ' under %s' % heading)


def deciders_of(program, number, json):
    """The deciders of a run, and its reply."""
    traced = Traced(program)
    reply = program.run_on(number, json, traced)
    return traced.deciders, reply


def trace(program, scope, data):
    """The lines of the deciders, by the meaning, and that of `run`."""
    number = program.runs.numbers.get(scope)
    if number is None:
        return 'no such scope %s' % scope
    try:
        deciders, reply = deciders_of(program, number, forms.parsed(data))
    except forms.NotJson:
        return 'input refused I1'
    lines = []
    for of, target, definition in deciders:
        pos = None if definition is None else program.scopes[of].definitions[definition].pos
        lines.append(decider_line(program, of, target, pos))
    return '\n'.join([*lines, reply])


def logged_trace(program, code, scope, data):
    """The same by the log of the machine that runs the code of the program."""
    reply, log = code.logged(scope, data)
    lines = []
    for v, d in log:
        (number, target), _ = code.listing.targets[v]
        lines.append(decider_line(program, number, target, None if d is None else code.listing.definitions[d]))
    return '\n'.join([*lines, reply])
