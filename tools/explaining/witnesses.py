"""Inputs that show more than those of a report: made of the source's own literals and of ordinary days, and run."""
import datetime, random
from fractions import Fraction
from typing import List, Optional, Tuple

import oracle_json as forms
from reference.answers import Given
from reference.meaning import Stop
from reference.tokens import MOST, Token

TRIES = 500
DAYS = [datetime.date(2024, 1, 1), datetime.date(2024, 6, 15), datetime.date(2000, 2, 29), datetime.date(1990, 6, 15),
        datetime.date(1960, 3, 10)]
PLAIN = {'boolean': [False, True], 'integer': [0, 1, 2, 3], 'decimal': [Fraction(0), Fraction(1, 2), Fraction(1), Fraction(2)],
         'money': [0, 100, 100_000], 'date': DAYS, 'duration': [(0, 0), (0, 30), (12, 0)]}


def values_of(tokens: List[Token]) -> dict:
    """For each plain type the values that are tried: ordinary ones, those of the literals, around them, and over the fractions."""
    written = {kind: sorted({token.value for token in tokens if token.kind == kind}) for kind in ('INT', 'DEC', 'MONEY', 'DATE')}
    fractions = [d for d in written['DEC'] if d > 0]
    values = {kind: list(plain) for kind, plain in PLAIN.items()}
    for kind, word in (('integer', 'INT'), ('money', 'MONEY')):
        over = [n / d for n in written[word] for d in fractions]
        values[kind] += [n + step for n in written[word] + [int(n) for n in over if n.denominator == 1] for step in (0, 1, -1)]
    values['decimal'] += written['DEC']
    values['date'] += [moved for day in written['DATE'] for step in (0, 1, -1) for moved in near_day(day, step)]
    return {kind: list(dict.fromkeys(n for n in made if not isinstance(n, (int, Fraction)) or abs(n) <= MOST))
            for kind, made in values.items()}


def near_day(day: datetime.date, step: int) -> list:
    try:
        return [day + datetime.timedelta(step)]
    except OverflowError:
        return []


class Search:
    """A search for an input on which a scope ends in a conflict or without a value."""

    def __init__(self, program, scope: str, tokens: List[Token]):
        self.program, self.number = program, program.runs.numbers[scope]
        self.items, self.types = program.scopes[self.number].items, program.types
        self.values, self.random = values_of(tokens), random.Random(0)

    def value(self, t):
        """A value of a type, at random."""
        if isinstance(t, str):
            return self.random.choice(self.values[t])
        if t[0] == 'list':
            return [self.value(t[1]) for _ in range(self.random.randrange(3))]
        if t[0] == 'structure':
            return [self.value(part) for _, part in self.types.structures[t[1]].parts]
        cases = self.types.enumerations[t[1]].parts
        k = self.random.randrange(len(cases))
        return k, None if cases[k][1] is None else self.value(cases[k][1])

    def ending(self, given: list) -> Optional[str]:
        """The conflict or the gap in which a run ends."""
        try:
            self.program.runs.outputs(self.number, given)
        except Stop as stop:
            return self.program.stopped(*stop.args) if stop.args[0] != 'fault' else None
        return None

    def found(self) -> Optional[Tuple[str, str]]:
        """The line of the run and its input; nothing where none is found."""
        for _ in range(TRIES):
            given = [self.value(i.type) if i.kind.split()[0] == 'input' else None for i in self.items]
            if self.ending(given):
                plainer = self.plainer(given)
                return self.ending(plainer), self.text(plainer)
        return None

    def plainer(self, given: list) -> list:
        """The input with the first value of its type wherever the run ends as it did."""
        ending = self.ending(given)
        for n, item in enumerate(self.items):
            plain = given[:n] + [self.first(item.type)] + given[n + 1:]
            if given[n] is not None and self.ending(plain) == ending:
                given = plain
        return given

    def first(self, t):
        if isinstance(t, str):
            return self.values[t][0]
        if t[0] == 'list':
            return []
        if t[0] == 'structure':
            return [self.first(part) for _, part in self.types.structures[t[1]].parts]
        content = self.types.enumerations[t[1]].parts[0][1]
        return 0, None if content is None else self.first(content)

    def text(self, given: list) -> str:
        written = Given(self.types)
        return forms.object_text({i.name: written.written(value, i.type) for i, value in zip(self.items, given)
                                  if i.kind.split()[0] == 'input'})
