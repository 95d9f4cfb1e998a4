"""The program at a place: what comes of a run, and which definitions have decided."""
import concurrent.futures, datetime, json, os, re, subprocess
from decimal import Decimal
from typing import Dict, Iterable, Iterator, List, NamedTuple, Optional, Tuple, Union

from explaining.traces import Decided, decided_of

from .axes import DAY, Axis, Value, Wrong, input_at, number_of

STOPS = ('conflict', 'no value', 'fault', 'input refused')
OUTPUTS = 'outputs'
Output = Union[Decimal, datetime.date, bool]


class Outcome(NamedTuple):
    """What came of a run: a kind, the reply's words behind it, and the output that is asked for."""
    kind: str
    told: str
    value: Optional[Output]


class Point(NamedTuple):
    """A place of the axis, what came of the run there, and the definitions that have decided."""
    at: Value
    outcome: Outcome
    deciders: Tuple[Decided, ...]


class Program:
    """A program, a scope of a law, and the output that is looked at."""

    def __init__(self, path: str, scope: str, law: str, output: str):
        self.path, self.scope, self.law, self.output = path, scope, law, output

    def lines(self, mode: str, given: str) -> List[str]:
        """The lines of a reply."""
        words = [self.path, mode, '--', self.scope, self.law, '-']
        ran = subprocess.run(words, input=given.encode(), stdout=subprocess.PIPE)
        return ran.stdout.decode('utf-8', 'replace').rstrip('\n').split('\n')

    def outcomes(self, given: List[str]) -> List[Outcome]:
        """What comes of each input, by one call."""
        lines = self.lines('many', '[%s]' % ',\n'.join(given)) if given else []
        if len(lines) != len(given):
            raise Wrong(lines[-1] or 'the program gave no reply')
        return [outcome_of(line, self.output) for line in lines]

    def deciders(self, given: str) -> Tuple[Decided, ...]:
        """The definitions that decide on an input, in their order."""
        return tuple(filter(None, map(decided_of, self.lines('trace', given)[:-1])))

    def deciders_of_each(self, given: List[str]) -> List[Tuple[Decided, ...]]:
        """The same of each input, several at a time."""
        with concurrent.futures.ThreadPoolExecutor(os.cpu_count()) as pool:
            return list(pool.map(self.deciders, given))


def outcome_of(line: str, output: str) -> Outcome:
    """The outcome that a reply tells."""
    if line.startswith('{'):
        return Outcome(OUTPUTS, '', value_of(json.loads(line, parse_float=str), output))
    kind = next((word for word in STOPS if line.startswith(word + ' ')), None)
    if kind is None:
        raise Wrong(line or 'the program gave no reply')
    return Outcome(kind, line[len(kind) + 1:], None)


def value_of(outputs: Dict[str, object], name: str) -> Output:
    """The output, or a part of it, as what can be drawn: a number, a truth value or a day."""
    value: object = outputs
    for part in name.split('.'):
        if not isinstance(value, dict) or part not in value:
            raise Wrong('the scope has no output %s' % name)
        value = value[part]
    if isinstance(value, bool):
        return value
    if isinstance(value, str) and DAY.fullmatch(value):
        return datetime.date.fromisoformat(value)
    if isinstance(value, int) or isinstance(value, str) and re.fullmatch(r'-?\d+(\.\d+)?', value):
        return Decimal(value)
    if isinstance(value, str) and re.fullmatch(r'-?\d+/\d+', value):
        above, below = value.split('/')
        return Decimal(above) / Decimal(below)
    raise Wrong('%s is no number, truth value or day: %s' % (name, json.dumps(value)[:80]))


def height(outcome: Outcome) -> float:
    """The output as a number of the plane."""
    value = outcome.value
    return number_of(value) if not isinstance(value, bool) else float(value)


class Along:
    """A program along an axis, or along two: the outcomes at the places that were run, and who decides at those that were traced."""

    def __init__(self, program: Program, given: str, axes: List[Axis]):
        self.program, self.given, self.axes = program, given, axes
        self.known: Dict[Tuple[Value, ...], Outcome] = {}
        self.deciders: Dict[Value, Tuple[Decided, ...]] = {}

    def inputs(self, places: Iterable[Tuple[Value, ...]]) -> List[str]:
        return [input_at(self.given, self.axes, list(values)) for values in places]

    def at(self, *values: Value) -> Outcome:
        return self.known[values]

    def takes(self, *values: Value) -> bool:
        """Whether the program takes the input with these values."""
        outcome, = self.program.outcomes(self.inputs([values]))
        return outcome.kind != 'input refused'

    def fill(self, places: Iterable[Tuple[Value, ...]]) -> None:
        """Runs all places that aren't known yet."""
        new = [values for values in dict.fromkeys(places) if values not in self.known]
        self.known.update(zip(new, self.program.outcomes(self.inputs(new))))

    # ---- along one axis

    def run(self, values: Iterable[Value]) -> None:
        self.fill((value,) for value in values)

    def trace(self, values: Iterable[Value]) -> None:
        """Runs places of the axis, and asks there who decides."""
        new = [value for value in dict.fromkeys(values) if value not in self.deciders]
        self.run(new)
        self.deciders.update(zip(new, self.program.deciders_of_each(self.inputs((value,) for value in new))))

    def own(self, deciders: Tuple[Decided, ...]) -> Optional[Decided]:
        """Who has decided the output itself, or the item of which it is a part."""
        name = '%s.%s' % (self.program.scope, self.program.output.partition('.')[0])
        return next((one for one in reversed(deciders) if one.variable == name), None)

    def points(self) -> Iterator[Point]:
        """All places in their order; who decides at one that wasn't traced is who does at those around it."""
        deciders: Tuple[Decided, ...] = ()
        for (value,), outcome in sorted(self.known.items()):
            deciders = self.deciders.get(value, deciders)
            yield Point(value, outcome, deciders)

    def key(self, value: Value) -> Tuple:
        """What is the same along a piece of the axis in which the same rules decide."""
        outcome = self.at(value)
        return outcome.kind, outcome.told, tuple((one.variable, one.position) for one in self.deciders[value])
