"""An axis: the inputs that are moved along it, and the values that they take."""
import calendar, datetime, itertools, json, re
from decimal import Decimal, InvalidOperation
from typing import Callable, Iterator, List, NamedTuple, Optional, Union

Value = Union[Decimal, datetime.date]
DAY = re.compile(r'\d{4}-\d\d-\d\d')
STRIDE = re.compile(r'(\d+)(?: (day|month|year)s?)?')
MOST_STEPS = 100_000
PARTS = re.compile(r'([^.\[\]]+)|\[(\d+)\]')


class Wrong(Exception):
    """Why there is no picture."""


class Axis(NamedTuple):
    """The paths of inputs that take one value together, as the program writes paths; the values, and the least distance between two."""
    names: List[str]
    values: List[Value]
    unit: Value

    def is_days(self) -> bool:
        return isinstance(self.values[0], datetime.date)

    def label(self) -> str:
        return ', '.join(name.replace('_', ' ') for name in self.names)


def axis_of(names: str, start: str, end: str, step: str) -> Axis:
    """The axis that words tell; its unit is that of its kind, and smaller where the program takes it (`finer`)."""
    if DAY.fullmatch(start):
        taken = list(itertools.islice(days(start, end, step), MOST_STEPS + 2))
        if len(taken) > MOST_STEPS + 1:
            raise Wrong('an axis has at most %d steps: %s %s %s' % (MOST_STEPS, start, end, step))
        return Axis(names.split(','), taken, Decimal(1))
    try:
        first, last, stride = Decimal(start), Decimal(end), Decimal(step)
    except InvalidOperation:
        raise Wrong('an axis goes from a number or a day to another one: %s %s %s' % (start, end, step)) from None
    are_finite = first.is_finite() and last.is_finite() and stride.is_finite()
    if not are_finite or not stride > 0 or not first < last or (last - first) / stride > MOST_STEPS:
        raise Wrong('an axis goes upwards, in at most %d steps: %s %s %s' % (MOST_STEPS, start, end, step))
    count = int((last - first) // stride)
    values = [first + k * stride for k in range(count + 1)]
    return Axis(names.split(','), values + ([last] if values[-1] < last else []), min(Decimal(1), stride))


def days(start: str, end: str, step: str) -> Iterator[datetime.date]:
    """The days from one to another; those of months and years keep the day of the month, as far as a month has it."""
    found = STRIDE.fullmatch(step)
    try:
        first, last = datetime.date.fromisoformat(start), datetime.date.fromisoformat(end)
    except ValueError as error:
        raise Wrong('%s: %s, %s' % (error, start, end)) from None
    if not found or not int(found[1]) or not first < last:
        raise Wrong('days go upwards, by `1`, `7 days`, `1 month`: %s %s %s' % (start, end, step))
    number, months = int(found[1]), {'month': 1, 'year': 12}.get(found[2])
    at, k = first, 0
    while at < last:
        yield at
        k += number
        try:
            at = first + datetime.timedelta(k) if months is None else moved(first, k * months)
        except (OverflowError, ValueError):
            break  # Behind the last day that there is.
    yield last


def moved(day: datetime.date, months: int) -> datetime.date:
    year, month = divmod(12 * day.year + day.month - 1 + months, 12)
    return datetime.date(year, month + 1, min(day.day, calendar.monthrange(year, month + 1)[1]))


def finer(axis: Axis, is_taken: Callable[[Value], bool]) -> Axis:
    """The axis with the least unit that the program takes: a cent of an amount, and a whole one of a number of things."""
    if axis.is_days():
        return axis
    cent = min(Decimal('0.01'), axis.unit / 100)
    return axis._replace(unit=cent if is_taken(axis.values[0] + cent) else axis.unit)


# ---- places between two values

def between(axis: Axis, one: Value, other: Value) -> Optional[Value]:
    """A value in the middle of two, in whole units; nothing where they are neighbours."""
    if axis.is_days():
        return one + (other - one) // 2 if (other - one).days > 1 else None
    units = (other - one) // axis.unit
    return one + (units // 2) * axis.unit if units > 1 else None


def number_of(value: Value) -> float:
    """A value as a number of the plane."""
    return float(value.toordinal()) if isinstance(value, datetime.date) else float(value)


# ---- inputs

def put(given: object, name: str, value: Value) -> None:
    """Puts a value into an input where a path leads; all but its last part has to be there."""
    steps: List[Union[str, int]] = [part[1] or int(part[2]) for part in PARTS.finditer(name)]
    try:
        for step in steps[:-1]:
            given = given[step]  # type: ignore[index]
        given[steps[-1]] = value  # type: ignore[index]
    except (KeyError, IndexError, TypeError):
        raise Wrong('the input has no place for %s' % name) from None


def text_of(value: Value) -> object:
    """A value as it stands in an input."""
    if isinstance(value, datetime.date):
        return value.isoformat()
    return int(value) if value == value.to_integral_value() else format(value, 'f')


def input_at(text: str, axes: List[Axis], values: List[Value]) -> str:
    """The input with these values; numbers keep their digits."""
    given = json.loads(text, parse_float=str)
    for axis, value in zip(axes, values):
        for name in axis.names:
            put(given, name, text_of(value))
    return json.dumps(given, ensure_ascii=False)
