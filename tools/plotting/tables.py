"""The data of a picture as CSV, and the definitions that are named in it."""
import csv, pathlib
from decimal import Decimal
from typing import List, Optional, Tuple

from explaining.traces import Decided

from .axes import Value, text_of
from .courses import Course
from .runs import Along, Outcome, Output, Point


def decider(along: Along, point: Point) -> Optional[Decided]:
    """Who has decided the output, or else the last variable that any definition has decided; nobody where there is no output."""
    held = [one for one in point.deciders if one.position] if point.outcome.value is not None else []
    return along.own(tuple(held)) or (held[-1] if held else None)


def named(decided: Optional[Decided]) -> str:
    """A definition as a reader finds it: the heading over it, and the line."""
    if decided is None or decided.position is None:
        return ''
    file, line, _ = decided.position.rsplit(':', 2)
    return '%s:%s%s' % (pathlib.PurePath(file).name, line, ', %s' % decided.heading if decided.heading else '')


def cells(outcome: Outcome) -> Tuple[str, str, str]:
    return cell_of(outcome.value), outcome.kind, outcome.told


def cell_of(value: Optional[Output]) -> str:
    if value is None:
        return ''
    return format(value, 'f') if isinstance(value, Decimal) else str(value).lower()


def write_course(file: pathlib.Path, along: Along, course: Course) -> None:
    with open(file, 'w', newline='', encoding='utf-8') as opened:
        rows = csv.writer(opened, lineterminator='\n')
        rows.writerow([along.axes[0].names[0], along.program.output, 'outcome', 'place', 'decided by'])
        for point in course.points:
            rows.writerow([text_of(point.at), *cells(point.outcome), named(decider(along, point))])


def write_plane(file: pathlib.Path, along: Along, places: List[Tuple[Value, ...]]) -> None:
    with open(file, 'w', newline='', encoding='utf-8') as opened:
        rows = csv.writer(opened, lineterminator='\n')
        rows.writerow([*(axis.names[0] for axis in along.axes), along.program.output, 'outcome', 'place'])
        for values in places:
            rows.writerow([*map(text_of, values), *cells(along.at(*values))])
