"""The course of an output along an axis: where another definition decides, where the output jumps, and where it has no value."""
from typing import Callable, Iterable, Iterator, List, NamedTuple, Optional, Tuple

from explaining.traces import Decided

from .axes import Axis, Value, between, number_of
from .runs import OUTPUTS, Along, Point, height

MOST_JUMPS, FEW = 400, 30
SHARE, TURN = 0.2, 0.02  # A slope differs from the ones beside it where it does by so much of them, and the output turns.
STRIDE, MOST_PROBES = 16, 400
Pair = Tuple[Value, Value]


class Change(NamedTuple):
    """Two places beside each other between which another definition decides, or the output jumps; by how much, and who decides behind."""
    front: Point
    behind: Point
    jump: Optional[float]
    decided: Optional[Decided]


class Course(NamedTuple):
    """The points in their order, and the changes between some of them."""
    points: List[Point]
    changes: List[Change]


def course_of(along: Along) -> Course:
    """The course along the axis of a program."""
    return decided(along, explored(along))


def explored(along: Along) -> List[Optional[float]]:
    """Runs the axis as a whole, and then between its places where something changes; gives the slope of each step of the axis."""
    axis, = along.axes
    along.run(axis.values)
    slopes = [slope(along, *pair) for pair in beside(axis.values)]
    narrow(along, axis, jumps_of(axis, slopes))  # On the way to a jump a place without a value may be met.
    cut(axis, beside([point.at for point in along.points()]), along.run, lambda value: along.at(value)[:2])
    return slopes


def decided(along: Along, slopes: List[Optional[float]]) -> Course:
    """Asks who decides where the output goes another way, and every so many steps; between two places at which the same definitions
    decide they are taken to."""
    axis, = along.axes
    probes = {axis.values[k] for k in probes_of(slopes)}
    probes.update(value for pair in steps_of(along, axis, slopes) for value in pair)
    along.trace(sorted(probes))
    cut(axis, beside(sorted(probes)), along.trace, along.key)
    points = list(along.points())
    return Course(points, list(changes_of(along, points, axis, slopes)))


def beside(values: List[Value]) -> List[Pair]:
    return list(zip(values, values[1:]))


def cut(axis: Axis, pairs: List[Pair], look: Callable[[Iterable[Value]], None], sign: Callable[[Value], object]) -> None:
    """Cuts what lies between two places in half where these differ, down to neighbours; `look` is what finds out how a place is."""
    while pairs:
        halves = [(one, between(axis, one, other), other) for one, other in pairs if sign(one) != sign(other)]
        halves = [half for half in halves if half[1] is not None]
        look([middle for _, middle, _ in halves])
        pairs = [pair for half in halves for pair in beside(half)]


# ---- jumps of an output

def slope(along: Along, one: Value, other: Value) -> Optional[float]:
    if along.at(one).kind != OUTPUTS or along.at(other).kind != OUTPUTS:
        return None
    return (height(along.at(other)) - height(along.at(one))) / (number_of(other) - number_of(one))


def jumps_of(axis: Axis, slopes: List[Optional[float]]) -> List[Pair]:
    """The steps of the axis in which the output goes another way than in both steps beside them."""
    found = []
    for k, own in enumerate(slopes):
        others = [slopes[j] for j in (k - 1, k + 1) if 0 <= j < len(slopes) and slopes[j] is not None]
        if own is not None and others and all(differs(own, other) for other in others):
            found.append((axis.values[k], axis.values[k + 1]))
    return found[:MOST_JUMPS]


def differs(own: float, other: float, share: float = SHARE) -> bool:
    return abs(own - other) > share * max(abs(own), abs(other)) + 1e-9


def narrow(along: Along, axis: Axis, pairs: List[Pair]) -> None:
    """Goes on in the half in which the output changes more, down to neighbours."""
    def rise(one: Value, other: Value) -> float:
        found = slope(along, one, other)
        return abs(found) * (number_of(other) - number_of(one)) if found is not None else 0.0
    while pairs:
        halves = [(one, between(axis, one, other), other) for one, other in pairs]
        halves = [half for half in halves if half[1] is not None]
        along.run(middle for _, middle, _ in halves)
        pairs = [max(beside(half), key=lambda pair: rise(*pair)) for half in halves]


# ---- who decides

def probes_of(slopes: List[Optional[float]]) -> List[int]:
    """The places of an axis at which is asked who decides."""
    probes = [0]
    for k, (front, behind) in enumerate(zip(slopes, slopes[1:]), 1):
        turns = (front is None) != (behind is None) or front is not None and differs(front, behind)
        if turns or k - probes[-1] >= STRIDE:
            probes.append(k)
    return [*probes[::1 + len(probes) // MOST_PROBES], len(slopes)]


def steps_of(along: Along, axis: Axis, slopes: List[Optional[float]]) -> Iterator[Pair]:
    """The neighbours between which the output jumps, or has no value any more, or has one again."""
    for one, other, around in neighbours(list(along.points()), axis, slopes):
        if one.outcome[:2] != other.outcome[:2] or jump_between(one, other, around.least) is not None:
            yield one.at, other.at


# ---- what is marked

def changes_of(along: Along, points: List[Point], axis: Axis, slopes: List[Optional[float]]) -> Iterator[Change]:
    """The pairs of neighbours between which the output jumps, turns, or is decided by another definition, or is none."""
    for one, other, around in neighbours(points, axis, slopes):
        jump = jump_between(one, other, around.least)
        is_other = one.at in along.deciders and other.at in along.deciders and along.key(one.at) != along.key(other.at)
        is_seen = around.turns or one.outcome[:2] != other.outcome[:2] or along.own(one.deciders) != along.own(other.deciders)
        if jump is not None or is_other and is_seen:
            yield Change(one, other, jump, newly_decided(along, one, other))


class Around(NamedTuple):
    """What is known of a place from the steps of the axis around it: the least jump, and whether the output goes another way behind."""
    least: float
    turns: bool


def neighbours(points: List[Point], axis: Axis, slopes: List[Optional[float]]) -> Iterator[Tuple[Point, Point, Around]]:
    """The points that are neighbours."""
    least, k = least_jump(points), 0
    for one, other in zip(points, points[1:]):
        while k + 1 < len(slopes) and axis.values[k + 1] <= one.at:
            k += 1
        if between(axis, one.at, other.at) is None:
            # Of a step that is these two points alone the own slope is no usual one.
            steps = (k - 1, k + 1) if axis.values[k:k + 2] == [one.at, other.at] else (k - 1, k, k + 1)
            near = [slopes[j] for j in steps if 0 <= j < len(slopes) and slopes[j] is not None]
            usual = 2 * max(map(abs, near), default=0.0) * (number_of(other.at) - number_of(one.at))
            yield one, other, Around(least + usual, len(near) > 1 and differs(near[0], near[-1], TURN))


def least_jump(points: List[Point]) -> float:
    """What is more than a rounding: more than the least difference of two outputs, but where they are a few only."""
    heights = sorted({height(point.outcome) for point in points if point.outcome.kind == OUTPUTS})
    return 1.5 * min(b - a for a, b in zip(heights, heights[1:])) if len(heights) > FEW else 0.0


def jump_between(one: Point, other: Point, least: float) -> Optional[float]:
    """By how much the output jumps; nothing where it doesn't, or is none on either side."""
    if one.outcome.kind != OUTPUTS or other.outcome.kind != OUTPUTS:
        return None
    rise = height(other.outcome) - height(one.outcome)
    return rise if abs(rise) > least else None


def newly_decided(along: Along, front: Point, behind: Point) -> Optional[Decided]:
    """The definition that decides behind and not in front: that of the output itself, or else that of the last variable of which it
    is another one, on which the others don't hang any more."""
    before = {one.variable: one.position for one in front.deciders}
    new = tuple(one for one in behind.deciders if one.position and before.get(one.variable, '') != one.position)
    return along.own(new) or (new[-1] if new else None)


# ---- what is drawn

def pieces_of(course: Course, of_rates: bool = False) -> List[List[Point]]:
    """The stretches of the course between its jumps and its places without a value; with `of_rates` those of more than one point."""
    jumps = {change.behind.at for change in course.changes if change.jump is not None}
    pieces: List[List[Point]] = [[]]
    for point in course.points:
        if point.outcome.kind != OUTPUTS or point.at in jumps:
            pieces.append([])
        if point.outcome.kind == OUTPUTS:
            pieces[-1].append(point)
    return [piece for piece in pieces if len(piece) > of_rates]


def stretches_of(course: Course) -> Iterator[Tuple[Point, Point]]:
    """The stretches of one kind without a value, by the first point of each and the last."""
    start: Optional[Point] = None
    for front, behind in zip([None, *course.points], [*course.points, None]):
        if front and start and (behind is None or behind.outcome.kind != start.outcome.kind):
            yield start, front
            start = None
        if behind and start is None and behind.outcome.kind != OUTPUTS:
            start = behind
