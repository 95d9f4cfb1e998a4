"""The trace of a run as data for the page: who has decided what, in the order in which each first did."""
import collections
from typing import Callable, List, Optional

from explaining.notes import Place
from explaining.traces import Decided

from .notes import place_of, token_end

MOST = 500
LineAt = Callable[[str, int], Optional[str]]


def trace_of(decided: List[Decided], line_at: LineAt) -> List[dict]:
    """Each variable with a definition that has decided it, once, with how often it has."""
    times = collections.Counter(decided)
    return [{'name': one.variable, 'times': number, 'heading': one.heading, 'places': places_of(one.position, line_at)}
            for one, number in list(times.items())[:MOST]]


def places_of(position: Optional[str], line_at: LineAt) -> List[dict]:
    """The place of a definition, with the piece of its line; none where no definition held."""
    if position is None:
        return []
    file, line, column = position.rsplit(':', 2)
    text = line_at(file, int(line))
    end = token_end(text, int(column)) if text is not None else int(column) + 1
    return [place_of(Place(file, int(line), int(column), end), text or '')]
