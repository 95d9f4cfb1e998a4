"""The trace of a run, taken apart: which definition has decided each variable."""
import re
from typing import List, NamedTuple, Optional, Tuple

DECIDED = re.compile(r'(\S+) by (?:none|(.*?:\d+:\d+)(?: under (.*))?)')
RUN = (0, 1, 2, 3)  # What a run ends with; any other status has no trace.


class Decided(NamedTuple):
    """The definition that has decided a variable, and the heading over it; no position where none holds."""
    variable: str
    position: Optional[str]
    heading: Optional[str]


def decided_of(line: str) -> Optional[Decided]:
    """What a line of a trace tells; nothing of another line."""
    found = DECIDED.fullmatch(line)
    return Decided(found[1], found[2], found[3]) if found else None


def traced(reply: str, status: int) -> Tuple[List[Decided], str]:
    """Who has decided, in their order, and the reply that `run` gives."""
    *lines, last = reply.split('\n') if status in RUN else [reply]
    return [decided for decided in map(decided_of, lines) if decided], last
