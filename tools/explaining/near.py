"""The names that are near to one that names nothing."""
import difflib
from typing import Iterable, List

MOST, ALIKE = 3, 0.6


def near(text: str, among: Iterable[str], alike: float = ALIKE) -> List[str]:
    """At most three names that are spelled almost so, whatever their capitals; the nearest first. `alike` is 1.0 for the same spelling."""
    by_small = {}
    for name in among:
        by_small.setdefault(name.lower(), name)
    return [by_small[small] for small in difflib.get_close_matches(text.lower(), by_small, MOST, alike)]


def told_near(found: List[str]) -> List[str]:
    """The sentence that tells of names that are near."""
    return ['near to it: %s' % ', '.join('`%s`' % name for name in found)] if found else []


def near_help(text: str, among: Iterable[str]) -> List[str]:
    return told_near(near(text, among))
