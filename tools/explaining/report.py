"""The report of an audit, taken apart: sections with a line for each variable."""
import re
from typing import List, NamedTuple, Optional

SECTION = re.compile(r'audit (\S+)')
VERDICT = re.compile(r'verdict (\S+)')
LINE = re.compile(r'(\S+): (Covered|Found|Masked|Undecided derived|Undecided called|Undecided budget)(?: (.*))?')
INPUT = re.compile(r'(.*?) with (\{.*?\})(?: giving (.*))?')
CERTIFICATE = 'catala-certificate '


class Line(NamedTuple):
    """A variable's line in the section of a scope: what is said of it, the input that shows it, and what a run on that gives where it is
    told."""
    scope: str
    name: str
    what: str
    told: str
    input: Optional[str]
    giving: Optional[str]


class Section(NamedTuple):
    """The section of a scope."""
    scope: str
    lines: List[Line]
    verdict: str


def line_of(scope: str, name: str, what: str, rest: Optional[str]) -> Line:
    found = INPUT.fullmatch(rest or '')
    return Line(scope, name, what, *(found.groups() if found else (rest or '', None, None)))


def sections_of(report: str) -> List[Section]:
    """The sections of a report, without the certificate behind it."""
    sections: List[Section] = []
    for text in report.split('\n'):
        if text.startswith(CERTIFICATE):
            break
        if section := SECTION.fullmatch(text):
            sections.append(Section(section[1], [], ''))
        elif sections and (verdict := VERDICT.fullmatch(text)):
            sections[-1] = sections[-1]._replace(verdict=verdict[1])
        elif sections and (line := LINE.fullmatch(text)):
            sections[-1].lines.append(line_of(sections[-1].scope, *line.groups()))
    return sections


def open_lines(report: str) -> List[Line]:
    """The lines that aren't Covered."""
    return [line for section in sections_of(report) for line in section.lines if line.what != 'Covered']
