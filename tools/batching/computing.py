"""One call for a part of the records: each gets the line that `run` writes on it alone."""
import subprocess
from dataclasses import dataclass
from typing import List, Tuple

from . import spans
from .refused import Refused

NOT_TAKEN, OUT_OF_MEMORY, TOO_LARGE = 5, 13, 14
OUTCOMES = (0, 1, 2, 3, NOT_TAKEN, TOO_LARGE)


@dataclass(frozen=True)
class Call:
    """What is called: the program, a scope of a law, in a folder in which the names of its includes begin."""
    program: str
    scope: str
    law: str
    folder: str


class Broken(Exception):
    """The program gave no answer on records, or another one than a line for each."""


def ended(call: Call, mode: str, *words: str, given: bytes = b'') -> Tuple[int, str]:
    """The status with which the program ends, and what it writes."""
    ran = subprocess.run([call.program, mode, '--', call.scope, call.law, *words], input=given, cwd=call.folder,
                         stdout=subprocess.PIPE, stderr=subprocess.DEVNULL)
    return ran.returncode, ran.stdout.decode('utf-8', 'replace')


def outputs_of(call: Call) -> Tuple[str, ...]:
    """The names of the scope's outputs, as the listing of its code declares them. What is refused here is refused for all records."""
    status, told = ended(call, 'emit')
    if status:
        raise Refused(status, told.strip() or 'the program ended with status %d' % status)
    found, is_scope = [], False
    for line in told.split('\n'):
        word, *rest = line.split(' ')
        if is_scope and word == 'item' and rest[1].endswith('output'):
            found.append(rest[0])
        is_scope = rest[0] == call.scope if word == 'scope' else is_scope and word == 'item'
    return tuple(found)


def replies(call: Call, given: List[bytes]) -> List[str]:
    """The lines of the records in their order. What is no JSON value is given alone, since it would spoil what stands beside it."""
    told = [''] * len(given)
    values = [k for k, data in enumerate(given) if spans.is_value(data)]
    for k, line in zip(values, replies_of_values(call, [given[k] for k in values])):
        told[k] = line
    for k in set(range(len(given))).difference(values):
        told[k] = reply_alone(call, given[k])
    return told


def replies_of_values(call: Call, given: List[bytes]) -> List[str]:
    """The lines that `many` writes. Where it refuses the array, for one value in it that it doesn't read, can't hold it, or writes more
    lines, since a name in a refusal has ends of lines in it, the array is cut."""
    if not given:
        return []
    if len(given) == 1:
        return [reply_alone(call, given[0])]
    status, told = ended(call, 'many', '-', given=b'[%s]' % b',\n'.join(given))
    lines = told.split('\n')[:-1]
    if status == 0 and len(lines) == len(given):
        return lines
    if status > 0 and status not in (NOT_TAKEN, OUT_OF_MEMORY, TOO_LARGE) or status == 0 and len(lines) < len(given):
        raise Broken('many ended with status %d and %d lines on %d records: %s' % (status, len(lines), len(given), told[:200].strip()))
    half = len(given) // 2
    return replies_of_values(call, given[:half]) + replies_of_values(call, given[half:])


def reply_alone(call: Call, data: bytes) -> str:
    """What `run` writes on one record."""
    status, told = ended(call, 'run', '-', given=data)
    if status not in OUTCOMES:
        raise Broken('run ended with status %d of %s: %s' % (status, data[:200].decode('utf-8', 'replace'), told[:200].strip()))
    return told[:-1]
