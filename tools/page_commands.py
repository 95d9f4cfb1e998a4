"""The commands that a page tells, each with what it writes: what stands behind `$ ` in its blocks, and the lines below it."""
import re

STATUSES = (('conflict ', 1), ('no value ', 2), ('fault ', 3), ('source refused ', 4), ('input refused ', 5), ('verdict Found', 6))


def commands(page):
    """Each command of a page, with what it writes."""
    for block in re.findall(r'^(`{3,})\n(.*?)^\1$', page.read_text(), re.M | re.S):
        for part in re.split(r'^\$ ', block[1], flags=re.M)[1:]:
            command, _, reply = part.partition('\n')
            yield command, reply


def status_of(reply):
    """The status that comes with a reply of the program, or with the last line of tests/run."""
    last = reply.splitlines()[-1] if reply else ''
    if failed := re.fullmatch(r'\d+ passed, (\d+) failed', last):
        return int(failed[1] != '0')
    return next((status for start, status in STATUSES if last.startswith(start)), 0)


def as_wanted(reply, wanted):
    """A reply as it is held against the wanted one, which may leave out the places of a conflict, a gap, a fault or a refusal."""
    return reply.split(' at ')[0] if status_of(wanted) and ' at ' not in wanted else reply
