"""What the second implementation allows as a reply."""
import signal

from reference.answers import is_allowed, replies
from reference.certificate import check
from reference.drill import drill
from reference.lowering import listings
from reference.modes import replies as any_replies
from reference.report import audit

# Of the processor.
SECONDS = 5
# Bytes of a name and of each of its parts, on Linux.
MOST_NAME, MOST_PART = 4095, 255


class Late(Exception):
    """It takes too long."""


def in_time(answer, *words):
    """An answer, or nothing where it isn't there in time, or nests deeper or has longer numbers than Python reads."""
    def stop(*_):
        raise Late
    before = signal.signal(signal.SIGVTALRM, stop)
    signal.setitimer(signal.ITIMER_VIRTUAL, SECONDS)
    try:
        return answer(*words)
    except (Late, RecursionError, ValueError):
        return None
    finally:
        signal.setitimer(signal.ITIMER_VIRTUAL, 0)
        signal.signal(signal.SIGVTALRM, before)


def allowed(files, words, given):
    """The replies that the rules allow; nothing where they aren't known."""
    mode, scope, main, *extra = words
    if mode == 'drill':
        return {drill(words[1:])}
    if mode == 'emit' and not extra:
        return listings(files, main, scope)
    if mode in ('emit', 'trace', 'many', 'table', 'dead', 'exec') or (mode == 'audit' and extra):
        return {text.rstrip('\n') for text, _ in any_replies(words, {**files, '-': given})}
    name = extra[0] if extra and not extra[0].startswith('--') else '-'
    data = {**files, '-': given}.get(name)
    if mode == 'run' and data is not None:
        return replies(files, main, scope, data)
    found = replies(files, main, scope, b'')
    if any(line.startswith(('source', 'no such scope', 'missing', 'too large', 'read')) for line in found):
        return found
    if data is None:
        return {'missing file %s' % name}
    return {audit(files, main, scope)} if mode == 'audit' else {check(files, main, scope, data)}


def on_disk(reply):
    """The reply where the files lie on a disk. Nothing is told to be missing there by a name that the system doesn't look up at all: one
    with a NUL, or with a part or as a whole longer than names may be."""
    if not reply.startswith('missing file '):
        return reply
    name = reply[len('missing file '):]
    parts = name.encode().split(b'/')
    is_none = '\0' in name or len(name.encode()) > MOST_NAME or max(map(len, parts)) > MOST_PART
    return 'read fault ' + name if is_none else reply


def text_of(ended):
    """The reply without its last line feed."""
    text = ended.out.decode('utf-8', 'replace')
    return text[:-1] if text.endswith('\n') else text


def differs(files, words, given, ended):
    """Whether the reply was compared, and what differs."""
    found = in_time(allowed, files, words, given)
    if found is None:
        return False, ''
    reply, found = text_of(ended), set(map(on_disk, found))
    return True, '' if is_allowed(reply, found) else 'allowed is %r, got %r' % (sorted(found)[:3], reply[:300])
