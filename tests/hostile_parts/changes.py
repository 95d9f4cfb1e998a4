"""Texts that are cut, and of which a byte or a line is changed: each by what is changed."""
OTHERS = b'\n\r\0 #`(1aA|\xff.'
BYTES = 10


def cut(text, end=b''):
    """The proper prefixes, each with an end."""
    return ((k, text[:k] + end) for k in range(len(text)))


def with_other_bytes(text):
    """Each byte changed to each of ten others."""
    for k, byte in enumerate(text):
        for other in [other for other in OTHERS if other != byte][:BYTES]:
            yield '%d %r' % (k, bytes([other])), text[:k] + bytes([other]) + text[k + 1:]


def with_other_lines(text):
    """Each line dropped, doubled and exchanged with the next."""
    lines = text.splitlines(True)
    for k, line in enumerate(lines):
        before, behind = lines[:k], lines[k + 1:]
        yield 'line %d dropped' % (k + 1), b''.join(before + behind)
        yield 'line %d doubled' % (k + 1), b''.join(before + [line, line] + behind)
        yield 'line %d exchanged' % (k + 1), b''.join(before + behind[:1] + [line] + behind[1:])
