"""Literate sources and their includes, read by the rules of the language alone: `weave`, `gather` and `include_chain`."""
import re

MOST_FILE, MOST_ALL, MOST_FILES = 4 * 1024 * 1024, 16 * 1024 * 1024, 64


class Refused(Exception):
    pass


def spelled(text):
    """The bytes that a line spells: backslash n, r and t, and backslash x with two digits for a byte."""
    text = text.replace('\\n', '\n').replace('\\r', '\r').replace('\\t', '\t').encode()
    return re.sub(rb'\\x([0-9a-f]{2})', lambda found: bytes.fromhex(found[1].decode()), text)


def shown(data):
    return data.decode().replace('\n', '\\n').replace('\r', '\\r').replace('\t', '\\t')


def bare(line, ended):
    """The line without what is passed over at its end: one CR where it ends at a LF, and then blanks."""
    return (line[:-1] if ended and line.endswith(b'\r') else line).rstrip(b' \t')


def woven(data, file):
    """The parts as (what, position, bytes), of which a piece is `code`, a heading its level, and an include `include`."""
    try:
        data.decode()
    except UnicodeDecodeError as error:
        front = data[:error.start].split(b'\n')
        raise Refused('NotUtf8', '%d:%d:%d' % (file, len(front), len(front[-1]) + 1))
    *ended, last = data.split(b'\n')
    lines = [(line, True) for line in ended] + ([(last, False)] if last else [])
    parts, opening, code = [], None, bytearray()
    for number, (line, has_end) in enumerate(lines, 1):
        at, text = '%d:%d:1' % (file, number), bare(line, has_end)
        heading = re.match(rb'(#{1,6})[ \t]', text)
        include = re.match(rb'> Include: [ \t]*', text)
        if opening is not None and text == b'```':
            if code:
                parts.append(('code', '%d:%d:1' % (file, opening + 1), bytes(code)))
            opening, code = None, bytearray()
        elif opening is not None:
            code += line + b'\n'
        elif text in (b'```catala', b'```catala-metadata'):
            opening = number
        elif heading:
            parts.append(('heading %d' % len(heading[1]), at, text[heading.end():]))
        elif include and text[include.end():]:
            parts.append(('include', at, text[include.end():]))
    if opening is not None:
        raise Refused('FenceOpen', '%d:%d:1' % (file, opening))
    return parts


def weave(text):
    try:
        return ' | '.join('%s %s %s' % (what, at, shown(part)) for what, at, part in woven(spelled(text), 7))
    except Refused as refused:
        return ' '.join(refused.args)


def content(text):
    """A content, in front of which backslash star, a number and a semicolon stand for so many letters x."""
    long = re.match(r'\\\*(\d+);', text)
    return b'x' * int(long[1]) + spelled(text[long.end():]) if long else spelled(text)


class Gathering:
    def __init__(self, files):
        self.files, self.taken, self.size, self.pieces, self.headings = files, [], 0, [], []

    def take(self, name):
        if name not in self.files:
            raise Refused('Missing', name)
        data = self.files[name]
        if len(data) > min(MOST_FILE, MOST_ALL - self.size):
            raise Refused('TooLarge', name)
        self.size += len(data)
        self.taken.append(name)
        try:
            parts = woven(data, len(self.taken) - 1)
        except Refused as refused:
            raise Refused(refused.args[0], name, refused.args[1])
        for what, at, part in parts:
            self.add(name, what, at, part)

    def add(self, name, what, at, part):
        if what == 'code':
            self.pieces.append((at, part))
        elif what != 'include':
            self.headings.append((len(self.pieces), what, at, part))
        elif part.decode() in self.taken or len(self.taken) == MOST_FILES:
            raise Refused('IncludeTwice', name, at)
        else:
            self.take(part.decode())


def gathered(files, main):
    gathering = Gathering(files)
    try:
        gathering.take(main)
    except Refused as refused:
        return ' '.join(refused.args)
    pieces = ['code %s %s' % (at, shown(part)) for at, part in gathering.pieces]
    headings = ['behind %d %s %s %s' % (before, what, at, shown(part)) for before, what, at, part in gathering.headings]
    return ' | '.join(pieces + headings)


def gather(text):
    main, _, rest = text.partition(' ')
    files = {}
    for file in rest.split('\\/'):
        name, _, text = file.partition('=')
        files.setdefault(name, content(text))
    return gathered(files, main)


def include_chain(text):
    last = int(text)
    files = {str(number): b'> Include: %d\n' % (number + 1) for number in range(1, last)}
    return gathered({**files, str(last): b'```catala\nend\n```\n'}, '1')
