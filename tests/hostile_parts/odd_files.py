"""Files, inputs and outputs that are no plain ones, and words as no user writes them."""
import fcntl, os, subprocess

from .pieces import Tried
from .runs import Ended
from .table import out_of_table, told

CALL = ['run', 'All', 'a.md', 'input.json']
SCOPE = ['run', 'All', 'a.md']
FAULT = 'read fault %s'
INCLUDE = b'> Include: %s\n'
LONG = 'n' * 5_000
NOBODY = 65534
LONGER = b'n' * 2**20


def lay(folder):
    """Makes the odd files."""
    (folder / 'sub').mkdir()
    (folder / 'closed').write_text('{}')
    (folder / 'closed').chmod(0)
    (folder / 'nowhere').symlink_to('none')
    (folder / 'circle').symlink_to('circle')
    os.mkfifo(folder / 'fifo')
    (folder / 'folder.md').write_bytes(INCLUDE % b'sub')
    (folder / 'nul.md').write_bytes(INCLUDE % b'b\0.md')
    (folder / 'long.md').write_bytes(INCLUDE % LONGER)
    (folder / 'itself.md').write_bytes(INCLUDE % b'./itself.md')


# A call's words, its status and its reply.
NAMED = [
    (['run', 'All', '.'], 11, FAULT % '.'), (SCOPE + ['.'], 11, FAULT % '.'), (SCOPE + ['sub'], 11, FAULT % 'sub'),
    (['check', 'Bands', 'a.md', 'sub'], 11, FAULT % 'sub'), (['exec', 'All', 'sub'], 11, FAULT % 'sub'),
    (['exec', 'All', 'code', 'sub'], 11, FAULT % 'sub'),
    (['run', 'All', 'folder.md'], 11, FAULT % 'sub'),
    (['run', 'All', 'nowhere'], 10, 'missing file nowhere'), (['run', 'All', 'circle'], 11, FAULT % 'circle'),
    (['run', 'All', 'a.md/x'], 11, FAULT % 'a.md/x'), (['run', 'All', 'sub/x'], 10, 'missing file sub/x'),
    (['run', 'All', ''], 10, 'missing file '), (['run', 'All', LONG], 11, FAULT % LONG),
    (['run', 'All', '/dev/zero'], 14, 'too large /dev/zero'), (SCOPE + ['/dev/zero'], 14, 'too large /dev/zero'),
    (['check', 'Bands', 'a.md', '/dev/zero'], 14, 'too large /dev/zero'),
    (['run', 'All', '/dev/null'], 9, 'no such scope All'), (SCOPE + ['/dev/null'], 5, 'input refused I1'),
    (['check', 'Bands', 'a.md', '/dev/null'], 8, 'certificate refused C4'), (['exec', 'All', '/dev/zero'], 14, 'too large /dev/zero'),
    (['exec', 'All', 'code', '/dev/zero'], 14, 'too large /dev/zero'), (['exec', 'All', '/dev/null'], 15, 'listing refused L2'),
    (['run', 'All', '/proc/self/mem'], 11, FAULT % '/proc/self/mem'),
    (['run', 'All', 'nul.md'], 11, FAULT % 'b\0.md'), (['run', 'All', 'long.md'], 11, FAULT % LONGER.decode()),
    (['run', 'n' * 100_000, 'a.md'], 9, 'no such scope ' + 'n' * 100_000),
    ([b'run', b'All', b'\xff'], 9, None), ([b'run', b'\xc0\x80', b'a.md'], 9, None), ([b'\xed\xa0\x80'] * 4, 9, None),
]


def odd_files(runs):
    lay(runs.folder)
    for words, status, reply in NAMED:
        want = Ended(status, b'' if reply is None else reply.encode() + b'\n', b'')
        ended = runs.ended(words)
        yield Tried('odd files', ' '.join(str(word)[:40] for word in words), '' if ended == want else told(ended))
    ended = runs.ended(['run', 'All', 'itself.md'])
    yield Tried('odd files', 'a file that includes itself by longer and longer names', out_of_table(['run'], ended))
    words = ['x'] * 100_000
    yield Tried('odd files', 'many words', out_of_table(words, runs.ended(words)))
    yield from closed_files(runs)
    yield from pipes(runs)
    yield from odd_inputs(runs)
    yield from odd_outputs(runs)


def closed_files(runs):
    """A file that may not be read, by a user who may not read each."""
    as_other = {'preexec_fn': lambda: os.setuid(NOBODY)} if os.geteuid() == 0 else {}
    ended = runs.ended(SCOPE + ['closed'], **as_other)
    yield Tried('odd files', 'a file that may not be read', '' if ended == Ended(11, b'read fault closed\n', b'') else told(ended))


def pipes(runs):
    """Named pipes as a source, an input, a certificate and a listing."""
    for words, name in ((['run', 'All', 'fifo', 'input.json'], 'a.md'), (SCOPE + ['fifo'], 'input.json'),
                        (['check', 'Bands', 'a.md', 'fifo'], 'certificate'), (['exec', 'All', 'fifo', 'input.json'], 'code')):
        right = runs.ended([name if word == 'fifo' else word for word in words])
        ended = runs.ended(words, limit='cat %s > fifo &' % name + ' :')
        right = Ended(right.status, right.out.replace(name.encode() + b':', b'fifo:'), right.err)
        yield Tried('pipes', ' '.join(words), '' if ended == right else told(ended))


def odd_inputs(runs):
    """Standard input that is closed, a folder, only written to, or has no end."""
    folder, sink, zeros = os.open(runs.folder, os.O_RDONLY), os.open(os.devnull, os.O_WRONLY), os.open('/dev/zero', os.O_RDONLY)
    fault, large = Ended(11, b'read fault -\n', b''), Ended(14, b'too large -\n', b'')
    for words in (SCOPE, SCOPE + ['-'], ['run', 'All', '-'], ['check', 'Bands', 'a.md'], ['exec', 'All', '-'], ['exec', 'All', 'code']):
        for what, options, want in (('closed', {'limit': 'exec <&-'}, fault), ('a folder', {'stdin': folder}, fault),
                                    ('only written to', {'stdin': sink}, fault), ('without end', {'stdin': zeros}, large)):
            ended = runs.ended(words, **options)
            yield Tried('odd standard inputs', '%s, %s' % (what, ' '.join(words)), '' if ended == want else told(ended))
    for file in (folder, sink, zeros):
        os.close(file)


def odd_outputs(runs):
    """Standard output that is full, closed, only read from, or takes a front alone."""
    failed = Ended(12, b'', b'')
    full, source = os.open('/dev/full', os.O_WRONLY), os.open(os.devnull, os.O_RDONLY)
    closed, into_closed = os.pipe()
    os.close(closed)
    modes = (['audit', 'All', 'a.md'], ['check', 'Bands', 'a.md', 'certificate'], ['emit', 'All', 'a.md'], ['emit', *CALL[1:]],
             ['trace', *CALL[1:]], ['many', 'All', 'a.md', 'inputs.json'], ['table', 'All', 'a.md'], ['dead', 'All', 'a.md'],
             ['dead', 'Bands', 'a.md', 'dead'], ['exec', 'All', 'code', 'input.json'], ['drill', '2', 'none'])
    for words in (CALL, *modes, [], ['run', 'All', 'none.md']):
        for what, options in (('full', {'stdout': full}), ('closed', {'limit': 'exec >&-'}), ('only read from', {'stdout': source}),
                              ('a closed pipe', {'stdout': into_closed}), ('closed as input is', {'limit': 'exec <&- >&-'})):
            ended = runs.ended(words, **options)
            yield Tried('odd standard outputs', '%s, %s' % (what, ' '.join(words)), '' if ended == failed else told(ended))
    for file in (full, source, into_closed):
        os.close(file)
    yield Tried('odd standard outputs', 'a pipe that takes a front', front_taken(runs))


def front_taken(runs):
    """What is wrong where a pipe takes a front of a reply and waits for no reader."""
    words = ['audit', 'All', 'a.md']
    right = runs.ended(words).out
    reader, pipe = os.pipe2(os.O_NONBLOCK)
    room = fcntl.fcntl(pipe, fcntl.F_SETPIPE_SZ, 4096)
    os.write(pipe, b'x' * (room - 1_000))
    status = subprocess.run([runs.program, *words], cwd=runs.folder, stdout=pipe).returncode
    taken = os.read(reader, room)[room - 1_000:]
    os.close(reader)
    os.close(pipe)
    return '' if status == 12 and right.startswith(taken) and len(taken) < len(right) else 'status %d, %r' % (status, taken[:80])
