"""Each open, read and write of each call fails, and gives less than was asked; and files, inputs and outputs that are no plain ones."""
import errno, functools

from .calls import CALLS, puts
from .odd_files import odd_files
from .pieces import Piece, Tried
from .refusing import LAST, Refusing, has_compiler, library
from .runs import Ended
from .table import out_of_table, told

OPENS = (errno.ENOENT, errno.EACCES, errno.EISDIR, errno.ENOTDIR, errno.ELOOP, errno.ENAMETOOLONG, errno.EMFILE, errno.ENFILE, errno.EIO,
         errno.EPERM, errno.ENXIO, errno.EOVERFLOW, errno.ENOMEM)
READS = (errno.EIO, errno.EISDIR, errno.EBADF, errno.EAGAIN, errno.EINVAL, errno.ESTALE, errno.EINTR, errno.ENOMEM)
WRITES = (errno.EIO, errno.ENOSPC, errno.EPIPE, errno.EBADF, errno.EAGAIN, errno.EDQUOT, errno.EFBIG, errno.ENOMEM, errno.EINTR)
WANT = Ended(13, b'', b'')
GROWN = (1, 5_000_000, 70_000_000)
FEW = 3


def due(kind, name, error, right, before):
    """How a call ends whose open or read of a file, or whose write behind what was written before, ends with an error."""
    if error == errno.EINTR and kind != 'open':
        return right
    if kind == 'write':
        return Ended(12, before, b'')
    if error == errno.ENOMEM:
        return WANT
    is_missing = kind == 'open' and error == errno.ENOENT
    return Ended(10, b'missing file %s\n' % name, b'') if is_missing else Ended(11, b'read fault %s\n' % name, b'')


def failing(runs, call, is_sample):
    """Each open, read and write fails with each error."""
    right = runs.answer(call)
    asked = runs.asked(call)
    pieces = puts(call.words, right.out)
    writes = sum(kind == 'write' for kind, _ in asked)
    yield Tried('writes of whole pieces', call.name, '' if writes == len(pieces) else '%d writes of %d pieces' % (writes, len(pieces)))
    for kind, errors in (('open', OPENS), ('read', READS), ('write', WRITES)):
        names = [name.encode() for of, name in asked if of == kind]
        for k, name in enumerate(names, 1):
            before = b''.join(pieces[:k - 1])
            for error in errors[:FEW] + (errno.ENOMEM,) if is_sample else errors:
                ended, want = runs.refused(call, kind, k, k, error), due(kind, name, error, right, before)
                what = '%s %d, %s' % (call.name, k, errno.errorcode[error])
                yield Tried('%ss that fail' % kind, what, '' if ended == want else told(ended))


def slow(runs, call):
    """Each read and write moves one byte, alone and all of them."""
    right = runs.answer(call)
    for kind in ('read', 'write'):
        count = sum(of == kind for of, _ in runs.asked(call))
        for first, last in [(1, LAST), *((k, k) for k in range(1, count + 1))]:
            ended = runs.refused(call, kind, first, last, 0)
            yield Tried('%ss of one byte' % kind, '%s %d' % (call.name, first), '' if ended == right else told(ended))


def growing(runs, call, is_sample):
    """Each file grows in front of a read, by line feeds: the answer is that of the shorter or of the longer one."""
    right = runs.answer(call)
    for k, name in enumerate((name for kind, name in runs.asked(call) if kind == 'read'), 1):
        for more in GROWN[:1] if is_sample else GROWN:
            if name in runs.files:
                was = runs.files[name]
                ended = runs.refused(call, 'read', k, k, -more)
                runs.files[name] = None
                runs.put({name: was + b'\n' * more})
                longer = runs.answer(call)
                runs.put({name: was})
                wrong = out_of_table(call.words, ended) or ('' if ended in (right, longer) else told(ended))
                yield Tried('files that grow', '%s %d by %d' % (call.name, k, more), wrong)


def devices(program, is_sample):
    if not has_compiler():
        print('devices: skipped, since cc is missing')
        return
    library()
    for call in CALLS:
        yield Piece(call.name, functools.partial(troubled, program, call, is_sample))
    yield Piece('odd files', functools.partial(odd, program))


def troubled(program, call, is_sample):
    with Refusing(program) as runs:
        yield from failing(runs, call, is_sample)
        yield from slow(runs, call)
        yield from growing(runs, call, is_sample)


def odd(program):
    with Refusing(program) as runs:
        yield from odd_files(runs)
