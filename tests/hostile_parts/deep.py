"""Each limit at its edge and one past it, under a stack of 1 MiB and under the 8 MiB that Linux gives; and what each takes."""
import functools, subprocess, sys

from measure_sources import DEEP
from reference.cases import case_folders, files_of, words_of

from .compared import differs
from .edges import edges
from .forms import FORMS, GIVEN, nested_sources
from .pieces import Piece, Tried
from .runs import Ended, Runs
from .table import out_of_table, told

STACKS = 1024, 8192
CALLS = [(['run', 'S', 'a.md'], GIVEN), (['audit', 'S', 'a.md'], GIVEN), (['check', 'S', 'a.md'], GIVEN), (['emit', 'S', 'a.md'], GIVEN),
         (['emit', 'S', 'a.md', '-'], GIVEN), (['trace', 'S', 'a.md'], GIVEN), (['many', 'S', 'a.md'], b'[%s,{}]' % GIVEN)]
EXEC = ['exec', 'S', 'code'], GIVEN
# Of the processor.
SECONDS = 20
SMALL = 100_000
# A reply that is longer isn't held against the table's forms, but against how it begins, ends and how long it is.
LONG = 2**20
RUNNER = '''
import os, resource, sys
stack, words = int(sys.argv[1]), sys.argv[2:]
child = os.fork()
if child == 0:
    resource.setrlimit(resource.RLIMIT_STACK, (1024 * stack, resource.RLIM_INFINITY))
    os.execvp(words[0], words)
_, how, used = os.wait4(child, 0)
print(os.waitstatus_to_exitcode(how), used.ru_utime + used.ru_stime, used.ru_maxrss, file=sys.stderr)
'''


def measured(runs, words, given, stack):
    """How a run ends on a stack of so many KiB, the seconds of the processor and the MiB that it takes."""
    call = [sys.executable, '-S', '-c', RUNNER, str(stack), runs.program, *words]
    ended = subprocess.run(call, cwd=runs.folder, input=given, stdout=subprocess.PIPE, stderr=subprocess.PIPE)
    *err, last = ended.stderr.splitlines(True)
    status, seconds, kib = last.split()
    return Ended(int(status), ended.stdout, b''.join(err)), float(seconds), int(kib) / 1024


def wrong_edge(edge, ended, seconds):
    """What is wrong of a run at an edge."""
    is_long = len(ended.out) > LONG
    wrong = '' if is_long and ended.out.endswith(b'\n') and not ended.err else out_of_table(edge.words, ended)
    if wrong:
        return wrong
    if seconds > SECONDS:
        return 'takes %.1f s' % seconds
    if ended.status != edge.status or not ended.out.startswith(edge.reply) or edge.length not in (None, len(ended.out)):
        return 'status %d and %r are due: %s' % (edge.status, edge.reply, told(ended))
    is_small = sum(map(len, edge.files.values())) + len(edge.given) < SMALL
    return differs(edge.files, edge.words, edge.given, ended)[1] if is_small and ended.status != 9 else ''


def at_edge(program, edge, is_sample):
    with Runs(program) as runs:
        runs.put(edge.files)
        for stack in STACKS[:1] if is_sample else STACKS:
            ended, seconds, mib = measured(runs, edge.words, edge.given, stack)
            note = '%s, %s: %.2f s, %.0f MiB, status %s' % (edge.words[0], edge.name, seconds, mib, ended.status)
            is_told = not is_sample and stack == STACKS[0]
            yield Tried('edges', '%s under %d KiB' % (edge.name, stack), wrong_edge(edge, ended, seconds), note if is_told else '')


def heights(program, k, is_sample):
    """A form at the greatest height and one past it, in each mode that reads a source, and its listing."""
    seconds, mib = 0, 0
    with Runs(program) as runs:
        for form, source, is_accepted in nested_sources(k):
            files = {'a.md': source}
            runs.put(files)
            files['code'] = runs.ended(['emit', 'S', 'a.md']).out
            runs.put(files)
            for words, given in CALLS + ([EXEC] if is_accepted else []):
                for stack in STACKS[:1] if is_sample else STACKS:
                    ended, *took = measured(runs, words, given, stack)
                    seconds, mib = max(seconds, took[0]), max(mib, took[1])
                    is_compared = not is_sample or words[0] == 'run' and k % 4 == 0
                    wrong = wrong_height(files, words, given, ended, is_accepted, is_compared)
                    yield Tried('heights', '%s in %s under %d KiB' % (form, words[0], stack), wrong)
    wrong = 'takes %.1f s' % seconds if seconds > SECONDS else ''
    yield Tried('forms', form, wrong, '' if is_sample else '%s: at most %.2f s, %.0f MiB' % (form, seconds, mib))


def wrong_height(files, words, given, ended, is_accepted, is_compared):
    wrong = out_of_table(words, ended)
    if wrong or ended.out.startswith(b'source refused E7 at a.md:') == is_accepted:
        return wrong or told(ended)
    return differs(files, words, given, ended)[1] if is_compared else ''


def deep_calls(program):
    """Chains of calls, each below a high expression: what waits stands on the heap."""
    with Runs(program) as runs:
        for name, text in DEEP:
            runs.put({'a.md': text.encode()})
            runs.put({'code': runs.ended(['emit', 'S', 'a.md']).out})
            for mode, *extra in (['run'], ['audit'], ['emit', '-'], ['trace'], ['exec']):
                words = [mode, 'S', 'code' if mode == 'exec' else 'a.md', *extra]
                ended = runs.ended(words, b'{"n":1}', limit='ulimit -s %d' % STACKS[0])
                wrong = out_of_table(words, ended) or ('' if ended.status == 0 else told(ended))
                yield Tried('deep calls', '%s in %s' % (name, mode), wrong)


def cases(program):
    """The end-to-end cases on the smaller stack."""
    for case in case_folders():
        if (case / 'make').exists() or (case / 'device').exists():
            continue
        files = files_of(case)
        with Runs(program) as here:
            here.put(files)
            ended = here.ended(words_of(case), files['-'], limit='ulimit -s %d' % STACKS[0])
        status = int((case / 'status').read_text()) if (case / 'status').exists() else 0
        is_right = ended.status == status and ended.out == ((case / 'stdout').read_bytes() if (case / 'stdout').exists() else b'')
        yield Tried('cases under 1 MiB of stack', case.name, '' if is_right else told(ended))


def deep(program, is_sample):
    for k, (form, *_) in enumerate(FORMS):
        yield Piece('heights of ' + form, functools.partial(heights, program, k, is_sample))
    yield Piece('deep calls', functools.partial(deep_calls, program))
    yield Piece('cases', functools.partial(cases, program))
    for k, edge in enumerate(edges(is_sample)):
        yield Piece('edge %d, %s' % (k, edge.name), functools.partial(at_edge, program, edge, is_sample), not is_sample)
