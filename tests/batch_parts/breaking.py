"""What becomes of a batch when something breaks: a worker, the call, the program, or the machine."""
import contextlib, io, json, os, pathlib, re, shlex, shutil, signal, socket, subprocess, threading, time
from typing import Dict, Iterator, Set
from unittest import mock

from batching import call, cluster
from measure_batch import households

from .office import STATUTE, Failure, Office, blocks, equal, inputs, missing, said, wanted_row

SYSTEM = '/usr/bin/python3'
SECONDS = 300
KILLS = '[ "$1" = many ] && [ $(grep -c many "$room/calls") -ge 3 ] && mkdir "$room/killed" 2>/dev/null && kill -9 $PPID'
LOOPBACK, LISTENS = '0100007F', '0A'  # As /proc/net/tcp has them.


def wanted_table(office: Office, lines) -> list:
    return [wanted_row(k, None, line) for k, line in enumerate(office.lines(lines), 1)]


def wait_until(holds, what: str) -> None:
    began = time.monotonic()
    while not holds():
        if time.monotonic() - began > SECONDS:
            raise Failure('%s is not seen in %d seconds' % (what, SECONDS))
        time.sleep(0.05)


def a_worker_that_dies_costs_its_part_alone(office: Office) -> None:
    lines = [json.dumps(given) for given in inputs(8)]
    office.file('records.jsonl', '\n'.join(lines))
    killing = office.stand_in(KILLS)
    office.batch('--size', '2', '--workers', '2', 'records.jsonl', 'results.jsonl', program=killing)
    equal(office.rows('results.jsonl'), wanted_table(office, lines), 'the table')
    equal(office.calls(), 5, 'the number of calls for four parts')


HEARD = threading.Event()


def unheard(work, part: Dict[str, int]) -> None:
    work(part)
    HEARD.wait(SECONDS)


class Unheard:
    """An engine that computes each part, and tells of none that it has ended."""

    def __init__(self, client):
        self.client, self.scheduler_info, self.cancel = client, client.scheduler_info, client.cancel

    def submit(self, work, part: Dict[str, int], **others):
        return self.client.submit(unheard, work, part, **others)


@contextlib.contextmanager
def unheard_client(*_: object) -> Iterator[Unheard]:
    import distributed

    with distributed.Client(processes=False, n_workers=1, threads_per_worker=4, dashboard_address=None) as client:
        try:
            yield Unheard(client)
        finally:
            HEARD.set()


def a_part_counts_when_its_files_are_there(office: Office) -> None:
    """Also where the engine never tells that it has ended."""
    lines = [json.dumps(given) for given in inputs(8)]
    office.file('records.jsonl', '\n'.join(lines))
    asked = call.read_call(office.words('--size', '2', '--workers', '1', 'records.jsonl', 'results.jsonl')[1:])
    silent = mock.patch.multiple(cluster, SILENT=0.2, client_of=unheard_client)
    with silent, contextlib.redirect_stdout(io.StringIO()) as counted, contextlib.redirect_stderr(io.StringIO()):
        equal(call.run(asked), 0, 'the status')
    equal(sum(int(row.split()[0]) for row in counted.getvalue().splitlines()), 8, 'the number of records that are told')
    equal(office.rows('results.jsonl'), wanted_table(office, lines), 'the table')


def a_part_that_kills_workers_stops_the_batch(office: Office) -> None:
    office.file('records.jsonl', '\n'.join(households(4)))
    killing = office.stand_in('[ "$1" = many ] && kill -9 $PPID')
    said(office.batch('--size', '4', '--workers', '1', 'records.jsonl', 'results.jsonl', program=killing, status=1)[1], 'KilledWorker')
    equal((office.calls(), (office.folder / 'results.jsonl').exists()), (6, False), 'the number of calls, and that there is a table')


@contextlib.contextmanager
def held(office: Office, lines, parts: int) -> Iterator[subprocess.Popen]:
    """A batch by one worker, in a group of processes of its own, that computes so many parts of two records and then waits."""
    office.file('records.jsonl', '\n'.join(lines))
    waits = office.stand_in('while [ "$1" = many ] && [ ! -e "$room/goes" ] && [ $(grep -c many "$room/calls") -gt %d ]; do sleep 0.1; done'
                            % parts)
    words = office.words('--size', '2', '--workers', '1', 'records.jsonl', 'results.jsonl', program=waits)
    started = subprocess.Popen(words, stdout=subprocess.PIPE, stderr=subprocess.PIPE, text=True, start_new_session=True)
    try:
        wait_until(lambda: office.calls() > parts or started.poll() is not None, 'the call that waits')
        yield started
    finally:
        office.file('goes', '')
        with contextlib.suppress(ProcessLookupError):
            os.killpg(started.pid, signal.SIGKILL)
        started.communicate()


def goes_on(office: Office, lines, *left: int) -> None:
    """A second start computes the parts that are left, of which there may be so many, and no other ones."""
    office.file('goes', '')
    before = office.calls()
    _, told = office.batch('--size', '2', '--workers', '1', 'records.jsonl', 'results.jsonl', program=str(office.folder / 'stand_in'))
    said(told, 'goes on: ')
    if office.calls() - before not in left:
        raise Failure('the second start has %d calls, and not %s, with %s' % (office.calls() - before, left, told))
    equal(office.rows('results.jsonl'), wanted_table(office, lines), 'the table')
    equal((office.folder / 'results.jsonl.parts').exists(), False, 'that parts are left')


def a_second_start_goes_on_where_the_machine_went_down(office: Office) -> None:
    lines = households(10)
    with held(office, lines, 2) as started:
        os.killpg(started.pid, signal.SIGKILL)
        started.wait()
        equal((office.folder / 'results.jsonl').exists(), False, 'that there is a table')
        changed = ('--key', 'income', '--size', '2', 'records.jsonl', 'results.jsonl')
        said(office.batch(*changed, program=str(office.folder / 'stand_in'), status=9)[1], 'differs from that of the parts in')
        goes_on(office, lines, 3)


def a_second_start_goes_on_where_one_broke_it_off(office: Office) -> None:
    lines = households(10)
    with held(office, lines, 2) as started:
        words = ('--size', '2', 'records.jsonl', 'results.jsonl')
        said(office.batch(*words, program=str(office.folder / 'stand_in'), status=9)[1], 'another call computes')
        equal(listening(started.pid), {LOOPBACK}, 'where its processes listen')
        os.killpg(started.pid, signal.SIGINT)
        _, told = started.communicate()
        said(told, 'tools/batch: it was broken off; the same call goes on')
        equal((started.returncode, 'Traceback' in told), (130, False), 'the status, and that it shows its inside, in %s' % told)
        office.file('goes', '')
        goes_on(office, lines, 2, 3)  # The shell that waits may be ended by the signal; then its records are run one by one.


def what_stops_one_call_stops_the_batch(office: Office) -> None:
    lines = households(8)
    office.file('records.jsonl', '\n'.join(lines))
    breaking = office.stand_in('[ "$1" != many ] || [ -e "$room/goes" ] || [ $(grep -c many "$room/calls") -lt 3 ] || exit 11')
    _, told = office.batch('--size', '2', '--workers', '1', 'records.jsonl', 'results.jsonl', program=breaking, status=1)
    said(told, 'many ended with status 11')
    goes_on(office, lines, 2)


def what_stops_all_stops_before_the_first(office: Office) -> None:
    office.file('records.jsonl', '{}\n')
    law = office.file('law.md', '```catala\nscope\n```\n')
    out, told = office.batch('records.jsonl', 'results.csv', law=law, status=4)
    equal((out, told.startswith('tools/batch: source refused E')), ('', True), 'what it says')
    for words, status in ((('records.jsonl', 'results.txt'), 9), (('--size', '0', 'records.jsonl', 'results.csv'), 9),
                          (('nothing.jsonl', 'results.csv'), 1)):
        office.batch(*words, status=status)
    said(office.batch('records.jsonl', 'results.csv', scope='Nothing', status=9)[1], 'no such scope Nothing')
    (office.folder / 'results.csv.parts').mkdir()
    office.file('results.csv.parts/mine', '')
    said(office.batch('--anew', 'records.jsonl', 'results.csv', status=9)[1], 'holds no parts of a batch')
    equal((office.folder / 'results.csv.parts' / 'mine').exists(), True, "that another's file is there")


def what_is_missing_is_said(office: Office) -> None:
    """Where the system's Python sees no packages of Debian, as `-S` has it."""
    if not os.path.exists(SYSTEM):
        missing(SYSTEM, 'that what is missing is said')
        return
    office.file('records.jsonl', '{}\n')
    ended = subprocess.run([SYSTEM, '-S', *office.words('records.jsonl', 'results.csv')], stderr=subprocess.PIPE, text=True)
    said(ended.stderr, 'it stands on Dask, which is missing: install the package python3-distributed')
    equal(ended.returncode, 1, 'the status')


def a_law_that_changes_makes_no_table(office: Office) -> None:
    office.file('records.jsonl', '\n'.join(households(4)))
    law = office.file('law.md', '> Include: %s\n' % office.file('rest.md', STATUTE.read_text()))
    changing = office.stand_in('[ "$1" = many ] && [ $(grep -c many "$room/calls") = 2 ] && echo >>"$room/rest.md"')
    _, told = office.batch('--size', '2', '--workers', '1', 'records.jsonl', 'results.csv', law=law, program=changing, status=9)
    said(told, 'the batch differs while it ran, in: law')
    equal((office.folder / 'results.csv').exists(), False, 'that there is a table')


def listening(group: int) -> Set[str]:
    """The addresses at which a group of processes listens, as the system writes them."""
    processes = subprocess.run(['ps', '-eo', 'pid=,pgid='], stdout=subprocess.PIPE, text=True).stdout.splitlines()
    opened = set()
    for number, of in map(str.split, processes):
        with contextlib.suppress(FileNotFoundError):  # A process may have ended.
            opened.update(os.readlink(file) for file in pathlib.Path('/proc', number, 'fd').iterdir() if int(of) == group)
    sockets = [row.split() for name in ('tcp', 'tcp6') for row in pathlib.Path('/proc/net', name).read_text().splitlines()[1:]]
    return {row[1].split(':')[0] for row in sockets if row[3] == LISTENS and 'socket:[%s]' % row[9] in opened}


def free_port() -> int:
    with socket.socket() as opened:
        opened.bind(('127.0.0.1', 0))
        return opened.getsockname()[1]


def workers_of_a_scheduler_compute(office: Office) -> None:
    """By the page's commands, on this machine alone: the workers run in an empty folder, and one of them is killed."""
    if not all(map(shutil.which, ('dask-scheduler', 'dask-worker'))):
        missing('dask-scheduler', 'a cluster of a scheduler')
        return
    lines, port = households(12), free_port()
    office.file('records.jsonl', '\n'.join(lines))
    (office.folder / 'elsewhere').mkdir()
    page = next(block for block in blocks('') if 'dask-worker' in block)
    page = re.sub(r'\b(first|second)\b', '127.0.0.1', page).replace('8786', str(port)).replace(' 16 ', ' 2 --local-directory . ')
    killing = office.stand_in(KILLS)
    started = [subprocess.Popen(shlex.split(command), cwd=office.folder / 'elsewhere', stderr=subprocess.DEVNULL)
               for command in re.findall('^dask-.*', page, re.M)]
    try:
        words = ('--scheduler', 'tcp://127.0.0.1:%d' % port, '--size', '2', 'records.jsonl', 'results.jsonl')
        office.batch(*words, program=killing)
    finally:
        for process in reversed(started):
            process.terminate()
            process.wait()
    equal(len(started), 2, 'the number of commands')
    equal(office.rows('results.jsonl'), wanted_table(office, lines), 'the table')
    equal(office.calls(), 7, 'the number of calls for six parts')


ALONE = [what_is_missing_is_said]
SAMPLE = [a_worker_that_dies_costs_its_part_alone, a_part_counts_when_its_files_are_there,
          a_second_start_goes_on_where_the_machine_went_down]
TESTS = [*SAMPLE, a_second_start_goes_on_where_one_broke_it_off, a_part_that_kills_workers_stops_the_batch,
         what_stops_one_call_stops_the_batch, what_stops_all_stops_before_the_first, a_law_that_changes_makes_no_table,
         workers_of_a_scheduler_compute]
