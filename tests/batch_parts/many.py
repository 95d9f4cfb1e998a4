"""Many records: a worker is killed on the way, and what comes of them is what one call gives."""
import collections, itertools, json, os, signal, subprocess

from measure_batch import households

from .office import PATIENCE, Failure, Office, equal, wanted_row

FEW, MANY = 20_000, 1_000_000


def workers_of(process: subprocess.Popen) -> list:
    """The processes of workers that a batch has begun."""
    below = subprocess.run(['ps', '-eo', 'pid=,ppid=,args='], stdout=subprocess.PIPE, text=True).stdout.splitlines()
    return [int(row.split()[0]) for row in below if int(row.split()[1]) == process.pid and 'spawn_main' in row]


def records_are_those_of_one_call(office: Office, number: int) -> None:
    lines = households(number)
    office.file('records.jsonl', '\n'.join(lines) + '\n')
    words = office.words('--size', str(number // 100), 'records.jsonl', 'results.jsonl')
    process = subprocess.Popen(words, stdout=subprocess.PIPE, stderr=subprocess.PIPE, text=True)
    first = process.stderr.readline()
    if ' of 100 parts, ' not in first:
        raise Failure('it begins with %r' % (first + process.stderr.read()))
    victims = workers_of(process)
    os.kill(victims[0], signal.SIGKILL)
    counts, told = process.communicate(timeout=PATIENCE)
    equal(process.returncode, 0, 'the status, with %s,' % told)
    whole, outcomes = office.lines(lines), collections.Counter()
    with open(office.folder / 'results.jsonl') as rows:
        for k, (row, line) in enumerate(itertools.zip_longest(rows, whole), 1):
            if row is None or line is None:
                raise Failure('record %d is in one of both alone' % k)
            wanted = wanted_row(k, None, line)
            equal(json.loads(row), wanted, 'record %d' % k)
            outcomes[wanted['outcome']] += 1
    equal(sum(outcomes.values()), number, 'the number of rows')
    equal(sorted(counts.splitlines()), sorted('%d %s' % (count, outcome) for outcome, count in outcomes.items()), 'what is told')
    print('%d records by %d workers, of which one was killed after %s: each row is that of one call on all records'
          % (number, len(victims), first.split(' parts')[0] + ' parts'), flush=True)


def many_records_are_those_of_one_call(office: Office) -> None:
    records_are_those_of_one_call(office, MANY)


def some_records_are_those_of_one_call(office: Office) -> None:
    records_are_those_of_one_call(office, FEW)


SAMPLE = [some_records_are_those_of_one_call]
TESTS = [many_records_are_those_of_one_call]
