"""Each front of a statute of brackets: its status, by what of it is there."""
import functools

from reference.cases import TOP

from .compared import differs
from .pieces import Piece, Tried
from .runs import Runs
from .table import out_of_table, told

CASE = TOP / 'tests' / 'cases' / 'brackets_with_a_credit_over_a_list_of_persons'
WORDS = ['run', 'Tax', 'a.md']


def due(front, right):
    """How a run on a front of the source ends, or its status alone where its reply tells a place."""
    if front.rstrip().endswith(b'```') and front.count(b'```') == 2:
        return right
    return 4 if b'```catala' in front.splitlines() or front.startswith(b'```catala\n') else 9


def rows(program, is_sample):
    yield Piece('fronts of a statute', functools.partial(fronts, program, is_sample))


def fronts(program, is_sample):
    text, given = (CASE / 'a.md').read_bytes(), (CASE / 'stdin').read_bytes()
    with Runs(program) as runs:
        runs.put({'a.md': text})
        right = runs.ended(WORDS, given)
        for k in range(0, len(text), 5 if is_sample else 1):
            front = text[:k]
            runs.put({'a.md': front})
            ended = runs.ended(WORDS, given)
            want = due(front, right)
            is_due = ended == want if want == right else ended.status == want
            wrong = out_of_table(WORDS, ended) or ('' if is_due else told(ended))
            yield Tried('fronts of a statute', str(k), wrong or differs({'a.md': front}, WORDS, given, ended)[1])
