"""A picture as data for the page: an output along an input, from the program's own answers."""
import itertools
from typing import Iterator, List

from plotting.axes import Wrong, axis_of, finer, number_of, text_of
from plotting.courses import Change, Course, decided, explored, pieces_of, stretches_of
from plotting.runs import Along, Program as Plotted, height
from plotting.tables import cell_of

from .program import SECONDS, Program
from .traces import LineAt, places_of

MOST_STEPS, MOST_CHANGES = 2_000, 200


class Called(Plotted):
    """The program in a folder, with the limits that the page gives it; each call is a job of its own, behind the picture's name."""

    def __init__(self, program: Program, folder: str, asked: dict):
        super().__init__(program.path, asked['scope'], '-', asked['of'])
        self.program, self.folder, self.text, self.job = program, folder, asked['text'], asked['job']
        self.numbers = itertools.count()

    def lines(self, mode: str, given: str) -> List[str]:
        words = [mode, '--', self.scope, self.law]
        ended = self.program.call(self.folder, words, self.text, given, job='%s %d' % (self.job, next(self.numbers)))
        if ended.status < 0 or ended.status > 128:
            raise Wrong('It was stopped, or took longer than %d seconds.' % SECONDS)
        return ended.reply.split('\n')


def pictures(program: Program, folder: str, asked: dict, line_at: LineAt) -> Iterator[dict]:
    """The course of an output, and the same again once it is known who decides; or why there is none."""
    try:
        axis = axis_of(asked['over'], asked['from'].strip(), asked['to'].strip(), asked['step'].strip())
        if len(axis.values) > MOST_STEPS:
            raise Wrong('a picture has at most %d steps, and these are %d' % (MOST_STEPS, len(axis.values) - 1))
        along = Along(Called(program, folder, asked), asked['input'], [axis])
        along.axes[0] = finer(axis, along.takes)
        slopes = explored(along)
        yield picture_of(along, Course(list(along.points()), []), line_at)
        yield {**picture_of(along, decided(along, slopes), line_at), 'isWhole': True}
    except (Wrong, ValueError, RecursionError) as why:
        yield {'trouble': str(why)}


def picture_of(along: Along, course: Course, line_at: LineAt) -> dict:
    """What is drawn: numbers of the plane, and their texts where they are told."""
    axis = along.axes[0]
    values = [point.outcome.value for point in course.points if point.outcome.value is not None]
    pieces = [[[number_of(point.at), height(point.outcome)] for point in piece] for piece in pieces_of(course)]
    stretches = [{'kind': front.outcome.kind, 'told': front.outcome.told, 'from': number_of(front.at), 'to': number_of(behind.at),
                  'fromText': str(text_of(front.at)), 'toText': str(text_of(behind.at))} for front, behind in stretches_of(course)]
    return {'from': number_of(axis.values[0]), 'to': number_of(axis.values[-1]), 'isDays': axis.is_days(),
            'kind': type(values[0]).__name__ if values else 'Decimal', 'pieces': pieces, 'stretches': stretches,
            'changes': [change_of(change, line_at) for change in course.changes[:MOST_CHANGES]], 'isWhole': False}


def change_of(change: Change, line_at: LineAt) -> dict:
    """A place from which on the output is another one, or another definition decides."""
    front, behind, by = change.front, change.behind, change.decided
    jump = [height(front.outcome), height(behind.outcome)] if change.jump is not None else None
    return {'x': number_of(behind.at), 'at': str(text_of(behind.at)), 'jump': jump, 'kind': behind.outcome.kind,
            'before': cell_of(front.outcome.value), 'behind': cell_of(behind.outcome.value), 'name': by.variable if by else None,
            'heading': by.heading if by else None, 'places': places_of(by.position, line_at) if by else []}
