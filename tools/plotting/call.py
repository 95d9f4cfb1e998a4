"""The words of a call of tools/plot, and the picture from its beginning to its end."""
import itertools, json, os, pathlib, shutil, subprocess, sys
from typing import List, NamedTuple, Optional

from .axes import Axis, Wrong, axis_of, finer
from .courses import course_of
from .runs import Along, Program
from .tables import write_course, write_plane

WRONG_USE, FAILED = 9, 1
TOP = pathlib.Path(__file__).resolve().parent.parent.parent
MOST_PLACES = 100_000
KINDS = ('.svg', '.png', '.csv')


class Asked(NamedTuple):
    """What a call asks for."""
    scope: str
    law: str
    file: str
    axes: List[Axis]
    output: str
    into: List[pathlib.Path]
    title: Optional[str]
    program: Optional[str]


def read_call(words: List[str]) -> Optional[Asked]:
    """What the words ask for; nothing where they are no call."""
    left, named, axes, into = list(words), [], [], []
    told = {'--of': None, '--title': None, '--program': None}
    while left:
        word = left.pop(0)
        if word == '--over' and len(left) >= 4:
            axes.append(axis_of(*left[:4]))
            left = left[4:]
        elif word == '--to' and left:
            into.append(pathlib.Path(left.pop(0)))
        elif word in told and left:
            told[word] = left.pop(0)
        elif word.startswith('-') and word != '-':
            return None
        else:
            named.append(word)
    into = into or [pathlib.Path('%s.svg' % told['--of'])]
    is_call = len(named) == 3 and 1 <= len(axes) <= 2 and told['--of'] and all(file.suffix in KINDS for file in into)
    return Asked(*named, axes, told['--of'], into, told['--title'], told['--program']) if is_call else None


def program_of(asked: Optional[str]) -> str:
    """The program that is asked for, or the one that lies packed in this checkout."""
    if asked:
        found = shutil.which(os.path.abspath(asked))
        if found is None:
            raise Wrong('there is no program %s' % asked)
        return found
    return subprocess.run([TOP / 'tools' / 'unpack'], stdout=subprocess.PIPE, text=True, check=True).stdout.strip()


def text_of(file: str) -> str:
    """What an input holds; that of `-` is standard input."""
    return sys.stdin.read() if file == '-' else pathlib.Path(file).read_text(encoding='utf-8')


def drawn(asked: Asked) -> None:
    program = Program(program_of(asked.program), asked.scope, asked.law, asked.output)
    along = Along(program, text_of(asked.file), asked.axes)
    title = asked.title or '%s of %s' % (asked.output.replace('_', ' '), asked.scope)
    if len(asked.axes) == 1:
        course(asked, along, title)
    else:
        plane(asked, along, title)


def course(asked: Asked, along: Along, title: str) -> None:
    axis, = along.axes
    axis = along.axes[0] = finer(axis, along.takes)
    found = course_of(along)
    for file in asked.into:
        if file.suffix == '.csv':
            write_course(file, along, found)
        else:
            from . import drawing

            drawing.saved(drawing.draw_course(axis, asked.output, found, title), file)


def plane(asked: Asked, along: Along, title: str) -> None:
    across, up = along.axes
    places = list(itertools.product(across.values, up.values))
    if len(places) > MOST_PLACES:
        raise Wrong('a plane has at most %d places, and these are %d' % (MOST_PLACES, len(places)))
    along.fill(places)
    for file in asked.into:
        if file.suffix == '.csv':
            write_plane(file, along, places)
        else:
            from . import drawing

            drawing.saved(drawing.draw_plane(along, asked.output, title), file)


def main(words: List[str], usage: str) -> int:
    if words in (['--help'], ['-h']):
        print(usage)
        return 0
    try:
        asked = read_call(words)
        if asked is None:
            print(usage, file=sys.stderr)
            return WRONG_USE
        drawn(asked)
        return 0
    except ModuleNotFoundError as error:
        why = 'pictures want %s: install the package python3-matplotlib' % error.name
    except (Wrong, OSError, json.JSONDecodeError, subprocess.SubprocessError) as error:
        why = str(error)
    print('catala-plot: %s' % why, file=sys.stderr)
    return FAILED
