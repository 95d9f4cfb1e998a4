"""Pictures by matplotlib: a course with its steps and bands, and a plane in colours."""
import datetime, pathlib
from decimal import Decimal
from typing import Dict, Iterator, List, Tuple

import matplotlib

matplotlib.use('Agg')
import matplotlib.dates as dates
import matplotlib.pyplot as plt
from matplotlib.artist import Artist
from matplotlib.colors import ListedColormap
from matplotlib.lines import Line2D
from matplotlib.patches import Patch
from matplotlib.ticker import FuncFormatter, MaxNLocator

from .axes import Axis, Value
from .courses import Course, Point, pieces_of, stretches_of
from .runs import OUTPUTS, Along, Outcome, height
from .tables import named

INK, LINE, RATE, STEP, QUIET = '#1b1f24', '#0b57a4', '#8a1c55', '#a3131b', '#6d7784'
# What a place without a value is filled with: its colour, its hatching and its name.
BANDS = {'conflict': ('#f4b6b6', '////', 'conflict'), 'no value': ('#d5dae1', '....', 'no value'), 'fault': ('#f7d9a0', 'xxxx', 'fault'),
         'input refused': ('#efeff2', '', 'input refused')}
MOST_NAMED, WIDTH = 14, 9.6
NUMBER = {'ha': 'center', 'va': 'center', 'fontsize': 8, 'color': 'white', 'fontweight': 'bold', 'annotation_clip': False,
          'bbox': {'boxstyle': 'circle,pad=0.22', 'facecolor': QUIET, 'edgecolor': 'none'}}
plt.rcParams.update({'font.family': 'DejaVu Sans', 'font.size': 10, 'axes.edgecolor': QUIET, 'axes.labelcolor': INK, 'text.color': INK,
                     'axes.spines.top': False, 'axes.spines.right': False, 'svg.hashsalt': 'catala', 'hatch.linewidth': 0.6,
                     'axes.titlesize': 12, 'axes.titleweight': 'bold', 'axes.titlelocation': 'left'})


def saved(figure, file: pathlib.Path) -> None:
    """Writes a picture, the same one each time."""
    words = {'Date': None, 'Creator': 'tools/plot'} if file.suffix == '.svg' else {'Software': 'tools/plot'}
    figure.savefig(file, dpi=110, metadata=words)


def placed(value: Value) -> float:
    return dates.date2num(value) if isinstance(value, datetime.date) else float(value)


def tall(outcome: Outcome) -> float:
    return dates.date2num(outcome.value) if isinstance(outcome.value, datetime.date) else height(outcome)


def scaled(axis, sample: object, is_whole: bool = False) -> None:
    """Gives an axis of the picture the numbers of its kind: days, truth values, or numbers with commas, which may have to be whole."""
    if isinstance(sample, datetime.date):
        axis.set_major_locator(dates.AutoDateLocator(maxticks=9))
        axis.set_major_formatter(dates.ConciseDateFormatter(axis.get_major_locator()))
    elif isinstance(sample, bool):
        axis.set_ticks([0, 1], ['false', 'true'])
    else:
        axis.set_major_locator(MaxNLocator(nbins='auto', integer=is_whole, steps=[1, 2, 2.5, 5, 10]))
        axis.set_major_formatter(FuncFormatter(lambda number, _: format(number, ',.10g')))


# ---- a course

def draw_course(axis: Axis, output: str, course: Course, title: str):
    """The output along the axis, and below it, where both are numbers, how much of one more unit goes into it."""
    drawn = [point for point in course.points if point.outcome.kind == OUTPUTS]
    has_rate = not axis.is_days() and any(of_one_more for _, rates in rates_of(axis, course) for of_one_more in rates)
    bands, told = bands_of(axis, course), words_of(course)
    figure, (above, *below, of_bands, of_words) = parted([4.2, 1.6][:1 + has_rate] + [rows_of(bands, 4), rows_of(told, 2)])
    above.set_title(title, pad=24)
    draw_pieces(above, course)
    mark_jumps(above, course)
    mark_changes(above, course)
    above.set_ylabel(output.replace('_', ' '))
    if drawn:
        scaled(above.yaxis, drawn[0].outcome.value)
    for part in below:
        draw_rate(part, axis, course)
    for part in (above, *below):
        mark_bands(part, axis, course)
        scaled(part.xaxis, axis.values[0])
        part.set_xlim(placed(axis.values[0]), placed(axis.values[-1]))
    if has_rate:
        above.tick_params(labelbottom=False)
    (above, *below)[-1].set_xlabel(axis.label())
    explain(of_bands, bands, 4)
    explain(of_words, told, 2)
    return figure


def parted(heights: List[float]):
    """A picture of parts below each other, of which those of no height are empty."""
    return plt.subplots(len(heights), 1, figsize=(WIDTH, sum(heights) + 1.0), layout='constrained',
                        gridspec_kw={'height_ratios': [height or 0.01 for height in heights]})


def draw_pieces(above, course: Course) -> None:
    for piece in pieces_of(course):
        above.plot([placed(point.at) for point in piece], [tall(point.outcome) for point in piece], color=LINE, linewidth=2,
                   marker='o' if len(piece) == 1 else '', markersize=3.5, solid_capstyle='butt')


def mark_jumps(above, course: Course) -> None:
    """A jump is a dotted line from one value to the other."""
    for change in course.changes:
        if change.jump is not None:
            at, levels = placed(change.behind.at), (tall(change.front.outcome), tall(change.behind.outcome))
            above.plot([at, at], levels, color=STEP, linewidth=1, linestyle=(0, (2, 2)))
            above.plot([at], levels[1:], marker='o', markersize=4, color=STEP)


def numbers_of(course: Course) -> Dict[str, int]:
    """The definitions that decide from some place on, each with its number."""
    numbers: Dict[str, int] = {}
    for change in course.changes:
        if change.decided is not None:
            numbers.setdefault(named(change.decided), len(numbers) + 1)
    return numbers


def words_of(course: Course) -> List[Artist]:
    """What each number stands for, a definition that decides from there on; of very many definitions only how many they are."""
    numbers = numbers_of(course)
    words = ['%d  from here on %s' % (number, name) for name, number in numbers.items()]
    if len(numbers) > MOST_NAMED:
        words = ['at the dotted lines another one of %d definitions decides' % len(numbers)]
    return [Patch(facecolor='none', edgecolor='none', label=one) for one in words]


def mark_changes(above, course: Course) -> None:
    """Puts the number of a definition over the place from which on it decides."""
    numbers = numbers_of(course)
    for change in course.changes:
        if change.decided is not None:
            at = placed(change.behind.at)
            above.axvline(at, color=QUIET, linewidth=0.8, linestyle=(0, (1, 3)), zorder=0)
            if len(numbers) <= MOST_NAMED:
                above.annotate(str(numbers[named(change.decided)]), (at, 1.03), xycoords=('data', 'axes fraction'), **NUMBER)


def is_narrow(axis: Axis, start: Value, end: Value) -> bool:
    """Whether a stretch is too narrow to be seen as one."""
    return placed(end) - placed(start) < (placed(axis.values[-1]) - placed(axis.values[0])) / 400


def edge_of(kind: str) -> str:
    return STEP if kind == 'conflict' else INK


def mark_bands(part, axis: Axis, course: Course) -> None:
    """Fills the places without a value; what is too narrow to be seen is a line."""
    for kind, start, end in bands_in(course):
        if is_narrow(axis, start, end):
            part.axvline(placed(start), color=edge_of(kind), linewidth=1.6, zorder=3)
        else:
            colour, hatch, _ = BANDS[kind]
            part.axvspan(placed(start), placed(end), facecolor=colour, hatch=hatch, edgecolor=QUIET, linewidth=0, zorder=-1)


def bands_in(course: Course) -> Iterator[Tuple[str, Value, Value]]:
    """The stretches without a value, each with its kind, and its first and its last place."""
    return ((front.outcome.kind, front.at, behind.at) for front, behind in stretches_of(course))


def bands_of(axis: Axis, course: Course) -> List[Artist]:
    """What stands for each kind of stretch in the words below."""
    told = dict.fromkeys((kind, is_narrow(axis, start, end)) for kind, start, end in bands_in(course))
    return [Line2D([], [], color=edge_of(kind), linewidth=1.6, label=BANDS[kind][2] + ', at single places') if narrow else patch_of(kind)
            for kind, narrow in told]


def patch_of(kind: str) -> Patch:
    colour, hatch, name = BANDS[kind]
    return Patch(facecolor=colour, hatch=hatch, edgecolor=QUIET, label=name)


def rates_of(axis: Axis, course: Course) -> Iterator[Tuple[List[Point], List[float]]]:
    """Of each stretch of numbers the points that lie some way apart, and how much the output rises between two, in percent."""
    least = 0.25 * (placed(axis.values[1]) - placed(axis.values[0]))
    for piece in pieces_of(course, True):
        kept = piece[:1]
        for point in piece[1:]:
            if placed(point.at) - placed(kept[-1].at) >= least:
                kept.append(point)
        if isinstance(kept[0].outcome.value, Decimal) and len(kept) > 1:
            yield kept, [100 * (height(b.outcome) - height(a.outcome)) / (placed(b.at) - placed(a.at)) for a, b in zip(kept, kept[1:])]


def draw_rate(part, axis: Axis, course: Course) -> None:
    """The marginal rate: how much of one more unit goes into the output."""
    for kept, rates in rates_of(axis, course):
        part.step([placed(point.at) for point in kept], [rates[0], *rates], where='pre', color=RATE, linewidth=1.6)
    part.axhline(0, color=QUIET, linewidth=0.6)
    part.set_ylabel('marginal rate')
    part.yaxis.set_major_formatter(FuncFormatter(lambda number, _: '%g %%' % number))


def explain(part, told: List[Artist], columns: int) -> None:
    """The words to bands or numbers, in a part of the picture of their own."""
    part.axis('off')
    if told:
        part.legend(handles=told, loc='upper left', ncols=columns_of(told, columns), frameon=False, fontsize=8.5, borderaxespad=0,
                    handlelength=0 if columns == 2 else 1.6).set_in_layout(False)


def columns_of(told: List[Artist], columns: int) -> int:
    """In how many columns words stand: in one where some are long."""
    return columns if max((len(one.get_label()) for one in told), default=0) < 70 else 1


def rows_of(told: List[Artist], columns: int) -> float:
    """How high the words are, in inches."""
    return 0.19 * -(-len(told) // columns_of(told, columns))


# ---- a plane

def draw_plane(along: Along, output: str, title: str):
    """The output over two axes in colours, and hatched where there is none."""
    across, up = along.axes
    grid = [[along.at(x, y) for x in across.values] for y in up.values]
    kinds = [kind for kind in BANDS if any(one.kind == kind for row in grid for one in row)]
    bands = [patch_of(kind) for kind in kinds]
    figure, (part, below) = parted([4.6, rows_of(bands, 4)])
    edges = [edges_of([placed(value) for value in axis.values]) for axis in along.axes]
    nothing = float('nan')
    shown_at = [[tall(one) if one.kind == OUTPUTS else nothing for one in row] for row in grid]
    is_any = any(tallness == tallness for row in shown_at for tallness in row)
    colours = part.pcolormesh(*edges, shown_at, cmap='YlGnBu', shading='flat', rasterized=True)
    for kind in kinds:
        colour, hatch, _ = BANDS[kind]
        inside = [[1.0 if one.kind == kind else nothing for one in row] for row in grid]
        part.pcolor(*edges, inside, cmap=ListedColormap([colour]), hatch=hatch, edgecolor=QUIET, linewidth=0, antialiased=False)
    sample = next((one.value for row in grid for one in row if one.kind == OUTPUTS), Decimal(0))
    if is_any:
        scaled(figure.colorbar(colours, ax=part, label=output.replace('_', ' ')).ax.yaxis, sample)
    part.set_title(title)
    for axis, shown, name in ((across, part.xaxis, part.set_xlabel), (up, part.yaxis, part.set_ylabel)):
        scaled(shown, axis.values[0], not axis.is_days() and all(value == int(value) for value in axis.values))
        name(axis.label())
    explain(below, bands, 4)
    return figure


def edges_of(values: List[float]) -> List[float]:
    """The borders of the cells around values: in the middle between two."""
    middles = [(a + b) / 2 for a, b in zip(values, values[1:])]
    return [values[0] - (middles[0] - values[0]), *middles, values[-1] + (values[-1] - middles[-1])]
