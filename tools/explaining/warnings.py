"""What is warned of, unasked: what is accepted, and is hardly what the drafter means."""
import os, re
from typing import Callable, Iterator, List, Optional, Set, Tuple

from reference.checker import base_of
from reference.grammar import tree_of
from reference.programs import walk

from .conditions import parts_of
from .notes import Note, Place
from .pages import Pages, help_in
from .sources import Source

MOST_PLACES = 10
PART = 'Warnings'
ROUNDING = {('*', 'money', 'decimal'), ('*', 'decimal', 'money'), ('/', 'money', 'integer'), ('/', 'money', 'decimal')}
ROUNDING_PREFIXES = {('money', 'decimal'), ('round of', 'money')}
CARRYING = ('+', '-', '*', '/')
UNPARTED = re.compile(r'\$[0-9]{4,}(,[0-9]{3})+')


def note(pages: Pages, row: str, places: List[Place]) -> Note:
    return Note('warning', '', row, places[:MOST_PLACES], [], [help_in(pages.titled('EXPLAIN.md', PART), row)])


# ---- amounts that are rounded twice

def rounds(expr) -> bool:
    return expr[0] == 'binary' and expr[3] in ROUNDING or expr[0] == 'prefix' and expr[2] in ROUNDING_PREFIXES


def carried(expr) -> list:
    """The parts of which the value of an expression is made."""
    form = expr[0]
    if form == 'binary':
        return list(expr[4:]) if expr[3][0] in CARRYING else []
    if form in ('prefix', 'sum', 'map each'):
        return [expr[3]]
    if form == 'if':
        return list(expr[3:])
    if form == 'match':
        return [body for _, body in expr[3]]
    return list(expr[3:]) if form == 'combine' else list(expr[2]) if form == 'list' else []


def place_of_rounding(expr):
    return expr[2] if expr[0] == 'binary' else expr[1]


def first_rounding(expr) -> Optional[tuple]:
    """A rounding in the parts of which a value is made."""
    return next((found for part in carried(expr) for found in [part if rounds(part) else first_rounding(part)] if found), None)


def rounded_again(expr) -> Optional[Tuple]:
    """A rounding, and one in a part of it."""
    for part in walk(expr):
        if rounds(part) and (inner := first_rounding(part)):
            return part, inner
    return None


def twice_rounded(source: Source, program) -> List[Place]:
    places = []
    for scope in program.scopes:
        for definition in scope.definitions:
            if found := rounded_again(definition.body):
                labels = zip(map(place_of_rounding, found), ('rounds again', 'rounds before'))
                places += [source.place(pos, label=label) for pos, label in labels]
    return places


# ---- what nothing reads

def items_read(scope) -> Set[int]:
    exprs = [e for d in scope.definitions for e in (d.condition, d.body) if e] + [e for e, _ in scope.assertions]
    return {part[2] for expr in exprs for part in walk(expr) if part[0] in ('item', 'call', 'output')}


def unread_variables(source: Source, program) -> List[Place]:
    places = []
    for scope in program.scopes:
        read = items_read(scope)
        places += [source.place(item.pos, label='in `%s`' % scope.name) for n, item in enumerate(scope.items)
                   if n not in read and item.kind in ('input', 'internal', 'context')]
    return places


def shown_structures(program) -> Set[int]:
    """The structures whose fields are in outputs."""
    left = [base_of(i.type) for scope in program.scopes for i in scope.items if i.kind.endswith('output')]
    seen, shown = set(), set()
    while left:
        t = left.pop()
        if isinstance(t, tuple) and t not in seen:
            seen.add(t)
            shown |= {t[1]} if t[0] == 'structure' else set()
            declared = program.types.structures if t[0] == 'structure' else program.types.enumerations
            left += [base_of(part) for _, part in declared[t[1]].parts if part]
    return shown


def fields_named(tree: list) -> Iterator[str]:
    return (part.parts[1].text for part in parts_of(tree) if part.form == 'field')


def unread_fields(source: Source, program) -> List[Place]:
    tree = tree_of(source.tokens)
    named, shown = set(fields_named(tree)), shown_structures(program)
    declared = [d for d in tree if hasattr(d, 'fields')]
    return [source.place(name.pos, label='of `%s`' % d.name.text) for number, d in enumerate(declared) if number not in shown
            for name, _ in d.fields if name.text not in named]


# ---- literals and includes

def unparted_amounts(source: Source, program) -> List[Place]:
    amounts = [token for token in source.tokens if token.kind == 'MONEY']
    return [source.place(token.pos) for token in amounts if UNPARTED.fullmatch(source.text(token.pos, token.end).split('.')[0])]


def other_includes(source: Source) -> List[Place]:
    places = []
    for include in source.includes:
        beside = os.path.normpath(os.path.join(os.path.dirname(include.file), include.name))
        if include.name != '-' and beside != os.path.normpath(include.name):
            end = len(source.files.lines(include.file)[include.line - 1].encode('utf-8', 'surrogateescape')) + 1
            places.append(Place(include.file, include.line, 1, end, 'names `%s`, and not `%s`' % (include.name, beside)))
    return places


OF_PROGRAMS: List[Tuple[str, Callable]] = [
    ('an amount that is rounded, and rounded again', twice_rounded), ('commas that part no thousands', unparted_amounts),
    ('a variable that nothing reads', unread_variables), ('a field that nothing reads', unread_fields)]


def of_files(source: Source, pages: Pages) -> List[Note]:
    """What is warned of a source whose code isn't looked at."""
    places = other_includes(source)
    return [note(pages, 'an include of a file that is not beside', places)] if places else []


def warnings_of(source: Source, pages: Pages, program) -> List[Note]:
    """What is warned of an accepted source, each thing in one note."""
    found = [(row, places_of(source, program)) for row, places_of in OF_PROGRAMS]
    return of_files(source, pages) + [note(pages, row, places) for row, places in found if places]
