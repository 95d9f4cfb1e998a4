"""The form of each scope's input and outputs as data, of which the page makes what a drafter fills in.

Nothing is computed here: what stands in the form is read by the program."""
from explaining.sources import Source
from reference.answers import Program
from reference.tokens import Pos

GIVEN, ASKED = ('input', 'context'), 'input'
# What begins a definition, or else what may stand behind one.
BEGINS = ('label', 'exception', 'definition', 'rule', 'assertion', 'date round', 'scope', 'declaration')


def type_of(t) -> object:
    """A type: the name of a plain one, or its form with the number of what is declared."""
    if isinstance(t, str):
        return t
    return {'form': 'list', 'of': type_of(t[1])} if t[0] == 'list' else {'form': t[0], 'number': t[1]}


def declared(declarations) -> list:
    """Structures with their fields, or enumerations with their cases, of which some have no content."""
    return [{'name': d.name, 'parts': [{'name': name, 'type': None if t is None else type_of(t)} for name, t in d.parts]}
            for d in declarations]


def scope_of(program: Program, number: int, source: Source) -> dict:
    scope = program.scopes[number]
    items = [(item.name, item.kind.split(), item.type) for item in scope.items if item.type is not None]
    return {'name': scope.name, 'calls': [program.scopes[called].name for called in scope.calls],
            'inputs': [{'name': name, 'type': type_of(t), 'isAsked': kind[0] == ASKED} for name, kind, t in items if kind[0] in GIVEN],
            'outputs': [{'name': name, 'type': type_of(t)} for name, kind, t in items if kind[-1] == 'output'],
            'defined': defined(program, number, source)}


def defined(program: Program, number: int, source: Source) -> list:
    """For each variable of a scope the places at which it is defined, in their order, each with the line in which that ends."""
    scope, places = program.scopes[number], {}
    for definition in scope.definitions:
        item, inner = definition.target
        of = scope.items[item]
        name = of.name if inner is None else '%s.%s' % (of.name, program.scopes[of.called].items[inner].name)
        pos = definition.pos
        place = {'file': program.names[pos.file], 'line': pos.line, 'column': pos.column, 'last': last_line(source, pos)}
        places.setdefault(name, []).append(place)
    return [{'name': name, 'places': found} for name, found in places.items()]


def last_line(source: Source, pos: Pos) -> int:
    """The line of the last token of the definition that begins at a position."""
    end = source.numbers.get(pos, len(source.tokens)) + 1
    while end < len(source.tokens) and source.tokens[end].kind not in BEGINS:
        end += 1
    return source.tokens[end - 1].end.line if end <= len(source.tokens) else pos.line


def forms_of(program: Program, source: Source) -> dict:
    return {'scopes': [scope_of(program, number, source) for number in range(len(program.scopes))],
            'structures': declared(program.types.structures), 'enumerations': declared(program.types.enumerations)}
