"""The tables of a listing that anyone may have made: what they declare, and the lines that name, spell or declare something wrong."""
import oracle_json as forms
from oracle_sources import MOST_FILES

from .answers import Given
from .checker import HIGHEST, MOST_CASES, MOST_ITEMS, MOST_PARAMETERS, base_of, reachable
from .images import position
from .machine import FLAT, KINDS, Declared, Item, ScopeOf, Types
from .tokens import KEYWORDS, name_end

MOST_TEXT = 64 * 1024 * 1024


def is_type_word(name):
    return 'A' <= name[0] <= 'Z' and name_end(name, 0) == len(name)


def is_name_word(name):
    begins = not 'A' <= name[0] <= 'Z' and name[0] != '_' and name[0].isidentifier()
    return begins and name_end(name, 0) == len(name) and name not in KEYWORDS


class ImageTables:
    """What the lines in front of the instructions say; `wrong` has the numbers of those lines that are wrong."""

    def __init__(self, image):
        self.image, self.wrong = image, set()
        lines = image.tables
        self.names_once(lines['file'])
        self.names_once(sorted(lines['structure'] + lines['enumeration'] + lines['scope'], key=lambda line: line.number))
        self.declare_types(lines)
        self.numbers = {line.words[0]: n for n, line in reversed(list(enumerate(lines['scope'])))}
        self.scopes = [self.scope(line) for line in lines['scope']]
        self.functions = [int(line.words[0]) for line in lines['function']]
        self.function_items = [(s, n) for s, scope in enumerate(self.scopes) for n, item in enumerate(scope.items) if item.params]
        for s, n in self.function_items[len(self.functions):]:
            self.refuse(lines['scope'][s].parts[n])
        self.targets = [self.target(line) for line in lines['target']]
        for word in ('definition', 'position'):
            for line in lines[word]:
                self.placed(line, line.words)
        self.constants = [self.constant(line) for line in lines['const']]

    def refuse(self, line):
        self.wrong.add(line.number)

    def names_once(self, lines):
        known = set()
        for line in lines:
            if line.words[0] in known:
                self.refuse(line)
            known.add(line.words[0])

    def placed(self, line, words):
        """A position, whose file has a line and may be one of a source, and whose column may be one of a text that is read."""
        pos = position(words)
        if pos.file >= min(len(self.image.tables['file']), MOST_FILES) or pos.column >= MOST_TEXT:
            self.refuse(line)
        return pos

    # ---- types

    def declare_types(self, lines):
        self.kinds = {line.words[0]: ('enumeration', n) for n, line in reversed(list(enumerate(lines['enumeration'])))}
        self.kinds.update({line.words[0]: ('structure', n) for n, line in reversed(list(enumerate(lines['structure'])))})
        structures = [self.declared(line, is_name_word) for line in lines['structure']]
        enumerations = [self.declared(line, is_type_word) for line in lines['enumeration']]
        for line in lines['enumeration']:
            for part in line.parts[MOST_CASES:]:
                self.refuse(part)
        self.types = Types(structures, enumerations)
        self.refuse_cycles(lines['structure'] + lines['enumeration'])
        self.heights = [0] * len(structures + enumerations)
        for _ in range(HIGHEST + 1):
            self.heights = [1 + max((self.height(t) for _, t in of.parts if t), default=0) for of in structures + enumerations]
        for line, of, height in zip(lines['structure'] + lines['enumeration'], structures + enumerations, self.heights):
            if height > HIGHEST:
                self.wrong |= {line.number, *(part.number for part, (_, t) in zip(line.parts, of.parts) if t and self.height(t) >= HIGHEST)}

    def declared(self, line, is_part_word):
        """A structure or an enumeration."""
        self.names_once(line.parts)
        if not is_type_word(line.words[0]) or not line.parts:
            self.refuse(line)
        parts = []
        for part in line.parts:
            name, written = part.words
            if not is_part_word(name):
                self.refuse(part)
            parts.append((name, written and self.type(part, written)))
        return Declared(line.words[0], parts)

    def type(self, line, text):
        lists = 0
        while text.startswith('list of '):
            text, lists = text[len('list of '):], lists + 1
        t = text if text in FLAT else self.kinds.get(text)
        if t is None:
            self.refuse(line)
        for _ in range(lists):
            t = ('list', t)
        return t

    def number(self, t):
        return t[1] + (len(self.types.structures) if t[0] == 'enumeration' else 0)

    def refuse_cycles(self, lines):
        """Refuses each part of a type that is made of this type."""
        made_of = [[self.number(base_of(t)) for _, t in of.parts if isinstance(base_of(t), tuple)]
                   for of in self.types.structures + self.types.enumerations]
        for n, (line, of) in enumerate(zip(lines, self.types.structures + self.types.enumerations)):
            for part, (_, t) in zip(line.parts, of.parts):
                other = self.number(base_of(t)) if isinstance(base_of(t), tuple) else None
                if other is not None and (other == n or n in reachable(made_of, other)):
                    self.refuse(part)

    def height(self, t):
        lists = 0
        while isinstance(t, tuple) and t[0] == 'list':
            t, lists = t[1], lists + 1
        return lists + (self.heights[self.number(t)] if isinstance(t, tuple) else 1)

    def low_type(self, line, text):
        t = self.type(line, text)
        if self.height(t) > HIGHEST:
            self.refuse(line)
        return t

    # ---- scopes, targets and constants

    def scope(self, line):
        if not is_type_word(line.words[0]):
            self.refuse(line)
        self.names_once(line.parts)
        for part in line.parts[MOST_ITEMS:]:
            self.refuse(part)
        return ScopeOf(line.words[0], int(line.words[1]), list(map(self.item, line.parts)))

    def item(self, line):
        name, kind, file, row, column, what, *params = line.words
        pos = self.placed(line, (file, row, column))
        if not is_name_word(name):
            self.refuse(line)
        if kind == 'called':
            if what not in self.numbers:
                self.refuse(line)
            return Item(name, kind, pos, None, False, [], self.numbers.get(what))
        params = [self.low_type(line, t) for t in params[0].split(', ')] if params[0] else []
        if len(params) > MOST_PARAMETERS:
            self.refuse(line)
        t = 'boolean' if what == 'condition' else self.low_type(line, what)
        return Item(name, KINDS.get(kind, kind), pos, t, what == 'condition', params, None)

    def target(self, line):
        """A variable or one of a called scope: its scope with its item and the one inside, its position, and its type."""
        place, *words = line.words
        pos, (scope, *names) = self.placed(line, words), place.split('.')
        items = self.items_named(self.numbers.get(scope), names)
        if len(items) != len(names) or not 1 <= len(names) <= 2 or items[-1][1].kind == 'called':
            self.refuse(line)
            return None
        inner = items[1][0] if names[1:] else None
        return (self.numbers[scope], (items[0][0], inner)), pos, items[-1][1].type

    def items_named(self, scope, names):
        """The items of these names, each in the scope that the one before calls, up to an unknown one."""
        found = []
        for name in names if scope is not None else ():
            found += [(n, item) for n, item in enumerate(self.scopes[scope].items) if item.name == name][:1]
            scope = found[-1][1].called if found else None
            if scope is None:
                break
        return found

    def constant(self, line):
        t = self.low_type(line, line.words[0])
        try:
            return t, Given(self.types).read(forms.parsed(line.words[1].encode()), t, [])
        except (forms.NotJson, forms.Refused, TypeError):  # of a type that is unknown
            self.refuse(line)
            return t, None
