"""The verifier of listings: what stands against the code of an image. It is safe where nothing does: each run ends, and none is stuck."""
import functools

from .checker import reachable
from .image_tables import ImageTables
from .images import Image, Refused
from .shapes import BadShape, Shapes

OPERATORS, ROUNDINGS = 45, 3
JUMPS = {'given': 1, 'jump': 0, 'jumpfalse': 0, 'next': 0, 'held': 0, 'take': 0}
TABLES = {'const': 'constants', 'iterlist': 'constants', 'tag': 'cases', 'tagnone': 'cases', 'iscase': 'cases', 'call': 'functions',
          'scope': 'scopes', 'begin': 'targets', 'check': 'targets', 'novalue': 'targets', 'hold': 'definitions', 'assert': 'positions'}


def jump_of(instruction):
    """The place to which an instruction may jump."""
    name, *numbers = instruction
    return numbers[JUMPS[name]] if name in JUMPS else None


class Code:
    """The code of an image, with the tables that its numbers name."""

    def __init__(self, image, tables=None):
        self.tables, self.code = tables or ImageTables(image), image.code
        self.sizes = {word + 's': len(lines) for word, lines in image.tables.items()}
        self.sizes['constants'] = self.sizes['consts']
        self.cases = [(e, k) for e, of in enumerate(self.tables.types.enumerations) for k in range(len(of.parts))]
        self.sizes['cases'] = len(self.cases)
        self.entries = [*(scope.entry for scope in self.tables.scopes), *self.tables.functions]

    # ---- to which function or scope code belongs: ('scope', its number) or ('function', its number)

    def entry(self, owner):
        kind, number = owner
        return self.tables.scopes[number].entry if kind == 'scope' else self.tables.functions[number]

    def scope_of(self, owner):
        return owner[1] if owner[0] == 'scope' else self.tables.function_items[owner[1]][0]

    def called(self, instruction):
        """The function or scope that an instruction calls."""
        return ('function' if instruction[0] == 'call' else 'scope', instruction[1]) if instruction[0] in ('call', 'scope') else None

    def next_places(self, k):
        """The places to which an instruction may go on, without those that it calls."""
        places = [] if self.code[k][0] in ('jump', 'return', 'novalue') else [k + 1]
        jump = jump_of(self.code[k])
        return [place for place in places + ([] if jump is None else [jump]) if place < len(self.code)]

    def places_of(self, owner):
        """The places that are reached from an entry, without calls."""
        found, left = set(), [self.entry(owner)]
        while left:
            k = left.pop()
            if k < len(self.code) and k not in found:
                found.add(k)
                left += self.next_places(k)
        return found

    @functools.cached_property
    def belonging(self):
        """Each scope, and each function that a run may come to, with its places."""
        found, left = {}, [('scope', n) for n in range(len(self.tables.scopes))]
        while left:
            owner = left.pop()
            if owner not in found:
                found[owner] = self.places_of(owner)
                left += filter(self.is_known, (self.called(self.code[k]) for k in found[owner]))
        return found

    def is_known(self, owner):
        return owner is not None and owner[1] < (len(self.tables.function_items) if owner[0] == 'function' else len(self.tables.scopes))

    # ---- numbers

    def bad_numbers(self):
        """Instructions that name a number outside its table or break a rule of listings, and entries that do."""
        bad = {k for k, instruction in enumerate(self.code) if not self.is_within(instruction) or not self.keeps_rules(k)}
        bad |= {min(entry, len(self.code)) for entry in self.entries if entry >= len(self.code)}
        surplus = self.tables.functions[len(self.tables.function_items):]
        bad |= {min(entry, len(self.code)) for entry in surplus}
        return bad | self.entered_tests() | self.foreign_calls()

    def is_within(self, instruction):
        name, *numbers = instruction
        jump = jump_of(instruction)
        if jump is not None and jump >= len(self.code):
            return False
        if name == 'op':
            return 1 <= numbers[0] <= OPERATORS and numbers[1] < ROUNDINGS and numbers[2] < self.sizes['positions']
        return name not in TABLES or numbers[0] < self.sizes[TABLES[name]]

    def keeps_rules(self, k):
        name, *numbers = self.code[k]
        if name == 'list':
            return numbers[0] > 0
        if name == 'iterlist':
            return numbers[0] >= len(self.tables.constants) or self.tables.constants[numbers[0]][1] == []
        if name == 'next':
            return k > 0 and self.code[k - 1][0] in ('iter', 'iterlist')
        return name != 'content' or self.is_tested(k)

    def is_tested(self, k):
        """Whether in front of a content a local name is found to be a case that has one."""
        front = self.code[k - 4:k] if k >= 4 else []
        if [name for name, *_ in front] != ['local', 'iscase', 'jumpfalse', 'local'] or front[0] != front[3]:
            return False
        c = front[1][1]
        return c < len(self.cases) and self.content(c) is not None

    def content(self, c):
        enumeration, k = self.cases[c]
        return self.tables.types.enumerations[enumeration].parts[k][1]

    def entered_tests(self):
        """Contents that are jumped to, or entered, without their test, and what goes there."""
        contents = {k for k, instruction in enumerate(self.code) if instruction[0] == 'content'}
        jumps = [(k, jump_of(instruction)) for k, instruction in enumerate(self.code) if jump_of(instruction) is not None]
        bad = set()
        for k, place in jumps + [(entry, entry) for entry in self.entries]:
            entered = {place + more for more in range(4)} & contents
            bad |= entered | {k} if entered else set()
        return bad

    def foreign_calls(self):
        """Calls of functions of another scope."""
        return {k for owner, places in self.belonging.items() for k in places
                if self.code[k][0] == 'call' and self.code[k][1] < len(self.tables.function_items)
                and self.tables.function_items[self.code[k][1]][0] != self.scope_of(owner)}

    # ---- ends

    def endless(self):
        """Instructions that jump back but to the beginning of a turn of a loop, that belong to several functions or scopes, or that call
        what leads back to where they belong."""
        back = {k for k, instruction in enumerate(self.code) if jump_of(instruction) is not None and not self.goes_on(k)}
        seen, shared, circular = set(), set(), set()
        for owner, places in self.belonging.items():
            shared |= seen & places
            seen |= places
            before = {other for other in self.calls if owner == other or owner in reachable(self.calls, other)}
            circular |= {k for k in places if self.called(self.code[k]) in before}
        return back | shared | circular

    def goes_on(self, k):
        jump = jump_of(self.code[k])
        return jump > k or jump < k and self.code[k][0] == 'jump' and self.code[jump][0] == 'next'

    @functools.cached_property
    def calls(self):
        """For each function or scope those that it calls."""
        return {owner: {self.called(self.code[k]) for k in places} - {None} for owner, places in self.belonging.items()}


def verified(data, tables=None):
    """The shapes of a listing that is accepted; refused with the places of which any may be told. Its tables may be known already."""
    code = Code(Image(data), tables)
    for name, found in (('V1', lambda: code.tables.wrong), ('V2', code.bad_numbers), ('V3', code.endless)):
        places = found()
        if places:
            raise Refused(name, places)
    try:
        return Shapes(code)
    except BadShape:
        raise Refused('V4', set().union(*code.belonging.values())) from None
