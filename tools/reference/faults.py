"""The faults of a source that don't hang on each other, and which words may stand where it breaks off."""
from .checker import Names, Types, high_lists, written_types
from .grammar import Block, Reader
from .programs import Body, program_of
from .tokens import KEYWORDS, PAIRS, Refused, Token, tokens_of

SYMBOLS = ('--', '!=', '<=', '>=', *':.,;()[]{}+-*/=<>')
KINDS = (*sorted(KEYWORDS), *PAIRS, *SYMBOLS, 'U', 'w', 'INT', 'DEC', 'MONEY', 'DATE')
USES = ('label', 'exception', 'definition', 'rule', 'assertion', 'date round')
ITEMS = ('input', 'output', 'internal', 'context')


class Recovering(Reader):
    """Tells a fault of the grammar and reads on: at the next definition, declared item, declaration or block."""

    def __init__(self, tokens):
        super().__init__(tokens)
        self.faults, self.are_declarations_whole = [], True
        self.header, self.start = [], 0

    def begins_item(self):
        is_block = self.kind() == 'scope' and self.kind(1) == 'U' and self.kind(2) in (':', 'under condition')
        return self.kind() in ('declaration', None) or is_block

    def tell(self, refused, start, kinds):
        """Notes the fault with the tokens in front of it that it hangs on, and goes to the next of these kinds behind the start."""
        fault, *behind = refused.faults
        front = self.header + self.tokens[self.start:self.at]
        if behind and goes_on(front, 'with pattern'):  # A test has begun, and breaks off behind these words.
            fault, front = behind[0], front + [self.tokens[self.at]]
        fault.told['front'] = front
        self.faults.append(fault)
        self.at = max(self.at, start + 1)
        while self.kind() not in kinds and not self.begins_item():
            self.at += 1

    def program(self):
        items = []
        while self.kind() is not None:
            before, start = (self.header, self.start), self.at
            self.header, self.start = [], self.at
            try:
                items.append(self.declaration() if self.taken('declaration') else self.block())
            except Refused as refused:
                self.are_declarations_whole = False
                if self.at == start:  # What stands there goes on from what is in front, and might have belonged to that.
                    self.header, self.start = before
                self.tell(refused, start, ())
        return items

    def block(self):
        """A block, with the definitions behind what stands between two of them and belongs to none."""
        block = super().block()
        uses = list(block.uses)
        while self.kind() not in ('declaration', 'scope', None):
            self.are_declarations_whole &= self.kind() not in ITEMS
            self.tell(self.unexpected(), self.at, USES)
            while self.kind() in USES:
                uses.append(self.use())
        return block._replace(uses=[use for use in uses if use])

    def use(self):
        self.header = self.header or self.tokens[self.start:self.at]
        self.start = self.at
        try:
            return super().use()
        except Refused as refused:
            self.tell(refused, self.start, USES)

    def variable(self):
        self.header = self.header or self.tokens[self.start:self.at]
        self.start = self.at
        try:
            return super().variable()
        except Refused as refused:
            self.are_declarations_whole = False
            self.tell(refused, self.start, ITEMS)


def goes_on(front, kind):
    """Whether a word of this kind may follow these tokens."""
    reader = Reader([*front, Token(kind, 1, None)])
    try:
        reader.program()
    except Refused:
        return reader.at > len(front)
    return True


def words_behind(front):
    """The kinds of the words that may follow these tokens."""
    return [kind for kind in KINDS if goes_on(front, kind)]


def tokens_with_gaps(piece, faults):
    """The tokens of a piece of code, where what is no token is told among the faults, and stands as one that fits nowhere."""
    first = len(faults)
    tokens = tokens_of([piece], faults)
    return sorted(tokens + [Token('', None, pos, pos) for _, pos in faults[first:]], key=lambda token: token.pos)


def faults_of(pieces):
    """The faults of some pieces of code, by phases: of a later one where the earlier ones leave something that it can look at."""
    faults = []
    reader = Recovering([token for piece in pieces for token in tokens_with_gaps(piece, faults)])
    tree = reader.program()
    told = faults + [fault for fault in reader.faults if fault[1] not in [pos for _, pos in faults]]
    if not reader.are_declarations_whole:
        return told
    return told + once(meaning_faults(tree, not told))


def once(faults):
    """Each place once, and each name that names nothing where it stands first."""
    first = {}
    for fault in sorted(faults, key=lambda fault: fault[1] or ()):
        first.setdefault((fault[0], fault.told.get('text', fault[1])), fault)
    return list(first.values())


def meaning_faults(tree, is_whole):
    """The faults of names and types, and where there are none and the tree is whole, those of cycles and exceptions."""
    names = Names(tree)
    structures, enumerations, items = names.declarations()
    are_declared = not names.faults
    names.blocks()
    if not are_declared:
        return names.faults
    try:
        types = Types(structures, enumerations)
        names.written = list(written_types(tree))
        faults = names.faults + types.check(tree) + high_lists(types, names)
        known = [item for item in tree if not isinstance(item, Block) or item.name.text in names.scope_numbers]
        for number in range(len(items)):
            faults += Body(known, names, types, items, number).faults()
        if is_whole and not faults:
            program_of(tree)
    except Refused as refused:
        return names.faults + refused.faults
    for fault in faults:
        fault.told.update(types=fault.told.get('types', []), declared=types, names=names)
    return faults
