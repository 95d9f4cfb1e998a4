"""Why a source is refused: at which places, by which rule, and what mends it; and its further faults."""
from typing import Callable, Dict, List, Optional, Tuple

from reference.faults import faults_of
from reference.tokens import Fault, Pos

from . import mismatches
from .near import near_help, told_near
from .notes import Note, Place
from .pages import Pages, Part, help_in
from .slips import ENDS, character_slip, described, here_of, nearly, slip_of
from .sources import Source

MOST_FURTHER = 10
OF_TOKENS = ('E4', 'E5', 'E6')
CYCLES = ('E15', 'E16', 'E17', 'E18')
Told = Tuple[str, List[Place], List[str], List[str]]
WORDS_OF_OTHERS = {'a least or a greatest': ('min', 'max', 'minimum', 'maximum', 'abs'), 'a rounding': ('round', 'floor', 'ceil', 'ceiling', 'int'),
                   'a count': ('count', 'len', 'length', 'size'), 'a day that passes': ('today', 'now', 'current_date'),
                   'a word of another language': ('yes', 'no', 'true', 'false', 'null', 'none', 'filter', 'some', 'each')}


def rows(part: Part, *keys: str) -> List[str]:
    said = [help_in(part, key) for key in keys if key]
    return [sentence for sentence in said if sentence]


def named(names: List[str]) -> str:
    return ', '.join('`%s`' % name for name in names)


class Refusal:
    """A fault of a source, with what explains it."""

    def __init__(self, source: Source, pages: Pages, fault: Fault, pos: Pos):
        self.source, self.fault, self.pos, self.told = source, fault, pos, fault.told
        self.part = pages.of_code(fault[0])

    def note(self, kind: str) -> Note:
        code, _, name = self.part.title.partition(' ')
        label, places, says, helps = EXPLAINED.get(code, Refusal.plain)(self)
        own = self.source.place(self.pos, self.end(), label)
        return Note(kind, code, name, [own, *places], [self.part.sentence, *says], helps or [self.part.mend])

    def end(self) -> Optional[Pos]:
        """Where what is meant ends: an expression that hasn't the type that is asked for, or else the token."""
        nodes = self.told.get('nodes', [])
        return nodes[0].end if len(nodes) == 1 and nodes[0].pos == self.pos else None

    # ---- what is told of each code: a label, further places, sentences, and what mends it

    def plain(self) -> Told:
        return '', [], [], []

    def no_token(self) -> Told:
        return '', [], [], rows(self.part, character_slip(self.told.get('text', '')))

    def unexpected(self) -> Told:
        if 'front' not in self.told:
            return '', [], [], []
        here = here_of(self.told['front'], self.source.behind(self.fault[1]), self.source.tokens)
        may_stand = ['here may stand: %s' % ', '.join(described(here.words))] if here.words else []
        last = here.front[-1] if here.front else None
        behind = [self.source.place(last.pos, label='behind this')] if last and here.kind in ENDS and last.end.line != self.pos.line else []
        return '', behind, may_stand, told_near(nearly(here)) + rows(self.part, slip_of(here))

    def name_twice(self) -> Told:
        first = self.told.get('first')
        return '', [self.source.place(first, label='the first one')] if first else [], [], []

    def name_unknown(self) -> Told:
        text = self.told.get('text', '')
        if len(self.told.get('enumerations', [])) > 1:
            return 'a case of ' + named(self.told['enumerations']), [], [], rows(self.part, 'a case of several enumerations')
        others = [scope.name.text for scope in self.told['names'].scopes if text in [v.name.text for v in scope.variables]] \
            if 'names' in self.told else []
        row = next((row for row, words in WORDS_OF_OTHERS.items() if text.lower() in words), '')
        row = row or 'a type or a scope as a value' * (text in self.declared())
        helps = near_help(text, self.told.get('among', [])) + rows(self.part, row)
        if others and not helps:
            return 'a variable of ' + named(others), [], [], rows(self.part, 'a variable of another scope')
        return '', [], [], helps + ([] if row else [self.part.mend])

    def declared(self) -> List[str]:
        """The names of the types and the scopes of the source."""
        names = self.told.get('names')
        return [*names.types, *names.scope_numbers] if names else []

    def is_compared(self) -> bool:
        """Whether a sign that compares stands in front."""
        at = self.source.numbers.get(self.pos, 0)
        return at > 0 and self.source.tokens[at - 1].kind in ('=', '!=')

    def mismatch(self) -> Told:
        if self.told.get('why') == 'a case without its content' and self.is_compared():
            return self.told['why'], [], [], rows(self.part, 'an enumeration that is compared')
        label = mismatches.label(self.told, self.told['declared']) if 'declared' in self.told else ''
        sides = [self.source.place(node.pos, node.end) for node in self.told.get('nodes', []) if node.pos != self.pos]
        return label or self.told.get('why') or '', sides, [], mismatches.helps(self.part, self.told)

    def match_cases(self) -> Told:
        lacks, twice = self.told.get('lacks', []), self.told.get('twice', [])
        says = ['without an arm: ' + named(lacks)] * bool(lacks) + ['twice: ' + named(twice)] * bool(twice)
        return '', [], says, []

    def cycle(self) -> Told:
        names = self.told.get('cycle', [])
        says = ', which needs '.join('`%s`' % name for name in [*names, *names[:1]]).replace(', which needs', ' needs', 1)
        return '', [], [says] if names else [], []

    def label_unknown(self) -> Told:
        among = self.told.get('among', [])
        says = ['labels of this variable: ' + named(among)] if among else []
        return '', [], says, near_help(self.told.get('text', ''), among) + [self.part.mend]

    def ambiguous(self) -> Told:
        bases = [self.source.place(pos, label='may give way') for pos in self.told.get('bases', [])]
        row = 'several groups that give way' if bases else 'no definition that gives way'
        return '', bases, [], rows(self.part, row) if 'bases' in self.told else []

    def misplaced(self) -> Told:
        return self.told.get('why', ''), [], [], rows(self.part, self.told.get('why', ''))


EXPLAINED: Dict[str, Callable[[Refusal], Told]] = {
    'E4': Refusal.no_token, 'E6': Refusal.unexpected, 'E8': Refusal.name_twice, 'E9': Refusal.name_unknown,
    'E10': Refusal.mismatch, 'E11': Refusal.match_cases, 'E12': Refusal.label_unknown, 'E13': Refusal.name_twice,
    'E14': Refusal.ambiguous, 'E16': Refusal.cycle, 'E17': Refusal.cycle, 'E18': Refusal.cycle, 'E19': Refusal.misplaced}


def notes_of(source: Source, pages: Pages, code: str, place: Place) -> List[Note]:
    """The refusal that the reply tells, and up to ten further faults that don't hang on it."""
    pos = source.pos(place)
    if pos is None:
        part = pages.of_code(code)
        return [Note('reply', code, part.title.partition(' ')[2], [place], [part.sentence], [part.mend])]
    faults = faults_of(source.pieces) if source.is_whole else []
    own = next((fault for fault in faults if fault[0] == code and fault[1] in (pos, None)), Fault(code, pos))
    further = [fault for fault in faults if fault is not own and fault[1] not in (pos, None)]
    notes = [Refusal(source, pages, own, pos).note('reply')]
    return notes + [Refusal(source, pages, fault, fault[1]).note('further') for fault in apart(further, own, pos)[:MOST_FURTHER]]


def apart(faults: List[Fault], own: Fault, pos: Pos) -> List[Fault]:
    """Without those that one in front may have caused: of tokens and of the grammar, the first one of each line is told, types only where
    the line has none of these, and of cycles the first one."""
    broken = {at[:2] for code, at in [(own[0], pos), *faults] if code in OF_TOKENS}
    lines, left = {pos[:2]}, []
    for fault in faults:
        line = fault[1][:2]
        hangs = line in lines if fault[0] in OF_TOKENS else line in broken and fault[0] == 'E10'
        if fault[0] not in CYCLES and not hangs:
            left.append(fault)
        lines.add(line)
    return left
