"""Why an input is refused: the part of it that is meant, with its line, and the form that its type has in JSON."""
import json, re
from typing import Dict, List, NamedTuple, Optional, Tuple

import oracle_json as forms
from reference.answers import Given

from .mismatches import kind_of, type_text
from .near import near_help
from .notes import Note, Place
from .pages import Pages, help_in

MOST_FURTHER = 10


class Span(NamedTuple):
    """From where to where a value stands in a text, in characters, and the key in front of it."""
    start: int
    end: int
    key: Optional[Tuple[int, int]]


class Spans:
    """Where each part of a JSON text stands, by the steps that lead to it; of equal keys the last one counts."""

    def __init__(self, text: str):
        self.text = text
        self.by_path: Dict[tuple, Span] = {}
        self.value(forms.blanks(text, 0), (), None)

    def value(self, at: int, path: tuple, key: Optional[Tuple[int, int]]) -> int:
        """The end of the value that begins there."""
        opened = self.text[at:at + 1]
        if opened in ('{', '['):
            end = self.members(at, path, opened == '{')
        else:
            _, end = forms.part(self.text, at, 0)
        self.by_path[path] = Span(at, end, key)
        return end

    def members(self, at: int, path: tuple, has_keys: bool) -> int:
        at, number = forms.blanks(self.text, at + 1), 0
        while self.text[at] not in '}]':
            step, key = number, None
            if has_keys:
                found = forms.STRING.match(self.text, at)
                step, key = forms.string(found), found.span()
                at = forms.blanks(self.text, forms.blanks(self.text, found.end()) + 1)
            at = forms.blanks(self.text, self.value(at, path + (step,), key))
            at, number = forms.blanks(self.text, at + (self.text[at] == ',')), number + 1
        return at + 1


class Input:
    """An input that was refused, of a scope with these items."""

    def __init__(self, name: str, data: bytes, types, items):
        self.name, self.text, self.types, self.items = name, data.decode('utf-8', 'surrogateescape'), types, items

    def place(self, start: int, end: int, label: str = '') -> Place:
        """A piece of the text, up to the end of its line."""
        front = self.text[:start].split('\n')
        piece = self.text[start:end].split('\n')[0]
        column = len(front[-1].encode('utf-8', 'surrogateescape')) + 1
        return Place(self.name, len(front), column, column + max(1, len(piece.encode('utf-8', 'surrogateescape'))), label)

    # ---- what is declared of a part

    def fields(self, t) -> Dict[str, object]:
        """What may stand in the braces of a value."""
        if t is None:
            return {i.name: i.type for i in self.items if i.kind.split()[0] in ('input', 'context')}
        if t == 'duration':
            return {'days': 'integer', 'months': 'integer'}
        if isinstance(t, tuple) and t[0] == 'structure':
            return dict(self.types.structures[t[1]].parts)
        return dict(self.types.enumerations[t[1]].parts) if isinstance(t, tuple) and t[0] == 'enumeration' else {}

    def type_at(self, steps: tuple):
        """The type of a part; nothing of the whole input, and where none is declared."""
        t = None
        for step in steps:
            t = t[1] if isinstance(step, int) and kind_of(t) == 'list' else self.fields(t).get(step)
        return t


def not_json(given: Input) -> List[Place]:
    """Where a text is no JSON any more."""
    try:
        json.loads(given.text)
    except json.JSONDecodeError as error:
        return [given.place(error.pos, error.pos + 1, 'no JSON from here on')]
    except (ValueError, RecursionError):
        pass
    return []


def missing(given: Input, steps: tuple, spans: Spans) -> Tuple[Place, List[str], List[str]]:
    """The braces in which a key is missing."""
    t, around = given.type_at(steps), spans.by_path[steps[:-1]]
    label = '`%s` is missing, of type %s' % (steps[-1], type_text(t, given.types))
    keys = [path[-1] for path in spans.by_path if path[:-1] == steps[:-1] and len(path) == len(steps)]
    unknown = [key for key in keys if isinstance(key, str) and key not in given.fields(given.type_at(steps[:-1]))]
    return given.place(around.start, around.start + 1, label), near_help(steps[-1], unknown), [kind_of(t)]


def extra(given: Input, steps: tuple, spans: Spans) -> Tuple[Place, List[str], List[str]]:
    known = given.fields(given.type_at(steps[:-1]))
    return given.place(*spans.by_path[steps].key, 'names nothing'), near_help(steps[-1], known), []


def wrong(given: Input, steps: tuple, spans: Spans) -> Tuple[Place, List[str], List[str]]:
    """A value that hasn't the form or the size of its type."""
    t, span = given.type_at(steps), spans.by_path[steps]
    label = 'of type %s' % type_text(t, given.types) if steps else 'the inputs by their names, in braces'
    written = given.text[span.start:span.end].strip('"{ \n')
    cases = given.fields(t) if kind_of(t) == 'enumeration' else {}
    helps = near_help(re.split(r'["\s:]', written)[0], cases) if cases else []
    helps += ['cases of %s: %s' % (type_text(t, given.types), ', '.join('`%s`' % case for case in cases))] if cases else []
    return given.place(span.start, span.end, label), helps, [kind_of(t)] if steps else []


EXPLAINED = {'I2': missing, 'I3': extra, 'I4': wrong, 'I5': wrong}


def faults_of(given: Input) -> List[Tuple[str, tuple]]:
    """The first fault of each input by itself, and the keys that name none: codes, and the steps to what is meant."""
    json, reader, faults = forms.parsed(given.text.encode('utf-8', 'surrogateescape')), Given(given.types), []
    if not isinstance(json, dict):
        return [('I4', ())]
    for item in given.items:
        if item.kind.startswith('input') or item.kind.startswith('context') and item.name in json:
            try:
                reader.member(json, item.name, item.type, [])
            except forms.Refused as refused:
                faults.append((refused.args[0], tuple(refused.args[1])))
    return faults + [('I3', (key,)) for key in json if key not in given.fields(None)]


def note_of(given: Input, pages: Pages, kind: str, code: str, steps: tuple) -> Note:
    """What is told of a refused part."""
    part = pages.of_code(code)
    place, helps, kinds = EXPLAINED[code](given, steps, Spans(given.text))
    form = [said for kind in kinds for said in [help_in(pages.of_code('I4'), kind)] if said and code != 'I5']
    written = ['written in JSON: ' + said for said in form]
    helps += written + ([] if code == 'I4' and written else [part.mend])
    return Note(kind, code, part.title.partition(' ')[2], [place], [part.sentence], helps)


def no_array(given: Input, pages: Pages, code: str) -> Note:
    """Inputs of many runs that are no array."""
    part, span = pages.of_code(code), Spans(given.text).by_path[()]
    place = given.place(span.start, span.end, 'the inputs one behind the other, in brackets')
    return Note('reply', code, part.title.partition(' ')[2], [place], [part.sentence], ['written in JSON: `[{..}, {..}]`'])


def notes_of(given: Input, pages: Pages, code: str, path: str) -> List[Note]:
    """The refusal of an input that the reply tells, and further ones of other inputs."""
    part = pages.of_code(code)
    if code == 'I1':
        return [Note('reply', code, part.title.partition(' ')[2], not_json(given), [part.sentence], [part.mend])]
    faults = faults_of(given)
    own = next(fault for fault in faults if fault[0] == code and forms.path_text(list(fault[1])) == path)
    further = [fault for fault in faults if fault != own][:MOST_FURTHER]
    return [note_of(given, pages, 'reply', *own)] + [note_of(given, pages, 'further', *fault) for fault in further]
