"""Listings as anyone may have made them: read line by line, up to the first line that isn't of a form due there."""
import functools
import re
from collections import namedtuple

from .machine import Pos

GREATEST = 4_294_967_295
ARGUMENTS = {0: 'bind content length iter collect leave enter return merge', 2: 'given call', 3: 'op',
             1: 'const slot local store drop jump jumpfalse pack list field tag tagnone iscase iterlist next scope pass begin hold check '
                'held take novalue assert'}
COUNTS = {name: count for count, names in ARGUMENTS.items() for name in names.split()}
WORD, NUMBER = '([^ ]+)', '(0|[1-9][0-9]{0,9})'
TYPE = '((?:list of )*[^ ]+)'
AT = ':'.join([NUMBER] * 3)
KIND = '(inputoutput|input|output|internal|contextoutput|context)'
PARAMS = '(?: of (%s(?:, %s)*))?' % (TYPE[1:-1], TYPE[1:-1])
FORMS = {'file': '(.*)', 'structure': WORD, 'field': '%s %s' % (WORD, TYPE), 'enumeration': WORD, 'case': '%s(?: %s)?' % (WORD, TYPE),
         'scope': '%s %s' % (WORD, NUMBER), 'item': '%s %s %s %s%s' % (WORD, KIND, AT, TYPE, PARAMS),
         'target': '%s %s' % (WORD, AT), 'definition': AT, 'function': NUMBER, 'position': AT, 'const': '%s (.*)' % TYPE}
CALLED = re.compile('%s (called) %s %s' % (WORD, AT, WORD), re.S)
FORMS = {word: re.compile(form, re.S) for word, form in FORMS.items()}
INSTRUCTION = re.compile('%s ([a-z]+)((?: %s)*)' % (NUMBER, NUMBER))
NUMBERED = {'scope': (1,), 'item': (2, 3, 4), 'target': (1, 2, 3), 'definition': (0, 1, 2), 'function': (0,), 'position': (0, 1, 2)}
ORDER = ['file', 'structure', 'enumeration', 'scope', 'target', 'definition', 'function', 'position', 'const', 'instruction']
INSIDE = {'field': 'structure', 'case': 'enumeration', 'item': 'scope'}

Line = namedtuple('Line', 'number words parts')  # number of the line; parts: the lines inside that of a structure, enumeration or scope


class Refused(Exception):
    """Why a listing is refused: a code, and the places of which one is told."""


def position(texts):
    return Pos(*map(int, texts))


class Image:
    """The lines of a listing by their kind, with their words as text, and the instructions."""

    def __init__(self, data):
        self.tables, self.code, self.section = {word: [] for word in ORDER[:-1]}, [], 'file'
        *lines, rest = data.split(b'\n')
        for number, line in enumerate(lines, 1):
            if not self.takes(number, line):
                raise Refused('L1', {number})
        if rest or not self.code:
            raise Refused('L2', set())

    def takes(self, number, line):
        """Takes a line; whether it is of a form that is due."""
        try:
            text = line.decode()
        except UnicodeDecodeError:
            return False
        if number == 1:
            return text == 'catala-code 1'
        word, _, rest = text.partition(' ')
        if word in INSIDE:
            return self.section == INSIDE[word] and self.takes_words(number, word, rest, self.last_parts())
        if word in FORMS:
            return self.goes_on(word) and text != word and self.takes_words(number, word, rest, self.tables[word])
        return self.goes_on('instruction') and self.takes_instruction(text)

    def last_parts(self):
        of = self.tables[self.section]
        return of[-1].parts if of else None

    def goes_on(self, section):
        """Whether this section is due: the present one or a later one."""
        is_due = ORDER.index(section) >= ORDER.index(self.section)
        self.section = section if is_due else self.section
        return is_due

    def takes_words(self, number, word, rest, into):
        words = words_of(word, rest)
        if words is None or into is None:
            return False
        into.append(Line(number, words, []))
        return True

    def takes_instruction(self, text):
        number, instruction = instruction_of(text)
        if number != len(self.code):
            return False
        self.code.append(instruction)
        return True


@functools.lru_cache(100_000)
def words_of(word, rest):
    """The words of a line in front of the instructions; None where it isn't of its form."""
    found = FORMS[word].fullmatch(rest) or word == 'item' and CALLED.fullmatch(rest)
    if not found or any(int(found.groups()[n]) > GREATEST for n in NUMBERED.get(word, ())):
        return None
    return found.groups()


@functools.lru_cache(100_000)
def instruction_of(text):
    """The number of an instruction, and the instruction; None twice where a line isn't of that form."""
    found = INSTRUCTION.fullmatch(text)
    numbers = [int(n) for n in found[3].split()] if found else []
    if not found or COUNTS.get(found[2]) != len(numbers) or any(n > GREATEST for n in numbers):
        return None, None
    return int(found[1]), (found[2], *numbers)
