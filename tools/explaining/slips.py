"""Slips of tokens and of the grammar: which row of the page tells of what stands where a source breaks off."""
from typing import Callable, Dict, FrozenSet, List, NamedTuple, Tuple

from reference.faults import ITEMS, USES, words_behind
from reference.tokens import KEYWORDS, Token

from .near import near

TYPES = ('boolean', 'integer', 'decimal', 'money', 'date', 'duration', 'list of')
ENDS = (*USES, 'declaration', 'scope', '')
AROUND = ('consequence', 'equals', 'then', 'else', 'fulfilled', 'with', 'among', 'of', 'and', 'or', 'xor', 'anything')
ALMOST = 0.8
OPENED = {')': '(', ']': '[', '}': '{'}
UNITS = ('year', 'month', 'day')
ELSES = ('elif', 'elsif', 'elseif', 'elsewise', 'otherwise')
COMPARED = ('<', '<=', '>', '>=', '=', '!=')
PLURALS = ('years', 'months', 'days', 'weeks', 'week')
CURRENCIES = ('euro', 'euros', 'eur', 'dollar', 'dollars', 'usd', 'pound', 'pounds', 'gbp', 'francs', 'cents')
SIGNS = ('equal', 'equals', 'plus', 'minus', 'times', 'mod', 'percent', 'divided', 'greater', 'less', 'below', 'above')
LISTS = ('list', 'array', 'set', 'lists')
CONDITIONS = ('if', 'under condition', 'when', 'where', 'unless', 'provided', 'then')
BY_CHARACTER = {'a quotation mark': '"\'“”„«»‘’', 'a bar': '|', 'the sign of a currency': '€£¥¢₣', '`$`': '$', '`%`': '%', '`&`': '&',
                '`!`': '!', '`^`': '^', '`≤`, `≥` or `≠`': '≤≥≠', 'a sign of printing': '–—−×÷·', '`_`': '_', 'a backquote': '`'}


class Here(NamedTuple):
    """Where a source breaks off: the tokens in front that count, those from there on, the kinds that may stand there, and all names with
    capitals, in small letters."""
    front: List[Token]
    behind: List[Token]
    words: FrozenSet[str]
    capitals: FrozenSet[str]

    @property
    def kind(self) -> str:
        return self.behind[0].kind if self.behind else ''

    @property
    def last(self) -> str:
        return self.front[-1].kind if self.front else ''

    @property
    def following(self) -> str:
        return self.behind[1].kind if len(self.behind) > 1 else ''

    @property
    def spelled(self) -> str:
        return spelling(self.behind[0]).lower() if self.behind else ''

    def signs(self) -> str:
        """The sign in front of it and the two from there on."""
        return ''.join(kind if kind in ('/', '*') else ' ' for kind in (self.last, self.kind, self.following))

    def may(self, *kinds: str) -> bool:
        return any(kind in self.words for kind in kinds)

    def has(self, *kinds: str) -> bool:
        return any(token.kind in kinds for token in self.front)

    def begins(self, *kinds: str) -> bool:
        return tuple(token.kind for token in self.front[:len(kinds)]) == kinds

    def follows(self, kind: str) -> bool:
        """Whether a token of this kind stands in what is left of the definition."""
        for token in self.behind[1:]:
            if token.kind in ENDS:
                return False
            if token.kind == kind:
                return True
        return False

    def within(self) -> str:
        """The innermost parenthesis or bracket that is open."""
        opened = []
        for token in self.front:
            if token.kind in OPENED.values():
                opened.append(token.kind)
            elif token.kind in OPENED and opened:
                opened.pop()
        return opened[-1] if opened else ''

    def compares_again(self) -> bool:
        """Whether a sign that compares stands behind a comparison."""
        return self.kind in COMPARED and self.may('+') and not self.may(self.kind)

    def is_keyword(self) -> bool:
        """Whether a keyword stands where a name is due."""
        in_expression = self.may('INT')
        return self.kind in KEYWORDS and self.may('w') and not (in_expression and self.kind in (*ENDS, *AROUND))


def spelling(token: Token) -> str:
    return token.value if token.kind in ('w', 'U') else token.kind


SLIPS: List[Tuple[str, Callable[[Here], bool]]] = [
    ('`==`', lambda h: (h.last, h.kind) == ('=', '=')),
    ('`<>`, `=>` or `=<`', lambda h: (h.last, h.kind) in (('<', '>'), ('=', '>'), ('=', '<'))),
    ('`//`, `/*` or `--`', lambda h: '//' in h.signs() or '/*' in h.signs() or h.kind == '--' and h.may('declaration')),
    ('`**`', lambda h: (h.last, h.kind) == ('*', '*')),
    ('a unit with a plural', lambda h: h.last == 'INT' and h.spelled in PLURALS),
    ('a word behind an amount', lambda h: h.spelled in CURRENCIES),
    ('a comma in a list', lambda h: h.kind == ',' and h.within() == '['),
    ('a comma between two fields', lambda h: h.within() == '{' and (h.kind == ',' or h.may('--') and h.kind == 'w')),
    ('a comma in a number', lambda h: h.kind == ',' and h.last in ('INT', 'DEC', 'MONEY')),
    ('a point at the thousands of an amount', lambda h: h.last == 'MONEY' and h.kind == 'INT' and h.front[-1].end == h.behind[0].pos),
    ('`;` behind a definition', lambda h: h.kind == ';'),
    ('a label behind `exception`', lambda h: h.kind == 'label' and h.has('exception')),
    ('`condition` behind `content`', lambda h: (h.last, h.kind) == ('content', 'condition')),
    ('a list\'s type', lambda h: h.begins('declaration') and (h.spelled in LISTS or h.front[-1].value in LISTS)),
    ('a scope, type or case without a capital', lambda h: h.kind == 'w' and h.may('U') and h.spelled in h.capitals),
    ('a sum without its type', lambda h: h.last == 'sum' and not (h.kind == 'w' and h.following == 'of')),
    ('a type of another language', lambda h: h.last in ('content', 'list of', 'sum') and h.kind == 'w'),
    ('a variable without `content`', lambda h: h.may('content') and h.kind in (*TYPES, 'U', ':')),
    ('an item without its kind', lambda h: h.begins('declaration', 'scope') and (h.words == {'scope'} or h.kind == 'data' and not h.may(':'))),
    ('an item outside of a declaration', lambda h: h.kind in ITEMS and not h.begins('declaration')),
    ('a definition in a declaration', lambda h: h.kind in USES and h.begins('declaration')),
    ('a value in a declaration', lambda h: h.kind in ('equals', '=') and h.begins('declaration')),
    ('a field without `data`', lambda h: h.may('data') and h.begins('declaration', 'structure')),
    ('a case without `--`', lambda h: h.may('--') and h.begins('declaration', 'enumeration')),
    ('a declaration without its kind', lambda h: h.last == 'declaration'),
    ('a line without its colon', lambda h: h.may(':') and not h.has('match') and h.within() != '{'),
    ('a scope, type or case without a capital', lambda h: h.kind == 'w' and h.may('U') and not h.may('w')),
    ('a variable with a capital', lambda h: h.kind == 'U' and h.may('w') and not h.may('U')),
    ('a part of a date', lambda h: h.kind in UNITS and (h.last == '.' or h.may('INT') and h.following == 'of')),
    ('a keyword as a name', lambda h: h.is_keyword() or h.words == {'of'} and h.last in KEYWORDS),
    ('a number that begins with its point', lambda h: h.kind == '.' and h.may('INT')),
    ('a function\'s name in front of parentheses', lambda h: (h.last, h.kind) == ('w', '(')),
    ('a type or a scope in front of parentheses', lambda h: (h.last, h.kind) == ('U', '(')),
    ('a scope call without its braces or its output', lambda h: h.has('output of') and h.words in ({'.'}, {'{'}, {'with'})),
    ('a number behind a list', lambda h: (h.last, h.kind) == ('w', '[')),
    ('a call in a call', lambda h: (h.last, h.kind) == ('w', 'of') and h.has('of')),
    ('a list\'s form without `among`', lambda h: h.may('among')),
    ('a list\'s form without its second word', lambda h: h.may('we have', 'such that', 'to')),
    ('a field without its colon', lambda h: h.within() == '{' and h.may(':')),
    ('a content without `of`', lambda h: h.has('with pattern') and h.may('of') and h.may(':') and (h.kind, h.following) == ('w', ':')),
    ('an arm without its colon', lambda h: h.has('with pattern') and h.may(':')),
    ('an arm without its `--`', lambda h: h.last == 'with pattern' and h.has('match') and h.kind in ('U', 'w')),
    ('a match without `with pattern`', lambda h: h.has('match') and not h.has('with pattern') and h.kind in ('with', 'of', '--', 'in', 'U')),
    ('`=` where a value begins', lambda h: h.kind == '=' and h.may('equals')),
    ('`equals` in a condition', lambda h: h.kind == 'equals' and h.may('consequence') and h.follows('consequence')),
    ('`equals` without `consequence`', lambda h: h.kind == 'equals' and h.may('consequence')),
    ('a comparison that is compared', Here.compares_again),
    ('`in`', lambda h: h.kind == 'in' and h.may('*')),
    ('`is`', lambda h: h.spelled == 'is' and h.may('*')),
    ('a test that names a content', lambda h: (h.last, h.kind) == ('U', 'of') and h.has('with pattern')),
    ('a word for a sign', lambda h: h.spelled in SIGNS and h.may('*')),
    ('`elif`', lambda h: h.spelled in ELSES and h.may('else')),
    ('an `if` without `then`', lambda h: h.may('then') and not h.follows('then')),
    ('an `if` without `else`', lambda h: h.may('else') and h.kind != 'else' and not h.follows('else')),
    ('`fulfilled` in a definition', lambda h: h.kind == 'fulfilled' and h.may('equals', 'INT')),
    ('a value in a rule', lambda h: h.may('fulfilled')),
    ('a condition behind the value', lambda h: h.spelled in CONDITIONS and h.has('definition') and h.may('*', 'under condition', 'consequence')),
    ('a parenthesis that is not closed', lambda h: h.may(')') and h.within() == '(' and h.kind in (*ENDS, 'consequence', 'then', 'else')),
    ('a condition without its consequence', lambda h: h.may('consequence') and h.kind in (*ENDS, 'then')),
    ('a value without `equals`', lambda h: h.may('equals')),
    ('a definition without `definition`', lambda h: h.may('definition') and h.kind == 'w'),
    ('a definition without its value', lambda h: h.may('INT') and h.kind in ENDS),
    ('a word outside of blocks', lambda h: h.may('declaration') and not h.may('definition', '*')),
]


def slip_of(here: Here) -> str:
    """The row that tells of it; nothing where no row does."""
    return next((row for row, is_it in SLIPS if is_it(here)), '')


def nearly(here: Here) -> List[str]:
    """The words of the language that may stand there and are spelled almost as what stands there, up to three words of it."""
    words = [kind for kind in here.words if kind in KEYWORDS or ' ' in kind]
    texts = [' '.join(map(spelling, here.behind[:count])).replace('_', ' ') for count in (1, 2, 3)]
    found = [near(text, words, ALMOST) for text in texts[here.kind in KEYWORDS:]]
    return next((names for names in found if names), [])


def here_of(front: List[Token], behind: List[Token], tokens: List[Token]) -> Here:
    capitals = frozenset(token.value.lower() for token in tokens if token.kind == 'U')
    return Here(front, behind, frozenset(words_behind(front)), capitals)


def character_slip(text: str) -> str:
    """The row that tells of a character with which no token begins."""
    return next((row for row, characters in BY_CHARACTER.items() if text[:1] in characters), '')


# ---- the words that may stand there

OPERANDS = frozenset(('INT', 'DEC', 'MONEY', 'DATE', 'true', 'false', '(', '[', 'w', 'U', 'output of'))
FORMS = frozenset(('if', 'match', 'not', '-', 'sum', 'integer', 'decimal', 'money', 'round of', 'number of', 'get_year', 'get_month',
                   'get_day', 'for all', 'exists', 'map each', 'list of', 'combine all'))
OPERATORS = frozenset(('+', '-', '*', '/', '<', '<=', '>', '>=', '=', '!=', 'contains', 'with pattern'))
GROUPS: List[Tuple[str, FrozenSet[str], FrozenSet[str]]] = [  # What each has to have, and what it may have besides.
    ('an expression', OPERANDS, FORMS),
    ('an operator', frozenset(('and', 'or', 'xor', *COMPARED)), OPERATORS | {'.'}),
    ('an operator that does not compare', frozenset(('and', 'or', 'xor')), OPERATORS | {'.'}),
    ('a definition', frozenset(USES), frozenset()),
    ('a declaration or a block', frozenset(('declaration', 'scope')), frozenset()),
    ('an item', frozenset(ITEMS), frozenset(('w',))),
    ('a unit of time', frozenset(('year', 'month', 'day')), frozenset()),
    ('a type', frozenset(TYPES[:-1]), frozenset(('U', 'list of')))]
SINGLE: Dict[str, str] = {'w': 'a name', 'U': 'a name with a capital', 'INT': 'a number', 'DEC': 'a decimal', 'MONEY': 'an amount',
                          'DATE': 'a date', '.': ''}


def described(words: FrozenSet[str]) -> List[str]:
    """The kinds for a person, those of one group by its name."""
    told, left = [], set(words)
    for name, needed, besides in GROUPS:
        if needed <= left:
            left -= needed | besides
            told.append(name)
    singles = [SINGLE.get(kind, '`%s`' % kind) for kind in sorted(left)]
    return [name for name in singles if name] + told or ['`.`'] * ('.' in words)
