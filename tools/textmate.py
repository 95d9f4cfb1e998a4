"""Colours lines by TextMate grammars, as editors do: the pieces of each line, each with the innermost name that it gets.

It knows what the grammars of editors/vscode use: `match` with `captures`, `begin` and `end` with theirs, `contentName`, and
`include` of a part of the same grammar or of another whole one."""
import json, re, unicodedata
from typing import NamedTuple

# What an editor's \w takes: what Python's takes, and the marks that stand on or behind a letter.
WORD = r'[\w%s]' % ''.join(mark for mark in map(chr, range(0x300, 0x20000)) if unicodedata.category(mark) in ('Mn', 'Mc'))


def compiled(written):
    r"""A pattern as an editor reads it. In a class of characters it has no \w."""
    return re.compile(written.replace(r'\w', WORD))


class Piece(NamedTuple):
    line: int
    start: int
    end: int
    name: str


class Rule:
    """A rule of a grammar with its patterns compiled, and the grammar whose parts it includes."""

    def __init__(self, written, grammar):
        self.grammar, self.inside = grammar, written.get('patterns', [])
        self.name, self.content = written.get('name'), written.get('contentName') or written.get('name')
        self.begins = 'begin' in written
        self.pattern = compiled(written['begin' if self.begins else 'match'])
        self.captures = written.get('beginCaptures' if self.begins else 'captures', {})
        self.end = compiled(written['end']) if self.begins else None
        self.end_captures = written.get('endCaptures', {})


class Grammars:
    """Some grammars by their names, of which one colours a text."""

    def __init__(self, files, first):
        read = [json.loads(file.read_text()) for file in files]
        self.written = {grammar['scopeName']: grammar for grammar in read}
        self.first, self.rules = first, {}

    def patterns(self, patterns, grammar):
        """The rules that a list of patterns comes to, in their order."""
        key = id(patterns)
        if key not in self.rules:
            self.rules[key] = [rule for pattern in patterns for rule in self.rules_of(pattern, grammar)]
        return self.rules[key]

    def rules_of(self, pattern, grammar):
        to = pattern.get('include')
        if to is None and 'match' not in pattern and 'begin' not in pattern:
            return self.patterns(pattern['patterns'], grammar)
        if to is None:
            return [Rule(pattern, grammar)]
        if to.startswith('#'):
            return self.rules_of(self.written[grammar]['repository'][to[1:]], grammar)
        return self.patterns(self.written[to]['patterns'], to)

    def pieces(self, lines):
        """The pieces of some lines that have a name."""
        open_rules, found = [], []
        for number, line in enumerate(lines):
            at = 0
            while at is not None:
                at = self.step(line, at, open_rules, number, found)
        return found

    def step(self, line, at, open_rules, number, found):
        """Adds the pieces of the next match in a line, and gives where to go on; nothing at its end."""
        inner = open_rules[-1] if open_rules else None
        listed = self.written[self.first]['patterns']
        rules = self.patterns(inner.inside if inner else listed, inner.grammar if inner else self.first)
        ends = [(inner.end.search(line, at), inner)] if inner else []
        matches = [(match, rule) for match, rule in ends + [(rule.pattern.search(line, at), rule) for rule in rules] if match]
        if not matches:
            return None
        match, rule = min(matches, key=lambda one: one[0].start())
        if rule is inner:
            open_rules.pop()
        elif rule.begins:
            open_rules.append(rule)
        captures = rule.end_captures if rule is inner else rule.captures
        named = [(match.span(int(group)), of['name']) for group, of in captures.items()]
        spans = named or [(match.span(), rule.name)]
        found += [Piece(number, *span, name) for span, name in sorted(spans) if span[0] < span[1] and name]
        return match.end()
