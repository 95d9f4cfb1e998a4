"""Which lists of tokens a grammar spells that is written in rows, as docs/REFERENCE.md has one."""
import re

WORD = re.compile(r'"[^"]*"|\w+|[\[\]{}()|]')


class Rows:
    """A grammar: each row a name and what it spells, in words in quotes, kinds of tokens, names of rows and the usual brackets."""

    def __init__(self, text):
        self.rows, self.known = {}, {}
        for row in re.split(r'\n(?=\w)', text.strip()):
            name, _, spelled = row.partition('=')
            self.words, self.at = WORD.findall(spelled), 0
            self.rows[name.strip()] = self.choice()

    # ---- reading a row

    def choice(self):
        ways = [self.sequence()]
        while self.words[self.at:self.at + 1] == ['|']:
            self.at += 1
            ways.append(self.sequence())
        return ('choice', ways) if len(ways) > 1 else ways[0]

    def sequence(self):
        parts = []
        while self.words[self.at:self.at + 1] and self.words[self.at] not in ('|', ']', '}', ')'):
            word = self.words[self.at]
            self.at += 1
            if word in ('[', '{', '('):
                part = self.choice()
                self.at += 1
                parts.append({'[': ('choice', [part, ('sequence', [])]), '{': ('several', part), '(': part}[word])
            else:
                parts.append(('token', word.strip('"')) if word.startswith('"') else ('row', word))
        return ('sequence', parts)

    # ---- spelling

    def spells(self, kinds, row):
        """Whether a row spells all of these kinds of tokens."""
        self.kinds, self.known = kinds, {}
        return len(kinds) in self.ends(('row', row), 0)

    def ends(self, part, at):
        """Where a part may end that begins there."""
        form, of = part
        if form == 'token' or form == 'row' and of not in self.rows:
            return {at + 1} if self.kinds[at:at + 1] == [of] else set()
        if form == 'row':
            if (of, at) not in self.known:
                self.known[of, at] = self.ends(self.rows[of], at)
            return self.known[of, at]
        if form == 'choice':
            return set().union(*(self.ends(way, at) for way in of))
        if form == 'sequence':
            reached = {at}
            for one in of:
                reached = set().union(*(self.ends(one, end) for end in reached))
            return reached
        reached, new = {at}, {at}
        while new:
            new = set().union(*(self.ends(of, end) for end in new)) - reached
            reached |= new
        return reached
