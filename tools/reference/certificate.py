"""What `check` writes: whether the trees of a certificate cover each target, with no search and no run."""
import re

from .answers import Program
from .report import Region, Scoped, scopes_of, shared

MOST_LEAVES = 16_777_216
NODE = re.compile(r'(split|cite) (0|[1-9][0-9]*)|leaf')
NAMED = re.compile(r'name (0|[1-9][0-9]*)|tree')


class Refused(Exception):
    """Why a text is no certificate of the scope."""


class Reader:
    """The lines of a text from the first on that begins a certificate, taken one after another."""

    def __init__(self, data, word=b'catala-certificate'):
        *self.lines, self.rest = data.split(b'\n')
        begins = (n for n, line in enumerate(self.lines) if line.startswith(word))
        self.taken = next(begins, len(self.lines))

    def line(self):
        if self.taken == len(self.lines):
            raise Refused('C4')
        self.taken += 1
        try:
            return self.lines[self.taken - 1].decode()
        except UnicodeDecodeError:
            raise Refused('C1 at line %d' % self.taken) from None

    def refuse_unless(self, test, code):
        if not test:
            raise Refused('%s at line %d' % (code, self.taken))

    def name(self, word, wanted):
        line = self.line()
        self.refuse_unless(line.startswith(word + ' '), 'C1')
        self.refuse_unless(line == '%s %s' % (word, wanted), 'C2')

    def tree(self, atoms, named):
        """The nodes of a tree in preorder, each with its line, and how many leaves it has."""
        nodes, leaves, due = [], 0, 1
        while due:
            line = self.line()
            word, number = line.split(' ')[0], int(line.split(' ')[1]) if NODE.fullmatch(line) and ' ' in line else None
            self.refuse_unless(NODE.fullmatch(line), 'C1')
            self.refuse_unless(word != 'split' or number in atoms, 'C1')
            self.refuse_unless(word != 'cite' or number < len(named), 'C1')
            due += 1 if word == 'split' else -1
            leaves += 0 if word == 'split' else 1 if word == 'leaf' else named[number][1]
            self.refuse_unless(leaves <= MOST_LEAVES, 'C6')
            nodes.append((word, number, self.taken))
        return nodes, leaves

    def trees(self, atoms, version):
        """The named trees of a target and its own."""
        named = []
        while version == 2:
            line = self.line()
            self.refuse_unless(NAMED.fullmatch(line) and line in ('tree', 'name %d' % len(named)), 'C1')
            if line == 'tree':
                break
            named.append(self.tree(atoms, named))
        return named, self.tree(atoms, named)

    def end(self):
        self.refuse_unless(self.line() == 'end', 'C1')
        if self.taken < len(self.lines) or self.rest:
            raise Refused('C5 at line %d' % (self.taken + 1))


def uncovered(scoped, target, tree, named, region):
    """The lines of the leaves that aren't covered, in preorder."""
    regions = [region]
    for word, number, line in tree[0]:
        here = regions.pop()
        if word == 'split':
            regions += [here.answering(scoped.table.atoms[number], yes) for yes in (False, True)]
        elif word == 'cite':
            yield from uncovered(scoped, target, named[number], named, here)
        elif not any(map(here.none, here.left)):
            how = scoped.judged(target, here)[0]
            if how != 'held' and not (how == 'empty' and target.may_be_empty):
                yield line


def nested(nodes):
    """A tree without citations, as a split with its two sides, or a leaf."""
    word, number, _ = next(nodes)
    return (number, nested(nodes), nested(nodes)) if word == 'split' else word


def read(program, number, data):
    """The scopes of a certificate with the trees of each of their targets, and its version."""
    reader, scopes = Reader(data), []
    head = reader.line()
    reader.refuse_unless(head in ('catala-certificate 1', 'catala-certificate 2'), 'C1')
    for n in scopes_of(program, number):
        scoped = Scoped(program, n, 0)
        reader.name('scope', program.scopes[n].name)
        scopes.append((scoped, []))
        for target in scoped.table.targets:
            reader.name('var', target.name)
            atoms = set().union(*map(scoped.table.atoms_in, target.definitions.values()))
            scopes[-1][1].append((target, *reader.trees(atoms, int(head[-1]))))
    reader.end()
    return scopes, int(head[-1])


def check(files, main, scope, data):
    """The reply, of a source that is accepted and has the scope."""
    return checked(Program(files, main), scope, data)


def checked(program, scope, data):
    try:
        scopes, version = read(program, program.runs.numbers[scope], data)
        for scoped, targets in scopes:
            for target, named, tree in targets:
                for line in uncovered(scoped, target, tree, named, Region(program.types, scoped.table.terms)):
                    raise Refused('C3 at line %d' % line)
    except Refused as refused:
        return 'certificate refused %s' % refused
    if version == 2:
        return 'Yes'
    over = ['Yes', 'catala-certificate 2']
    for scoped, targets in scopes:
        over += ['scope %s' % scoped.scope.name]
        for target, _, tree in targets:
            over += ['var %s' % target.name, *shared(nested(iter(tree[0])))]
    return '\n'.join(over + ['end'])
