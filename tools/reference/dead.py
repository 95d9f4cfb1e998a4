"""What `dead` writes: of each definition an input on which it decides, or why there is none; and the check of a certificate that some
never decide."""
import oracle_json as forms

from .certificate import Reader, Refused
from .report import Region, Scoped
from .tables import leaves
from .trace import deciders_of

FINE, NEVER, UNSETTLED, REFUSED = 0, 6, 7, 8


class Report:
    """The lines of one scope, and the trees that they come of."""

    def __init__(self, program, number, budget):
        self.program, self.number, self.budget = program, number, budget
        self.scoped = Scoped(program, number, budget)
        self.definitions = self.scoped.scope.definitions

    def targets(self):
        """Each target with its tree, its leaves, and whether they were spent."""
        for target in self.scoped.table.targets:
            tree, _, is_spent = self.scoped.search(target)
            yield target, tree, [leaf for leaf in leaves(self.scoped, target, tree) if leaf.result], is_spent

    def derived(self, leaf):
        """The derived terms that a leaf constrains, by number."""
        return sorted(term for term in leaf.region.asked if self.scoped.table.terms[term].path is None)

    def tried(self, target, number, leaf):
        """The input of a leaf, the reply to it, and whether the definition decides there."""
        text = self.scoped.input(leaf.region)
        deciders, reply = deciders_of(self.program, self.number, forms.parsed(text.encode()))
        return text, reply, (self.number, target.number, number) in deciders

    def said(self, target, number, won, is_spent):
        """What is said of a definition that wins these leaves."""
        if not won:
            return 'Undecided budget %d' % self.budget if is_spent else 'never decides'
        first, by_rank = None, sorted(won, key=lambda leaf: bool(self.derived(leaf)))
        for leaf in by_rank[:1] if target.function else by_rank:
            text, reply, decides = self.tried(target, number, leaf)
            if decides:
                return 'decides with %s' % text
            first = first or (leaf, text, reply)
        return self.undecided(target, *first)

    def undecided(self, target, leaf, text, reply):
        derived = self.derived(leaf)
        if not target.function and not derived:
            return 'Masked with %s giving %s' % (text, reply)
        item = self.scoped.scope.items[target.number[0]]
        at = item.pos if target.function else self.scoped.table.terms[derived[0]].expr[1]
        return 'Undecided derived at %s with %s giving %s' % (self.program.at(at), text, reply)

    def line(self, target, number, said):
        return '%s at %s: %s' % (target.name, self.program.at(self.definitions[number].pos), said)


def nodes(tree):
    """The lines of a tree without citations."""
    return [tree] if isinstance(tree, str) else ['split %d' % tree[0], *nodes(tree[1]), *nodes(tree[2])]


def dead(program, scope, budget=100_000):
    """The report of a scope that is there, and its status."""
    report = Report(program, program.runs.numbers[scope], budget)
    said, lines, certificate, are_whole = [], ['dead %s' % scope], ['catala-dead 1', 'scope %s' % scope], True
    for target, tree, found, is_spent in report.targets():
        for number in target.definitions:
            said.append(report.said(target, number, [leaf for leaf in found if leaf.result == ('held', number)], is_spent))
            lines.append(report.line(target, number, said[-1]))
        certificate += ['var %s' % target.name, *nodes(tree)]
        are_whole = are_whole and not is_spent
    status = NEVER if 'never decides' in said else UNSETTLED if any(not s.startswith('decides') for s in said) else FINE
    return '\n'.join(lines + (certificate + ['end'] if are_whole else [])), status


def winners(scoped, target, tree):
    """The definitions that win a leaf; refused at a leaf that is open."""
    found, regions = set(), [Region(scoped.program.types, scoped.table.terms)]
    for word, atom, line in tree:
        here = regions.pop()
        if word == 'split':
            regions += [here.answering(scoped.table.atoms[atom], yes) for yes in (False, True)]
        elif not any(map(here.none, here.left)):
            how, definition = scoped.judged(target, here)
            if how == 'needs':
                raise Refused('C3 at line %d' % line)
            found |= {definition} if how == 'held' else set()
    return found


def read(scoped, data):
    """Each target with the nodes of its tree."""
    reader, trees = Reader(data, b'catala-dead'), []
    reader.refuse_unless(reader.line() == 'catala-dead 1', 'C1')
    reader.name('scope', scoped.scope.name)
    for target in scoped.table.targets:
        reader.name('var', target.name)
        atoms = set().union(*map(scoped.table.atoms_in, target.definitions.values()))
        trees.append((target, reader.tree(atoms, [])[0]))
    reader.end()
    return trees


def dead_checked(program, scope, data):
    """The reply to a certificate, of a scope that is there, and its status."""
    report = Report(program, program.runs.numbers[scope], 0)
    lines = []
    try:
        for target, tree in read(report.scoped, data):
            won = winners(report.scoped, target, tree)
            lines += [report.line(target, number, 'never decides') for number in target.definitions if number not in won]
    except Refused as refused:
        return 'certificate refused %s' % refused, REFUSED
    return '\n'.join(lines + ['Yes']), FINE
