"""What `audit` writes: for each target the leaves of its tree, the line that they come to, and the certificate.

Which atom a region is split on, and so which leaves and inputs there are, is left open by the rules. Here it is the
middle one of the undecided atoms that ask the same term as the first one that the target hangs on, of two the first."""
import datetime
from fractions import Fraction

import oracle_json as forms

from .answers import Given, Program
from .audit import FIRST_DAY, GREATEST, Table

BILLION = 10**9
FARTHEST = 2 * GREATEST * BILLION + 1
VERDICTS = ('Found', 'Masked', 'Undecided')


def place(kind, constant):
    """Where a constant stands among the values of its kind: decimals by twice their number of units of 10^-9."""
    if kind == 'decimal':
        return int(Fraction(constant) * 2 * BILLION)
    return constant.toordinal() if kind == 'date' else int(constant)


class Region:
    """What is left of each term."""

    def __init__(self, types, terms):
        self.kinds = [t.kind for t in terms]
        self.left = [self.start(types, kind) for kind in self.kinds]
        self.asked = set()

    def start(self, types, kind):
        if kind == 'boolean':
            return 0, 1
        if isinstance(kind, tuple):
            return frozenset(range(len(types.enumerations[kind[1]].parts)))
        ends = {'decimal': (-FARTHEST, FARTHEST), 'date': (1, datetime.date.max.toordinal())}
        return ends.get(kind, (-GREATEST, GREATEST))

    def sides(self, atom):
        """What is left of the atom's term where the answer is yes, and where it is no."""
        term, cut = atom
        left, kind = self.left[term], self.kinds[term]
        if cut[0] == 'case':
            return left & {cut[1]}, left - {cut[1]}
        if cut[0] == 'true':
            return (max(left[0], 1), left[1]), (left[0], min(left[1], 0))
        limit = place(kind, cut[1]) + (cut[0] == 'at most')
        return (left[0], min(left[1], limit - 1)), (max(left[0], limit), left[1])

    def none(self, left):
        return not left if isinstance(left, frozenset) else left[1] < left[0]

    def decided(self, atom):
        true, false = self.sides(atom)
        return False if self.none(true) else True if self.none(false) else None

    def answering(self, atom, yes):
        made = object.__new__(Region)
        made.kinds, made.left, made.asked = self.kinds, list(self.left), self.asked | {atom.term}
        made.left[atom.term] = self.sides(atom)[0 if yes else 1]
        return made

    def point(self, term):
        """The value that is nearest to the default, as the rules have it."""
        left, kind = self.left[term], self.kinds[term]
        if isinstance(left, frozenset):
            return min(left), None
        low, high = left
        if kind == 'boolean':
            return low > 0
        if kind == 'date':
            return datetime.date.fromordinal(low)
        if kind != 'decimal':
            return max(low, min(high, 0))
        if low <= 0 <= high:
            return Fraction(0)
        if low % 2 == 0 or high % 2 == 0:
            return Fraction(low if low % 2 == 0 else high, 2 * BILLION)
        if high < FARTHEST and low > -FARTHEST:
            return Fraction(low + high, 4 * BILLION)
        return Fraction(high - 1_999_999_999 if high < FARTHEST else low + 1_999_999_999, 2 * BILLION)


class Scoped:
    """The audit of one scope."""

    def __init__(self, program, number, budget):
        self.program, self.number, self.budget = program, number, budget
        self.table = Table(program, number)
        self.scope = program.scopes[number]

    # ---- judging

    def known(self, guard, region):
        """Whether it is known, and its truth value, or else an atom that it hangs on."""
        form, *parts = guard
        if form == 'constant':
            return True, parts[0]
        if form == 'atom':
            answer = region.decided(self.table.atoms[parts[0]])
            return (True, answer) if answer is not None else (False, parts[0])
        found = [self.known(part, region) for part in parts]
        turned = lambda x: (True, not x[1]) if x[0] else x
        if form == 'not':
            return turned(found[0])
        no, yes = (True, False), (True, True)
        test, first, second = {'and': lambda: (found[0], found[1], no), 'or': lambda: (found[0], yes, found[1]),
                               'xor': lambda: (found[0], turned(found[1]), found[1]), 'if': lambda: found}[form]()
        if test[0]:
            return first if test[1] else second
        return first if first[0] and second[0] and first[1] == second[1] else test

    def listed(self, members):
        held = [m for m in members if m[0] == 'held']
        if any(m[0] == 'conflict' for m in members) or len(held) > 1:
            return 'conflict', None
        open_ones = [m for m in members if m[0] == 'needs']
        return open_ones[0] if open_ones else held[0] if held else ('empty', None)

    def definition(self, target, number, region):
        is_known, value = self.known(target.definitions[number], region)
        return ('needs', value) if not is_known else ('held', number) if value else ('empty', None)

    def group(self, target, g, region):
        own, above = target.groups[g]
        found = self.listed([self.group(target, e, region) for e in above])
        return found if found[0] != 'empty' else self.listed([self.definition(target, n, region) for n in own])

    def judged(self, target, region):
        return self.listed([self.group(target, g, region) for g in target.roots])

    # ---- the search

    def atoms_in_order(self, target):
        def asked(guard):
            if guard[0] == 'atom':
                return [guard[1]]
            return [a for part in guard[1:] if isinstance(part, tuple) for a in asked(part)]
        def key(a):
            atom = self.table.atoms[a]
            if atom.cut[0] in ('true', 'case'):
                return atom.term, atom.cut[1] if atom.cut[0] == 'case' else 0, False
            return atom.term, place(self.table.terms[atom.term].kind, atom.cut[1]), atom.cut[0] == 'at most'
        return sorted([a for g in target.definitions.values() for a in asked(g)], key=key)

    def split_atom(self, region, order, named):
        atoms = self.table.atoms
        term = atoms[named].term
        def before(a, end):
            if atoms[a].term != term:
                return atoms[a].term < term
            answer = region.decided(atoms[a])
            return end if answer is None else not answer
        def bound(end):
            low, high = 0, len(order)
            while low < high:
                middle = low + (high - low) // 2
                if before(order[middle], end):
                    low = middle + 1
                else:
                    high = middle
            return low
        low, last = bound(False), max(bound(True) - 1, 0)
        middle = low + max(last - low, 0) // 2
        if middle < len(order) and region.decided(atoms[order[middle]]) is None:
            return order[middle]
        return named

    def search(self, target):
        """The tree, its bad leaves with their regions, and whether the leaves were spent."""
        order, bad, left = self.atoms_in_order(target), [], [self.budget]
        def made(region):
            if left[0] == 0:
                return 'rest'
            how, what = self.judged(target, region)
            if how == 'needs':
                atom = self.split_atom(region, order, what)
                sides = [made(region.answering(self.table.atoms[atom], yes)) for yes in (True, False)]
                return atom, sides[0], sides[1]
            left[0] -= 1
            if how == 'conflict' or how == 'empty' and not target.may_be_empty:
                bad.append(region)
            return 'leaf'
        tree = made(Region(self.program.types, self.table.terms))
        def has_rest(t):
            return t == 'rest' or isinstance(t, tuple) and (has_rest(t[1]) or has_rest(t[2]))
        return tree, bad, has_rest(tree)

    # ---- the lines

    def default(self, t):
        types = self.program.types
        if isinstance(t, tuple):
            if t[0] == 'structure':
                return [self.default(part) for _, part in types.structures[t[1]].parts]
            if t[0] == 'enumeration':
                return self.case(t[1], 0)
            return []
        return {'boolean': False, 'integer': 0, 'decimal': Fraction(0), 'money': 0, 'date': FIRST_DAY,
                'duration': (0, 0)}[t]

    def case(self, enumeration, k):
        content = self.program.types.enumerations[enumeration].parts[k][1]
        return k, None if content is None else self.default(content)

    def part(self, item, t, path, region):
        for number, term in enumerate(self.table.terms):
            if term.path == (item, path):
                if isinstance(t, tuple) and t[0] == 'enumeration':
                    return self.case(t[1], region.point(number)[0])
                return region.point(number)
        if isinstance(t, tuple) and t[0] == 'structure':
            parts = self.program.types.structures[t[1]].parts
            return [self.part(item, f, path + (k,), region) for k, (_, f) in enumerate(parts)]
        return self.default(t)

    def input(self, region):
        given, items = Given(self.program.types), self.scope.items
        return forms.object_text({i.name: given.written(self.part(n, i.type, (), region), i.type)
                                  for n, i in enumerate(items) if i.kind.split()[0] == 'input'})

    def finding(self, target, region):
        """What the run on the input of a bad leaf says, the more telling the less the number in front."""
        text = self.input(region)
        reply = self.program.run(self.scope.name, text.encode())
        if reply.startswith(('conflict', 'no value')):
            return 0, 'Found %s with %s' % (reply, text)
        derived = sorted(t for t in region.asked if self.table.terms[t].path is None)
        if target.function or derived:
            item = self.scope.items[target.number[0]]
            at = item.pos if target.function else self.table.terms[derived[0]].expr[1]
            return 2, 'Undecided derived at %s with %s giving %s' % (self.program.at(at), text, reply)
        return 1, 'Masked %s with %s' % (reply[len('fault '):], text)

    def lines(self):
        """What is said of each target, by its name, and the trees."""
        lines, trees = [], []
        for target in self.table.targets:
            tree, bad, is_spent = self.search(target)
            findings = [self.finding(target, region) for region in bad]
            good = 'Undecided budget %d' % self.budget if is_spent else 'Covered'
            lines.append((target.name, min(findings, key=lambda found: found[0])[1] if findings else good))
            trees.append((target.name, tree))
        return lines, trees

    def called(self, verdicts):
        """What is said of the called scopes that aren't Complete: of items, and of scopes that stand in scope calls."""
        in_calls = set(scope_calls((self.scope.definitions, self.scope.assertions)))
        named = [(i.name, i.called) for i in self.scope.items if i.kind == 'called']
        named += [(self.program.scopes[n].name, n) for n in self.scope.calls if n in in_calls]
        return [(name, 'Undecided called %s %s' % (self.program.scopes[n].name, verdicts[n])) for name, n in named
                if verdicts[n] != 'Complete']


def verdict_of(lines):
    """The verdict of a scope, by what is said of its targets and of the scopes that it calls."""
    return next((v for v in VERDICTS if any(said.startswith(v) for _, said in lines)), 'Complete')


def scope_calls(expr):
    """The scopes of the scope calls in an expression, or in a list of what has some."""
    if isinstance(expr, (tuple, list)):
        if len(expr) > 2 and expr[0] == 'scope call':
            yield expr[2]
        for part in expr:
            yield from scope_calls(part)


def scopes_of(program, number):
    """The scopes that one calls, in the order of scopes, and it itself at the end."""
    order = []
    while len(order) < len(program.scopes):
        order.append(next(n for n in range(len(program.scopes)) if n not in order
                          and all(c in order for c in program.scopes[n].calls)))
    reached, left = set(), [number]
    while left:
        n = left.pop()
        if n not in reached:
            reached.add(n)
            left += program.scopes[n].calls
    return [n for n in order if n in reached]


def parts_of(tree):
    if isinstance(tree, tuple):
        yield from parts_of(tree[1])
        yield from parts_of(tree[2])
        yield tree


def shared(tree):
    """The lines of the parts with a split that stand in several places, in the postorder of their first ones, and of
    the tree."""
    count, first = {}, []
    for part in parts_of(tree):
        if part not in count:
            first.append(part)
        count[part] = count.get(part, 0) + 1
    named = [part for part in first if count[part] > 1]
    def lines(t, own=False):
        if t in named and not own:
            return ['cite %d' % named.index(t)]
        return [t] if isinstance(t, str) else ['split %d' % t[0]] + lines(t[1]) + lines(t[2])
    out = []
    for k, part in enumerate(named):
        out += ['name %d' % k] + lines(part, True)
    return out + ['tree'] + lines(tree)


def audit(files, main, scope, budget=100_000):
    """The reply, of a source that is accepted and has the scope."""
    return audited(Program(files, main), scope, budget)


def audited(program, scope, budget):
    number = program.runs.numbers[scope]
    report, certificate, verdicts = [], ['catala-certificate 2'], {}
    for n in scopes_of(program, number):
        scoped = Scoped(program, n, budget)
        lines, trees = scoped.lines()
        lines += scoped.called(verdicts)
        verdicts[n] = verdict_of(lines)
        name = program.scopes[n].name
        report += ['audit %s' % name, *['%s: %s' % line for line in lines], 'verdict %s' % verdicts[n]]
        certificate += ['scope %s' % name]
        for target, tree in trees:
            certificate += ['var %s' % target, *shared(tree)]
    return '\n'.join(report + certificate + ['end'] if verdicts[number] == 'Complete' else report)
