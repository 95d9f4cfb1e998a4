"""The one line that running a scope writes: inputs read from JSON, outputs written as JSON, and all other replies."""
import datetime
from fractions import Fraction

import oracle_json as forms
import oracle_sources as sources

from .grammar import tree_of
from .meaning import Runs, Stop
from .programs import program_of
from .tokens import Refused, tokens_of


class Given:
    """Values of a program's types, read from JSON and written as it."""

    def __init__(self, types):
        self.types = types

    def read(self, json, t, path):
        if t == 'boolean':
            forms.form(type(json) is bool, path)
            return json
        if t == 'integer':
            return forms.integer(json, path)
        if t == 'decimal':
            return Fraction(forms.decimal(json, path))
        if t == 'money':
            return int(forms.money(json, path)[:-1])
        if t == 'date':
            days = forms.date(json, path).split()[1]
            return datetime.date(1970, 1, 1) + datetime.timedelta(int(days))
        if t == 'duration':
            days, months = self.fields(json, [('days', 'integer'), ('months', 'integer')], path)
            return months, days
        if t[0] == 'structure':
            return self.fields(json, self.types.structures[t[1]].parts, path)
        if t[0] == 'enumeration':
            return self.case(json, self.types.enumerations[t[1]].parts, path)
        forms.form(type(json) is list, path)
        return [self.read(element, t[1], path + [k]) for k, element in enumerate(json)]

    def member(self, json, name, t, path):
        if name not in json:
            raise forms.Refused('I2', path + [name])
        return self.read(json[name], t, path + [name])

    def fields(self, json, parts, path):
        forms.form(type(json) is dict, path)
        values = [self.member(json, name, t, path) for name, t in parts]
        forms.no_others(json, [name for name, _ in parts], path)
        return values

    def case(self, json, cases, path):
        name = json if type(json) is str else next(iter(json)) if type(json) is dict and len(json) == 1 else None
        k = next((k for k, (known, _) in enumerate(cases) if known == name), None)
        forms.form(k is not None and (cases[k][1] is None) == (type(json) is str), path)
        return k, None if type(json) is str else self.member(json, name, cases[k][1], path)

    def input(self, json, items):
        forms.form(type(json) is dict, [])
        given, known = [], []
        for i in items:
            kind = i.kind.split()[0]
            has_key = kind == 'input' or kind == 'context' and i.name in json
            known += [i.name] if kind in ('input', 'context') else []
            given.append(self.member(json, i.name, i.type, []) if has_key else None)
        forms.no_others(json, known, [])
        return given

    def written(self, value, t):
        if t in ('boolean', 'integer'):
            return forms.quoted(value)
        if t == 'decimal':
            return forms.quoted(forms.decimal_text(value))
        if t == 'money':
            return forms.quoted(forms.fixed(value, 2))
        if t == 'date':
            return forms.quoted(value.isoformat())
        if t == 'duration':
            return '{"days":%d,"months":%d}' % (value[1], value[0])
        if t[0] == 'structure':
            parts = self.types.structures[t[1]].parts
            return forms.object_text({name: self.written(v, f) for v, (name, f) in zip(value, parts)})
        if t[0] == 'enumeration':
            name, content = self.types.enumerations[t[1]].parts[value[0]]
            return forms.quoted(name) if content is None else forms.object_text({name: self.written(value[1], content)})
        return '[%s]' % ','.join(self.written(element, t[1]) for element in value)


def target_text(scopes, target, number):
    item, inner = target
    scope = scopes[number]
    of = scope.items[item]
    name = of.name if inner is None else '%s.%s' % (of.name, scopes[of.called].items[inner].name)
    return '%s.%s' % (scope.name, name)


class Program:
    """A program, read from the files of its source."""

    def __init__(self, files, main):
        gathering = sources.Gathering(files)
        gathering.take(main)
        self.names = gathering.taken
        pieces = []
        for at, code in gathering.pieces:
            file, line, _ = map(int, at.split(':'))
            pieces.append((code.decode(), file, line))
        self.starts = [(file, line) for _, file, line in pieces]
        self.headings = [(before, text.decode()) for before, _, _, text in gathering.headings]
        self.types, self.scopes, self.forests = program_of(tree_of(tokens_of(pieces)))
        self.runs = Runs(self.types, self.scopes, self.forests)

    def at(self, pos):
        return '%s:%d:%d' % (self.names[pos.file], pos.line, pos.column)

    def run(self, scope, data):
        """The reply of `run` on these bytes."""
        number = self.runs.numbers.get(scope)
        if number is None:
            return 'no such scope %s' % scope
        try:
            json = forms.parsed(data)
        except forms.NotJson:
            return 'input refused I1'
        return self.run_on(number, json, self.runs)

    def run_on(self, number, json, runs):
        """The reply of `run` on what is read as JSON."""
        given, items = Given(self.types), self.scopes[number].items
        try:
            values = runs.outputs(number, given.input(json, items))
        except forms.Refused as refused:
            return 'input refused %s %s' % (refused.args[0], forms.path_text(refused.args[1]))
        except Stop as stop:
            return self.stopped(*stop.args)
        outputs = [i for i in items if i.kind.endswith('output')]
        return forms.object_text({i.name: given.written(v, i.type) for v, i in zip(values, outputs)})

    def stopped(self, what, *told):
        if what == 'fault':
            return 'fault %s at %s' % (told[0], self.at(told[1]))
        target = target_text(self.scopes, told[0], told[1])
        if what == 'no value':
            return 'no value %s at %s' % (target, self.at(told[2]))
        return 'conflict %s at %s' % (target, ' '.join(map(self.at, told[2])))


def replies(files, main, scope, data):
    """Each reply that `run` may give: one, but where a source has several faults of one kind."""
    return replies_of(files, main, lambda program: program.run(scope, data))


def replies_of(files, main, reply):
    """The reply of an accepted source's program, or each that may refuse the source."""
    try:
        return {reply(Program(files, main))}
    except sources.Refused as refused:
        codes = {'NotUtf8': 'E1', 'FenceOpen': 'E2', 'IncludeTwice': 'E3'}
        what, name, *at = refused.args
        if what in codes:
            line = at[0].split(':', 1)[1] if at[0].count(':') == 2 else at[0]
            return {'source refused %s at %s:%s' % (codes[what], name, line)}
        return {{'Missing': 'missing file %s', 'TooLarge': 'too large %s'}[what] % name}
    except Refused as refused:
        return {'source refused %s%s' % (code, place(pos, main, list(files))) for code, pos in refused.faults}


def is_allowed(reply, allowed):
    """Whether a reply is one of those. The place of a refused source may be left open there, and a source with a part that is too
    deep and one that is unexpected may be refused for either."""
    is_deep = reply.startswith('source refused E7') and any(line.startswith('source refused E6') for line in allowed)
    return reply in allowed or reply.split(' at ')[0] in allowed or is_deep


def place(pos, main, names):
    """Where a source is refused; nothing where that isn't known here."""
    return ' at %s:%d:%d' % (names[pos.file] if pos.file else main, *pos[1:]) if pos else ''
