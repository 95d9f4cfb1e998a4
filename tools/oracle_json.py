"""Inputs in JSON, read and written by the rules of their format alone: `read_value`, `write_value` and the like.

It reads JSON by itself, as `serde_json` does: at most 127 deep, the last of equal keys counting, no lone surrogates."""
import datetime, re
from json import dumps
from fractions import Fraction

CALLS = ('read_value', 'read_input', 'read_inputs', 'write_value', 'write_input', 'write_answer')
M = 2**63 - 1
STRUCTURES = {'Pair': [('count', 'integer'), ('flags', '[boolean]')],
              'Home': [('owner', 'Pair'), ('kinds', '[Choice]'), ('since', 'duration'), ('é', 'decimal')],
              'Individual': [('income', 'money'), ('number_of_children', 'integer')],
              'Person': [('income', 'money'), ('credit', 'TaxCredit')]}
ENUMERATIONS = {'Choice': [('Nothing', None), ('Many', '[integer]'), ('One', 'Pair')],
                'Letter': [('Aé', None), ('A𐐀', 'money'), ('Of', 'Choice')],
                'TaxCredit': [('NoTaxCredit', None), ('ChildrenTaxCredit', 'integer')]}
SCOPES = {'S': [('b', 'may', 'boolean'), ('n', 'must', 'integer'), ('list', 'may', '[integer]'),
                ('home', 'may', 'Home'), ('letter', 'may', 'Letter'), ('x', 'none', 'integer'), ('t', 'none', None)],
          'Kinds': [('aside', 'none', 'integer'), ('first', 'must', 'money'), ('both', 'must', 'date'),
                    ('last', 'may', 'decimal')],
          'IncomeTaxComputation': [('individual', 'must', 'Individual'), ('fixed_percentage', 'none', 'decimal'),
                                   ('income_tax', 'none', 'money')],
          'Tax': [('persons', 'must', '[Person]'), ('due', 'none', 'money'), ('total', 'none', 'money')]}
OUTPUTS = {'S': ('x', 'integer'), 'IncomeTaxComputation': ('income_tax', 'money'), 'Tax': ('total', 'money')}
STRING = re.compile(r'"((?:[^"\\\x00-\x1f]|\\(?:["\\/bfnrt]|u[0-9a-fA-F]{4}))*)"')
NUMBER = re.compile(r'-?(?:0|[1-9][0-9]*)(\.[0-9]+)?([eE][+-]?[0-9]+)?')
ESCAPES = {'b': '\b', 'f': '\f', 'n': '\n', 'r': '\r', 't': '\t'}
WORDS = {'true': True, 'false': False, 'null': None}


class NotJson(Exception):
    pass


class Refused(Exception):
    pass


class Float:
    """A number that is held as a float."""


def blanks(text, at):
    return re.compile(r'[ \t\n\r]*').match(text, at).end()


def number(found):
    text = found[0]
    if not found[1] and not found[2] and text != '-0' and -2**63 <= int(text) < 2**64:
        return int(text)
    if abs(float(text)) == float('inf'):
        raise NotJson
    return Float()


def string(found):
    def meant(escape):
        return chr(int(escape[1], 16)) if escape[1] else ESCAPES.get(escape[2], escape[2])
    text = re.sub(r'\\(?:u([0-9a-fA-F]{4})|(.))', meant, found[1])
    try:
        return text.encode('utf-16', 'surrogatepass').decode('utf-16')
    except UnicodeDecodeError:
        raise NotJson


def part(text, at, depth):
    """The part that begins there, behind blanks, and its end."""
    at = blanks(text, at)
    for form, made in ((STRING, string), (NUMBER, number)):
        found = form.match(text, at)
        if found:
            return made(found), found.end()
    for word, value in WORDS.items():
        if text.startswith(word, at):
            return value, at + len(word)
    if text[at:at + 1] not in ('[', '{') or depth == 127:
        raise NotJson
    return members(text, at, depth)


def members(text, at, depth):
    closing, parts = {'[': (']', []), '{': ('}', {})}[text[at]]
    at = blanks(text, at + 1)
    if text[at:at + 1] == closing:
        return parts, at + 1
    while True:
        if closing == '}':
            found = STRING.match(text, blanks(text, at))
            at = blanks(text, found.end()) if found else len(text)
            if text[at:at + 1] != ':':
                raise NotJson
            parts[string(found)], at = part(text, at + 1, depth + 1)
        else:
            value, at = part(text, at, depth + 1)
            parts.append(value)
        at = blanks(text, at) + 1
        if text[at - 1:at] != ',':
            break
    if text[at - 1:at] != closing:
        raise NotJson
    return parts, at


def parsed(data):
    try:
        text = data.decode()
    except UnicodeDecodeError:
        raise NotJson
    value, at = part(text, 0, 0)
    if blanks(text, at) != len(text):
        raise NotJson
    return value


def form(right, path):
    if not right:
        raise Refused('I4', path)


def fit(right, path):
    if not right:
        raise Refused('I5', path)


def integer(json, path):
    form(type(json) is int, path)
    fit(abs(json) <= M, path)
    return json


def decimal(json, path):
    if type(json) is int:
        return '%d/1' % integer(json, path)
    found = type(json) is str and re.fullmatch(r'-?([0-9]+)(?:\.([0-9]{1,9})|/([0-9]+))?', json)
    form(found, path)
    fit(all(len(digits or '') <= 19 for digits in found.groups()) and int(found[3] or 1) > 0, path)
    q = Fraction(json)
    fit(max(abs(q.numerator), q.denominator) <= M, path)
    return '%d/%d' % (q.numerator, q.denominator)


def money(json, path):
    cents = json * 100 if type(json) is int else None
    if cents is None:
        found = type(json) is str and re.fullmatch(r'-?([0-9]+)(?:\.[0-9]{1,2})?', json)
        form(found, path)
        fit(len(found[1]) <= 19, path)
        cents = Fraction(json) * 100
    fit(abs(cents) <= M, path)
    return '%dc' % cents


def date(json, path):
    form(type(json) is str and re.fullmatch(r'[0-9]{4}-[0-9]{2}-[0-9]{2}', json), path)
    try:
        day = datetime.date(*map(int, json.split('-')))
    except ValueError:
        raise Refused('I5', path)
    return 'day %d' % (day - datetime.date(1970, 1, 1)).days


def member(json, name, ty, path):
    if name not in json:
        raise Refused('I2', path + [name])
    return read(json[name], ty, path + [name])


def fields(json, declared, path):
    form(type(json) is dict, path)
    values = [member(json, name, ty, path) for name, ty in declared]
    no_others(json, [name for name, _ in declared], path)
    return values


def no_others(json, known, path):
    for key in sorted(json, key=str.encode):
        if key not in known:
            raise Refused('I3', path + [key])


def case(json, cases, path):
    name = json if type(json) is str else next(iter(json)) if type(json) is dict and len(json) == 1 else None
    number = next((number for number, (known, _) in enumerate(cases) if known == name), None)
    form(number is not None and (cases[number][1] is None) == (type(json) is str), path)
    return '#%d' % number if type(json) is str else '#%d %s' % (number, member(json, name, cases[number][1], path))


def read(json, ty, path):
    if ty == 'boolean':
        form(type(json) is bool, path)
        return str(json).lower()
    if ty in PLAIN:
        return str(PLAIN[ty](json, path))
    if ty == 'duration':
        return '{1}m {0}d'.format(*fields(json, [('days', 'integer'), ('months', 'integer')], path))
    if ty in STRUCTURES:
        return '(%s)' % ', '.join(fields(json, STRUCTURES[ty], path))
    if ty in ENUMERATIONS:
        return case(json, ENUMERATIONS[ty], path)
    form(type(json) is list, path)
    return '[%s]' % ', '.join(read(element, ty[1:-1], path + [k]) for k, element in enumerate(json))


PLAIN = {'integer': integer, 'decimal': decimal, 'money': money, 'date': date}


def given(json, items):
    form(type(json) is dict, [])
    values = [member(json, name, ty, []) if kind == 'must' or kind == 'may' and name in json else '-'
              for name, kind, ty in items]
    no_others(json, [name for name, kind, _ in items if kind != 'none'], [])
    return ' | '.join(values)


def path_text(path):
    text = ''.join('[%d]' % step if type(step) is int else '.' + step for step in path) or '(input)'
    return text[1:] if path and type(path[0]) is str else text


def shown(text):
    """A text in the line of a table."""
    return text.replace('\n', '\\n').replace('\r', '\\r').replace('\t', '\\t')


def told(reading):
    try:
        return reading()
    except NotJson:
        return 'I1'
    except Refused as refused:
        return '%s %s' % (refused.args[0], shown(path_text(refused.args[1])))


def all_given(json, items):
    form(type(json) is list, [])
    return ''.join(told(lambda: given(element, items)) + ';' for element in json)


def fixed(number, places):
    digits = str(abs(number)).rjust(places + 1, '0')
    return '-' * (number < 0) + (digits[:-places] + '.' + digits[-places:] if places else digits)


def decimal_text(q):
    places = next((places for places in range(10) if (q * 10**places).denominator == 1), None)
    return str(q) if places is None else fixed((q * 10**places).numerator, places)


def quoted(text):
    return dumps(text, ensure_ascii=False)


def object_text(members):
    return '{%s}' % ','.join('%s:%s' % (quoted(key), members[key]) for key in sorted(members, key=str.encode))


def written(json, ty):
    """The text of a value, given by JSON that is read as it."""
    if ty in ('boolean', 'integer', 'date'):
        return quoted(json)
    if ty == 'decimal':
        return quoted(decimal_text(Fraction(json)))
    if ty == 'money':
        return quoted(fixed(int(Fraction(json) * 100), 2))
    if ty == 'duration':
        return object_text({name: quoted(json[name]) for name in json})
    if ty in STRUCTURES:
        return object_text({name: written(json[name], field) for name, field in STRUCTURES[ty]})
    if ty in ENUMERATIONS:
        contents = dict(ENUMERATIONS[ty])
        if type(json) is str:
            return quoted(json)
        return object_text({name: written(json[name], contents[name]) for name in json})
    return '[%s]' % ','.join(written(element, ty[1:-1]) for element in json)


def answer(call, rest):
    """What a call gives on bytes, in which a percent sign and two digits stand for a byte."""
    word, _, text = rest.partition(' ')
    data = re.sub(rb'%([0-9a-f]{2})', lambda found: bytes.fromhex(found[1].decode()), text.encode())
    if call == 'read_value':
        return told(lambda: read(parsed(data), word, []))
    if call == 'write_value':
        return written(parsed(data), word)
    if call == 'write_input':
        json = parsed(data)
        return object_text({name: written(json[name], ty) for name, _, ty in SCOPES[word] if name in json})
    if call == 'write_answer':
        name, ty = OUTPUTS[word]
        return object_text({name: written(parsed(data), ty)})
    return told(lambda: (given if call == 'read_input' else all_given)(parsed(data), SCOPES[word]))
