"""Reads programs by the grammar alone, token by token (Earley), and knows nothing of the parser.

A list of tokens that the reader leaves at a token is one that begins a program before it and none with it."""
import re

KEYWORDS = set('''
declaration scope structure enumeration data content input output internal context condition definition rule
equals consequence fulfilled not assertion label exception of if then else match with anything and or xor true
false boolean integer decimal money date duration year month day increasing decreasing among exists sum to in
initially contains get_year get_month get_day
'''.split())
PAIRS = ['under condition', 'depends on', 'list of', 'for all', 'we have', 'such that', 'number of', 'map each',
         'combine all', 'with pattern', 'date round', 'round of', 'output of']
SYMBOLS = '-- != <= >= : . , ; ( ) [ ] { } + - * / = < >'.split()
WORD = re.compile(r'[A-Za-z_][A-Za-z0-9_]*')


def tokens_of(text):
    """The tokens of a text of one line, each as its kind: 'U' and 'w' for names, 'INT' for numbers, and else itself."""
    out, at = [], 0
    while at < len(text):
        if text[at] == ' ':
            at += 1
            continue
        pair = next((p for p in PAIRS if re.match(p + r'(?![A-Za-z0-9_])', text[at:])), None)
        word = WORD.match(text, at)
        number = re.compile(r'[0-9]+').match(text, at)
        if pair:
            out.append(pair)
            at += len(pair)
        elif word:
            w = word.group()
            out.append('U' if 'A' <= w[0] <= 'Z' else w if w in KEYWORDS else 'w')
            at = word.end()
        elif number:
            out.append('INT')
            at = number.end()
        else:
            symbol = next(s for s in SYMBOLS if text.startswith(s, at))
            out.append(symbol)
            at += len(symbol)
    return out


# The grammar, a rule a line: a phrase stands in < and >, [ ] is optional, * is any number, and + one at least.
PROGRAM = '''
<program> := <item>*
<item> := declaration structure U : <field>+ | declaration enumeration U : <case>+ | declaration scope U : <svar>*
 | scope U [under condition <E>] : <use>*
<field> := data w content <T>
<case> := -- U [content <T>]
<svar> := <kind> w content <T> <pars> | <kind> w condition <pars> | w scope U
<pars> := | depends on <par> <more_pars>*
<more_pars> := , <par>
<par> := w content <T>
<kind> := input [output] | output | internal | context [output]
<use> := <lead> definition <target> <names> <guard> equals <E> | <lead> rule <target> <names> <guard> [not] fulfilled
 | assertion <E> | date round increasing | date round decreasing
<lead> := [label w] <exception>
<exception> := | exception [w]
<target> := w | w . w
<names> := | of w <more_names>*
<more_names> := , w
<guard> := [under condition <E> consequence]
<T> := boolean | integer | decimal | money | date | duration | list of <T> | U
<C> := U | U . U
<E> := <R1>
<pairs> := -- w : <E>
<elements> := ; <E>
<arguments> := , <N9>
<form> := if <E> then <E> else <E> | for all w among <E> we have <E> | exists w among <E> such that <E>
 | map each w among <E> to <E> | list of w among <E> such that <E>
 | combine all w among <E> in w initially <E> with <E> | match <E> with pattern <arms>
<arms> := <head> <E> | <head> <O1> <arms>
<head> := -- <C> [of w] : | -- anything :
<L9> := <L9> . w | output of U with { <pairs>* } . w | INT | INT year | INT month | INT day | true | false | w | <C>
 | U { <pairs>+ } | [ ] | [ <E> <elements>* ] | ( <E> )
<N9> := <L9>
<prefix> := integer of | decimal of | money of | round of | get_year of | get_month of | get_day of | number of
 | sum <T> of | <C> content
'''


def level_rules():
    """The levels: of right operands, R, which forms may be; of those that end in no match, O; and of left ones, L."""
    rules = []
    for kind, form in (('R', '<form>'), ('O', '<open>'), ('L', None)):
        for k in range(1, 10):
            rules.append('<%s%d> := <P%s%d>' % (kind, k, kind, k) + (' | ' + form if form else ''))
    for kind in 'ROL':
        rules += [
            '<P%s1> := <L1> or <%s2> | <L1> xor <%s2> | <P%s2>' % (kind, kind, kind, kind),
            '<P%s2> := <L2> and <%s3> | <P%s3>' % (kind, kind, kind),
            '<P%s3> := not <%s3> | <P%s4>' % (kind, kind, kind),
            '<P%s4> := ' % kind + ' | '.join('<L5> %s <%s5>' % (o, kind) for o in '< <= > >= = != contains'.split())
            + ' | <L5> with pattern <C> | <P%s5>' % kind,
            '<P%s5> := <L5> + <%s6> | <L5> - <%s6> | <P%s6>' % (kind, kind, kind, kind),
            '<P%s6> := <L6> * <%s7> | <L6> / <%s7> | <P%s7>' % (kind, kind, kind, kind),
            '<P%s7> := - <%s7> | <P%s8>' % (kind, kind, kind),
            '<P%s8> := <prefix> <%s8> | w of <N9> <arguments>* | <L9>' % (kind, kind),
            '<P%s9> := <L9>' % kind,
        ]
    rules.append('<open> := if <E> then <E> else <O1> | for all w among <E> we have <O1>'
                 ' | exists w among <E> such that <O1>'
                 ' | map each w among <E> to <O1> | list of w among <E> such that <O1>'
                 ' | combine all w among <E> in w initially <E> with <O1>')
    # the highest level has its own rule
    return [rule for rule in rules if not rule.startswith(('<L9>', '<PL9>'))]


def words_of(text):
    words = text.split()
    out, i = [], 0
    while i < len(words):
        two = ' '.join(words[i:i + 2])
        out.append(two if two in PAIRS else words[i])
        i += 2 if two in PAIRS else 1
    return out


def grammar():
    rules, fresh = {}, [0]

    def add(name, words):
        rules.setdefault(name, [])
        if words not in rules[name]:
            rules[name].append(words)

    def new(options):
        fresh[0] += 1
        name = '<%d>' % fresh[0]
        for words in options:
            add(name, tuple(words))
        return name

    def row(text):
        out, words = [], words_of(re.sub(r'\[(?=[a-z])', '⟦ ', re.sub(r'(?<=[a-z>])\](?=\s|$)', ' ⟧', text)))
        i = 0
        while i < len(words):
            if words[i] == '⟦':
                end = words.index('⟧', i)
                out.append(new([row(' '.join(words[i + 1:end])), ()]))
                i = end + 1
            elif words[i].endswith('>*') or words[i].endswith('>+'):
                part = words[i][:-1]
                many = '<many %s>' % part
                add(many, ())
                add(many, (many, part))
                out += [part, many] if words[i].endswith('+') else [many]
                i += 1
            else:
                out.append(words[i])
                i += 1
        return tuple(out)

    lines = []
    for line in PROGRAM.strip().split('\n') + level_rules():
        if line.startswith(' '):
            lines[-1] += line
        else:
            lines.append(line)
    for line in lines:
        name, rest = line.split(' := ')
        for option in rest.split('|') if rest.strip() else ['']:
            add(name.strip(), row(option.strip()))
    return rules


RULES = grammar()


def empties():
    out = set()
    while True:
        more = {n for n, options in RULES.items() if any(all(w in out for w in o) for o in options)}
        if more <= out:
            return out
        out |= more


EMPTY = empties()


def read(tokens, start='<program>'):
    """How many tokens begin a program, and whether those tokens are one."""
    sets = [{}]
    todo = []

    def put(at, item):
        if item not in sets[at]:
            sets[at][item] = True
            if at == len(sets) - 1:
                todo.append(item)

    for option in RULES[start]:
        put(0, (start, option, 0, 0))
    for at in range(len(tokens) + 1):
        todo[:] = list(sets[at])
        while todo:
            name, option, dot, origin = todo.pop()
            if dot == len(option):
                for other in list(sets[origin]):
                    if other[2] < len(other[1]) and other[1][other[2]] == name:
                        put(at, (other[0], other[1], other[2] + 1, other[3]))
            elif option[dot] in RULES:
                for more in RULES[option[dot]]:
                    put(at, (option[dot], more, 0, at))
                if option[dot] in EMPTY:
                    put(at, (name, option, dot + 1, origin))
        whole = any(n == start and d == len(o) and g == 0 for n, o, d, g in sets[at])
        if at == len(tokens):
            return at, whole
        sets.append({})
        for name, option, dot, origin in sets[at]:
            if dot < len(option) and option[dot] == tokens[at]:
                sets[at + 1][(name, option, dot + 1, origin)] = True
        if not sets[at + 1]:
            return at, False


def too_deep(tokens):
    """The first token at which parentheses alone make each expression higher than 256."""
    depth = 0
    for at, token in enumerate(tokens):
        depth += (token == '(') - (token == ')')
        if depth == 256:
            return at
    return len(tokens)


def answer(tokens):
    reach, whole = read(tokens)
    deep = too_deep(tokens)
    if deep < reach:
        return 'TooDeep(%d)' % deep
    return 'whole' if whole else 'Unexpected(%d)' % reach


def program(text):
    return answer(tokens_of(text))


def program_cuts(text):
    tokens = tokens_of(text)
    return ' '.join(answer(tokens[:at]) for at in range(len(tokens) + 1))


def program_swaps(rest):
    word, _, text = rest.partition(' ')
    tokens = tokens_of(text)
    return ' '.join(answer(tokens[:at] + tokens_of(word) + tokens[at + 1:]) for at in range(len(tokens)))


CALLS = {'program': program, 'program_cuts': program_cuts, 'program_swaps': program_swaps}
