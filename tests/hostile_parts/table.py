"""The table of answers: each status with the texts that may come with it."""
import json, re

PLACE = rb'[^\n]+:[1-9][0-9]*:[1-9][0-9]*'
# What a listing may have in the place of one.
ANY_PLACE = rb'[^\n]*:[0-9]+:[0-9]+'
NAME = rb'[^\n]+'
# A word of the call, which may be empty or have a line feed.
WORD = rb'(?s:.*)'
FAULTS = rb'(?:Overflow|DivisionByZero|AmbiguousDate|Uncomparable|AssertionFailed)'
AUDITED = rb'audit %s\n(?:[^\n]+: [^\n]+\n)*verdict (Complete|Found|Masked|Undecided)\n' % NAME
CERTIFICATE = (rb'catala-certificate 2\n(?:scope [^\n]+\n(?:var [^\n]+\n(?:name [0-9]+\n(?:split [0-9]+\n|cite [0-9]+\n|leaf\n)+)*'
               rb'tree\n(?:split [0-9]+\n|cite [0-9]+\n|leaf\n)+)*)+end\n')
USAGE = rb'usage: catala MODE SCOPE FILE \[EXTRA\] \[--cases N\]\n'
DRILLED = rb'bands [0-9]+ runs 1000 sum [0-9]+ leaves [0-9]+ (?:Complete|Found|Masked|Undecided)\n'
LISTING = (rb'catala-code 1\n(?:file [^\n]+\n)+(?:structure [^\n]+\n(?:field [^\n]+\n)*)*(?:enumeration [^\n]+\n(?:case [^\n]+\n)*)*'
           rb'(?:scope [^\n]+ [0-9]+\n(?:item [^\n]+\n)*)+(?:target [^\n]+\n)*(?:definition [0-9:]+\n)*(?:function [0-9]+\n)*'
           rb'(?:position [0-9:]+\n)*(?:const [^\n]+\n)*(?:[0-9]+ [a-z]+(?: [0-9]+)*\n)+')
# What stands in front of the line of a run, where its code is listed.
COUNTED = rb'%ssteps [0-9]+\n' % LISTING
# What stands there of a trace.
DECIDED = rb'(?:%s by (?:none|%s(?: under [^\n]*)?)\n)*' % (NAME, PLACE)
OUTPUTS = rb'\{[^\n]*\}\n'
# The tables of targets: how far their leaves are told by the status.
TABLES = rb'(?:table %s\n(?:[^\n]+ : (?:definition at %s|conflict|no value|false|not given)\n)+%%s)*' % (NAME, PLACE)
SHOWN, SPENT = TABLES % b'', TABLES % rb'(?:rest not shown, budget [0-9]+\n)?'
# The report on definitions, with its certificate where it has one: what is said of them is told by the status.
NEVER = rb'[^\n]+ at %s: never decides\n' % PLACE
DECIDES = rb'[^\n]+ at %s: decides with \{[^\n]*\}\n' % PLACE
OPEN = rb'[^\n]+ at %s: (?:Masked|Undecided derived at %s) with \{[^\n]*\} giving [^\n]+\n' % (PLACE, PLACE)
SPARED = rb'[^\n]+ at %s: Undecided budget [0-9]+\n' % PLACE
DEAD = rb'dead %s\n(?:%%s)*(?:catala-dead 1\nscope [^\n]+\n(?:var [^\n]+\n(?:split [0-9]+\n|leaf\n)+)*end\n)?' % NAME
DEFINITIONS = {0: DEAD % DECIDES, 6: DEAD % b'|'.join((NEVER, DECIDES, OPEN, SPARED)), 7: DEAD % b'|'.join((DECIDES, OPEN, SPARED))}

# What a mode writes with status 0, as far as its form goes.
FINE = {
    'run': OUTPUTS,
    'audit': rb'(?:%s)+%s' % (AUDITED, CERTIFICATE),
    'check': rb'Yes\n(?:%s)?' % CERTIFICATE,
    'emit': rb'%s|%s%s' % (LISTING, COUNTED, OUTPUTS),
    'trace': DECIDED + OUTPUTS,
    'table': SHOWN,
    'dead': rb'%s|(?:%s)*Yes\n' % (DEFINITIONS[0], NEVER),
    'exec': OUTPUTS,
    'drill': DRILLED,
}


def stops(place):
    """How a run stops, by its status, with places of this form."""
    return {1: rb'conflict %s at %s(?: %s)+\n' % (NAME, place, place), 2: rb'no value %s at %s\n' % (NAME, place),
            3: rb'fault %s at %s\n' % (FAULTS, place)}


TEXTS = {
    **stops(PLACE),
    4: rb'source refused E(?:[1-9]|1[0-9]|20) at %s\n' % PLACE,
    # A key that is named may have a line feed.
    5: rb'input refused (?:I1|I[245] [^\n]*|I3 (?s:.*))\n',
    6: rb'(?:%s)+' % AUDITED,
    7: rb'(?:%s)+' % AUDITED,
    8: rb'certificate refused (?:C4|C[1-6] at line [1-9][0-9]*)\n',
    9: rb'(?:%s|no such (?:scope|target) %s\n|)' % (USAGE, WORD),
    10: rb'missing file %s\n' % WORD,
    11: rb'read fault %s\n' % WORD,
    12: rb'',
    13: rb'',
    14: rb'too large %s\n' % WORD,
    15: rb'listing refused (?:L2|[LV]1 at line [1-9][0-9]*|V[2-4] at instruction [0-9]+)\n',
}
# The lines of many inputs, of which each tells what a run on it alone does.
LINES = rb'(?:%s)*' % b'|'.join((OUTPUTS, TEXTS[1], TEXTS[2], TEXTS[3], TEXTS[5]))
FINE['many'] = LINES
# What of them is written where the output failed, and where memory ran out.
BROKEN = {12: LINES + rb'[^\n]*', 13: LINES}
STOPS = (1, 2, 3)
# What a source is refused with, and what a listing.
SOURCE, LISTED = 4, 15
# What may stand in front of a stop, by the mode.
FRONTS = {'emit': COUNTED, 'trace': DECIDED}
VERDICTS = {0: {b'Complete'}, 6: {b'Found'}, 7: {b'Masked', b'Undecided'}}


def mode_of(words):
    """The first word that is none of the option."""
    at = 0
    while at < len(words) and words[at].startswith('--'):
        at += 2 if words[at] == '--cases' else 1
    return words[at] if at < len(words) else ''


def out_of_table(words, ended):
    """What of a run's end stands outside the table; nothing where all of it may be."""
    if ended.status is None:
        return 'no answer in time'
    if ended.status < 0:
        return 'signal %d' % -ended.status
    mode = mode_of(words)
    form = FINE.get(mode) if ended.status == 0 else TEXTS.get(ended.status)
    if ended.status in STOPS:
        form = FRONTS.get(mode, b'') + form
    if mode == 'exec' and ended.status in STOPS:
        form = stops(ANY_PLACE)[ended.status]
    if mode == 'many' and ended.status in BROKEN:
        form = BROKEN[ended.status]
    if mode == 'table' and ended.status == 7:
        form = SPENT
    if mode == 'dead' and ended.status in (6, 7):
        form = DEFINITIONS[ended.status]
    if ended.status in (SOURCE, LISTED) and (mode == 'exec') != (ended.status == LISTED):
        form = None
    if form is None or ended.err:
        return 'status %d, %r on standard error' % (ended.status, ended.err[:80])
    if not re.fullmatch(form, ended.out):
        return 'status %d with %r' % (ended.status, ended.out[:80])
    is_outputs = mode in ('run', 'trace', 'exec') or mode == 'emit' and not re.fullmatch(LISTING, ended.out)
    if is_outputs and ended.status == 0 and not is_json(ended.out.split(b'\n')[-2]):
        return 'no JSON: %r' % ended.out[-80:]
    if mode == 'audit' and ended.status in VERDICTS:
        if re.findall(rb'^verdict (\w+)$', ended.out, re.M)[-1] not in VERDICTS[ended.status]:
            return 'status %d with %r' % (ended.status, ended.out[-80:])
    return ''


def is_json(text):
    try:
        json.loads(text)
    except ValueError:
        return False
    return True


def told(ended):
    """An end in few words."""
    how = 'no answer' if ended.status is None else 'signal %d' % -ended.status if ended.status < 0 else 'status %d' % ended.status
    return '%s, %r' % (how, ended.out[:120])
