"""What helps where types don't fit: the conversion that serves, or the row of what the parts are."""
from typing import List, Optional, Tuple

from reference.expressions import BINARY, PREFIX

from .pages import Part, help_in

WIDER = ('integer', 'decimal', 'money', 'date', 'duration')
COMPARED = ('=', '!=', '<', '<=', '>', '>=', 'contains')
JOINED = ('and', 'or', 'xor', 'not')


def kind_of(t) -> str:
    return t if isinstance(t, str) else t[0] if t else 'unknown'


def type_text(t, types) -> str:
    """A type as it is written."""
    if isinstance(t, str) or t is None:
        return t or 'of an unknown type'
    if t[0] == 'list':
        return 'list of ' + type_text(t[1], types)
    return (types.structures if t[0] == 'structure' else types.enumerations)[t[1]].name


def parts_row(operator: str, kinds: Tuple[str, ...]) -> str:
    """The row of what the operands are; nothing where only a conversion is told."""
    if operator in JOINED:
        return 'numbers in place of truth values'
    if operator in COMPARED and 'enumeration' in kinds:
        return 'an enumeration that is compared'
    if operator in ('=', '!=') and 'boolean' in kinds:
        return 'a truth value that is compared'
    if operator in COMPARED and {'structure', 'list'} & set(kinds):
        return 'a structure or a list that is compared'
    if operator == '/' and 'duration' in kinds:
        return 'a duration that is divided'
    return {('*', ('integer', 'duration')): 'a number in front of a duration',
            ('*', ('decimal', 'duration')): 'a number in front of a duration',
            ('+', ('duration', 'date')): 'a duration in front of a date',
            ('+', ('date', 'integer')): 'a date and a number', ('-', ('date', 'integer')): 'a date and a number',
            ('*', ('money', 'money')): 'an amount times an amount',
            ('/', ('integer', 'money')): 'an amount that divides a number',
            ('/', ('decimal', 'money')): 'an amount that divides a number'}.get((operator, kinds), '')


def conversions(part: Part, operator: str, kinds: Tuple[str, ...], wanted) -> List[str]:
    """The row that makes the operands fit: one that gives what is wanted first, then one that makes them alike, then of the narrower one."""
    found = []
    for at, kind in enumerate(kinds):
        for other in WIDER + ('boolean',):
            row = (operator, *kinds[:at], other, *kinds[at + 1:])
            gives = BINARY.get(row) or PREFIX.get(row)
            if other != kind and gives and (said := help_in(part, kind, other)):
                rank = WIDER.index(kind) if kind in WIDER else len(WIDER)
                found.append((wanted not in (None, gives), other not in kinds, rank, said))
    return [min(found)[-1]] if found else []


def helps(part: Part, told) -> List[str]:
    """What mends a mismatch of which this is told."""
    if told.get('why'):
        lacks = ['missing: ' + ', '.join('`%s`' % name for name in told['lacks'])] if told.get('lacks') else []
        return lacks + [help_in(part, told['why'])]
    kinds = tuple(kind_of(t) for t in told.get('types', []))
    if told.get('operator'):
        row = parts_row(told['operator'], kinds)
        return [help_in(part, row)] if row else conversions(part, told['operator'], kinds, told.get('wanted'))
    said = help_in(part, kinds[0], kind_of(told['expected'])) if kinds and told.get('expected') else ''
    return [said] if said else []


def label(told, types) -> Optional[str]:
    """What stands there and what is asked for."""
    found = [type_text(t, types) for t in told.get('types', [])]
    if told.get('operator') and len(found) == 2:
        return '%s %s %s' % (found[0], told['operator'], found[1])
    if told.get('operator'):
        return '%s of %s' % (told['operator'].replace(' of', ''), found[0])
    if told.get('expected') and found:
        return '%s, where %s is asked for' % (found[0], type_text(told['expected'], types))
    return ', '.join(found)
