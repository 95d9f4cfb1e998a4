"""What `table` and `dead` write, taken apart for the page: the rows of decision tables, and which rules decide at all."""
import re
from typing import Iterator, List

from .traces import LineAt, places_of

TABLE = re.compile(r'table (\S+)')
ROW = re.compile(r'(.*) : (?:definition at (.*:\d+:\d+)|(conflict|no value|not given|false))')
REST = re.compile(r'rest not shown, budget (\d+)')
TERM = re.compile(r'(not |)term at (.*:\d+:\d+)(.*)')
RULE = re.compile(r'(\S+) at (.*?:\d+:\d+): (decides|never decides|Masked|Undecided derived|Undecided budget)(?: (.*))?')
CERTIFICATE = 'catala-dead '


def asked_of(text: str, line_at: LineAt) -> dict:
    """A condition of a row: its text, and the place of what the scope computes where it asks that."""
    found = TERM.fullmatch(text)
    if not found:
        return {'front': text, 'places': [], 'behind': ''}
    return {'front': found[1], 'places': places_of(found[2], line_at), 'behind': found[3]}


def tables_of(reply: str, line_at: LineAt) -> List[dict]:
    """The tables of a scope's variables: of each row what it asks, and what decides there or that nothing does."""
    tables: List[dict] = []
    for text in reply.split('\n'):
        if table := TABLE.fullmatch(text):
            tables.append({'name': table[1], 'rows': [], 'rest': None})
        elif tables and (rest := REST.fullmatch(text)):
            tables[-1]['rest'] = int(rest[1])
        elif tables and (row := ROW.fullmatch(text)):
            asks = [] if row[1] == 'always' else [asked_of(one, line_at) for one in row[1].split(' and ')]
            tables[-1]['rows'].append({'asks': asks, 'result': row[3] or '', 'places': places_of(row[2], line_at)})
    return tables


def rules_of(reply: str, line_at: LineAt) -> List[dict]:
    """The lines on each rule, without the certificate behind them."""
    lines = reply.partition('\n' + CERTIFICATE)[0].split('\n')
    found = [rule for rule in map(RULE.fullmatch, lines) if rule]
    return [{'name': rule[1], 'places': places_of(rule[2], line_at), 'what': rule[3], 'told': rule[4] or ''} for rule in found]


# Of each mode how many leaves of a variable are asked for, and how its reply is read.
READ = {'table': ('200', tables_of), 'dead': ('10000', rules_of)}


def with_places(parts: List[dict]) -> Iterator[dict]:
    """All that has places in tables or in lines on rules."""
    for part in parts:
        if 'rows' not in part:
            yield part
        for row in part.get('rows', []):
            yield from (row, *row['asks'])
