"""What tables come of which records: each row beside what the program writes on that record alone."""
import csv, importlib.util, json

from measure_batch import households

from .office import Office, equal, inputs, missing, said, wanted_row

WHOLE = b'"income":20000,"age_of_youngest":9,"heating":"Gas"'
# Lines with a key, the key, and what the program is to be given.
KEYED = (
    (b'{"id":"C"}', 'C', b'{}'),
    (b'{"id":null,"income":1.10,"heating":"Oil"}', None, b'{"income":1.10,"heating":"Oil"}'),
    ('{"income":1,"id":[1,"ä"],"age_of_youngest":1}'.encode(), [1, 'ä'], b'{"income":1,"age_of_youngest":1}'),
    (b'\t{ "heating" : "Oil" , "income":1 , "\\u0069d": 7 } \r', 7, b'{"heating":"Oil","income":1}'),
    (b'{"id":"K","id":"L",%s}' % WHOLE, 'K', b'{%s}' % WHOLE),
    (b'{"id":"N","a\\nb":1,%s}' % WHOLE, 'N', b'{"a\\nb":1,%s}' % WHOLE),
    (b'{"id":"S","\\ud800":1,%s}' % WHOLE, 'S', b'{"\\ud800":1,%s}' % WHOLE))
# Lines that are given as they are.
BARE = (b'{"id":"B","income":', b'{%s},{%s}' % (WHOLE, WHOLE), b'[]', b'3', b']', b'"\\ud800"', b'{"id":"\xff"}',
        b'{"id":NaN,%s}' % WHOLE, b'{"id":7,"income":Infinity}', b'{"id":"E",%s,}' % WHOLE, b'[' * 127 + b']' * 127,
        b'{%s' % WHOLE, b'"more":1}', b'{"a\\nb":1}')
OUTCOMES = {'outputs', 'no value HeatingSubsidy.subsidy', 'input refused I1', 'input refused I2', 'input refused I3', 'input refused I4'}


def each_record_has_the_line_of_run(office: Office) -> None:
    """Also where it is no JSON, or two values, or half of one, or not for the program's reader, or refused with the end of a line."""
    plain = [('A%d' % k, given) for k, given in enumerate(inputs(12))]
    lines = [(json.dumps({'id': key, **given}).encode(), key, json.dumps(given).encode()) for key, given in plain]
    lines = lines[:6] + list(KEYED) + [(line, None, line) for line in BARE] + lines[6:]
    (office.folder / 'records.jsonl').write_bytes(b'\n\n'.join(line for line, _, _ in lines))
    told, _ = office.batch('--key', 'id', '--size', '20', '--workers', '2', 'records.jsonl', 'results.jsonl')
    wanted = [wanted_row(k, key, office.told(given)) for k, (_, key, given) in enumerate(lines, 1)]
    for seen, want in zip(office.rows('results.jsonl'), wanted):
        equal(seen, want, 'a row')
    outcomes = [row['outcome'] for row in wanted]
    equal(set(outcomes), OUTCOMES, 'what comes')
    equal(sorted(told.splitlines()), sorted('%d %s' % (outcomes.count(outcome), outcome) for outcome in OUTCOMES), 'what is told')


def any_cut_gives_the_same_table(office: Office) -> None:
    office.file('records.jsonl', ''.join(json.dumps({'no': k, **given}) + '\n' for k, given in enumerate(inputs(20))))
    for size, ending in ((3, 'csv'), (20, 'csv'), (7, 'jsonl'), (50, 'jsonl')):
        office.batch('--key', 'no', '--size', str(size), '--workers', '2', 'records.jsonl', '%d.%s' % (size, ending))
    for one, other in (('3.csv', '20.csv'), ('7.jsonl', '50.jsonl')):
        equal((office.folder / one).read_text(), (office.folder / other).read_text(), 'a table of another cut')
    with open(office.folder / '3.csv', newline='') as opened:
        cells = [{name: cell for name, cell in row.items() if cell} for row in csv.DictReader(opened)]
    lines = [{name: str(value) for name, value in row.items() if value != ''} for row in office.rows('7.jsonl')]
    equal(cells, lines, 'the table as CSV')
    equal(sorted(file.name for file in office.folder.iterdir()), ['20.csv', '3.csv', '50.jsonl', '7.jsonl', 'records.jsonl'], 'the folder')


def a_table_of_cells_is_read(office: Office) -> None:
    """CSV with quotes, ends of lines within them, empty cells, cells without a name, and a quote that nothing ends."""
    rows = ['\ufeffkey,income,age_of_youngest,heating', '"a ""b""\nc",1.50,9,"Gas"', '', 'd,20000,2,Oil', 'e,,9,Gas', 'f,1,true,Gas',
            'g,1,9,Gas,h', 'i,1,"[1]",Gas', ',1,9,{', 'j,007,9,Gas', 'k,1,9,"Gas']
    office.file('records.csv', '\r\n'.join(rows))
    for size in ('1', '100'):
        office.batch('--key', 'key', '--size', size, '--workers', '2', 'records.csv', size + '.jsonl')
    row = '{"income":%s,"age_of_youngest":%s,"heating":"%s"}'
    given = [row % ('"1.50"', 9, 'Gas'), row % (20000, 2, 'Oil'), '{"age_of_youngest":9,"heating":"Gas"}', row % (1, 'true', 'Gas'),
             '{"income":1,"age_of_youngest":9,"heating":"Gas","":"h"}', row % (1, '[1]', 'Gas'), row % (1, 9, '{'),
             row % ('"007"', 9, 'Gas'), row % (1, 9, 'Gas')]
    keys = ['a "b"\nc', 'd', 'e', 'f', 'g', 'i', None, 'j', 'k']
    wanted = [wanted_row(k + 1, key, office.told(line.encode())) for k, (key, line) in enumerate(zip(keys, given))]
    for name in ('1.jsonl', '100.jsonl'):
        equal(office.rows(name), wanted, 'the rows')


def a_table_that_says_two_things_is_refused(office: Office) -> None:
    office.file('twice.csv', 'income,income,age_of_youngest,heating\n1,2,9,Gas\n')
    said(office.batch('twice.csv', 'results.csv', status=9)[1], 'the column income is there twice')
    office.file('records.csv', 'income,age_of_youngest,heating\n1,9,Gas\n')
    said(office.batch('--key', 'id', 'records.csv', 'results.csv', status=9)[1], 'there is no column id')


def a_table_without_outputs_has_their_columns(office: Office) -> None:
    office.file('records.jsonl', '{}\n')
    office.batch('records.jsonl', 'results.csv')
    equal((office.folder / 'results.csv').read_text(), 'record,key,outcome,place,subsidy\n1,,input refused I2,income,\n', 'the table')
    office.file('records.jsonl', '\n\n')
    office.batch('records.jsonl', 'results.csv')
    equal((office.folder / 'results.csv').read_text(), 'record,key,outcome,place,subsidy\n', 'the table of no records')


def an_output_may_be_called_as_a_column(office: Office) -> None:
    law = office.file('law.md', '```catala\ndeclaration structure Pair:\n  data a content integer\n  data b content boolean\n'
                      'declaration scope S:\n  input n content integer\n  output place content integer\n'
                      '  input output key content boolean\n  output pair content Pair\nscope S:\n  definition place equals 2 * n\n'
                      '  definition pair equals Pair { -- a: n -- b: key }\n```\n')
    office.file('records.jsonl', '{"n":4,"key":true}\n')
    office.batch('records.jsonl', 'results.csv', law=law, scope='S')
    with open(office.folder / 'results.csv', newline='') as opened:
        seen = list(csv.reader(opened))
    wanted = [['record', 'key', 'outcome', 'place', 'output.place', 'output.key', 'pair'],
              ['1', '', 'outputs', '', '8', 'true', '{"a":4,"b":true}']]
    equal(seen, wanted, 'the table')


def a_table_of_parquet_is_read_and_written(office: Office) -> None:
    if importlib.util.find_spec('pyarrow') is None:
        missing('pyarrow', 'a table of Parquet')
        office.file('records.jsonl', '\n'.join(households(2)))
        said(office.batch('records.jsonl', 'results.parquet', status=1)[1], 'pyarrow is missing')
        return
    import decimal, pyarrow, pyarrow.parquet

    told = [{'key': k, 'income': decimal.Decimal('%d.50' % k), 'age_of_youngest': 9 - k, 'heating': 'Gas'} for k in range(5)]
    pyarrow.parquet.write_table(pyarrow.Table.from_pylist(told), office.folder / 'records.parquet', row_group_size=2)
    office.batch('--key', 'key', '--size', '3', '--workers', '1', 'records.parquet', 'results.parquet')
    lines = [office.told(('{"income":"%d.50","age_of_youngest":%d,"heating":"Gas"}' % (k, 9 - k)).encode()) for k in range(5)]
    wanted = [{**wanted_row(k + 1, str(k), line), 'place': None} for k, line in enumerate(lines)]
    equal(pyarrow.parquet.read_table(office.folder / 'results.parquet').to_pylist(), wanted, 'the table')


SAMPLE = [each_record_has_the_line_of_run]
TESTS = [*SAMPLE, any_cut_gives_the_same_table, a_table_of_cells_is_read, a_table_that_says_two_things_is_refused,
         a_table_without_outputs_has_their_columns, an_output_may_be_called_as_a_column, a_table_of_parquet_is_read_and_written]
