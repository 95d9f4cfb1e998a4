"""What docs/BATCH.md tells is done as it stands there, in an empty folder in which `catala` is this checkout."""
import csv, json, os, pathlib, pwd, re, shutil, subprocess

from page_commands import commands, status_of

from .office import PAGE, STATUTE, TOP, Failure, Office, blocks, equal, inputs, missing, said, wanted_row

SERVER = ('initdb', 'pg_ctl', 'psql')


def the_commands_of_the_page_write_what_it_says(office: Office) -> None:
    (office.folder / 'catala').symlink_to(TOP)
    office.file('households.csv', blocks('csv')[0])
    office.file('households.jsonl', blocks('json')[0])
    for command, reply in commands(PAGE):
        ended = subprocess.run(['sh', '-c', command], cwd=office.folder, stdout=subprocess.PIPE, stderr=subprocess.PIPE, text=True)
        equal((ended.stdout, ended.returncode), (reply, status_of(reply)), 'what `%s` writes, with %r,' % (command, ended.stderr))


def script(word: str) -> str:
    """The block of a shell in which a word stands, with small chunks."""
    return next(block for block in blocks('sh') if word in block).replace('10000', '10').replace('1M', '1k')


def follow(office: Office, word: str) -> None:
    """Each record stands beside its line; where a line of the records is broken, nothing is written."""
    given = [json.dumps(one) for one in inputs(75)]
    office.file('records.jsonl', '\n'.join(given) + '\n')
    office.file('law.md', STATUTE.read_text())
    call = lambda: subprocess.run(['sh', '-c', script(word)], cwd=office.folder, env=office.environment(), stderr=subprocess.PIPE,
                                  text=True)
    ended = call()
    lines = [line.replace(str(STATUTE), 'law.md') for line in office.lines(given)]
    equal(ended.returncode, 0, 'the status, with %s,' % ended.stderr)
    equal((office.folder / 'results.tsv').read_text().splitlines(), ['%s\t%s' % pair for pair in zip(given, lines)], 'the table')
    for broken in ('{"income":', '{},{}'):
        (office.folder / 'results.tsv').unlink()
        office.file('records.jsonl', '\n'.join([*given[:33], broken, *given[33:]]) + '\n')
        ended = call()
        is_there = (office.folder / 'results.tsv').exists()
        equal((ended.returncode == 0, is_there), (False, False), 'whether it passes %s, and that there is a table,' % broken)
        office.file('results.tsv', '')


def xargs_gives_the_lines(office: Office) -> None:
    follow(office, 'xargs')


def parallel_gives_the_lines(office: Office) -> None:
    if shutil.which('parallel') is None:
        missing('parallel', 'what the page says of it')
        return
    follow(office, 'parallel')


def a_server_of_tables_computes(office: Office) -> None:
    """PostgreSQL, on a server that is started in a folder of its own; root may not start one, so `nobody` does."""
    beside = sorted(pathlib.Path('/usr/lib/postgresql').glob('*/bin'))
    path = ':'.join([*map(str, beside[-1:]), office.environment()['PATH']])
    if not all(shutil.which(name, path=path) for name in SERVER):
        missing('PostgreSQL', 'what the page says of it')
        return
    for name, text in zip(('table.sql', 'batch.sql'), blocks('sql')):
        office.file(name, text)
    office.file('law.md', STATUTE.read_text())
    office.folder.chmod(0o700)
    front = []
    if os.geteuid() == 0:
        nobody = pwd.getpwnam('nobody')
        for file in (office.folder, *office.folder.rglob('*')):
            os.chown(file, nobody.pw_uid, nobody.pw_gid, follow_symlinks=False)
        front = ['setpriv', '--reuid', 'nobody', '--regid', str(nobody.pw_gid), '--clear-groups']
    server = blocks('server')[0].replace("-c '", "--csv -c '")
    ended = subprocess.run([*front, 'sh', '-e', '-c', server], cwd=office.folder, stdout=subprocess.PIPE, stderr=subprocess.PIPE, text=True,
                           env={'PATH': path, 'HOME': str(office.folder), 'LC_ALL': 'C.UTF-8', 'PWD': str(office.folder)})
    if ended.returncode or (office.folder / 'data' / 'postmaster.pid').exists():
        end_server(office, front, path)
        raise Failure('the server: %s%s%s' % (ended.stdout, ended.stderr, (office.folder / 'log').read_text()))
    equal(list(csv.reader(ended.stdout.splitlines())), wanted_result(office), 'the table of results')


def end_server(office: Office, front, path: str) -> None:
    subprocess.run([*front, 'pg_ctl', '-D', 'data', '-m', 'immediate', 'stop'], cwd=office.folder, env={'PATH': path},
                   stdout=subprocess.DEVNULL, stderr=subprocess.DEVNULL)


def wanted_result(office: Office) -> list:
    """The table of results of the rows that the page inserts, by what the program writes on each."""
    wanted = [['id', 'outcome', 'place', 'subsidy']]
    rows = re.findall(r"\((\d+), ([\d.]+|NULL), (\d+), '(\w+)'\)", blocks('sql')[0])
    for number, income, age, heating in rows:
        given = {'income': None if income == 'NULL' else income, 'age_of_youngest': int(age), 'heating': heating}
        row = wanted_row(0, None, office.told(json.dumps(given).encode()).replace(str(STATUTE), 'law.md'))
        wanted.append([number, row['outcome'], row['place'], row.get('subsidy', '')])
    if len(wanted) < 3:
        raise Failure('the page inserts no rows')
    return wanted


ALONE = [xargs_gives_the_lines, parallel_gives_the_lines, a_server_of_tables_computes]
SAMPLE = [the_commands_of_the_page_write_what_it_says]
TESTS = SAMPLE
