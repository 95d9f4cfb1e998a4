"""What the server answers and what it refuses, asked without a browser."""
import json, os, socket, subprocess, time
from typing import Set

from paging.tables import READ, tables_of

from .served import EXAMPLES, SECONDS, TOP, Office

STATIC, GRAMMAR = TOP / 'tools' / 'paging' / 'static', TOP / 'editors' / 'vscode' / 'syntaxes' / 'catala.tmLanguage.json'

PLAIN = """```catala
declaration scope S:
  input n content integer
  output x content integer
scope S:
  definition x equals n + 1
```
"""


def law(text: str, **others: str) -> dict:
    """A law as the page has it; other texts are those of files `NAME.md` that aren't saved."""
    return {'text': text, 'others': {name + '.md': other for name, other in others.items()}}


def who_has_no_token_is_refused(office: Office) -> None:
    with office.serves(office.folder(law_md=PLAIN)) as served:
        ours = {'Origin': 'http://' + served.host}
        wrong = '/%s/' % ('x' * (len(served.path) - 2))
        for path in ('/', '/law', wrong, wrong + 'law', served.path[:-1], '//', '/favicon.ico'):
            assert served.answer('GET', path)[0] == 403, path
            assert served.answer('POST', path, ours, '{}')[0] == 403, path
        assert served.answer('GET', served.path)[0] == 200
        assert served.answer('POST', served.path + 'law', ours, '{}')[0] == 200


def a_browser_is_opened_with_a_ticket_for_one_time(office: Office) -> None:
    told = office.room / 'told'
    script = office.room / 'browser'
    script.write_text('#!/bin/sh\necho "$1" >%s\n' % told)
    script.chmod(0o755)
    with office.serves(office.folder(law_md=PLAIN), browser='%s %%s' % script) as served:
        ends = time.monotonic() + SECONDS
        while not told.exists() or not told.read_text().endswith('\n'):
            assert time.monotonic() < ends, 'no browser is called'
            time.sleep(0.1)
        ticket = told.read_text().strip()[len('http://' + served.host):]
        assert served.path[1:-1] not in ticket and len(ticket) > 40, ticket
        assert served.answer('GET', ticket + '/')[0] == 403 and served.answer('POST', ticket, {'Origin': 'http://' + served.host})[0] == 403
        assert served.answer('GET', ticket)[0] == 303
        assert served.answer('GET', ticket)[0] == 403 and served.answer('GET', '/')[0] == 403


def other_hosts_and_origins_are_refused(office: Office) -> None:
    with office.serves(office.folder(law_md=PLAIN)) as served:
        port = served.host.split(':')[1]
        ours = {'Origin': 'http://' + served.host}
        others = ('evil.example', 'evil.example:' + port, 'localhost:' + port, '127.0.0.1', '127.0.0.1:1', served.host + '.evil.example')
        for host in (None, *others):
            assert served.answer('GET', served.path, {'Host': host})[0] in (400, 403), host
            assert served.answer('POST', served.path + 'law', {**ours, 'Host': host}, '{}')[0] in (400, 403), host
        for origin in (None, 'null', 'http://evil.example', 'http://localhost:' + port, 'https://' + served.host, 'http://127.0.0.1', ''):
            assert served.answer('POST', served.path + 'law', {'Origin': origin}, '{}')[0] == 403, origin
        assert served.answer('GET', served.path, {'Origin': 'http://evil.example'})[0] == 403


def nothing_but_the_pages_own_files_is_served(office: Office) -> None:
    folder = office.folder(law_md=PLAIN, other_md='no')
    (folder / 'secret').symlink_to('/etc/passwd')
    with office.serves(folder) as served:
        others = 'law.md other.md secret ../law.py ..%2flaw.py %2e%2e/law.py /etc/passwd static/page.js law ? page.js/'
        for name in others.split():
            assert served.answer('GET', served.path + name)[0] in (403, 404), name
        for method in ('PUT', 'DELETE', 'OPTIONS', 'HEAD', 'TRACE', 'CONNECT'):
            assert served.answer(method, served.path)[0] in (403, 405, 501), method
        assert served.answer('POST', served.path + 'nothing', {'Origin': 'http://' + served.host}, '{}')[0] == 404
        for body in ('', '{', '[]', '{"text":1}', '{}', '7'):
            assert served.answer('POST', served.path + 'save', {'Origin': 'http://' + served.host}, body)[0] == 400, body


def own_addresses() -> Set[str]:
    """Addresses of this machine: another one of its loop, and those of its name, where that has any."""
    try:
        named = socket.getaddrinfo(socket.gethostname(), None, socket.AF_INET)
    except OSError:
        named = []
    return {'127.0.0.2', *(told[4][0] for told in named)}


def it_binds_to_one_address(office: Office) -> None:
    with office.serves(office.folder(law_md=PLAIN)) as served:
        port = int(served.host.split(':')[1])
        for address in own_addresses():
            if address != '127.0.0.1':
                try:
                    socket.create_connection((address, port), 2).close()
                except OSError:
                    continue
                raise AssertionError('it answers at %s' % address)


def cases_are_new_files_of_the_folder(office: Office) -> None:
    folder = office.folder(law_md=PLAIN)
    with office.serves(folder) as served:
        def keep(name, scope='S'):
            return served.parts('keep', {'name': name, 'scope': scope, 'input': '{"n":1}', 'reply': '{"x":2}'})[0]['why']
        for name in ('', '..', '../out', 'a/b', '.hidden', '-a', 'a b', 'a\0', 'a' * 101, 'ä'):
            assert keep(name), name
        assert sorted(os.listdir(folder)) == ['law.md']
        assert keep('one_and_one') == ''
        assert sorted(os.listdir(folder)) == ['law.md', 'one_and_one.json', 'one_and_one.reply', 'scope']
        assert 'already' in keep('one_and_one') and 'scope S' in keep('another', 'T')
        (folder / 'linked.reply').symlink_to(folder / 'law.md')
        assert keep('linked') and (folder / 'law.md').read_text() == PLAIN and not (folder / 'linked.json').exists()
        told = served.parts('cases', law(PLAIN))[0]
        assert [(one['name'], one['is']) for one in told['cases']] == [('one_and_one', 'agrees')], told
        told = served.parts('cases', law(PLAIN.replace('n + 1', 'n + 2')))[0]
        assert [one['is'] for one in told['cases']] == ['differs'], told


def a_file_that_changed_is_not_written_over(office: Office) -> None:
    folder = office.folder(law_md=PLAIN)
    with office.serves(folder) as served:
        state = served.parts('law', {})[0]
        (folder / 'law.md').write_text(PLAIN + 'by another\n')
        save = lambda text, known: served.parts('save', {'name': 'law.md', 'text': text, 'sum': known})[0]
        assert save('mine', state['sum']) == {'isChanged': True}
        told = served.parts('changes', {'sums': {'law.md': state['sum']}})[0]['files']['law.md']
        assert told['text'].endswith('by another\n')
        os.chmod(folder / 'law.md', 0o640)
        assert save('mine\r\n', told['sum']).get('sum')
        assert (folder / 'law.md').read_bytes() == b'mine\r\n' and os.stat(folder / 'law.md').st_mode & 0o777 == 0o640
        assert os.listdir(folder) == ['law.md']


def what_a_law_includes_from_its_folder_is_opened_and_saved(office: Office) -> None:
    folder = office.folder(law_md='> Include: part.md\n', part_md=PLAIN, other_md='no')
    (folder / 'linked.md').symlink_to('/etc/passwd')
    (folder / 'away').symlink_to('/etc')
    with office.serves(folder) as served:
        opened = lambda name: served.parts('open', {'name': name})[0]
        assert opened('part.md') == {'name': 'part.md', 'isGone': True}
        first, *_ = served.parts('faults', law('> Include: part.md\n'))
        assert first['isAccepted'] and first['includes'] == [{'name': 'part.md', 'mayOpen': True}], first
        state = opened('part.md')
        assert state['text'] == PLAIN
        others = ('linked.md', 'away/passwd', '../law/other.md', './other.md', '/etc/passwd', '-')
        first, *_ = served.parts('faults', law(''.join('> Include: %s\n' % name for name in others)))
        assert [told['mayOpen'] for told in first['includes']] == [False] * len(others), first
        for name in ('other.md', '', 'part.md\0', *others):
            assert opened(name).get('isGone'), name
            assert served.parts('save', {'name': name, 'text': 'x', 'sum': state['sum']})[0].get('error'), name
        assert served.parts('save', {'name': 'part.md', 'text': PLAIN + 'more\n', 'sum': state['sum']})[0].get('sum')
        assert (folder / 'part.md').read_text() == PLAIN + 'more\n' and (folder / 'other.md').read_text() == 'no'
        told = served.parts('changes', {'sums': {'part.md': state['sum'], 'other.md': ''}})[0]['files']
        assert told['part.md']['text'] == PLAIN + 'more\n' and told['other.md'] == {'isGone': True}, told
        for others in ('part.md', {'../part.md': ''}, {'/part.md': ''}, {'part.md': 7}, {'a\0': ''}):
            body = json.dumps({'text': '', 'others': others})
            assert served.answer('POST', served.path + 'faults', {'Origin': 'http://' + served.host}, body)[0] == 400, others


def texts_of_files_that_are_not_saved_are_run(office: Office) -> None:
    folder = office.folder(law_md='', part_md=PLAIN, one_json='{"n":1}', one_reply='{"x":2}')
    (folder / 'scope').write_text('S\n')
    (folder.parent / 'above.md').write_text(PLAIN.replace('S', 'T'))
    (folder / 'deeper').mkdir()
    (folder / 'deeper' / 'more.md').write_text('> Include: ../above.md\n')
    with office.serves(folder) as served:
        text = '> Include: part.md\n> Include: deeper/more.md\n'
        changed = law(text, part=PLAIN.replace('n + 1', 'n + 5'))
        for scope, asked, reply in (('S', law(text), 2), ('S', changed, 6), ('T', changed, 2)):
            told = served.parts('run', {**asked, 'scope': scope, 'input': '{"n":1}', 'job': '1'})[0]
            assert told['reply'] == '{"x":%d}' % reply, told
        assert [served.parts('cases', asked)[0]['cases'][0]['is'] for asked in (law(text), changed)] == ['agrees', 'differs']
        _, formed, last = served.parts('faults', changed)
        defined = [(of['places'][0]['file'], of['places'][0]['line']) for scope in formed['forms']['scopes'] for of in scope['defined']]
        assert defined == [('part.md', 6), ('../above.md', 6)], defined
        assert [note['places'][0]['file'] for note in last['notes']] == ['deeper/more.md'], last
        first, last = served.parts('faults', law(text, part='\n' + PLAIN.replace('x equals', 'x equal')))
        assert first['reply'] == 'source refused E6 at part.md:7:16', first
        for note in (first['notes'][0], last['notes'][0]):
            assert [note['places'][0][key] for key in ('file', 'line', 'piece')] == ['part.md', 7, 'equal'], note
        assert sorted(os.listdir(folder)) == ['deeper', 'law.md', 'one.json', 'one.reply', 'part.md', 'scope']


def an_installed_page_is_served(office: Office) -> None:
    for folder in ('prefix/bin', 'elsewhere'):
        subprocess.run([TOP / 'install', office.room / folder], check=True)
        with office.serves(office.folder(law_md=PLAIN), page=office.room / folder / 'catala-page') as served:
            for name in ('', 'page.js', 'page.css', 'grammar.json'):
                status, body = served.answer('GET', served.path + name)
                own = STATIC / (name or 'page.html')
                assert status == 200 and body == (own if own.exists() else GRAMMAR).read_bytes(), name
            first, last = served.parts('faults', law(PLAIN.replace('equals', 'equal')))
            assert first['reply'] == 'source refused E6 at law.md:6:16' and 'here may stand' in json.dumps(last), (first, last)


def each_reply_is_the_programs(office: Office) -> None:
    with office.serves(office.folder('heating_subsidy_draft')) as served:
        text = served.law.read_text()
        run = lambda given: served.parts('run', {**law(text), 'scope': 'HeatingSubsidy', 'input': given, 'job': '1'})[0]
        told = run('{"income":1,"age_of_youngest":9,"heating":"Gas"}')
        decided = [(one['name'], one['times'], one['heading'], one['places'][0]['file'], one['places'][0]['line']) for one in told['trace']]
        assert decided == [('HeatingSubsidy.subsidy', 1, 'Section 2', 'law.md', 29)], decided
        assert {**told, 'trace': []} == {'status': 0, 'reply': '{"subsidy":"300.00"}', 'trouble': '', 'trace': []}, told
        clash = 'conflict HeatingSubsidy.subsidy at law.md:56:23 law.md:65:23'
        assert run('{"income":1,"age_of_youngest":1,"heating":"DistrictHeating"}')['reply'] == clash
        first, *_ = served.parts('faults', law(text.replace('equals $300', 'equal $300')))
        column = text.split('\n')[28].index('equals $300') + 1
        assert first['reply'] == 'source refused E6 at law.md:29:%d' % column, first
        audit = served.parts('audit', {**law(text), 'scopes': ['HeatingSubsidy'], 'job': '2'})
        line, = audit[0]['sections'][0]['lines']
        assert line['input'] == '{"age_of_youngest":0,"heating":"DistrictHeating","income":"0.00"}', line
        assert [place['line'] for place in audit[1]['notes'][0]['places']] == [56, 65]


def a_picture_is_made_of_the_programs_answers(office: Office) -> None:
    with office.serves(office.folder('heating_subsidy_draft')) as served:
        asked = {**law(served.law.read_text()), 'scope': 'HeatingSubsidy', 'of': 'subsidy', 'job': '1',
                 'input': '{"age_of_youngest":2,"heating":"DistrictHeating","income":0}'}
        draw = lambda over, start, end, step, **more: served.parts('picture', {**asked, 'over': over, 'from': start, 'to': end,
                                                                               'step': step, **more})
        first, whole = draw('age_of_youngest', '0', '5', '1')
        assert not first['isWhole'] and whole['isWhole'] and not first['changes'], (first, whole)
        assert whole['pieces'] == first['pieces'] == [[[3, 100], [4, 100], [5, 100]]], whole
        stretch, = whole['stretches']
        clash = 'HeatingSubsidy.subsidy at law.md:56:23 law.md:65:23'
        assert (stretch['kind'], stretch['fromText'], stretch['toText'], stretch['told']) == ('conflict', '0', '2', clash), stretch
        change, = whole['changes']
        seen = (change['at'], change['heading'], change['places'][0]['file'], change['places'][0]['line'])
        assert seen == ('3', 'Section 6', 'law.md', 65), seen
        assert [part['stretches'][0]['kind'] for part in draw('income', '0', '2', '1', input='{}')] == ['input refused'] * 2
        age, income = ('age_of_youngest', '0', '5', '1'), ('income', '0', '5', '1')
        for words, more in ((age, {'of': 'nothing'}), (('a.b', '0', '5', '1'), {}), (('income', '5', '0', '1'), {}),
                            (('income', 'x', '5', '1'), {}), (('income', '0', '5000', '1'), {}), (income, {'input': '['}),
                            (income, {'scope': 'T'}), (('income', '0001-01-01', '9999-12-31', '1'), {})):
            part, = draw(*words, **more)
            assert part['trouble'], (words, more)


def tables_and_rules_are_taken_apart_whole(office: Office) -> None:
    """No line of the stored replies is lost."""
    line_at = lambda name, number: None
    cases = [(case, (case / 'words').read_text().split()) for case in (TOP / 'tests' / 'cases').iterdir()]
    replies = [(words[0], (case / 'stdout').read_text()) for case, words in cases if words and words[0] in READ]
    replies += [(mode, file.read_text()) for mode in READ for file in EXAMPLES.glob('*/%s.txt' % mode)]
    assert {mode for mode, _ in replies} == set(READ) and len(replies) > 40, len(replies)
    for mode, reply in replies:
        if reply.startswith(('no such', 'certificate refused', 'missing file')) or 'Yes' in reply:
            continue
        parts = READ[mode][1](reply, line_at)
        lines = reply.partition('\ncatala-dead ')[0].strip('\n').split('\n')
        told = [line for line in lines if not line.startswith('dead ')]
        taken = len(parts) if mode == 'dead' else sum(1 + len(table['rows']) + (table['rest'] is not None) for table in parts)
        assert taken == len(told), (mode, reply)
    always, row = [table['rows'][0] for table in tables_of(
        'table S.w\nalways : conflict\ntable S.v\nnot term at a b.md:3:4 and e is A and n < -3 : not given\n', line_at)]
    assert always == {'asks': [], 'result': 'conflict', 'places': []}, always
    asks = [(one['front'], [(at['file'], at['line'], at['column']) for at in one['places']], one['behind']) for one in row['asks']]
    assert asks == [('not ', [('a b.md', 3, 4)], ''), ('e is A', [], ''), ('n < -3', [], '')] and row['result'] == 'not given', row


def tables_are_asked_for_where_the_program_has_them(office: Office) -> None:
    text = (TOP / 'tests' / 'cases' / 'a_dead_certificate_is_accepted' / 'a.md').read_text()
    with office.without_tables().serves(office.folder(law_md=text)) as served:
        assert served.parts('law', {})[0]['modes'] == []
        assert served.parts('tables', {**law(text), 'scopes': ['S'], 'job': '1'}) == []
    with office.serves(office.folder(law_md=text)) as served:
        assert served.parts('law', {})[0]['modes'] == ['table', 'dead']
        first, last = served.parts('tables', {**law(text), 'scopes': ['S'], 'job': '1'})
        rows = [([one['front'] for one in row['asks']], row['places'][0]['line']) for row in first['table'][0]['rows'] if row['places']]
        assert (['n > 3'], 7) in [(asks[-1:], line) for asks, line in rows], first
        seen = [(rule['name'], rule['what'], rule['places'][0]['file'], rule['places'][0]['line']) for rule in last['dead']]
        assert seen == [('x', 'never decides', 'law.md', 6), ('x', 'decides', 'law.md', 7)], last


TESTS = [who_has_no_token_is_refused, a_browser_is_opened_with_a_ticket_for_one_time, other_hosts_and_origins_are_refused,
         nothing_but_the_pages_own_files_is_served, it_binds_to_one_address, cases_are_new_files_of_the_folder,
         a_file_that_changed_is_not_written_over, what_a_law_includes_from_its_folder_is_opened_and_saved,
         texts_of_files_that_are_not_saved_are_run, an_installed_page_is_served, each_reply_is_the_programs,
         a_picture_is_made_of_the_programs_answers, tables_and_rules_are_taken_apart_whole,
         tables_are_asked_for_where_the_program_has_them]
