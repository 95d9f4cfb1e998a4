"""The cases that run a scope, computed again."""
import pathlib, re, subprocess, sys

from .answers import Program, is_allowed, replies
from .audit import Table
from .certificate import check
from .drill import drill
from .report import audit, scopes_of

TOP = pathlib.Path(__file__).resolve().parent.parent.parent
OURS = {'words', 'stdin', 'stdout', 'status', 'files'}
EXAMPLE = re.compile(r'^\[(\w+)\]\(\.\./tests/cases/\1\)\n\n?(?:````\n(.*?)\n````\n)?'
                     r'(?:\non (?:`(.*?)` |this:\n\n```\n(.*?)\n```))?'
                     r'.*?\bgives(?: `(.*?)`\.|:\n\n```\n(.*?)\n```)$', re.M | re.S)


def words_of(case):
    """The words of a case."""
    return (case / 'words').read_text().splitlines() if (case / 'words').exists() else []


def reply_in(case):
    """What a case expects, without its last line feed."""
    return (case / 'stdout').read_text().rstrip('\n') if (case / 'stdout').exists() else ''


def files_of(case):
    files = {file.name: file.read_bytes() for file in case.iterdir() if file.name not in OURS}
    if (case / 'files').exists():
        for name in (case / 'files').read_text().splitlines():
            files[pathlib.Path(name).name] = (TOP / name).read_bytes()
    files['-'] = (case / 'stdin').read_bytes() if (case / 'stdin').exists() else b''
    return files


def is_computed(case):
    """Whether the case runs a scope on files that it has."""
    words = words_of(case)
    has_options = any(word.startswith('-') and word != '-' for word in words)
    is_run = 3 <= len(words) <= 4 and words[0] == 'run' and not has_options and 'fault .' not in reply_in(case)
    is_made = (case / 'make').exists() or (case / 'device').exists()
    return is_run and not is_made


def case_folders():
    """The end-to-end cases."""
    return sorted(case for case in (TOP / 'tests' / 'cases').iterdir() if case.is_dir())


def told(want, found):
    """What is compared: the reply that stands for it, where the rules leave its place open or which of two faults is named."""
    return min(found) if want not in found and is_allowed(want, found) else want


def cases():
    """Each case that can be computed: its name, what it expects, and the replies that the rules allow."""
    for case in case_folders():
        if is_computed(case):
            words, files = words_of(case), files_of(case)
            data = files.get(words[3]) if len(words) > 3 else files['-']
            missing = {'missing file %s' % words[3]} if data is None else None
            want = reply_in(case)
            found = missing or replies(files, words[2], words[1], data)
            yield case.name, told(want, found), found


def pages():
    """Each example of the pages: its page and name, its source, input and reply as its case has them, and as it does."""
    for page in ('LANGUAGE.md', 'REFERENCE.md', 'REFUSALS.md', 'AUDIT.md'):
        for name, source, line, text, reply, report in EXAMPLE.findall((TOP / 'docs' / page).read_text()):
            case, told = TOP / 'tests' / 'cases' / name, (source, line or text, reply or report)
            kept = [(case / file).read_bytes().decode(errors='replace').rstrip('\n') if is_told else ''
                    for file, is_told in zip(('a.md', 'stdin', 'stdout'), told)]
            yield '%s %s' % (page, name), tuple(kept), {told}


def audits():
    """Each case that audits a scope which there is: its name, what it expects, and the reply."""
    for case in case_folders():
        words = words_of(case)
        want = reply_in(case)
        if words[:1] == ['audit'] and want.startswith('audit '):
            budget = int(words[words.index('--cases') + 1]) if '--cases' in words else 100_000
            yield case.name, want, {audit(files_of(case), words[2], words[1], budget)}


def checks():
    """Each case that checks a certificate of a scope which there is, and each audit of a statute that has one: its name,
    what it expects, and the reply."""
    for case in case_folders():
        words = words_of(case)
        want = reply_in(case)
        if words[:1] == ['check'] and want.startswith(('Yes', 'certificate refused')) and not (case / 'make').exists():
            files = files_of(case)
            yield case.name, want, {check(files, words[2], words[1], files[(words[3:] or ['-'])[0]])}
    for kept in sorted((TOP / 'examples').glob('*/audit.txt')):
        if b'\ncatala-certificate' in kept.read_bytes():
            law = {'law.md': (kept.parent / 'law.md').read_bytes()}
            reply = check(law, 'law.md', (kept.parent / 'scope').read_text().strip(), kept.read_bytes())
            yield '%s check' % kept.parent.name, 'Yes', {reply}


def statute_audits():
    """The audit of each statute of the examples: the file that keeps it, what that says, and the reply."""
    for law in sorted((TOP / 'examples').glob('*/law.md')):
        kept, scope = law.parent / 'audit.txt', (law.parent / 'scope').read_text().strip()
        want = kept.read_text().rstrip('\n') if kept.exists() else ''
        yield kept, want, audit({'law.md': law.read_bytes()}, 'law.md', scope)


def cells():
    """Each statute of the examples: the targets that its audit calls covered, and those that are, by trying a value of each
    cell of what they ask."""
    for kept in sorted((TOP / 'examples').glob('*/audit.txt')):
        program = Program({'law.md': (kept.parent / 'law.md').read_bytes()}, 'law.md')
        tables = [Table(program, n) for n in scopes_of(program, program.runs.numbers[(kept.parent / 'scope').read_text().strip()])]
        found = [target.name for table in tables for target in table.targets if table.verdict(target) == {'covered'}]
        told = [line[:-len(': Covered')] for line in kept.read_text().split('\n') if line.endswith(': Covered')]
        yield '%s cells' % kept.parent.name, ' '.join(told), {' '.join(found)}


def drills():
    """Each case that asks for a drill: its name, what it expects, and the reply."""
    for case in case_folders():
        words = words_of(case)
        if words[:1] == ['drill']:
            at = words.index('--cases') if '--cases' in words else len(words)
            yield case.name, reply_in(case), {drill(words[1:at] + words[at + 2:])}


def without_places(reply):
    """What a program that knows the law's text alone can tell of a reply."""
    return reply if reply.startswith('{') else reply.split(' at ')[0]


def statutes():
    """Each input of each statute of the examples: its name, what the law's text gives by the program beside it, and the
    reply of the language."""
    for law in sorted((TOP / 'examples').glob('*/law.md')):
        scope = (law.parent / 'scope').read_text().strip()
        for given in sorted(law.parent.glob('*.json')):
            told = subprocess.run([sys.executable, law.parent / 'replies.py'], input=given.read_bytes(),
                                  stdout=subprocess.PIPE, check=True)
            found = replies({'law.md': law.read_bytes()}, 'law.md', scope, given.read_bytes())
            yield '%s %s' % (law.parent.name, given.stem), told.stdout.decode().strip(), set(map(without_places, found))
