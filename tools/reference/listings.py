"""The listings of the cases and of the statutes, and what their code gives on the inputs that there are."""
import re

from .answers import Program, replies
from .cases import TOP, case_folders, files_of, is_computed, reply_in, told, words_of
from .lowering import Lowering, listings
from .machine import Code
from .modes import replies as any_replies

STEPS = re.compile(r'At the age of (\d+) the run takes (\d+) steps and gives ([\d.]+), .*; at (\d+) it takes (\d+) and gives ([\d.]+),')


def listed_cases():
    """Each case that lists the code of a source, alone or in front of a run: its name, what it expects, and the replies that the rules
    allow."""
    for case in case_folders():
        words = words_of(case)
        if words[:1] == ['emit']:
            yield case.name, reply_in(case), {text.rstrip('\n') for text, _ in any_replies(words, files_of(case))}


def laws():
    """The statutes of the examples: the folder of each, its files and its scope."""
    for law in sorted((TOP / 'examples').glob('*/law.md')):
        yield law.parent, {'law.md': law.read_bytes()}, (law.parent / 'scope').read_text().strip()


def statute_listings():
    """The listing of each statute: the file that keeps it, what that says, and the listing."""
    for folder, files, scope in laws():
        kept = folder / 'listing.txt'
        yield kept, kept.read_text().rstrip('\n') if kept.exists() else '', listings(files, 'law.md', scope).pop()


def code_of(files, main):
    """The code of a source, as its listing is read; nothing where it is refused."""
    if replies(files, main, '', b'') != {'no such scope '}:
        return None
    return Code(Lowering(Program(files, main)).listing())


def case_codes():
    """Each case that runs a scope of a source which there is: the case, the code of the source, the scope and the input."""
    for case in filter(is_computed, case_folders()):
        words, files = words_of(case), files_of(case)
        code = code_of(files, words[2])
        if code and words[-1] in {*files, words[2]}:
            yield case, code, words[1], files[(words[3:] or ['-'])[0]]


def statute_codes():
    """Each input of each statute: its file, the code of the statute, its scope and the input."""
    for folder, _, scope in laws():
        code = Code((folder / 'listing.txt').read_text())
        for given in sorted(folder.glob('*.json')):
            yield given, code, scope, given.read_bytes()


def runs_of_code():
    """Each run of a case and each input of a statute that is run by the code of its source: its name, the reply, and what the code
    gives."""
    for case, code, scope, data in case_codes():
        reply = code.run(scope, data)[0]
        yield '%s by its code' % case.name, told(reply_in(case), {reply}), {reply}
    for given, code, scope, data in statute_codes():
        law = {'law.md': (given.parent / 'law.md').read_bytes()}
        yield ('%s %s by its code' % (given.parent.name, given.stem), replies(law, 'law.md', scope, data).pop(),
               {code.run(scope, data)[0]})


def machine_page():
    """The listing that MACHINE.md reads line by line, and the runs that it tells with their steps."""
    page = (TOP / 'docs' / 'MACHINE.md').read_text()
    source = page.split('\n````\n')[1] + '\n'
    lines = page[page.index('| Listing |'):].split('\n\n')[0]
    text = '\n'.join(re.findall(r'^\| `(.*?)` \| .* \|$', lines, re.M))
    yield 'MACHINE.md', text, listings({'a.md': source.encode()}, 'a.md', 'Fare')
    first = STEPS.search(page.replace('\n', ' ')).groups()
    for age, steps, price in (first[:3], first[3:]):
        reply, taken = Code(text + '\n').run('Fare', b'{"age":%s}' % age.encode())
        yield 'MACHINE.md at %s' % age, '{"price":"%s"} in %s' % (price, steps), {'%s in %d' % (reply, taken)}
