"""What the page may ask for: the law's files, its faults, audits, runs and cases, and that a file is saved."""
import functools, itertools, re, threading
from typing import Iterator, List, Optional

from explaining.pages import Pages
from explaining.report import Section, open_lines, sections_of
from explaining.traces import traced

from .cases import Cases
from .law import Changed, Law
from .layout import laid_out
from .notes import first_words
from .pictures import pictures
from .program import SECONDS, SECONDS_OF_AUDIT, STOPPED, TOO_LONG, Ended, Program
from .tables import READ, with_places
from .traces import trace_of
from .words import Overtaken, Words

PLACE = re.compile(r'(?<= )-(?=:\d+:\d+(?: |$))', re.M)
ACCEPTED = (9, 'no such scope ')
# What each question has beside its name; all of it is text, but the scopes, which are a list of texts, and what is kept by names of
# files: `others`, texts that aren't saved, and `sums`.
LAW = ('text', 'others')
ASKED = {'law': (), 'changes': ('sums',), 'open': ('name',), 'save': ('name', 'text', 'sum'), 'faults': LAW,
         'audit': (*LAW, 'scopes', 'job'), 'stop': ('job',), 'run': (*LAW, 'scope', 'input', 'job'), 'cases': LAW, 'compute': LAW,
         'tables': (*LAW, 'scopes', 'job'), 'picture': (*LAW, 'scope', 'input', 'over', 'from', 'to', 'step', 'of', 'job'),
         'keep': ('name', 'scope', 'input', 'reply')}
BY_NAMES = ('others', 'sums')
NO_SCOPE = ''  # A scope of no source, so that the source is read and built, and no more.


class Desk:
    """Answers what the page asks for. Each answer is a row of parts, which are sent as they come."""

    def __init__(self, law: Law, program: Program, words: Words):
        self.law, self.program, self.words = law, program, words
        self.of_audits = words.another()
        self.cases, self.pages, self.saving = Cases(law, program), Pages(), threading.Lock()
        self.answers = {'law': self.state, 'changes': self.changes, 'open': self.open, 'save': self.save, 'faults': self.faults,
                        'audit': self.audit, 'run': self.run, 'stop': self.stop, 'cases': self.all_cases, 'compute': self.compute,
                        'keep': self.keep, 'picture': self.picture, 'tables': self.tables}
        words.begin()

    def is_question(self, name: str, asked: object) -> bool:
        """Whether a question has what it has to have, in texts, of which those that are words of a call have no NUL."""
        if not isinstance(asked, dict) or set(asked) != set(ASKED[name]):
            return False
        scopes, named = asked.get('scopes', []), [asked[key] for key in BY_NAMES if key in asked]
        if not isinstance(scopes, list) or not all(isinstance(of_names, dict) for of_names in named):
            return False
        words = [asked.get('scope', ''), *scopes]
        texts = [value for key, value in asked.items() if key not in ('scopes', *BY_NAMES)]
        texts += [text for of_names in named for pair in of_names.items() for text in pair]
        are_names = all(self.law.is_name(name) for name in asked.get('others', ()) if is_text(name))
        return all(map(is_text, [*texts, *words])) and are_names and not any('\0' in word for word in words)

    def end(self) -> None:
        self.program.stop_all()
        self.words.end()
        self.of_audits.end()

    def called(self, ended: Ended) -> Ended:
        """A reply whose places in the law have its file's name."""
        return ended._replace(reply=PLACE.sub(self.law.name, ended.reply))

    def named(self, notes):
        """Notes whose places in the law have its file's name."""
        for note in notes or []:
            for place in note['places']:
                place['file'] = self.law.name if place['file'] == '-' else place['file']
        return notes

    def explained(self, words: Words, mode: str, scope: str, ended: Ended, folder: str, text: str, given: str = '', of: str = ''):
        """The notes on a reply; nothing where there are none."""
        if ended.status < 0:
            return None
        return self.named(words.asked({'asks': 'notes', 'mode': mode, 'scope': scope, 'status': ended.status, 'reply': ended.reply,
                                       'folder': folder, 'text': text, 'input': given}, of))

    def laid(self, asked: dict):
        """The folder in which the law is laid out as the page has it."""
        return laid_out(self.law, asked['text'], asked['others'], self.program.room)

    # ---- the law's files

    def state(self, asked: dict) -> Iterator[dict]:
        """The law's own file, and which modes the program has of those that it may have."""
        for told in self.open({'name': self.law.name}):
            yield {**told, 'modes': self.modes}

    @functools.cached_property
    def modes(self) -> List[str]:
        """Which modes the program has of those that it may have: where it lacks one, any words are wrong use."""
        replies = {mode: self.program.call(str(self.law.folder), [mode, '--', NO_SCOPE, '-'], '').reply for mode in READ}
        return [mode for mode, reply in replies.items() if reply.startswith(ACCEPTED[1])]

    def open(self, asked: dict) -> Iterator[dict]:
        """A file of the law, with its text."""
        file = self.law.file_of(asked['name'])
        state = file.state() if file else None
        yield {'name': asked['name'], 'text': state.text, 'sum': state.sum} if state else {'name': asked['name'], 'isGone': True}

    def includes(self, asked: dict) -> list:
        """The files that the law includes, and of each whether it may be opened."""
        return [{'name': name, 'mayOpen': self.law.is_inside(name)} for name in self.law.includes(asked['text'], asked['others'])]

    def line_of(self, asked: dict, name: str, number: int) -> Optional[str]:
        """A line of the law as the page has it; nothing where it lies in no file of its folder."""
        own = asked['text'] if name == '-' else asked['others'].get(name)
        text = self.law.text_of(name) if own is None and self.law.file_of(name) else own
        lines = text.split('\n', number) if text is not None else []
        return lines[number - 1] if len(lines) >= number else None

    def changes(self, asked: dict) -> Iterator[dict]:
        """The texts of the files that are other ones than the page knows."""
        states = {}
        for name, known in asked['sums'].items():
            file = self.law.file_of(name)
            state = file.state() if file else None
            if state is None:
                states[name] = {'isGone': True}
            elif state.sum != known:
                states[name] = {'text': state.text, 'sum': state.sum}
        yield {'cases': self.cases.seen(), 'files': states}

    def save(self, asked: dict) -> Iterator[dict]:
        file = self.law.file_of(asked['name'])
        if file is None:
            yield {'error': '%s is no file of the law' % asked['name']}
            return
        with self.saving:
            try:
                yield {'sum': file.save(asked['text'], asked['sum']).sum}
            except Changed:
                yield {'isChanged': True}
            except (OSError, ValueError) as error:
                yield {'error': str(error)}

    # ---- the program's answers

    def faults(self, asked: dict) -> Iterator[dict]:
        """How the source is refused, with the words of the pages first; and of an accepted one the forms and the warnings."""
        with self.laid(asked) as folder:
            yield from self.faults_in(folder, asked)

    def faults_in(self, folder: str, asked: dict) -> Iterator[dict]:
        text = asked['text']
        ended = self.program.call(folder, ['run', '--', NO_SCOPE, '-'], text)
        is_accepted = ended.status == ACCEPTED[0] and ended.reply.startswith(ACCEPTED[1])
        includes = self.includes(asked)
        first = [] if is_accepted else first_words(ended.reply, self.pages, lambda name, number: self.line_of(asked, name, number))
        yield {'isAccepted': is_accepted, 'reply': '' if is_accepted else self.called(ended).reply, 'includes': includes,
               'trouble': trouble(ended, SECONDS), 'notes': self.named(first)}
        try:
            if is_accepted:
                forms = self.words.asked({'asks': 'forms', 'folder': folder, 'text': text}, 'faults')
                yield {'forms': self.named_forms(forms)}
                ended = Ended(0, '')
            yield {'notes': self.explained(self.words, 'run', NO_SCOPE, ended, folder, text, of='faults')}
        except Overtaken:
            pass

    def named_forms(self, forms: Optional[dict]) -> Optional[dict]:
        """Forms whose definitions in the law have its file's name."""
        for scope in forms['scopes'] if forms else []:
            for defined in scope['defined']:
                defined['places'] = [{**at, 'file': self.law.name if at['file'] == '-' else at['file']} for at in defined['places']]
        return forms

    def audit(self, asked: dict) -> Iterator[dict]:
        with self.laid(asked) as folder:
            yield from self.audit_in(folder, asked)

    def audit_in(self, folder: str, asked: dict) -> Iterator[dict]:
        """The sections of each scope's report that no report in front had, as they come, and then what explains them."""
        text, job, told = asked['text'], asked['job'], set()
        reports = []
        for scope in asked['scopes']:
            if scope in told:
                continue
            ended = self.program.call(folder, ['audit', '--', scope, '-'], text, job=job, seconds=SECONDS_OF_AUDIT)
            sections = [section for section in sections_of(self.called(ended).reply) if section.scope not in told]
            told.update(section.scope for section in sections)
            yield {'scope': scope, 'sections': list(map(as_data, sections)), 'trouble': trouble(ended, SECONDS_OF_AUDIT)}
            if ended.status == STOPPED:
                return
            reports.append((scope, ended))
        for scope, ended in reports:
            try:
                notes = self.explained(self.of_audits, 'audit', scope, ended, folder, text, of='audit') or []
                yield {'notes': [{**note, 'scope': line.scope} for line, note in zip(open_lines(ended.reply), notes)]}
            except Overtaken:
                return

    def run(self, asked: dict) -> Iterator[dict]:
        """What `run` replies, and the trace in front of it."""
        scope, text, given = asked['scope'], asked['text'], asked['input']
        with self.laid(asked) as folder:
            ended = self.program.call(folder, ['trace', '--', scope, '-'], text, given, job=asked['job'])
            decided, reply = traced(ended.reply, ended.status)
            ended = ended._replace(reply=reply)
            trace = self.named(trace_of(decided, lambda name, number: self.line_of(asked, name, number)))
            yield {'status': ended.status, 'reply': self.called(ended).reply, 'trouble': trouble(ended, SECONDS), 'trace': trace}
            if ended.status > 0:
                yield {'notes': self.explained(self.words, 'run', scope, ended, folder, text, given)}

    def picture(self, asked: dict) -> Iterator[dict]:
        """An output along an input, first as `many` has it, and then with who decides, as `trace` has it."""
        with self.laid(asked) as folder:
            for part in pictures(self.program, folder, asked, lambda name, number: self.line_of(asked, name, number)):
                self.named(part.get('changes'))
                for stretch in part.get('stretches', []):
                    stretch['told'] = PLACE.sub(self.law.name, stretch['told'])
                yield part

    def tables(self, asked: dict) -> Iterator[dict]:
        """The decision tables of each scope, and which of its rules never decide, as far as the program has these modes."""
        with self.laid(asked) as folder:
            for scope, mode in itertools.product(asked['scopes'], self.modes):
                most, read = READ[mode]
                words = [mode, '--cases', most, '--', scope, '-']
                ended = self.program.call(folder, words, asked['text'], job=asked['job'], seconds=SECONDS_OF_AUDIT)
                parts = read(ended.reply, lambda name, number: self.line_of(asked, name, number))
                self.named(with_places(parts))
                yield {'scope': scope, mode: parts, 'trouble': trouble(ended, SECONDS_OF_AUDIT)}
                if ended.status == STOPPED:
                    return

    def stop(self, asked: dict) -> Iterator[dict]:
        yield {'wasRunning': self.program.stop(asked['job'])}

    # ---- cases

    def all_cases(self, asked: dict) -> Iterator[dict]:
        with self.laid(asked) as folder:
            yield self.cases.listed(folder, asked['text'], self.called)

    def compute(self, asked: dict) -> Iterator[dict]:
        self.cases.compute()
        yield from self.all_cases(asked)

    def keep(self, asked: dict) -> Iterator[dict]:
        yield {'why': self.cases.keep(asked['name'], asked['scope'], asked['input'], asked['reply'])}


def as_data(section: Section) -> dict:
    return {**section._asdict(), 'lines': [line._asdict() for line in section.lines]}


def is_text(value: object) -> bool:
    """Whether it is a text that has bytes."""
    try:
        return isinstance(value, str) and value.encode() is not None
    except UnicodeEncodeError:
        return False


def trouble(ended: Ended, seconds: int) -> str:
    """Why a call has no answer of the program's; nothing where it has one."""
    if ended.status == STOPPED:
        return 'It was stopped.'
    if ended.status == TOO_LONG:
        return 'It took longer than %d seconds, and was ended.' % seconds
    if ended.status == 13 or ended.status > 128:
        return 'It needed more memory than it is given here, or wrote more; it ended with status %d.' % ended.status
    return ''
