"""The cases beside a law, in the layout of docs/TESTS.md: each input with the reply that is wanted, and the program's own."""
import hashlib, os, subprocess, sys
from typing import Dict, List, Optional, Tuple

from page_commands import as_wanted

from .law import NAME, Law, content
from .program import Program, limited

SECONDS, MOST_INPUT, MOST_CASES = 10, 1024 * 1024, 500


class Cases:
    """The cases of a law's folder."""

    def __init__(self, law: Law, program: Program):
        self.law, self.program = law, program
        self.computed: Dict[Tuple, str] = {}

    def scope(self) -> str:
        return (self.law.text_beside('scope') or '').strip()

    def has_replies(self) -> bool:
        """Whether a program lies beside the inputs that computes the replies."""
        return os.path.isfile(self.law.beside('replies.py'))

    def seen(self) -> str:
        """A sum that changes with the files of the cases."""
        told = []
        for entry in sorted(os.scandir(self.law.folder), key=lambda entry: entry.name):
            if entry.name.endswith(('.json', '.reply')) or entry.name in ('scope', 'replies.py'):
                state = entry.stat(follow_symlinks=False)
                told.append((entry.name, state.st_mtime_ns, state.st_size))
        return hashlib.sha256(repr(told).encode()).hexdigest()

    def named(self) -> List[str]:
        return self.law.names('.json')[:MOST_CASES] if self.law.name == 'law.md' else []

    def listed(self, folder: str, text: str, replied) -> dict:
        """All cases on this text of the law in a folder that is laid out; `replied` is how a reply is shown."""
        scope = self.scope()
        cases = [self.case(folder, name, scope, text, replied) for name in self.named()] if scope else []
        return {'isOffice': self.law.name == 'law.md', 'scope': scope, 'hasReplies': self.has_replies(), 'cases': cases}

    def case(self, folder: str, name: str, scope: str, text: str, replied) -> dict:
        data = content(self.law.beside(name + '.json'), MOST_INPUT)
        if data is None:
            return {'name': name, 'input': '', 'wanted': None, 'reply': 'the input is no plain file of at most 1 MiB', 'is': 'differs'}
        given = data.decode('utf-8', 'replace')
        ended = replied(self.program.call(folder, ['run', '--', scope, '-'], text, given))
        wanted = self.wanted(name, data)
        how = 'unknown' if wanted is None else 'agrees' if as_wanted(ended.reply, wanted) == wanted else 'differs'
        return {'name': name, 'input': given, 'wanted': wanted, 'reply': ended.reply, 'status': ended.status, 'is': how}

    def wanted(self, name: str, data: bytes) -> Optional[str]:
        """The reply that is kept, or that the program beside it has computed when it was asked to."""
        kept = self.law.text_beside(name + '.reply')
        return kept.strip() if kept is not None else self.computed.get((self.replies_sum(), data))

    # ---- replies that a program beside the law computes, which is run only when the drafter says so

    def replies_sum(self) -> Optional[str]:
        data = content(self.law.beside('replies.py'))
        return hashlib.sha256(data).hexdigest() if data is not None else None

    def compute(self) -> None:
        """Computes the reply of each input that has none beside it."""
        sum_of_replies = self.replies_sum()
        for name in self.named():
            data = content(self.law.beside(name + '.json'), MOST_INPUT)
            if data is not None and self.law.text_beside(name + '.reply') is None and (sum_of_replies, data) not in self.computed:
                ran = subprocess.run(limited([sys.executable, '-B', 'replies.py'], SECONDS), input=data, cwd=self.law.folder,
                                     stdout=subprocess.PIPE, stderr=subprocess.DEVNULL, timeout=2 * SECONDS)
                if ran.returncode == 0:
                    self.computed[sum_of_replies, data] = ran.stdout.decode('utf-8', 'replace').strip()

    # ---- a new case

    def keep(self, name: str, scope: str, given: str, reply: str) -> str:
        """Writes a new case; why it isn't written, or nothing."""
        if self.law.name != 'law.md':
            return 'Cases stand beside a law whose file is called law.md.'
        if not NAME.fullmatch(name):
            return 'A name of a case has letters, digits, `_` and `-` alone, and begins with a letter or a digit.'
        ours = self.scope()
        if ours and ours != scope:
            return 'The cases of this folder are those of the scope %s: a scope of its own has a folder of its own.' % ours
        texts = {name + '.json': given.rstrip('\n') + '\n', name + '.reply': reply.strip() + '\n'}
        try:
            self.law.written(texts if ours else {**texts, 'scope': scope + '\n'})
        except FileExistsError as error:
            return '%s: give the case another name.' % error
        return ''
