"""What the modes write of the statutes of the examples, which is kept beside each: the traces of its inputs, its tables, and what of it is
dead; and the cases that ask for a trace, for many inputs, for tables, for what is dead, or for a run of a listing."""
from .answers import Program
from .cases import case_folders, files_of, reply_in, words_of
from .dead import dead
from .listings import laws
from .modes import replies
from .tables import table
from .trace import trace


def traces(program, scope, folder):
    """For each input its name and what `trace` writes, with an empty line between."""
    given = sorted(folder.glob('*.json'))
    return '\n\n'.join('%s\n%s' % (file.stem, trace(program, scope, file.read_bytes())) for file in given)


def statute_modes():
    """The file that keeps what a mode writes of a statute, what that says, and what the mode writes."""
    for folder, files, scope in laws():
        program = Program(files, 'law.md')
        written = {'trace': traces(program, scope, folder), 'table': table(program, scope)[0], 'dead': dead(program, scope)[0]}
        for mode, text in written.items():
            kept = folder / ('%s.txt' % mode)
            yield kept, kept.read_text().rstrip('\n') if kept.exists() else '', text


def cases_of_modes():
    """Each case that asks for a trace, for many inputs, for tables, for what is dead or for a run of a listing: its name, what it expects,
    and the replies that the rules allow."""
    for case in case_folders():
        words = words_of(case)
        if words[:1] in (['trace'], ['many'], ['table'], ['dead'], ['exec']) and not (case / 'make').exists():
            yield case.name, reply_in(case), {text.rstrip('\n') for text, _ in replies(words, files_of(case))}
