"""The words of a call of catala-explain, and what becomes of it."""
import json, sys
from typing import List

from . import program
from .listings import STOPS, Listing
from .notes import data_of, text_of
from .pages import Pages
from .replies import Reply
from .sources import Files, Source

WRONG_USE = 9
USAGE = 'usage: catala-explain [--json] [--program PATH] -- MODE ..\n       catala-explain [--json] CODE\n       catala-explain --help'


def printed(pages: Pages, asked: str, is_json: bool) -> int:
    """Prints what the pages say of a code."""
    parts = pages.asked(asked)
    if not parts:
        print('catala-explain: no page tells of %s' % asked, file=sys.stderr)
        return WRONG_USE
    text = json.dumps([part._asdict() for part in parts], ensure_ascii=False, indent=1) if is_json else \
        '\n\n'.join('%s\n\n%s' % (part.title, part.text) for part in parts)
    return into_output(text)


def into_output(text: str) -> int:
    """Writes a text to standard output, which may be closed before it is read to the end."""
    return 0 if program.written(sys.stdout, (text + '\n').encode('utf-8', 'replace')) else program.OUTPUT_FAILED


def explained(words: List[str], path: str, is_json: bool) -> int:
    """Calls the program, and tells on standard error what a person wants to know of its reply."""
    ended = program.call(path, words)
    try:
        files = Files(ended.given)
        called = program.read_words(words)
        listing = Listing(files, called.file) if called.mode == 'exec' else None
        source = Source(files, called.file) if listing is None else listing.source(ended.status)
        reply = Reply(path, called, ended, source, Pages(), listing)
        notes = reply.notes()
        texts = (source.files if ended.status in STOPS else files).texts()
        told = data_of(notes, reply.text, ended.status) if is_json else text_of(notes, texts)
    except Exception as error:  # Whatever goes wrong here, the reply and the status are those of the program.
        told = 'catala-explain: this reply is not explained: %s: %s\n' % (type(error).__name__, error)
    program.written(sys.stderr, told.encode('utf-8', 'replace'))
    return ended.status


def main(words: List[str]) -> int:
    is_json, asked = False, None
    left = list(words)
    while left and left[0] in ('--json', '--program'):
        is_json = is_json or left[0] == '--json'
        asked = left[1] if left[0] == '--program' and len(left) > 1 else asked
        left = left[2 if left[0] == '--program' else 1:]
    if left[:1] in (['--help'], ['-h'], ['help']):
        return into_output(Pages().help())
    if left[:1] == ['--'] or left[:1] and left[0] in program.MODES:
        path = program.found(asked)
        if path is None:
            print('catala-explain: there is no catala beside it, and none on the PATH', file=sys.stderr)
            return program.NOT_FOUND
        return explained(left[left[0] == '--':], path, is_json)
    if left and not left[0].startswith('-'):
        return printed(Pages(), ' '.join(left), is_json)
    print(USAGE, file=sys.stderr)
    return WRONG_USE
