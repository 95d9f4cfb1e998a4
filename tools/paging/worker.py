"""Answers questions on a source, a line of JSON each, from the language in Python; words.py asks them.

It is called with the path of the program and with a folder for inputs; each question says in which folder it is asked."""
import json, os, pathlib, sys, tempfile

if __name__ == '__main__':
    sys.setrecursionlimit(20_000)
    sys.path[0] = str(pathlib.Path(__file__).resolve().parent.parent)

from explaining.pages import Pages
from explaining.program import Ended, Words
from explaining.replies import Reply
from explaining.sources import Files, Source
from paging.forms import forms_of
from paging.notes import as_data
from reference.answers import Program

PATH, ROOM = sys.argv[1:3] if __name__ == '__main__' else ('', '')
PAGES = Pages()


def notes(question: dict) -> list:
    """What explains a reply; places in the input are those of a file that is called so."""
    text = question['text'].encode()
    with tempfile.NamedTemporaryFile(dir=ROOM, suffix='.json') as extra:
        extra.write(question.get('input', '').encode())
        extra.flush()
        words = Words(question['mode'], question['scope'], '-', extra.name)
        source = Source(Files(text), '-')
        reply = Reply(PATH, words, Ended(question['status'], question['reply'].encode(), text), source, PAGES)
        return as_data(reply.notes(), source, extra.name)


def forms(question: dict) -> dict:
    files = Files(question['text'].encode())
    return forms_of(Program(files, '-'), Source(files, '-'))


ANSWERS = {'notes': notes, 'forms': forms, 'nothing': lambda question: None}


def answer(question: dict):
    """The answer; nothing where whatever goes wrong."""
    try:
        if 'folder' in question:
            os.chdir(question['folder'])
        return ANSWERS[question['asks']](question)
    except Exception as error:
        print('%s: %s' % (type(error).__name__, error), file=sys.stderr)
        return None


def main() -> None:
    for line in sys.stdin.buffer:
        told = json.dumps(answer(json.loads(line)))
        sys.stdout.write(told + '\n')
        sys.stdout.flush()


if __name__ == '__main__':
    main()
