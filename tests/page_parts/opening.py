"""Each statute of the examples is opened: its text stays what it is, its code has the colours of editors, and nothing goes wrong."""
import json, sys

from .browser import Browser, Failure
from .served import EXAMPLES, TOP, Office

sys.path.insert(0, str(TOP / 'tools'))
from textmate import Grammars

SYNTAXES = sorted((TOP / 'editors' / 'vscode' / 'syntaxes').glob('*.json'))
COLOURED = '''[...document.querySelectorAll(".code .line")].map((line) => [...line.children].filter((piece) => piece.className)
    .map((piece) => [piece.textContent, piece.className.split(" ").at(-1)]))'''


def coloured(text: str) -> list:
    """The coloured pieces of each line of code, by the grammars of the editors; a piece is one span on the page."""
    lines = [line.rstrip('\r') for line in text.split('\n')]
    found = [[] for _ in lines]
    for piece in Grammars(SYNTAXES, 'markdown.catala.codeblock').pieces(lines):
        if piece.name.endswith('.catala') and not lines[piece.line].startswith('> Include:'):
            found[piece.line].append([lines[piece.line][piece.start:piece.end], piece.name[:-len('.catala')].replace('.', '-')])
    return [pieces for pieces in found if pieces]


def each_statute_opens(office: Office, browser: Browser) -> None:
    page = browser.page()
    page.size(1280, 900)
    for statute in sorted(file.parent.name for file in EXAMPLES.glob('*/law.md')):
        with office.serves(EXAMPLES / statute) as served:
            page.open(served.address)
            text = served.law.read_text()
            page.wait('document.querySelector("#panel-faults .summary").dataset.kind === "good"', statute + ' is accepted')
            if page.value('window.page.view.text()') != text:
                raise Failure('%s: the page holds another text than the file' % statute)
            page.value('window.page.view.mark([])')
            if [line for line in page.value(COLOURED) if line] != coloured(text):
                raise Failure('%s: its code has other colours than in an editor' % statute)
            page.wait('document.querySelector("#panel-cases .summary").textContent', statute + ' has its cases')
            page.wait('document.querySelector("#panel-run form button.first")', statute + ' has a form')
        if page.said:
            raise Failure('%s: %s' % (statute, json.dumps(page.said)))
        page.open('about:blank', 'true')
    page.close()


TESTS = [each_statute_opens]
