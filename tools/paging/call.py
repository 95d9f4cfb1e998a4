"""The words of a call of tools/page, and the page from its beginning to its end."""
import os, pathlib, shutil, signal, subprocess, sys, tempfile, threading, webbrowser
from typing import List, NamedTuple, Optional

from explaining.program import found

from .desk import Desk
from .law import Law, NoLaw
from .program import Program
from .server import Server
from .words import Words

WRONG_USE, NO_PROGRAM = 9, 127
TOP = pathlib.Path(__file__).resolve().parent.parent.parent


class Call(NamedTuple):
    """What a call asks for."""
    law: str
    program: Optional[str]
    port: int
    has_browser: bool


def read_call(words: List[str]) -> Optional[Call]:
    """What the words ask for; nothing where they are no call."""
    program, port, has_browser, left = None, '0', True, list(words)
    while left and left[0].startswith('-'):
        option = left.pop(0)
        if option == '--no-browser':
            has_browser = False
        elif option in ('--program', '--port') and left:
            value = left.pop(0)
            program, port = (value, port) if option == '--program' else (program, value)
        else:
            return None
    is_call = len(left) == 1 and port.isdecimal() and int(port) < 65_536
    return Call(left[0], program, int(port), has_browser) if is_call else None


def program_at(asked: Optional[str]) -> Optional[str]:
    """The program that is asked for, or the one that lies packed in this checkout, or beside what was called, or on the PATH."""
    if asked:
        return shutil.which(os.path.abspath(asked))
    unpacks = TOP / 'tools' / 'unpack'
    if unpacks.exists():
        ran = subprocess.run([unpacks], stdout=subprocess.PIPE, text=True)
        return ran.stdout.strip() if ran.returncode == 0 else None
    return found(None)


def opened(address: str) -> None:
    """Opens the address in the browser, without what that writes to the terminal."""
    threading.Thread(target=webbrowser.open, args=(address,), daemon=True).start()


def served(call: Call, law: Law, path: str) -> int:
    """Serves the page until it is broken off."""
    with tempfile.TemporaryDirectory(prefix='catala-page-') as room:
        program = Program(path, room)
        desk = Desk(law, program, Words(path, str(law.folder), room))
        server = Server(desk, call.port)
        signal.signal(signal.SIGTERM, lambda *_: sys.exit(0))
        print('the page of %s: %s' % (law.name, server.address), flush=True)
        print('It ends with Ctrl+C.', file=sys.stderr, flush=True)
        if call.has_browser:
            opened(server.ticket_address)
        try:
            server.serve_forever()
        except KeyboardInterrupt:
            pass
        finally:
            desk.end()
            server.server_close()
    return 0


def main(words: List[str], usage: str) -> int:
    if words in (['--help'], ['-h']):
        print(usage)
        return 0
    call = read_call(words)
    if call is None:
        print(usage, file=sys.stderr)
        return WRONG_USE
    try:
        law = Law(call.law)
    except NoLaw as why:
        print('catala-page: %s' % why, file=sys.stderr)
        return WRONG_USE
    path = program_at(call.program)
    if path is None:
        print('catala-page: there is no program to call', file=sys.stderr)
        return NO_PROGRAM
    try:
        return served(call, law, path)
    except OSError as error:
        print('catala-page: the page is not served: %s' % error, file=sys.stderr)
        return WRONG_USE
