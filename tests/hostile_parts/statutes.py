"""The statutes that are cut and changed: those of the examples and the source with every form."""
import pathlib
from typing import NamedTuple

from .calls import files

TOP = pathlib.Path(__file__).resolve().parent.parent.parent


class Statute(NamedTuple):
    """A statute by its name, its files, the name of its main file and scope, an input, and a certificate of a scope, where it has one."""
    name: str
    files: dict
    main: str
    scope: str
    given: bytes
    certified: str
    certificate: bytes


def certificate_in(text):
    at = text.find(b'catala-certificate')
    return text[at:] if at >= 0 else b''


def statutes():
    """The source with every form first."""
    every = files()
    yield Statute('every form', {name: every[name] for name in ('a.md', 'b.md')}, 'a.md', 'All', every['input.json'], 'Bands',
                  every['certificate'])
    for law in sorted((TOP / 'examples').glob('*/law.md')):
        scope = (law.parent / 'scope').read_text().strip()
        given = sorted(law.parent.glob('*.json'))[0].read_bytes()
        yield Statute(law.parent.name, {'law.md': law.read_bytes()}, 'law.md', scope, given, scope,
                      certificate_in((law.parent / 'audit.txt').read_bytes()))
