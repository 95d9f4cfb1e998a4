"""The folder in which the program is called: the law's own, or one that is laid out like it with the texts that the page holds."""
import contextlib, os, tempfile
from typing import Dict, Iterator

from .law import Law, content


@contextlib.contextmanager
def laid_out(law: Law, text: str, others: Dict[str, str], room: str) -> Iterator[str]:
    """A folder with the files that a law of this text includes; `others` are texts of files that aren't saved."""
    if not others:
        yield str(law.folder)
        return
    with tempfile.TemporaryDirectory(dir=room) as top:
        # It lies as deep as the law's own, so that a name which leads out of that leads out of this as well.
        folder = os.path.join(top, os.path.relpath(law.folder, '/'))
        os.makedirs(folder)
        for name in [*others, *law.includes(text, others)]:
            with contextlib.suppress(OSError):  # What can't be laid out is a file that the program doesn't find.
                lay(law, name, others, os.path.normpath(os.path.join(folder, name)), top)
        yield folder


def lay(law: Law, name: str, others: Dict[str, str], place: str, top: str) -> None:
    """Lays a file of that name at its place; where it lies outside of the law's folder, a link to it."""
    if os.path.isabs(name) or os.path.commonpath([top, place]) != top or os.path.lexists(place):
        return
    os.makedirs(os.path.dirname(place), exist_ok=True)
    if name in others or law.is_inside(name):
        data = others[name].encode() if name in others else content(law.folder / name)
        with open(place, 'xb') as opened:
            opened.write(data or b'')
    else:
        os.symlink(os.path.realpath(os.path.join(law.folder, name)), place)
