"""Pages that are served for a test: a law in a folder of its own, and the server that is called for it."""
import contextlib, copy, http.client, json, os, pathlib, re, shutil, subprocess, sys, tempfile
from typing import Iterator, List, Optional, Tuple

TOP = pathlib.Path(__file__).resolve().parent.parent.parent
EXAMPLES, PAGE = TOP / 'examples', TOP / 'tools' / 'page'
SECONDS = 120


class Served:
    """A server that runs: where it is, and the folder of its law."""

    def __init__(self, process: subprocess.Popen, address: str, law: pathlib.Path):
        self.process, self.address, self.law = process, address, law
        self.host, self.path = re.fullmatch(r'http://([^/]*)(/.*/)', address).groups()

    def answer(self, method: str, path: str, headers: Optional[dict] = None, body: str = '') -> Tuple[int, bytes]:
        """The status and the body of what the server answers to a request, with these headers alone."""
        asked = http.client.HTTPConnection(self.host, timeout=SECONDS)
        try:
            asked.putrequest(method, path, skip_host=True, skip_accept_encoding=True)
            for name, value in {'Host': self.host, 'Content-Length': str(len(body.encode())), **(headers or {})}.items():
                if value is not None:
                    asked.putheader(name, value)
            asked.endheaders(body.encode())
            told = asked.getresponse()
            return told.status, told.read()
        finally:
            asked.close()

    def parts(self, name: str, question: dict) -> List[dict]:
        """The parts of an answer to what the page asks."""
        status, body = self.answer('POST', self.path + name, {'Origin': 'http://' + self.host}, json.dumps(question))
        assert status == 200, (name, status)
        return [json.loads(line) for line in body.split(b'\n') if line]


class Office:
    """Lends folders with laws, and serves them."""

    def __init__(self, program: Optional[pathlib.Path], pictures: Optional[pathlib.Path]):
        self.program, self.pictures = program, pictures
        self.room = pathlib.Path(tempfile.mkdtemp(prefix='catala-office-'))

    def folder(self, statute: str = '', **files: str) -> pathlib.Path:
        """A new folder with the files of a statute, and with further ones whose names end as `_md` or `_json` does."""
        folder = pathlib.Path(tempfile.mkdtemp(dir=self.room)) / (statute or 'law')
        if statute:
            shutil.copytree(EXAMPLES / statute, folder)
        folder.mkdir(exist_ok=True)
        for name, text in files.items():
            (folder / re.sub(r'_(md|json|reply)$', r'.\1', name)).write_text(text)
        return folder

    @contextlib.contextmanager
    def serves(self, folder: pathlib.Path, name: str = 'law.md', browser: str = '', page: pathlib.Path = PAGE) -> Iterator[Served]:
        """Serves a law; `browser` is the program that is called with the address, or none is."""
        words = ['--program', str(self.program)] if self.program and page == PAGE else []
        words += [] if browser else ['--no-browser']
        process = subprocess.Popen([sys.executable, page, *words, folder / name], stdout=subprocess.PIPE,
                                   stderr=subprocess.DEVNULL, text=True, env={**os.environ, 'BROWSER': browser})
        try:
            address = re.search(r'http://\S+', process.stdout.readline())
            assert address, 'the server tells no address'
            yield Served(process, address[0], folder / name)
        finally:
            process.terminate()
            process.wait()
            process.stdout.close()

    def without_tables(self) -> 'Office':
        """The same with a program that hasn't the modes of tables yet."""
        path = self.program or subprocess.run([TOP / 'tools' / 'unpack'], stdout=subprocess.PIPE, text=True, check=True).stdout.strip()
        script = self.room / 'without_tables'
        script.write_text('#!/bin/sh\ncase $1 in table|dead) echo "usage: as ever"; exit 9 ;; esac\nexec "%s" "$@"\n' % path)
        script.chmod(0o755)
        other = copy.copy(self)
        other.program = script
        return other

    def picture(self, page, name: str) -> None:
        if self.pictures:
            self.pictures.mkdir(parents=True, exist_ok=True)
            page.shot(self.pictures / (name + '.png'))

    def end(self) -> None:
        shutil.rmtree(self.room, ignore_errors=True)
