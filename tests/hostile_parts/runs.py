"""Runs of the program, in a folder of their own."""
import os, pathlib, shutil, subprocess, tempfile
from typing import NamedTuple

# By the clock, since the machine may be busy.
SECONDS = 120
# A folder in memory, where there is one.
FAST = pathlib.Path('/dev/shm')


class Ended(NamedTuple):
    """How a run ended: a status of less than 0 is a signal, and none is no end in time."""
    status: int
    out: bytes
    err: bytes


class Runs:
    """Runs over the files of one folder."""

    def __init__(self, program):
        self.program = str(program)
        self.folder = pathlib.Path(tempfile.mkdtemp(prefix='hostile-', dir=FAST if FAST.is_dir() else None))
        self.folder.chmod(0o755)
        self.files = {}

    def __enter__(self):
        return self

    def __exit__(self, *_):
        shutil.rmtree(self.folder)

    def put(self, files):
        """Writes those of the files that differ from what was put there before; `-` is none of them."""
        for name, content in files.items():
            if name != '-' and self.files.get(name) != content:
                (self.folder / name).write_bytes(content)
                self.files[name] = content

    def ended(self, words, given=b'', limit='', more=None, **options):
        """How the program ends. A limit is what the shell does before, as `ulimit -s 1024`; more are words of the environment."""
        call = [self.program, *words]
        if limit:
            call = ['sh', '-c', limit + '; exec "$0" "$@"', *call]
        if 'stdin' not in options:
            options['input'] = given
        options.setdefault('stdout', subprocess.PIPE)
        environment = {**os.environ, **more} if more else None
        try:
            ended = subprocess.run(call, cwd=self.folder, stderr=subprocess.PIPE, timeout=SECONDS, env=environment, **options)
        except subprocess.TimeoutExpired:
            return Ended(None, b'', b'')
        return Ended(ended.returncode, ended.stdout or b'', ended.stderr)
