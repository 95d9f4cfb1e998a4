"""Compiles what stands beside the program, and runs a program three times, for the tables of tools/measure."""
import subprocess, sys

LONG = 60

# Runs a program in a small process, since a child of a large one counts as large, and prints what it used and wrote.
RUNNER = '''
import os, sys
out, given, most, words = sys.argv[1], sys.argv[2], int(sys.argv[3]), sys.argv[4:]
child = os.fork()
if child == 0:
    if most:
        import resource
        resource.setrlimit(resource.RLIMIT_CPU, (most, most + 1))
    os.dup2(os.open(given, os.O_RDONLY), 0)
    os.dup2(os.open(out, os.O_WRONLY | os.O_CREAT | os.O_TRUNC), 1)
    os.execvp(words[0], words)
used = os.wait4(child, 0)[2]
print(used.ru_utime + used.ru_stime, used.ru_maxrss / 1024)
'''


def compiled(folder, name, text, words):
    """A peer, or nothing where its compiler or its library is missing."""
    source, made = folder / name, folder / name.replace('.', '_')
    source.write_text(text)
    ended = subprocess.run([*words, '-O2', '-o', made, source, *(['-ljansson'] if 'jansson.h' in text else [])],
                           stdout=subprocess.DEVNULL, stderr=subprocess.DEVNULL)
    return str(made) if ended.returncode == 0 else None


def measured(folder, words, given=b'', most=0):
    """Processor seconds, MiB and what is written, of the least of three runs; of one where that takes more than a minute.
    A run that takes more than `most` seconds is ended, where that isn't 0."""
    (folder / 'given').write_bytes(given)
    best = None
    for _ in range(3):
        told = subprocess.run([sys.executable, '-S', '-c', RUNNER, folder / 'out', folder / 'given', str(most), *words], cwd=folder,
                              stdout=subprocess.PIPE, check=True)
        took, memory = map(float, told.stdout.split())
        if best is None or took < best[0]:
            best = took, memory, (folder / 'out').read_bytes()
        if took > LONG:
            break
    return best
