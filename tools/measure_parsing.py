"""Sources to tokens, and these to their tree, by sources that are refused behind, beside a plain parser of the same grammar in C."""
import pathlib, subprocess, sys
import measure_sources as sources
from measure_runs import compiled, measured

PARSER = (pathlib.Path(__file__).resolve().parent / 'parser.c').read_text()
SIZES = (2**20 // 10, 2**20, 4 * 2**20, 16 * 2**20)
WOVEN, LEXED, PARSED = (dict(sources.ENDS)[stage] for stage in ('woven', 'read as tokens', 'parsed'))
KINDS = (('blocks of eight definitions', lambda size: sources.files(size, 0)), ('expressions 256 deep', sources.deep_files))


def written(folder, texts, end):
    """The names of the files, of which the first one takes in the others, and the last one ends so."""
    for number, text in enumerate(texts):
        head = ''.join('> Include: %d.md\n' % k for k in range(1, len(texts))) if number == 0 else ''
        (folder / ('%d.md' % number)).write_text(text + head + (end if number + 1 == len(texts) else ''))
    return ['%d.md' % number for number in range(len(texts))]


def in_c(folder, peer, names):
    """How many tokens there are, and the least seconds of three that tokens and tree took."""
    lines = [subprocess.run([peer, *names], cwd=folder, stdout=subprocess.PIPE).stdout.decode().split('\n') for _ in range(3)]
    least = lambda word: min(float(line.split()[2]) for told in lines for line in told if line.startswith(word))
    return int(lines[0][0].split()[1]), least('tokens'), least('nodes')


def until(folder, program, texts, end):
    """The names of the files that are refused at that end, and how long the program took up to it."""
    names = written(folder, texts, end)
    seconds, _, reply = measured(folder, [program, 'run', 'T', names[0]])
    print(reply.decode().strip(), file=sys.stderr)
    return names, seconds


def tokens(folder, program):
    peer = compiled(folder, 'parser.c', PARSER, ['cc'])
    print('\n| MiB of code | tokens | woven | read as tokens | in C, reading included |\n|---|---|---|---|---|')
    for size in SIZES[1:]:
        texts = sources.files(size, 0)
        _, woven = until(folder, program, texts, WOVEN)
        names, lexed = until(folder, program, texts, LEXED)
        many, other, _ = in_c(folder, peer, names)
        print('| %.1f | %s | %.3f s | %.3f s | %.3f s |' % (sum(map(len, texts)) / 2**20, format(many, ','), woven, lexed, other), flush=True)


def parsing(folder, program):
    peer = compiled(folder, 'parser.c', PARSER, ['cc'])
    print('\n| Source | MiB | tokens | time | time a million tokens | in C | times |\n|---|---|---|---|---|---|---|')
    for told, make in KINDS:
        for size in SIZES:
            texts = make(size)
            _, lexed = until(folder, program, texts, LEXED)
            names, parsed = until(folder, program, texts, PARSED)
            many, _, other = in_c(folder, peer, names)
            ours = parsed - lexed
            print('| %s | %.1f | %s | %.3f s | %.3f s | %.3f s | %.1f |'
                  % (told, sum(map(len, texts)) / 2**20, format(many, ','), ours, ours / many * 1e6, other, ours / other), flush=True)
