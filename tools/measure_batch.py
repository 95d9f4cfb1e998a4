"""What tools/measure tells of many records: a statute on a million households, by tools/batch on some workers, beside one call on all and
beside the commands of docs/BATCH.md that do without it."""
import os, pathlib, random, re, subprocess, sys, time

TOP = pathlib.Path(__file__).resolve().parent.parent
PAGE = TOP / 'docs' / 'BATCH.md'
STATUTE, SCOPE = TOP / 'examples' / 'heating_subsidy' / 'law.md', 'HeatingSubsidy'
HEATINGS = ('Gas', 'Oil', 'DistrictHeating')
RECORDS, WORKERS = 1_000_000, (1, 2, 4)


def households(number):
    """So many inputs of the statute, as texts."""
    drawn = random.Random(11)
    return ['{"income":%d,"age_of_youngest":%d,"heating":"%s"}' % (drawn.randrange(60_000), drawn.randrange(19), drawn.choice(HEATINGS))
            for _ in range(number)]


def timed(told, words, folder, **others):
    """Prints what a command takes of clock, where it passes."""
    began = time.monotonic()
    ended = subprocess.run(words, cwd=folder, stdout=subprocess.DEVNULL, stderr=subprocess.PIPE, text=True, **others)
    took = time.monotonic() - began
    if ended.returncode:
        print('%s: status %d: %s' % (told, ended.returncode, ended.stderr.strip()), file=sys.stderr)
    else:
        print('| %s | %.1f s | %s |' % (told, took, format(round(RECORDS / took, -2), ',.0f')), flush=True)


def batch(folder, program):
    (folder / 'law.md').write_text(STATUTE.read_text())
    lines = households(RECORDS)
    (folder / 'records.jsonl').write_text('\n'.join(lines) + '\n')
    (folder / 'all.json').write_text('[%s]' % ','.join(lines))
    (folder / 'bin').mkdir()
    (folder / 'bin' / 'catala').symlink_to(program)
    print('\n| A million households by | clock | records a second |\n|---|---|---|')
    timed('one call of `many`', [program, 'many', SCOPE, 'law.md', 'all.json'], folder)
    for workers in WORKERS:
        words = ['--program', program, '--workers', str(workers), SCOPE, 'law.md', 'records.jsonl', 'results.jsonl']
        timed('`tools/batch`, %d %s' % (workers, 'workers' if workers > 1 else 'worker'), [TOP / 'tools' / 'batch', *words], folder)
    env = {**os.environ, 'PATH': '%s:%s' % (folder / 'bin', os.environ['PATH'])}
    for told, script in zip(('xargs', 'GNU parallel'), re.findall(r'^```sh\n(.*?)^```$', PAGE.read_text(), re.M | re.S)):
        timed('the commands with %s' % told, ['sh', '-c', script], folder, env=env)
