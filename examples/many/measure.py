"""measure.py [PROGRAM]: how the program's time grows with links, sweeps, places and workers, and what memory it takes.

PROGRAM is the built program, crates/transyt_cli/out/transyt_cli where none is named. Each run is made RUNS times and the
least time counts. It prints the tables and the plots of docs/MANY.md. With a C compiler it also tells the longest path of
runs with several workers (longest_path.c)."""
import os, re, shutil, subprocess, sys, tempfile, time

here = os.path.dirname(os.path.abspath(__file__))
program = sys.argv[1] if sys.argv[1:] else os.path.join(here, '../../crates/transyt_cli/out/transyt_cli')
RUNS = 3
scratch = tempfile.TemporaryDirectory()
PATH_TOOL = os.path.join(scratch.name, 'longest_path.so')
if shutil.which('cc'):
    subprocess.run(['cc', '-O2', '-shared', '-fPIC', '-o', PATH_TOOL, os.path.join(here, 'longest_path.c')], check=True)


class Run:
    """One run of the program: seconds by the clock, of processors and of the longest path, memory in millions of bytes,
    exit number, output."""

    def __init__(self, clock, used, done):
        user, system, kilobytes = map(float, used.split()[-3:])
        self.clock, self.processor, self.memory = clock, user + system, kilobytes * 1024 / 1e6
        told = re.search(r'^longest path ([0-9.]+) s', done.stderr, re.M)
        self.path = float(told[1]) if told else 0
        self.code, self.output = done.returncode, done.stdout


def run(words, text, limit='true'):
    """One run, under a limit that the shell sets. `time` is GNU's: its child's memory isn't counted with this script's."""
    with tempfile.NamedTemporaryFile('w+') as used:
        shell = f'{limit}; exec /usr/bin/time -q -f "%U %S %M" -o {used.name} "$@"'
        before = time.monotonic()
        done = subprocess.run(['sh', '-c', shell, 'sh', program, *words], input=text, text=True, capture_output=True)
        return Run(time.monotonic() - before, used.read() or '0 0 0', done)


def town(nodes, seed=1):
    """The deck that `make` writes."""
    return run(['make', str(seed), str(nodes)], '').output


def with_frame(deck, steps=50, sweeps=3, sizes=None):
    """The deck with other sweeps, and with another climb plan if one is given; `steps` is 50 or 100."""
    cards = []
    for card in deck.splitlines():
        word, *numbers = card.split()
        if word == 'CYCLE': card = f'CYCLE 100 {steps} {sweeps} 60 100 35'
        if word == 'NODE': card = f'NODE {numbers[0]} {int(numbers[1]) * steps // 50}'
        if word == 'STAGE': card = 'STAGE ' + ' '.join(str(int(n) * steps // 50) for n in numbers)
        if word == 'STEPS' and sizes: card = f'STEPS {sizes}'
        cards.append(card)
    return '\n'.join(cards) + '\n'


def best(words, text):
    """Of several runs the least seconds by the clock, the least processor seconds and the greatest memory."""
    runs = [run(words, text) for _ in range(RUNS)]
    assert all(r.code == 0 for r in runs), words
    return min(r.clock for r in runs), min(r.processor for r in runs), max(r.memory for r in runs)


def table(title, unit, rows):
    """A table of rows, each with a name and what `best` gives, and a plot of the processor seconds."""
    most = max(processor for _, _, processor, _ in rows)
    print(f'\n{title}\n{unit:>8}   clock  processor    MB   plot of the processor')
    for name, clock, processor, memory in rows:
        print(f'{name:>8} {clock:7.3f} {processor:10.3f} {memory:5.1f}   {"#" * max(1, round(40 * processor / most))}')


def by_workers(title, words, text):
    """A table of a run with 1, 2, 4 and 8 workers, with the longest path, and a plot of the path. `words` takes a number
    of workers to the words."""
    rows = [(w, *best(words(w), text), longest_path(words(w), text)) for w in (1, 2, 4, 8)]
    most = max(path for *_, path in rows) or 1
    print(f'\n{title}\n workers   clock  processor    MB    path   plot of the path')
    for name, clock, processor, memory, path in rows:
        print(f'{name:>8} {clock:7.3f} {processor:10.3f} {memory:5.1f} {path:7.3f}   {"#" * max(1, round(40 * path / most))}')


def longest_path(words, text):
    """The least longest path of several runs; 0 where there is no C compiler."""
    if not os.path.exists(PATH_TOOL): return 0
    return min(run(words, text, f'export LD_PRELOAD={PATH_TOOL}').path for _ in range(RUNS))


def links_of(deck):
    return sum(card.startswith('LINK') for card in deck.splitlines())


CERT = 'CERT\n'
table('CERT by links: each of 3 sizes, so places grow with the links too', 'links',
      [(links_of(town(n)), *best(['run'], town(n) + CERT)) for n in (25, 50, 100, 200)])
table('CERT by places: 200 links', 'places',
      [(sizes * 300, *best(['run'], with_frame(town(50), sizes='1000000 ' + ' '.join(map(str, range(1, sizes + 1)))) + CERT))
       for sizes in (2, 4, 8, 16)])
table('CERT by sweeps: 200 links, 900 places', 'sweeps',
      [(s, *best(['run'], with_frame(town(50), sweeps=s) + CERT)) for s in (1, 2, 4, 8)])
table('CERT by steps of the cycle: 200 links, 900 places', 'steps',
      [(n, *best(['run'], with_frame(town(50), steps=n) + CERT)) for n in (50, 100)])
climbing = with_frame(town(64), sizes='1000000 1 8 20') + 'CLIMB\n'
by_workers('CLIMB until LOCAL by workers: 256 links', lambda w: ['run', str(w)], climbing)
certified = town(200) + CERT
by_workers('CERT by workers: 800 links, each of 3 sizes', lambda w: ['run', str(w)], certified)
by_workers('starts: 30 climbs of 20 junctions, by workers', lambda w: ['starts', str(w), '1', '30'], town(20))
outputs = {run(['run', str(w)], deck).output for w in (1, 2, 4, 8) for deck in (climbing, certified)}
print(f'different outputs among those of two decks: {len(outputs)}')

# a deck at the limits: 1000 links, 120 steps, 8 sweeps
numbers = range(1, 201)
limits = ['FORM 2', 'CYCLE 120 120 8 60 100 35']
limits += [f'NODE {n} {n % 120}\nSTAGE 0 5 7\nSTAGE 60 5 7' for n in numbers]
limits += [f'LINK {10 * n + d} {n} 200 1800 1 1 2 3 {1 + d % 2}' for n in numbers for d in range(5)]
limits += [f'FEED {10 * n + d} {10 * (n % 200 + 1) + f} 50 20' for n in numbers for d in range(5) for f in range(3)]
largest = '\n'.join([*limits, 'STEPS 100 1', 'END', 'INDEX', 'CLIMB', 'INDEX', ''])
by_workers('a deck of 1000 links, 120 steps and 8 sweeps: INDEX, CLIMB of 100 places, INDEX', lambda w: ['run', str(w)], largest)
sys.stdout.flush()
for workers in (1, 8):
    for name, option, sizes in (('address space', '-v', range(10, 2000, 10)), ('stack', '-s', (0.03, 0.06, 0.1, 0.2, 0.5, 1, 8))):
        failed = None
        for size in sizes:
            code = run(['run', str(workers)], largest, f'ulimit {option} {int(size * 1000)}').code
            if code == 0: break
            failed = code
        print(f'{workers} workers: least {name} that was enough: {size} MB; below it exit {failed}')
