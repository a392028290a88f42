"""all.py [PROGRAM [DECKS [SEED]]]: the examples' reports, and random inputs that PROGRAM answers, against twin.py.

PROGRAM is the built program, crates/transyt_cli/out/transyt_cli where none is named. Without one the examples alone are
checked, by their stored reports. DECKS (20) decks are drawn from SEED (1), each with commands and then for the other words,
some of them spoiled. Every output is compared to the byte, and the exit number too. The last line is 'N passed, M failed',
and the exit number is 0 where none failed."""
import os, subprocess, sys
from random import Random
from typing import Optional

import decks
from cards import MOST
from twin import answer

HERE = os.path.dirname(os.path.abspath(__file__))
EXAMPLES = os.path.dirname(HERE)
BUILT = os.path.join(EXAMPLES, '../crates/transyt_cli/out/transyt_cli')
# each stored report that doesn't take minutes: its deck, and the words of the call
STORED = [('arterial', 'arterial', 'run'), ('town', 'town', 'run'), ('one-junction', 'one-junction', 'run'),
          ('wrong', 'wrong', 'run'), ('counts', 'counts', 'counts'), ('equisat', 'equisat', 'equisat'),
          ('certificate', 'certificate', 'audit'), ('changed', 'changed', 'audit'), ('cycles', 'cycles', 'cycles 4 60 120 10')]
SECONDS = 120  # that the program has for an answer
Output = tuple[bytes, Optional[int]]


def due(words: list[str], data: bytes, has_failed: bool = False) -> Output:
    """What twin.py writes, and its exit number; `has_failed` says that a read fails after the data."""
    lines, written = answer(words, data, has_failed), b''
    while True:
        try: written += next(lines).encode('latin-1') + b'\n'
        except StopIteration as end: return written, end.value


def first_difference(told: Output, right: Output) -> str:
    """The first line or the number in which two outputs differ."""
    for place, (a, b) in enumerate(zip(told[0].split(b'\n'), right[0].split(b'\n')), 1):
        if a != b: return f'line {place}: the program wrote {a[:300]!r}, twin.py gives {b[:300]!r}'
    if told[0] != right[0]: return f'the program wrote {len(told[0])} bytes, twin.py {len(right[0])}'
    return f'the program ended with {told[1]}, twin.py with {right[1]}'


class Checks:
    """The comparisons with one program, and how many of them passed and failed."""

    def __init__(self, program: str) -> None: self.program, self.passed, self.failed = program, 0, 0

    def run(self, words: list[str], data: bytes) -> Output:
        """What the program writes, and its exit number; none where it takes too long or can't be run."""
        try:
            done = subprocess.run([self.program, *words], input=data, stdout=subprocess.PIPE, stderr=subprocess.DEVNULL,
                                  timeout=SECONDS)
        except (OSError, subprocess.TimeoutExpired): return b'', None
        return done.stdout, done.returncode

    def tell(self, name: str, told: Output, right: Output) -> bool:
        """Counts a comparison, and tells a difference."""
        if told == right: self.passed += 1
        else:
            self.failed += 1
            print(f'{name}: {first_difference(told, right)}', flush=True)
        return told == right

    def same(self, name: str, calls: list[list[str]], data: bytes = b'') -> None:
        """Compares the answers to calls that differ in the number of workers alone; shows an input that was told apart."""
        right = due(calls[0], data)
        told = [self.tell(f'{name}, {" ".join(words)}', self.run(words, data), right) for words in calls]
        if not all(told) and data: sys.stdout.write(f'-- the input\n{data[:20000].decode("latin-1")}-- its end\n')


def read(name: str) -> bytes:
    with open(os.path.join(EXAMPLES, name), 'rb') as file: return file.read()


def check_stored(checks: Checks) -> None:
    for deck, report, words in STORED:
        right = due(words.split(), read(deck + '.deck'))
        if checks.tell(f'{report}.report', (read(report + '.report'), right[1]), right):
            print(f'{report}.report, {words}: every byte agrees', flush=True)


def check_words(checks: Checks, draw: Random) -> None:
    """The words that read nothing, and words that are none."""
    seed = str(draw.randrange(10 ** 9))
    for words in (['make', seed, str(draw.randint(1, 200))], ['make', '000000001', '017']): checks.same('a made town', [words])
    checks.same('a made town', [['brief', seed, '2'], ['brief', seed, '2', '8']])
    for text in ('', 'RUN', 'run 0', 'run 9', 'run 01', 'run 1 1', 'make 1', 'make 1 0', 'make 1 201', 'make 1000000000 1',
                 'brief 1 1 9', 'brief 1 1 1 1', 'scan 1 29 60 1', 'scan 1 61 60 1', 'scan 1 60 60 0', 'cycles 1 60 241 1',
                 'cycles 1 60 60 211', 'cycles 0 60 60 1', 'starts 1 1 0', 'starts 1 1 1001', 'starts 1 1', 'audit 1',
                 'starts 1 1 1000 1', 'starts 1 1 1 1000', 'starts 1 1 1 1 1', 'counts x', 'equisat 1', '--help'):
        checks.same('words that are none', [text.split()], b'CYCLE 60 10 1 60 100\nEND\n')


def check_version(checks: Checks) -> None:
    """Compares the word `version`."""
    checks.same('the version', [['version']])


def check_lengths(checks: Checks) -> None:
    """Inputs as long as may be, a byte longer, and ended by STOP."""
    deck = b'CYCLE 60 10 1 60 100\nEND\nWORK\n'
    filler = b'*' + b' ' * 4094 + b'\n'
    full = deck + filler * ((MOST - len(deck)) // len(filler))
    full += b' ' * (MOST - 5 - len(full)) + b'\nWORK'
    for name, data in (('the longest', full), ('a longer', full + b'\n'), ('a stopped', deck + b'STOP\n' + full)):
        for word in ('run', 'equisat', 'counts'): checks.same(f'{name} input', [[word]], data)


def check_faults(checks: Checks) -> None:
    """A read that fails, of a folder, and a write that fails, to what is always full."""
    for words in (['run'], ['equisat'], ['audit'], ['make', '1', '1']):
        folder = os.open(HERE, os.O_RDONLY)
        done = subprocess.run([checks.program, *words], stdin=folder, stdout=subprocess.PIPE, stderr=subprocess.DEVNULL)
        os.close(folder)
        checks.tell(f'a read that fails, {words[0]}', (done.stdout, done.returncode), due(words, b'', True))
        if not os.path.exists('/dev/full'): continue
        with open('/dev/full', 'wb') as full:
            done = subprocess.run([checks.program, *words], input=b'NODE 1 0\n', stdout=full, stderr=subprocess.DEVNULL)
        checks.tell(f'a write that fails, {words[0]}', (b'', done.returncode), (b'', 4))


def check_random(checks: Checks, name: str, draw: Random) -> None:
    """One random deck with its commands, and for each word that takes a deck."""
    draft = decks.Draft(draw)
    cards, failed = [*draft.cards, 'END'], checks.failed
    checks.same(name, [['run'], ['run', str(draw.randint(1, 8))], ['run', '8']],
                decks.written(draw, [*cards, *decks.commands(draft, 25)]))
    for _ in range(3):
        checks.same(name, [['run']], decks.written(draw, [*decks.spoiled(draft, cards), 'DECK', 'INDEX']))
    C, low = draft.cycle, max(30, draft.cycle - 20)
    first = [str(draw.choice([0, 1, 3, 997]))] if draw.random() < 0.5 else []
    rows = [['scan', str(C), str(min(240, C + 20)), '20'], ['starts', str(draw.randrange(100)), '3', *first],
            ['cycles', str(low), str(min(240, C + 20)), draw.choice(['5', '10'])]]
    spoiled = decks.spoiled(draft, cards) if draw.random() < 0.2 else cards
    for word, *numbers in rows: checks.same(name, [[word, w, *numbers] for w in '18'], decks.written(draw, spoiled))
    checks.same(name, [['equisat']], decks.written(draw, spoiled))
    text = decks.written(draw, [*cards, 'CERT'])
    lines = due(['run'], text)[0].decode().split('\n')[1:-1]
    checks.same(name, [['audit']], decks.written(draw, [*spoiled, *decks.certificate(draw, lines)]))
    checks.same(name, [['counts']], '\n'.join([*spoiled, *decks.table(draft)]).encode('latin-1'))
    print(f'{name}: {"every byte agrees" if checks.failed == failed else "it differs"}', flush=True)


def main(program: str = BUILT, count: str = '20', seed: str = '1') -> int:
    checks = Checks(program)
    check_stored(checks)
    if os.path.exists(program):
        draw = Random(int(seed))
        check_version(checks)
        check_words(checks, draw)
        check_lengths(checks)
        check_faults(checks)
        for place in range(int(count)): check_random(checks, f'deck {place + 1} of seed {seed}', draw)
    else: print(f'{program} is not built: no random decks')
    print(f'{checks.passed} passed, {checks.failed} failed')
    return 1 if checks.failed else 0


if __name__ == '__main__':
    if len(sys.argv) > 4 or not all(word.isdigit() for word in sys.argv[2:]): sys.exit(__doc__)
    sys.exit(main(*sys.argv[1:]))
