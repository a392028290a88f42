"""twin.py WORDS < INPUT: what the program has to write, worked out again from docs/MODEL.md and docs/FORMATS.md.

WORDS are those that the program takes. It writes the same bytes and ends with the same number: 0 done, 1 these words are
none, 2 the deck was refused, 3 a read failed, 4 a write failed, 6 too long, 7 the words can't be read. Of memory it says
nothing (5). `version` is the line that docs/FORMATS.md has; nothing of the program or of the prover is read."""
import os, re, sys
from typing import Callable, Iterator, Optional

import plans, tables, texts
from cards import MOST, cut, is_number, read_deck
from session import Answers, answered
from town import climb

WHOLE = {'counts': tables.counts, 'audit': tables.audit, 'equisat': lambda town, *_: plans.equisat(town)}
ALONE = ('make', 'brief', 'version')  # they read nothing
CLIMBED = {'starts': plans.starts, 'cycles': plans.cycles, 'scan': plans.scan}


FORMATS = os.path.join(os.path.dirname(os.path.abspath(__file__)), '../../docs/FORMATS.md')


def version() -> str:
    """The line that the word `version` writes, as FORMATS has it."""
    with open(FORMATS, encoding='utf-8') as it:
        found = re.search(r'`(transyt [0-9.]+, kit [^`]+)`', it.read())
    return found[1] if found else ''


def is_worker(word: str) -> bool: return len(word) == 1 and word in '12345678'


def are_words(words: list[str]) -> bool:
    """Whether the words are those that the program takes."""
    word, *rest = words or ['']
    if word in WHOLE or word == 'version': return not rest
    if word == 'run': return not rest or len(rest) == 1 and is_worker(rest[0])
    if word == 'brief' and len(rest) == 3: return is_worker(rest[2]) and are_words(['brief', *rest[:2]])
    if word in ('make', 'brief'): return len(rest) == 2 and all(map(is_number, rest)) and 1 <= int(rest[1]) <= 200
    if word not in CLIMBED or not rest or not is_worker(rest[0]) or not all(map(is_number, rest[1:])): return False
    numbers = list(map(int, rest[1:]))
    if word == 'starts':
        if len(numbers) not in (2, 3): return False
        _, count, first = [*numbers, 0][:3]
        return 1 <= count and first <= 999 and first + count <= 1000
    return len(numbers) == 3 and 30 <= numbers[0] <= numbers[1] <= 240 and 1 <= numbers[2] <= 210


def run(data: bytes, has_failed: bool = False, climber: Callable = climb) -> Answers:
    """The answers to an input, a line at a time, and the exit number. `has_failed` says that a read failed behind it."""
    is_too_long = len(data) > MOST
    lines = cut(data[:MOST], is_too_long or has_failed)
    end = yield from answered(lines, climber)
    if end == 'REFUSED': return 2
    if end == 'STOPPED': return 0
    if is_too_long or has_failed: return 6 if is_too_long else 3
    if end == 'DONE': return 0
    yield texts.line('CARD', len(lines) + 1, 'REFUSED', 21)
    return 2


def whole(words: list[str], data: bytes, has_failed: bool) -> Answers:
    """The same for the words that take their input whole before they write."""
    if len(data) > MOST or has_failed: return 6 if len(data) > MOST else 3
    town, place, code = read_deck(cut(data))
    if not town:
        yield texts.line('CARD', place, 'REFUSED', code)
        return 2
    word, *rest = words
    lines = WHOLE[word](town, data, place) if word in WHOLE else CLIMBED[word](town, *map(int, rest[1:]))
    is_refused = False
    for line in lines:
        yield line
        is_refused = line.startswith('ROW ')
    return 2 if is_refused else 0


def answer(words: list[str], data: bytes = b'', has_failed: bool = False, climber: Callable = climb) -> Answers:
    """The lines that the program has to write, without their LF, and its exit number."""
    if not are_words(words): return 1
    if words[0] == 'run': return (yield from run(data, has_failed, climber))
    if words[0] not in ALONE: return (yield from whole(words, data, has_failed))
    town = plans.make(*map(int, words[1:3])) if words[0] != 'version' else None
    yield from texts.deck(town) if words[0] == 'make' else plans.brief(town) if town else [version()]
    return 0


def read_all() -> tuple[bytes, bool]:
    """The bytes of standard input, at most one more than an input may have, and whether a read failed."""
    data = b''
    try:
        while len(data) <= MOST:
            piece = os.read(0, MOST + 1 - len(data))
            if not piece: break
            data += piece
    except OSError: return data, True
    return data, False


def main(words: list[str]) -> int:
    try: list(map(lambda word: os.fsencode(word).decode('utf-8'), words))
    except UnicodeDecodeError: return 7
    if not are_words(words): print(__doc__, file=sys.stderr)
    lines = answer(words, *(read_all() if are_words(words) and words[0] not in ALONE else ()))
    while True:
        try: line = next(lines)
        except StopIteration as end: return end.value
        try: write(line.encode() + b'\n')
        except OSError: return 4


def write(data: bytes) -> None:
    while data: data = data[os.write(1, data):]


if __name__ == '__main__': sys.exit(main(sys.argv[1:]))
