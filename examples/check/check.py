"""Works an input out again, by docs/MODEL.md and docs/FORMATS.md alone, and compares its report with that.

Every line is worked out, refused cards and commands too, and every line of the report has to be one of these, in order and
to the byte. The exit number is 0 where all agree, 1 where a line differs or none was compared, 2 where a file can't be
read. With --quick a climb's other places aren't tried: its steps are taken from the report, and each has to lower the index
to what it says. The work of such a climb isn't known, so lines of WORK after it aren't compared."""
import argparse, sys, time
from functools import partial
from typing import Iterator, Optional

from cards import is_number
from town import Climb, Town, climb, moves, text_of, with_move
from twin import answer, are_words

SHOWN, EVERY = 20, 5  # differences that are told; seconds between two lines that say how far it is


class Report:
    """The lines of a report, and how many of them were compared."""

    def __init__(self, data: bytes) -> None:
        *self.lines, rest = data.decode('latin-1').split('\n')
        if rest: self.lines.append(f'{rest} (and no LF behind it)')
        self.place, self.told, self.has_followed = 0, time.monotonic(), False

    def next(self) -> Optional[str]: return self.lines[self.place] if self.place < len(self.lines) else None

    def tell(self, looked: int = 0) -> None:
        """Says now and then how far it is."""
        if time.monotonic() < self.told + EVERY: return
        self.told = time.monotonic()
        places = f', {looked} places of a climb' if looked else ''
        print(f'check.py: {self.place} of {len(self.lines)} lines{places}', file=sys.stderr, flush=True)

    def followed(self, town: Town) -> Climb:
        """A climb whose steps are those of the report, as far as each of them lowers the index."""
        steps, at, looked, count, self.has_followed = [], 0, 0, len(list(moves(town))), True
        for told in self.lines[self.place:]:
            self.tell(looked)
            keyword, place = (told.split(' ') + [''])[:2]
            if keyword != 'TOOK' or not is_number(place) or int(place) >= count: break
            looked, at = looked + (int(place) - at) % count + 1, int(place)
            move = list(moves(town))[at]
            after = with_move(town, move)
            if looked > town.plan[0] or not after or after.index() >= town.index(): break
            town = after
            steps.append(f'TOOK {at} {text_of(move)} INDEX {town.index()}')
        is_local = looked + count <= town.plan[0]
        return Climb(town, steps, *(('LOCAL', looked + count) if is_local else ('BUDGET', town.plan[0])), 0)


def compared(report: Report, right: Iterator[str]) -> Iterator[Optional[str]]:
    """For each line that is due or was told: none where the two are the same, else how they differ."""
    for text in right:
        told = report.next()
        report.place += 1
        report.tell()
        if report.has_followed and told and told[:5] == text[:5] == 'WORK ' and is_number(told[5:]): continue
        yield None if told == text else differs(report.place, told, text)
    while report.next() is not None:
        report.place += 1
        yield differs(report.place, report.lines[report.place - 1], None)


def differs(place: int, told: Optional[str], right: Optional[str]) -> str:
    has = 'ends' if told is None else f'has {told!r}'
    return f'line {place}: the report {has}, docs/MODEL.md gives {"no more" if right is None else repr(right)}'


def faults(deck: bytes, told: bytes, words: list[str], is_quick: bool = False) -> tuple[list[str], int]:
    """How a report differs from what it should be, at the first lines that do; and how many lines were compared."""
    report, found, count = Report(told), [], 0
    for fault in compared(report, answer(words, deck, climber=report.followed if is_quick else partial(climb, look=report.tell))):
        count += 1
        if fault: found.append(fault)
        if len(found) == SHOWN: break
    return found, count


def main() -> int:
    parser = argparse.ArgumentParser('check.py', description=__doc__, formatter_class=argparse.RawDescriptionHelpFormatter)
    parser.add_argument('--quick', action='store_true', help='take the steps of a climb from the report')
    parser.add_argument('deck', metavar='DECK', help='the input: a deck, and what stands after it')
    parser.add_argument('report', metavar='REPORT', help='what the program wrote of it')
    parser.add_argument('words', metavar='WORD', nargs='*', default=['run'], help="the words of the program's call (run)")
    asked = parser.parse_args()
    words, read = asked.words, []
    if not are_words(words): parser.error(f'{" ".join(words)}: the program takes no such words')
    for name in (asked.deck, asked.report):
        try:
            with open(name, 'rb') as file: read.append(file.read())
        except OSError as error: parser.error(f'{name} cannot be read: {error.strerror}')
    found, count = faults(*read, words, asked.quick)
    for fault in found: print(fault)
    if len(found) == SHOWN: print('it stops here: what comes after these lines was not compared')
    elif not found: print(f'{count} lines agree' if count else 'nothing was compared')
    return 1 if found or not count else 0


if __name__ == '__main__': sys.exit(main())
