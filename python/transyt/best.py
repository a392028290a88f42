"""`best`: the words of the program one after another on a deck, and kicks; the best deck so far is always at hand."""

import argparse
import time
from dataclasses import dataclass, replace
from typing import Callable, Iterator, List, Optional, Sequence, Tuple

from .deck import Deck
from .faults import Fault
from .kicks import Kicker
from .local import climb_to_local
from .names import Tell
from .program import Program
from .rows import Row, Rows, read_rows
from .session import Session

PART = 10  # starts asked at once
PAUSE = 5  # seconds between two lines of progress
MOST_STARTS, MOST_SEED = 1000, 999_999_999


@dataclass(frozen=True)
class Wanted:
    """What is to be done: the cycle times, how many starts and kicks (None: by the number of junctions), the seed."""

    cycles: Optional[Tuple[int, int, int]] = None
    starts: Optional[int] = None
    kicks: Optional[int] = None
    seed: int = 1
    workers: int = 1

    def start_count(self, junctions: int) -> int:
        """How many starts: 100 up to 8 junctions, 30 up to 20, none above."""
        return self.starts if self.starts is not None else 100 if junctions <= 8 else 30 if junctions <= 20 else 0

    def kick_count(self, junctions: int) -> int:
        """How many kicks: none up to 8 junctions, 250 above."""
        return self.kicks if self.kicks is not None else 0 if junctions <= 8 else 250


class Search:
    """A deck that gets better: `best` is the best so far with its index, set at once, so that Ctrl-C finds a pair."""

    def __init__(self, deck: Deck, program: Program, wanted: Wanted, tell: Tell,
                 progress: Callable[[str], None] = lambda _: None) -> None:
        self.given, self.program, self.wanted = deck, program, wanted
        self.tell, self._progress, self._told = tell, progress, time.monotonic()
        self.best = (deck, self._index_of(deck))

    @property
    def deck(self) -> Deck:
        """The best deck so far."""
        return self.best[0]

    @property
    def index(self) -> int:
        """The index of the best deck so far."""
        return self.best[1]

    def run(self) -> None:
        """All words in their order."""
        if self.deck.climb_plan is None:
            raise Fault("the deck has no STEPS card, and so no moves to climb by")
        if self.wanted.cycles:
            self.cycles(*self.wanted.cycles)
        junctions = len(self.deck.nodes)
        if self.wanted.start_count(junctions):
            self.starts(self.wanted.start_count(junctions))
        self.climb()
        if self.wanted.kick_count(junctions) and junctions:
            self.kicks(self.wanted.kick_count(junctions))
            self.climb()

    def check(self) -> None:
        """Runs the best deck once more: its index has to be the one that is expected."""
        index = self._index_of(self.deck)
        if index != self.index:
            raise Fault(f"the deck's index is {index}, and {self.index} was expected: nothing is written")

    def cycles(self, low: int, high: int, by: int) -> None:
        """`cycles` for one time after another, and the deck given as one more row; the best of them."""
        rows: List[Row] = []
        before = self.index
        best: Optional[int] = None
        for cycle in range(low, high + 1, by):
            for found, deck in self._cycle(cycle):
                rows.append(found)
                if found.index is not None and deck and (best is None or found.index < best):
                    best = found.index
                    self._take(deck, best)
            self.progress(f"cycles: {rows[-1]}")
        for row in rows:
            if row.index is None:
                self.tell(f"cycles: {row}")
        if best is None:
            raise Fault("no cycle time can be climbed on")
        self._told_rows("cycles", before, rows, f", best {self.deck.frame.cycle} s")

    def _cycle(self, cycle: int) -> List[Tuple[Row, Optional[Deck]]]:
        """The rows of one cycle time, each with its deck."""
        answer = self._asked(["cycles", self.wanted.workers, cycle, cycle, 1], self.given)
        found = [(row, answer.deck) for row in answer.rows]
        if cycle == self.given.frame.cycle:
            deck, index = climb_to_local(self.given, self.wanted.workers, self.program.path, self._tell_climb)
            found.append((Row(cycle, index, self._index_of(self.given), local=True), deck))
        return found

    def starts(self, count: int) -> None:
        """`starts` in parts of ten; the best of them."""
        rows: List[Row] = []
        before, deck = self.index, self.deck
        best: Optional[int] = None
        for answer in self._parts(count, deck):
            rows += answer.rows
            if answer.deck and (best is None or answer.index < best):
                best = answer.index
                self._take(answer.deck, best)
            self.progress(f"starts: {len(rows)} of {count}, {self.index}")
        self._told_rows("starts", before, rows)

    def _parts(self, count: int, deck: Deck) -> Iterator[Rows]:
        """The starts in parts of ten; at once by a program that takes no fourth number."""
        words: List[object] = ["starts", self.wanted.workers, self.wanted.seed]
        first = self.program.ask([*words, min(PART, count), 0], str(deck.bare()))
        if first.status == 1:
            yield self._asked([*words, count], deck)
            return
        for begin in range(0, count, PART):
            yield self._asked([*words, min(PART, count - begin), begin], deck) if begin else read_rows(first.lines)

    def climb(self) -> None:
        """CLIMB until LOCAL; the best deck goes along with each step."""
        def follow(deck: Deck, index: int) -> None:
            self.best = (deck, index)
            self.progress(f"climb: {index}")

        before = self.index
        self.best = climb_to_local(self.deck, self.wanted.workers, self.program.path, self._tell_climb, follow)
        self.tell(f"climb: {before} to {self.index}, LOCAL")

    def _tell_climb(self, said: str) -> None:
        """Tells what a climb says."""
        self.tell(f"climb: {said}")

    def kicks(self, count: int) -> None:
        """Kicks through one session."""
        before, kept = self.index, 0
        with Session(self.deck, self.wanted.workers, self.program.path) as session:
            kicker = Kicker(session, self.deck, self.index, self.wanted.seed)
            for number in range(1, count + 1):
                if kicker.kick():
                    kept += 1
                    self.best = (kicker.deck, kicker.index)
                self.progress(f"kicks: {number} of {count}, {self.index}")
        self.tell(f"kicks: {before} to {self.index}, {kept} of {count} kept")

    def progress(self, sentence: str) -> None:
        """Tells how far it is, now and then."""
        if time.monotonic() - self._told >= PAUSE:
            self._told = time.monotonic()
            self._progress(sentence)

    def _index_of(self, deck: Deck) -> int:
        """The index of a deck by the program."""
        with Session(deck, 1, self.program.path) as session:
            return session.index()

    def _asked(self, words: Sequence[object], deck: Deck) -> Rows:
        """The answer of a word to a deck."""
        return read_rows(self.program.answer(words, str(deck.bare())))

    def _take(self, deck: Deck, index: int) -> None:
        """Takes another deck for the best, with the names of the one given."""
        self.best = (replace(deck, names=self.given.names, comments=self.given.comments), index)

    def _told_rows(self, word: str, before: int, rows: List[Row], more: str = "") -> None:
        """The line of a word."""
        budget = sum(1 for row in rows if row.index is not None and not row.local)
        self.tell(f"{word}: {before} to {self.index}{more}; {len(rows)} rows, {budget} ended BUDGET")


def add_wanted(parser: argparse.ArgumentParser) -> None:
    """The arguments that say what is to be done; those of `best` and of `day`."""
    parser.add_argument("--cycles", nargs=3, type=between(1, 240), metavar=("LOW", "HIGH", "BY"),
                        help="try these cycle times, in seconds")
    parser.add_argument("--starts", type=between(0, MOST_STARTS), metavar="COUNT",
                        help="how many starts (100 up to 8 junctions, 30 up to 20, none above)")
    parser.add_argument("--kicks", type=between(0, 1_000_000), metavar="COUNT",
                        help="how many kicks (none up to 8 junctions, 250 above)")
    parser.add_argument("--seed", type=between(0, MOST_SEED), default=1, help="the seed of starts and kicks (1)")


def between(least: int, most: int) -> Callable[[str], int]:
    """A reader of whole numbers in a range."""
    def read(word: str) -> int:
        if not word.isascii() or not word.isdecimal() or not least <= int(word) <= most:
            raise argparse.ArgumentTypeError(f"{word} is no whole number from {least} to {most}")
        return int(word)

    return read


def wanted_of(args: argparse.Namespace) -> Wanted:
    """What the arguments of `add_wanted` say."""
    if not args.cycles:
        return Wanted(None, args.starts, args.kicks, args.seed, args.workers)
    low, high, by = args.cycles
    if not 30 <= low <= high <= 240:
        raise Fault(f"--cycles {low} {high} {by}: cycle times are 30 to 240 s, the low one first")
    return Wanted((low, high, by), args.starts, args.kicks, args.seed, args.workers)
