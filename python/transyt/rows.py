"""The rows of `cycles` and `starts`, and the deck after them."""

from dataclasses import dataclass
from typing import List, Optional, Sequence, Tuple

from .deck import Deck, read_deck


@dataclass(frozen=True)
class Row:
    """A row: the cycle time or the start's number, and the climb, or why there was none.

    `barred` is the node whose stages don't fit; a row without `index` and `barred` is NONE.
    """

    number: int
    index: Optional[int] = None
    before: int = 0
    taken: int = 0
    looked: int = 0
    local: bool = False
    barred: Optional[int] = None

    def __str__(self) -> str:
        if self.barred is not None:
            return f"{self.number}: the stages of node {self.barred} don't fit"
        if self.index is None:
            return f"{self.number}: no whole number of steps, or too few or too many of them"
        return f"{self.number}: {self.before} to {self.index}{'' if self.local else ', BUDGET'}"


@dataclass(frozen=True)
class Rows:
    """All rows, and the deck of the best one; None where no row was climbed on."""

    rows: Tuple[Row, ...]
    deck: Optional[Deck]

    @property
    def index(self) -> int:
        """The least index of the rows that were climbed on."""
        return min(row.index for row in self.rows if row.index is not None)


def read_row(words: Sequence[str]) -> Row:
    """A row out of its words from the star on."""
    number = int(words[2])
    if words[3] == "BARRED":
        return Row(number, barred=int(words[4]))
    if words[3] == "NONE":
        return Row(number)
    return Row(number, int(words[10]), int(words[4]), int(words[6]), int(words[8]), words[7] == "LOCAL")


def read_rows(lines: Sequence[str]) -> Rows:
    """The answer of `cycles` or `starts` out of its lines."""
    rows: List[Row] = []
    for place, line in enumerate(lines):
        words = line.split(" ")
        if words[:2] == ["*", "NONE"]:
            return Rows(tuple(rows), None)
        if words[:2] == ["*", "BEST"]:
            return Rows(tuple(rows), read_deck("\n".join(lines[place + 1:]) + "\n"))
        rows.append(read_row(words))
    return Rows(tuple(rows), None)
