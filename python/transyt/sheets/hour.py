"""The hour: the window of the day for which counts are taken, and the vehicles in it."""

from dataclasses import dataclass
from typing import Dict, Iterable, List, Optional, Tuple, Union

from ..faults import Fault
from .faults import Judge
from .model import ArmKey, Count, Sheets
from .values import DAY, minutes_of, time_text


@dataclass(frozen=True)
class All:
    """All rows: from the earliest beginning to the latest end of any arm."""


@dataclass(frozen=True)
class Peak:
    """The window of so many minutes with most vehicles."""

    minutes: int


@dataclass(frozen=True)
class Window:
    """A window of the day: minutes since midnight, and how many."""

    begin: int
    minutes: int

    @property
    def end(self) -> int:
        """The minute at which the window ends."""
        return self.begin + self.minutes

    def __str__(self) -> str:
        return f"--from {time_text(self.begin)} --for {self.minutes}"

    def holds(self, count: Count) -> bool:
        """Whether a count lies in the window whole."""
        return self.begin <= count.begin and count.end <= self.end

    def meets(self, count: Count) -> bool:
        """Whether a count and the window share a minute."""
        return count.begin < self.end and self.begin < count.end


Asked = Union[All, Peak, Window]


def read_window(begin: str, minutes: int) -> Window:
    """The window of a time HH:MM and minutes."""
    found = minutes_of(begin)
    if found is None:
        raise Fault(f"{begin} is no time HH:MM")
    if minutes < 1 or found + minutes > DAY:
        raise Fault(f"no window of {minutes} minutes begins at {begin} and ends before midnight")
    return Window(found, minutes)


def window_of(sheets: Sheets, asked: Asked) -> Tuple[Window, List[str]]:
    """The window that is asked for, and what is told of it; every arm that doesn't cover it is a fault."""
    if isinstance(asked, Peak):
        return peak_of(sheets, asked.minutes)
    if isinstance(asked, All):
        begin = min(count.begin for count in sheets.counts)
        asked = Window(begin, max(count.end for count in sheets.counts) - begin)
    judge = Judge()
    for arm, counts in by_arm(sheets).items():
        for place, sentence in gaps(sheets.called(arm), counts, asked):
            judge.fault(place, sentence)
    judge.raise_faults()
    return asked, []


def by_arm(sheets: Sheets) -> Dict[ArmKey, List[Count]]:
    """The counts of each arm, by their beginnings."""
    arms: Dict[ArmKey, List[Count]] = {}
    for count in sorted(sheets.counts, key=lambda one: (one.begin, one.end)):
        arms.setdefault(count.at, []).append(count)
    return arms


def gaps(arm: str, counts: Iterable[Count], window: Window) -> Iterable[Tuple[str, str]]:
    """Why an arm's counts don't cover a window: rows across its edge, holes and overlaps, with their minutes."""
    upto = window.begin
    for count in counts:
        if not window.meets(count):
            continue
        if not window.holds(count):
            yield count.row.place("from"), (f"arm {arm}: the count from {time_text(count.begin)} to "
                                            f"{time_text(count.end)} crosses the edge of the window from "
                                            f"{time_text(window.begin)} to {time_text(window.end)}")
        if count.begin > upto:
            yield "counts", f"arm {arm} has no count from {time_text(upto)} to {time_text(count.begin)}"
        elif count.begin < upto:
            yield count.row.place("from"), (f"arm {arm} is counted twice from {time_text(count.begin)} to "
                                            f"{time_text(min(upto, count.end))}")
        upto = max(upto, count.end)
    if upto < window.end:
        yield "counts", f"arm {arm} has no count from {time_text(upto)} to {time_text(window.end)}"


def peak_of(sheets: Sheets, minutes: int) -> Tuple[Window, List[str]]:
    """The covered window of so many minutes with most vehicles over all arms; of equals the earliest."""
    arms = by_arm(sheets)
    best: Optional[Tuple[int, Window]] = None
    for begin in sorted({count.begin for count in sheets.counts}):
        window = Window(begin, minutes)
        if window.end > DAY or any(True for arm, counts in arms.items() for _ in gaps("", counts, window)):
            continue
        vehicles = sum(vehicles_of(count) for count in sheets.counts if window.holds(count))
        if best is None or vehicles > best[0]:
            best = vehicles, window
    if best is None:
        raise Fault(f"no window of {minutes} minutes begins with a row and is covered by every arm")
    vehicles, window = best
    return window, [f"the peak is {time_text(window.begin)} to {time_text(window.end)}, with {vehicles:,} vehicles"]


def vehicles_of(count: Count) -> int:
    """All vehicles of a row."""
    return sum(vehicles or 0 for vehicles in count.vehicles.values())


def counted(sheets: Sheets, window: Window) -> Dict[Tuple[ArmKey, str], int]:
    """The vehicles of each turn of each arm in a window."""
    vehicles: Dict[Tuple[ArmKey, str], int] = {}
    for count in sheets.counts:
        if window.holds(count):
            for turn, number in count.vehicles.items():
                vehicles[count.at, turn] = vehicles.get((count.at, turn), 0) + (number or 0)
    return vehicles
