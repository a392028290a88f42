"""The cycle of a network and its steps: seconds of programs as whole steps."""

from collections import Counter
from dataclasses import dataclass
from fractions import Fraction
from typing import Dict, Iterable, List, Mapping, Optional, Tuple

from ..faults import Fault
from ..sheets.values import half_up
from ..sumo.netfile import Logic
from .stages import cycle_of

CYCLES, STEPS = (30, 240), (10, 120)


@dataclass(frozen=True)
class Frame:
    """The cycle in seconds, and how many steps it has."""

    cycle: int
    steps: int

    @property
    def step(self) -> Fraction:
        """How long a step is, in seconds."""
        return Fraction(self.cycle, self.steps)

    def nearest(self, seconds: Fraction) -> Fraction:
        """Seconds as whole steps, to the nearest, a half up."""
        return half_up(seconds / self.step) * self.step


def is_fixed(logic: Logic) -> bool:
    """Whether a program goes by the clock alone."""
    return logic.kind == "static"


def cycle_of_most(logics: Iterable[Logic]) -> int:
    """The cycle of most programs that go by the clock, of equally many the longest; where none does, that of most."""
    there = list(logics)
    cycles = Counter(cycle_of(logic) for logic in there if is_fixed(logic)) or Counter(map(cycle_of, there))
    seconds = max(cycles, key=lambda cycle: (cycles[cycle], cycle))
    if seconds.denominator != 1 or not CYCLES[0] <= seconds <= CYCLES[1]:
        raise Fault(f"most signals have a cycle of {float(seconds):g} s, and a deck's is a whole number from "
                    f"{CYCLES[0]} to {CYCLES[1]}: --cycle names one")
    return int(seconds)


def frame_of(cycle: int, times: Iterable[Fraction]) -> Frame:
    """The frame of a cycle: steps of a second up to 120 s, and of two above; where not all times are whole steps then,
    the most steps in which they are, if there are such. A step has at most three decimals."""
    wanted = list(times)
    if not CYCLES[0] <= cycle <= CYCLES[1]:
        raise Fault(f"--cycle {cycle}: a cycle lasts {CYCLES[0]} to {CYCLES[1]} s")
    usable = [steps for steps in range(STEPS[1], STEPS[0] - 1, -1) if (1000 * cycle) % steps == 0]
    usual = [cycle if cycle <= STEPS[1] else cycle // 2] if cycle <= STEPS[1] or cycle % 2 == 0 else usable[:1]
    for steps in usual + usable:
        if all((seconds * steps / cycle).denominator == 1 for seconds in wanted):
            return Frame(cycle, steps)
    return Frame(cycle, usual[0])


def numbered(sizes: Mapping[int, int]) -> Dict[Tuple[int, int], int]:
    """The number of each link by its junction and its place there: 10 or 100 times the junction's, and the place."""
    factor = 10 if max(sizes.values(), default=0) < 10 else 100
    found: Dict[Tuple[int, int], int] = {}
    for junction, size in sizes.items():
        found.update({(junction, place): factor * junction + place + 1 for place in range(size)})
    return found


def only(logics: Mapping[str, Logic], wanted: Optional[List[str]]) -> List[Logic]:
    """The programs of the junctions that are wanted, in the file's order; all where none is named."""
    for name in wanted or []:
        if name not in logics:
            raise Fault(f"--junctions {name}: the network has no signals with this id")
    return [logic for name, logic in logics.items() if wanted is None or name in wanted]
