"""The stages of a program of signals: its phases, with yellow and all red as intergreen.

A stage is a run of phases with the same greens for cars. Phases in which some signal is yellow, or none is green,
belong to the intergreen of the stage that follows, as does a short one whose greens are on before it and after it.
Where those on foot alone have green, that is a stage too. The phases that `./plan sumo look` writes have the names
`stage 2` and `to stage 2`, and are taken by them.
"""

import re
from dataclasses import dataclass, replace
from fractions import Fraction
from itertools import groupby
from typing import Dict, FrozenSet, List, Optional, Sequence, Tuple

from ..faults import Fault
from ..sumo.netfile import Logic, Phase

NAMED = re.compile(r"(to )?stage ([1-8])")
GREENS = "Gg"
CHANGING = "yYuU"
CLEARING = 5  # seconds; a run of phases with less green, whose greens are on before and after it, is no stage
MOST_STAGES = 8
ON_FOOT = frozenset({-1})  # in the place of the places of those on foot


@dataclass(frozen=True)
class Stage:
    """A stage: the second of the program at which its intergreen begins, how long that and its green last, which places
    are green, and the least green where the program tells it."""

    begin: Fraction
    intergreen: Fraction
    green: Fraction
    places: FrozenSet[int]
    least: Optional[Fraction]


@dataclass(frozen=True)
class Part:
    """A phase with the second at which it begins."""

    begin: Fraction
    phase: Phase
    cars: FrozenSet[int]

    @property
    def seconds(self) -> Fraction:
        """How long it lasts."""
        return exact(self.phase.duration)

    @property
    def places(self) -> FrozenSet[int]:
        """The places of cars that are green; ON_FOOT where only others are."""
        green = {place for place, signal in enumerate(self.phase.state) if signal in GREENS}
        return frozenset(green & self.cars) or (ON_FOOT if green else frozenset())

    @property
    def is_changing(self) -> bool:
        """Whether some signal is yellow, or none is green."""
        return not self.places or any(self.phase.state[place] in CHANGING for place in self.cars)


Run = List[Part]


def exact(seconds: float) -> Fraction:
    """Seconds as SUMO reckons them, in thousandths."""
    return Fraction(round(seconds * 1000), 1000)


def cycle_of(logic: Logic) -> Fraction:
    """The cycle of a program in seconds."""
    return sum((exact(phase.duration) for phase in logic.phases), Fraction(0))


def parts_of(logic: Logic, cars: FrozenSet[int]) -> Run:
    """The phases with their beginnings; those that last no time are left."""
    begin, found = Fraction(0), []
    for phase in logic.phases:
        if phase.duration > 0:
            found.append(Part(begin, phase, cars))
        begin += exact(phase.duration)
    return found


def stages_of(logic: Logic, cars: FrozenSet[int]) -> List[Stage]:
    """The stages of a program, from the one on with which its first phase is green, or that is green first.

    `cars` are the places of its states that are signals for cars.
    """
    lengths = {len(phase.state) for phase in logic.phases}
    if len(lengths) > 1:
        raise Fault(f"signals {logic.name}: the states of its phases differ in length")
    if cars and lengths and (max(cars) >= max(lengths) or min(cars) < 0):
        raise Fault(f"signals {logic.name}: a connection has the place {max(cars)}, and a phase has {max(lengths)} "
                    "places")
    parts = parts_of(logic, cars)
    names = [NAMED.fullmatch(part.phase.name) for part in parts]
    if parts and all(names):
        return named_stages(parts, [(int(name[2]), bool(name[1])) for name in names if name])
    return stages_by_greens(parts)


def named_stages(parts: Run, names: Sequence[Tuple[int, bool]]) -> List[Stage]:
    """The stages of phases that have the names which `look` writes."""
    found: List[Stage] = []
    for number in sorted({number for number, _ in names}):
        before = [part for part, name in zip(parts, names) if name == (number, True)]
        green = [part for part, name in zip(parts, names) if name == (number, False)]
        if green:
            found.append(stage_of(in_turn(parts, before), in_turn(parts, green)))
    return found


def in_turn(parts: Run, some: Run) -> Run:
    """Parts that follow one another, from the first of them: they may go on past the program's end."""
    places = [parts.index(part) for part in some]
    first = next((place for place in places if (place - 1) % len(parts) not in places), places[0] if places else 0)
    return sorted(some, key=lambda part: (parts.index(part) - first) % len(parts))


def stage_of(before: Run, green: Run) -> Stage:
    """The stage of phases of intergreen and of phases of green."""
    leasts = [exact(part.phase.least) for part in green if part.phase.least]
    return Stage((before + green)[0].begin, total(before), total(green), green[-1].places,
                 sum(leasts, Fraction(0)) if leasts else None)


def total(parts: Run) -> Fraction:
    """How long parts last."""
    return sum((part.seconds for part in parts), Fraction(0))


def runs_of(parts: Run) -> List[Run]:
    """Runs of phases with the same greens; the first one may begin before the program's end."""
    runs = [list(run) for _, run in groupby(parts, key=lambda part: part.places)]
    if len(runs) > 1 and runs[0][0].places == runs[-1][0].places:
        runs[0] = runs.pop() + runs[0]
    return runs


def stages_by_greens(parts: Run) -> List[Stage]:
    """The stages of phases by what is green."""
    runs = runs_of(parts)
    stages: List[Tuple[Run, Run]] = []
    waiting: Run = []
    standing = [is_stage(runs, place) for place in range(len(runs))]
    for run, stands in zip(runs, standing):
        if not stands:
            waiting = waiting + run
            continue
        first = next(place for place, part in enumerate(run) if not part.is_changing)
        stages.append((waiting + run[:first], run[first:]))
        waiting = []
    if stages and waiting:
        stages[0] = (waiting + stages[0][0], stages[0][1])
    return [stage_of(before, green) for before, green in stages]


def is_stage(runs: Sequence[Run], place: int) -> bool:
    """Whether a run of phases is a stage, and not the way from one to another."""
    run = runs[place]
    green = total([part for part in run if not part.is_changing])
    if not green:
        return False
    before, after = runs[place - 1][0].places, runs[(place + 1) % len(runs)][0].places
    return green >= CLEARING or not (run[0].places < before and run[0].places < after)


def fullest(stages: List[Stage], cycle: Fraction) -> Tuple[List[Stage], Dict[int, int]]:
    """The eight stages with most green, and for each place of a stage that is left that of the kept one before it.

    The time of a stage that is left goes to the stage before it.
    """
    order = sorted(range(len(stages)), key=lambda place: (-stages[place].green, place))
    kept = sorted(order[:MOST_STAGES])
    into: Dict[int, int] = {}
    for place in range(len(stages)):
        before = [one for one in kept if one <= place]
        into[place] = kept.index(before[-1] if before else kept[-1])
    found: List[Stage] = []
    for count, place in enumerate(kept):
        stage, following = stages[place], stages[kept[(count + 1) % len(kept)]]
        length = (following.begin - stage.begin) % cycle
        found.append(replace(stage, green=length - stage.intergreen))
    return found, into
