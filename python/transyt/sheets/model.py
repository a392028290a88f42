"""The sheets as values: one class for a row of each table, in the units of the sheets."""

from dataclasses import dataclass
from fractions import Fraction
from typing import Dict, Mapping, Optional, Tuple

from .tables import Row

ArmKey = Tuple[int, str]  # a junction and the folded name of an arm


@dataclass(frozen=True)
class Frame:
    """The table frame: cycle in seconds, steps a cycle; None where the default depends on the network."""

    town: str
    cycle: int
    steps: int
    sweeps: int
    period: int
    stop: int
    dispersion: int
    budget: Optional[int]
    sizes: Optional[Tuple[int, ...]]

    @property
    def step(self) -> Fraction:
        """How long a step is, in seconds."""
        return Fraction(self.cycle, self.steps)


@dataclass(frozen=True)
class Junction:
    """A row of junctions: the offset in seconds."""

    row: Row
    number: int
    name: str
    offset: Fraction


@dataclass(frozen=True)
class Stage:
    """A row of stages: all in seconds; no change where the program's equisat gives it."""

    row: Row
    junction: int
    number: int
    name: str
    intergreen: Fraction
    least: Fraction
    change: Optional[Fraction]


@dataclass(frozen=True)
class Link:
    """A row of links: saturation in vehicles an hour; lags in seconds, None where the field is empty."""

    row: Row
    number: int
    junction: int
    arm: str
    name: str
    saturation: int
    lanes: Optional[int]
    stages: Tuple[int, ...]
    start_lag: Optional[Fraction]
    end_lag: Optional[Fraction]
    delay_weight: int
    stop_weight: int

    @property
    def at(self) -> ArmKey:
        """The arm on which the link stands."""
        return self.junction, self.arm


@dataclass(frozen=True)
class Movement:
    """A row of movements: the link that a turn uses, and the arm to which it goes on; None where it leaves."""

    row: Row
    junction: int
    arm: str
    turn: str
    link: int
    goal: Optional[ArmKey]

    @property
    def at(self) -> ArmKey:
        """The arm that the turn leaves."""
        return self.junction, self.arm


@dataclass(frozen=True)
class Way:
    """A row of ways: cruise seconds, metres where they are told, and what happens between (`scale` or `entry`)."""

    row: Row
    source: int
    goal: int
    arm: str
    seconds: int
    metres: Optional[int]
    between: str


@dataclass(frozen=True)
class Count:
    """A row of counts: vehicles of each turn from a minute of the day on; None where the field is empty."""

    row: Row
    junction: int
    arm: str
    begin: int
    minutes: int
    vehicles: Mapping[str, Optional[int]]

    @property
    def at(self) -> ArmKey:
        """The arm that was counted."""
        return self.junction, self.arm

    @property
    def end(self) -> int:
        """The minute of the day at which the count ends."""
        return self.begin + self.minutes


@dataclass(frozen=True)
class Give:
    """A row of gives: the percentage, None where it is to be estimated."""

    row: Row
    link: int
    other: int
    percent: Optional[int]


@dataclass(frozen=True)
class Period:
    """A row of periods: minutes of the day."""

    name: str
    begin: int
    minutes: int


@dataclass(frozen=True)
class Sheets:
    """All tables of a folder, each row judged by itself and against the others."""

    frame: Frame
    junctions: Mapping[int, Junction]
    stages: Mapping[int, Tuple[Stage, ...]]
    links: Mapping[int, Link]
    movements: Tuple[Movement, ...]
    ways: Tuple[Way, ...]
    counts: Tuple[Count, ...]
    gives: Tuple[Give, ...]
    periods: Mapping[str, Period]
    arms: Mapping[ArmKey, str]  # as each arm is written where it stands first

    def called(self, arm: ArmKey) -> str:
        """An arm in a sentence, as `1 west`."""
        return f"{arm[0]} {self.arms.get(arm, arm[1])}"

    def links_of(self, arm: ArmKey) -> Tuple[Link, ...]:
        """The links of an arm, by number."""
        return tuple(link for _, link in sorted(self.links.items()) if link.at == arm)

    def way(self, source: int, goal: ArmKey) -> Optional[Way]:
        """The way from a junction to an arm: the row with the arm goes before that of every arm."""
        found: Dict[str, Way] = {way.arm: way for way in self.ways if (way.source, way.goal) == (source, goal[0])}
        return found.get(goal[1], found.get(""))
