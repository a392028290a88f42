"""A network of SUMO as junctions with their stages, arms and links, by the numbers that the sheets have."""

from dataclasses import dataclass
from fractions import Fraction
from typing import Dict, FrozenSet, List, Mapping, Optional, Sized, Tuple

from ..faults import Fault
from ..sheets.tables import folded
from ..sumo.netfile import Connection, Logic, NetFile
from .arms import Arm, ArmLink, Program, Tell, arms_of
from .feeders import Goals, at_most_eight
from .frames import Frame, cycle_of_most, frame_of, is_fixed, numbered, only
from .stages import MOST_STAGES, Stage, cycle_of, exact, fullest, stages_of
from .trails import Trail, Trails, inside

MOST_JUNCTIONS, MOST_LINKS = 200, 1_000
Ways = Dict[Tuple[int, int, str], "Way"]  # from a junction to a junction's arm


@dataclass(frozen=True)
class Junction:
    """A junction: its number, its program of signals, its arms; and whether the program's times go into the sheets."""

    number: int
    program: Program
    arms: Tuple[Arm, ...]
    has_times: bool

    @property
    def links(self) -> List[Tuple[Arm, ArmLink]]:
        """Its links with their arms, in the order of their numbers."""
        return [(arm, link) for arm in self.arms for link in arm.links]

    def place_of(self, arm: Arm, link: int) -> int:
        """The place of an arm's link among all of the junction."""
        return sum(len(one.links) for one in self.arms[:self.arms.index(arm)]) + link

    def begin(self, stage: Stage) -> Fraction:
        """AT of a stage: the second of the common cycle at which its intergreen begins."""
        logic = self.program.logic
        return (exact(logic.offset) + stage.begin) % cycle_of(logic)


@dataclass(frozen=True)
class Way:
    """A way from a junction to an arm, the way through the junction with it."""

    metres: float
    seconds: float


@dataclass(frozen=True)
class Town:
    """All junctions, the cycle and steps, each link's number by junction and place, and the ways.

    `goals` has for a turn (junction, arm, turn) the junction and the arm to which it goes on, if any.
    """

    net: NetFile
    frame: Frame
    junctions: Tuple[Junction, ...]
    numbers: Mapping[Tuple[int, int], int]
    goals: Mapping[Tuple[int, str, str], Tuple[int, str]]
    ways: Mapping[Tuple[int, int, str], Way]

    def number(self, junction: Junction, arm: Arm, link: int) -> int:
        """The number of an arm's link."""
        return self.numbers[junction.number, junction.place_of(arm, link)]


def town_of(net: NetFile, wanted: Optional[List[str]], cycle: Optional[int], tell: Tell) -> Town:
    """The town of a network: the junctions that are wanted, or all that have signals of two stages or more."""
    logics = [logic for logic in only(net.logics, wanted) if has_stages(net, logic)]
    for logic in only(net.logics, wanted):
        if logic not in logics:
            tell(f"signals {logic.name} have fewer than two stages, and are left out")
    if not logics:
        raise Fault("the network has no junction with signals of at least two stages")
    check_size(logics, [])
    seconds = cycle or cycle_of_most(logics)
    junctions = tuple(junction_of(net, logic, number, seconds, tell) for number, logic in enumerate(logics, 1))
    times = [time for one in junctions if one.has_times for time in times_of(one)]
    numbers = numbered({one.number: len(one.links) for one in junctions})
    check_size(junctions, numbers)
    goals, ways = onward(net, junctions, tell)
    return Town(net, frame_of(seconds, times), junctions, numbers, goals, ways)


def check_size(junctions: Sized, links: Sized) -> None:
    """Refuses what is too large for a deck."""
    for name, count, most in (("junctions with signals", len(junctions), MOST_JUNCTIONS),
                              ("links", len(links), MOST_LINKS)):
        if count > most:
            raise Fault(f"the network has {count:,} {name}, and a deck {most:,} at most: --junctions takes a part")


def cars_at(net: NetFile, logic: Logic) -> FrozenSet[int]:
    """The places of signals for cars."""
    return frozenset(one.place for one in net.at_signals.get(logic.name, ()))


def has_stages(net: NetFile, logic: Logic) -> bool:
    """Whether signals stop cars, and have at least two stages."""
    cars = cars_at(net, logic)
    return bool(cars) and len(stages_of(logic, cars)) >= 2


def stops_ways(net: NetFile, name: str) -> bool:
    """Whether ways end at signals, be they wanted or not; those with fewer than two stages are as none."""
    try:
        return name in net.logics and has_stages(net, net.logics[name])
    except Fault:
        return True


def junction_of(net: NetFile, logic: Logic, number: int, cycle: int, tell: Tell) -> Junction:
    """A junction of a program of signals."""
    every = tuple(stages_of(logic, cars_at(net, logic)))
    stages, into = every, {place: place for place in range(len(every))}
    if len(every) > MOST_STAGES:
        kept, into = fullest(list(every), cycle_of(logic))
        stages = tuple(kept)
        left = [str(place + 1) for place in range(len(every)) if every[place].begin not in {one.begin for one in kept}]
        tell(f"signals {logic.name} have {len(every)} stages, and {MOST_STAGES} are the most: left out are those with "
             f"least green, {', '.join(left)}, whose time goes to the stage before")
    told_of(logic, cycle, tell)
    program = Program(logic, stages, every, into)
    arms = tuple(arms_of(net, program, tell))
    check_arms(logic, arms)
    return Junction(number, program, arms, is_fixed(logic) and cycle_of(logic) == cycle)


def check_arms(logic: Logic, arms: Tuple[Arm, ...]) -> None:
    """Refuses two edges of a junction whose ids the sheets don't tell apart."""
    seen: Dict[str, str] = {}
    for arm in arms:
        other = seen.setdefault(folded(arm.edge.name), arm.edge.name)
        if other != arm.edge.name:
            raise Fault(f"signals {logic.name}: the edges {other} and {arm.edge.name} differ in case or blanks alone, "
                        "and the sheets don't tell such arms apart")


def told_of(logic: Logic, cycle: int, tell: Tell) -> None:
    """Tells what of a program isn't carried over."""
    if not is_fixed(logic):
        tell(f"signals {logic.name} are {logic.kind}, and their times aren't fixed: their changes are left empty, for "
             "equal saturation")
    elif cycle_of(logic) != cycle:
        tell(f"signals {logic.name} have a cycle of {float(cycle_of(logic)):g} s, and the sheets {cycle}: their "
             "changes are left empty, for equal saturation")
    if any(phase.following not in ("", str(place)) for place, phase in
           enumerate(logic.phases[:-1], 1)) or logic.phases[-1].following not in ("", "0"):
        tell(f"signals {logic.name}: a phase is followed by another than the next one; they are taken in turn")
    other = sorted({signal for phase in logic.phases for signal in phase.state} - set("GgyYruU"))
    if other:
        tell(f"signals {logic.name}: the signals {' '.join(other)} are taken as red")


def times_of(junction: Junction) -> List[Fraction]:
    """The times of a junction that have to be whole steps."""
    stages = junction.program.stages
    return [time for stage in stages for time in (junction.begin(stage), stage.intergreen)]


def onward(net: NetFile, junctions: Tuple[Junction, ...], tell: Tell) -> Tuple[Goals, Ways]:
    """Where each turn goes on, and the ways from junctions to arms."""
    at = {arm.edge.name: junction.number for junction in junctions for arm in junction.arms}
    others = {one.start for name, led in net.at_signals.items() if stops_ways(net, name) for one in led}
    trails = Trails(net, others | set(at))
    goals: Goals = {}
    found: Dict[Tuple[int, int, str], List[Way]] = {}
    parted: Dict[str, None] = {}
    for junction in junctions:
        for arm in junction.arms:
            for turn in arm.turns:
                ends = trails.ends_of(turn.goal)
                if len(ends) > 1:
                    parted[turn.goal] = None
                if ends and ends[0].end in at:
                    goal = at[ends[0].end], ends[0].end
                    goals[junction.number, arm.edge.name, turn.name] = goal
                    found.setdefault((junction.number, *goal), []).append(way_of(net, ends[0], turn.connections[0]))
    for edge in parted:
        tell_parted(edge, trails.ends_of(edge), at, tell)
    goals = at_most_eight([(junction.number, arm) for junction in junctions for arm in junction.arms], goals, tell)
    kept = {(key[0], *goal) for key, goal in goals.items()}
    return goals, {key: mean_way(key, ways, tell) for key, ways in found.items() if key in kept}


def tell_parted(edge: str, ends: List[Trail], at: Mapping[str, int], tell: Tell) -> None:
    """Tells that a way parts before the next signals."""
    more = f" and {len(ends) - 4} more" if len(ends) > 4 else ""
    taken = ends[0].end if ends[0].end in at else f"{ends[0].end}, where it leaves"
    tell(f"the way from the beginning of edge {edge} parts before the next signals, to the ends of "
         f"{', '.join(trail.end for trail in ends[:4])}{more}: all of it is taken to go to {taken}")


def way_of(net: NetFile, trail: Trail, connection: Connection) -> Way:
    """The way of a turn: through its junction, and then on."""
    metres, seconds = inside(net, connection)
    return Way(metres + trail.metres, seconds + trail.seconds)


def mean_way(key: Tuple[int, int, str], ways: List[Way], tell: Tell) -> Way:
    """The mean of the ways by which turns of a junction come to an arm; told where they differ by more than 2 s."""
    seconds = [way.seconds for way in ways]
    mean = Way(sum(way.metres for way in ways) / len(ways), sum(seconds) / len(ways))
    if max(seconds) - min(seconds) > 2:
        tell(f"the turns of junction {key[0]} come to edge {key[2]} in {min(seconds):.0f} to {max(seconds):.0f} s; "
             f"taken is the mean, {mean.seconds:.0f} s")
    return mean
