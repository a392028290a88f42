"""The arms of a junction with signals: its incoming edges, the links that their lanes make, their turns."""

from dataclasses import dataclass
from typing import Callable, Dict, FrozenSet, List, Mapping, Optional, Sequence, Tuple

from ..sumo.netfile import Connection, Edge, Lane, Logic, NetFile
from .stages import GREENS, Stage

Tell = Callable[[str], None]


@dataclass(frozen=True)
class ArmLink:
    """Lanes of an edge that share their green: the stages in which it is on, and whether it always has to look out."""

    lanes: Tuple[Lane, ...]
    stages: Tuple[int, ...]
    is_minor: bool


@dataclass(frozen=True)
class Turn:
    """A turn: its name, the edge that it leads to, the place of its link in the arm, its connections."""

    name: str
    goal: str
    link: int
    connections: Tuple[Connection, ...]


@dataclass(frozen=True)
class Arm:
    """An incoming edge with its links, from right to left, and its turns."""

    edge: Edge
    links: Tuple[ArmLink, ...]
    turns: Tuple[Turn, ...]


@dataclass(frozen=True)
class Program:
    """A program of signals as arms see it: its stages, and where the places of a stage that is left went to."""

    logic: Logic
    stages: Tuple[Stage, ...]
    all_stages: Tuple[Stage, ...]
    into: Mapping[int, int]

    def shown(self, connection: Connection) -> FrozenSet[int]:
        """The stages, from 1, in which a connection is green; all of them where it has no signal."""
        if connection.signals != self.logic.name:
            return frozenset(range(1, len(self.stages) + 1))
        return frozenset(self.into[place] + 1 for place, stage in enumerate(self.all_stages)
                         if connection.place in stage.places)

    def greens(self, connection: Connection) -> FrozenSet[str]:
        """Which greens a connection has in the program: `G`, at which it goes first, and `g`, at which it looks out."""
        return frozenset(phase.state[connection.place] for phase in self.logic.phases
                         if phase.state[connection.place] in GREENS)

    def is_minor(self, connection: Connection) -> bool:
        """Whether a connection is never green but with `g`."""
        return connection.signals == self.logic.name and self.greens(connection) == {"g"}


def arms_of(net: NetFile, program: Program, tell: Tell) -> List[Arm]:
    """The arms of a program of signals, in the file's order of edges."""
    starts = sorted({one.start for one in net.at_signals[program.logic.name]}, key=net.edge_places.__getitem__)
    arms = [arm_of(net.edges[edge], net.driven(edge), program, tell) for edge in starts]
    return [arm for arm in arms if arm.links]


def arm_of(edge: Edge, connections: Sequence[Connection], program: Program, tell: Tell) -> Arm:
    """An edge as an arm."""
    groups: Dict[Tuple[FrozenSet[int], bool], List[Lane]] = {}
    for lane in edge.lanes:
        turns = [one for one in connections if one.from_lane == lane.place]
        if turns:
            shown = shown_of(lane, turns, program, tell)
            if shown:
                groups.setdefault((shown, gives_way(lane, turns, program, tell)), []).append(lane)
    links = tuple(ArmLink(tuple(lanes), tuple(sorted(stages)), minor) for (stages, minor), lanes in groups.items())
    return Arm(edge, links, tuple(turns_of(edge, links, connections, tell)))


def shown_of(lane: Lane, turns: Sequence[Connection], program: Program, tell: Tell) -> Optional[FrozenSet[int]]:
    """The stages of a lane: those of its turns where they agree; None where it is never green."""
    greens = [program.shown(turn) for turn in turns]
    common = frozenset.intersection(*greens)
    if not any(greens):
        tell(f"lane {lane.name} is never green, and is left out")
        return None
    if len(set(greens)) > 1:
        taken = common or max(greens, key=len)
        stages = " and ".join(map(str, sorted(taken)))
        how = "that all of them have" if common else "of one of them, since they share none"
        tell(f"lane {lane.name}: its turns have different greens; taken is stage {stages}, {how}")
        return taken
    return greens[0]


def gives_way(lane: Lane, turns: Sequence[Connection], program: Program, tell: Tell) -> bool:
    """Whether all turns of a lane always look out; told where some do."""
    name = program.logic.name
    minor = [program.is_minor(turn) for turn in turns]
    if all(minor):
        return True
    if any(minor):
        goals = " and ".join(turn.end for turn, looks in zip(turns, minor) if looks)
        tell(f"lane {lane.name}: its turn to {goals} gives way, and other turns of the lane don't; taken without a "
             "rule")
    for turn in turns:
        if turn.signals == name and program.greens(turn) == {"G", "g"}:
            tell(f"lane {lane.name}: its turn to {turn.end} gives way in some stages alone; taken without a rule")
    return False


def turns_of(edge: Edge, links: Sequence[ArmLink], connections: Sequence[Connection], tell: Tell) -> List[Turn]:
    """The turns of an arm: one for each edge that a link leads to, by SUMO's dir, with a number where two are alike."""
    found: Dict[Tuple[str, int], List[Connection]] = {}
    for place, link in enumerate(links):
        lanes = {lane.place for lane in link.lanes}
        for one in connections:
            if one.from_lane in lanes:
                found.setdefault((one.end, place), []).append(one)
    turns: List[Turn] = []
    for (goal, place), led in found.items():
        name = led[0].direction.casefold() or "x"
        count = sum(1 for turn in turns if turn.connections[0].direction.casefold() == led[0].direction.casefold())
        turns.append(Turn(f"{name}{count + 1}" if count else name, goal, place, tuple(led)))
    for goal in dict.fromkeys(goal for goal, _ in found):
        alike = [turn.name for turn in turns if turn.goal == goal]
        if len(alike) > 1:
            tell(f"edge {edge.name}: lanes of different greens lead to {goal}, and so it has the turns "
                 f"{' and '.join(alike)}, by whose lanes its counts are shared")
    return turns
