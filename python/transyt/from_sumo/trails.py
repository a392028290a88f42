"""Where a way goes on behind a junction: through junctions without signals, to the next one with signals."""

import heapq
import math
from dataclasses import dataclass
from typing import AbstractSet, Dict, List, Tuple

from ..sumo.netfile import Connection, Edge, NetFile

TURNING_BACK = "t"


@dataclass(frozen=True)
class Trail:
    """A way to an edge that ends at signals, or where the network ends: metres and seconds."""

    end: str
    metres: float
    seconds: float


def speed_of(edge: Edge) -> float:
    """The speed of an edge's fastest lane for cars, in metres a second."""
    return max((lane.speed for lane in edge.lanes if lane.cars), default=13.9) or 13.9


def length_of(edge: Edge) -> float:
    """The length of an edge in metres."""
    return edge.lanes[0].length if edge.lanes else 0.0


def inside(net: NetFile, connection: Connection) -> Tuple[float, float]:
    """Metres and seconds of a connection's way through its junction."""
    lanes = [net.lanes[name] for name in net.way_inside(connection) if name in net.lanes]
    return sum(lane.length for lane in lanes), sum(lane.length / (lane.speed or 13.9) for lane in lanes)


class Trails:
    """The ways of a network, given the edges that end at signals."""

    def __init__(self, net: NetFile, arms: AbstractSet[str]) -> None:
        self.net, self.arms = net, arms
        self.known: Dict[str, List[Trail]] = {}

    def ends_of(self, start: str) -> List[Trail]:
        """The ends that can be reached from the beginning of an edge, the most nearly straight ahead first.

        Nobody turns back on the way. Of ends as straight the nearer one goes before.
        """
        if start not in self.known:
            ahead = self.heading(start)
            self.known[start] = sorted(self.reached(start), key=lambda trail: (
                round(self.turned(ahead, self.heading(trail.end)), 1), trail.seconds))
        return self.known[start]

    def reached(self, start: str) -> List[Trail]:
        """The ends that can be reached, each by its quickest way."""
        found: Dict[str, Trail] = {}
        seen: Dict[str, float] = {}
        edge = self.net.edges[start]
        heap = [(length_of(edge) / speed_of(edge), start, length_of(edge))]
        while heap:
            seconds, name, metres = heapq.heappop(heap)
            if name in seen:
                continue
            seen[name] = seconds
            onward = [] if name in self.arms else self.onward(self.net.edges[name])
            if not onward:
                found[name] = Trail(name, metres, seconds)
            for one in onward:
                through, lasting = inside(self.net, one)
                edge = self.net.edges[one.end]
                heapq.heappush(heap, (seconds + lasting + length_of(edge) / speed_of(edge), one.end,
                                      metres + through + length_of(edge)))
        return list(found.values())

    def onward(self, edge: Edge) -> List[Connection]:
        """The connections by which cars go on from an edge, without those that turn back."""
        return [one for one in self.net.driven(edge.name) if one.direction != TURNING_BACK]

    def heading(self, name: str) -> float:
        """The direction of an edge from its first end to its last."""
        edge, junctions = self.net.edges[name], self.net.junctions
        if edge.start not in junctions or edge.end not in junctions:
            return 0.0
        (x, y), (end_x, end_y) = junctions[edge.start].at, junctions[edge.end].at
        return math.atan2(end_y - y, end_x - x)

    @staticmethod
    def turned(one: float, other: float) -> float:
        """The angle between two directions, from 0 to a half turn."""
        return abs((one - other + math.pi) % math.tau - math.pi)
