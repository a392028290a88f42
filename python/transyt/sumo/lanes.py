"""Lanes: how many a link has, and which of them leads to which goal.

A feeder as narrow as all that it leads on to uses every lane for each goal. One that is wider than some link that it
feeds shares its lanes among its goals, from right to left as they are drawn, so that no two of its ways cross.
"""

from dataclasses import dataclass
from typing import List, Sequence, Tuple

from ..deck import Deck, Link

LANE_FLOW = 1800  # vehicles an hour of saturation flow for each lane, where no LANES line tells them
Lanes = Tuple[int, int]  # the first lane and the last, from 0 at the right
Pairs = List[Tuple[int, int]]  # a lane of the feeder, and the lane of the goal to which it leads


def lane_count(deck: Deck, link: Link) -> int:
    """How many lanes a link has: by its LANES line, else by its saturation flow."""
    return deck.names.lanes.get(link.number) or max(1, round(link.saturation / LANE_FLOW))


@dataclass(frozen=True)
class Goal:
    """Where a feeder leads: how many lanes that has, and the vehicles an hour that go there."""

    lanes: int
    flow: float


def ways(lanes: int, goals: Sequence[Goal]) -> List[Pairs]:
    """For each goal of a feeder with so many lanes, from right to left as drawn, which lane leads to which."""
    if all(goal.lanes >= lanes for goal in goals):
        return [side_by_side((0, lanes - 1), goal.lanes) for goal in goals]
    return [side_by_side(own, goal.lanes) for own, goal in zip(shares(lanes, goals), goals)]


def side_by_side(own: Lanes, there: int) -> Pairs:
    """Lanes of a feeder to a goal's lanes, the right ones first; the last of the fewer is paired with each to spare."""
    first, last = own
    count = last - first + 1
    pairs = [(first + place, min(place, there - 1)) for place in range(count)]
    return pairs + [(last, place) for place in range(count, there)]


def shares(lanes: int, goals: Sequence[Goal]) -> List[Lanes]:
    """The lanes of a feeder that each goal gets, from right to left."""
    flows = [goal.flow for goal in goals] if any(goal.flow for goal in goals) else [1.0] * len(goals)
    return parted(lanes, flows) if len(goals) <= lanes else overlapping(lanes, flows)


def parted(lanes: int, flows: Sequence[float]) -> List[Lanes]:
    """A lane for each goal, and the rest by greatest remainder of flow; of equal ones the right goal goes before."""
    rest, whole = lanes - len(flows), sum(flows)
    parts = [rest * flow / whole for flow in flows]
    counts = [1 + int(part) for part in parts]
    order = sorted(range(len(flows)), key=lambda place: (int(parts[place]) - parts[place], place))
    for place in order[:lanes - sum(counts)]:
        counts[place] += 1
    ends = [sum(counts[:place + 1]) for place in range(len(counts))]
    return [(end - count, end - 1) for end, count in zip(ends, counts)]


def overlapping(lanes: int, flows: Sequence[float]) -> List[Lanes]:
    """More goals than lanes: neighbours share the lane in which the running sum of flow between them falls."""
    whole, upto, found = sum(flows), 0.0, []
    for flow in flows:
        begin, end = upto * lanes / whole, (upto + flow) * lanes / whole
        first = min(int(begin), lanes - 1)
        last = max(first, min(lanes - 1, int(end) if end > int(end) else int(end) - 1))
        found.append((first, last))
        upto += flow
    return found
