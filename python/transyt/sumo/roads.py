"""The map of a deck: a road for each link, an end of the town for each link that nothing feeds."""

import math
from dataclasses import dataclass, field
from typing import Dict, FrozenSet, List, Mapping, Optional, Sequence, Set, Tuple

from ..deck import Deck, Link
from ..faults import Fault
from . import layout
from .lanes import lane_count

SPEED = 13.9  # metres a second, about 50 km/h: a link is as long as its cruise time at that speed
ENTRY_LENGTH = 500  # metres of a link that nothing feeds
LEAST_LENGTH = 30  # metres; shorter links hold no queue
LANE_WIDTH = 3.2
MOST_LANES = 20


def mean_cruise(link: Link) -> Optional[float]:
    """The mean cruise time of a link's feeds, by their flows, in seconds; None where nothing feeds it."""
    flow = sum(feed.flow for feed in link.used_feeds)
    return sum(feed.flow * feed.cruise for feed in link.used_feeds) / flow if flow else None


def start_node(deck: Deck, link: Link) -> Optional[int]:
    """The node at which a link begins, that of its feeders; None where nothing feeds it."""
    return next((deck.link(feed.feeder).node for feed in link.used_feeds), None)


def check_carried(deck: Deck) -> None:
    """Refuses a deck that has something which is not carried over to SUMO."""
    if not any(link.total_flow for link in deck.links):
        raise Fault("no vehicle comes to any link of the deck")
    for link in deck.links:
        starts = {deck.link(feed.feeder).node for feed in link.used_feeds}
        number = link.number
        if lane_count(deck, link) > MOST_LANES:
            raise Fault(f"link {number} has {lane_count(deck, link)} lanes, and {MOST_LANES} are the most here")
        if len(starts) > 1:
            raise Fault(f"link {number} is fed from the nodes {', '.join(map(str, sorted(starts)))}, "
                          "and a road begins at one")
        if link.node in starts:
            raise Fault(f"link {number} is fed from its own node {link.node}, and a road leads from one to another")
        if starts and (mean_cruise(link) or 0) * SPEED < LEAST_LENGTH:
            raise Fault(f"link {number} would be shorter than {LEAST_LENGTH} m, and no queue would fit on it")


@dataclass
class Road:
    """An edge of SUMO: its name, the names of its ends, lanes, and length in metres or None for that of its shape."""

    name: str
    start: str
    end: str
    lanes: int
    length: Optional[float] = None


@dataclass
class Map:
    """The roads of a deck and the places of their ends.

    `turns` has of a road and one to which it leads the vehicles an hour that go there, `gives` of a road that gives
    way the one that has priority, `together` the pairs of roads that run in one stage.
    """

    places: Dict[str, Tuple[float, float]] = field(default_factory=dict)
    roads: Dict[str, Road] = field(default_factory=dict)
    turns: Dict[Tuple[str, str], int] = field(default_factory=dict)
    gives: Dict[str, str] = field(default_factory=dict)
    together: Set[FrozenSet[str]] = field(default_factory=set)


def link_road(number: int) -> str:
    """The name of a link's edge."""
    return f"link{number}"


def out_road(number: int) -> str:
    """The name of the edge on which vehicles leave the town from a link's stop line."""
    return f"out{number}"


def is_left(deck: Deck, link: Link) -> bool:
    """Whether vehicles leave the town at a link's stop line."""
    return link.total_flow > deck.sent(link.number) or not deck.sent(link.number)


def can_be_drawn(deck: Deck, link: Link) -> bool:
    """Whether a link gives way to another one at its own node."""
    rule = link.gives_way
    return rule is not None and rule.other != link.number and deck.link(rule.other).node == link.node


def neighbours(deck: Deck) -> Dict[int, Dict[int, float]]:
    """For each node the length to each node to which a link joins it, in metres."""
    found: Dict[int, Dict[int, float]] = {node.number: {} for node in deck.nodes}
    for link in deck.links:
        start = start_node(deck, link)
        if start is not None:
            length = (mean_cruise(link) or 0) * SPEED
            for one, other in ((start, link.node), (link.node, start)):
                found[one][other] = min(length, found[one].get(other, length))
    return found


def apart(one: float, other: float) -> float:
    """The angle between two directions, from 0 to a half turn."""
    return abs((one - other + math.pi) % math.tau - math.pi)


def free_direction(taken: Sequence[float]) -> float:
    """A direction for one more road at a node: straight on from one that is there, else the middle of a gap."""
    if not taken:
        return math.pi
    opposite = [angle + math.pi for angle in taken]
    between = [angle + turn * math.tau / 8 for angle in taken for turn in (2, 6, 1, 7)]

    def room(angle: float) -> float:
        return round(min(apart(angle, other) for other in taken), 3)

    best = max(opposite, key=room)
    return best if room(best) > 1 else max(between, key=room)


def draw_map(deck: Deck) -> Map:
    """The map of a deck, each link as long as its cruise time."""
    joined = neighbours(deck)
    at = layout.places(joined)
    drawn = Map({f"node{number}": place for number, place in at.items()})
    for number in deck.node_by_number:
        x, y = at[number]
        links = [link for link in deck.links if link.node == number]
        taken = [math.atan2(at[other][1] - y, at[other][0] - x) for other in joined[number]]
        ends = draw_ends(deck, links, taken, drawn)
        draw_links(deck, links, drawn)
        drawn.together.update(frozenset((link_road(one.number), link_road(other.number)))
                              for one in links for other in links if set(one.stages) & set(other.stages))
        draw_ways_out(deck, links, ends, drawn)
    for link in deck.links:
        road = link_road(link.number)
        drawn.turns.update({(link_road(feed.feeder), road): feed.flow for feed in link.used_feeds})
        if is_left(deck, link):
            drawn.turns[road, out_road(link.number)] = max(0, link.total_flow - deck.sent(link.number))
        if can_be_drawn(deck, link) and link.gives_way:
            drawn.gives[road] = link_road(link.gives_way.other)
    return drawn


def draw_ends(deck: Deck, links: Sequence[Link], taken: List[float], drawn: Map) -> Dict[str, float]:
    """Adds the ends of the town at a node with these links, one for each that nothing feeds; returns their directions.

    `taken` has the directions of the roads to other nodes. Where all links are fed there is one end to leave by.
    """
    names = [end_of(link) for link in links if start_node(deck, link) is None]
    if not names and any(is_left(deck, link) for link in links):
        names = [f"end-node{links[0].node}"]
    ends: Dict[str, float] = {}
    for name in names:
        ends[name] = free_direction(taken + list(ends.values()))
        x, y = drawn.places[f"node{links[0].node}"]
        drawn.places[name] = (x + ENTRY_LENGTH * math.cos(ends[name]), y + ENTRY_LENGTH * math.sin(ends[name]))
    return ends


def end_of(link: Link) -> str:
    """The name of the end of the town where a link begins that nothing feeds."""
    return f"end{link.number}"


def draw_links(deck: Deck, links: Sequence[Link], drawn: Map) -> None:
    """Adds the roads of links."""
    for link in links:
        start = start_node(deck, link)
        length = ENTRY_LENGTH if start is None else (mean_cruise(link) or 0) * SPEED
        begins = end_of(link) if start is None else f"node{start}"
        name = link_road(link.number)
        drawn.roads[name] = Road(name, begins, f"node{link.node}", lane_count(deck, link), length)


def draw_ways_out(deck: Deck, links: Sequence[Link], ends: Mapping[str, float], drawn: Map) -> None:
    """Adds a road out of the town for each link where vehicles leave it, to the end that is most nearly ahead."""
    for link in links:
        if is_left(deck, link):
            x, y = drawn.places[f"node{link.node}"]
            start_x, start_y = drawn.places[drawn.roads[link_road(link.number)].start]
            ahead = math.atan2(y - start_y, x - start_x)
            end = min(ends, key=lambda name: round(apart(ends[name], ahead), 3))
            name = out_road(link.number)
            drawn.roads[name] = Road(name, f"node{link.node}", end, lane_count(deck, link))
