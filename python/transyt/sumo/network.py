"""The network of a map: netconvert makes it, and it is read again."""

import math
import os
from typing import Any, Callable, Dict, List, Mapping, Tuple

from ..deck import Deck
from .lanes import Goal, ways
from .merging import REGULATED, UNREGULATED, put_merging
from .netfile import Request, read_net
from .roads import LANE_WIDTH, LEAST_LENGTH, SPEED, Map, Road, apart, check_carried, draw_map, link_road
from .tools import run_tool, write_xml

Turn = Tuple[str, str]  # the road that leads to a stop line, and one behind it


def beside(drawn: Map) -> Dict[str, int]:
    """For each road how many lanes of other roads lie between its line and it, those before it with the same ends."""
    upto: Dict[Turn, int] = {}
    found: Dict[str, int] = {}
    for road in drawn.roads.values():
        found[road.name] = upto.get((road.start, road.end), 0)
        upto[road.start, road.end] = found[road.name] + road.lanes
    return found


def shape(road: Road, drawn: Map, lanes: int) -> str:
    """The shape of a road, moved to the right by the lanes of the roads that lie between the same ends before it."""
    (x, y), (end_x, end_y) = drawn.places[road.start], drawn.places[road.end]
    length = math.hypot(end_x - x, end_y - y)
    right, down = (end_y - y) / length * LANE_WIDTH * lanes, (x - end_x) / length * LANE_WIDTH * lanes
    return f"{x + right:.1f},{y + down:.1f} {end_x + right:.1f},{end_y + down:.1f}"


def from_the_right(start: str, drawn: Map) -> List[str]:
    """The roads to which a road leads, from right to left as drawn; one that turns back is the last."""
    moved = beside(drawn)

    def heading(road: Road) -> float:
        (x, y), (end_x, end_y) = drawn.places[road.start], drawn.places[road.end]
        return math.atan2(end_y - y, end_x - x)

    def place(name: str) -> Tuple[float, int]:
        turned = (heading(drawn.roads[name]) - heading(drawn.roads[start]) + math.pi) % math.tau - math.pi
        return round(math.pi if apart(turned, math.pi) < 0.01 else turned, 6), -moved[name]

    return sorted((end for begin, end in drawn.turns if begin == start), key=place)


def connections(start: str, drawn: Map) -> List[Tuple[str, int, int]]:
    """The connections of a road: where to, from which lane, into which."""
    goals = from_the_right(start, drawn)
    roads = drawn.roads
    led = ways(roads[start].lanes, [Goal(roads[end].lanes, drawn.turns[start, end]) for end in goals])
    return [(end, one, other) for end, pairs in zip(goals, led) for one, other in pairs]


def write_map(drawn: Map, folder: str, prohibited: bool) -> None:
    """Writes the nodes, edges and connections of a map for netconvert, and which of them wait for which."""
    signals = {road.end for road in drawn.roads.values() if road.name.startswith("link")}
    giving = {drawn.roads[road].end for road in drawn.gives}
    write_xml(os.path.join(folder, "town.nod.xml"), "nodes", (
        ("node", {"id": name, "x": f"{x:.1f}", "y": f"{y:.1f}",
                  "type": REGULATED if name in giving else UNREGULATED if name in signals else "priority"})
        for name, (x, y) in drawn.places.items()))
    moved = beside(drawn)
    edges: List[Tuple[str, Mapping[str, Any]]] = []
    for road in drawn.roads.values():
        edge: Dict[str, Any] = {"id": road.name, "from": road.start, "to": road.end, "numLanes": road.lanes,
                                "speed": SPEED, "shape": shape(road, drawn, moved[road.name])}
        edges.append(("edge", edge | ({"length": round(road.length, 2)} if road.length else {})))
    write_xml(os.path.join(folder, "town.edg.xml"), "edges", edges)
    elements: List[Tuple[str, Mapping[str, Any]]] = [
        ("connection", {"from": start, "to": end, "fromLane": one, "toLane": other})
        for start in dict.fromkeys(start for start, _ in drawn.turns) for end, one, other in connections(start, drawn)]
    elements += [("connection", {"from": name}) for name in drawn.roads if name.startswith("out")]  # leads nowhere
    write_xml(os.path.join(folder, "town.con.xml"), "connections",
              elements + (prohibitions(drawn) if prohibited else []))


def prohibitions(drawn: Map) -> List[Tuple[str, Mapping[str, Any]]]:
    """That each turn of a road that gives way waits for each of the one that has priority."""
    return [("prohibition", {"prohibitor": f"{other}->{goal}", "prohibited": f"{road}->{end}"})
            for road, other in drawn.gives.items()
            for begin, end in drawn.turns if begin == road
            for one, goal in drawn.turns if one == other]


def convert(drawn: Map, folder: str, prohibited: bool = True) -> "Net":
    """Has netconvert make the network of a map, and reads it."""
    write_map(drawn, folder, prohibited)
    run_tool(["netconvert", "--node-files", "town.nod.xml", "--edge-files", "town.edg.xml",
              "--connection-files", "town.con.xml", "--output-file", "town.net.xml", "--no-turnarounds", "true",
              "--junctions.limit-turn-speed", "-1", "--offset.disable-normalization", "true",
              "--xml-validation", "never"], folder)
    path = os.path.join(folder, "town.net.xml")
    put_merging(path, drawn.together)
    return Net(path)


class Net:
    """A network that netconvert has made of a deck: its signals, and the edges within its junctions.

    `signals` has for each junction with signals the link of each signal, by its place; `inside` for each edge within a
    junction the road that leads to it; `turn_length` for each turn the length of its way through the junction, in
    metres.
    """

    def __init__(self, path: str) -> None:
        self.file = read_net(path)
        self.signals: Dict[str, Dict[int, int]] = {}
        self.inside: Dict[str, str] = {}
        self.turn_length: Dict[Turn, float] = {}
        for turn in self.file.connections:
            if turn.start.startswith(":"):
                continue
            lanes = self.file.way_inside(turn)
            self.inside.update({lane.rsplit("_", 1)[0]: turn.start for lane in lanes})
            self.turn_length[turn.start, turn.end] = sum(self.file.lanes[lane].length for lane in lanes)
            if turn.signals:
                self.signals.setdefault(turn.signals, {})[turn.place] = int(turn.start[len("link"):])

    def waits(self, road: str, other: str) -> bool:
        """Whether a car on a road waits for one of another at their junction, by the junction's requests."""
        return self.names(road, other, lambda request: request.response)

    def meets(self, road: str, other: str) -> bool:
        """Whether a way of a road and one of another meet within their junction, by the junction's requests."""
        return self.names(road, other, lambda request: request.foes)

    def names(self, road: str, other: str, places: Callable[[Request], Tuple[int, ...]]) -> bool:
        """Whether a request of a road's connections names one of another road."""
        there = self.file.requests_at(self.file.edges[road].end)
        starts = [connection.start for connection, _ in there]
        return any(starts[place:place + 1] == [other] for connection, request in there if connection.start == road
                   for place in places(request))


def build(deck: Deck, folder: str) -> Net:
    """Makes the network of a deck in a folder; a link and the way to it through the junction last its cruise time."""
    check_carried(deck)
    drawn = draw_map(deck)
    first = convert(drawn, folder)
    for link in deck.links:
        flow = sum(feed.flow for feed in link.used_feeds)
        if flow:
            lengths = ((feed.flow, first.turn_length[link_road(feed.feeder), link_road(link.number)])
                       for feed in link.used_feeds)
            road = drawn.roads[link_road(link.number)]
            road.length = max(LEAST_LENGTH / 2, (road.length or 0) - sum(part * way for part, way in lengths) / flow)
    return convert(drawn, folder)
