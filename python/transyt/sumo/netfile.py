"""A network of SUMO as its file tells it: edges, lanes, connections, junctions, the programs of signals."""

import gzip
import xml.etree.ElementTree as ElementTree
import zlib
from dataclasses import dataclass, field
from functools import cached_property
from typing import Dict, List, Mapping, NoReturn, Optional, Tuple

from ..faults import Fault

GZIP = b"\x1f\x8b"


@dataclass(frozen=True)
class Lane:
    """A lane: its place in the edge from 0 at the right, length in metres, speed in metres a second."""

    name: str
    place: int
    length: float
    speed: float
    cars: bool


@dataclass(frozen=True)
class Edge:
    """An edge with its ends (junction ids), its lanes from right to left, and the street's name if it has one."""

    name: str
    start: str
    end: str
    function: str
    street: str
    lanes: Tuple[Lane, ...]


@dataclass(frozen=True)
class Connection:
    """A way from a lane of an edge to one of another: by an internal lane, and by a signal's place in a program."""

    start: str
    end: str
    from_lane: int
    to_lane: int
    via: str
    signals: str
    place: int
    direction: str


@dataclass(frozen=True)
class Request:
    """For a connection of a junction the places of those that it waits for, and of those whose way meets its own."""

    response: Tuple[int, ...]
    foes: Tuple[int, ...]


@dataclass(frozen=True)
class Junction:
    """A junction: its type, its place in metres, the lanes that come to it, the requests in its connections' order."""

    name: str
    kind: str
    at: Tuple[float, float]
    incoming: Tuple[str, ...]
    requests: Tuple[Request, ...]


@dataclass(frozen=True)
class Phase:
    """A phase: seconds, the signal of each place, the least seconds where they are told, what follows, its name."""

    duration: float
    state: str
    least: Optional[float]
    following: str
    name: str = ""


@dataclass(frozen=True)
class Logic:
    """A program of signals: its type, its offset in seconds, its phases."""

    name: str
    kind: str
    program: str
    offset: float
    phases: Tuple[Phase, ...]


@dataclass(frozen=True)
class NetFile:
    """A network. Of several programs under one id the last one counts, as in SUMO."""

    edges: Mapping[str, Edge]
    connections: Tuple[Connection, ...]
    junctions: Mapping[str, Junction]
    logics: Mapping[str, Logic]
    lanes: Mapping[str, Lane] = field(default_factory=dict)

    @cached_property
    def from_edge(self) -> Mapping[str, Tuple[Connection, ...]]:
        """The connections of each edge, internal edges too, in the file's order."""
        found: Dict[str, List[Connection]] = {}
        for connection in self.connections:
            found.setdefault(connection.start, []).append(connection)
        return {edge: tuple(connections) for edge, connections in found.items()}

    @cached_property
    def at_signals(self) -> Mapping[str, Tuple[Connection, ...]]:
        """The connections of cars that each program of signals has, in the file's order, without internal ones."""
        found: Dict[str, List[Connection]] = {}
        for one in self.connections:
            if one.signals and not one.start.startswith(":") and self.takes_cars(one):
                found.setdefault(one.signals, []).append(one)
        return {name: tuple(connections) for name, connections in found.items()}

    @cached_property
    def edge_places(self) -> Mapping[str, int]:
        """The place of each edge in the file."""
        return {name: place for place, name in enumerate(self.edges)}

    def takes_cars(self, connection: Connection) -> bool:
        """Whether a connection leads from a lane for cars to one."""
        ends = ((connection.start, connection.from_lane), (connection.end, connection.to_lane))
        return all(any(lane.cars and lane.place == place for lane in self.edges[edge].lanes) if edge in self.edges
                   else False for edge, place in ends)

    def driven(self, edge: str) -> List[Connection]:
        """The connections of an edge by which cars go, from right to left."""
        return sorted(filter(self.takes_cars, self.from_edge.get(edge, ())), key=lambda one: one.from_lane)

    def ordered(self, junction: Junction) -> List[Connection]:
        """The connections of a junction in the order of its requests: lane by lane, and as the file has them."""
        found: List[Connection] = []
        for lane in junction.incoming:
            edge, place = lane.rsplit("_", 1)
            if not edge.startswith(":"):
                found += [one for one in self.from_edge.get(edge, ()) if str(one.from_lane) == place]
        return found

    def requests_at(self, name: str) -> List[Tuple[Connection, Request]]:
        """The connections of a junction, each with its request, in the order by which requests name them."""
        junction = self.junctions.get(name)
        return list(zip(self.ordered(junction), junction.requests)) if junction else []

    def way_inside(self, connection: Connection) -> List[str]:
        """The internal lanes of a connection, one after another: two where cars wait within the junction."""
        lanes: List[str] = []
        via = connection.via
        while via and via not in lanes:
            lanes.append(via)
            edge, place = via.rsplit("_", 1)
            via = next((one.via for one in self.from_edge.get(edge, ()) if str(one.from_lane) == place), "")
        return lanes


class _WithoutDoctype(ElementTree.TreeBuilder):
    """Builds a tree, and refuses a file with a DOCTYPE, which could name entities."""

    def doctype(self, name: str, public: Optional[str], system: Optional[str]) -> NoReturn:
        """Refuses a DOCTYPE."""
        raise Fault("it has a DOCTYPE, and no file of SUMO has one")


def read_root(path: str) -> ElementTree.Element:
    """The root of an XML file, which may be packed by gzip; a file with a DOCTYPE is refused."""
    try:
        with open(path, "rb") as file:
            data = file.read()
        data = gzip.decompress(data) if data.startswith(GZIP) else data
        parser = ElementTree.XMLParser(target=_WithoutDoctype())
        parser.feed(data)
        root = parser.close()
    except Fault as fault:
        raise Fault(f"{path}: {fault}") from fault
    except (ElementTree.ParseError, EOFError, zlib.error, ValueError, LookupError) as error:
        raise Fault(f"{path} can't be read as XML: {error}") from error
    except OSError as error:
        raise Fault(f"{path} can't be read: {error.strerror or error}") from error
    if not isinstance(root, ElementTree.Element):
        raise Fault(f"{path} has no element")
    return root


def read_net(path: str) -> NetFile:
    """The network of a file."""
    root = read_root(path)
    if root.tag != "net":
        raise Fault(f"{path} is no network of SUMO: its root is {root.tag[:40]}, and not net")
    try:
        return net_of(root)
    except (KeyError, ValueError) as error:
        raise Fault(f"{path}: an element has no {error} or it isn't as SUMO writes it") from error


def net_of(root: ElementTree.Element) -> NetFile:
    """The network of a file's root."""
    edges = {element.attrib["id"]: edge_of(element) for element in root.iterfind("edge")}
    connections = tuple(connection_of(element) for element in root.iterfind("connection"))
    junctions = {element.attrib["id"]: junction_of(element) for element in root.iterfind("junction")}
    logics = {element.attrib["id"]: logic_of(element) for element in root.iterfind("tlLogic")}
    lanes = {lane.name: lane for edge in edges.values() for lane in edge.lanes}
    return NetFile(edges, connections, junctions, logics, lanes)


def edge_of(element: ElementTree.Element) -> Edge:
    """An edge."""
    found = [Lane(lane.attrib["id"], int(lane.get("index", 0)), float(lane.attrib["length"]),
                  float(lane.attrib["speed"]), takes_cars(lane)) for lane in element.iterfind("lane")]
    return Edge(element.attrib["id"], element.get("from", ""), element.get("to", ""), element.get("function", ""),
                element.get("name", ""), tuple(sorted(found, key=lambda lane: lane.place)))


def takes_cars(lane: ElementTree.Element) -> bool:
    """Whether cars may use a lane."""
    allowed, refused = lane.get("allow", "").split(), lane.get("disallow", "").split()
    if allowed:
        return "passenger" in allowed or "all" in allowed
    return not {"passenger", "all"} & set(refused)


def connection_of(element: ElementTree.Element) -> Connection:
    """A connection."""
    return Connection(element.attrib["from"], element.attrib["to"], int(element.attrib["fromLane"]),
                      int(element.attrib["toLane"]), element.get("via", ""), element.get("tl", ""),
                      int(element.get("linkIndex", -1)), element.get("dir", ""))


def junction_of(element: ElementTree.Element) -> Junction:
    """A junction with its requests, each by its index."""
    rows = sorted(element.iterfind("request"), key=lambda row: int(row.attrib["index"]))
    requests = tuple(Request(places_of(row.get("response", "")), places_of(row.get("foes", ""))) for row in rows)
    at = float(element.get("x", 0)), float(element.get("y", 0))
    return Junction(element.attrib["id"], element.get("type", ""), at, tuple(element.get("incLanes", "").split()),
                    requests)


def places_of(bits: str) -> Tuple[int, ...]:
    """The places of the ones in a row of a request, of which the last is place 0."""
    return tuple(place for place, bit in enumerate(reversed(bits)) if bit == "1")


def logic_of(element: ElementTree.Element) -> Logic:
    """A program of signals."""
    phases = tuple(Phase(float(phase.attrib["duration"]), phase.attrib["state"],
                         float(phase.attrib["minDur"]) if phase.get("minDur") else None, phase.get("next", ""),
                         phase.get("name", ""))
                   for phase in element.iterfind("phase"))
    return Logic(element.attrib["id"], element.get("type", "static"), element.get("programID", ""),
                 float(element.get("offset", 0)), phases)
