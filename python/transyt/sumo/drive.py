"""Files for SUMO, runs of it, and the measures of a run."""

import os
import xml.etree.ElementTree as ElementTree
from dataclasses import dataclass
from typing import Any, Dict, List, Mapping, Set, Tuple

from ..deck import Deck, Link
from ..faults import Fault
from .greens import aspects, phases, shown_steps, stage_names
from .lanes import lane_count
from .netfile import read_root
from .network import Net
from .roads import link_road
from .tools import run_tool, write_root, write_xml

WARM_UP, MEASURED, AFTER = 900, 3600, 900  # seconds
SECONDS = WARM_UP + MEASURED + AFTER
OPTIONS: Dict[str, Any] = {"step-length": 0.5, "time-to-teleport": -1, "collision.action": "warn",
                           "xml-validation": "never"}

VIEW = """<viewsettings>
  <scheme name="town">
    <background backgroundColor="225,235,215" showGrid="0"/>
    <edges laneShowBorders="1">
      <colorScheme name="uniform"><entry color="110,110,110"/></colorScheme>
    </edges>
    <vehicles vehicleQuality="2" vehicle_exaggeration="1.50"/>
  </scheme>
  <delay value="100"/>
</viewsettings>
"""


def programs(deck: Deck, net: Net, program: str) -> List[ElementTree.Element]:
    """The signals of a plan: at each node a fixed program over the cycle, in the time of the whole network."""
    found = []
    for junction, order in net.signals.items():
        node = deck.node(deck.link(order[0]).node)
        signals = [signal_of(deck, deck.link(order[index])) for index in sorted(order)]
        logic = ElementTree.Element("tlLogic", id=junction, type="static", programID=program, offset="0")
        for duration, state, name in phases(signals, stage_names(node, deck.frame)):
            ElementTree.SubElement(logic, "phase", duration=f"{duration:g}", state=state, name=name)
        found.append(logic)
    return found


def write_signals(deck: Deck, net: Net, path: str) -> None:
    """Writes the signals of a plan as a file that goes beside the network."""
    root = ElementTree.Element("additional")
    root.extend(programs(deck, net, "plan"))
    write_root(root, path)


def put_signals(deck: Deck, net: Net, path: str) -> None:
    """Puts the signals of a plan into the network's file, in the place of those that netconvert made up."""
    root = read_root(path)
    for logic in root.findall("tlLogic"):
        root.remove(logic)
    first = next(place for place, element in enumerate(root) if element.tag in ("junction", "connection"))
    for count, logic in enumerate(programs(deck, net, "0")):
        root.insert(first + count, logic)
    write_root(root, path)


def signal_of(deck: Deck, link: Link) -> str:
    """The signal of a link at each half second; the green of one that gives way is g, at which its cars look out."""
    shown = aspects(shown_steps(deck, link), deck.frame)
    return shown.replace("G", "g") if link.gives_way else shown


def write_measures(deck: Deck, cycle: int, path: str) -> None:
    """Writes what SUMO is to measure: all edges over the hour, and the queue of each lane in each cycle."""
    elements: List[Tuple[str, Dict[str, Any]]] = [
        ("edgeData", {"id": "roads", "file": "roads.xml", "begin": WARM_UP, "end": WARM_UP + MEASURED,
                      "withInternal": "true"})]
    for link in deck.links:
        for lane in range(lane_count(deck, link)):
            name = f"{link_road(link.number)}_{lane}"
            elements.append(("laneAreaDetector", {"id": name, "lane": name, "pos": 0, "endPos": -0.1,
                                                  "freq": cycle, "file": "queues.xml"}))
    write_xml(path, "additional", elements)


def write_configuration(path: str, signals: str, cars: str) -> None:
    """Writes the file that sumo-gui opens."""
    root = ElementTree.Element("configuration")
    wanted = {"net-file": "town.net.xml", "route-files": cars, "additional-files": signals,
              "gui-settings-file": "view.xml", "begin": 0, "end": SECONDS} | OPTIONS
    for key, value in wanted.items():
        ElementTree.SubElement(root, key, value=str(value))
    write_root(root, path)


def write_view(path: str) -> None:
    """Writes how sumo-gui shows the town."""
    with open(path, "w", encoding="utf-8") as file:
        file.write(VIEW)


@dataclass(frozen=True)
class LinkMeasures:
    """SUMO's measures of a link over the hour.

    `vehicles` have left it; `delay` is the time that was lost on it, within its junction and by waiting to enter, in
    vehicle-hours an hour; `queue` is the longest queue of a cycle, in vehicles, as a mean over the cycles.
    """

    vehicles: float
    delay: float
    queue: float

    @property
    def seconds(self) -> float:
        """Mean delay of a vehicle in seconds."""
        return 3600 * self.delay / self.vehicles if self.vehicles else 0.0


@dataclass(frozen=True)
class Measures:
    """A run: the measures of each link by its number, and how often cars collided or were taken off their place."""

    links: Mapping[int, LinkMeasures]
    collisions: int
    teleports: int

    @property
    def delay(self) -> float:
        """Vehicle-hours of delay an hour of the whole network."""
        return sum(link.delay for link in self.links.values())


@dataclass(frozen=True)
class Run:
    """A run of SUMO: a folder with a network, the cycle in seconds, files of signals and cars, a seed for drivers."""

    folder: str
    cycle: int
    signals: str
    cars: str
    seed: int

    @property
    def out(self) -> str:
        """The folder of the run's results, within its folder."""
        return f"{self.signals.split('.')[0]}-{self.seed}"


def drive(deck: Deck, net: Net, run: Run) -> Measures:
    """Drives the cars of a run by its signals, and returns its measures."""
    out = os.path.join(run.folder, run.out)
    os.makedirs(out, exist_ok=True)
    write_measures(deck, run.cycle, os.path.join(out, "measures.add.xml"))
    options = [word for key, value in OPTIONS.items() for word in (f"--{key}", str(value))]
    run_tool(["sumo", "--net-file", "town.net.xml", "--route-files", run.cars,
              "--additional-files", f"{run.signals},{run.out}/measures.add.xml", "--end", str(SECONDS),
              "--seed", str(run.seed), "--tripinfo-output", f"{run.out}/trips.xml",
              "--tripinfo-output.write-unfinished", "true", "--tripinfo-output.write-undeparted", "true",
              "--statistic-output", f"{run.out}/statistics.xml", "--no-step-log", "true", "--no-warnings", "true",
              *options], run.folder)
    return read_measures(deck, net, out)


def read_measures(deck: Deck, net: Net, out: str) -> Measures:
    """The measures of a run out of the files that SUMO wrote."""
    lost, left = read_roads(os.path.join(out, "roads.xml"), net)
    waited = read_waits(os.path.join(out, "trips.xml"))
    queues = read_queues(os.path.join(out, "queues.xml"))
    links = {}
    for number in deck.link_by_number:
        road = link_road(number)
        delay = (lost.get(road, 0) + waited.get(number, 0)) / MEASURED
        links[number] = LinkMeasures(left.get(road, 0) * 3600 / MEASURED, delay, queues.get(road, 0))
    statistics = ElementTree.parse(os.path.join(out, "statistics.xml")).getroot()
    safety, teleports = statistics.find("safety"), statistics.find("teleports")
    if safety is None or teleports is None:
        raise Fault(f"SUMO's statistics in {out} have no collisions and teleports")
    return Measures(links, int(safety.get("collisions", 0)), int(teleports.get("total", 0)))


def read_roads(path: str, net: Net) -> Tuple[Dict[str, float], Dict[str, float]]:
    """For each road the seconds lost on it and in the junction behind it, and the vehicles that left it."""
    lost: Dict[str, float] = {}
    left: Dict[str, float] = {}
    for edge in ElementTree.parse(path).getroot().iter("edge"):
        name = edge.get("id", "")
        road = net.inside.get(name, name)
        lost[road] = lost.get(road, 0) + float(edge.get("timeLoss", 0))
        if road == name:
            left[road] = float(edge.get("left", 0))
    return lost, left


def read_waits(path: str) -> Dict[int, float]:
    """For each link's number the seconds of the hour that cars waited to enter on it, those that never could too."""
    waited: Dict[int, float] = {}
    for trip in ElementTree.parse(path).getroot().iter("tripinfo"):
        number, depart = int(trip.get("id", "").split(".")[0]), float(trip.get("depart", 0))
        end = depart if depart >= 0 else SECONDS
        begin = end - float(trip.get("departDelay", 0))
        within = min(end, WARM_UP + MEASURED) - max(begin, WARM_UP)
        waited[number] = waited.get(number, 0) + max(0, within)
    return waited


def read_queues(path: str) -> Dict[str, float]:
    """For each road the longest queue of a cycle, its lanes together, as a mean over the cycles within the hour."""
    sums: Dict[str, int] = {}
    cycles: Dict[str, Set[str]] = {}
    for interval in ElementTree.parse(path).getroot().iter("interval"):
        begin = interval.get("begin", "0")
        if float(begin) >= WARM_UP and float(interval.get("end", 0)) <= WARM_UP + MEASURED:
            road = interval.get("id", "").rsplit("_", 1)[0]
            sums[road] = sums.get(road, 0) + int(interval.get("maxJamLengthInVehicles", 0))
            cycles[road] = cycles.get(road, set()) | {begin}
    return {road: total / len(cycles[road]) for road, total in sums.items()}
