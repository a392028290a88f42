"""Answers of the program, read out of their lines.

Each keeps the whole numbers as they were printed (`raw`) and says where they stand (`place`), so that a page can cite
them: `FIGURES LINK 21 DELAY`. Values in an engineer's units have the unit in their names, and are `raw` divided by what
the unit is made of; nothing else is worked out.
"""

from dataclasses import dataclass
from typing import Callable, Dict, Iterable, List, Mapping, Optional, Sequence, Tuple, TypeVar

from .deck import Plan
from .edits import Edit
from .faults import Fault
from .text import words_of

UNITS = 1_000_000  # units of a vehicle
# The first words of an answer's last line, by command; an edit, TRIAL, BACK and KEEP are answered by one line.
LAST_WORDS: Dict[str, Tuple[str, ...]] = {
    "INDEX": ("INDEX",), "LINKS": ("INDEX",), "FIGURES": ("TOTAL",), "TIMING": ("END",), "PROFILE": ("OUT",),
    "QUEUE": ("QUEUE",), "CHART": ("END",), "WORK": ("WORK",), "DECK": ("END",), "CLIMB": ("LOCAL", "BUDGET"),
    "CERT": ("CERT",)}


def is_last(command: str, line: str) -> bool:
    """Whether a line is the last of the answer to a command (PLOT apart)."""
    first = line.split(" ", 1)[0]
    return first in ("REFUSED", "DONE") or first in LAST_WORDS.get(command.split(" ", 1)[0], (first,))


def pairs(words: Sequence[str]) -> Dict[str, int]:
    """Keywords each with the number after it."""
    return {word: int(number) for word, number in zip(words[::2], words[1::2])}


@dataclass(frozen=True)
class Line:
    """Numbers of one line of a report: where they stand, as `FIGURES LINK 21`, and each by its keyword (`raw`)."""

    head: str
    raw: Mapping[str, int]

    def place(self, word: str) -> str:
        """The place of a number in the report, as `FIGURES LINK 21 DELAY`."""
        if word not in self.raw:
            raise Fault(f"the report has no {self.head} {word}")
        return f"{self.head} {word}"


@dataclass(frozen=True)
class LinkFigures(Line):
    """A link's line of FIGURES; raw: FLOW, SENT, SATURATION, DELAY, STOPPED, QUEUE."""

    number: int

    @property
    def flow_an_hour(self) -> int:
        """Vehicles an hour that come, by the cards."""
        return self.raw["FLOW"]

    @property
    def sent_an_hour(self) -> int:
        """Vehicles an hour that the feeds take from the link."""
        return self.raw["SENT"]

    @property
    def saturation(self) -> float:
        """The degree of saturation as a fraction: raw / 1,000."""
        return self.raw["SATURATION"] / 1000

    @property
    def has_capacity(self) -> bool:
        """Whether vehicles can go at all: SATURATION isn't 999999, which is printed where GO is 0."""
        return self.raw["SATURATION"] < 999_999

    @property
    def delay_seconds(self) -> float:
        """The mean delay of a vehicle in seconds: raw / 10."""
        return self.raw["DELAY"] / 10

    @property
    def stopped(self) -> float:
        """The vehicles that stop, of those that come, as a fraction: raw / 1,000."""
        return self.raw["STOPPED"] / 1000

    @property
    def queue_vehicles(self) -> float:
        """The greatest queue in vehicles: raw / 1,000,000."""
        return self.raw["QUEUE"] / UNITS


@dataclass(frozen=True)
class Figures:
    """The answer to FIGURES; `total` has raw: DELAY, STOPS, INDEX, WORST."""

    links: Tuple[LinkFigures, ...]
    total: Line

    def link(self, number: int) -> LinkFigures:
        """The figures of a link."""
        return _numbered(self.links, number)

    @property
    def delay_vehicle_hours(self) -> float:
        """Vehicle-hours of delay in an hour: raw / 1,000,000."""
        return self.total.raw["DELAY"] / UNITS

    @property
    def stops_a_second(self) -> float:
        """Vehicles that stop in a second: raw / 1,000,000."""
        return self.total.raw["STOPS"] / UNITS

    @property
    def index(self) -> int:
        """The index of the network, in units."""
        return self.total.raw["INDEX"]

    @property
    def worst(self) -> int:
        """The number of the link with the greatest degree of saturation; 0 without links."""
        return self.total.raw["WORST"]


@dataclass(frozen=True)
class LinkDelays(Line):
    """A link's line of LINKS; raw: UNIFORM, RANDOM, STOPS, INDEX."""

    number: int

    @property
    def uniform_vehicle_hours(self) -> float:
        """Uniform delay in vehicle-hours an hour: raw / 1,000,000."""
        return self.raw["UNIFORM"] / UNITS

    @property
    def random_vehicle_hours(self) -> float:
        """Random and oversaturation delay in vehicle-hours an hour: raw / 1,000,000."""
        return self.raw["RANDOM"] / UNITS

    @property
    def stops_a_second(self) -> float:
        """Vehicles that stop in a second: raw / 1,000,000."""
        return self.raw["STOPS"] / UNITS


@dataclass(frozen=True)
class Links:
    """The answer to LINKS; `total` has raw: INDEX."""

    links: Tuple[LinkDelays, ...]
    total: Line

    def link(self, number: int) -> LinkDelays:
        """The delays of a link."""
        return _numbered(self.links, number)


LinkLine = TypeVar("LinkLine", LinkFigures, LinkDelays)


def _numbered(links: Sequence[LinkLine], number: int) -> LinkLine:
    """The link of a number."""
    for link in links:
        if link.number == number:
            return link
    raise Fault(f"the report has no link {number}")


@dataclass(frozen=True)
class StageTiming(Line):
    """A stage in TIMING; raw, all in steps: CHANGE, AT, LENGTH, INTERGREEN, GREEN, LEAST. `number` counts from 1."""

    number: int


@dataclass(frozen=True)
class NodeTiming(Line):
    """A node in TIMING; raw: OFFSET, in steps."""

    number: int
    stages: Tuple[StageTiming, ...]


@dataclass(frozen=True)
class Timing:
    """The answer to TIMING."""

    nodes: Tuple[NodeTiming, ...]

    def node(self, number: int) -> NodeTiming:
        """The times of a node."""
        for node in self.nodes:
            if node.number == number:
                return node
        raise Fault(f"the report has no node {number}")

    def plan(self) -> Plan:
        """Of each node's number its offset and the changes of its stages, in steps."""
        return {node.number: (node.raw["OFFSET"], [stage.raw["CHANGE"] for stage in node.stages])
                for node in self.nodes}


@dataclass(frozen=True)
class Profile:
    """The answer to PROFILE: arrivals before the cut, GO and departures of each step, in millionths of a vehicle."""

    number: int
    arrivals: Tuple[int, ...]
    go: Tuple[int, ...]
    departures: Tuple[int, ...]

    def place(self, word: str, step: int) -> str:
        """The place of a value; `word` is IN, GO or OUT: `PROFILE 21 GO 5`."""
        return f"PROFILE {self.number} {word} {step}"


@dataclass(frozen=True)
class Queue:
    """The answer to QUEUE: the queue at the end of each step; `raw` in millionths of a vehicle."""

    number: int
    raw: Tuple[int, ...]

    @property
    def vehicles(self) -> Tuple[float, ...]:
        """The queue at the end of each step in vehicles: raw / 1,000,000."""
        return tuple(units / UNITS for units in self.raw)

    def place(self, step: int) -> str:
        """The place of a value: `QUEUE 21 5`."""
        return f"QUEUE {self.number} {step}"


@dataclass(frozen=True)
class Step:
    """A step that a climb took: its place in the list of moves, its edit, and the index after it."""

    place: int
    edit: Edit
    index: int


@dataclass(frozen=True)
class ClimbEnd:
    """How a climb ended: LOCAL or by its budget, how many places it looked at, and the index."""

    local: bool
    looked: int
    index: int


@dataclass(frozen=True)
class Move:
    """A place of a certificate: its edit, and the index with it made, None where it is barred."""

    place: int
    edit: Edit
    index: Optional[int]


@dataclass(frozen=True)
class Certificate:
    """The answer to CERT; `str` is its text, as `audit` reads it after a deck."""

    moves: Tuple[Move, ...]
    index: int
    lines: Tuple[str, ...]

    def __str__(self) -> str:
        return "".join(line + "\n" for line in self.lines)


@dataclass(frozen=True)
class Balance:
    """A node in the answer of equisat: its peak as a fraction (`top`, `base`), the link that reaches it (0: none), and
    of each stage change, green and need in steps."""

    number: int
    top: int
    base: int
    link: int
    stages: Tuple[Mapping[str, int], ...]


def read_index(lines: Sequence[str]) -> int:
    """The index out of INDEX's line, and the work out of WORK's."""
    return int(lines[0].split(" ")[1])


def read_figures(lines: Sequence[str]) -> Figures:
    """FIGURES out of its lines."""
    links = []
    for line in lines[:-1]:
        words = line.split(" ")
        links.append(LinkFigures(f"FIGURES LINK {words[1]}", pairs(words[2:]), int(words[1])))
    return Figures(tuple(links), Line("FIGURES TOTAL", pairs(lines[-1].split(" ")[1:])))


def read_links(lines: Sequence[str]) -> Links:
    """LINKS out of its lines."""
    links = []
    for line in lines[:-1]:
        words = line.split(" ")
        links.append(LinkDelays(f"LINKS LINK {words[1]}", pairs(words[2:]), int(words[1])))
    return Links(tuple(links), Line("LINKS", pairs(lines[-1].split(" "))))


def read_timing(lines: Sequence[str]) -> Timing:
    """TIMING out of its lines."""
    nodes: List[NodeTiming] = []
    for line in lines[:-1]:
        words = line.split(" ")
        if words[0] == "NODE":
            nodes.append(NodeTiming(f"TIMING NODE {words[1]}", pairs(words[2:]), int(words[1]), ()))
        else:
            node = nodes.pop()
            stage = StageTiming(f"{node.head} STAGE {words[1]}", pairs(words[2:]), int(words[1]))
            nodes.append(NodeTiming(node.head, node.raw, node.number, (*node.stages, stage)))
    return Timing(tuple(nodes))


def _values(line: str) -> Tuple[int, ...]:
    """The values of a line after its word and the link's number."""
    return tuple(map(int, line.split(" ")[2:]))


def read_profile(lines: Sequence[str]) -> Profile:
    """PROFILE out of its three lines."""
    return Profile(int(lines[0].split(" ")[1]), *map(_values, lines))


def read_queue(lines: Sequence[str]) -> Queue:
    """QUEUE out of its line."""
    return Queue(int(lines[0].split(" ")[1]), _values(lines[0]))


def read_chart(lines: Sequence[str]) -> Mapping[int, str]:
    """CHART out of its lines: of each link's number its characters, one a step."""
    return {int(words[1]): words[2] for words in (line.split(" ") for line in lines[:-1])}


def read_step(line: str) -> Step:
    """A step out of a TOOK line."""
    words = line.split(" ")
    return Step(int(words[1]), Edit(words[2], tuple(map(int, words[3:-2]))), int(words[-1]))


def read_climb_end(line: str) -> ClimbEnd:
    """The end of a climb out of its last line."""
    words = line.split(" ")
    return ClimbEnd(words[0] == "LOCAL", int(words[1]), int(words[3]))


def read_certificate(lines: Sequence[str]) -> Certificate:
    """CERT out of its lines."""
    moves = []
    for line in lines[:-1]:
        words = line.split(" ")
        barred = words[-1] == "BARRED"
        numbers = words[3:-1] if barred else words[3:-2]
        moves.append(Move(int(words[1]), Edit(words[2], tuple(map(int, numbers))), None if barred else int(words[-1])))
    return Certificate(tuple(moves), int(lines[-1].split(" ")[-1]), tuple(lines))


def read_balance(lines: Iterable[str]) -> Tuple[Balance, ...]:
    """The answer of the word equisat out of its lines."""
    found: List[Balance] = []
    for line in lines:
        words = words_of(line)
        if words[0] == "NODE":
            found.append(Balance(int(words[1]), int(words[3]), int(words[5]), int(words[7]), ()))
        elif words[0] == "STAGE":
            node = found.pop()
            found.append(Balance(node.number, node.top, node.base, node.link, (*node.stages, pairs(words[2:]))))
    return tuple(found)


def split_answers(commands: Iterable[str], lines: Iterable[str]) -> List[Tuple[str, List[str]]]:
    """Each command with the lines that answer it, out of a whole report after its ACCEPTED line."""
    found, rest = [], iter(lines)
    for command in commands:
        answer: List[str] = []
        while not answer or not is_last(command, answer[-1]):
            line = next(rest, None)
            if line is None:
                raise Fault(f"the report ends before the answer to {command}")
            answer.append(line)
        found.append((command, answer))
    return found


READERS: Mapping[str, Callable[[Sequence[str]], object]] = {
    "INDEX": read_index, "WORK": read_index, "LINKS": read_links, "FIGURES": read_figures, "TIMING": read_timing,
    "PROFILE": read_profile, "QUEUE": read_queue, "CHART": read_chart, "CERT": read_certificate}
