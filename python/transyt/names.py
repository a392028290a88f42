"""Names of a deck's parts, and what else comment lines carry: `* NAME NODE 2 Market Street`, `* LANES 21 2`.

The program counts and skips these lines. They may stand anywhere before END; of two for one part the last counts, and
those of a part that isn't there are told and left.
"""

from dataclasses import dataclass, field
from typing import AbstractSet, Callable, Dict, Iterable, List, Mapping, Optional, Tuple, TypeVar

from .faults import Fault
from .text import LONGEST_NAME, number_of, rest_of, words_of

Tell = Callable[[str], None]
Said = TypeVar("Said", str, int)
FIRST_WORDS = ("NAME", "LANES", "METRES", "SHEETS")


def ignore(_: str) -> None:
    """Tells nobody."""


@dataclass(frozen=True)
class Names:
    """The names of a town, its nodes, stages (node and place from 1) and links, and what no card has.

    `lanes` has how many lanes a link has, `metres` the length from a feeder's stop line to a link's, by the numbers of
    link and feeder; `sheets` is the window of the counts, as `--from 07:45 --for 60`.
    """

    town: Optional[str] = None
    nodes: Mapping[int, str] = field(default_factory=dict)
    stages: Mapping[Tuple[int, int], str] = field(default_factory=dict)
    links: Mapping[int, str] = field(default_factory=dict)
    lanes: Mapping[int, int] = field(default_factory=dict)
    metres: Mapping[Tuple[int, int], int] = field(default_factory=dict)
    sheets: Optional[str] = None

    def top(self) -> List[str]:
        """The comment lines above the first card."""
        town = [] if self.town is None else [f"* NAME TOWN {self.town}"]
        return town + ([] if self.sheets is None else [f"* SHEETS {self.sheets}"])

    def above_node(self, node: int) -> List[str]:
        """The comment lines above a NODE card."""
        return [f"* NAME NODE {node} {self.nodes[node]}"] if node in self.nodes else []

    def above_stage(self, node: int, stage: int) -> List[str]:
        """The comment lines above a STAGE card."""
        key = (node, stage)
        return [f"* NAME STAGE {node} {stage} {self.stages[key]}"] if key in self.stages else []

    def above_link(self, link: int) -> List[str]:
        """The comment lines above a LINK card."""
        name = [f"* NAME LINK {link} {self.links[link]}"] if link in self.links else []
        return name + ([f"* LANES {link} {self.lanes[link]}"] if link in self.lanes else [])

    def above_feed(self, link: int, feeder: int) -> List[str]:
        """The comment lines above a FEED card."""
        key = (link, feeder)
        return [f"* METRES {link} {feeder} {self.metres[key]}"] if key in self.metres else []


class _Reader:
    """Takes comment lines one after another."""

    def __init__(self, tell: Tell) -> None:
        self.tell = tell
        self.town: Optional[str] = None
        self.sheets: Optional[str] = None
        self.named: Dict[str, Dict[Tuple[int, ...], Tuple[int, str]]] = {"NODE": {}, "STAGE": {}, "LINK": {}}
        self.counted: Dict[str, Dict[Tuple[int, ...], Tuple[int, int]]] = {"LANES": {}, "METRES": {}}

    def take(self, place: int, line: str) -> bool:
        """Takes a comment line; whether it is one that carries a name, lanes, metres or a window."""
        words = words_of(line)
        if words[:1] != ["*"] or words[1:2] == [] or words[1] not in FIRST_WORDS:
            return False
        if words[1] == "SHEETS":
            self.sheets = rest_of(line, 2)
            return True
        return self.take_name(place, line, words) if words[1] == "NAME" else self.take_count(place, words)

    def take_name(self, place: int, line: str, words: List[str]) -> bool:
        """Takes a NAME line."""
        counts = {"TOWN": 0, "NODE": 1, "STAGE": 2, "LINK": 1}
        if words[2:3] == [] or words[2] not in counts:
            return False
        count = counts[words[2]]
        numbers = [number_of(word) for word in words[3:3 + count]]
        name = rest_of(line, 3 + count)
        if len(name) > LONGEST_NAME:
            raise Fault(f"line {place}: the name has {len(name)} characters, and {LONGEST_NAME} are the most")
        if len(numbers) < count or None in numbers or not name:
            self.tell(f"line {place}: a line of a name without its number or its name is left")
        elif words[2] == "TOWN":
            self.town = name
        else:
            self.named[words[2]][tuple(number or 0 for number in numbers)] = (place, name)
        return True

    def take_count(self, place: int, words: List[str]) -> bool:
        """Takes a LANES or a METRES line."""
        count = 2 if words[1] == "LANES" else 3
        numbers = [number_of(word) or 0 for word in words[2:]]
        if len(numbers) != count or 0 in numbers:
            self.tell(f"line {place}: {words[1]} takes {count} numbers from 1 on, and so the line is left")
        else:
            self.counted[words[1]][tuple(numbers[:-1])] = (place, numbers[-1])
        return True


@dataclass(frozen=True)
class Parts:
    """The parts that a deck has: numbers of nodes, (node, stage), numbers of links, (link, feeder)."""

    nodes: AbstractSet[Tuple[int, ...]]
    stages: AbstractSet[Tuple[int, ...]]
    links: AbstractSet[Tuple[int, ...]]
    feeds: AbstractSet[Tuple[int, ...]]


def read_names(lines: Iterable[Tuple[int, str]], parts: Parts, tell: Tell = ignore) -> Tuple[Names, List[int]]:
    """The names out of numbered comment lines, and the numbers of the lines that carry them."""
    reader = _Reader(tell)
    taken = [place for place, line in lines if reader.take(place, line)]
    nodes = _kept(reader.named["NODE"], parts.nodes, "node", tell)
    stages = _kept(reader.named["STAGE"], parts.stages, "stage", tell)
    links = _kept(reader.named["LINK"], parts.links, "link", tell)
    lanes = _kept(reader.counted["LANES"], parts.links, "link", tell)
    metres = _kept(reader.counted["METRES"], parts.feeds, "feed", tell)
    names = Names(reader.town, {key[0]: name for key, name in nodes.items()},
                  {(key[0], key[1]): name for key, name in stages.items()},
                  {key[0]: name for key, name in links.items()},
                  {key[0]: count for key, count in lanes.items()},
                  {(key[0], key[1]): count for key, count in metres.items()}, reader.sheets)
    return names, taken


def _kept(found: Dict[Tuple[int, ...], Tuple[int, Said]], there: AbstractSet[Tuple[int, ...]], what: str,
          tell: Tell) -> Dict[Tuple[int, ...], Said]:
    """What is said of parts that are there; the others are told."""
    for key, (place, _) in found.items():
        if key not in there:
            tell(f"line {place}: there is no {what} {' '.join(map(str, key))}, and so the line is left")
    return {key: said for key, (_, said) in found.items() if key in there}
