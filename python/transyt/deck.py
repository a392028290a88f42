"""A deck: a network as cards tell it, with the names that its comments carry.

`read_deck` takes what the program writes with DECK, and decks written by hand: form 1, comments, blank lines, leading
zeros. The program judges decks; what is refused here is only what can't be taken for a network.
"""

import re
from dataclasses import dataclass, field, replace
from functools import cached_property
from typing import Dict, List, Mapping, Optional, Sequence, Tuple, Union

from .faults import Fault
from .names import Names, Parts, Tell, ignore, read_names
from .text import LONGEST_LINE, bytes_of, decoded, lines_of, number_of, words_of

CARDS = {"FORM": (1, 1), "CYCLE": (5, 6), "NODE": (2, 2), "STAGE": (3, 3), "LINK": (7, 16), "FEED": (4, 4),
         "YIELD": (3, 3), "STEPS": (2, 17), "END": (0, 0)}
# The rows that `starts` and `cycles` write above a deck.
ROW = re.compile(r"\* (?:START [0-9]+ FROM [0-9]+ TOOK [0-9]+ (?:LOCAL|BUDGET) [0-9]+ TO [0-9]+"
                 r"|CYCLE [0-9]+ (?:FROM [0-9]+ TOOK [0-9]+ (?:LOCAL|BUDGET) [0-9]+ TO [0-9]+|BARRED [0-9]+|NONE)"
                 r"|BEST [0-9]+ [0-9]+|NONE)")
Plan = Mapping[int, Tuple[int, Sequence[int]]]


@dataclass(frozen=True)
class Frame:
    """The CYCLE card: cycle in seconds, steps a cycle, sweeps, period in minutes, stop penalty in hundredths, and the
    dispersion in percent."""

    cycle: int
    step_count: int
    sweeps: int
    period: int
    stop_penalty: int
    dispersion: int = 35

    @property
    def step_seconds(self) -> float:
        """How long a step is, in seconds."""
        return self.cycle / self.step_count


@dataclass(frozen=True)
class Stage:
    """A STAGE card: the step of the node's clock at which it begins, its intergreen and its least green, in steps."""

    change: int
    intergreen: int
    least: int


@dataclass(frozen=True)
class Node:
    """A NODE card with its stages; the offset is in steps."""

    number: int
    offset: int
    stages: Tuple[Stage, ...] = ()

    def length(self, place: int, step_count: int) -> int:
        """The length of the stage at `place`, from 1, in steps of a cycle of `step_count`."""
        following = self.stages[place % len(self.stages)]
        return (following.change - self.stages[place - 1].change) % step_count


@dataclass(frozen=True)
class Feed:
    """A FEED card: the feeder's number, vehicles an hour, cruise time in seconds."""

    feeder: int
    flow: int
    cruise: int


@dataclass(frozen=True)
class GiveWay:
    """A YIELD card: the link that has priority, and the percentage."""

    other: int
    percent: int


@dataclass(frozen=True)
class Link:
    """A LINK card of form 2 with the link's feeds and its give-way rule; lags in steps, flows in vehicles an hour."""

    number: int
    node: int
    entry: int
    saturation: int
    delay_weight: int
    stop_weight: int
    start_lag: int
    end_lag: int
    stages: Tuple[int, ...]
    feeds: Tuple[Feed, ...] = ()
    gives_way: Optional[GiveWay] = None

    @property
    def total_flow(self) -> int:
        """Vehicles an hour: the entry flow and all feeds."""
        return self.entry + sum(feed.flow for feed in self.feeds)

    @property
    def used_feeds(self) -> Tuple[Feed, ...]:
        """The feeds by which vehicles come."""
        return tuple(feed for feed in self.feeds if feed.flow > 0)

    def feed(self, feeder: int) -> Feed:
        """The feed from a feeder."""
        for feed in self.feeds:
            if feed.feeder == feeder:
                return feed
        raise Fault(f"link {self.number} isn't fed by link {feeder}")


@dataclass(frozen=True)
class ClimbPlan:
    """A STEPS card: how many places a climb may look at, and its step sizes in steps."""

    budget: int
    sizes: Tuple[int, ...]


@dataclass(frozen=True)
class Deck:
    """A network: its frame, its nodes and links in card order, its climb plan; with names, and the comments at its top.

    `str` is the deck text of form 2 as the program's DECK writes it, with name lines above their cards.
    """

    frame: Frame
    nodes: Tuple[Node, ...] = ()
    links: Tuple[Link, ...] = ()
    climb_plan: Optional[ClimbPlan] = None
    names: Names = field(default_factory=Names)
    comments: Tuple[str, ...] = ()

    @cached_property
    def node_by_number(self) -> Mapping[int, Node]:
        """The nodes by their numbers, in card order."""
        return {node.number: node for node in self.nodes}

    @cached_property
    def link_by_number(self) -> Mapping[int, Link]:
        """The links by their numbers, in card order."""
        return {link.number: link for link in self.links}

    def node(self, number: int) -> Node:
        """The node of a number."""
        if number not in self.node_by_number:
            raise Fault(f"there is no node {number}")
        return self.node_by_number[number]

    def link(self, number: int) -> Link:
        """The link of a number."""
        if number not in self.link_by_number:
            raise Fault(f"there is no link {number}")
        return self.link_by_number[number]

    def sent(self, number: int) -> int:
        """Vehicles an hour that the feeds of all links take from a link."""
        return sum(feed.flow for link in self.links for feed in link.feeds if feed.feeder == number)

    def with_node(self, node: Node) -> "Deck":
        """The deck with a node in the place of that of its number."""
        return replace(self, nodes=tuple(node if one.number == node.number else one for one in self.nodes))

    def with_link(self, link: Link) -> "Deck":
        """The deck with a link in the place of that of its number."""
        return replace(self, links=tuple(link if one.number == link.number else one for one in self.links))

    def plan(self) -> Plan:
        """Of each node's number its offset and the changes of its stages, in steps."""
        return {node.number: (node.offset, [stage.change for stage in node.stages]) for node in self.nodes}

    def with_plan(self, plan: Plan) -> "Deck":
        """The deck with other offsets and changes."""
        deck = self
        for number, (offset, changes) in plan.items():
            if number not in self.node_by_number or len(changes) != len(self.node(number).stages):
                raise Fault(f"the plan has a node {number} with {len(changes)} stages, which the deck hasn't")
            stages = (replace(stage, change=change) for stage, change in zip(self.node(number).stages, changes))
            deck = deck.with_node(replace(self.node(number), offset=offset, stages=tuple(stages)))
        return deck

    def without_give_way(self) -> "Deck":
        """The deck without its give-way rules."""
        return replace(self, links=tuple(replace(link, gives_way=None) for link in self.links))

    def bare(self) -> "Deck":
        """The deck without names and comments, as the program writes it."""
        return replace(self, names=Names(), comments=())

    def __str__(self) -> str:
        return "".join(line + "\n" for line in _lines(self))


def _lines(deck: Deck) -> List[str]:
    """The lines of a deck."""
    frame, names = deck.frame, deck.names
    lines = [_fitting(comment) for comment in deck.comments] + names.top()
    lines += ["FORM 2", _card("CYCLE", frame.cycle, frame.step_count, frame.sweeps, frame.period, frame.stop_penalty,
                              frame.dispersion)]
    for node in deck.nodes:
        lines += names.above_node(node.number) + [_card("NODE", node.number, node.offset)]
        for place, stage in enumerate(node.stages, 1):
            lines += names.above_stage(node.number, place)
            lines.append(_card("STAGE", stage.change, stage.intergreen, stage.least))
    for link in deck.links:
        lines += names.above_link(link.number)
        lines.append(_card("LINK", link.number, link.node, link.entry, link.saturation, link.delay_weight,
                           link.stop_weight, link.start_lag, link.end_lag, *link.stages))
    for link in deck.links:
        for feed in link.feeds:
            lines += names.above_feed(link.number, feed.feeder)
            lines.append(_card("FEED", link.number, feed.feeder, feed.flow, feed.cruise))
    lines += [_card("YIELD", link.number, link.gives_way.other, link.gives_way.percent)
              for link in deck.links if link.gives_way]
    if deck.climb_plan:
        lines.append(_card("STEPS", deck.climb_plan.budget, *deck.climb_plan.sizes))
    return lines + ["END"]


def _card(word: str, *numbers: int) -> str:
    """A card as the program writes it."""
    return " ".join([word, *map(str, numbers)])


def _fitting(comment: str) -> str:
    """A comment within the longest line; U+FFFD in the place of a byte takes three, and so it may have grown."""
    return comment.encode("utf-8", "replace")[:LONGEST_LINE].decode("utf-8", "ignore")


def has_end(text: str) -> bool:
    """Whether a deck's text has an END card."""
    return any(words_of(line)[:1] == ["END"] for line in lines_of(text) if not line.startswith("*"))


def card_bytes(source: Union[str, bytes, Deck]) -> bytes:
    """The bytes of a deck up to its END card, as they are given."""
    data = source if isinstance(source, bytes) else bytes_of(str(source))
    return cards_of(data.decode("latin-1")).encode("latin-1")


def cards_of(text: str) -> str:
    """A deck's text up to its END card, which is the last line; the whole text where there is none."""
    end = 0
    for line in text.split("\n"):
        end += len(line) + 1
        if not line.startswith("*") and words_of(line[:-1] if line.endswith("\r") else line)[:1] == ["END"]:
            return text[:end] if end <= len(text) else text + "\n"
    return text


def read_deck(source: Union[str, bytes], tell: Tell = ignore) -> Deck:
    """The deck of a text; what stands after its END card isn't looked at. `tell` hears of name lines that are left."""
    cards, first = _Cards(), 0
    comments: List[Tuple[int, str]] = []
    for place, line in enumerate(lines_of(decoded(source)), 1):
        words = words_of(line)
        if line.startswith("*"):
            comments.append((place, line))
        elif words:
            first = first or place
            cards.take(place, words)
            if words[0] == "END":
                return _with_names(cards.deck(), comments, first, tell)
    raise Fault("the deck has no END card")


def _with_names(deck: Deck, comments: List[Tuple[int, str]], first: int, tell: Tell) -> Deck:
    """The deck with its names, and with the comments above its first card that are neither names nor rows."""
    parts = Parts({(node.number,) for node in deck.nodes},
                  {(node.number, place) for node in deck.nodes for place in range(1, len(node.stages) + 1)},
                  {(link.number,) for link in deck.links},
                  {(link.number, feed.feeder) for link in deck.links for feed in link.feeds})
    names, taken = read_names(comments, parts, tell)
    top = (line for place, line in comments if place < first and place not in set(taken) and not ROW.fullmatch(line))
    return replace(deck, names=names, comments=tuple(top))


class _Cards:
    """Takes cards one after another."""

    def __init__(self) -> None:
        self.form = 1
        self.frame: Optional[Frame] = None
        self.nodes: Dict[int, Node] = {}
        self.links: Dict[int, Link] = {}
        self.climb_plan: Optional[ClimbPlan] = None

    def take(self, place: int, words: List[str]) -> None:
        """Takes a card at a line."""
        word, least, most = words[0], *CARDS.get(words[0], (-1, -1))
        if least < 0:
            raise Fault(f"line {place}: there is no card {word[:20]}")
        numbers = [number_of(number) for number in words[1:]]
        if None in numbers:
            raise Fault(f"line {place}: {words[1 + numbers.index(None)][:20]} is no number of 1 to 9 digits")
        if not least <= len(numbers) <= most or (word == "LINK" and self.form == 2 and len(numbers) < 9):
            raise Fault(f"line {place}: {word} has {len(numbers)} numbers, and takes "
                        f"{least if least == most else f'{least} to {most}'}")
        try:
            self.put(word, [number or 0 for number in numbers])
        except (LookupError, Fault) as fault:
            raise Fault(f"line {place}: the card {' '.join(words)} is out of its place, or names what isn't there "
                        "or is there already") from fault

    def put(self, word: str, numbers: List[int]) -> None:
        """Puts the card's numbers where they belong; fails where that isn't there."""
        if word == "FORM":
            self.form = numbers[0]
        elif word == "CYCLE":
            self.frame = Frame(*numbers)
        elif word == "NODE":
            self.nodes[_new(numbers[0], self.nodes)] = Node(numbers[0], numbers[1])
        elif word == "STAGE":
            last = list(self.nodes.values())[-1]
            self.nodes[last.number] = replace(last, stages=last.stages + (Stage(*numbers),))
        elif word == "LINK":
            number, node, entry, saturation, delay, stop, *rest = numbers if self.form == 2 else [*numbers[:6], 0, 0,
                                                                                               *numbers[6:]]
            self.links[_new(number, self.links)] = Link(number, node, entry, saturation, delay, stop, rest[0], rest[1],
                                                        tuple(rest[2:]))
        elif word == "FEED":
            fed = self.links[numbers[0]]
            self.links[fed.number] = replace(fed, feeds=fed.feeds + (Feed(*numbers[1:]),))
        elif word == "YIELD":
            self.links[numbers[0]] = replace(self.links[numbers[0]], gives_way=GiveWay(*numbers[1:]))
        elif word == "STEPS":
            self.climb_plan = ClimbPlan(numbers[0], tuple(numbers[1:]))

    def deck(self) -> Deck:
        """The deck of all cards."""
        if self.frame is None:
            raise Fault("the deck has no CYCLE card")
        return Deck(self.frame, tuple(self.nodes.values()), tuple(self.links.values()), self.climb_plan)


def _new(number: int, there: Mapping[int, object]) -> int:
    """A number that isn't given yet."""
    if number in there:
        raise Fault(f"{number} is given twice")
    return number
