"""Edits: the commands of the program that set one number of a network, or the two weights of a link."""

from dataclasses import dataclass, replace
from typing import List, Tuple

from .deck import Deck, Feed, Link
from .faults import Fault
from .text import number_of, words_of

# How many numbers each edit takes; the last is the one that is set, of WEIGHT the last two.
COUNTS = {"OFFSET": 2, "CHANGE": 3, "ENTRY": 2, "PART": 3, "CRUISE": 3, "SATURATION": 2, "WEIGHT": 3}


@dataclass(frozen=True)
class Edit:
    """An edit as the program reads it: its word, and its numbers in their order. `str` is the command."""

    word: str
    numbers: Tuple[int, ...]

    def __str__(self) -> str:
        return " ".join([self.word, *map(str, self.numbers)])

    @property
    def node(self) -> int:
        """The node of an OFFSET or a CHANGE."""
        if self.word not in ("OFFSET", "CHANGE"):
            raise Fault(f"{self} is no edit of a node")
        return self.numbers[0]


def read_edit(line: str) -> Edit:
    """The edit that a line is."""
    word, *rest = words_of(line) or [""]
    numbers = [number_of(number) for number in rest]
    if COUNTS.get(word) != len(numbers) or None in numbers:
        raise Fault(f"{line} is no edit")
    return Edit(word, tuple(number or 0 for number in numbers))


def after(deck: Deck, edit: Edit) -> Deck:
    """The deck with an edit that the program accepted."""
    key, value = edit.numbers[0], edit.numbers[-1]
    if edit.word == "OFFSET":
        return deck.with_node(replace(deck.node(key), offset=value))
    if edit.word == "CHANGE":
        stages = list(deck.node(key).stages)
        stages[edit.numbers[1] - 1] = replace(stages[edit.numbers[1] - 1], change=value)
        return deck.with_node(replace(deck.node(key), stages=tuple(stages)))
    return deck.with_link(_link_after(deck.link(key), edit))


def _link_after(link: Link, edit: Edit) -> Link:
    """A link with an edit of it."""
    value = edit.numbers[-1]
    if edit.word == "ENTRY":
        return replace(link, entry=value)
    if edit.word == "SATURATION":
        return replace(link, saturation=value)
    if edit.word == "WEIGHT":
        return replace(link, delay_weight=edit.numbers[1], stop_weight=value)

    def of_feed(feed: Feed) -> Feed:
        if feed.feeder != edit.numbers[1]:
            return feed
        return replace(feed, flow=value) if edit.word == "PART" else replace(feed, cruise=value)

    return replace(link, feeds=tuple(of_feed(feed) for feed in link.feeds))


def inverse(deck: Deck, edit: Edit) -> Edit:
    """The edit that takes an accepted one back: of the same kind, with the number that `deck` has before it."""
    key = edit.numbers[0]
    if edit.word == "OFFSET":
        return Edit("OFFSET", (key, deck.node(key).offset))
    if edit.word == "CHANGE":
        return Edit("CHANGE", (*edit.numbers[:2], deck.node(key).stages[edit.numbers[1] - 1].change))
    link = deck.link(key)
    if edit.word == "WEIGHT":
        return Edit("WEIGHT", (key, link.delay_weight, link.stop_weight))
    if edit.word in ("ENTRY", "SATURATION"):
        return Edit(edit.word, (key, link.entry if edit.word == "ENTRY" else link.saturation))
    feed = link.feed(edit.numbers[1])
    return Edit(edit.word, (*edit.numbers[:2], feed.flow if edit.word == "PART" else feed.cruise))


def moves(deck: Deck) -> Tuple[Edit, ...]:
    """The list of moves of the deck's climb plan, in its order, over the network as it stands (MODEL, "Moves")."""
    if deck.climb_plan is None:
        return ()
    count = deck.frame.step_count
    found: List[Edit] = []
    for size in deck.climb_plan.sizes:
        for node in deck.nodes:
            found += [Edit("OFFSET", (node.number, (node.offset + by) % count)) for by in (size, -size)]
            for place, stage in enumerate(node.stages, 1):
                found += [Edit("CHANGE", (node.number, place, (stage.change + by) % count)) for by in (size, -size)]
    return tuple(found)
