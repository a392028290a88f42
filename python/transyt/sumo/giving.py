"""Give-way rules as SUMO has them: netconvert's own right of way, where the two links meet as they are drawn."""

import tempfile
from dataclasses import replace
from typing import Callable, List, Set

from ..deck import Deck, Link
from .network import convert
from .roads import can_be_drawn, check_carried, draw_map, link_road


def without_rules(deck: Deck, numbers: Set[int]) -> Deck:
    """The deck without the give-way rules of some links."""
    return replace(deck, links=tuple(replace(link, gives_way=None) if link.number in numbers else link
                                     for link in deck.links))


def as_drawn(deck: Deck, tell: Callable[[str], None]) -> Deck:
    """The deck with those of its give-way rules that SUMO drives; the others are told, and left out."""
    giving = [link for link in deck.links if link.gives_way]
    if not giving:
        return deck
    check_carried(deck)
    left = [link for link in giving if not can_be_drawn(deck, link)]
    deck = told_and_left(deck, left, "and the two don't stop at one junction", tell)
    with tempfile.TemporaryDirectory() as folder:
        drawn = draw_map(deck)
        net = convert(drawn, folder, prohibited=False)
        apart = [link for link in giving if link not in left and not net.meets(link_road(link.number), other_of(link))]
        deck = told_and_left(deck, apart, "and their ways don't meet as they are drawn here", tell)
        net = convert(draw_map(deck), folder)
        deaf = [link for link in deck.links if link.gives_way
                and not net.waits(link_road(link.number), other_of(link))]
    return told_and_left(deck, deaf, "and netconvert made no rule of it", tell)


def other_of(link: Link) -> str:
    """The road of the link to which a link gives way."""
    return link_road(link.gives_way.other) if link.gives_way else ""


def told_and_left(deck: Deck, links: List[Link], why: str, tell: Callable[[str], None]) -> Deck:
    """The deck without the rules of some links, which are told."""
    for link in links:
        other = link.gives_way.other if link.gives_way else 0
        tell(f"link {link.number} gives way to link {other}, {why}: the rule is left out, in SUMO and for the program "
             "alike")
    return without_rules(deck, {link.number for link in links})
