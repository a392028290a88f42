"""Flows: what each movement carries in an hour, each link's count, its entry flow and its feeds."""

from dataclasses import dataclass
from fractions import Fraction
from typing import Dict, List, Sequence, Tuple

from .hour import Window, counted
from .model import ArmKey, Link, Sheets
from .values import half_up


@dataclass(frozen=True)
class LinkFlow:
    """What a link carries in vehicles an hour: the count is the entry flow and all feeds, by their feeders."""

    count: int
    entry: int
    feeds: Tuple[Tuple[int, int], ...]


@dataclass(frozen=True)
class ArmBalance:
    """An inner arm: vehicles an hour that were counted there and that arrive, and what was done with the difference."""

    arm: str
    counted: Fraction
    arriving: Fraction
    done: str

    @property
    def difference(self) -> Fraction:
        """How far the two are apart."""
        return abs(self.counted - self.arriving)


@dataclass(frozen=True)
class Flows:
    """The flows of all links, and the balance of each inner arm, worst first."""

    links: Dict[int, LinkFlow]
    balances: Tuple[ArmBalance, ...]
    told: Tuple[str, ...]


def flows_of(sheets: Sheets, window: Window) -> Flows:
    """The flows of a window, as fractions, rounded once at the end."""
    vehicles = counted(sheets, window)
    flow: Dict[int, Fraction] = {number: Fraction(0) for number in sheets.links}
    sent: Dict[ArmKey, Dict[int, Fraction]] = {}
    for movement in sheets.movements:
        moving = Fraction(60 * vehicles.get((movement.at, movement.turn), 0), window.minutes)
        flow[movement.link] += moving
        if movement.goal:
            feeders = sent.setdefault(movement.goal, {})
            feeders[movement.link] = feeders.get(movement.link, Fraction(0)) + moving
    links: Dict[int, LinkFlow] = {}
    balances: List[ArmBalance] = []
    told: List[str] = []
    for arm in sorted({link.at for link in sheets.links.values()}):
        there = sheets.links_of(arm)
        if arm not in sent:
            links.update({link.number: outer(flow[link.number]) for link in there})
            continue
        found, balance = inner(sheets, arm, there, flow, sent[arm])
        links.update(found)
        balances.append(balance)
        if balance.arriving == 0 and balance.counted:
            told.append(f"arm {balance.arm}: nothing arrives from the links before it, so what was counted enters "
                        "there")
    return Flows(links, tuple(sorted(balances, key=lambda one: -one.difference)), tuple(told))


def outer(flow: Fraction) -> LinkFlow:
    """A link of an arm to which no movement goes: all of it enters there."""
    return LinkFlow(half_up(flow), half_up(flow), ())


def inner(sheets: Sheets, arm: ArmKey, links: Sequence[Link], flow: Dict[int, Fraction],
          sent: Dict[int, Fraction]) -> Tuple[Dict[int, LinkFlow], ArmBalance]:
    """The links of an arm that others feed, and its balance."""
    feeders = sorted(sent)
    arriving, there = sum(sent.values(), Fraction(0)), sum((flow[link.number] for link in links), Fraction(0))
    way = next((sheets.way(movement.junction, arm) for movement in sheets.movements if movement.goal == arm), None)
    enters = arriving < there and (arriving == 0 or (way is not None and way.between == "entry"))
    found: Dict[int, LinkFlow] = {}
    for link in links:
        own = flow[link.number]
        whole = there if enters else arriving
        entry = own * (there - arriving) / there if enters else Fraction(0)
        parts = [sent[feeder] * own / whole if whole else Fraction(0) for feeder in feeders]
        count = half_up(own)
        rounded = by_remainder([entry, *parts], count)
        found[link.number] = LinkFlow(count, rounded[0], tuple(zip(feeders, rounded[1:])))
    done = "as counted" if arriving == there else "the rest enters" if enters else "scaled"
    return found, ArmBalance(sheets.called(arm), there, arriving, done)


def by_remainder(parts: Sequence[Fraction], whole: int) -> List[int]:
    """The parts as whole numbers that sum to `whole`: rounded down, and one more for the greatest remainders.

    Of equal remainders the earlier part is first.
    """
    floors = [part.numerator // part.denominator for part in parts]
    order = sorted(range(len(parts)), key=lambda place: (floors[place] - parts[place], place))
    for place in order[:whole - sum(floors)]:
        floors[place] += 1
    return floors
