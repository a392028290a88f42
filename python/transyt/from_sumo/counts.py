"""Counts of turns out of a file of SUMO: edgeRelation elements, each interval a window of counts."""

import xml.etree.ElementTree as ElementTree
from dataclasses import dataclass
from fractions import Fraction
from typing import Dict, List, Tuple

from ..faults import Fault
from ..sumo.netfile import read_root

DAY = 24 * 60  # minutes


@dataclass(frozen=True)
class Interval:
    """A window of counts: minutes since midnight, how many, and the vehicles from edge to edge."""

    begin: int
    minutes: int
    vehicles: Dict[Tuple[str, str], Fraction]


def read_turns(path: str) -> List[Interval]:
    """The intervals of a file of turn counts."""
    found = [interval_of(element, f"{path}, interval {place}")
             for place, element in enumerate(read_root(path).iter("interval"), 1)]
    if not found:
        raise Fault(f"{path} has no interval of turn counts")
    if not any(interval.vehicles for interval in found):
        raise Fault(f"{path} has no edgeRelation in its intervals")
    return found


def interval_of(element: ElementTree.Element, place: str) -> Interval:
    """An interval."""
    begin, end = (minutes_of(element.get(name, ""), f"{place}, {name}") for name in ("begin", "end"))
    if not 0 <= begin < end <= DAY:
        raise Fault(f"{place}: it lasts from minute {begin} to {end}, and has to lie within a day")
    vehicles: Dict[Tuple[str, str], Fraction] = {}
    for relation in element.iter("edgeRelation"):
        key = relation.get("from", ""), relation.get("to", "")
        where = f"{place}, edgeRelation from {key[0]} to {key[1]}"
        vehicles[key] = vehicles.get(key, Fraction(0)) + number_of(relation.get("count", ""), f"{where}, count")
    return Interval(begin, end - begin, vehicles)


def number_of(text: str, place: str) -> Fraction:
    """A number that isn't negative."""
    try:
        if 0 <= float(text) < 1e6:
            return Fraction(text.strip())
    except ValueError:
        pass
    raise Fault(f"{place}: {text} is no number from 0 to 999,999" if text else f"{place}: it is missing")


def minutes_of(text: str, place: str) -> int:
    """Seconds as whole minutes."""
    minutes = number_of(text, place) / 60
    if minutes.denominator != 1:
        raise Fault(f"{place}: {text} s is no whole number of minutes")
    return int(minutes)
