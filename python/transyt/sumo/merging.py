"""Ways that merge: where links of one stage lead into one lane, their cars see each other.

netconvert makes no requests at a junction without right of way: a car sees the others once it is in the lane, too late.
With requests SUMO also has cars wait within the junction for those whose way they cross; that is taken out.
"""

import xml.etree.ElementTree as ElementTree
from typing import AbstractSet, FrozenSet, List, Sequence

from .netfile import Connection, net_of, read_root
from .tools import write_root

UNREGULATED, REGULATED = "traffic_light_unregulated", "traffic_light"


def put_merging(path: str, together: AbstractSet[FrozenSet[str]]) -> None:
    """Puts into a network's file that ways into one lane meet, at the junctions where such roads run together.

    Nobody waits for anybody, and ways that cross stay unseen.
    """
    root = read_root(path)
    net = net_of(root)
    made = set()
    for element in root.iterfind("junction"):
        ways = net.ordered(net.junctions[element.attrib["id"]])
        merging = [merging_with(way, ways) for way in ways]
        at_once = any(frozenset((way.start, ways[place].start)) in together
                      for way, places in zip(ways, merging) for place in places)
        if element.get("type") == UNREGULATED and at_once:
            element.set("type", REGULATED)
            made.add(element.attrib["id"])
            for place, foes in enumerate(merging):
                ElementTree.SubElement(element, "request", index=str(place), response="0" * len(ways),
                                       foes=bits_of(foes, len(ways)), cont="0")
    for element in root.iterfind("junction"):
        if element.get("type") == "internal" and element.attrib["id"].rsplit("_", 2)[0][1:] in made:
            element.set("incLanes", element.get("incLanes", "").split(" ")[0])
            element.set("intLanes", "")
    if made:
        write_root(root, path)


def merging_with(way: Connection, ways: Sequence[Connection]) -> List[int]:
    """The places of the ways of other roads that lead into the same lane."""
    return [place for place, other in enumerate(ways) if other.start != way.start
            and (other.end, other.to_lane) == (way.end, way.to_lane)]


def bits_of(places: Sequence[int], count: int) -> str:
    """A row of a request with ones at some places, of which the last is place 0."""
    return "".join("1" if place in places else "0" for place in reversed(range(count)))
