"""Tables of a network that is written by hand: give-way rules, shared counts, saturation, ways. SUMO isn't needed."""

import tempfile
import unittest
from fractions import Fraction
from typing import Dict, List, Optional, Sequence, Tuple

import support  # noqa: F401
from sumo_nets import write
from transyt.from_sumo.counts import Interval
from transyt.from_sumo.tables import tables_of
from transyt.from_sumo.town import town_of
from transyt.sumo.netfile import read_net

Made = Tuple[Dict[str, List[Dict[str, str]]], List[str]]  # of each table its rows by header; what is told


def edge(name: str, start: str, end: str, lanes: int = 1, length: float = 100.0, speed: float = 10.0,
         street: str = "") -> str:
    """An edge with lanes."""
    rows = "".join(f'<lane id="{name}_{place}" index="{place}" speed="{speed}" length="{length}" shape="0,0 1,0"/>'
                   for place in range(lanes))
    return f'<edge id="{name}" from="{start}" to="{end}" name="{street}">{rows}</edge>'


def inside(name: str, length: float, speed: float) -> str:
    """An edge within a junction."""
    return (f'<edge id="{name}" function="internal"><lane id="{name}_0" index="0" speed="{speed}" length="{length}" '
            'shape="0,0 1,0"/></edge>')


def turn(start: str, goal: str, lane: int, place: Optional[int], direction: str = "s", via: str = "",
         to_lane: int = 0) -> str:
    """A connection."""
    signal = "" if place is None else f' tl="J" linkIndex="{place}"'
    return (f'<connection from="{start}" to="{goal}" fromLane="{lane}" toLane="{to_lane}"{signal} via="{via}" '
            f'dir="{direction}"/>')


def phases(*states: str, name: str = "J") -> str:
    """A program of 30 s of each state, with 3 s of yellow after it."""
    rows = "".join(f'<phase duration="30" state="{state}"/><phase duration="3" '
                   f'state="{state.replace("G", "y").replace("g", "y")}"/>' for state in states)
    return f'<tlLogic id="{name}" type="static" programID="0" offset="0">{rows}</tlLogic>'


def junction(name: str, incoming: str, *requests: str, kind: str = "traffic_light",
             at: Tuple[int, int] = (0, 0)) -> str:
    """A junction with the foes of each connection, as bits."""
    rows = "".join(f'<request index="{place}" response="{foes}" foes="{foes}" cont="0"/>'
                   for place, foes in enumerate(requests))
    return f'<junction id="{name}" type="{kind}" x="{at[0]}" y="{at[1]}" incLanes="{incoming}">{rows}</junction>'


def tables(*parts: str, intervals: Optional[Sequence[Interval]] = None) -> Made:
    """The tables of a network's parts, each as rows by header, and what is told."""
    told: List[str] = []
    with tempfile.TemporaryDirectory() as folder:
        net = read_net(write(folder, "hand.net.xml", f"<net>{''.join(parts)}</net>"))
        town = town_of(net, None, None, told.append)
    made = tables_of(town, "hand", intervals, told.append)
    return {name: [dict(zip(rows[0], row)) for row in rows[1:]] for name, rows in made.items()}, told


class Gives(unittest.TestCase):
    """Four arms: a turns through the gaps of b, which has to look out as well, and of c, which goes first."""

    def made(self, states: Sequence[str], foes: str = "0110") -> Made:
        """The tables of the four arms at a program of these states, with the foes of a."""
        edges = [edge(name, name, "J") for name in "abcd"] + [edge("x", "J", "x")]
        turns = [turn(name, "x", 0, place) for place, name in enumerate("abcd")]
        return tables(*edges, phases(*states), junction("J", "a_0 b_0 c_0 d_0", foes, "0000", "0000", "0000"), *turns)

    def test_the_foe_that_goes_first(self) -> None:
        made, told = self.made(["ggGr", "rrrG"])
        self.assertEqual([(row["link"], row["other"], row["percent"]) for row in made["gives"]], [("11", "13", "")])
        self.assertEqual([line for line in told if "gives way" in line], [])

    def test_the_first_of_several_foes(self) -> None:
        made, told = self.made(["gGGr", "rrrG"])
        self.assertEqual([(row["link"], row["other"]) for row in made["gives"]], [("11", "12")])
        self.assertIn("edge a: link 11 gives way to the links 12, 13; the rule has the first alone", told)

    def test_foes_of_another_stage_are_none(self) -> None:
        made, _ = self.made(["grrr", "rGGG"])
        self.assertEqual(made["gives"], [])

    def test_connections_that_are_no_foes_are_none(self) -> None:
        made, _ = self.made(["gGGr", "rrrG"], "1000")
        self.assertEqual(made["gives"], [])


class Links(unittest.TestCase):
    def test_turns_from_two_links_to_one_edge_share_its_count_by_lanes(self) -> None:
        parts = [edge("a", "a", "J", 3, street="=Mill Lane"), edge("b", "b", "J"), edge("x", "J", "x", 3),
                 phases("GGrr", "rrGG"), junction("J", "a_0 a_1 a_2 b_0", "0000", "0000", "0000", "0000"),
                 turn("a", "x", 0, 0, to_lane=0), turn("a", "x", 1, 1, to_lane=1), turn("a", "x", 2, 2, to_lane=2),
                 turn("b", "x", 0, 3)]
        made, told = tables(*parts, intervals=[Interval(480, 15, {("a", "x"): Fraction(22), ("b", "x"): Fraction(3, 2),
                                                                 ("b", "y"): Fraction(9)})])
        self.assertEqual([(row["link"], row["saturation"], row["lanes"], row["stages"]) for row in made["links"]],
                         [("11", "3600", "2", "1"), ("12", "1800", "1", "2"), ("13", "1800", "1", "2")])
        self.assertEqual([(row["arm"], row["from"], row["minutes"], row["s"], row["s2"]) for row in made["counts"]],
                         [("a", "08:00", "15", "15", "7"), ("b", "08:00", "15", "2", "")])
        self.assertTrue(any("1 of the counts are of no turn" in line and "b to y" in line for line in told))

    def test_more_lanes_than_a_saturation_flow_has(self) -> None:
        made, told = tables(edge("a", "a", "J", 6), edge("b", "b", "J"), edge("x", "J", "x", 6), phases("Gr", "rG"),
                            junction("J", " ".join(f"a_{place}" for place in range(6)) + " b_0"),
                            *(turn("a", "x", place, 0, to_lane=place) for place in range(6)), turn("b", "x", 0, 1))
        self.assertEqual([row["saturation"] for row in made["links"]], ["9999", "1800"])
        self.assertIn("edge a: 6 lanes are taken with 9,999 vehicles an hour, the most that a deck has", told)


class Ways(unittest.TestCase):
    def made(self, middle: str = "") -> Made:
        """Two junctions with signals and one between them: 20 m and 100 m, 50 m at 5 m/s within it, and 200 m."""
        far = [edge("c", "c", "K"), edge("y", "K", "y"), edge("m", "J", "M"), edge("n", "M", "K", length=200.0),
               inside(":M_0", 50.0, 5.0), inside(":J_0", 20.0, 10.0)]
        return tables(
            edge("a", "a", "J"), edge("b", "b", "J"), *far, phases("Gr", "rG"), phases("Gr", "rG", name="K"), middle,
            junction("J", "a_0 b_0"), junction("K", "n_0 c_0"), junction("M", "m_0", kind="priority"),
            turn("a", "m", 0, 0, via=":J_0_0"), turn("b", "m", 0, 1, via=":J_0_0"),
            turn("m", "n", 0, 0 if middle else None, via=":M_0_0").replace('tl="J"', 'tl="M"'),
            turn("n", "y", 0, 0).replace('tl="J"', 'tl="K"'),
            turn("c", "y", 0, 1).replace('tl="J"', 'tl="K"'))

    def test_metres_and_seconds_through_junctions(self) -> None:
        made, told = self.made()
        self.assertEqual([(row["from junction"], row["to junction"], row["to arm"], row["metres"])
                          for row in made["ways"]], [("1", "2", "n", "370")])
        self.assertAlmostEqual(3.6 * 370 / float(made["ways"][0]["km/h"]), 2 + 10 + 10 + 20, delta=0.01)
        self.assertFalse([line for line in told if "way" in line])

    def test_signals_of_one_stage_are_as_none(self) -> None:
        made, told = self.made(phases("G", name="M"))
        self.assertEqual(made["ways"], self.made()[0]["ways"])
        self.assertEqual([row["name"] for row in made["junctions"]], ["J", "K"])
        self.assertIn("signals M have fewer than two stages, and are left out", told)
        made, _ = self.made(phases("G", "r", name="M"))
        self.assertEqual(made["ways"], self.made()[0]["ways"])


if __name__ == "__main__":
    unittest.main()
