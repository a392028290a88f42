"""Give-way rules in SUMO: which are carried, netconvert's right of way, the green at which cars look out."""

import os
import shutil
import tempfile
import unittest
from typing import List, Set, Tuple

import support  # noqa: F401
from transyt.deck import read_deck
from transyt.faults import Fault
from transyt.sumo.drive import signal_of, write_signals
from transyt.sumo.figures import LinkPlan, PlanFigures
from transyt.sumo.giving import as_drawn
from transyt.sumo.greens import check_greens, expected_go
from transyt.sumo.netfile import read_root
from transyt.sumo.network import build
from transyt.sumo.plans import check_same_demand

needs_sumo = unittest.skipUnless(shutil.which("netconvert"), "SUMO isn't installed: there is no netconvert")

# A road of one lane, and a side road that turns into it through its gaps.
DECK = """FORM 2
CYCLE 60 30 1 60 0 0
NODE 1 0
STAGE 0 1 3
STAGE 15 2 4
NODE 2 0
STAGE 0 1 3
STAGE 15 2 4
LINK 11 1 500 1800 1 1 0 0 1 2
LINK 12 1 100 1500 1 1 0 0 1
LINK 21 2 0 1800 1 1 0 0 1
LINK 22 2 90 1800 1 1 0 0 2
FEED 21 11 400 20
FEED 21 12 90 20
YIELD 12 11 90
END
"""


def told_of(deck: str) -> Tuple[Set[int], List[str]]:
    """The rules of a deck that are carried, and what is told."""
    said: List[str] = []
    carried = as_drawn(read_deck(deck), said.append)
    return {link.number for link in carried.links if link.gives_way}, said


class Greens(unittest.TestCase):
    def test_green_that_looks_out(self) -> None:
        deck = read_deck(DECK)
        self.assertEqual(set(signal_of(deck, deck.link(12))), {"g", "y", "r"})
        self.assertEqual(set(signal_of(deck, deck.link(11))), {"G"})

    def test_go_of_a_link_that_gives_way_is_less_and_green_at_the_same_steps(self) -> None:
        deck = read_deck(DECK)
        links = {link.number: LinkPlan(100, 0, 0, 0, expected_go(deck, link)) for link in deck.links}
        less = tuple(max(1, go // 3) if go else 0 for go in links[12].go)
        check_greens(deck, PlanFigures(links | {12: LinkPlan(100, 0, 0, 0, less)}, 0))
        for wrong in ((0,) * 30, (1,) * 30, tuple(go + 1 if go else 0 for go in links[12].go), less[1:]):
            with self.assertRaisesRegex(Fault, "link 12 "):
                check_greens(deck, PlanFigures(links | {12: LinkPlan(100, 0, 0, 0, wrong)}, 0))

    def test_plans_of_other_rules_are_refused(self) -> None:
        with self.assertRaisesRegex(Fault, "give-way"):
            check_same_demand(read_deck(DECK), read_deck(DECK).without_give_way())


@needs_sumo
class Rules(unittest.TestCase):
    def test_ways_that_meet_are_carried(self) -> None:
        self.assertEqual(told_of(DECK), ({12}, []))

    def test_the_link_waits_and_its_green_says_so(self) -> None:
        with tempfile.TemporaryDirectory() as folder:
            net = build(read_deck(DECK), folder)
            self.assertTrue(net.waits("link12", "link11"))
            self.assertEqual(net.file.junctions["node1"].kind, "traffic_light")
            self.assertEqual(net.file.junctions["node2"].kind, "traffic_light_unregulated")
            write_signals(read_deck(DECK), net, os.path.join(folder, "signals.add.xml"))
            logic = read_root(os.path.join(folder, "signals.add.xml")).find("tlLogic[@id='node1']")
        at = {link: {phase.get("state")[place] for phase in logic for place, number in net.signals["node1"].items()
                     if number == link} for link in (11, 12)}
        self.assertEqual(at, {11: {"G"}, 12: {"g", "y", "r"}})

    def test_ways_that_do_not_meet_are_told_and_left(self) -> None:
        # two links from the same end of the town to the same ends beside one another
        apart = DECK.replace("LINK 22", "LINK 23 2 0 1800 1 1 0 0 1\nLINK 22").replace(
            "YIELD 12 11 90", "FEED 23 11 50 20\nYIELD 23 21 90")
        rules, said = told_of(apart)
        self.assertEqual(rules, set())
        self.assertEqual(said, ["link 23 gives way to link 21, and their ways don't meet as they are drawn here: the "
                                "rule is left out, in SUMO and for the program alike"])

    def test_links_of_two_junctions_are_told_and_left(self) -> None:
        rules, said = told_of(DECK.replace("YIELD 12 11", "YIELD 12 21"))
        self.assertEqual((rules, len(said)), (set(), 1))
        self.assertIn("don't stop at one junction", said[0])
        self.assertEqual(told_of(DECK.replace("YIELD 12 11", "YIELD 12 12"))[0], set())


if __name__ == "__main__":
    unittest.main()
