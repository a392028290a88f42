"""The map of a deck: refusals, lengths, lanes, places."""

import math
import unittest

import support  # noqa: F401
from transyt.deck import read_deck
from transyt.faults import Fault
from transyt.sumo import layout
from transyt.sumo.network import shape
from transyt.sumo.roads import Map, Road, check_carried, draw_map, free_direction, mean_cruise

DECK = """FORM 2
CYCLE 60 30 1 60 0 0
NODE 1 0
STAGE 0 1 3
STAGE 10 2 4
NODE 2 0
STAGE 0 1 3
STAGE 10 2 4
LINK 11 1 600 3600 1 1 0 0 1
LINK 12 1 300 1500 1 1 0 0 2
LINK 21 2 0 1800 1 1 0 0 1
FEED 21 11 450 20
FEED 21 12 150 24
END
"""


class CheckCarried(unittest.TestCase):
    def refused(self, old: str, new: str, sentence: str) -> None:
        """Has the deck refused with a text of it replaced."""
        with self.assertRaisesRegex(Fault, sentence):
            check_carried(read_deck(DECK.replace(old, new)))

    def test_plain_deck_is_carried_over(self) -> None:
        self.assertIsNone(check_carried(read_deck(DECK)))

    def test_more_lanes_than_a_road_has(self) -> None:
        self.refused("END\n", "* LANES 12 21\nEND\n", "link 12 has 21 lanes")

    def test_feeders_at_two_nodes(self) -> None:
        deck = DECK.replace("NODE 2 0", "NODE 3 0\nSTAGE 0 1 3\nSTAGE 10 2 4\nNODE 2 0")
        deck = deck.replace("LINK 12 1", "LINK 12 3")
        with self.assertRaisesRegex(Fault, "link 21 is fed from the nodes 1, 3"):
            check_carried(read_deck(deck))

    def test_feeder_at_its_own_node(self) -> None:
        self.refused("FEED 21 12", "FEED 21 21", "nodes 1, 2")
        self.refused("FEED 21 11 450 20\nFEED 21 12", "FEED 21 21", "its own node 2")

    def test_link_that_holds_no_queue(self) -> None:
        self.refused("450 20\nFEED 21 12 150 24", "450 1\nFEED 21 12 150 2", "link 21 would be shorter")

    def test_deck_without_traffic(self) -> None:
        with self.assertRaisesRegex(Fault, "no vehicle"):
            check_carried(read_deck("FORM 2\nCYCLE 60 30 1 60 0 0\nEND\n"))

    def test_feed_without_flow_is_no_matter(self) -> None:
        self.assertIsNone(check_carried(read_deck(DECK.replace("END\n", "FEED 12 21 0 20\nEND\n"))))


class DrawMap(unittest.TestCase):
    def setUp(self) -> None:
        self.drawn = draw_map(read_deck(DECK))

    def test_links_are_as_long_as_their_cruise_time(self) -> None:
        self.assertEqual(mean_cruise(read_deck(DECK).link(21)), 21)
        self.assertAlmostEqual(self.drawn.roads["link21"].length, 21 * 13.9)
        self.assertEqual(self.drawn.roads["link11"].length, 500)

    def test_nodes_are_as_far_apart_as_the_link_is_long(self) -> None:
        self.assertAlmostEqual(math.dist(self.drawn.places["node1"], self.drawn.places["node2"]), 21 * 13.9, 3)

    def test_turns_with_their_flows(self) -> None:
        self.assertEqual(self.drawn.turns, {("link11", "link21"): 450, ("link11", "out11"): 150,
                                            ("link12", "link21"): 150, ("link12", "out12"): 150,
                                            ("link21", "out21"): 600})

    def test_cars_leave_by_another_road_than_they_came(self) -> None:
        self.assertNotEqual(self.drawn.roads["out11"].end, self.drawn.roads["link11"].start)
        self.assertEqual((self.drawn.roads["out12"].start, self.drawn.roads["out12"].lanes), ("node1", 1))


class Shapes(unittest.TestCase):
    def test_second_road_lies_to_the_right(self) -> None:
        drawn = Map({"node1": (0, 0), "node2": (100, 0)})
        self.assertEqual(shape(Road("link1", "node1", "node2", 1), drawn, 2), "0.0,-6.4 100.0,-6.4")


class Directions(unittest.TestCase):
    def test_first_road_comes_from_the_west(self) -> None:
        self.assertEqual(free_direction([]), math.pi)

    def test_straight_on_where_that_is_free(self) -> None:
        self.assertAlmostEqual(free_direction([0.5]), 0.5 + math.pi)

    def test_across_where_it_is_not(self) -> None:
        self.assertAlmostEqual(free_direction([0, math.pi]), math.pi / 2)


class Layout(unittest.TestCase):
    def test_chain_is_a_straight_line(self) -> None:
        at = layout.places({1: {2: 300}, 2: {1: 300, 3: 200}, 3: {2: 200}})
        for node, x in ((1, 0), (2, 300), (3, 500)):
            self.assertAlmostEqual(at[node][0], x, 3)
            self.assertAlmostEqual(at[node][1], at[1][1], 3)

    def test_parts_stand_apart(self) -> None:
        at = layout.places({1: {2: 300}, 2: {1: 300}, 3: {}})
        self.assertGreaterEqual(at[3][0] - max(at[1][0], at[2][0]), 999)


if __name__ == "__main__":
    unittest.main()
