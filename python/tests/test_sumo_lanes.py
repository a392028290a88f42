"""Lanes of links, and how a feeder shares its own among its goals."""

import os
import random
import shutil
import tempfile
import unittest
from typing import Sequence, Tuple

import support  # noqa: F401
from transyt.deck import read_deck
from transyt.sumo.lanes import Goal, lane_count, overlapping, parted, side_by_side, ways
from transyt.sumo.network import build, connections
from transyt.sumo.netfile import read_root
from transyt.sumo.roads import Map, Road

needs_sumo = unittest.skipUnless(shutil.which("netconvert"), "SUMO isn't installed: there is no netconvert")

Point = Tuple[float, ...]

# The road of two lanes to the east goes on in two lanes, and into a pocket; a part turns off, and a part leaves.
POCKET = """FORM 2
CYCLE 60 30 1 60 0 0
NODE 1 0
STAGE 0 1 3
STAGE 10 2 4
NODE 2 0
STAGE 0 1 3
STAGE 10 2 4
NODE 3 0
STAGE 0 1 3
STAGE 10 2 4
LINK 11 1 900 3600 1 1 0 0 1
LINK 12 1 400 1800 1 1 0 0 2
LINK 21 2 0 3600 1 1 0 0 1
LINK 22 2 0 1700 1 1 0 0 2
LINK 23 2 200 1700 1 1 0 0 2
LINK 31 3 0 1800 1 1 0 0 1
LINK 32 3 300 1800 1 1 0 0 2
FEED 21 11 500 20
FEED 21 12 150 24
FEED 22 11 200 20
FEED 22 12 50 24
FEED 31 21 300 20
FEED 31 23 100 20
END
"""


class LaneCount(unittest.TestCase):
    def test_a_lane_for_each_1800(self) -> None:
        deck = read_deck(POCKET.replace("LINK 12 1 400 1800", "LINK 12 1 400 800"))
        self.assertEqual([lane_count(deck, deck.link(number)) for number in (11, 12, 22)], [2, 1, 1])

    def test_a_lanes_line_goes_before(self) -> None:
        deck = read_deck(POCKET.replace("END\n", "* LANES 11 3\nEND\n"))
        self.assertEqual([lane_count(deck, deck.link(number)) for number in (11, 21)], [3, 2])


class Shares(unittest.TestCase):
    def test_lanes_side_by_side(self) -> None:
        self.assertEqual(side_by_side((0, 1), 2), [(0, 0), (1, 1)])
        self.assertEqual(side_by_side((1, 1), 2), [(1, 0), (1, 1)])
        self.assertEqual(side_by_side((0, 2), 1), [(0, 0), (1, 0), (2, 0)])

    def test_a_feeder_as_narrow_as_its_goals_shares_nothing(self) -> None:
        self.assertEqual(ways(2, [Goal(2, 100), Goal(3, 900)]), [[(0, 0), (1, 1)], [(0, 0), (1, 1), (1, 2)]])
        self.assertEqual(ways(1, [Goal(1, 100), Goal(1, 900)]), [[(0, 0)], [(0, 0)]])

    def test_one_lane_each_and_the_rest_by_greatest_remainder(self) -> None:
        # three goals, five lanes: two to spare of 2 * 0.55, 2 * 0.15, 2 * 0.3
        self.assertEqual(parted(5, [550, 150, 300]), [(0, 1), (2, 2), (3, 4)])
        self.assertEqual(parted(3, [100, 100]), [(0, 1), (2, 2)])
        self.assertEqual(parted(2, [10, 990]), [(0, 0), (1, 1)])

    def test_neighbours_share_the_lane_of_the_running_sum(self) -> None:
        # sums 0.4 and 1.6 lanes: the first two share lane 0, the last two lane 1
        self.assertEqual(overlapping(2, [200, 600, 200]), [(0, 0), (0, 1), (1, 1)])
        # a sum that falls on the line between two lanes parts them
        self.assertEqual(overlapping(2, [250, 250, 500]), [(0, 0), (0, 0), (1, 1)])
        self.assertEqual(overlapping(1, [1, 2]), [(0, 0), (0, 0)])

    def test_spare_lanes_of_a_goal_take_its_last_lane(self) -> None:
        self.assertEqual(ways(2, [Goal(1, 200), Goal(2, 700)]), [[(0, 0)], [(1, 0), (1, 1)]])

    def test_a_feeder_without_traffic_is_shared_too(self) -> None:
        self.assertEqual(ways(3, [Goal(1, 0), Goal(1, 0), Goal(1, 0)]), [[(0, 0)], [(1, 0)], [(2, 0)]])

    def test_no_two_ways_of_a_sharing_feeder_cross(self) -> None:
        draw = random.Random(7)
        for _ in range(2_000):
            lanes = draw.randint(2, 5)
            goals = [Goal(draw.randint(1, 4), draw.choice((0, draw.randint(1, 900))))
                     for _ in range(draw.randint(1, 6))]
            if all(goal.lanes >= lanes for goal in goals):
                continue
            led = ways(lanes, goals)
            ended = [(one, (place, other)) for place, pairs in enumerate(led) for one, other in pairs]
            self.assertFalse([(one, two) for one in ended for two in ended if one[0] < two[0] and one[1] > two[1]],
                             (lanes, goals))
            self.assertEqual({one for one, _ in ended}, set(range(lanes)))
            for pairs, goal in zip(led, goals):
                there = {other for _, other in pairs}
                self.assertEqual(there, set(range(goal.lanes)) if len(pairs) >= goal.lanes else there)
                self.assertLess(max(there), goal.lanes)


class FromTheRight(unittest.TestCase):
    def test_goals_stand_from_right_to_left(self) -> None:
        places = {"west": (-100, 0), "node": (0, 0), "east": (100, 0), "north": (0, 100), "south": (0, -100)}
        roads = {"in": Road("in", "west", "node", 4), "back": Road("back", "node", "west", 1)}
        for place, end in enumerate(("north", "east", "south", "east")):
            roads[f"to{place}"] = Road(f"to{place}", "node", end, 1)
        drawn = Map(places, roads, {("in", end): 100 for end in ("back", "to0", "to1", "to2", "to3")})
        # to3 lies to the right of to1, which goes the same way; the four lanes are shared by the sums of flow
        self.assertEqual([end for end, _, _ in connections("in", drawn)],
                         ["to2", "to3", "to3", "to1", "to1", "to0", "to0", "back"])


def crossing(one: Sequence[Point], other: Sequence[Point]) -> bool:
    """Whether two lines of points cross within."""
    def side(a: Point, b: Point, c: Point) -> float:
        return (b[0] - a[0]) * (c[1] - a[1]) - (b[1] - a[1]) * (c[0] - a[0])

    def cross(a: Point, b: Point, c: Point, d: Point) -> bool:
        return side(a, b, c) * side(a, b, d) < -1e-3 and side(c, d, a) * side(c, d, b) < -1e-3

    return any(cross(*first, *second) for first in zip(one, one[1:]) for second in zip(other, other[1:]))


@needs_sumo
class Netconvert(unittest.TestCase):
    def test_no_two_connections_of_a_feeder_cross_as_netconvert_draws_them(self) -> None:
        with tempfile.TemporaryDirectory() as folder:
            net = build(read_deck(POCKET), folder)
            root = read_root(os.path.join(folder, "town.net.xml"))
        shapes = {lane.get("id"): [tuple(map(float, point.split(",")[:2])) for point in lane.get("shape").split()]
                  for lane in root.iter("lane")}
        self.assertEqual({one.from_lane for one in net.file.from_edge["link11"]}, {0, 1})
        self.assertEqual({one.end for one in net.file.from_edge["link11"]}, {"link21", "link22", "out11"})
        for feeder in ("link11", "link21"):
            lines = [shapes[one.via] for one in net.file.from_edge[feeder]]
            self.assertGreater(len(lines), 1)
            for one in lines:
                self.assertFalse([other for other in lines if crossing(one, other)], feeder)


if __name__ == "__main__":
    unittest.main()
