"""The cars of a deck: their flows, their routes, the same for the same seed."""

import unittest
from collections import Counter

import support  # noqa: F401
from transyt.deck import read_deck
from transyt.sumo.cars import draw_cars, entering_flow, lane_saturation, share_sent, ways_on

DECK = """FORM 2
CYCLE 60 30 1 60 0 0
NODE 1 0
STAGE 0 1 3
STAGE 10 2 4
NODE 2 0
STAGE 0 1 3
STAGE 10 2 4
LINK 11 1 600 3600 1 1 0 0 1
LINK 12 1 100 1500 1 1 0 0 2
LINK 21 2 20 1800 1 1 0 0 1
FEED 21 11 450 20
FEED 21 12 125 20
END
"""


class Flows(unittest.TestCase):
    def setUp(self) -> None:
        self.deck = read_deck(DECK)

    def test_feeder_that_sends_more_than_comes_is_scaled_down(self) -> None:
        self.assertEqual([share_sent(self.deck, number) for number in (11, 12, 21)], [1, 0.8, 1])

    def test_missing_cars_enter_on_the_link_fed(self) -> None:
        self.assertAlmostEqual(entering_flow(self.deck, self.deck.link(21)), 45)
        self.assertEqual(entering_flow(self.deck, self.deck.link(11)), 600)

    def test_parts_of_the_ways_on(self) -> None:
        self.assertEqual(ways_on(self.deck), {11: [(21, 0.75)], 12: [(21, 1.0)], 21: []})

    def test_lane_saturation_is_weighed_by_flow(self) -> None:
        # 600 by two lanes of 1800, 100 by 1500, 595 by 1800
        self.assertAlmostEqual(lane_saturation(self.deck), (600 * 1800 + 100 * 1500 + 595 * 1800) / 1295)


class DrawCars(unittest.TestCase):
    def setUp(self) -> None:
        self.cars = draw_cars(read_deck(DECK), 5, 36000)

    def test_same_seed_same_cars(self) -> None:
        self.assertEqual(self.cars, draw_cars(read_deck(DECK), 5, 36000))
        self.assertNotEqual(self.cars, draw_cars(read_deck(DECK), 6, 36000))

    def test_in_order_of_time_and_within_it(self) -> None:
        times = [time for time, _, _ in self.cars]
        self.assertEqual(times, sorted(times))
        self.assertTrue(0 < times[0] and times[-1] < 36000)

    def test_routes_follow_the_feeds(self) -> None:
        routes = Counter(" ".join(edges) for _, _, edges in self.cars)
        self.assertEqual(set(routes), {"link11 link21 out21", "link11 out11", "link12 link21 out21", "link21 out21"})

    def test_flows_are_those_of_the_deck(self) -> None:
        # ten hours of 4500, 1500, 1000 and 450 cars; four standard deviations
        routes = Counter(" ".join(edges) for _, _, edges in self.cars)
        for name, mean in (("link11 link21 out21", 4500), ("link11 out11", 1500), ("link12 link21 out21", 1000),
                           ("link21 out21", 450)):
            self.assertLess(abs(routes[name] - mean), 4 * mean ** 0.5, name)

    def test_car_that_goes_round_leaves_in_the_end(self) -> None:
        loop = DECK.replace("END\n", "FEED 11 21 595 20\nEND\n").replace("LINK 11 1 600", "LINK 11 1 5")
        self.assertTrue(all(len(edges) <= 200 for _, _, edges in draw_cars(read_deck(loop), 1, 3600)))


if __name__ == "__main__":
    unittest.main()
