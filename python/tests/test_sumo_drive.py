"""What SUMO wrote as it is read here, the saturation flow that is wanted, and the table."""

import functools
import os
import tempfile
import unittest
from typing import List, Sequence

import support  # noqa: F401
from transyt.deck import read_deck
from transyt.faults import Fault
from transyt.sumo.calibrate import Green, headway_of, one_stop_line, usual_green
from transyt.sumo.drive import LinkMeasures, Measures, read_measures
from transyt.sumo.figures import LinkPlan, PlanFigures
from transyt.sumo.lanes import lane_count
from transyt.sumo.plans import Plan, check_same_demand, correlation, is_apart, link_table, total_table

DECK = """FORM 2
CYCLE 60 30 1 60 0 0
NODE 1 7
STAGE 5 1 3
STAGE 15 2 4
LINK 11 1 600 3600 1 1 1 2 1
LINK 12 1 300 1500 1 1 0 0 2
LINK 13 1 300 1800 1 1 0 0 1 2
STEPS 100 1 4
END
"""
FILES = {
    "roads.xml": """<meandata><interval begin="900" end="4500">
        <edge id=":node1_0" timeLoss="100.0" left="590"/>
        <edge id="link11" timeLoss="7000.0" left="600"/>
        <edge id="out11" timeLoss="9.0" left="600"/>
        <edge id="link12"/></interval></meandata>""",
    "trips.xml": """<tripinfos>
        <tripinfo id="11.0" depart="899.50" departDelay="50.0"/>
        <tripinfo id="11.1" depart="910.00" departDelay="70.0"/>
        <tripinfo id="11.2" depart="4530.00" departDelay="90.0"/>
        <tripinfo id="11.3" depart="-1" departDelay="930.0"/>
        <tripinfo id="12.7" depart="-1" departDelay="8.0"/></tripinfos>""",
    "queues.xml": """<detector>
        <interval begin="840" end="900" id="link11_0" maxJamLengthInVehicles="9"/>
        <interval begin="900" end="960" id="link11_0" maxJamLengthInVehicles="4"/>
        <interval begin="900" end="960" id="link11_1" maxJamLengthInVehicles="3"/>
        <interval begin="960" end="1020" id="link11_0" maxJamLengthInVehicles="2"/>
        <interval begin="960" end="1020" id="link11_1" maxJamLengthInVehicles="0"/></detector>""",
    "statistics.xml": """<statistics><teleports total="0"/><safety collisions="3"/></statistics>""",
}


class Inside:
    """A network with one way through a junction, from link 11."""

    inside = {":node1_0": "link11"}


class ReadMeasures(unittest.TestCase):
    def setUp(self) -> None:
        with tempfile.TemporaryDirectory() as folder:
            for name, text in FILES.items():
                with open(os.path.join(folder, name), "w") as file:
                    file.write(text)
            self.measures = read_measures(read_deck(DECK), Inside, folder)

    def test_delay_is_lost_on_the_link_in_the_junction_and_before_entering(self) -> None:
        self.assertEqual(self.measures.links[11].delay, 2)
        self.assertEqual((self.measures.links[11].vehicles, self.measures.links[11].seconds), (600, 12))

    def test_queue_is_the_mean_over_the_cycles(self) -> None:
        self.assertEqual(self.measures.links[11].queue, 4.5)

    def test_link_without_cars_has_nothing(self) -> None:
        self.assertEqual(self.measures.links[12], LinkMeasures(0, 0, 0))
        self.assertEqual(self.measures.links[12].seconds, 0)

    def test_collisions_and_teleports(self) -> None:
        self.assertEqual((self.measures.collisions, self.measures.teleports), (3, 0))


class Calibration(unittest.TestCase):
    def test_usual_green_is_weighed_by_flow(self) -> None:
        # link 11 is shown for 9 steps and gains one, link 12 for 18; link 13 is never red
        green = usual_green(read_deck(DECK))
        self.assertEqual(green.shown, 12)
        self.assertAlmostEqual(green.added, 2 / 3)
        self.assertAlmostEqual(green.saturation, (600 * 1800 + 300 * 1500 + 300 * 1800) / 1200)

    def test_cars_in_a_green(self) -> None:
        self.assertAlmostEqual(Green(read_deck(DECK).frame, 21, 1, 1800).cars, 22)

    def test_stop_line_has_the_green(self) -> None:
        deck = one_stop_line(Green(read_deck(DECK).frame, 12, 0, 1750))
        self.assertEqual(usual_green(deck).shown, 12)

    def test_stop_line_has_one_lane_however_much_it_carries(self) -> None:
        deck = one_stop_line(Green(read_deck(DECK).frame, 12, 0, 3500))
        self.assertEqual(lane_count(deck, deck.link(1)), 1)

    def test_headway_lies_between_two_that_were_tried(self) -> None:
        tried: List[float] = []

        def cars(headway: float) -> float:
            tried.append(headway)
            return 30 - 5 * headway

        self.assertAlmostEqual(headway_of(functools.cache(cars), 21.5), 1.7)
        self.assertEqual(tried, [1.4, 1.6, 1.8])
        self.assertAlmostEqual(headway_of(cars, 23), 1.4)
        self.assertAlmostEqual(headway_of(cars, 23.5), 1.3)

    def test_out_of_reach_is_refused(self) -> None:
        for wanted in (27, 10):
            with self.assertRaisesRegex(Fault, f"{wanted}.0 cars"):
                headway_of(lambda headway: 30 - 5 * headway, wanted)


class Tables(unittest.TestCase):
    def plan(self, name: str, delay: float, driven: Sequence[float]) -> Plan:
        """A plan with a delay of the program, parted over its links, and those of SUMO by seed."""
        deck = read_deck(DECK)
        figures = {}
        for number, share in ((11, 0.5), (12, 0.25), (13, 0.25)):
            flow = deck.link(number).total_flow
            figures[number] = LinkPlan(flow, delay * share, 3600 * delay * share / flow, 2.0, ())
        runs = [Measures({11: LinkMeasures(600, part, 3), 12: LinkMeasures(300, part / 2, 4),
                          13: LinkMeasures(0, 0, 0)}, 0, 0) for part in driven]
        return Plan(name, deck, PlanFigures(figures, 5_000_000), runs)

    def test_totals(self) -> None:
        lines = total_table([self.plan("before", 8, [4, 6]), self.plan("after", 6, [3, 3])])
        self.assertIn("| delay by the program, vehicle-hours an hour | 8.00 | 6.00 | 0.750 |", lines)
        ratio = "0.600, from 0.500 to 0.750 by seed"
        self.assertIn(f"| delay in SUMO, vehicle-hours an hour | 7.50 | 4.50 | {ratio} |", lines)
        self.assertIn("| SUMO / program | 0.94 | 0.75 |  |", lines)

    def test_links(self) -> None:
        lines = link_table([self.plan("before", 8, [4, 6]), self.plan("after", 6, [3, 3])])
        self.assertIn("| 11* | 600 | 24.0 | 30.0 | 2.0 | **3.0** | 18.0 | 18.0 | 2.0 | **3.0** |", lines)
        self.assertIn("| 13* | 300 | 24.0 | **0.0** | 2.0 | **0.0** | 18.0 | **0.0** | 2.0 | **0.0** |", lines)

    def test_apart_is_more_than_a_third(self) -> None:
        self.assertEqual([is_apart(12, driven) for driven in (8, 7.9, 16, 16.1)], [False, True, False, True])
        self.assertEqual([is_apart(0, driven) for driven in (0, 0.04, 0.1)], [False, False, True])

    def test_collisions_stand_in_the_table(self) -> None:
        plans = [self.plan("before", 8, [4, 6]), self.plan("after", 6, [3, 3])]
        plans[1].runs[1] = Measures(plans[1].runs[1].links, 7, 0)
        self.assertIn("| collisions in all runs | 0 | 7 |  |", total_table(plans))

    def test_correlation(self) -> None:
        self.assertAlmostEqual(correlation([(1, 2), (2, 4), (4, 8)]), 1)
        self.assertIsNone(correlation([(1, 2), (1, 3)]))
        self.assertIsNone(correlation([]))

    def test_decks_of_other_flows_are_refused(self) -> None:
        with self.assertRaisesRegex(Fault, "differ"):
            check_same_demand(read_deck(DECK), read_deck(DECK.replace("600 3600", "601 3600")))
        check_same_demand(read_deck(DECK), read_deck(DECK.replace("CYCLE 60 30", "CYCLE 80 40")))


if __name__ == "__main__":
    unittest.main()
