"""What the program tells of a plan that is driven, and plans out of reports."""

import unittest

import support
from support import PROGRAM, needs_program
from transyt.deck import read_deck
from transyt.faults import Fault
from transyt.session import Session
from transyt.sumo.figures import read_plan
from transyt.sumo.look import last_plan

TIMING = """NODE 7 OFFSET 17
STAGE 1 CHANGE 5 AT 4 LENGTH 11 INTERGREEN 3 GREEN 8 LEAST 2
STAGE 2 CHANGE 16 AT 15 LENGTH 7 INTERGREEN 1 GREEN 6 LEAST 5
END TIMING
"""


class LastPlan(unittest.TestCase):
    def test_offset_and_changes(self) -> None:
        self.assertEqual(last_plan(TIMING), {7: (17, [5, 16])})

    def test_the_last_timing_counts(self) -> None:
        later = TIMING.replace("OFFSET 17", "OFFSET 3")
        self.assertEqual(last_plan(TIMING + "INDEX 4\n" + later + "DONE\n"), {7: (3, [5, 16])})

    def test_deck_text_is_no_timing(self) -> None:
        with self.assertRaises(Fault):
            last_plan(support.THREE)

    def test_timing_after_a_deck_text(self) -> None:
        self.assertEqual(last_plan(str(read_deck(support.THREE).bare()) + TIMING), {7: (17, [5, 16])})


@needs_program
class ReadPlan(unittest.TestCase):
    def test_delay_queue_and_go(self) -> None:
        with Session(support.example("arterial.deck"), 1, PROGRAM) as town:
            plan, queue, profile = read_plan(town), town.queue(43), town.profile(43)
        link = plan.link(43)
        self.assertAlmostEqual(link.delay, (3103180 + 2288490) / 1e6)
        self.assertEqual((link.flow, link.seconds, link.queue, link.go), (410, 47.3, max(queue.vehicles), profile.go))
        self.assertEqual(plan.index, 49038482)


if __name__ == "__main__":
    unittest.main()
