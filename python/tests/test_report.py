"""Answers read out of a stored report."""

import unittest
from typing import List

import support
from transyt.deck import read_deck
from transyt.edits import Edit
from transyt.faults import Fault
from transyt.report import (is_last, read_balance, read_certificate, read_chart, read_climb_end, read_figures,
                            read_links, read_profile, read_queue, read_step, read_timing, split_answers)
from transyt.text import lines_of

FIGURES = """LINK 5 FLOW 604 SENT 311 SATURATION 941 DELAY 651 STOPPED 932 QUEUE 9004625
LINK 3 FLOW 877 SENT 279 SATURATION 999999 DELAY 9527 STOPPED 287 QUEUE 5189492
TOTAL DELAY 343891562 STOPS 612708 INDEX 556223009 WORST 3""".split("\n")
TIMING = """NODE 7 OFFSET 17
STAGE 1 CHANGE 5 AT 4 LENGTH 11 INTERGREEN 3 GREEN 8 LEAST 2
STAGE 2 CHANGE 16 AT 15 LENGTH 7 INTERGREEN 1 GREEN 6 LEAST 5
NODE 8 OFFSET 1
STAGE 1 CHANGE 5 AT 6 LENGTH 18 INTERGREEN 3 GREEN 15 LEAST 2
END TIMING""".split("\n")


class Readers(unittest.TestCase):
    def test_figures_in_units_and_raw(self) -> None:
        figures = read_figures(FIGURES)
        link = figures.link(5)
        self.assertEqual((link.flow_an_hour, link.sent_an_hour, link.saturation, link.delay_seconds, link.stopped,
                          link.queue_vehicles), (604, 311, 0.941, 65.1, 0.932, 9.004625))
        self.assertEqual((link.has_capacity, figures.link(3).has_capacity), (True, False))
        self.assertEqual((figures.delay_vehicle_hours, figures.stops_a_second, figures.index, figures.worst),
                         (343.891562, 0.612708, 556223009, 3))
        self.assertEqual([figures.link(5).raw["QUEUE"], figures.total.raw["DELAY"]], [9004625, 343891562])
        self.assertEqual((link.place("QUEUE"), figures.total.place("WORST")),
                         ("FIGURES LINK 5 QUEUE", "FIGURES TOTAL WORST"))
        for wrong in (lambda: figures.link(9), lambda: link.place("UNIFORM")):
            with self.assertRaises(Fault):
                wrong()

    def test_links(self) -> None:
        links = read_links(["LINK 9 UNIFORM 4055238 RANDOM 74990806 STOPS 109427 INDEX 158537455", "INDEX 158537455"])
        link = links.link(9)
        self.assertEqual((link.uniform_vehicle_hours, link.random_vehicle_hours, link.stops_a_second),
                         (4.055238, 74.990806, 0.109427))
        self.assertEqual((link.place("RANDOM"), links.total.place("INDEX")), ("LINKS LINK 9 RANDOM", "LINKS INDEX"))

    def test_timing(self) -> None:
        timing = read_timing(TIMING)
        self.assertEqual(timing.plan(), {7: (17, [5, 16]), 8: (1, [5])})
        stage = timing.node(7).stages[1]
        self.assertEqual((stage.number, stage.raw["GREEN"], stage.place("LENGTH")),
                         (2, 6, "TIMING NODE 7 STAGE 2 LENGTH"))

    def test_values_of_steps(self) -> None:
        profile = read_profile(["IN 11 1 2", "GO 11 3 4", "OUT 11 5 6"])
        self.assertEqual((profile.number, profile.arrivals, profile.go, profile.departures),
                         (11, (1, 2), (3, 4), (5, 6)))
        queue = read_queue(["QUEUE 11 0 1500000"])
        self.assertEqual((queue.raw, queue.vehicles, queue.place(1)), ((0, 1500000), (0, 1.5), "QUEUE 11 1"))
        self.assertEqual(read_chart(["CHART 4 qqQG.", "END CHART"]), {4: "qqQG."})

    def test_climb_and_certificate(self) -> None:
        step = read_step("TOOK 29 CHANGE 21 2 7 INDEX 521795021")
        self.assertEqual((step.place, step.edit, step.index), (29, Edit("CHANGE", (21, 2, 7)), 521795021))
        end = read_climb_end("BUDGET 192 INDEX 518578809")
        self.assertEqual((end.local, end.looked, end.index), (False, 192, 518578809))
        lines = ["MOVE 0 OFFSET 300 15 INDEX 520471746", "MOVE 1 CHANGE 21 2 1 BARRED", "CERT 2 INDEX 518578809"]
        certificate = read_certificate(lines)
        self.assertEqual([(move.place, str(move.edit), move.index) for move in certificate.moves],
                         [(0, "OFFSET 300 15", 520471746), (1, "CHANGE 21 2 1", None)])
        self.assertEqual((certificate.index, str(certificate)), (518578809, "\n".join(lines) + "\n"))

    def test_balance(self) -> None:
        node, = read_balance(["NODE 1 PEAK 9000 OF 9500 LINK 2", "STAGE 1 CHANGE 0 GREEN 3 NEED 3",
                              "STAGE 2 CHANGE 4 GREEN 5 NEED 6", "END EQUISAT"])
        self.assertEqual((node.number, node.top, node.base, node.link), (1, 9000, 9500, 2))
        self.assertEqual([stage["CHANGE"] for stage in node.stages], [0, 4])

    def test_last_lines(self) -> None:
        for command, last, other in (("INDEX", "INDEX 5", None), ("LINKS", "INDEX 5", "LINK 1 UNIFORM 2"),
                                     ("PROFILE 4", "OUT 4 1", "GO 4 1"), ("DECK", "END", "FORM 2"),
                                     ("CLIMB", "BUDGET 3 INDEX 4", "TOOK 1 OFFSET 1 2 INDEX 4"),
                                     ("OFFSET 1 2", "DONE", None),
                                     ("FIGURES", "TOTAL DELAY 0", "LINK 1 FLOW 2"), ("QUEUE 4", "QUEUE 4 0", None)):
            self.assertTrue(is_last(command, last))
            self.assertTrue(is_last(command, "REFUSED 17"))
            self.assertFalse(other is not None and is_last(command, other))


class WholeReport(unittest.TestCase):
    def commands(self, text: str) -> List[str]:
        """The commands of a deck's text but PLOT."""
        lines = lines_of(text)
        after = lines[lines.index("END") + 1:]
        return [line for line in after if not line.startswith("*") and line and line != "STOP" and "PLOT" not in line]

    def test_each_answer_of_the_arterial(self) -> None:
        report = lines_of(support.example("arterial.report"))
        start = next(place for place, line in enumerate(report) if line.startswith("PLOT"))
        count = 1 + 40
        answers = split_answers(self.commands(support.example("arterial.deck")),
                                report[1:start] + report[start + count:])
        words = [command.split(" ")[0] for command, _ in answers]
        self.assertEqual((words[:4], words[-2:]), (["INDEX", "LINKS", "FIGURES", "CHART"], ["DECK", "CERT"]))
        self.assertEqual(sum(len(lines) for _, lines in answers), len(report) - 1 - count)
        deck = read_deck("\n".join(next(lines for command, lines in answers if command == "DECK")) + "\n")
        timing = read_timing(next(lines for command, lines in answers if command == "TIMING"))
        self.assertEqual(deck.plan(), timing.plan())

    def test_report_that_ends_early(self) -> None:
        with self.assertRaisesRegex(Fault, "before the answer to FIGURES"):
            split_answers(["INDEX", "FIGURES"], ["INDEX 5", *FIGURES[:2]])


if __name__ == "__main__":
    unittest.main()
