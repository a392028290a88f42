"""Greens by the rules of the model, and signals laid out for SUMO."""

import unittest
from typing import List, Sequence

import support
from transyt.deck import read_deck
from transyt.faults import Fault
from transyt.sumo.figures import LinkPlan, PlanFigures
from transyt.sumo.look import last_plan
from transyt.sumo.greens import (aspects, check_greens, expected_go, green_steps, phases, shown_steps,
                                 stage_names)

THREE_STAGES = """FORM 2
CYCLE 40 20 1 60 0 0
NODE 7 3
STAGE 18 2 3
STAGE 4 1 2
STAGE 10 3 4
LINK 1 7 100 1800 1 1 0 0 1
LINK 2 7 100 1800 1 1 2 1 2 3
LINK 3 7 100 1800 1 1 0 0 1 2 3
LINK 4 7 100 1800 1 1 0 0 1 3
END
"""


def steps_of(flags: Sequence[bool]) -> List[int]:
    """The numbers of the steps that are set."""
    return [step for step, flag in enumerate(flags) if flag]


class ShownSteps(unittest.TestCase):
    # stage 1 is on at 1 to 6, stage 2 at 7 to 12, stage 3 at 13 to 20, which is 0
    def setUp(self) -> None:
        self.deck = read_deck(THREE_STAGES)

    def shown(self, number: int) -> List[int]:
        """The steps at which a link is shown green."""
        return steps_of(shown_steps(self.deck, self.deck.link(number)))

    def test_intergreen_comes_first(self) -> None:
        self.assertEqual(self.shown(1), [3, 4, 5, 6])

    def test_intergreen_between_two_stages_of_a_link_is_green(self) -> None:
        self.assertEqual(self.shown(2), [0] + list(range(8, 20)))

    def test_stage_before_the_first_is_the_last(self) -> None:
        self.assertEqual(self.shown(4), list(range(0, 7)) + list(range(16, 20)))

    def test_link_in_every_stage_is_always_shown(self) -> None:
        self.assertEqual(self.shown(3), list(range(20)))


class GreenSteps(unittest.TestCase):
    def test_start_lag_takes_off_the_beginning_and_end_lag_runs_on(self) -> None:
        shown = [step in (0, 8, 9) for step in range(10)]
        self.assertEqual(steps_of(green_steps(shown, 1, 2)), [0, 1, 2, 9])

    def test_always_shown_has_no_opening(self) -> None:
        self.assertEqual(green_steps([True] * 5, 3, 0), [True] * 5)

    def test_start_lag_takes_all(self) -> None:
        self.assertEqual(green_steps([False, True, False, False], 3, 1), [False] * 4)


class Go(unittest.TestCase):
    def test_go_is_the_saturation_flow_at_green(self) -> None:
        deck = read_deck(THREE_STAGES)
        expected = tuple(1_000_000 if 3 <= step < 7 else 0 for step in range(20))
        self.assertEqual(expected_go(deck, deck.link(1)), expected)

    def test_go_reckons_with_both_lags(self) -> None:
        # shown at 8 to 20, which is 0: opened at 8, closed at 1
        deck = read_deck(THREE_STAGES)
        self.assertEqual(steps_of(expected_go(deck, deck.link(2))), [0, 1] + list(range(10, 20)))

    def test_go_of_the_stored_report(self) -> None:
        deck, report = read_deck(support.example("arterial.deck")), support.example("arterial.report")
        go = next(line.split()[2:] for line in report.splitlines() if line.startswith("GO 31 "))
        deck = deck.with_plan(last_plan(report))
        self.assertEqual(expected_go(deck, deck.link(31)), tuple(int(number) for number in go))

    def test_another_go_is_refused(self) -> None:
        deck = read_deck(THREE_STAGES)
        links = {link.number: LinkPlan(100, 0, 0, 0, expected_go(deck, link)) for link in deck.links}
        check_greens(deck, PlanFigures(links, 0))
        links[2] = LinkPlan(100, 0, 0, 0, (1,) + links[2].go[1:])
        with self.assertRaisesRegex(Fault, "link 2 "):
            check_greens(deck, PlanFigures(links, 0))


class Signals(unittest.TestCase):
    def test_yellow_follows_green(self) -> None:
        frame = read_deck("CYCLE 30 15 1 60 0 0\nEND\n").frame
        shown = [step in (0, 1, 12, 13, 14) for step in range(15)]
        self.assertEqual(aspects(shown, frame), "G" * 8 + "y" * 6 + "r" * 34 + "G" * 12)

    def test_short_red_is_yellow(self) -> None:
        frame = read_deck("CYCLE 30 30 1 60 0 0\nEND\n").frame
        self.assertEqual(aspects([step != 3 for step in range(30)], frame), "G" * 6 + "yy" + "G" * 52)

    def test_steps_end_at_half_seconds(self) -> None:
        frame = read_deck("CYCLE 70 45 1 60 0 0\nEND\n").frame
        shown = [step < 1 for step in range(45)]
        laid_out = aspects(shown, frame)
        self.assertEqual((len(laid_out), laid_out.count("G")), (140, 3))

    def test_phases_have_the_states_of_all_signals(self) -> None:
        names = ["stage 1"] * 3 + ["to stage 2"] * 2 + ["stage 2"]
        self.assertEqual(phases(["GGyyrr", "rrrrGG"], names), [
            (1, "Gr", "stage 1"), (0.5, "yr", "stage 1"), (0.5, "yr", "to stage 2"), (0.5, "rG", "to stage 2"),
            (0.5, "rG", "stage 2")])

    def test_names_of_stages(self) -> None:
        # stage 3 is on at step 13 to 20, which is 0, and its intergreen has three steps of two seconds
        deck = read_deck(THREE_STAGES)
        names = stage_names(deck.node(7), deck.frame)
        self.assertEqual((len(names), names[:4], names[4]), (80, ["stage 3"] * 4, "to stage 1"))
        self.assertEqual([names.count(f"{to}stage {stage}") for stage in (1, 2, 3) for to in ("to ", "")],
                         [8, 16, 4, 20, 12, 20])


if __name__ == "__main__":
    unittest.main()
