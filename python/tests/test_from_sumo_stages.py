"""Stages out of the phases of programs of signals."""

import random
import unittest
from fractions import Fraction
from typing import Any, FrozenSet, List, Sequence, Tuple

import support  # noqa: F401
from transyt.faults import Fault
from transyt.from_sumo.frames import cycle_of_most, frame_of, numbered, only
from transyt.from_sumo.stages import ON_FOOT, cycle_of, fullest, stages_of
from transyt.sheets.values import seconds_text
from transyt.sumo.netfile import Logic, Phase


def logic(*phases: Sequence[Any], offset: float = 0.0, kind: str = "static", name: str = "J") -> Logic:
    """A program of (seconds, state) or (seconds, state, name, least)."""
    made = [Phase(float(seconds), state, rest[1] if rest[1:] else None, "", rest[0] if rest else "")
            for seconds, state, *rest in phases]
    return Logic(name, kind, "0", offset, tuple(made))


def cars(program: Logic) -> FrozenSet[int]:
    """All places of a program."""
    return frozenset(range(len(program.phases[0].state)))


def told(program: Logic) -> List[Tuple[float, float, float, List[int]]]:
    """Of each stage the beginning, intergreen and green in seconds, and the green places."""
    return [(float(stage.begin), float(stage.intergreen), float(stage.green), sorted(stage.places))
            for stage in stages_of(program, cars(program))]


class Stages(unittest.TestCase):
    def test_yellow_and_all_red_are_the_intergreen_of_the_stage_that_follows(self) -> None:
        program = logic((30, "Gr"), (3, "yr"), (2, "rr"), (40, "rG"), (3, "ry"), (2, "rr"))
        self.assertEqual(told(program), [(75, 5, 30, [0]), (30, 5, 40, [1])])
        self.assertEqual(cycle_of(program), 80)

    def test_a_green_that_goes_on_through_the_yellow_of_others(self) -> None:
        # place 1 goes on into the second stage, and through the yellow of place 0
        program = logic((30, "GGr"), (3, "yGr"), (20, "rGG"), (3, "ryy"), (20, "Grr"), (4, "yrr"))
        self.assertEqual(told(program), [(76, 4, 30, [0, 1]), (30, 3, 20, [1, 2]), (53, 3, 20, [0])])

    def test_a_stage_of_what_goes_on_alone(self) -> None:
        program = logic((30, "GG"), (3, "yG"), (20, "rG"), (3, "ry"), (24, "Gr"), (3, "yr"))
        self.assertEqual(told(program), [(80, 3, 30, [0, 1]), (30, 3, 20, [1]), (53, 3, 24, [0])])

    def test_a_short_clearing_is_no_stage(self) -> None:
        program = logic((30, "GGr"), (3, "yGr"), (2, "rGr"), (20, "rGG"), (3, "ryy"), (2, "rrr"))
        self.assertEqual(told(program), [(55, 5, 30, [0, 1]), (30, 5, 20, [1, 2])])

    def test_red_and_yellow_before_green(self) -> None:
        program = logic((30, "Gr"), (3, "yr"), (2, "ru"), (20, "rG"), (3, "ry"), (2, "ur"))
        self.assertEqual(told(program), [(55, 5, 30, [0]), (30, 5, 20, [1])])

    def test_a_stage_that_goes_on_past_the_end_of_the_program(self) -> None:
        program = logic((10, "Gr"), (5, "yr"), (40, "rG"), (5, "ry"), (20, "Gr"))
        self.assertEqual(told(program), [(55, 5, 30, [0]), (10, 5, 40, [1])])

    def test_a_program_that_begins_with_yellow(self) -> None:
        program = logic((5, "yr"), (40, "rG"), (5, "ry"), (30, "Gr"))
        self.assertEqual(told(program), [(0, 5, 40, [1]), (45, 5, 30, [0])])

    def test_least_greens_are_those_of_the_green_phases(self) -> None:
        program = logic((10, "Gr", "", 6.0), (20, "gr", "", 4.0), (3, "yr", "", 3.0), (20, "rG"), (3, "ry"))
        self.assertEqual([stage.least for stage in stages_of(program, cars(program))], [10, None])

    def test_greens_alone_without_intergreens(self) -> None:
        self.assertEqual(told(logic((20, "Gr"), (25, "rG"))), [(0, 0, 20, [0]), (20, 0, 25, [1])])

    def test_names_that_look_wrote(self) -> None:
        # an intergreen in which all that was on goes on can't be seen but by its name
        program = logic((4, "Gr", "stage 2"), (6, "Gr", "to stage 1"), (20, "GG", "stage 1"), (3, "Gy", "to stage 2"),
                        (1, "Gr", "to stage 2"), (26, "Gr", "stage 2"))
        self.assertEqual(told(program), [(4, 6, 20, [0, 1]), (30, 4, 30, [0])])

    def test_one_green_is_one_stage(self) -> None:
        self.assertEqual(len(told(logic((40, "G")))), 1)
        self.assertEqual(told(logic((40, "r"))), [])

    def test_states_of_two_lengths_are_refused(self) -> None:
        with self.assertRaisesRegex(Fault, "signals J: .* length"):
            stages_of(logic((20, "Gr"), (20, "rGG")), frozenset({0, 1}))
        with self.assertRaisesRegex(Fault, "signals J: .* place 2, and a phase has 2 places"):
            stages_of(logic((20, "Gr"), (20, "rG")), frozenset({0, 2}))

    def test_signals_of_those_on_foot_make_no_stage_but_where_they_alone_are_green(self) -> None:
        # place 2 is on foot: along with place 0 for a while, and alone at the end
        program = logic((20, "GrG"), (5, "Grr"), (3, "yrr"), (20, "rGr"), (3, "ryr"), (12, "rrG"), (4, "rrr"))
        stages = stages_of(program, frozenset({0, 1}))
        self.assertEqual([(float(one.begin), float(one.intergreen), float(one.green), one.places) for one in stages],
                         [(63, 4, 25, {0}), (25, 3, 20, {1}), (48, 3, 12, ON_FOOT)])

    def test_the_eight_stages_with_most_green(self) -> None:
        phases = [step for place in range(9) for step in (
            (20 - place if place != 4 else 5, "r" * place + "G" + "r" * (8 - place)), (3, "r" * place + "y" + "r" * (
                8 - place)))]
        stages = stages_of(logic(*phases), frozenset(range(9)))
        cycle = cycle_of(logic(*phases))
        kept, into = fullest(stages, cycle)
        self.assertEqual([into[place] for place in range(9)], [0, 1, 2, 3, 3, 4, 5, 6, 7])
        self.assertEqual(kept[3].green, stages[3].green + 3 + 5)
        self.assertEqual(sum(stage.intergreen + stage.green for stage in kept), cycle)


class Frames(unittest.TestCase):
    def test_cycle_of_most(self) -> None:
        programs = [logic((40, "Gr"), (50, "rG")), logic((40, "Gr"), (50, "rG")), logic((40, "Gr"), (60, "rG")),
                    logic((20, "Gr"), (60, "rG"), kind="actuated"), logic((20, "Gr"), (60, "rG"), kind="actuated")]
        self.assertEqual(cycle_of_most(programs), 90)
        self.assertEqual(cycle_of_most(programs[1:3]), 100)
        self.assertEqual(cycle_of_most(programs[3:]), 80)
        for phases in (((20, "Gr"), (5, "rG")), ((40, "Gr"), (40.5, "rG")), ((200, "Gr"), (100, "rG"))):
            with self.assertRaisesRegex(Fault, "--cycle"):
                cycle_of_most([logic(*phases)])

    def test_steps(self) -> None:
        whole, half = [Fraction(3), Fraction(41)], [Fraction(3), Fraction(5, 2)]
        self.assertEqual(frame_of(90, whole).steps, 90)
        self.assertEqual(frame_of(60, half).steps, 120)
        self.assertEqual(frame_of(150, [Fraction(4), Fraction(50)]).steps, 75)
        self.assertEqual(frame_of(150, [Fraction(5), Fraction(25, 2)]).steps, 120)
        self.assertEqual(frame_of(90, half).steps, 90)
        self.assertEqual(frame_of(90, half).nearest(Fraction(5, 2)), 3)

    def test_steps_can_be_written(self) -> None:
        draw = random.Random(3)
        for cycle in range(30, 241):
            frame = frame_of(cycle, [Fraction(draw.randrange(1, 20), draw.choice((1, 2, 3, 10)))])
            self.assertTrue(10 <= frame.steps <= 120)
            for seconds in range(8):
                written = Fraction(seconds_text(frame.nearest(Fraction(seconds))))
                self.assertEqual((written / frame.step).denominator, 1, (cycle, frame.steps, seconds))

    def test_numbers_of_links(self) -> None:
        self.assertEqual(numbered({1: 2, 2: 1}), {(1, 0): 11, (1, 1): 12, (2, 0): 21})
        self.assertEqual(numbered({3: 10})[3, 9], 310)

    def test_junctions_that_are_wanted(self) -> None:
        logics = {name: logic((20, "Gr"), name=name) for name in "ABC"}
        self.assertEqual([one.name for one in only(logics, ["C", "A"])], ["A", "C"])
        with self.assertRaisesRegex(Fault, "--junctions X"):
            only(logics, ["X"])


if __name__ == "__main__":
    unittest.main()
