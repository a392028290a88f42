"""Arms: the links that lanes make by their greens, and their turns."""

import unittest
from typing import List, Optional, Sequence, Tuple

import support  # noqa: F401
from test_from_sumo_stages import cars, logic
from transyt.from_sumo.arms import Arm, Program, arm_of
from transyt.from_sumo.stages import stages_of
from transyt.sumo.netfile import Connection, Edge, Lane


def arm(states: Sequence[str], *turns: Tuple[int, str, Optional[int], str]) -> Tuple[Arm, List[str]]:
    """The arm of an edge at a program of three stages, and what is told.

    `states` has the greens of each place in the stages, `turns` of each connection the lane, the goal, the place or
    None where it has no signal, and the direction.
    """
    phases = [phase for stage in zip(*states) for phase in (
        (20, "".join(stage)), (3, "".join("y" if signal in "Gg" else "r" for signal in stage)))]
    program = logic(*phases)
    stages = tuple(stages_of(program, cars(program)))
    lanes = tuple(Lane(f"e_{place}", place, 100, 14, True) for place in sorted({turn[0] for turn in turns}))
    connections = [Connection("e", goal, lane, 0, "", "J" if place is not None else "", -1 if place is None else place,
                              direction) for lane, goal, place, direction in turns]
    told: List[str] = []
    made = arm_of(Edge("e", "", "", "", "", lanes), connections,
                  Program(program, stages, stages, {place: place for place in range(len(stages))}), told.append)
    return made, told


class Arms(unittest.TestCase):
    def links(self, made: Arm) -> List[Tuple[List[int], Tuple[int, ...], bool]]:
        """Of each link its lanes, its stages, and whether it gives way."""
        return [([lane.place for lane in link.lanes], link.stages, link.is_minor) for link in made.links]

    def test_lanes_of_one_green_are_a_link(self) -> None:
        made, told = arm(["Grr", "Grr", "rGr", "rrG"], (0, "x", 0, "r"), (1, "y", 1, "s"), (2, "z", 2, "l"))
        self.assertEqual(self.links(made), [([0, 1], (1,), False), ([2], (2,), False)])
        self.assertEqual([(turn.name, turn.goal, turn.link) for turn in made.turns],
                         [("r", "x", 0), ("s", "y", 0), ("l", "z", 1)])
        self.assertEqual(told, [])

    def test_turns_of_a_lane_with_different_greens_have_the_common_one(self) -> None:
        made, told = arm(["GGr", "Grr", "rrG"], (0, "x", 0, "r"), (0, "y", 1, "s"))
        self.assertEqual(self.links(made), [([0], (1,), False)])
        self.assertEqual(told, ["lane e_0: its turns have different greens; taken is stage 1, that all of them have"])

    def test_turns_of_a_lane_that_share_no_green_have_the_longest(self) -> None:
        made, told = arm(["Grr", "rGG", "rrG"], (0, "x", 0, "r"), (0, "y", 1, "s"))
        self.assertEqual(self.links(made), [([0], (2, 3), False)])
        self.assertIn("taken is stage 2 and 3, of one of them, since they share none", told[0])

    def test_a_turn_without_a_signal(self) -> None:
        made, told = arm(["Grr", "rGr", "rrG"], (0, "x", None, "r"), (1, "y", 0, "s"))
        self.assertEqual(self.links(made), [([0], (1, 2, 3), False), ([1], (1,), False)])
        made, told = arm(["Grr", "rGr", "rrG"], (0, "x", None, "r"), (0, "y", 0, "s"))
        self.assertEqual(self.links(made), [([0], (1,), False)])
        self.assertEqual(len(told), 1)

    def test_a_lane_that_is_never_green(self) -> None:
        made, told = arm(["rrr", "Grr", "rGr", "rrG"], (0, "x", 0, "r"), (1, "y", 1, "s"))
        self.assertEqual(self.links(made), [([1], (1,), False)])
        self.assertEqual(told, ["lane e_0 is never green, and is left out"])

    def test_lanes_that_look_out_are_links_of_their_own(self) -> None:
        made, told = arm(["Grr", "grr", "rGr", "rrG"], (0, "x", 0, "s"), (1, "y", 1, "l"))
        self.assertEqual(self.links(made), [([0], (1,), False), ([1], (1,), True)])
        self.assertEqual(told, [])

    def test_turns_that_look_out_among_others_are_told(self) -> None:
        made, told = arm(["Grr", "grr", "rGr", "rrG"], (0, "x", 0, "s"), (0, "y", 1, "l"))
        self.assertEqual(self.links(made), [([0], (1,), False)])
        self.assertEqual(told, ["lane e_0: its turn to y gives way, and other turns of the lane don't; taken without a "
                                "rule"])
        made, told = arm(["gGr", "Grr", "rGr", "rrG"], (0, "x", 0, "l"))
        self.assertEqual(self.links(made), [([0], (1, 2), False)])
        self.assertEqual(told, ["lane e_0: its turn to x gives way in some stages alone; taken without a rule"])

    def test_turns_that_are_alike_have_numbers(self) -> None:
        made, told = arm(["Grr", "rGr", "rrG"], (0, "x", 0, "r"), (0, "y", 0, "R"), (0, "z", 0, "s"), (1, "z", 1, "s"))
        self.assertEqual([(turn.name, turn.goal, turn.link) for turn in made.turns],
                         [("r", "x", 0), ("r2", "y", 0), ("s", "z", 0), ("s2", "z", 1)])
        self.assertEqual(told, ["edge e: lanes of different greens lead to z, and so it has the turns s and s2, by "
                                "whose lanes its counts are shared"])


if __name__ == "__main__":
    unittest.main()
