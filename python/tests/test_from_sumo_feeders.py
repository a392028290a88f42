"""At most eight feeders of an arm."""

import unittest
from typing import List

import support  # noqa: F401
from transyt.from_sumo.arms import Arm, Turn
from transyt.from_sumo.feeders import at_most_eight
from transyt.sumo.netfile import Edge


def arm(name: str, *turns: str) -> Arm:
    """An arm of an edge with turns, each with a link of its own."""
    edge = Edge(name, "", "", "", "", ())
    return Arm(edge, (), tuple(Turn(turn, "x", place, ()) for place, turn in enumerate(turns)))


class Feeders(unittest.TestCase):
    def setUp(self) -> None:
        self.arms = [(1, arm("a", "t", "s", "l", "r")), (1, arm("b", "t", "s", "l", "r")), (2, arm("c", "r", "s2"))]
        self.goals = {(number, one.edge.name, turn.name): (3, "goal") for number, one in self.arms
                      for turn in one.turns}

    def test_eight_stay(self) -> None:
        told: List[str] = []
        goals = {key: goal for key, goal in self.goals.items() if key[1] != "c"}
        self.assertEqual(at_most_eight(self.arms, goals, told.append), goals)
        self.assertEqual(told, [])

    def test_those_that_turn_back_are_left_first(self) -> None:
        told: List[str] = []
        kept = at_most_eight(self.arms, self.goals, told.append)
        self.assertEqual(set(self.goals) - set(kept), {(1, "a", "t"), (1, "b", "t")})
        self.assertEqual(told, ["edge goal is fed by 10 links, and 8 are the most: left are the ways from a, b"])

    def test_then_those_that_turn(self) -> None:
        arms = self.arms + [(4, arm("d", "s", "r", "s2"))]
        goals = {(number, one.edge.name, turn.name): (3, "goal") for number, one in arms for turn in one.turns}
        kept = at_most_eight(arms, goals, lambda _: None)
        self.assertEqual({key[2] for key in kept}, {"s", "s2", "l", "r"})
        self.assertEqual(len(kept), 8)
        self.assertEqual({key for key in set(goals) - set(kept) if key[2][0] == "s"}, set())

    def test_two_turns_of_one_link_are_one_feeder(self) -> None:
        one = Arm(Edge("a", "", "", "", "", ()), (), tuple(Turn(turn, "x", place // 2, ()) for place, turn in enumerate(
            ("s", "s2", "l", "l2", "r", "r2", "s3", "s4", "s5"))))
        goals = {(1, "a", turn.name): (3, "goal") for turn in one.turns}
        self.assertEqual(at_most_eight([(1, one)], goals, lambda _: None), goals)


if __name__ == "__main__":
    unittest.main()
