"""At most eight links may feed an arm: the goals of turns by which that holds."""

from typing import Dict, List, Mapping, Sequence, Tuple

from .arms import Arm, Tell, Turn
from .trails import TURNING_BACK

MOST_FEEDERS = 8
At = Tuple[int, str]  # a junction and an arm
Goals = Dict[Tuple[int, str, str], At]  # of a junction, an arm and a turn where it goes on
Link = Tuple[int, str, int]  # a junction, an arm, and the place of one of its links


def rank(turn: Turn) -> int:
    """Which turns go before: those straight ahead, and those that turn back the last."""
    return 0 if turn.name.startswith("s") else 2 if turn.name.startswith(TURNING_BACK) else 1


def at_most_eight(arms: Sequence[Tuple[int, Arm]], goals: Goals, tell: Tell) -> Goals:
    """The goals without those of the feeders of an arm above eight, which are told."""
    turns = [(number, arm, turn) for number, arm in arms for turn in arm.turns]
    feeders: Dict[At, Dict[Link, int]] = {}
    for number, arm, turn in turns:
        goal = goals.get((number, arm.edge.name, turn.name))
        if goal:
            links, link = feeders.setdefault(goal, {}), (number, arm.edge.name, turn.link)
            links[link] = min(rank(turn), links.get(link, rank(turn)))
    left = {goal: above_eight(goal, links, tell) for goal, links in feeders.items()}
    return {(number, arm.edge.name, turn.name): goal for number, arm, turn in turns
            for goal in [goals.get((number, arm.edge.name, turn.name))]
            if goal and (number, arm.edge.name, turn.link) not in left[goal]}


def above_eight(goal: At, links: Mapping[Link, int], tell: Tell) -> List[Link]:
    """The feeders of an arm that are left."""
    left = sorted(links, key=lambda link: links[link])[MOST_FEEDERS:]
    if left:
        edges = ", ".join(dict.fromkeys(edge for _, edge, _ in left))
        tell(f"edge {goal[1]} is fed by {len(links)} links, and {MOST_FEEDERS} are the most: left are the ways from "
             f"{edges}")
    return left
