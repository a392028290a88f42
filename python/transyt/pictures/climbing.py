"""The index over the looks of a climb."""

from typing import Iterable, List, Tuple

from ..deck import ClimbPlan, Deck
from ..faults import Fault
from ..report import ClimbEnd, Step
from ..session import Session
from .source import whose
from .svg import FLOW, INK, MIDDLE, PALE, WIDE, Drawing


def climb(session: Session) -> str:
    """Climbs, and draws the index after each step over the places that were looked at so far."""
    before, deck = session.index(), session.deck()
    climbing = session.climb()
    end = climbing.run()
    return drawn(deck, before, climbing.steps, end, whose(session, deck))


def list_length(deck: Deck, plan: ClimbPlan) -> int:
    """How many moves the list has: for each size two of each node and of each stage."""
    return 2 * len(plan.sizes) * sum(1 + len(node.stages) for node in deck.nodes)


def looks_of(steps: Iterable[Step], count: int) -> List[int]:
    """How many places were looked at when each step was taken: after a step the same place is looked at again."""
    looks: List[int] = []
    at, place = 0, 0
    for step in steps:
        at += (step.place - place) % count + 1
        place = step.place
        looks.append(at)
    return looks


def drawn(deck: Deck, before: int, steps: List[Step], end: ClimbEnd, caption: str) -> str:
    """The picture of a climb that was made."""
    if deck.climb_plan is None:
        raise Fault("the deck has no STEPS card")
    count = list_length(deck, deck.climb_plan)
    looks = looks_of(steps, count)
    last = looks[-1] if looks else 0
    if end.looked != (last + count if end.local else deck.climb_plan.budget) or last > end.looked:
        raise Fault(f"the last step of the climb is at look {last} of {end.looked}, which a list of {count} moves "
                    "hasn't")
    drawing = Drawing("climb", 270, "The index over the looks of a climb", caption)
    least, most = end.index, max(before, end.index + 1)
    left, right, top, bottom = 96.0, WIDE - 30, 26.0, 236.0

    def at(look: int, index: int) -> Tuple[float, float]:
        """Where an index at a look stands."""
        high = (bottom - top) * (index - least) / (most - least)
        return left + (right - left) * look / max(end.looked, 1), bottom - high

    drawing.box((left, top), (right - left, bottom - top), PALE)
    points, index = [at(0, before)], before
    for look, step in zip(looks, steps):
        points += [at(look, index), at(look, step.index)]
        index = step.index
    drawing.path([*points, at(end.looked, index)], MIDDLE, 1.5)
    drawing.dot(at(0, before), 3, INK, f"INDEX {before} before the climb")
    for look, step in zip(looks, steps):
        drawing.dot(at(look, step.index), 2.6, FLOW, f"TOOK {step.place} {step.edit} INDEX {step.index}")
    for value in (most, least):
        drawing.words((left - 6, at(0, value)[1] + 4), str(value), "end", size=10.5)
    drawing.words((left, bottom + 16), "0", "middle", size=10.5)
    drawing.words((right, bottom + 16), f"{end.looked} looks", "end", size=10.5)
    drawing.words((left, top - 8), f"INDEX, {len(steps)} steps, {'LOCAL' if end.local else 'BUDGET'} {end.looked} "
                  f"INDEX {end.index}", size=11)
    return str(drawing)
