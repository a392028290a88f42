"""CLIMB until LOCAL: until no listed move lowers the index."""

from dataclasses import replace
from typing import Callable, Optional, Tuple

from .deck import Deck
from .edits import after, moves
from .faults import Fault
from .names import Tell, ignore
from .session import Session

Follow = Callable[[Deck, int], None]


def climb_to_local(deck: Deck, workers: int = 1, program: Optional[str] = None, tell: Tell = ignore,
                   follow: Follow = lambda _deck, _index: None) -> Tuple[Deck, int]:
    """The deck climbed on until LOCAL, and its index. `follow` hears of the deck and the index after each step.

    A budget that doesn't go round the list of moves can't end so: then one that does is taken for the climb, which is
    told. The deck keeps its own.
    """
    plan = deck.climb_plan
    if plan is None:
        raise Fault("the deck has no STEPS card, and so no moves to climb by")
    while True:
        with Session(replace(deck, climb_plan=plan), workers, program) as session:
            taken = True
            while taken:
                climb = session.climb()
                for step in climb:
                    deck = after(deck, step.edit)
                    follow(deck, step.index)
                if climb.end and climb.end.local:
                    return deck, climb.end.index
                taken = bool(climb.steps)
        tell(f"a budget of {plan.budget} doesn't go round the list of {len(moves(deck))} moves: it is climbed on with "
             "one that does")
        plan = replace(plan, budget=len(moves(deck)))
