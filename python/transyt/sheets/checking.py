"""A made deck against the program: the changes that equisat gives, the deck accepted, FLOW equal to the counts."""

from dataclasses import replace
from typing import List, Optional, Tuple

from ..deck import Deck
from ..faults import Fault
from ..program import Program
from ..session import Session
from .building import Made


def balanced(made: Made, program: Optional[str]) -> Made:
    """The deck with the changes of equal saturation at the junctions whose changes the sheets leave empty."""
    if not made.unbalanced:
        return made
    deck = made.deck
    found = {node.number: node for node in Program(program).balance(deck)}
    for number in made.unbalanced:
        node = deck.node(number)
        changes = [stage["CHANGE"] for stage in found[number].stages]
        stages = tuple(replace(stage, change=change) for stage, change in zip(node.stages, changes))
        deck = deck.with_node(replace(node, stages=stages))
    return replace(made, deck=deck)


def checked(made: Made, program: Optional[str]) -> Tuple[Deck, List[str]]:
    """The deck once the program has accepted it and its FLOW is the count of each link, and what is told of it."""
    told: List[str] = []
    with Session(made.deck, 1, program) as town:
        for line in town.figures().links:
            count = made.counts[line.number]
            if line.flow_an_hour != count:
                raise Fault(f"the program's FLOW of link {line.number} is {line.flow_an_hour}, and its count {count}")
            if line.sent_an_hour > line.flow_an_hour:
                told.append(f"link {line.number} sends on {line.sent_an_hour} vehicles an hour, and "
                            f"{line.flow_an_hour} were counted on it")
    return made.deck, told
