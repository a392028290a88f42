"""A plan at more and less traffic: as it stands, and climbed anew until LOCAL."""

from dataclasses import dataclass, replace
from fractions import Fraction
from typing import Callable, List, Optional, Sequence, Tuple

from .deck import Deck
from .faults import Fault
from .local import climb_to_local
from .report import Figures
from .session import Session

MOST_FLOW = 9_999  # vehicles an hour, of a card
PRACTICAL = 900  # thousandths: the degree of saturation up to which a link has a reserve
FACTORS = (Fraction(8, 10), Fraction(9, 10), Fraction(1), Fraction(11, 10), Fraction(12, 10))


@dataclass(frozen=True)
class Row:
    """A factor with the figures of the plan as it stands, and climbed anew; the latter None without a STEPS card."""

    factor: Fraction
    standing: Figures
    climbed: Optional[Figures]


def scaled(deck: Deck, factor: Fraction) -> Deck:
    """The deck with each entry flow and each feed times a factor, to the nearest, a half up."""
    def times(flow: int) -> int:
        product = factor * flow
        return (2 * product.numerator + product.denominator) // (2 * product.denominator)

    links = tuple(replace(link, entry=times(link.entry),
                          feeds=tuple(replace(feed, flow=times(feed.flow)) for feed in link.feeds))
                  for link in deck.links)
    return replace(deck, links=links)


def fits(deck: Deck) -> bool:
    """Whether every flow of a deck is one that a card takes."""
    return all(flow <= MOST_FLOW for link in deck.links for flow in (link.entry, *(feed.flow for feed in link.feeds)))


def read_factor(word: str) -> Fraction:
    """A factor of 0.01 to 3 with at most two decimals."""
    whole, _, part = word.partition(".")
    if not (whole.isascii() and whole.isdecimal() and len(whole) <= 1 and len(part) <= 2
            and (part == "" or (part.isascii() and part.isdecimal()))):
        raise Fault(f"--factors {word}: a factor is 0.01 to 3 with at most two decimals")
    factor = Fraction(word)
    if not Fraction(1, 100) <= factor <= 3:
        raise Fault(f"--factors {word}: a factor is 0.01 to 3")
    return factor


def stressed(deck: Deck, factors: Sequence[Fraction], workers: int, program: Optional[str],
             tell: Callable[[str], None]) -> List[Row]:
    """A row for each factor; one with which a flow passes 9,999 is told and left out. That a deck can't be climbed is
    told too."""
    rows: List[Row] = []
    if deck.climb_plan is None:
        tell("the deck has no STEPS card, and so no moves to climb by: the plan is kept, and not climbed anew")
    for factor in factors:
        more = scaled(deck, factor)
        if not fits(more):
            tell(f"at {float(factor):g} a flow passes {MOST_FLOW:,} vehicles an hour, and so it is left out")
            continue
        with Session(more, workers, program) as session:
            standing = session.figures()
        climbed = None
        if deck.climb_plan:
            with Session(climb_to_local(more, workers, program, tell)[0], workers, program) as session:
                climbed = session.figures()
        rows.append(Row(factor, standing, climbed))
    return rows


def reserve(greatest: int) -> Optional[int]:
    """The reserve of a junction in per cent: 900 over its greatest SATURATION less 1, down; none where that is 0."""
    return None if greatest == 0 else 100 * PRACTICAL // greatest - 100


def reserves(deck: Deck, figures: Figures) -> List[Tuple[int, int, Optional[int]]]:
    """Of each junction its number, its greatest SATURATION, and its reserve."""
    rows = []
    for node in deck.nodes:
        greatest = max((figures.link(link.number).raw["SATURATION"] for link in deck.links if link.node == node.number),
                       default=0)
        rows.append((node.number, greatest, reserve(greatest)))
    return rows
