"""What a page shows of its plan, in the page's order: figures with their places, and texts out of the deck.

Another version of the package may say all else in other words; these stand on its page as they do here.
"""

import re
from itertools import zip_longest
from typing import List, Optional, Sequence, Tuple

from ..html import FIGURE
from .folder import DECK, REPORT

PICTURE = re.compile(r"<svg\b.*?</svg>", re.DOTALL)
# The page's title, names, sums and the cells of a table, which name their row; and the mark of an unfinished plan.
TEXT = re.compile(r"<(?:title|bdi|code|td)\b[^>]*>([^<]+)|(UNFINISHED)")

Figure = Sequence[str]  # raw value, place, as it is shown


def wrong_shown(found: str, wanted: str) -> Optional[str]:
    """What a page shows of its plan otherwise than the page that is wanted; None where nothing is."""
    return (wrong_figure(FIGURE.findall(found), FIGURE.findall(wanted))
            or wrong_text(texts_of(found), texts_of(wanted)))


def wrong_figure(figures: Sequence[Figure], right: Sequence[Figure]) -> Optional[str]:
    """The first figure that isn't the right one at its place, in a sentence."""
    for one, other in zip_longest(figures, right):
        if one is None:
            return f"{other[1]} isn't on the page, or not as often as in {REPORT}"
        if other is None:
            return f"{one[1]} is on the page once more than it belongs there"
        if tuple(one) != tuple(other):
            there = f"{other[0]}, {other[2]}," if one[1] == other[1] else f"{other[1]} {other[0]}, {other[2]},"
            return f"{one[1]} is {one[0]}, shown as {one[2]}, on the page, and {there} by {REPORT} at this place"
    return None


def wrong_text(texts: Sequence[str], right: Sequence[str]) -> Optional[str]:
    """The first text that isn't the right one, in a sentence."""
    for one, other in zip_longest(texts, right):
        if one != other:
            return f"{one or 'nothing'} stands on the page where {other or 'nothing'} belongs, by {DECK}"
    return None


def texts_of(page: str) -> List[str]:
    """The texts out of the deck, outside of pictures."""
    found: List[Tuple[str, str]] = TEXT.findall(PICTURE.sub("", page))
    return [one or other for one, other in found]
