"""Count sheets: tables in a folder or a workbook, read, judged, and made into a deck.

    sheets = read_sheets("town")            # Sheets; raises Faults with every fault of every table
    made = make_deck(sheets, All())         # a Made: the deck, what is told of it, the table of counted and arriving

What is told is a sentence each; nothing here runs the program. `checking` has that.
"""

from .building import Made, make_deck
from .faults import Faults
from .hour import All, Peak, Window, window_of
from .model import Sheets
from .reading import read_sheets

__all__ = ["All", "Faults", "Made", "Peak", "Sheets", "Window", "make_deck", "read_sheets", "window_of"]
