"""Two plans link by link: seconds a vehicle, saturation, queue, and the differences, greatest loss first."""

import argparse

from ..comparing import as_csv, as_text, compared
from ..html import document, text
from ..page import comparison_part
from ..terminal import add_workers, open_session, write
from ..text import escaped


def add_arguments(parser: argparse.ArgumentParser) -> None:
    """The two decks, and the form."""
    parser.add_argument("deck", metavar="DECK")
    parser.add_argument("other", metavar="DECK2")
    form = parser.add_mutually_exclusive_group()
    form.add_argument("--html", action="store_true", help="as a page")
    form.add_argument("--csv", action="store_true", help="as a table for a spreadsheet")
    add_workers(parser)


def run(args: argparse.Namespace) -> int:
    """Writes the comparison."""
    with open_session(args.deck, args) as one, open_session(args.other, args) as other:
        comparison = compared(one, other)
        town = one.deck().names.town or "Two plans"
    if args.csv:
        write(as_csv(comparison))
    elif args.html:
        write(document(town, f"<h1>{text(town)}</h1>\n{comparison_part(comparison)}"))
    else:
        write(as_text(comparison, escaped))
    return 0
