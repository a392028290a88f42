"""A page of a plan on standard output: one file with pictures, figures and tables, to be read and printed.

With AGAINST each figure has the other plan's beside it.
"""

import argparse

from ..page import page
from ..terminal import add_workers, open_session, write


def add_arguments(parser: argparse.ArgumentParser) -> None:
    """The deck, and another to compare with."""
    parser.add_argument("deck", metavar="DECK", help="a deck's file, - for standard input")
    parser.add_argument("against", metavar="AGAINST", nargs="?", help="another plan")
    add_workers(parser)


def run(args: argparse.Namespace) -> int:
    """Writes the page."""
    with open_session(args.deck, args) as session:
        if args.against is None:
            text = page(session)
        else:
            with open_session(args.against, args) as other:
                text = page(session, other)
    write(text)
    return 0
