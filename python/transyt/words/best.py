"""Climbs on a deck as far as it pays, and writes the deck at the end to standard output, names and all.

One after another: cycle times (--cycles), starts, CLIMB until LOCAL, kicks. Ctrl-C leaves the best deck so far.
"""

import argparse
import signal

from ..best import Search, add_wanted, wanted_of
from ..program import Program
from ..terminal import add_workers, progress, read_deck_file, tell, write


def add_arguments(parser: argparse.ArgumentParser) -> None:
    """The arguments of the word."""
    parser.add_argument("deck", metavar="DECK", help="a deck's file, - for standard input")
    add_wanted(parser)
    add_workers(parser)


def run(args: argparse.Namespace) -> int:
    """Runs the word; 130 after Ctrl-C, with the best deck so far."""
    search, status = None, 0
    try:
        wanted = wanted_of(args)
        deck = read_deck_file(args.deck, args)
        search = Search(deck, Program(args.program), wanted, tell, progress)
        search.run()
    except KeyboardInterrupt:
        if search is None:
            raise
        status = 130
    signal.signal(signal.SIGINT, signal.SIG_IGN)  # from here on the deck is written whole
    search.check()
    write(str(search.deck))
    if status:
        tell(f"plan best: stopped; the best deck so far is written, its index is {search.index}")
    return status
