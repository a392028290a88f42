"""A plan under one's hands: a page at an address of this machine, to drag offsets and stages, climb, undo and download.

The address ends in a secret: who has it can change the plan on the board. Ctrl-C ends the board.
"""

import argparse
import signal
import threading
import webbrowser
from types import FrameType
from typing import Optional

from ..board.server import serve
from ..board.state import Board
from ..terminal import add_workers, read_deck_file, tell
from .picture import route_of


def add_arguments(parser: argparse.ArgumentParser) -> None:
    """The deck, its road, and whether a browser is opened."""
    parser.add_argument("deck", metavar="DECK", help="a deck's file")
    parser.add_argument("--route", action="append", default=[], metavar="LINK,LINK,..", help="the road that is shown")
    parser.add_argument("--open", action="store_true", help="open the page in a browser")
    add_workers(parser)


def run(args: argparse.Namespace) -> int:
    """Serves the board until it is ended."""
    deck = read_deck_file(args.deck, args)
    board = Board(deck, args.workers, args.program, [route_of(route) for route in args.route])
    ended = threading.Event()

    def end(_number: int, _frame: Optional[FrameType]) -> None:
        ended.set()

    server = None
    try:
        for number in (signal.SIGINT, signal.SIGTERM, signal.SIGHUP):
            signal.signal(number, end)
        server, _ = serve(board)
        tell(f"{server.origin}/#{server.secret}")
        tell("open this address in a browser; Ctrl-C ends the board")
        if args.open:
            if not webbrowser.open(f"{server.origin}/#ticket={server.ticket.text}"):
                tell("no browser could be opened: open the address above in one")
        while not ended.wait(0.2):
            pass
    finally:
        if server is not None:
            server.shutdown()
            server.server_close()
        board.close()
    return 0
