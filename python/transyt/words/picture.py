"""A picture of a plan, as SVG on standard output: road, signals, link N, saturation, climb or sensitivity."""

import argparse
from typing import List

from .. import pictures
from ..faults import Fault
from ..terminal import add_workers, open_session, write
from ..text import number_of


def add_arguments(parser: argparse.ArgumentParser) -> None:
    """Which picture, of which deck."""
    parser.add_argument("what", metavar="PICTURE", choices=("road", "signals", "link", "saturation", "climb",
                                                            "sensitivity"),
                        help="road, signals, link, saturation, climb or sensitivity")
    parser.add_argument("words", metavar="[N] DECK", nargs="+", help="the link of the picture link, and the deck")
    parser.add_argument("--route", action="append", default=[], metavar="LINK,LINK,..",
                        help="of road: links, each fed by the one before; may stand twice")
    parser.add_argument("--one-way", action="store_true", help="of road: leave the way back out")
    add_workers(parser)


def route_of(words: str) -> List[int]:
    """The links of a route."""
    numbers = [number_of(word) for word in words.split(",")]
    if None in numbers:
        raise Fault(f"--route {words}: a route is numbers of links, parted by commas")
    return [number or 0 for number in numbers]


def run(args: argparse.Namespace) -> int:
    """Draws the picture and writes it."""
    words = list(args.words)
    link = number_of(words.pop(0)) if args.what == "link" and len(words) == 2 else None
    if len(words) != 1 or (args.what == "link") != (link is not None):
        raise Fault("picture link takes the number of a link and a deck, the others take a deck")
    if args.route and args.what != "road":
        raise Fault(f"--route belongs to road, and not to {args.what}")
    with open_session(words[0], args) as session:
        if args.what == "road":
            text = pictures.road(session, [route_of(route) for route in args.route], not args.one_way)
        elif args.what == "link":
            text = pictures.link(session, link or 0)
        else:
            text = getattr(pictures, args.what)(session)
    write(text)
    return 0
