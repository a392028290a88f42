"""A plan in Eclipse SUMO.

`look` writes a deck as a town that sumo-gui opens. `drive` drives two plans with the same cars, and writes a table: the
deck's and the one at the end of the program's climb on it; or, with --against, those of two decks of one demand.
"""

import argparse
import os
import tempfile
from typing import List

from ..best import between
from ..deck import Deck
from ..faults import Fault
from ..session import Session
from ..sumo.figures import PlanFigures, read_plan
from ..sumo.giving import as_drawn
from ..sumo.greens import check_greens
from ..sumo.look import CONFIGURATION, last_plan, write_town
from ..sumo.plans import Plan, check_same_demand, table
from ..sumo.roads import check_carried
from ..terminal import add_program, add_workers, read_deck_file, read_file, tell, write
from ..text import decoded


def add_arguments(parser: argparse.ArgumentParser) -> None:
    """The arguments of the word."""
    words = parser.add_subparsers(dest="what", metavar="look|drive", required=True)
    look = words.add_parser("look", help="write a deck as a town for sumo-gui")
    look.add_argument("deck", metavar="DECK")
    look.add_argument("folder", metavar="DIR")
    look.add_argument("--plan", metavar="REPORT", help="take offsets and changes from the last TIMING of this report")
    look.add_argument("--seed", type=between(0, 999_999_999), default=1, help="the seed of the cars (1)")
    drive = words.add_parser("drive", help="drive two plans with the same cars")
    drive.add_argument("deck", metavar="DECK")
    drive.add_argument("--against", metavar="DECK", help="drive the plan of this deck instead of the climbed one")
    drive.add_argument("--seeds", type=between(1, 1000), default=3, metavar="N", help="how many seeds (3)")
    drive.add_argument("--jobs", type=between(1, 256), default=2, metavar="N", help="runs at once (2)")
    drive.add_argument("--keep", metavar="DIR", help="leave the files of SUMO there")
    add_workers(drive)
    for word in (look, drive):
        word.add_argument("--without-yield", action="store_true", help="leave the decks' give-way rules out")
        add_program(word)


def run(args: argparse.Namespace) -> int:
    """Runs the word."""
    return look(args) if args.what == "look" else drive(args)


def figures_of(deck: Deck, args: argparse.Namespace) -> PlanFigures:
    """The program's figures of a deck."""
    with Session(deck, 1, args.program) as session:
        return read_plan(session)


def read(path: str, args: argparse.Namespace) -> Deck:
    """The deck of a file, without its give-way rules where that is wished, and without those that SUMO can't drive."""
    deck = read_deck_file(path, args)
    return deck.without_give_way() if args.without_yield else as_drawn(deck, lambda said: tell(f"{path}: {said}"))


def look(args: argparse.Namespace) -> int:
    """Writes a town."""
    deck = read(args.deck, args)
    deck = deck.with_plan(last_plan(decoded(read_file(args.plan)))) if args.plan else deck
    headway = write_town(deck, figures_of(deck, args), args.folder, args.seed)
    write(f"the greens of all {len(deck.links)} links are the program's; cars stay {headway:.2f} s behind one another\n"
          f"sumo-gui -c {os.path.join(args.folder, CONFIGURATION)}\n")
    return 0


def plans_of(args: argparse.Namespace) -> List[Plan]:
    """The two plans that are to be driven; nothing is driven before the greens agree."""
    deck = read(args.deck, args)
    check_carried(deck)
    if args.against:
        other = read(args.against, args)
        check_carried(other)
        check_same_demand(deck, other)
        names = [os.path.splitext(os.path.basename(path))[0] for path in (args.deck, args.against)]
    else:
        if deck.climb_plan is None:
            raise Fault(f"{args.deck} has no STEPS card, and so no climb: --against names a second plan")
        with Session(deck, args.workers, args.program) as session:
            session.climb().run()
            other, names = session.deck(), ["before", "after"]
    plans = [Plan(name, it, figures_of(it, args), []) for name, it in zip(names, (deck, other))]
    for plan in plans:
        check_greens(plan.deck, plan.figures)
    return plans


def drive(args: argparse.Namespace) -> int:
    """Drives two plans, and writes the table."""
    plans = plans_of(args)
    with tempfile.TemporaryDirectory() as passing:
        folder = args.keep or passing
        os.makedirs(folder, exist_ok=True)
        lines = table(plans, folder, range(1, args.seeds + 1), args.jobs)
    write("\n".join(lines) + "\n")
    return 0
