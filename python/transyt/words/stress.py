"""A plan at more and less traffic: the plan kept, and climbed anew, at all flows times each factor."""

import argparse
from typing import List, Optional

from ..deck import Deck
from ..report import Figures
from ..session import Session
from ..stress import FACTORS, read_factor, reserves, stressed
from ..terminal import add_workers, read_deck_file, tell, write
from ..text import escaped


def add_arguments(parser: argparse.ArgumentParser) -> None:
    """The deck and the factors."""
    parser.add_argument("deck", metavar="DECK", help="a deck's file, - for standard input")
    parser.add_argument("--factors", nargs="+", metavar="F", help="0.01 to 3, with at most two decimals "
                                                                  "(0.8 0.9 1.0 1.1 1.2)")
    add_workers(parser)


def cells(figures: Optional[Figures]) -> List[str]:
    """Index, vehicle-hours and fullest link as text."""
    if figures is None:
        return ["-", "-", "-"]
    worst = figures.worst
    full = f"{worst} {figures.link(worst).raw['SATURATION'] / 10:.1f} %" if worst else "-"
    if worst and not figures.link(worst).has_capacity:
        full = f"{worst} no green"
    return [str(figures.index), f"{figures.delay_vehicle_hours:.2f}", full]


def reserve_lines(deck: Deck, figures: Figures) -> List[str]:
    """Each junction's reserve."""
    lines = ["reserve of each junction, to 90 % at its fullest link:"]
    for node, greatest, reserve in reserves(deck, figures):
        name = escaped(deck.names.nodes.get(node, ""))
        told = "none" if reserve is None else "no green" if greatest >= 999_999 else f"{reserve} %"
        lines.append(f"  {node} {name}: {told}".replace(" :", ":"))
    return lines


def run(args: argparse.Namespace) -> int:
    """Writes the table."""
    deck = read_deck_file(args.deck, args)
    factors = [read_factor(word) for word in args.factors] if args.factors else list(FACTORS)
    rows = stressed(deck, factors, args.workers, args.program, tell)
    table = [["flows", "INDEX", "vehicle-hours", "fullest", "climbed: INDEX", "vehicle-hours", "fullest"]]
    table += [[f"{float(row.factor):.2f}", *cells(row.standing), *cells(row.climbed)] for row in rows]
    wide = [max(len(row[column]) for row in table) for column in range(len(table[0]))]
    lines = ["  ".join(cell.rjust(wide[place]) for place, cell in enumerate(row)).rstrip() for row in table] \
        if rows else []
    now = next((row.standing for row in rows if row.factor == 1), None)
    if now is None:
        with Session(deck, args.workers, args.program) as session:
            now = session.figures()
    lines += reserve_lines(deck, now)
    write("".join(line + "\n" for line in lines))
    return 0
