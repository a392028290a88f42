"""Count sheets into a deck: FOLDER has CSV files with header rows, or is one .xlsx workbook.

Every fault of a sheet is told, and then nothing is written. The deck is run before it is written: the program accepts
it, and its FLOW of each link is the link's count.
"""

import argparse
from typing import List

from ..faults import Fault
from ..sheets import All, Peak, make_deck, read_sheets
from ..sheets.checking import balanced, checked
from ..sheets.flows import ArmBalance
from ..sheets.hour import Asked, read_window
from ..sheets.model import Sheets
from ..sheets.tables import folded
from ..terminal import read_deck_file, tell, write


def add_arguments(parser: argparse.ArgumentParser) -> None:
    """The folder, the hour, and other counts or another plan."""
    parser.add_argument("folder", metavar="FOLDER", help="the sheets: a folder of CSV files, or an .xlsx workbook")
    add_hour(parser)
    parser.add_argument("--counts", metavar="FOLDER2", help="take the counts, and them alone, from there")
    parser.add_argument("--plan", metavar="DECK", help="take cycle, steps, offsets and changes from this deck")


def add_hour(parser: argparse.ArgumentParser) -> None:
    """The arguments that say which hour is taken: all rows where none of them stands."""
    parser.add_argument("--period", metavar="NAME", help="the hour of a row of periods")
    parser.add_argument("--from", dest="begin", metavar="HH:MM", help="the hour begins there; with --for")
    parser.add_argument("--for", dest="minutes", type=int, metavar="MINUTES", help="the hour lasts so long")
    parser.add_argument("--peak", type=int, metavar="MINUTES", help="the fullest hour of so many minutes")


def asked_of(args: argparse.Namespace, sheets: Sheets) -> Asked:
    """The hour that the arguments ask for."""
    ways = [args.period is not None, args.begin is not None or args.minutes is not None, args.peak is not None]
    if sum(ways) > 1:
        raise Fault("--period, --from with --for, and --peak each say which hour is taken: give one of them")
    if args.period is not None:
        period = sheets.periods.get(folded(args.period))
        if period is None:
            there = ", ".join(one.name for one in sheets.periods.values()) or "none"
            raise Fault(f"periods has no {args.period}; it has {there}")
        return read_window(f"{period.begin // 60:02d}:{period.begin % 60:02d}", period.minutes)
    if args.peak is not None:
        if not 1 <= args.peak <= 1_440:
            raise Fault(f"--peak {args.peak}: an hour has 1 to 1,440 minutes")
        return Peak(args.peak)
    if (args.begin is None) != (args.minutes is None):
        raise Fault("--from and --for go together")
    return All() if args.begin is None else read_window(args.begin, args.minutes)


def balance_lines(balances: List[ArmBalance]) -> List[str]:
    """The table of what was counted at each inner arm, what arrives, and what was done, worst first."""
    if not balances:
        return []
    rows = [("arm", "counted", "arrives", "done")]
    rows += [(one.arm, f"{float(one.counted):.1f}", f"{float(one.arriving):.1f}", one.done) for one in balances]
    wide = [max(len(row[column]) for row in rows) for column in range(3)]
    return [f"{row[0]:<{wide[0]}}  {row[1]:>{wide[1]}}  {row[2]:>{wide[2]}}  {row[3]}" for row in rows]


def run(args: argparse.Namespace) -> int:
    """Makes the deck, checks it against the program, and writes it."""
    sheets = read_sheets(args.folder, args.counts)
    plan = read_deck_file(args.plan, args) if args.plan else None
    made = balanced(make_deck(sheets, asked_of(args, sheets), plan), args.program)
    deck, said = checked(made, args.program)
    for line in [*made.told, *said, *balance_lines(list(made.balances))]:
        tell(line)
    write(str(deck))
    return 0
