"""A plan for each row of periods: deck, best, filed in FOLDER2/NAME; and FOLDER2/day.html and day.csv.

Only what a changed sheet touches is made again. A plan is turned as a whole toward that of the period before, where
both have one cycle, so that signals move least at the change.
"""

import argparse
import os

from ..best import add_wanted, wanted_of
from ..day import Day, day_csv, day_html, made_day
from ..filing.writing import Asked
from ..program import Program
from ..sheets import read_sheets
from ..terminal import add_workers, progress, tell
from .file import add_signature


def add_arguments(parser: argparse.ArgumentParser) -> None:
    """The sheets, the folder, and the words of best."""
    parser.add_argument("folder", metavar="FOLDER", help="the sheets")
    parser.add_argument("-o", dest="out", metavar="FOLDER2", required=True, help="where the plans are filed")
    add_signature(parser)
    parser.add_argument("--one-cycle", action="store_true", help="one cycle time for all periods, out of --cycles")
    add_wanted(parser)
    add_workers(parser)


def run(args: argparse.Namespace) -> int:
    """Makes the plans and the tables of the day."""
    asked = Asked(args.title, args.by, args.date, args.folder)
    day = Day(read_sheets(args.folder), Program(args.program), wanted_of(args), asked, tell, progress)
    plans = made_day(day, args.out, args.one_cycle)
    for name, text in (("day.csv", day_csv(plans)), ("day.html", day_html(plans, args.title))):
        with open(os.path.join(args.out, name), "w", encoding="utf-8", newline="") as file:
            file.write(text)
    return 0
