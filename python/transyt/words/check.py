"""Checks a filed plan: a line a thing, and at last HOLDS with the SHA-256 of plan.deck, or DOES NOT HOLD.

It finds that the parts of a folder don't belong together. That a folder was made anew as a whole it can't find: compare
the SHA-256 with that on the paper that was signed.
"""

import argparse

from ..deck import read_deck
from ..edits import moves
from ..faults import Fault
from ..filing.checking import Check
from ..filing.folder import DECK, read_filed, sum_of
from ..program import Program
from ..terminal import progress, tell, write
from ..text import decoded, escaped


PAPER = "a folder made anew as a whole isn't found here: compare the sum below with that on the signed paper"


def add_arguments(parser: argparse.ArgumentParser) -> None:
    """The folder."""
    parser.add_argument("folder", metavar="FOLDER")
    parser.add_argument("--same-program", action="store_true", help="fail where another program is here than was filed")
    parser.add_argument("--again", action="store_true", help="without the program, by examples/check/twin.py")


def tell_of_moves(data: bytes) -> None:
    """Tells how many moves the witness has before it."""
    try:
        count = len(moves(read_deck(data)))
    except Fault:
        return  # which the check tells
    tell(f"plan check: {count} moves are worked out from nothing, for the report and once more for audit")


def run(args: argparse.Namespace) -> int:
    """Checks, and ends with 1 where something doesn't hold."""
    program = None if args.again else Program(args.program)
    check = Check(args.folder, program, args.same_program, args.again, progress)
    data = check.files.get(DECK, b"")
    if args.again:
        tell_of_moves(data)
    findings = check.run()
    for finding in findings:
        write(f"{'holds' if finding.holds else 'DOES NOT HOLD'}: {escaped(finding.sentence)}\n")
    if not all(finding.holds for finding in findings):
        write("DOES NOT HOLD\n")
        return 1
    finished = read_filed(decoded(data)).finished
    write(f"{PAPER}\n")
    write(f"{'HOLDS' if finished else 'HOLDS, UNFINISHED'} {sum_of(data)}\n")
    return 0
