"""Files a plan: a folder with the deck, the program's answer, the certificate, the controller's sheet and the page.

A plan to which audit doesn't say YES is refused, but for --unfinished. The folder is checked before it is there, as
`./plan check FOLDER` does later: sheets that don't give this deck are told, and nothing is written.
"""

import argparse

from ..filing.checking import hold
from ..filing.folder import DECK, sum_of
from ..filing.writing import Asked, made_files, write_folder
from ..program import Program
from ..terminal import read_deck_file, tell


def add_arguments(parser: argparse.ArgumentParser) -> None:
    """The deck, the folder, and what the plan says of itself."""
    parser.add_argument("deck", metavar="DECK", help="a deck's file, - for standard input")
    parser.add_argument("-o", dest="folder", metavar="FOLDER", required=True, help="a folder that isn't there yet")
    add_signature(parser)
    parser.add_argument("--sheets", metavar="FOLDER2", help="the sheets of which the deck was made")
    parser.add_argument("--unfinished", action="store_true", help="file a plan that a listed move still lowers")


def add_signature(parser: argparse.ArgumentParser) -> None:
    """Title, name and date."""
    parser.add_argument("--title", metavar="T", required=True, help="what the plan is of")
    parser.add_argument("--by", metavar="NAME", required=True, help="who signs it")
    parser.add_argument("--date", metavar="YYYY-MM-DD", required=True, help="when")


def run(args: argparse.Namespace) -> int:
    """Makes all files, and writes the folder."""
    deck = read_deck_file(args.deck, args)
    asked = Asked(args.title, args.by, args.date, args.sheets, args.unfinished)
    program = Program(args.program)
    files = made_files(deck, program, asked)
    write_folder(args.folder, files, lambda path: hold(path, program))
    tell(f"{args.folder}: {len(files)} files; SHA-256 of {DECK}: {sum_of(files[DECK])}")
    return 0
