"""A network of SUMO into count sheets: a folder of CSV files that `./plan deck` reads.

NET is a network file, packed by gzip or not; one that netconvert made of a map too. What can't be carried over is told
by its id in SUMO, and so is what was guessed.
"""

import argparse
import os
from typing import List

from ..faults import Fault
from ..from_sumo.counts import read_turns
from ..from_sumo.tables import LEAST_GREEN, check_empty, tables_of, write_tables
from ..from_sumo.town import Town, town_of
from ..sumo.netfile import read_net
from ..terminal import tell

ENDINGS = (".gz", ".xml", ".net")


def add_arguments(parser: argparse.ArgumentParser) -> None:
    """The arguments of the word."""
    parser.add_argument("net", metavar="NET", help="the network, NET.net.xml or NET.net.xml.gz")
    parser.add_argument("-o", dest="folder", metavar="FOLDER", required=True, help="the folder of sheets, new or empty")
    parser.add_argument("--junctions", metavar="ID,..", help="these signals alone, by their ids")
    parser.add_argument("--turns", metavar="FILE", help="counts of turns: intervals of edgeRelation elements")
    parser.add_argument("--cycle", type=int, metavar="SECONDS", help="the cycle, in place of that of most signals")


def run(args: argparse.Namespace) -> int:
    """Writes the sheets of a network."""
    check_empty(args.folder)
    if args.cycle is not None and not 30 <= args.cycle <= 240:
        raise Fault(f"--cycle {args.cycle}: a cycle lasts 30 to 240 s")
    wanted = None if args.junctions is None else [name for name in args.junctions.split(",") if name]
    intervals = read_turns(args.turns) if args.turns else None
    told: List[str] = []
    town = town_of(read_net(args.net), wanted, args.cycle, told.append)
    tables = tables_of(town, town_name(args.net), intervals, told.append)
    write_tables(args.folder, tables)
    for sentence in [*told, *summary(town, args)]:
        tell(sentence)
    return 0


def town_name(path: str) -> str:
    """The name of a network's file without its endings."""
    name = os.path.basename(path)
    while name.endswith(ENDINGS):
        name = os.path.splitext(name)[0]
    return name


def summary(town: Town, args: argparse.Namespace) -> List[str]:
    """What was written, and what was guessed."""
    counts = "the counts are left empty" if args.turns is None else f"the counts are those of {args.turns}"
    return [f"{args.folder}: {len(town.junctions)} junctions, {len(town.numbers)} links, {len(town.ways)} ways; a "
            f"cycle of {town.frame.cycle} s in {town.frame.steps} steps; {counts}",
            f"guessed are saturation flows of 1,800 vehicles an hour and lane, lags of 2 and 3 s, and a least green of "
            f"{LEAST_GREEN} s where a phase has no minDur"]
