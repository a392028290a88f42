#!/usr/bin/env python3
"""tables.py [NAME..]: the tables of README.md, gives.md and ten.md anew, or those that are named.

In README.md a table stands between two marks with its name. Most are what `./plan sumo drive` writes to the decks that
are named here; `overview` is put together from the others, each time. All of them take some ten minutes of processor
time.
"""

import os
import subprocess
import sys
import tempfile
from dataclasses import dataclass
from typing import List, Optional, Sequence, Tuple

HERE = os.path.dirname(os.path.realpath(__file__))
ROOT = os.path.dirname(os.path.dirname(HERE))
README = os.path.join(HERE, "README.md")
sys.path.insert(0, os.path.join(ROOT, "python"))

from transyt.program import Program  # noqa: E402
from transyt.rows import read_rows  # noqa: E402


@dataclass(frozen=True)
class Drive:
    """A drive: what it is of, its deck, at two cycle times where they are told, its seeds, and whether README.md has
    the table of links too."""

    title: str
    deck: str
    cycles: Optional[Tuple[int, int]] = None
    seeds: int = 3
    whole: bool = True


DRIVES = {
    "town": Drive("the town, after / before a climb", "examples/town.deck"),
    "arterial": Drive("the arterial, after / before a climb", "examples/arterial.deck"),
    "pockets": Drive("`pockets.deck`, after / before a climb", "examples/sumo/pockets.deck"),
    "cycles": Drive("`cycles.deck`, 100 s / 60 s", "examples/cycles.deck", (60, 100), 10),
    "busy-90": Drive("`busy.deck`, 90 s / 60 s", "examples/sumo/busy.deck", (60, 90), whole=False),
    "busy": Drive("`busy.deck`, 120 s / 60 s", "examples/sumo/busy.deck", (60, 120)),
}
TEN = "the map of ten signals, after / before `best`"
HEADS = ("| | delay by the program, second plan / first | in SUMO | in SUMO, by seed | correlation over the links, "
         "seconds a vehicle: first plan, second | SUMO / program |")


def at_cycle(path: str, cycle: int, folder: str) -> str:
    """The file of a deck at another cycle time, climbed on, as `./transyt cycles 2 60 60 1` writes it."""
    with open(os.path.join(ROOT, path), encoding="utf-8") as file:
        deck = read_rows(Program().answer(["cycles", 2, cycle, cycle, 1], file.read())).deck
    if deck is None:
        sys.exit(f"{path} can't have a cycle of {cycle} s")
    named = os.path.join(folder, f"cycle-{cycle}.deck")
    with open(named, "w", encoding="utf-8") as file:
        file.write(str(deck))
    return named


def written(*words: str) -> str:
    """What a command writes to standard output."""
    done = subprocess.run(words, cwd=ROOT, stdout=subprocess.PIPE, text=True)
    if done.returncode:
        sys.exit(f"{' '.join(words)} ended with {done.returncode}")
    return done.stdout


def driven(drive: Drive) -> str:
    """The table of a drive."""
    with tempfile.TemporaryDirectory() as folder:
        words = [drive.deck]
        if drive.cycles:
            one, other = (at_cycle(drive.deck, cycle, folder) for cycle in drive.cycles)
            words = [one, "--against", other]
        table = written(os.path.join(ROOT, "plan"), "sumo", "drive", *words, "--seeds", str(drive.seeds))
    return table if drive.whole else totals_of(table)


def totals_of(table: str) -> str:
    """The first part of a table."""
    return table.split("\n\n")[0] + "\n"


def put(name: str, text: str) -> None:
    """Puts a table between its marks in README.md."""
    before, _, after = parts(name)
    with open(README, "w", encoding="utf-8") as file:
        file.write(f"{before}<!-- {name} -->\n\n{text}\n<!-- end of {name} -->{after}")


def parts(name: str) -> Tuple[str, str, str]:
    """README.md before the marks of a table, between them, and after them."""
    with open(README, encoding="utf-8") as file:
        before, rest = file.read().split(f"<!-- {name} -->\n", 1)
    table, after = rest.split(f"<!-- end of {name} -->", 1)
    return before, table.strip("\n") + "\n", after


def overview() -> str:
    """The table that has a row for each of the others."""
    titles = [(name, drive.title) for name, drive in DRIVES.items()] + [("ten", TEN)]
    lines = [HEADS, "|:--|--:|--:|--:|--:|--:|"]
    for name, title in titles:
        rows = {cells[0]: cells for cells in map(cells_of, parts(name)[1].split("\n")) if len(cells) == 4}
        if rows:
            driven_ratio, by_seed = rows["delay in SUMO, vehicle-hours an hour"][3].split(", from ")
            together = rows["correlation over the links, seconds a vehicle"]
            shares = rows["SUMO / program"]
            programs = rows["delay by the program, vehicle-hours an hour"][3]
            lines.append(f"| {title} | {programs} | {driven_ratio} | {by_seed.replace(' by seed', '')} | "
                         f"{together[1]}, {together[2]} | {shares[1]}, {shares[2]} |")
    return "\n".join(lines) + "\n"


def cells_of(line: str) -> List[str]:
    """The cells of a line of a table."""
    return [cell.strip() for cell in line.strip("|").split("|")]


def store(name: str, text: str) -> None:
    """Writes a table into a file of its own beside this script."""
    with open(os.path.join(HERE, f"{name}.md"), "w", encoding="utf-8") as file:
        file.write(text)


def make(name: str) -> None:
    """Makes a table anew."""
    if name in DRIVES:
        put(name, driven(DRIVES[name]))
    elif name == "gives":
        store("gives", written(sys.executable, os.path.join(HERE, "gives.py"), "3"))
    elif name == "ten":
        with tempfile.TemporaryDirectory() as folder:
            table = written(os.path.join(HERE, "ten.sh"), os.path.join(folder, "ten"), "3")
        store("ten", table)
        put("ten", totals_of(table))
        put("back", table[table.index("| plan |"):])
    else:
        sys.exit(f"there is no table {name}; there are {', '.join([*DRIVES, 'ten', 'gives'])}")
    put("overview", overview())
    print(f"{name}: done", flush=True)


def main(names: Sequence[str]) -> None:
    """Makes tables anew."""
    for name in names or [*DRIVES, "ten", "gives"]:
        make(name)


if __name__ == "__main__":
    main(sys.argv[1:])
