#!/usr/bin/env python3
"""worth.py [--jobs N] [NETWORK..]: what offsets of a lower index are worth in SUMO, and those of its tlsCoordinator.

python3 examples/sumo/worth.py > examples/sumo/worth.md

The greens are the deck's own or those of `equisat`, and stay: the least green of each stage is its green, so a climb
moves offsets alone. Each network is driven by four plans, with the same cars and the same seeds: the deck's offsets;
those of tlsCoordinator.py, which reads that network and the cars that are driven, and the deck's where it gives none;
and two of one climb, that of the best of some starts: where its index was nearest to 5 in 100 above its end, and its
end. NETWORK, from 1, names those that are driven; all of them take some ten minutes. `--jobs` is how many runs are made
at once (2).
"""

import argparse
import os
import statistics
import sys
import tempfile
import xml.etree.ElementTree as ElementTree
from concurrent.futures import ThreadPoolExecutor
from dataclasses import dataclass, replace
from typing import Dict, List, NamedTuple, Optional, Sequence, Tuple

ROOT = os.path.dirname(os.path.dirname(os.path.dirname(os.path.realpath(__file__))))
sys.path.insert(0, os.path.join(ROOT, "python"))

from transyt.deck import ClimbPlan, Deck, Link, Node, read_deck  # noqa: E402
from transyt.program import Program  # noqa: E402
from transyt.rows import Row, Rows, read_rows  # noqa: E402
from transyt.sumo.calibrate import calibrate  # noqa: E402
from transyt.sumo.drive import Measures, Run, drive, put_signals, write_signals  # noqa: E402
from transyt.sumo.giving import as_drawn  # noqa: E402
from transyt.sumo.network import Net, build  # noqa: E402
from transyt.sumo.netfile import read_root  # noqa: E402
from transyt.sumo.plans import row, sumo_version, write_all_cars  # noqa: E402
from transyt.sumo.tools import run_tool, write_xml  # noqa: E402
from transyt.terminal import progress  # noqa: E402

TOWN = "town.net.xml"
SEEDS = (1, 2, 3)
STARTS, BUDGET = 30, 100_000
ABOVE = 1.05  # of the best index, where a climb is looked at before its end
PLANS = ("the deck's offsets", "`tlsCoordinator`", "the climb, 5 in 100 above its end", "the end of the climb")
BEFORE, COORDINATED, NEAR, BEST = PLANS
OWN, EQUAL = "the deck's", "`equisat`"
ROAD, GRID, FULL = "road", "grid", "near saturation"


class Network(NamedTuple):
    """A network: its kind, whose greens, its deck's file or the words that make it, and how full it is made, if it is.

    `full` is the degree of saturation that its fullest junction is to have by `equisat`: all flows are multiplied.
    """

    kind: str
    greens: str
    deck: Tuple[object, ...]
    full: Optional[float] = None

    @property
    def name(self) -> str:
        """As the tables have it."""
        return f"{self.kind}: `{' '.join(map(str, self.deck))}`{f' at {self.full:.2f}' if self.full else ''}"

    def read(self) -> Deck:
        """The deck with its greens, which fill their stages."""
        if len(self.deck) == 1:
            with open(os.path.join(ROOT, str(self.deck[0])), encoding="utf-8") as file:
                deck = read_deck(file.read())
        else:
            deck = read_deck("\n".join(Program().answer(self.deck)) + "\n")
        deck = as_drawn(deck, lambda _: None)
        if self.full:
            deck = busier(deck, self.full / fullest(deck))
        deck = Program().balanced(deck) if self.greens == EQUAL else deck
        sizes = deck.climb_plan.sizes if deck.climb_plan else (1, 8, 20)
        nodes = tuple(with_full_stages(node, deck.frame.step_count) for node in deck.nodes)
        return replace(deck, nodes=nodes, climb_plan=ClimbPlan(BUDGET, sizes))


NETWORKS = (
    Network(ROAD, OWN, ("examples/arterial.deck",)),
    Network(ROAD, EQUAL, ("examples/arterial.deck",)),
    Network(ROAD, EQUAL, ("make", 1, 6)),
    Network(ROAD, EQUAL, ("make", 2, 6)),
    Network(GRID, OWN, ("examples/town.deck",)),
    Network(GRID, EQUAL, ("examples/town.deck",)),
    Network(GRID, EQUAL, ("make", 1, 12)),
    Network(FULL, EQUAL, ("examples/town.deck",), 0.9),
    Network(FULL, EQUAL, ("make", 1, 12), 0.95),
)


@dataclass(frozen=True)
class Driven:
    """A plan of a network: its index, where the program has one, and SUMO's measures with each seed."""

    index: float
    runs: Sequence[Measures]

    @property
    def delay(self) -> float:
        """SUMO's vehicle-hours of delay an hour, as a mean of the seeds."""
        return statistics.fmean(run.delay for run in self.runs)

    def ratios(self, before: "Driven") -> List[float]:
        """The delay against that of another plan, of each seed."""
        return [one.delay / other.delay for one, other in zip(self.runs, before.runs)]


def busier(deck: Deck, times: float) -> Deck:
    """A deck with its flows multiplied."""
    def link_of(link: Link) -> Link:
        feeds = tuple(replace(feed, flow=round(feed.flow * times)) for feed in link.feeds)
        return replace(link, entry=round(link.entry * times), feeds=feeds)

    return replace(deck, links=tuple(map(link_of, deck.links)))


def with_full_stages(node: Node, step_count: int) -> Node:
    """A node at which each stage's least green is its green."""
    stages = tuple(replace(stage, least=node.length(place, step_count) - stage.intergreen)
                   for place, stage in enumerate(node.stages, 1))
    return replace(node, stages=stages)


def without_offsets(deck: Deck) -> Deck:
    """The deck with all offsets 0."""
    return replace(deck, nodes=tuple(replace(node, offset=0) for node in deck.nodes))


def fullest(deck: Deck) -> float:
    """The degree of saturation of the fullest junction, by `equisat`."""
    return max(node.top / node.base for node in Program().balance(deck))


def index_of(deck: Deck) -> int:
    """The index of a deck as it stands."""
    lines = Program().answer(["run"], f"{deck}INDEX\n")
    return int(next(line for line in reversed(lines) if line.startswith("INDEX ")).split(" ")[1])


def climbed(deck: Deck, first: int, count: int, budget: int = BUDGET) -> Rows:
    """What some starts come to with a budget."""
    wanted = replace(deck, climb_plan=replace(deck.climb_plan, budget=budget) if deck.climb_plan else None)
    return read_rows(Program().answer(["starts", 1, 1, count, first], str(wanted)))


def two_of_a_climb(deck: Deck) -> Tuple[Rows, Rows]:
    """Of the best of the starts: where its index was nearest to ABOVE times that of its end, and its end."""
    rows = climbed(deck, 0, STARTS).rows
    best = min(rows, key=lambda one: (index_in(one), one.number))
    low, high = 1, best.looked
    while low < high:
        middle = (low + high) // 2
        if climbed(deck, best.number, 1, middle).index <= ABOVE * index_in(best):
            high = middle
        else:
            low = middle + 1
    near = (climbed(deck, best.number, 1, budget) for budget in (max(1, low - 1), low))
    return min(near, key=lambda one: abs(one.index - ABOVE * index_in(best))), climbed(deck, best.number, 1)


def index_in(one: Row) -> int:
    """The index of a row that was climbed on."""
    return one.index or 0


def coordinate(deck: Deck, folder: str, seed: int) -> str:
    """Has tlsCoordinator give offsets for the cars of a seed, adds the deck's where it gives none, tells their file."""
    tools = os.path.join(os.environ.get("SUMO_HOME", "/usr/share/sumo"), "tools")
    given, name = f"given{seed}.add.xml", f"coordinated{seed}.add.xml"
    run_tool([sys.executable, os.path.join(tools, "tlsCoordinator.py"), "--net-file", TOWN,
              "--route-file", cars_of(seed), "--output-file", given], folder)
    offsets = held(deck, read_root(os.path.join(folder, given)))
    write_xml(os.path.join(folder, name), "additional", (
        ("tlLogic", {"id": junction, "programID": "0", "offset": f"{offset:.2f}"})
        for junction, offset in offsets.items()))
    return name


def held(deck: Deck, given: ElementTree.Element) -> Dict[str, float]:
    """The offset of each junction in seconds: the one that is given, and the deck's where none is."""
    offsets = {f"node{node.number}": node.offset * deck.frame.step_seconds for node in deck.nodes}
    offsets.update({logic.attrib["id"]: float(logic.attrib["offset"]) for logic in given.iterfind("tlLogic")})
    return offsets


def cars_of(seed: int) -> str:
    """The file of a seed's cars."""
    return f"cars-{seed}.rou.xml"


def drive_all(decks: Dict[str, Deck], folder: str, jobs: int) -> Dict[str, List[Measures]]:
    """Drives the plans of a network, and tlsCoordinator's offsets, each with the cars of each seed."""
    before = decks[BEFORE]
    net: Net = build(before, folder)
    write_all_cars(before, calibrate(before, os.path.join(folder, "calibration")), folder, SEEDS)
    put_signals(without_offsets(before), net, os.path.join(folder, TOWN))
    files = {(COORDINATED, seed): coordinate(before, folder, seed) for seed in SEEDS}
    for place, (name, deck) in enumerate(decks.items()):
        write_signals(deck, net, os.path.join(folder, f"plan{place}.add.xml"))
        files.update({(name, seed): f"plan{place}.add.xml" for seed in SEEDS})

    def one(asked: Tuple[str, int]) -> Measures:
        return drive(before, net, Run(folder, before.frame.cycle, files[asked], cars_of(asked[1]), asked[1]))

    asked = [(name, seed) for name in PLANS for seed in SEEDS]
    with ThreadPoolExecutor(jobs) as pool:
        found = dict(zip(asked, pool.map(one, asked)))
    return {name: [found[name, seed] for seed in SEEDS] for name in PLANS}


def driven(network: Network, jobs: int) -> Dict[str, Driven]:
    """All plans of a network, driven."""
    deck = network.read()
    decks = {BEFORE: deck}
    indices: Dict[str, float] = {BEFORE: index_of(deck), COORDINATED: 0}
    for name, rows in zip((NEAR, BEST), two_of_a_climb(deck)):
        if rows.deck:
            decks[name], indices[name] = rows.deck, rows.index
    with tempfile.TemporaryDirectory() as folder:
        runs = drive_all(decks, folder, jobs)
    return {name: Driven(indices[name], runs[name]) for name in PLANS}


def percent(ratios: Sequence[float], ratio: float) -> List[str]:
    """What a ratio takes off in 100, and the least and most of the seeds."""
    off = [100 * (1 - one) for one in ratios]
    return [f"{100 * (1 - ratio):.1f}", f"{min(off):.1f} to {max(off):.1f}"]


def rows_of(network: Network, plans: Dict[str, Driven]) -> List[str]:
    """The rows of a network in the first table."""
    first, lines = plans[BEFORE], []
    for name, plan in plans.items():
        index = f"{plan.index / 1e6:.2f}" if plan.index else "-"
        off = percent(plan.ratios(first), plan.delay / first.delay) if name != BEFORE else ["", ""]
        lines.append(row([network.name, network.greens, name, index, f"{plan.delay:.2f}", *off]))
    return lines


def last_of(network: Network, plans: Dict[str, Driven]) -> str:
    """The row of a network in the second table."""
    near, best = plans[NEAR], plans[BEST]
    ratios = best.ratios(near)
    return row([network.name, network.greens, f"{fullest(network.read()):.2f}", f"{best.index / near.index:.3f}",
                f"{best.delay / near.delay:.3f}", f"{min(ratios):.3f} to {max(ratios):.3f}"])


def tables(found: Sequence[Tuple[Network, Dict[str, Driven]]]) -> List[str]:
    """The lines of both tables."""
    runs = [run for _, plans in found for plan in plans.values() for run in plan.runs]
    return [
        "Made by `python3 examples/sumo/worth.py > examples/sumo/worth.md`. Delay is SUMO's, in vehicle-hours an hour.",
        "",
        row(["network", "greens", "offsets", "the program's index, millions", "delay", "taken off, in 100",
             "by seed"]),
        row([":--", ":--", ":--", "--:", "--:", "--:", "--:"]),
        *(line for network, plans in found for line in rows_of(network, plans)),
        "", f"The last 5 in 100 of the index: {BEST} / {NEAR}.", "",
        row(["network", "greens", "saturation of its fullest junction, by `equisat`", "the program's index", "delay",
             "delay by seed"]),
        row([":--", ":--", "--:", "--:", "--:", "--:"]),
        *(last_of(network, plans) for network, plans in found),
        "", f"{sumo_version()}, seeds {SEEDS[0]} to {SEEDS[-1]}; {sum(run.collisions for run in runs)} collisions and "
        f"{sum(run.teleports for run in runs)} teleports in {len(runs)} runs; the best of {STARTS} starts."]


def main(words: Sequence[str]) -> None:
    """Writes both tables."""
    parser = argparse.ArgumentParser(description="What offsets of a lower index are worth in SUMO.")
    numbers = range(1, len(NETWORKS) + 1)
    parser.add_argument("networks", nargs="*", type=int, metavar="NETWORK", help=f"1 to {len(NETWORKS)}, or all")
    parser.add_argument("--jobs", type=int, default=2, help="how many runs are made at once (2)")
    asked = parser.parse_args(words)
    if not set(asked.networks) <= set(numbers):
        parser.error(f"the networks are 1 to {len(NETWORKS)}")
    found: List[Tuple[Network, Dict[str, Driven]]] = []
    for number in asked.networks or numbers:
        found.append((NETWORKS[number - 1], driven(NETWORKS[number - 1], asked.jobs)))
        progress(f"{NETWORKS[number - 1].name}: done")
    print("\n".join(tables(found)))


if __name__ == "__main__":
    main(sys.argv[1:])
