#!/usr/bin/env python3
"""back.py NET ROUTES DECK..: plans of decks that were made of a network of SUMO, driven on that network itself.

The decks come from the sheets that `./plan from-sumo NET` wrote, and have the signals' ids as names of their nodes. The
cars are those of ROUTES. The table has for each plan the time that a trip loses, by waiting to enter too.
"""

import os
import statistics
import sys
import tempfile
import xml.etree.ElementTree as ElementTree
from typing import List, Tuple

sys.path.insert(0, os.path.join(os.path.dirname(os.path.realpath(__file__)), "..", "..", "python"))

from transyt.deck import Deck, Node, read_deck  # noqa: E402
from transyt.from_sumo.stages import GREENS, exact  # noqa: E402
from transyt.from_sumo.town import Junction, Town, town_of  # noqa: E402
from transyt.sumo.greens import TICKS, YELLOW, phases, stage_names  # noqa: E402
from transyt.sumo.netfile import Logic, read_net  # noqa: E402
from transyt.sumo.plans import row, sumo_version  # noqa: E402
from transyt.sumo.tools import run_tool, write_root  # noqa: E402

SEEDS = (1, 2, 3)


def state_at(logic: Logic, second: float) -> str:
    """The state of a program at a second of its own."""
    begin = 0.0
    for phase in logic.phases:
        begin += phase.duration
        if second < begin:
            return phase.state
    return logic.phases[-1].state


def stage_states(junction: Junction) -> List[str]:
    """The state that each stage of a junction has at the beginning of its green."""
    logic = junction.program.logic
    cycle = sum(exact(phase.duration) for phase in logic.phases)
    return [state_at(logic, float((stage.begin + stage.intergreen) % cycle)) for stage in junction.program.stages]


def signal(states: List[str], place: int, deck: Deck, node: Node) -> str:
    """The signal of a place at each half second: its green in a stage, and on to the next where it is green there."""
    shown = []
    for name in stage_names(node, deck.frame):
        stage = int(name.split(" ")[-1]) - 1
        now, before = states[stage][place], states[stage - 1][place]
        shown.append("r" if now not in GREENS or name.startswith("to ") and before not in GREENS else now)

    def aspect(tick: int) -> str:
        if shown[tick] in GREENS:
            return shown[tick]
        return "y" if any(shown[tick - past] in GREENS for past in range(1, YELLOW * TICKS + 1)) else "r"

    return "".join(aspect(tick) for tick in range(len(shown)))


def logic_of(deck: Deck, junction: Junction) -> ElementTree.Element:
    """The program of a junction by the plan of a deck."""
    name = junction.program.logic.name
    node = next(deck.node(number) for number, called in deck.names.nodes.items() if called == name)
    states = stage_states(junction)
    signals = [signal(states, place, deck, node) for place in range(len(states[0]))]
    logic = ElementTree.Element("tlLogic", id=name, type="static", programID="plan", offset="0")
    for duration, state, stage in phases(signals, stage_names(node, deck.frame)):
        ElementTree.SubElement(logic, "phase", duration=f"{duration:g}", state=state, name=stage)
    return logic


def loses(net: str, routes: str, town: Town, deck: Deck) -> Tuple[float, float]:
    """Seconds that a trip loses on its way and by waiting to enter, as a mean of some seeds."""
    with tempfile.TemporaryDirectory() as folder:
        root = ElementTree.Element("additional")
        root.extend([logic_of(deck, junction) for junction in town.junctions])
        write_root(root, os.path.join(folder, "plan.add.xml"))
        found = []
        for seed in SEEDS:
            run_tool(["sumo", "--net-file", os.path.abspath(net), "--route-files", os.path.abspath(routes),
                      "--additional-files", "plan.add.xml", "--seed", str(seed), "--statistic-output", "out.xml",
                      "--no-step-log", "true", "--no-warnings", "true", "--time-to-teleport", "-1", "--end", "7200",
                      "--duration-log.statistics", "true", "--xml-validation", "never"], folder)
            trips = ElementTree.parse(os.path.join(folder, "out.xml")).getroot().find("vehicleTripStatistics")
            found.append((float(trips.get("timeLoss", 0)), float(trips.get("departDelay", 0))) if trips is not None
                         else (0.0, 0.0))
    return statistics.fmean(one for one, _ in found), statistics.fmean(one for _, one in found)


def main(net: str, routes: str, *paths: str) -> None:
    """Writes the table."""
    town = town_of(read_net(net), None, None, lambda _: None)
    print(row(["plan", "s lost on the way, a trip", "s lost before it", "both, of the first plan"]))
    print(row([":--", "--:", "--:", "--:"]))
    first = 0.0
    for path in paths:
        with open(path, encoding="utf-8") as file:
            lost, waited = loses(net, routes, town, read_deck(file.read()))
        first = first or lost + waited
        print(row([os.path.splitext(os.path.basename(path))[0], f"{lost:.1f}", f"{waited:.1f}",
                   f"{(lost + waited) / first:.3f}"]), flush=True)
    print(f"\n{sumo_version()}, seeds {SEEDS[0]} to {SEEDS[-1]}.")


if __name__ == "__main__":
    main(*sys.argv[1:])
