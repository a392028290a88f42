#!/usr/bin/env python3
"""gives.py [SEEDS]: what a give-way rule takes off in SUMO, beside the percentages of the sheets for an empty field.

A turn across the traffic that comes the other way has a queue for the whole hour, and no signal but its rule. How many
go through with nobody coming, less how many go with so many coming, for each 100 that come, is the percentage of a
YIELD card. Writes the table of gives.md.
"""

import os
import random
import statistics
import sys
import tempfile
from concurrent.futures import ThreadPoolExecutor
from typing import List, Sequence

sys.path.insert(0, os.path.join(os.path.dirname(os.path.realpath(__file__)), "..", "..", "python"))

from transyt.deck import Deck, Frame, GiveWay, Link, Node, Stage  # noqa: E402
from transyt.sheets.building import GIVE_WAY  # noqa: E402
from transyt.sumo.cars import Car, write_cars  # noqa: E402
from transyt.sumo.drive import SECONDS, Run, drive, write_signals  # noqa: E402
from transyt.sumo.network import Net, convert  # noqa: E402
from transyt.sumo.plans import row, sumo_version  # noqa: E402
from transyt.sumo.roads import Map, Road  # noqa: E402

HEADWAY = 1.25  # seconds a car stays behind the one ahead: some 1,800 vehicles an hour and lane
QUEUE = 2_400  # vehicles an hour that come to the turn, more than ever go
FULL = 800  # vehicles an hour on a lane with priority; above it the road has one more lane


def lanes_of(flow: int) -> int:
    """How many lanes the road with priority has."""
    return max(1, -(-flow // FULL))


def deck_of(flow: int) -> Deck:
    """Link 1 with priority, link 2 that gives way to it, neither with a red."""
    links = (Link(1, 1, flow, 1_800 * lanes_of(flow), 1, 1, 0, 0, (1, 2)),
             Link(2, 1, QUEUE, 1_800, 1, 1, 0, 0, (1, 2), gives_way=GiveWay(1, 100)))
    return Deck(Frame(60, 60, 1, 60, 0), (Node(1, 0, (Stage(0, 0, 1), Stage(30, 0, 1))),), links)


def town(flow: int, folder: str) -> Net:
    """Link 1 from west to east, link 2 from the east across it to the south."""
    lanes = lanes_of(flow)
    places = {"west": (-500.0, 0.0), "node1": (0.0, 0.0), "east": (500.0, 0.0), "south": (0.0, -500.0)}
    roads = [Road("link1", "west", "node1", lanes), Road("out1", "node1", "east", lanes),
             Road("link2", "east", "node1", 1), Road("out2", "node1", "south", 1)]
    turns = {("link1", "out1"): flow, ("link2", "out2"): QUEUE}
    return convert(Map(places, {road.name: road for road in roads}, turns, {"link2": "link1"}), folder)


def cars_of(flow: int, seed: int) -> List[Car]:
    """Cars that come by chance on link 1, and a queue on link 2."""
    draw, time = random.Random(f"{seed} {flow}"), 0.0
    cars: List[Car] = [(count * 3600 / QUEUE, 2, ["link2", "out2"]) for count in range(QUEUE * SECONDS // 3600)]
    while flow:
        time += draw.expovariate(flow / 3600)
        if time >= SECONDS:
            break
        cars.append((time, 1, ["link1", "out1"]))
    return sorted(cars)


def gone(flow: int, seed: int) -> float:
    """Vehicles an hour that get through from link 2 with so many on link 1."""
    with tempfile.TemporaryDirectory() as folder:
        deck, net = deck_of(flow), town(flow, folder)
        write_signals(deck, net, os.path.join(folder, "green.add.xml"))
        write_cars(deck, cars_of(flow, seed), HEADWAY, os.path.join(folder, "cars.rou.xml"))
        return drive(deck, net, Run(folder, 60, "green.add.xml", "cars.rou.xml", seed)).links[2].vehicles


def table(seeds: Sequence[int]) -> List[str]:
    """The lines of the table."""
    flows = [0, 100] + [flow for flow, _ in GIVE_WAY if flow]
    with ThreadPoolExecutor(2) as pool:
        runs = list(pool.map(lambda asked: gone(*asked), [(flow, seed) for flow in flows for seed in seeds]))
    through = {flow: runs[place * len(seeds):(place + 1) * len(seeds)] for place, flow in enumerate(flows)}
    free = statistics.fmean(through[0])
    lines = [row(["vehicles an hour with priority", "lanes", "gone, vehicles an hour", "percent in SUMO", "by seed",
                  "percent of the sheets"]), row(["--:"] * 6)]
    for flow in flows[1:]:
        percents = [100 * (free - many) / flow for many in through[flow]]
        taken = [percent for least, percent in GIVE_WAY if least <= flow][-1]
        lines.append(row([flow, lanes_of(flow), f"{statistics.fmean(through[flow]):.0f}",
                          f"{statistics.fmean(percents):.0f}", f"{min(percents):.0f} to {max(percents):.0f}", taken]))
    return lines + ["", f"{sumo_version()}, seeds 1 to {len(seeds)}; {free:.0f} vehicles an hour go where nobody "
                        "comes."]


if __name__ == "__main__":
    print("\n".join(table(range(1, int((sys.argv[1:] or ["3"])[0]) + 1))))
