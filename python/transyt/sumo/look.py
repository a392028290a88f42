"""A deck as a town for SUMO, which sumo-gui opens.

The signals are those of the deck, or those of the last TIMING in a report of the program. Before anything is written
each link's green is compared with the program's own GO.
"""

import os
from typing import List, Optional

from ..deck import Deck, Plan
from ..faults import Fault
from ..report import read_timing
from ..text import lines_of
from .calibrate import calibrate
from .cars import draw_cars, write_cars
from .drive import SECONDS, put_signals, write_configuration, write_signals, write_view
from .figures import PlanFigures
from .greens import check_greens
from .network import build
from .roads import check_carried

CONFIGURATION, NETWORK = "town.sumocfg", "town.net.xml"


def last_plan(report: str) -> Plan:
    """The plan in the last TIMING of a report: for each node's number its offset and the changes of its stages."""
    found: Optional[List[str]] = None
    block: List[str] = []
    for line in lines_of(report):
        words = line.split(" ")
        if words[::2][:2] == ["NODE", "OFFSET"] or words[::2][:2] == ["STAGE", "CHANGE"] and block:
            block.append(line)
        elif words == ["END", "TIMING"]:
            found, block = block + [line], []
    if found is None:
        raise Fault("the report has no TIMING")
    return read_timing(found).plan()


def write_town(deck: Deck, figures: PlanFigures, folder: str, seed: int) -> float:
    """Writes the network, signals and cars of a deck to a folder, once its greens are the program's; tells the headway.

    The headway is how many seconds a car stays behind the one ahead.
    """
    check_carried(deck)
    check_greens(deck, figures)
    os.makedirs(folder, exist_ok=True)
    net = build(deck, folder)
    headway = calibrate(deck, os.path.join(folder, "calibration"))
    write_signals(deck, net, os.path.join(folder, "signals.add.xml"))
    put_signals(deck, net, os.path.join(folder, NETWORK))
    write_cars(deck, draw_cars(deck, seed, SECONDS), headway, os.path.join(folder, "cars.rou.xml"))
    write_view(os.path.join(folder, "view.xml"))
    write_configuration(os.path.join(folder, CONFIGURATION), "signals.add.xml", "cars.rou.xml")
    return headway
