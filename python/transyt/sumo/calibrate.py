"""The car whose saturation flow is the deck's: how close it follows is found by driving a queue over one stop line."""

import functools
import os
from dataclasses import dataclass
from typing import Callable, List, Optional

from ..deck import Deck, Frame, Link, Node, Stage
from ..faults import Fault
from ..names import Names
from .cars import Car, lane_saturation, write_cars
from .drive import SECONDS, Run, drive, write_signals
from .greens import green_steps, shown_steps
from .network import Net, build
from .roads import link_road, out_road

HEADWAYS = (0.8, 1.0, 1.2, 1.4, 1.6, 1.8, 2.0, 2.2)  # seconds behind the car ahead, of which some are tried
USUAL = 3  # the place of the one that is tried first


@dataclass(frozen=True)
class Green:
    """A green of some steps, the steps that lags add to it, and the saturation flow of a lane in vehicles an hour."""

    frame: Frame
    shown: int
    added: float
    saturation: float

    @property
    def cars(self) -> float:
        """How many cars go over the stop line in it by the model, from a queue that stays."""
        return self.saturation * (self.shown + self.added) * self.frame.step_seconds / 3600


def usual_green(deck: Deck) -> Optional[Green]:
    """The mean green of a deck, by the flows of the links that are red at some time; None where there is none."""
    flow = shown_sum = green_sum = 0
    for link in deck.links:
        shown = shown_steps(deck, link)
        if any(shown) and not all(shown):
            flow += link.total_flow
            shown_sum += link.total_flow * sum(shown)
            green_sum += link.total_flow * sum(green_steps(shown, link.start_lag, link.end_lag))
    if not flow:
        return None
    return Green(deck.frame, max(1, round(shown_sum / flow)), (green_sum - shown_sum) / flow, lane_saturation(deck))


def one_stop_line(green: Green) -> Deck:
    """A deck of one link of one lane, with the given green, to which some more cars come than can go."""
    last = green.frame.step_count - 1
    stages = (Stage(0, last - green.shown, green.shown), Stage(last, 0, 1))
    entry = round(1.25 * green.cars * 3600 / green.frame.cycle)
    link = Link(1, 1, entry, round(green.saturation), 1, 1, 0, 0, (1,))
    return Deck(green.frame, (Node(1, 0, stages),), (link,), names=Names(lanes={1: 1}))


def cars_in_green(deck: Deck, net: Net, folder: str, headway: float) -> float:
    """How many cars go over the stop line in a green, where a queue is always there, in SUMO."""
    link, cycle = deck.link(1), deck.frame.cycle
    times = (count * 3600 / link.entry for count in range(int(link.entry * SECONDS / 3600)))
    cars: List[Car] = [(time, 1, [link_road(1), out_road(1)]) for time in times]
    name = f"cars-{headway}.rou.xml"
    write_cars(deck, cars, headway, os.path.join(folder, name))
    return drive(deck, net, Run(folder, cycle, "queue.add.xml", name, 1)).links[1].vehicles * cycle / 3600


def around(cars: Callable[[float], float], wanted: float) -> List[float]:
    """Two headways next to one another of which the shorter lets at least the wanted cars go and the longer at most."""
    place = USUAL
    step = 1 if cars(HEADWAYS[place]) > wanted else -1
    while 0 <= place + step < len(HEADWAYS):
        place += step
        if (cars(HEADWAYS[place]) > wanted) != (step > 0):
            return sorted((HEADWAYS[place - step], HEADWAYS[place]))
    raise Fault(f"no car of SUMO has this saturation flow: {wanted:.1f} cars in a green are wanted, and at "
                  f"{HEADWAYS[place]} s behind one another {cars(HEADWAYS[place]):.1f} go")


def headway_of(cars: Callable[[float], float], wanted: float) -> float:
    """The headway at which the wanted cars go, on a line between two that are next to one another."""
    short, long = around(cars, wanted)
    many, few = cars(short), cars(long)
    return short + (long - short) * (many - wanted) / (many - few)


def calibrate(deck: Deck, folder: str) -> float:
    """How many seconds a car stays behind the one ahead for the deck's saturation flow."""
    green = usual_green(deck)
    if not green:
        return HEADWAYS[USUAL]
    os.makedirs(folder, exist_ok=True)
    lone = one_stop_line(green)
    net = build(lone, folder)
    write_signals(lone, net, os.path.join(folder, "queue.add.xml"))
    return headway_of(functools.cache(lambda headway: cars_in_green(lone, net, folder, headway)), green.cars)
