"""The cars of a deck: when and where each enters, and the links that it takes."""

import random
from typing import Any, Dict, List, Sequence, Tuple

from ..deck import Deck, Link
from .lanes import lane_count
from .roads import is_left, link_road, out_road, start_node
from .tools import write_xml

Car = Tuple[float, int, List[str]]  # the second at which it enters, its link, the edges of its route
Ways = Dict[int, List[Tuple[int, float]]]

MOST_LINKS = 200  # a car that went round for so many links is taken off


def share_sent(deck: Deck, number: int) -> float:
    """The part of what a link's feeds take that its total flow has: 1 but where they take more than comes."""
    sent = deck.sent(number)
    return min(1, deck.link(number).total_flow / sent) if sent else 1


def entering_flow(deck: Deck, link: Link) -> float:
    """Vehicles an hour that enter on a link: its entry flow, and the cars that its feeders haven't got to send."""
    missing = sum(feed.flow * (1 - share_sent(deck, feed.feeder)) for feed in link.used_feeds)
    return link.entry + missing


def ways_on(deck: Deck) -> Ways:
    """For each link's number the links that follow it, each with the part of its vehicles that goes there."""
    ways: Ways = {link.number: [] for link in deck.links}
    for link in deck.links:
        for feed in link.used_feeds:
            total = deck.link(feed.feeder).total_flow
            if total:
                ways[feed.feeder].append((link.number, share_sent(deck, feed.feeder) * feed.flow / total))
    return ways


def route(deck: Deck, ways: Ways, number: int, draw: random.Random) -> List[str]:
    """The edges of a car that enters on a link: at each stop line it draws where it goes on, or leaves the town."""
    taken = [link_road(number)]
    while len(taken) < MOST_LINKS:
        left = draw.random()
        for after, part in ways[number]:
            left -= part
            if left < 0:
                break
        else:
            if is_left(deck, deck.link(number)):
                return taken + [out_road(number)]
            after = ways[number][-1][0]
        number = after
        taken.append(link_road(number))
    return taken


def draw_cars(deck: Deck, seed: int, seconds: float) -> List[Car]:
    """Cars that enter by chance, as (second, link, edges of the route) in order of time; the same for the same seed."""
    cars: List[Car] = []
    ways = ways_on(deck)
    for link in deck.links:
        draw = random.Random(f"{seed} {link.number}")
        flow, time = entering_flow(deck, link), 0.0
        while flow > 0:
            time += draw.expovariate(flow / 3600)
            if time >= seconds:
                break
            cars.append((time, link.number, route(deck, ways, link.number, draw)))
    return sorted(cars)


def car_type(tau: float) -> Tuple[str, Dict[str, Any]]:
    """The car that all drive: Krauss's model, drivers of whom some are slower, `tau` seconds behind the car ahead."""
    return ("vType", {"id": "car", "carFollowModel": "Krauss", "tau": round(tau, 3), "sigma": 0.5,
                      "speedFactor": 1, "speedDev": 0.1})


def write_cars(deck: Deck, cars: Sequence[Car], tau: float, path: str) -> None:
    """Writes the cars for SUMO; on a link with feeds they appear at a free place of the link, else at its beginning."""
    elements = [car_type(tau)]
    for count, (time, number, edges) in enumerate(cars):
        place = "base" if start_node(deck, deck.link(number)) is None else "random_free"
        name = f"route{count}"
        elements.append(("route", {"id": name, "edges": " ".join(edges)}))
        elements.append(("vehicle", {"id": f"{number}.{count}", "type": "car", "route": name, "depart": f"{time:.2f}",
                                     "departLane": "best", "departPos": place, "departSpeed": "max"}))
    write_xml(path, "routes", elements)


def lane_saturation(deck: Deck) -> float:
    """The mean saturation flow of a lane, by the links' flows, in vehicles an hour."""
    flow = sum(link.total_flow for link in deck.links)
    weighed = ((link.total_flow, link.saturation / lane_count(deck, link)) for link in deck.links)
    return sum(part * saturation for part, saturation in weighed) / flow
