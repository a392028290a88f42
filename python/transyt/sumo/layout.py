"""Where the nodes of a deck are put on the plane: as far apart as their links are long, as well as that can be done."""

import heapq
import math
from typing import Dict, List, Mapping, Tuple

Roads = Mapping[int, Mapping[int, float]]
Table = Dict[int, Dict[int, float]]
Places = Dict[int, Tuple[float, float]]

APART = 1000  # metres between parts of a town that no link joins
ROUNDS = 100


def distances(roads: Roads) -> Table:
    """The shortest way from each node to each, in metres; `roads` has for each node the length to each neighbour."""
    return {start: distances_from(start, roads) for start in roads}


def distances_from(start: int, roads: Roads) -> Dict[int, float]:
    """The shortest ways from a node to those that can be reached, by Dijkstra's rule."""
    found: Dict[int, float] = {}
    heap = [(0.0, start)]
    while heap:
        far, node = heapq.heappop(heap)
        if node not in found:
            found[node] = far
            for neighbour, length in roads[node].items():
                heapq.heappush(heap, (far + length, neighbour))
    return found


def places(roads: Roads) -> Places:
    """A place (x, y) in metres for each node, the first to the left; parts that no road joins stand side by side."""
    shown: Places = {}
    left = 0.0
    far = distances(roads)
    for start in roads:
        if start not in shown:
            part = spread(far, list(far[start]))
            west, south = (min(place[along] for place in part.values()) for along in (0, 1))
            for node, (x, y) in part.items():
                shown[node] = (left + x - west, y - south)
            left = max(x for x, _ in shown.values()) + APART
    return shown


def spread(far: Table, nodes: List[int]) -> Places:
    """Places of which the distances differ little from those by road, near ones least."""
    products = centred(far, nodes)
    first = axis(products, {node: count + 1 for count, node in enumerate(nodes)})
    rest = {one: {other: products[one][other] - first[one] * first[other] for other in nodes} for one in nodes}
    second = axis(rest, {node: (count * 7) % 11 + 1 for count, node in enumerate(nodes)})
    side = -1 if first[nodes[0]] > 0 else 1
    found = {node: (side * first[node], second[node]) for node in nodes}
    for _ in range(ROUNDS):
        for node in nodes:
            found[node] = moved(node, far[node], found)
    return found


def centred(far: Table, nodes: List[int]) -> Table:
    """The products of places about their middle that distances have in the plane: classical scaling's matrix."""
    square = {one: {other: far[one][other] ** 2 for other in nodes} for one in nodes}
    mean = {node: sum(square[node].values()) / len(nodes) for node in nodes}
    middle = sum(mean.values()) / len(nodes)
    return {one: {other: (mean[one] + mean[other] - square[one][other] - middle) / 2 for other in nodes}
            for one in nodes}


def axis(products: Table, guess: Mapping[int, float]) -> Dict[int, float]:
    """The coordinates along the axis on which most of the products lies, by repeated multiplication from a guess."""
    found, size = dict(guess), 0.0
    for _ in range(ROUNDS):
        length = math.sqrt(sum(part ** 2 for part in found.values()))
        if length < 1e-6:
            return {node: 0.0 for node in guess}
        unit = {node: part / length for node, part in found.items()}
        found = {node: sum(part * unit[other] for other, part in products[node].items()) for node in unit}
        size = sum(found[node] * unit[node] for node in unit)
    return {node: math.sqrt(max(0.0, size)) * part for node, part in unit.items()}


def moved(node: int, far: Mapping[int, float], found: Places) -> Tuple[float, float]:
    """Where a node would stand by the mean of all others, each asking for its distance and near ones most."""
    x, y = found[node]
    sum_x = sum_y = weights = 0.0
    for other, (other_x, other_y) in found.items():
        if other != node:
            between = math.hypot(x - other_x, y - other_y) or 1.0
            weight = 1 / far[other] ** 2
            sum_x += weight * (other_x + far[other] * (x - other_x) / between)
            sum_y += weight * (other_y + far[other] * (y - other_y) / between)
            weights += weight
    return (sum_x / weights, sum_y / weights) if weights else (x, y)
