"""Kicks written again, over the networks of examples/check: nothing of the package, no program.

kicks_again.py COUNT SEED < DECK writes the deck's offsets and changes after the kicks, a line a junction, and the
index.
"""

import os
import sys
from typing import Any, List

sys.path.insert(0, os.path.join(os.path.dirname(os.path.realpath(__file__)), "..", "..", "examples", "check"))
from cards import cut, read_deck  # noqa: E402
from town import moves, with_move  # noqa: E402

Town = Any  # of examples/check


def kicked(town: Town, count: int, seed: int) -> Town:
    """The town after kicks, by the words of the specification."""
    x, nodes, steps = seed, list(town.intergreens), town.frame[1]

    def draw(most: int) -> int:
        nonlocal x
        x = (1103515245 * x + 12345) % 2 ** 31
        return x // 65536 % most

    pairs = {(link.node, town.links[feeder].node) for link in town.links.values() for feeder in link.feeders}
    for _ in range(count):
        middle = nodes[draw(len(nodes))]
        around = [node for node in nodes if node == middle or (node, middle) in pairs or (middle, node) in pairs]
        now = town
        for node in around:
            new = draw(2 * steps)
            if new < steps:
                now = now.edited("OFFSET", node, new)
        now = climbed(now, around)
        if now.index() < town.index():
            town = now
    return town


def climbed(now: Town, around: List[int]) -> Town:
    """Climbs on by the listed moves of some junctions, until a whole round of them lowers nothing."""
    place = since = 0
    while True:
        listed = [move for move in moves(now) if move[1] in around]
        if since >= len(listed):
            return now
        tried = with_move(now, listed[place])
        if tried and tried.index() < now.index():
            now, since = tried, 0
        else:
            place, since = (place + 1) % len(listed), since + 1


def told(town: Town) -> str:
    """The plan, a line a junction, and the index."""
    lines = [f"{node} {town.offset(node)} {' '.join(map(str, town.changes(node)))}\n" for node in town.intergreens]
    return "".join(lines) + f"{town.index()}\n"


if __name__ == "__main__":
    given, _, _ = read_deck(cut(sys.stdin.buffer.read()))
    sys.stdout.write(told(kicked(given, int(sys.argv[1]), int(sys.argv[2]))))
