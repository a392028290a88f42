#!/usr/bin/env python3
"""drawings.py: draws all pictures of the documents into docs/pictures.

Of ARCHITECTURE: front.svg is the law of the front, round.svg a round of desks, crates.svg which crate waits for which,
read from crates.txt. Of README and GUIDE, by ./plan and the built program: the arterial's road before and after a
climb, its signals and saturation. Run it where one of them has changed.
"""

import os
import sys
from html import escape
from typing import Dict, List, Set, Tuple

HERE = os.path.dirname(os.path.realpath(__file__))
TEXT, LINE = "#222222", "#555555"
OLD, NEW, TURN, PASS = "#ffffff", "#bcd7ee", "#f5c26b", "#e6e6e6"

# The crates of the longest chain: a second saved on one of them is saved by the clock too.
CHAIN = ("parts", "net", "moves", "sweep", "track", "session", "climb", "desks", "reporter", "transyt", "cli")


class Drawing:
    """A picture that grows by rectangles, lines and words."""

    def __init__(self, width: int, height: int, title: str) -> None:
        self.parts: List[str] = [
            f'<svg xmlns="http://www.w3.org/2000/svg" viewBox="0 0 {width} {height}" font-family="sans-serif" '
            f'font-size="13" role="img"><title>{escape(title)}</title>',
            f'<rect width="{width}" height="{height}" fill="#ffffff"/>',
        ]

    def box(self, x: float, y: float, size: Tuple[float, float], fill: str, words: str = "") -> None:
        """A rectangle with words in its middle."""
        wide, high = size
        self.parts.append(
            f'<rect x="{x:g}" y="{y:g}" width="{wide:g}" height="{high:g}" rx="3" fill="{fill}" stroke="{LINE}"/>'
        )
        if words:
            self.words(x + wide / 2, y + high / 2 + 4.5, words, "middle")

    def words(self, x: float, y: float, words: str, anchor: str = "start") -> None:
        """Words that begin, end or stand in the middle at a point."""
        self.parts.append(f'<text x="{x:g}" y="{y:g}" fill="{TEXT}" text-anchor="{anchor}">{escape(words)}</text>')

    def line(self, begin: Tuple[float, float], end: Tuple[float, float], wide: float = 1, dashed: bool = False) -> None:
        """A line between two points."""
        dash = ' stroke-dasharray="4 3"' if dashed else ""
        self.parts.append(
            f'<line x1="{begin[0]:g}" y1="{begin[1]:g}" x2="{end[0]:g}" y2="{end[1]:g}" stroke="{LINE}" '
            f'stroke-width="{wide:g}"{dash}/>'
        )

    def write(self, name: str) -> None:
        """Writes the picture into docs/pictures."""
        os.makedirs(f"{HERE}/pictures", exist_ok=True)
        with open(f"{HERE}/pictures/{name}", "w", encoding="utf-8") as it:
            it.write("\n".join(self.parts + ["</svg>"]) + "\n")


def draw_front() -> None:
    """Pairs of a link and a sweep, those before the front and those after it."""
    picture = Drawing(640, 250, "The front: pairs before it have the new network's departures, all others the old "
                      "one's")
    links, sweeps, front = 8, 3, (1, 4)
    for link in range(links):
        picture.words(150 + 56 * link, 38, f"link {link + 1}", "middle")
    for sweep in range(sweeps):
        picture.words(20, 73 + 46 * sweep, f"sweep {sweep + 1}")
        for link in range(links):
            place = (sweep, link)
            fill = TURN if place == front else NEW if place < front else OLD
            words = "turn" if place == front else "new" if place < front else "old"
            picture.box(124 + 56 * link, 50 + 46 * sweep, (52, 36), fill, words)
    picture.words(20, 214, "The pair whose turn it is reads departures of this sweep from links before it in card "
                  "order,")
    picture.words(20, 234, "and of the sweep before from itself and the links after it: they stand before the front.")
    picture.write("front.svg")


def draw_round() -> None:
    """A round of four desks over the next eight moves of the list."""
    picture = Drawing(640, 270, "A round of desks: the next moves are dealt out, and the first that lowers the index "
                      "is made")
    for place in range(8):
        fill = TURN if place == 5 else PASS if place < 5 else OLD
        picture.box(20 + 76 * place, 30, (70, 32), fill, f"move {place + 1}")
    picture.words(20, 22, "the next moves of the list")
    for desk in range(4):
        x = 40 + 150 * desk
        picture.box(x, 118, (110, 34), NEW, f"desk {desk}")
        for place in (desk, desk + 4):
            picture.line((55 + 76 * place, 62), (x + 55, 118), dashed=place > 5)
        picture.line((x + 55, 152), (320, 196))
    picture.box(170, 196, (300, 34), TURN, "desk 0 has move 6: five pass, one is made")
    picture.words(20, 256, "Moves 1 to 5 don't lower the index; move 6 does. Tries after it are forgotten, with their "
                  "work.")
    picture.write("round.svg")


def stands_on() -> Dict[str, List[str]]:
    """What each crate stands on, by crates.txt, without the kit's crates and the prefix transyt_."""
    with open(f"{HERE}/../crates.txt", encoding="utf-8") as it:
        rows = [line.partition("#")[0].split(":") for line in it if ":" in line.partition("#")[0]]
    names = {row[0].strip() for row in rows}
    short = {name: name.replace("transyt_", "", 1) for name in names}
    return {short[row[0].strip()]: [short[low] for low in row[1].split() if low in names] for row in rows}


def layers(below: Dict[str, List[str]]) -> List[List[str]]:
    """The crates by the length of the longest chain below them."""
    depth: Dict[str, int] = {}

    def depth_of(crate: str) -> int:
        if crate not in depth:
            depth[crate] = 1 + max((depth_of(low) for low in below[crate]), default=-1)
        return depth[crate]

    rows: List[List[str]] = [[] for _ in range(1 + max(depth_of(crate) for crate in below))]
    for crate in below:
        rows[depth[crate]].append(crate)
    return rows


def direct(below: Dict[str, List[str]], crate: str) -> Set[str]:
    """The crates below that no other crate below stands on, near or far: waiting for these is enough."""

    def all_below(name: str) -> Set[str]:
        return set(below[name]).union(*(all_below(low) for low in below[name]))

    return set(below[crate]) - set().union(*(all_below(low) for low in below[crate]))


def draw_crates() -> None:
    """Which crate waits for which: each stands a row above those below it."""
    below = stands_on()
    rows = layers(below)
    wide, high, step = 92, 26, 58
    width = 20 + max(len(row) for row in rows) * (wide + 14)
    picture = Drawing(width, step * len(rows) + 20, "Which crate waits for which, the longest chain drawn thick")
    middle: Dict[str, Tuple[float, float]] = {}
    for number, row in enumerate(rows):
        left = (width - len(row) * (wide + 14) + 14) / 2
        for place, crate in enumerate(row):
            middle[crate] = (left + place * (wide + 14) + wide / 2, step * (len(rows) - number) - 20)
    for crate in below:
        for low in sorted(direct(below, crate)):
            thick = 3 if crate in CHAIN and low in CHAIN else 1
            (x, y), (x_low, y_low) = middle[crate], middle[low]
            picture.line((x, y + high / 2), (x_low, y_low - high / 2), thick)
    for crate, (x, y) in middle.items():
        picture.box(x - wide / 2, y - high / 2, (wide, high), TURN if crate in CHAIN else NEW, crate)
    picture.write("crates.svg")


def draw_plans() -> None:
    """The arterial before and after a climb, as ./plan draws it."""
    sys.path.insert(0, f"{HERE}/../python")
    import transyt
    from transyt import pictures

    def write(name: str, text: str) -> None:
        with open(f"{HERE}/pictures/{name}", "w", encoding="utf-8") as it:
            it.write(text)

    with open(f"{HERE}/../examples/arterial.deck", encoding="utf-8") as it:
        deck = it.read()
    with transyt.Session(deck) as session:
        write("road-before.svg", pictures.road(session, [[11, 21, 31, 41, 51, 61]]))
        write("climb.svg", pictures.climb(session))
        write("road-after.svg", pictures.road(session, [[11, 21, 31, 41, 51, 61]]))
        write("signals.svg", pictures.signals(session))
        write("saturation.svg", pictures.saturation(session))


if __name__ == "__main__":
    draw_front()
    draw_round()
    draw_crates()
    draw_plans()
