"""The bands of a road: departures on their way from one stop line to the next, and the fronts of platoons."""

from typing import List, Sequence, Tuple

from ..deck import Deck
from ..report import Profile
from .svg import FLOW, INK, Axis, Drawing, seconds

SHADES = 6  # of a band, from the palest to the darkest
DARKEST = 0.5
FRONT = 0.8  # of the cruise time: when the first vehicles of a platoon arrive
Way = Tuple[str, int, Tuple[float, float]]  # a name, the cruise time, and the heights where the way begins and ends


def draw_bands(drawing: Drawing, axis: Axis, deck: Deck, profile: Profile, way: Way) -> None:
    """Bands as wide as the steps in which vehicles leave, at the cruise time, shaded by departures, over two cycles."""
    name, cruise, (begin_y, end_y) = way
    step, cycle = deck.frame.step_seconds, deck.frame.cycle
    most = max(max(profile.departures), 1)
    ident = f"{drawing.name}-band{name}"
    drawing.open(f'id="{ident}"')
    for begin, end, shade in shades(profile.departures, most):
        values = profile.departures[begin:end]
        points = [(axis.x(begin * step), begin_y), (axis.x(end * step), begin_y),
                  (axis.x(end * step + cruise), end_y), (axis.x(begin * step + cruise), end_y)]
        drawing.shape(points, FLOW, f"departures of link {profile.number} in steps {begin} to {end - 1}: {min(values)} "
                      f"to {max(values)} (OUT); {cruise} s to the next stop line", opacity=DARKEST * shade / SHADES)
    drawing.close()
    for turn in range(-1 - int(cruise / cycle), 2):
        if turn:
            drawing.again(ident, axis.wide(turn * cycle))


def draw_fronts(drawing: Drawing, axis: Axis, deck: Deck, profile: Profile,
                way: Tuple[int, Tuple[float, float]]) -> None:
    """A thin line at 0.8 of the cruise time from the beginning of each green: the platoon's front."""
    cruise, (begin_y, end_y) = way
    step, cycle = deck.frame.step_seconds, deck.frame.cycle
    openings = [place for place, go in enumerate(profile.go) if go and not profile.go[place - 1]]
    for opening in openings:
        for turn in range(-1 - int(cruise / cycle), 2):
            time = opening * step + turn * cycle
            drawing.line((axis.x(time), begin_y), (axis.x(time + FRONT * cruise), end_y), INK, 0.7,
                         title=f"the front of link {profile.number}'s platoon: 0.8 of {cruise} s, "
                               f"{seconds(FRONT * cruise)} s")


def shades(values: Sequence[int], most: int) -> List[Tuple[int, int, int]]:
    """Stretches of one shade, where there are departures: begin, end, shade."""
    found: List[Tuple[int, int, int]] = []
    for place, value in enumerate(values):
        shade = max(1, round(SHADES * value / most)) if value else 0
        if found and found[-1][2] == shade and found[-1][1] == place:
            found[-1] = (found[-1][0], place + 1, shade)
        elif shade:
            found.append((place, place + 1, shade))
    return found
