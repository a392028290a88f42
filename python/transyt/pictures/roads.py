"""The road: a time-space diagram of a route and of the way back, made of the program's profiles and queues."""

from dataclasses import dataclass
from typing import Dict, List, Optional, Sequence, Tuple

from ..deck import Deck
from ..faults import Fault
from ..report import Profile
from .bands import draw_bands, draw_fronts
from .source import Answers, node_name, short_name, whose
from .svg import CAN_GO, CANNOT, FLOW, GREEN_EDGE, INK, MIDDLE, QUEUE, WIDE, Axis, Drawing, legend, seconds

Route = Sequence[int]
LEFT, BAR, STRIP, TALL = 216.0, 8.0, 7.0, 17.0  # label column; heights of a bar, a strip of arrivals, a queue
BLOCK = BAR + STRIP + TALL  # what stands at one side of a junction
GAP = 14.0  # at least, between two junctions' blocks
TARGET = 520.0  # the height of a road, where its stop lines don't stand too close for it
NOT_TO_SCALE = "stop lines aren't drawn to scale; "
MOST_HIGH = 1_000.0  # of a road to scale, so that it is printed on A4


@dataclass(frozen=True)
class Lane:
    """A link of a road as it is drawn: the height of its stop line, and which way its traffic goes: up or down."""

    link: int
    y: float
    up: bool

    def side(self, far: float) -> float:
        """A height so far before the stop line."""
        return self.y + far if self.up else self.y - far


def routes_of(deck: Deck) -> List[List[int]]:
    """The two routes with most vehicles through at least three junctions, found by following the greatest feed."""
    found: List[Tuple[int, List[int]]] = []
    for link in deck.links:
        route = [link.number]
        while (before := feeder_of(deck, route[0])) is not None and before not in route:
            route.insert(0, before)
        if len({deck.link(number).node for number in route}) >= 3:
            found.append((sum(deck.link(b).feed(a).flow for a, b in zip(route, route[1:])), route))
    kept: List[List[int]] = []
    for _, route in sorted(found, key=lambda one: (-one[0], one[1])):
        if len(kept) < 2 and not any(set(route) & set(other) for other in kept):
            kept.append(route)
    return kept


def feeder_of(deck: Deck, link: int) -> Optional[int]:
    """The feeder with the greatest feed of a link; of equals the first."""
    feeds = [feed for feed in deck.link(link).feeds if feed.flow]
    return max(feeds, key=lambda feed: feed.flow).feeder if feeds else None


def judged(deck: Deck, route: Route) -> List[int]:
    """A route whose links are there, each fed by the one before."""
    for number in route:
        deck.link(number)
    for before, after in zip(route, route[1:]):
        if before not in [feed.feeder for feed in deck.link(after).feeds]:
            raise Fault(f"link {after} isn't fed by link {before}, and so the two are no part of a route")
    if len(route) < 2:
        raise Fault("a route has at least two links")
    return list(route)


def opposite_of(deck: Deck, route: Route) -> List[int]:
    """The way back through the same junctions, each time by the greatest feed; empty where there is none."""
    nodes = [deck.link(number).node for number in reversed(route)]
    best: Tuple[int, List[int]] = (0, [])
    for last in (link for link in deck.links if link.node == nodes[-1]):
        back, total = [last.number], 0
        for node in reversed(nodes[:-1]):
            feeds = [feed for feed in deck.link(back[0]).feeds if deck.link(feed.feeder).node == node and feed.flow]
            if not feeds:
                break
            feed = max(feeds, key=lambda one: one.flow)
            back.insert(0, feed.feeder)
            total += feed.flow
        if len(back) == len(nodes) and total > best[0]:
            best = total, back
    return best[1]


def road(answers: Answers, routes: Sequence[Route] = (), both: bool = True) -> str:
    """The time-space diagram of routes, each with the way back, over two cycles.

    Without routes those of `routes_of` are drawn. A route through the junctions of one before, backward, is drawn with
    it.
    """
    deck = answers.deck()
    given = [judged(deck, route) for route in routes] or routes_of(deck)
    if not given:
        raise Fault("no route goes through three junctions: name one by --route, as --route 11,21")
    pairs = paired(deck, given, both)
    heights = [heights_of(deck, forth, bool(back)) for forth, back in pairs]
    tops, y = [], 40.0
    for places in heights:
        tops.append(y)
        y += places[0] + BLOCK + 46
    drawing = Drawing("road", y - 6, "The road: stop lines up the page, two cycles across",
                      f"{whose(answers, deck)}; {'' if all(to_scale(deck, *pair) for pair in pairs) else NOT_TO_SCALE}"
                      "bars are GO, with lags and give way; the signals' own times are in the picture signals")
    legend(drawing, 18, ((CAN_GO, "can go"), (CANNOT, "can't"), (FLOW, "arrivals, and departures on their way"),
                         (QUEUE, "queue"), (f"-{INK}", "platoon's front")))
    for place, ((forth, back), places) in enumerate(zip(pairs, heights)):
        Panel(drawing, answers, deck, f"{place + 1}").draw(forth, back, [tops[place] + high for high in places])
    return str(drawing)


def paired(deck: Deck, routes: Sequence[List[int]], both: bool) -> List[Tuple[List[int], List[int]]]:
    """Each route with its way back: another of the routes, or the one that is found."""
    rest, pairs = list(routes), []
    while rest:
        forth = rest.pop(0)
        nodes = [deck.link(number).node for number in forth]
        back = next((one for one in rest if [deck.link(number).node for number in one] == nodes[::-1]), None)
        if back is not None:
            rest.remove(back)
        pairs.append((forth, back if back is not None else opposite_of(deck, forth) if both else []))
    return pairs


def lengths_of(deck: Deck, route: Route) -> Tuple[List[int], str]:
    """How far each link of a route is from the one before, in metres where all are told, else in cruise seconds."""
    pairs = list(zip(route, route[1:]))
    metres = [deck.names.metres.get((after, before)) for before, after in pairs]
    if all(metres):
        return [length or 0 for length in metres], "m"
    return [deck.link(after).feed(before).cruise for before, after in pairs], "s"


def heights_of(deck: Deck, route: Route, both: bool) -> List[float]:
    """The height of each stop line of a route below the top of its panel; the last one stands highest."""
    lengths, _ = lengths_of(deck, route)
    least = BLOCK * (2 if both else 1) + GAP
    scale = scale_of(lengths, least)
    rest = max(TARGET, least * len(lengths)) - least * len(lengths)
    y: float = BLOCK + 6 if both else 14.0
    places: List[float] = [y]
    for length in reversed(lengths):
        y += scale * length if scale else least + rest * length / max(sum(lengths), 1)
        places.insert(0, y)
    return places


def scale_of(lengths: Sequence[int], least: float) -> Optional[float]:
    """How high a metre or a second is drawn, so that no two stop lines stand too close; None where that is too high."""
    scale = max(TARGET / max(sum(lengths), 1), least / max(min(lengths), 1))
    return scale if scale * sum(lengths) <= MOST_HIGH else None


def to_scale(deck: Deck, forth: Route, back: Route) -> bool:
    """Whether the stop lines of a road stand as far apart as they are."""
    return scale_of(lengths_of(deck, forth)[0], BLOCK * (2 if back else 1) + GAP) is not None


class Panel:
    """One road: a route upward, and the way back downward."""

    def __init__(self, drawing: Drawing, answers: Answers, deck: Deck, name: str) -> None:
        self.drawing, self.answers, self.deck, self.name = drawing, answers, deck, name
        self.axis = Axis(LEFT, WIDE - 24, 2 * deck.frame.cycle)
        self.profiles: Dict[int, Profile] = {}

    def profile(self, link: int) -> Profile:
        """The profile of a link, asked once."""
        if link not in self.profiles:
            self.profiles[link] = self.answers.profile(link)
        return self.profiles[link]

    def draw(self, forth: Route, back: Route, places: Sequence[float]) -> None:
        """Draws both ways over the heights of the stop lines."""
        up = [Lane(link, y + 1, True) for link, y in zip(forth, places)]
        down = [Lane(link, y - 1, False) for link, y in zip(back, reversed(places))]
        top, bottom = places[-1] - (BLOCK if back else 8) - 4, places[0] + BLOCK + 4
        self.axis.draw(self.drawing, top, bottom)
        clip = self.drawing.clip(f"plot{self.name}", (self.axis.left, top), (self.axis.right - self.axis.left,
                                                                              bottom - top))
        self.drawing.open(f'clip-path="url(#{clip})"')
        for lanes in (up, down):
            for here, there in zip(lanes, lanes[1:]):
                self.draw_way(here, there)
        for lane in up + down:
            self.draw_lane(lane)
        self.drawing.close()
        self.draw_labels(forth, up, down)

    def draw_way(self, here: Lane, there: Lane) -> None:
        """The departures of one stop line on their way to the next."""
        cruise = self.deck.link(there.link).feed(here.link).cruise
        ends = (here.side(0), there.side(BAR + STRIP))
        profile = self.profile(here.link)
        draw_bands(self.drawing, self.axis, self.deck, profile, (f"{self.name}-{here.link}", cruise, ends))
        draw_fronts(self.drawing, self.axis, self.deck, profile, (cruise, ends))

    def draw_lane(self, lane: Lane) -> None:
        """A stop line: its bar, its arrivals and its queue, over both cycles."""
        ident = f"{self.drawing.name}-lane{self.name}-{lane.link}"
        self.drawing.open(f'class="lane node-{self.deck.link(lane.link).node}"')
        self.drawing.open(f'id="{ident}" class="link-{lane.link}"')
        profile, step = self.profile(lane.link), self.deck.frame.step_seconds
        for begin, end, goes in runs([go > 0 for go in profile.go]):
            self.box(lane, (begin * step, end * step), (0, BAR), CAN_GO if goes else CANNOT,
                     f"link {lane.link} {'can go' if goes else 'can not go'} from {seconds(begin * step)} to "
                     f"{seconds(end * step)} s (GO)", GREEN_EDGE)
        most = max(max(profile.arrivals), 1)
        for begin, end, shade in runs([round(8 * value / most) for value in profile.arrivals]):
            values = profile.arrivals[begin:end]
            if shade:
                self.box(lane, (begin * step, end * step), (BAR, STRIP), FLOW,
                         f"arrivals of link {lane.link} in steps {begin} to {end - 1}: {min(values)} to {max(values)} "
                         "(IN)", opacity=shade / 8)
        self.draw_queue(lane, step)
        self.drawing.close()
        for turn in (-1, 1, 2):  # those before and after show while a junction is dragged
            self.drawing.again(ident, self.axis.wide(turn * self.deck.frame.cycle))
        self.drawing.close()

    def draw_queue(self, lane: Lane, step: float) -> None:
        """The queue as an area that grows and falls away from the stop line, at most as tall as its room."""
        queue = self.answers.queue(lane.link)
        most = max(max(queue.raw), 1)
        tall = min(TALL, max(2.0, TALL * most / 10_000_000))  # ten vehicles fill the room
        points = [(self.axis.x(0), lane.side(BAR + STRIP))]
        points += [(self.axis.x((place + 1) * step), lane.side(BAR + STRIP + tall * value / most))
                   for place, value in enumerate((queue.raw[-1], *queue.raw), -1)]
        points.append((self.axis.x(self.deck.frame.cycle), lane.side(BAR + STRIP)))
        if max(queue.raw):
            self.drawing.shape(points, QUEUE, f"queue of link {lane.link}: greatest {most} (QUEUE)", opacity=0.85)

    def box(self, lane: Lane, times: Tuple[float, float], far: Tuple[float, float], colour: str, title: str,
            edge: str = "", opacity: float = 1) -> None:
        """A rectangle before a stop line."""
        y = min(lane.side(far[0]), lane.side(far[0] + far[1]))
        self.drawing.box((self.axis.x(times[0]), y), (self.axis.wide(times[1] - times[0]), far[1]), colour, title,
                         edge=edge, opacity=opacity)

    def draw_labels(self, forth: Route, up: Sequence[Lane], down: Sequence[Lane]) -> None:
        """The junctions' and links' names at the left, and how far apart they are."""
        lengths, unit = lengths_of(self.deck, forth)
        what = {"m": "METRES, by the sheets", "s": "cruise time of the FEED card, seconds"}[unit]
        for place, lane in enumerate(up):
            node = self.deck.link(lane.link).node
            self.drawing.line((8, lane.y - 1), (self.axis.left - 6, lane.y - 1), MIDDLE, 0.8)
            self.drawing.words((12, lane.y - 5), node_name(self.deck, node), bold=True, width=LEFT - 22,
                               kind=f"name node-{node}")
            self.drawing.words((12, lane.y + 12), f"↑ {short_name(self.deck, lane.link)}", size=10.5, width=LEFT - 22)
            if place:
                self.drawing.words((12, lane.y + 36), f"{lengths[place - 1]} {unit} from below", size=10, title=what)
        for lane in down:
            self.drawing.words((12, lane.y + 24), f"↓ {short_name(self.deck, lane.link)}", size=10.5, width=LEFT - 22)


def runs(values: Sequence[object]) -> List[Tuple[int, int, int]]:
    """Stretches of equal values: where each begins and ends, and its value as a number."""
    found: List[Tuple[int, int, int]] = []
    for place, value in enumerate(values):
        if found and found[-1][2] == int(value):  # type: ignore[call-overload]
            found[-1] = (found[-1][0], place + 1, found[-1][2])
        else:
            found.append((place, place + 1, int(value)))  # type: ignore[call-overload]
    return found
