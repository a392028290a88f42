"""One link over the cycle, and all links by degree of saturation."""

from typing import List, Sequence, Tuple

from ..deck import Deck
from ..report import UNITS, LinkFigures
from .source import Answers, link_name, short_name, whose
from .svg import FLOW, INK, MIDDLE, PALE, QUEUE, WIDE, Axis, Drawing, legend

MOST_LINKS = 60  # of the picture of saturations
LEFT = 64.0


def link(answers: Answers, which: int) -> str:
    """A link's arrivals, GO and departures step by step, its queue below, in vehicles, and its figures beside."""
    deck, profile, queue = answers.deck(), answers.profile(which), answers.queue(which)
    drawing = Drawing("link", 360, f"Link {which} over the cycle", f"{link_name(deck, which)}; {whose(answers, deck)}")
    legend(drawing, 18, ((PALE, "GO"), (f"-{FLOW}", "arrivals"), (f"-{INK}", "departures"), (QUEUE, "queue")))
    axis = Axis(LEFT, WIDE - 190, deck.frame.cycle)
    most = max(max(profile.arrivals), max(profile.go), max(profile.departures), 1)
    upper = Panel(drawing, axis, deck, (46.0, 200.0), most, "vehicles a step")
    upper.area(profile.go, PALE, f"GO of link {which}", "PROFILE")
    upper.steps(profile.arrivals, FLOW, f"arrivals of link {which}, before the cut")
    upper.steps(profile.departures, INK, f"departures of link {which}", "5 2")
    lower = Panel(drawing, axis, deck, (230.0, 332.0), max(max(queue.raw), 1), "vehicles in queue")
    lower.area(queue.raw, QUEUE, f"queue of link {which} at the end of each step", "QUEUE")
    axis.draw(drawing, 332, 336)
    beside(drawing, answers.figures().link(which))
    return str(drawing)


class Panel:
    """A panel of a link's picture: values of each step between two heights, from 0 to the greatest."""

    def __init__(self, drawing: Drawing, axis: Axis, deck: Deck, between: Tuple[float, float], most: int,
                 unit: str) -> None:
        self.drawing, self.axis, self.deck, self.most = drawing, axis, deck, most
        self.top, self.bottom = between
        drawing.line((axis.left, self.bottom), (axis.right, self.bottom), MIDDLE)
        drawing.line((axis.left, self.top), (axis.left, self.bottom), MIDDLE)
        drawing.words((axis.left - 6, self.top + 9), f"{most / UNITS:.3f}", "end", size=10.5)
        drawing.words((axis.left - 6, self.bottom), "0", "end", size=10.5)
        drawing.words((axis.left + 4, self.top - 3), unit, size=10.5)

    def corners(self, values: Sequence[int]) -> List[Tuple[float, float]]:
        """The line of steps through the values."""
        points: List[Tuple[float, float]] = []
        for place, value in enumerate(values):
            y = self.bottom - (self.bottom - self.top) * value / self.most
            points += [(self.axis.x(place * self.deck.frame.step_seconds), y),
                       (self.axis.x((place + 1) * self.deck.frame.step_seconds), y)]
        return points

    def steps(self, values: Sequence[int], colour: str, title: str, dashes: str = "") -> None:
        """A line of steps."""
        self.drawing.path(self.corners(values), colour, 1.6, f"{title}; greatest {max(values)}", dashes)

    def area(self, values: Sequence[int], colour: str, title: str, report: str) -> None:
        """The area below, with each step's number as its title."""
        for place, value in enumerate(values):
            high = (self.bottom - self.top) * value / self.most
            if high:
                self.drawing.box((self.axis.x(place * self.deck.frame.step_seconds), self.bottom - high),
                                 (self.axis.wide(self.deck.frame.step_seconds), high), colour,
                                 f"{title}, step {place}: {value} ({report})")


def beside(drawing: Drawing, figures: LinkFigures) -> None:
    """The figures of a link in words."""
    x, rows = WIDE - 176, (
        (f"flow {figures.flow_an_hour} veh/h", "FLOW", ""), (f"sent on {figures.sent_an_hour} veh/h", "SENT", ""),
        (f"saturation {saturation_text(figures)}", "SATURATION", " / 10, %"),
        (f"delay {figures.delay_seconds:.1f} s", "DELAY", " / 10, s"),
        (f"stopped {100 * figures.stopped:.1f} %", "STOPPED", " / 10, %"),
        (f"queue {figures.queue_vehicles:.1f} veh", "QUEUE", " / 1,000,000"))
    for place, (text, word, formula) in enumerate(rows):
        drawing.words((x, 66 + 21 * place), text, title=f"{figures.place(word)} {figures.raw[word]}{formula}")


def saturation_text(figures: LinkFigures) -> str:
    """A degree of saturation in per cent, or that nothing can go."""
    return f"{100 * figures.saturation:.1f} %" if figures.has_capacity else "no green"


def saturation(answers: Answers) -> str:
    """Links by degree of saturation, the fullest first, with 90 and 100 % marked; seconds a vehicle beside."""
    deck = answers.deck()
    figures = sorted(answers.figures().links, key=lambda one: -one.raw["SATURATION"])
    shown = figures[:MOST_LINKS]
    bottom = 52 + 19.0 * len(shown)
    more = f"; the {MOST_LINKS} fullest of {len(figures)} links" if len(figures) > MOST_LINKS else ""
    drawing = Drawing("saturation", bottom + 8, "Links by degree of saturation", whose(answers, deck) + more)
    left, right = 212.0, WIDE - 176
    most = max([1.2] + [min(one.saturation, 1.5) for one in shown if one.has_capacity])
    legend(drawing, 18, ((FLOW, "below 90 %"), (QUEUE, "90 % and more"), (INK, "100 % and more, or no green")))
    drawing.words((WIDE - 92, 34), "saturation", "end", size=10.5)
    drawing.words((WIDE - 20, 34), "s a vehicle", "end", size=10.5)
    for place, one in enumerate(shown):
        draw_bar(drawing, deck, one, (left, right, most), 44 + 19.0 * place)
    for share in (0.9, 1.0):
        x = left + (right - left) * share / most
        drawing.line((x, 38), (x, bottom), INK, 1, "3 3")
        drawing.words((x, 34), f"{share:.0%}".replace("%", " %"), "end" if share < 1 else "start", size=10.5)
    return str(drawing)


def draw_bar(drawing: Drawing, deck: Deck, one: LinkFigures, scale: Tuple[float, float, float], top: float) -> None:
    """A link's bar; its degree and its delay at the right."""
    left, right, most = scale
    full = one.saturation >= 1 or not one.has_capacity
    colour = INK if full else QUEUE if one.saturation >= 0.9 else FLOW
    wide = (right - left) * min(one.saturation, most) / most
    drawing.words((12, top + 11), short_name(deck, one.number), width=left - 22)
    drawing.box((left, top), (max(wide, 0.8), 13), colour, f"{one.place('SATURATION')} {one.raw['SATURATION']}")
    drawing.words((WIDE - 92, top + 11), saturation_text(one), "end", size=11,
                  title=f"{one.place('SATURATION')} {one.raw['SATURATION']} / 10, %")
    drawing.words((WIDE - 20, top + 11), f"{one.delay_seconds:.1f}", "end", size=11,
                  title=f"{one.place('DELAY')} {one.raw['DELAY']} / 10, s")
