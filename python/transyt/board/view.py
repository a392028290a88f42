"""The view of a plan: what the page shows, as values for JSON. Every figure is the program's."""

from typing import Any, Dict, List, Sequence

from ..deck import Deck
from ..pictures import road, routes_of, saturation, signals
from ..pictures.source import Once
from ..report import Figures, LinkFigures, Timing
from ..session import Session

Shown = Dict[str, Any]


def view_of(session: Session, given: Deck, before: Figures, routes: Sequence[Sequence[int]]) -> Shown:
    """The plan as it stands, and the differences to the deck of the call."""
    answers = Once(session)
    deck, figures, timing = answers.deck(), answers.figures(), answers.timing()
    step = deck.frame.step_seconds
    return {
        "town": deck.names.town or "", "cycle": deck.frame.cycle, "steps": deck.frame.step_count, "step": step,
        "has_climb": deck.climb_plan is not None,
        "totals": totals_of(figures, before), "nodes": nodes_of(deck, timing, step),
        "links": [link_of(deck, one, before.link(one.number)) for one in figures.links],
        "road": road(answers, routes) if routes or routes_of(deck) else "",
        "signals": signals(answers), "saturation": saturation(answers),
    }


def totals_of(figures: Figures, before: Figures) -> List[Shown]:
    """Each total: its name, its raw value, as it is shown, and by how much it differs."""
    rows = []
    for word, name in (("INDEX", "INDEX"), ("DELAY", "delay, vehicle-hours in an hour"), ("STOPS", "stops a second")):
        now, then = figures.total.raw[word], before.total.raw[word]
        scale = 1 if word == "INDEX" else 1_000_000
        shown = str(now) if scale == 1 else f"{now / scale:.3f}"
        rows.append({"name": name, "raw": now, "shown": shown, "change": changed(now - then, scale, 3)})
    rows.append({"name": "fullest link", "raw": figures.worst, "shown": fullest(figures), "change": ""})
    return rows


def fullest(figures: Figures) -> str:
    """The fullest link with its degree of saturation."""
    return f"link {figures.worst}, {saturation_of(figures.link(figures.worst))}" if figures.worst else "none"


def saturation_of(link: LinkFigures) -> str:
    """A link's degree of saturation, as a total has it."""
    return f"{link.raw['SATURATION'] / 10:.1f} %" if link.has_capacity else "no green"


def changed(difference: int, scale: int, digits: int) -> str:
    """A difference with its sign; empty where it is none as it is shown."""
    size = str(abs(difference)) if scale == 1 else f"{abs(difference) / scale:.{digits}f}"
    return ("+" if difference > 0 else "−") + size if float(size) else ""


def nodes_of(deck: Deck, timing: Timing, step: float) -> List[Shown]:
    """The junctions with their offsets and where their stages begin, in seconds."""
    return [{
        "number": node.number, "name": deck.names.nodes.get(node.number, ""), "offset": node.raw["OFFSET"] * step,
        "stages": [{"number": stage.number, "name": deck.names.stages.get((node.number, stage.number), ""),
                    "at": stage.raw["AT"] * step, "intergreen": stage.raw["INTERGREEN"] * step,
                    "green": stage.raw["GREEN"] * step, "least": stage.raw["LEAST"] * step} for stage in node.stages],
    } for node in timing.nodes]


def link_of(deck: Deck, now: LinkFigures, then: LinkFigures) -> Shown:
    """A link's row: figures as they are shown, with their raw values and differences."""
    return {
        "number": now.number, "name": deck.names.links.get(now.number, ""), "node": deck.link(now.number).node,
        "flow": now.flow_an_hour, "raw": dict(now.raw),
        "saturation": f"{now.raw['SATURATION'] / 10:.1f}" if now.has_capacity else "no green",
        "delay": f"{now.delay_seconds:.1f}", "queue": f"{now.queue_vehicles:.1f}",
        "delay_change": changed(now.raw["DELAY"] - then.raw["DELAY"], 10, 1),
        "queue_change": changed(now.raw["QUEUE"] - then.raw["QUEUE"], 1_000_000, 1),
    }
