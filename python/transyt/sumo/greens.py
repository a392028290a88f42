"""The steps at which a link is green, by the rules of docs/MODEL.md, "Green"; and the signals as SUMO takes them."""

from typing import List, Sequence, Tuple

from ..deck import Deck, Frame, Link, Node
from ..faults import Fault
from ..report import UNITS
from .figures import PlanFigures

YELLOW = 3  # seconds of yellow after a green
TICKS = 2  # signals switch at whole half seconds, which are SUMO's time steps here


def shown_steps(deck: Deck, link: Link) -> List[bool]:
    """For each step of the network whether the link's node shows it, lags apart."""
    return [is_shown(deck, link, step) for step in range(deck.frame.step_count)]


def is_shown(deck: Deck, link: Link, step: int) -> bool:
    """Whether a stage of the link is on at a step and past its intergreen, or the link ran in the stage before too."""
    step_count, node = deck.frame.step_count, deck.node(link.node)
    for place, stage in enumerate(node.stages):
        age = (step - node.offset - stage.change) % step_count
        before = (place - 1) % len(node.stages) + 1
        if place + 1 in link.stages and age < node.length(place + 1, step_count):
            return age >= stage.intergreen or before in link.stages
    return False


def green_steps(shown: Sequence[bool], start_lag: int, end_lag: int) -> List[bool]:
    """The steps at which a link that is shown at the given steps is green, its lags reckoned in."""
    def is_green(step: int) -> bool:
        opened = any(shown[step - past] and not shown[step - past - 1] for past in range(start_lag))
        return not opened and any(shown[step - past] for past in range(end_lag + 1))

    return [is_green(step) for step in range(len(shown))]


def expected_go(deck: Deck, link: Link) -> Tuple[int, ...]:
    """GO of a link without a give-way rule: its saturation flow in units per step where it is green, else 0."""
    frame = deck.frame
    rate = link.saturation * frame.cycle * UNITS // (3600 * frame.step_count)
    green = green_steps(shown_steps(deck, link), link.start_lag, link.end_lag)
    return tuple(rate if is_green else 0 for is_green in green)


def is_green_of(deck: Deck, link: Link, go: Sequence[int]) -> bool:
    """Whether a link's GO is as laid out here; one that gives way lets something pass at each green step, not all."""
    expected = expected_go(deck, link)
    if not link.gives_way:
        return expected == tuple(go)
    return len(go) == len(expected) and all(0 < passed <= most or passed == most == 0
                                            for passed, most in zip(go, expected))


def check_greens(deck: Deck, figures: PlanFigures) -> None:
    """Refuses a deck of which a link's GO, as laid out here, differs from the program's at some step."""
    for link in deck.links:
        if not is_green_of(deck, link, figures.link(link.number).go):
            raise Fault(f"the green of link {link.number} as laid out here isn't that of the program's "
                        f"PROFILE {link.number}")


def tick_steps(frame: Frame) -> List[int]:
    """For each half second of the cycle the step in which it lies."""
    ends = [round(TICKS * frame.cycle * step / frame.step_count) for step in range(frame.step_count + 1)]
    return [step for step in range(frame.step_count) for _ in range(ends[step], ends[step + 1])]


def aspects(shown: Sequence[bool], frame: Frame) -> str:
    """The signal of a link at each half second of the cycle: G for green, y for yellow, r for red."""
    green = [shown[step] for step in tick_steps(frame)]

    def aspect(tick: int) -> str:
        if green[tick]:
            return "G"
        return "y" if any(green[tick - past] for past in range(1, YELLOW * TICKS + 1)) else "r"

    return "".join(aspect(tick) for tick in range(len(green)))


def stage_names(node: Node, frame: Frame) -> List[str]:
    """At each half second of the cycle the stage that a node shows, `stage 2`, or to which it goes, `to stage 2`."""
    def name(step: int) -> str:
        for place, stage in enumerate(node.stages, 1):
            age = (step - node.offset - stage.change) % frame.step_count
            if age < node.length(place, frame.step_count):
                return f"{'to ' if age < stage.intergreen else ''}stage {place}"
        return ""

    return [name(step) for step in tick_steps(frame)]


def phases(signals: Sequence[str], names: Sequence[str]) -> List[Tuple[float, str, str]]:
    """The phases of a node: from each signal's aspects and the stages' names, (seconds, state, name) in turn."""
    found: List[Tuple[float, str, str]] = []
    for state, name in zip(("".join(state) for state in zip(*signals)), names):
        before = found.pop()[0] if found and found[-1][1:] == (state, name) else 0
        found.append((before + 1 / TICKS, state, name))
    return found
