"""Sheets into a deck: seconds as steps, the flows of a window, names; and what is told of it."""

from dataclasses import dataclass, replace
from fractions import Fraction
from typing import Dict, List, Mapping, Optional, Tuple

from ..deck import ClimbPlan, Deck, Feed, Frame, GiveWay, Link, Node, Stage
from ..faults import Fault
from ..names import Names
from . import model, values
from .faults import Judge
from .flows import ArmBalance, Flows, LinkFlow, flows_of
from .hour import Asked, Window, window_of
from .model import Sheets
from .tables import Row

# By gap acceptance, with a critical gap of 4.5 s and a follow-up time of 2.5 s: from so many vehicles an hour of the
# link with priority on, the percentage of a link that gives way to it.
GIVE_WAY = ((0, 130), (200, 119), (400, 110), (600, 101), (800, 94), (1000, 87), (1200, 81), (1400, 75), (1600, 70),
            (1800, 65), (2400, 54), (3000, 45))
LAGS = {"start lag": 2, "end lag": 3}  # seconds, where the field is empty
SIZES = (40, 26, 16, 10, 4, 2)  # percent of the steps, where no sizes are told
MOST_FLOW = 9_999  # vehicles an hour


@dataclass(frozen=True)
class Made:
    """A deck that was made of sheets, and what is told of it.

    `counts` has the count of each link in vehicles an hour, `unbalanced` the junctions whose changes are still the
    program's to give, `balances` the inner arms, worst first, `told` sentences.
    """

    deck: Deck
    counts: Mapping[int, int]
    window: Window
    unbalanced: Tuple[int, ...]
    balances: Tuple[ArmBalance, ...]
    told: Tuple[str, ...]


def make_deck(sheets: Sheets, asked: Asked, plan: Optional[Deck] = None) -> Made:
    """The deck of sheets in a window; with a plan, whose cycle, steps, offsets and changes it takes."""
    judge, told = Judge(), []
    frame = framed(sheets, plan)
    window, said = window_of(sheets, asked)
    told += said
    if window.minutes != frame.period:
        told.append(f"the window has {window.minutes} minutes, and the period of the frame {frame.period}")
    flows = flows_of(sheets, window)
    told += flows.told
    planned = None if plan is None else planned_of(sheets, plan, judge)
    steps = Steps(frame, judge, told)
    nodes, unbalanced = nodes_of(sheets, steps, planned)
    links = links_of(sheets, steps, flows)
    judge.raise_faults()
    told += unused(sheets)
    deck = Deck(Frame(frame.cycle, frame.steps, frame.sweeps, frame.period, frame.stop, frame.dispersion), nodes, links,
                climb_plan_of(frame, nodes), names_of(sheets, window))
    counts = {number: flow.count for number, flow in flows.links.items()}
    return Made(deck, counts, window, unbalanced, flows.balances, tuple(told))


def framed(sheets: Sheets, plan: Optional[Deck]) -> model.Frame:
    """The frame, with the cycle and steps of a plan where one is given."""
    if plan is None:
        return sheets.frame
    if plan.frame.cycle * sheets.frame.steps != sheets.frame.cycle * plan.frame.step_count:
        raise Fault(f"a step of the plan is {plan.frame.cycle} s in {plan.frame.step_count}, and one of the sheets "
                    f"{sheets.frame.cycle} s in {sheets.frame.steps}")
    return replace(sheets.frame, cycle=plan.frame.cycle, steps=plan.frame.step_count)


def planned_of(sheets: Sheets, plan: Deck, judge: Judge) -> Mapping[int, Node]:
    """The nodes of a plan; it has to have the junctions and stages of the sheets."""
    for number, junction in sheets.junctions.items():
        node = plan.node_by_number.get(number)
        if node is None:
            judge.fault(junction.row.place("junction"), f"the plan has no junction {number}")
        elif len(node.stages) != len(sheets.stages[number]):
            judge.fault(junction.row.place("junction"), f"the plan has {len(node.stages)} stages at junction {number}, "
                                                        f"and the sheets have {len(sheets.stages[number])}")
    for number in plan.node_by_number:
        if number not in sheets.junctions:
            judge.fault("junctions", f"the plan has a junction {number}, and the sheets have none")
    judge.raise_faults()
    return plan.node_by_number


class Steps:
    """Seconds of the sheets as steps of the cycle."""

    def __init__(self, frame: model.Frame, judge: Judge, told: List[str]) -> None:
        self.frame, self.judge, self.told = frame, judge, told

    def of(self, row: Row, column: str, seconds: Fraction, least: int, most: int) -> int:
        """Seconds in whole steps within a range; others are a fault, with the two nearest that are whole."""
        steps = seconds / self.frame.step
        if steps.denominator != 1:
            below, above = values.beside(seconds, self.frame.step)
            self.judge.fault(row.place(column), f"{values.seconds_text(seconds)} s is no whole number of steps of "
                             f"{values.seconds_text(self.frame.step)} s; the nearest are {below} and {above} s")
            return least
        if not least <= steps <= most:
            self.judge.fault(row.place(column), f"{values.seconds_text(seconds)} s is not within "
                             f"{values.seconds_text(least * self.frame.step)} to "
                             f"{values.seconds_text(most * self.frame.step)} s")
            return least
        return int(steps)

    def lag(self, row: Row, column: str, seconds: Optional[Fraction]) -> int:
        """A lag in steps; where the field is empty the nearest to its default, told where that isn't exact."""
        if seconds is not None:
            return self.of(row, column, seconds, 0, self.frame.steps - 1)
        steps = min(values.half_up(LAGS[column] / self.frame.step), self.frame.steps - 1)
        if steps * self.frame.step != LAGS[column]:
            self.told.append(f"{row.place(column)}: {LAGS[column]} s is taken as "
                             f"{values.seconds_text(steps * self.frame.step)} s")
        return steps


def nodes_of(sheets: Sheets, steps: Steps, planned: Optional[Mapping[int, Node]]) -> Tuple[Tuple[Node, ...],
                                                                                           Tuple[int, ...]]:
    """The nodes by number, and which of them have changes that are still to be given."""
    nodes: List[Node] = []
    unbalanced: List[int] = []
    for number, junction in sorted(sheets.junctions.items()):
        stages = sheets.stages[number]
        offset = steps.of(junction.row, "offset", junction.offset, 0, steps.frame.steps - 1)
        sizes = [(steps.of(stage.row, "intergreen", stage.intergreen, 0, steps.frame.steps - 1),
                  steps.of(stage.row, "least", stage.least, 1, steps.frame.steps)) for stage in stages]
        if planned is not None:
            offset, changes = planned[number].offset, [stage.change for stage in planned[number].stages]
        elif stages[0].change is None:
            changes = shortest(junction, sizes, steps)
            unbalanced.append(number)
        else:
            changes = [steps.of(stage.row, "change", stage.change or Fraction(0), 0, steps.frame.steps - 1)
                       for stage in stages]
        nodes.append(Node(number, offset, tuple(Stage(change, *size) for change, size in zip(changes, sizes))))
    return tuple(nodes), tuple(unbalanced)


def shortest(junction: model.Junction, sizes: List[Tuple[int, int]], steps: Steps) -> List[int]:
    """Changes with which stage 1 begins at 0, the others last as long as their intergreen and least green, and stage 1
    has the rest."""
    lengths = [intergreen + least for intergreen, least in sizes]
    if sum(lengths) > steps.frame.steps:
        seconds = values.seconds_text(sum(lengths) * steps.frame.step)
        steps.judge.fault(junction.row.place("junction"), f"intergreens and least greens of junction {junction.number} "
                          f"sum to {seconds} s, and the cycle has {steps.frame.cycle}")
    first = steps.frame.steps - sum(lengths[1:])
    return [0] + [first + sum(lengths[1:place]) for place in range(1, len(lengths))]


def links_of(sheets: Sheets, steps: Steps, flows: Flows) -> Tuple[Link, ...]:
    """The links by number, with their feeds by feeder and their give-way rules."""
    gives = {give.link: give for give in sheets.gives}
    links = []
    for number, link in sorted(sheets.links.items()):
        flow = flows.links[number]
        judge_flow(link, flow, steps.judge)
        lags = steps.lag(link.row, "start lag", link.start_lag), steps.lag(link.row, "end lag", link.end_lag)
        feeds = tuple(Feed(feeder, vehicles, cruise_of(sheets, feeder, link)) for feeder, vehicles in flow.feeds)
        rule = rule_of(gives[number], flows, steps.told) if number in gives else None
        links.append(Link(number, link.junction, flow.entry, link.saturation, link.delay_weight, link.stop_weight,
                          *lags, link.stages, feeds, rule))
    return tuple(links)


def judge_flow(link: model.Link, flow: LinkFlow, judge: Judge) -> None:
    """Notes flows that no card takes."""
    for what, vehicles in (("the entry flow", flow.entry), *((f"the feed from link {one}", many)
                                                             for one, many in flow.feeds)):
        if vehicles > MOST_FLOW:
            judge.fault(link.row.place("link"), f"{what} of link {link.number} is {vehicles:,} vehicles an hour, and "
                                                f"{MOST_FLOW:,} are the most")


def cruise_of(sheets: Sheets, feeder: int, link: model.Link) -> int:
    """The cruise time from a feeder to a link, in seconds."""
    way = sheets.way(sheets.links[feeder].junction, link.at)
    return way.seconds if way else 1


def rule_of(give: model.Give, flows: Flows, told: List[str]) -> GiveWay:
    """A give-way rule; an empty percentage is estimated out of the count of the link with priority."""
    if give.percent is not None:
        return GiveWay(give.other, give.percent)
    count = flows.links[give.other].count
    percent = [percent for flow, percent in GIVE_WAY if flow <= count][-1]
    told.append(f"{give.row.place('percent')}: {percent} is an estimate, by gap acceptance against {count:,} vehicles "
                f"an hour of link {give.other}")
    return GiveWay(give.other, percent)


def climb_plan_of(frame: model.Frame, nodes: Tuple[Node, ...]) -> ClimbPlan:
    """The climb plan: the sizes and budget that are told, or those that the network gives."""
    sizes = frame.sizes
    if sizes is None:
        found = {max(1, values.half_up(Fraction(frame.steps * percent, 100))) for percent in SIZES} | {1}
        sizes = tuple(sorted(found, reverse=True))
    places = 2 * len(sizes) * sum(1 + len(node.stages) for node in nodes)
    return ClimbPlan(frame.budget or max(1, min(1_000_000, 20 * places)), sizes)


def names_of(sheets: Sheets, window: Window) -> Names:
    """The names of all parts, lanes and lengths, and the window."""
    metres: Dict[Tuple[int, int], int] = {}
    for movement in sheets.movements:
        way = sheets.way(movement.junction, movement.goal) if movement.goal else None
        if way and way.metres and movement.goal:
            metres.update({(link.number, movement.link): way.metres for link in sheets.links_of(movement.goal)})
    return Names(
        sheets.frame.town,
        {number: junction.name for number, junction in sheets.junctions.items() if junction.name},
        {(number, stage.number): stage.name for number, stages in sheets.stages.items() for stage in stages
         if stage.name},
        {number: link.name for number, link in sheets.links.items() if link.name},
        {number: link.lanes for number, link in sheets.links.items() if link.lanes}, metres, str(window))


def unused(sheets: Sheets) -> List[str]:
    """What is taken and told: stages without a link, and links without a movement."""
    used = {(link.junction, stage) for link in sheets.links.values() for stage in link.stages}
    moving = {movement.link for movement in sheets.movements}
    stages = [f"{stage.row.place('stage')}: no link uses stage {stage.number} of junction {number}, as where it is for "
              "pedestrians" for number, stages in sorted(sheets.stages.items()) for stage in stages
              if (number, stage.number) not in used]
    return stages + [f"{link.row.place('link')}: no movement uses link {number}, and so its count is 0"
                     for number, link in sorted(sheets.links.items()) if number not in moving]
