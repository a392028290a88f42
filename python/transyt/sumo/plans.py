"""Two plans driven with the same cars, and the table of it.

For each link the table has the program's seconds a vehicle and queue, and SUMO's.
"""

import math
import os
import statistics
import subprocess
from concurrent.futures import ThreadPoolExecutor
from dataclasses import dataclass
from typing import Callable, Dict, List, Optional, Sequence, Tuple

from ..deck import Deck, Link
from ..faults import Fault
from ..terminal import progress
from .calibrate import calibrate
from .cars import draw_cars, write_cars
from .drive import SECONDS, Measures, Run, drive, write_signals
from .figures import PlanFigures
from .network import build


MARK = "A star: SUMO's figure in bold differs from the program's by more than a third of it.\n"


@dataclass(frozen=True)
class Plan:
    """A plan with its name, its deck, the program's figures of each link, and SUMO's measures of each run."""

    name: str
    deck: Deck
    figures: PlanFigures
    runs: List[Measures]

    @property
    def delay(self) -> float:
        """The program's vehicle-hours of delay an hour."""
        return sum(link.delay for link in self.figures.links.values())

    @property
    def driven_delay(self) -> float:
        """SUMO's vehicle-hours of delay an hour, as a mean over the runs."""
        return statistics.fmean(run.delay for run in self.runs)

    def driven_seconds(self, number: int) -> float:
        """SUMO's mean delay of a vehicle on a link in seconds, over all runs."""
        links = [run.links[number] for run in self.runs]
        vehicles = sum(link.vehicles for link in links)
        return 3600 * sum(link.delay for link in links) / vehicles if vehicles else 0.0

    def driven_queue(self, number: int) -> float:
        """SUMO's queue of a link, as a mean over the runs."""
        return statistics.fmean(run.links[number].queue for run in self.runs)


def check_same_demand(one: Deck, other: Deck) -> None:
    """Refuses two decks that differ in more than their plans and cycles."""
    def demand(deck: Deck) -> Dict[int, object]:
        return {link.number: (link.node, link.entry, link.saturation, link.feeds, link.gives_way)
                for link in deck.links}

    if demand(one) != demand(other):
        raise Fault("the two decks differ in links, flows, saturation flows, feeds or give-way rules, and so can't "
                    "share their cars")


def write_all_cars(deck: Deck, headway: float, folder: str, seeds: Sequence[int]) -> int:
    """Writes the cars of each seed, and tells how many they are together."""
    count = 0
    for seed in seeds:
        cars = draw_cars(deck, seed, SECONDS)
        count += len(cars)
        write_cars(deck, cars, headway, os.path.join(folder, f"cars-{seed}.rou.xml"))
    return count


def drive_plans(plans: Sequence[Plan], folder: str, seeds: Sequence[int], jobs: int) -> Tuple[float, int]:
    """Drives each plan with each seed's cars, some runs at once; adds the measures to the plans, and tells of the cars.

    What is told is how many seconds a car stays behind the one ahead, and how many cars all seeds have.
    """
    first = plans[0].deck
    net = build(first, folder)
    headway = calibrate(first, os.path.join(folder, "calibration"))
    count = write_all_cars(first, headway, folder, seeds)
    runs: List[Tuple[Plan, Run]] = []
    for place, plan in enumerate(plans):
        signals = f"plan{place}.add.xml"
        write_signals(plan.deck, net, os.path.join(folder, signals))
        cycle = plan.deck.frame.cycle
        runs += [(plan, Run(folder, cycle, signals, f"cars-{seed}.rou.xml", seed)) for seed in seeds]
    with ThreadPoolExecutor(jobs) as pool:
        driven = pool.map(lambda asked: drive(asked[0].deck, net, asked[1]), runs)
        for done, ((plan, _), measures) in enumerate(zip(runs, driven), 1):
            plan.runs.append(measures)
            progress(f"{done} of {len(runs)} runs")
    return headway, count


def correlation(pairs: Sequence[Tuple[float, float]]) -> Optional[float]:
    """The correlation of pairs, or None where there is none to tell."""
    if len(pairs) < 2:
        return None
    means = [statistics.fmean(side) for side in zip(*pairs)]
    apart = [(one - means[0], other - means[1]) for one, other in pairs]
    spread = math.sqrt(sum(one * one for one, _ in apart) * sum(other * other for _, other in apart))
    return sum(one * other for one, other in apart) / spread if spread else None


def told(number: Optional[float], digits: int = 2) -> str:
    """A number as the table has it."""
    return "-" if number is None else f"{number:.{digits}f}"


def row(cells: Sequence[object]) -> str:
    """A row of the table."""
    return "| " + " | ".join(str(cell) for cell in cells) + " |"


def is_apart(programs: float, driven: float) -> bool:
    """Whether SUMO's figure differs from the program's by more than a third of that, as they are shown."""
    return abs(round(driven, 1) - round(programs, 1)) * 3 > round(programs, 1) + 1e-9


def driven_cell(programs: float, driven: float) -> str:
    """SUMO's figure, bold where it is apart from the program's."""
    return f"**{told(driven, 1)}**" if is_apart(programs, driven) else told(driven, 1)


def link_cells(plan: Plan, link: Link) -> List[str]:
    """The cells of a link and a plan: seconds a vehicle and queue, the program's and SUMO's."""
    figures = plan.figures.link(link.number)
    seconds, queue = plan.driven_seconds(link.number), plan.driven_queue(link.number)
    if not link.total_flow:
        return [told(figures.seconds, 1), told(seconds, 1), told(figures.queue, 1), told(queue, 1)]
    return [told(figures.seconds, 1), driven_cell(figures.seconds, seconds),
            told(figures.queue, 1), driven_cell(figures.queue, queue)]


def link_table(plans: Sequence[Plan]) -> List[str]:
    """The table of links: for each plan seconds a vehicle and queue, the program's and SUMO's.

    A link has a star where SUMO's seconds or queue are bold: they differ by more than a third.
    """
    heads = [head for plan in plans
             for head in (f"{plan.name}: s a vehicle", "in SUMO", f"{plan.name}: queue", "in SUMO")]
    lines = [row(["link", "vehicles an hour", *heads]), row(["--:"] * (2 + len(heads)))]
    for link in plans[0].deck.links:
        cells = [cell for plan in plans for cell in link_cells(plan, link)]
        star = "*" if any("**" in cell for cell in cells) else ""
        lines.append(row([f"{link.number}{star}", link.total_flow, *cells]))
    return lines


def over_links(plan: Plan, figure: str, driven: Callable[[int], float]) -> Optional[float]:
    """The correlation of a figure of the program's with SUMO's over the links that have traffic."""
    used = [link.number for link in plan.deck.links if link.total_flow]
    return correlation([(getattr(plan.figures.link(number), figure), driven(number)) for number in used])


def total_table(plans: Sequence[Plan]) -> List[str]:
    """The table of totals: vehicle-hours of delay an hour on both sides, their ratio, and correlations over links."""
    one, other = plans
    ratios = [after.delay / before.delay for before, after in zip(one.runs, other.runs)]
    ratio = f"{other.driven_delay / one.driven_delay:.3f}, from {min(ratios):.3f} to {max(ratios):.3f} by seed"
    shares = [told(plan.driven_delay / plan.delay) for plan in plans]
    seconds = [told(over_links(plan, "seconds", plan.driven_seconds)) for plan in plans]
    queues = [told(over_links(plan, "queue", plan.driven_queue)) for plan in plans]
    return [
        row(["", one.name, other.name, f"{other.name} / {one.name}"]), row([":--", "--:", "--:", "--:"]),
        row(["cycle, seconds", one.deck.frame.cycle, other.deck.frame.cycle, ""]),
        row(["the program's index, millions", told(one.figures.index / 1e6), told(other.figures.index / 1e6),
             told(other.figures.index / one.figures.index, 3)]),
        row(["delay by the program, vehicle-hours an hour", told(one.delay), told(other.delay),
             told(other.delay / one.delay, 3)]),
        row(["delay in SUMO, vehicle-hours an hour", told(one.driven_delay), told(other.driven_delay), ratio]),
        row(["SUMO / program", *shares, ""]),
        row(["correlation over the links, seconds a vehicle", *seconds, ""]),
        row(["correlation over the links, queue", *queues, ""]),
        row(["collisions in all runs", *(sum(run.collisions for run in plan.runs) for plan in plans), ""]),
    ]


def sumo_version() -> str:
    """The first line that SUMO tells of itself."""
    try:
        return subprocess.run(["sumo", "--version"], capture_output=True, text=True).stdout.split("\n")[0]
    except FileNotFoundError as error:
        raise Fault("sumo is not installed: examples/sumo/README.md says how it is") from error


def table(plans: Sequence[Plan], folder: str, seeds: Sequence[int], jobs: int) -> List[str]:
    """Drives the plans, and tells the lines of the whole table."""
    version = sumo_version()
    headway, count = drive_plans(plans, folder, seeds, jobs)
    runs = [run for plan in plans for run in plan.runs]
    end = (f"{version}, seeds 1 to {len(seeds)}, {count // len(seeds)} cars a run that stay {headway:.2f} s behind "
           f"one another; {sum(run.collisions for run in runs)} collisions and {sum(run.teleports for run in runs)} "
           f"teleports in {len(runs)} runs; {sum(os.times()[:4]):.0f} s of processor time.")
    links = link_table(plans)
    mark = [MARK] if any("**" in line for line in links) else []
    return total_table(plans) + [""] + links + [""] + mark + [end]
