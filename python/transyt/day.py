"""A plan for each period of the sheets, filed; a period that nothing touched since keeps its folder."""

import csv
import io
import os
import shutil
import tempfile
from dataclasses import dataclass, replace
from typing import Callable, Dict, List, Optional, Sequence, Tuple

from .best import Search, Wanted
from .comparing import in_millions
from .deck import Deck, read_deck
from .faults import Fault
from .filing.checking import hold
from .filing.commands import FiledReport
from .filing.folder import DECK, REPORT, sum_of
from .filing.writing import Asked, made_files, write_folder
from .html import document, figure, table, text
from .local import climb_to_local
from .page import seconds_text, times_of
from .program import Program
from .rows import read_rows
from .sheets import Sheets, make_deck
from .sheets.checking import balanced, checked
from .sheets.faults import Faults
from .sheets.hour import read_window
from .sheets.values import time_text
from .text import csv_name, decoded, lines_of

MADE_OF = "* MADE-OF "  # the sum of all that a period's plan was made of
Tell = Callable[[str], None]


@dataclass(frozen=True)
class Day:
    """What a day is made with: the sheets, how plans are searched, what they say of themselves, who is told."""

    sheets: Sheets
    program: Program
    wanted: Wanted
    asked: Asked
    tell: Tell
    progress: Tell


@dataclass(frozen=True)
class Planned:
    """A period's plan: its name as a folder, and its filed deck and report."""

    name: str
    report: FiledReport


def made_day(day: Day, folder: str, one_cycle: bool) -> List[Planned]:
    """Makes and files the plan of each period; returns them in the order of the sheets."""
    if not day.sheets.periods:
        raise Fault("periods has no row: a day has a plan for each")
    decks = {name: deck_of(day, name) for name in day.sheets.periods}
    wanted = day.wanted
    if one_cycle:
        cycle = common_cycle(day, list(decks.values()))
        wanted = replace(wanted, cycles=(cycle, cycle, 1))
    plans: List[Planned] = []
    for name, deck in decks.items():
        before = plans[-1].report.deck() if plans else None
        plans.append(made_period(replace(day, wanted=wanted), os.path.join(folder, name), deck, before))
    return plans


def deck_of(day: Day, name: str) -> Deck:
    """The deck of a period, checked against the program."""
    period = day.sheets.periods[name]
    try:
        made = make_deck(day.sheets, read_window(time_text(period.begin), period.minutes))
    except Faults as faults:
        raise Faults([f"period {period.name}: {sentence}" for sentence in faults.sentences]) from faults
    made = balanced(made, day.program.path)
    deck, told = checked(made, day.program.path)
    for sentence in (*made.told, *told):
        day.tell(f"{name}: {sentence}")
    return deck


def common_cycle(day: Day, decks: Sequence[Deck]) -> int:
    """The cycle time with the least sum of indexes over all periods; of equals the first."""
    if day.wanted.cycles is None:
        raise Fault("--one-cycle needs --cycles LOW HIGH BY")
    low, high, by = day.wanted.cycles
    best: Optional[Tuple[int, int]] = None
    for cycle in range(low, high + 1, by):
        total = 0
        for deck in decks:
            rows = read_rows(day.program.answer(["cycles", day.wanted.workers, cycle, cycle, 1], str(deck.bare()))).rows
            if not rows or rows[0].index is None:
                break
            total += rows[0].index
        else:
            if best is None or total < best[0]:
                best = total, cycle
    if best is None:
        raise Fault("no cycle time can be climbed on in every period")
    day.tell(f"one cycle for all periods: {best[1]} s, the sum of their indexes is {best[0]}")
    return best[1]


def made_period(day: Day, folder: str, deck: Deck, before: Optional[Deck]) -> Planned:
    """A period's plan, as it is filed already where nothing that it is made of has changed, or searched and filed."""
    name = os.path.basename(folder)
    made_of = (deck, day.wanted, replace(day.asked, sheets=None), before and before.plan(), before and before.frame)
    key = sum_of("\n".join(map(str, made_of)).encode("utf-8"))
    kept = filed_before(folder, key)
    if kept:
        day.tell(f"{name}: nothing that it is made of has changed")
        return Planned(name, kept)
    search = Search(deck, day.program, day.wanted, lambda said: day.tell(f"{name}: {said}"), day.progress)
    search.run()
    search.check()
    found = turned(day, name, search.deck, before)
    whole = replace(found, comments=(*[line for line in found.comments if not line.startswith(MADE_OF)], MADE_OF + key))
    files = made_files(whole, day.program, day.asked)
    replace_folder(folder, files, lambda path: hold(path, day.program))
    filed = read_deck(files[DECK])
    return Planned(name, FiledReport(filed, lines_of(decoded(files[REPORT]))))


def filed_before(folder: str, key: str) -> Optional[FiledReport]:
    """The report of a folder that was made of the same."""
    try:
        with open(os.path.join(folder, DECK), "rb") as file:
            deck = read_deck(file.read())
        with open(os.path.join(folder, REPORT), "rb") as file:
            report = FiledReport(deck, lines_of(decoded(file.read())))
    except (OSError, Fault):
        return None
    return report if MADE_OF + key in deck.comments else None


def replace_folder(folder: str, files: Dict[str, bytes], judge: Tell) -> None:
    """Writes a folder in the place of the one that is there."""
    os.makedirs(os.path.dirname(os.path.abspath(folder)), exist_ok=True)
    if not os.path.lexists(folder):
        write_folder(folder, files, judge)
        return
    aside = tempfile.mkdtemp(prefix=".old.", dir=os.path.dirname(os.path.abspath(folder)))
    os.rename(folder, os.path.join(aside, "plan"))
    try:
        write_folder(folder, files, judge)
    except BaseException:
        os.rename(os.path.join(aside, "plan"), folder)
        raise
    finally:
        shutil.rmtree(aside, ignore_errors=True)


def turned(day: Day, name: str, deck: Deck, before: Optional[Deck]) -> Deck:
    """A plan turned as a whole toward the one before, and climbed on until LOCAL; where both have one cycle."""
    if before is None or (before.frame.cycle, before.frame.step_count) != (deck.frame.cycle, deck.frame.step_count):
        return deck
    turn = least_turn(deck, before)
    if turn == 0:
        return deck
    count = deck.frame.step_count
    nodes = tuple(replace(node, offset=(node.offset + turn) % count) for node in deck.nodes)
    found, index = climb_to_local(replace(deck, nodes=nodes), day.wanted.workers, day.program.path,
                                  lambda said: day.tell(f"{name}: {said}"))
    day.tell(f"{name}: turned by {turn} steps toward the period before; INDEX {index}")
    return found


def least_turn(deck: Deck, before: Deck) -> int:
    """The least number of steps by which a plan is turned so that stage 1 of its junctions begins nearest to the plan
    before: the sum of the shorter ways round the cycle is least."""
    count = deck.frame.step_count
    apart = [(begin_of(deck, node.number) - begin_of(before, node.number)) % count for node in deck.nodes
             if node.number in before.node_by_number]

    def moved(turn: int) -> int:
        return sum(min((way + turn) % count, -(way + turn) % count) for way in apart)

    return min(range(count), key=lambda turn: (moved(turn), turn))


def begin_of(deck: Deck, number: int) -> int:
    """AT of a junction's stage 1."""
    node = deck.node(number)
    return (node.offset + node.stages[0].change) % deck.frame.step_count


def rows_of(plans: Sequence[Planned]) -> Tuple[List[List[str]], List[List[str]]]:
    """The rows of the day: one a period, and one a junction and stage with its times in each period."""
    periods = []
    for plan in plans:
        deck, figures = plan.report.deck(), plan.report.figures()
        worst = figures.link(figures.worst).raw["SATURATION"] if figures.worst else 0
        periods.append([plan.name, str(deck.frame.cycle), str(figures.index), in_millions(figures.total.raw["DELAY"]),
                        in_millions(figures.total.raw["STOPS"]), str(figures.worst), f"{worst / 10:.1f}"])
    stages = []
    first = plans[0].report
    for node in first.timing().nodes:
        for stage in node.stages:
            row = [str(node.number), first.deck().names.nodes.get(node.number, ""), str(stage.number),
                   first.deck().names.stages.get((node.number, stage.number), "")]
            for plan in plans:
                there = plan.report.timing().node(node.number).stages[stage.number - 1]
                row += [seconds_text(plan.report.deck(), steps) for _, steps in times_of(plan.report.deck(), there)]
            stages.append(row)
    return periods, stages


PERIOD_HEADS = ["period", "cycle, s", "INDEX", "vehicle-hours", "stops a second", "fullest link", "its saturation, %"]


def stage_heads(plans: Sequence[Planned]) -> List[str]:
    """The heads of the table of stages."""
    times = ("intergreen begins (s)", "intergreen lasts (s)", "green begins (s)", "green lasts (s)")
    return ["junction", "name", "stage", "name"] + [f"{plan.name}: {head}" for plan in plans for head in times]


def day_csv(plans: Sequence[Planned]) -> str:
    """The day as CSV: the periods, an empty row, the stages."""
    periods, stages = rows_of(plans)
    out = io.StringIO()
    writer = csv.writer(out, lineterminator="\n")
    writer.writerow(PERIOD_HEADS)
    writer.writerows(periods)
    writer.writerow([])
    writer.writerow(stage_heads(plans))
    writer.writerows([row[0], csv_name(row[1]), row[2], csv_name(row[3]), *row[4:]] for row in stages)
    return out.getvalue()


def day_html(plans: Sequence[Planned], title: str) -> str:
    """The day as a page."""
    periods, stages = rows_of(plans)
    shown = []
    for row, plan in zip(periods, plans):
        total = plan.report.figures().total
        shown.append([text(row[0]), row[1], figure(f"{plan.name} {total.place('INDEX')}", total.raw["INDEX"], row[2]),
                      figure(f"{plan.name} {total.place('DELAY')}", total.raw["DELAY"], row[3], "DELAY / 1,000,000"),
                      figure(f"{plan.name} {total.place('STOPS')}", total.raw["STOPS"], row[4], "STOPS / 1,000,000"),
                      row[5], row[6]])
    cells = [[row[0], text(row[1]), row[2], text(row[3]), *row[4:]] for row in stages]
    return document(title, f"<h1>{text(title)}</h1>\n<h2>Periods</h2>\n{table(PERIOD_HEADS, shown, 6)}\n"
                    f"<h2>Stages, in seconds of the common cycle</h2>\n"
                    f"{table([text(head) for head in stage_heads(plans)], cells, 4 * len(plans))}")
