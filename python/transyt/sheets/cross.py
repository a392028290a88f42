"""Rows against one another: what a row names has to be there, and what a table needs has to stand."""

from typing import Dict, Set, Tuple

from .faults import Judge
from .model import ArmKey, Link, Movement, Sheets


def judge_sheets(sheets: Sheets, judge: Judge) -> None:
    """Notes every fault that no row has by itself."""
    judge_junctions(sheets, judge)
    for link in sheets.links.values():
        judge_link(sheets, link, judge)
    seen: Set[Tuple[ArmKey, str]] = set()
    for movement in sheets.movements:
        judge_movement(sheets, movement, judge)
        if (movement.at, movement.turn) in seen:
            judge.fault(movement.row.place("turn"), f"the turn {movement.turn} of arm {sheets.called(movement.at)} "
                                                    "stands twice")
        seen.add((movement.at, movement.turn))
    judge_ways(sheets, judge)
    judge_gives(sheets, judge)
    judge_counts(sheets, judge)
    judge_feeders(sheets, judge)
    judge_number_of_parts(sheets, judge)


def judge_junctions(sheets: Sheets, judge: Judge) -> None:
    """Each junction has at least two stages, and each stage a junction; changes stand for all stages or for none."""
    for junction in sheets.junctions.values():
        if len(sheets.stages.get(junction.number, ())) < 2:
            judge.fault(junction.row.place("junction"), f"junction {junction.number} has fewer than two stages")
    for number, stages in sheets.stages.items():
        if number not in sheets.junctions:
            judge.fault(stages[0].row.place("junction"), f"there is no junction {number}")
        empty = [stage for stage in stages if stage.change is None]
        if empty and len(empty) < len(stages):
            judge.fault(empty[0].row.place("change"), f"it is empty, and other changes of junction {number} aren't")


def judge_link(sheets: Sheets, link: Link, judge: Judge) -> None:
    """A link's junction and stages are there."""
    if link.junction not in sheets.junctions:
        judge.fault(link.row.place("junction"), f"there is no junction {link.junction}")
        return
    there = {stage.number for stage in sheets.stages.get(link.junction, ())}
    for stage in link.stages:
        if stage not in there:
            judge.fault(link.row.place("stages"), f"junction {link.junction} has no stage {stage}")


def judge_movement(sheets: Sheets, movement: Movement, judge: Judge) -> None:
    """A movement's link stands on its arm, its goal has a link, and there is a way to it."""
    link = sheets.links.get(movement.link)
    if link is None:
        judge.fault(movement.row.place("link"), f"there is no link {movement.link}")
    elif link.at != movement.at:
        judge.fault(movement.row.place("link"), f"link {link.number} stands on arm {sheets.called(link.at)}, and not "
                                                f"on {sheets.called(movement.at)}")
    if movement.goal is None:
        return
    if not sheets.links_of(movement.goal):
        judge.fault(movement.row.place("to arm"), f"no link stands on arm {sheets.called(movement.goal)}")
    if sheets.way(movement.junction, movement.goal) is None:
        judge.fault(movement.row.place("to arm"), f"ways has no row from junction {movement.junction} to arm "
                                                  f"{sheets.called(movement.goal)}")


def judge_ways(sheets: Sheets, judge: Judge) -> None:
    """No way stands twice, each names junctions and arms that are there, and ways to one arm agree on `between`."""
    seen: Set[Tuple[int, int, str]] = set()
    for way in sheets.ways:
        key = (way.source, way.goal, way.arm)
        if key in seen:
            judge.fault(way.row.place("to arm"), "this way stands twice")
        seen.add(key)
        for column, number in (("from junction", way.source), ("to junction", way.goal)):
            if number not in sheets.junctions:
                judge.fault(way.row.place(column), f"there is no junction {number}")
        if way.arm and way.goal in sheets.junctions and not sheets.links_of((way.goal, way.arm)):
            judge.fault(way.row.place("to arm"), f"no link stands on arm {sheets.called((way.goal, way.arm))}")
    between: Dict[ArmKey, str] = {}
    for movement in sheets.movements:
        used = sheets.way(movement.junction, movement.goal) if movement.goal else None
        if used and movement.goal and between.setdefault(movement.goal, used.between) != used.between:
            judge.fault(used.row.place("between"), f"two ways to arm {sheets.called(movement.goal)} differ in it")


def judge_gives(sheets: Sheets, judge: Judge) -> None:
    """Give-way rules name links, and no link has two."""
    seen: Set[int] = set()
    for give in sheets.gives:
        for column, number in (("link", give.link), ("other", give.other)):
            if number not in sheets.links:
                judge.fault(give.row.place(column), f"there is no link {number}")
        if give.link in seen:
            judge.fault(give.row.place("link"), f"link {give.link} gives way twice")
        seen.add(give.link)


def judge_counts(sheets: Sheets, judge: Judge) -> None:
    """Each arm of a link or a movement is counted, and each turn of it; other turns have no vehicles."""
    turns: Dict[ArmKey, Set[str]] = {link.at: set() for link in sheets.links.values()}
    for movement in sheets.movements:
        turns.setdefault(movement.at, set()).add(movement.turn)
    for count in sheets.counts:
        if count.at not in turns:
            judge.fault(count.row.place("arm"), f"there is no arm {sheets.called(count.at)}")
            continue
        for turn, vehicles in count.vehicles.items():
            if turn in turns[count.at] and vehicles is None:
                judge.fault(count.row.place(turn), "it is empty, and movements has this turn; write 0 for none")
            elif turn not in turns[count.at] and vehicles:
                judge.fault(count.row.place(turn), f"{vehicles} vehicles make a turn that movements hasn't")
    counted = {count.at for count in sheets.counts}
    for arm in turns:
        if arm not in counted:
            judge.fault("counts", f"arm {sheets.called(arm)} was never counted")


def judge_feeders(sheets: Sheets, judge: Judge) -> None:
    """No link has more than eight feeders."""
    for link in sheets.links.values():
        feeders = {movement.link for movement in sheets.movements if movement.goal == link.at}
        if len(feeders) > 8:
            judge.fault(link.row.place("link"), f"link {link.number} is fed by {len(feeders)} links, and 8 are the "
                                                "most")


def judge_number_of_parts(sheets: Sheets, judge: Judge) -> None:
    """At most 200 junctions and 1,000 links."""
    for table, count, most in (("junctions", len(sheets.junctions), 200), ("links", len(sheets.links), 1_000)):
        if count > most:
            judge.fault(table, f"there are {count:,} {table}, and {most:,} are the most")
