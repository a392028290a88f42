"""The tables of a town, as rows of text, and their files."""

import csv
import os
from fractions import Fraction
from typing import Dict, Iterable, List, Optional, Sequence

from ..faults import Fault
from ..sheets.flows import by_remainder
from ..sheets.values import half_up, seconds_text, time_text
from ..sumo.netfile import Connection
from ..text import csv_name, name_fault
from .arms import Arm, Tell, Turn
from .counts import Interval
from .stages import ON_FOOT, Stage, exact
from .town import Junction, Town

LANE_SATURATION, MOST_SATURATION = 1_800, 9_999
LEAST_GREEN = 7  # seconds, where the program tells none
MOST_CRUISE = 300  # seconds
Tables = Dict[str, List[List[str]]]


def named(name: str) -> str:
    """A name as a field: empty where a deck's comment can't carry it."""
    return "" if name_fault(name, "* NAME LINK 12345 ") else csv_name(name)


def tables_of(town: Town, name: str, intervals: Optional[Sequence[Interval]], tell: Tell) -> Tables:
    """All tables of a town."""
    frame = town.frame
    tables: Tables = {
        "frame": [["name", "value"], ["town", named(name) or "town"], ["cycle", str(frame.cycle)],
                  ["steps", str(frame.steps)]],
        "junctions": [["junction", "name", "offset"]],
        "stages": [["junction", "stage", "name", "intergreen", "least", "change"]],
        "links": [["link", "junction", "arm", "name", "saturation", "lanes", "stages"]],
        "movements": [["junction", "arm", "turn", "link", "to junction", "to arm"]],
    }
    for junction in town.junctions:
        first = town.frame.nearest(junction.begin(junction.program.stages[0])) % frame.cycle
        offset = seconds_text(first) if junction.has_times else ""
        tables["junctions"].append([str(junction.number), named(junction.program.logic.name), offset])
        tables["stages"] += stage_rows(town, junction, tell)
        tables["links"] += link_rows(town, junction, tell)
        tables["movements"] += movement_rows(town, junction)
    tables["ways"] = way_table(town, tell)
    tables["counts"] = count_table(town, intervals, tell)
    tables["gives"] = give_table(town, tell)
    return tables


def stage_rows(town: Town, junction: Junction, tell: Tell) -> List[List[str]]:
    """The rows of a junction's stages."""
    frame, rows = town.frame, []
    stages = junction.program.stages
    first = frame.nearest(junction.begin(stages[0]))
    if not junction.has_times:
        told_if_too_long(town, junction, tell)
    for number, stage in enumerate(stages, 1):
        begin, intergreen = frame.nearest(junction.begin(stage)), frame.nearest(stage.intergreen)
        least = guessed_least(town, stage)
        if junction.has_times:
            following = frame.nearest(junction.begin(stages[number % len(stages)]))
            least = least_green(town, junction, number, least, (following - begin) % frame.cycle - intergreen, tell)
            if (begin, intergreen) != (junction.begin(stage), stage.intergreen):
                tell(f"signals {junction.program.logic.name}: stage {number} begins at "
                     f"{seconds_text(junction.begin(stage))} s with an intergreen of "
                     f"{seconds_text(stage.intergreen)} s, which aren't whole steps: taken are {seconds_text(begin)} s "
                     f"and {seconds_text(intergreen)} s")
        change = seconds_text((begin - first) % frame.cycle) if junction.has_times else ""
        name = "on foot" if stage.places == ON_FOOT else ""
        rows.append([str(junction.number), str(number), name, seconds_text(intergreen), seconds_text(least), change])
    return rows


def guessed_least(town: Town, stage: Stage) -> Fraction:
    """The least green of a stage: what its program tells, else a guess, in whole steps."""
    return max(town.frame.step, town.frame.nearest(stage.least or Fraction(LEAST_GREEN)))


def told_if_too_long(town: Town, junction: Junction, tell: Tell) -> None:
    """Tells where intergreens and least greens don't fit into the cycle, which `./plan deck` refuses."""
    frame = town.frame
    whole = sum(frame.nearest(stage.intergreen) + guessed_least(town, stage) for stage in junction.program.stages)
    if whole > frame.cycle:
        tell(f"signals {junction.program.logic.name}: intergreens and least greens sum to "
             f"{seconds_text(Fraction(whole))} s, which is more than the cycle of {frame.cycle} s: the sheets need a "
             "longer one, or shorter stages")


def least_green(town: Town, junction: Junction, number: int, least: Fraction, green: Fraction, tell: Tell) -> Fraction:
    """The least green of a stage: no longer than its green."""
    signals = junction.program.logic.name
    if green < town.frame.step:
        raise Fault(f"signals {signals}: the green of stage {number} is shorter than a step of "
                    f"{seconds_text(town.frame.step)} s")
    if least > green:
        tell(f"signals {signals}: stage {number} has {seconds_text(green)} s of green, which is its least green here "
             f"in the place of {seconds_text(least)} s")
    return min(least, green)


def link_rows(town: Town, junction: Junction, tell: Tell) -> List[List[str]]:
    """The rows of a junction's links."""
    rows = []
    for arm in junction.arms:
        for place, link in enumerate(arm.links):
            number, lanes = town.number(junction, arm, place), len(link.lanes)
            saturation = min(LANE_SATURATION * lanes, MOST_SATURATION)
            if saturation < LANE_SATURATION * lanes:
                tell(f"edge {arm.edge.name}: {lanes} lanes are taken with {saturation:,} vehicles an hour, the most "
                     "that a deck has")
            turns = " ".join(turn.name for turn in arm.turns if turn.link == place)
            name = named(f"from {arm.edge.street or arm.edge.name}: {turns}")
            rows.append([str(number), str(junction.number), csv_name(arm.edge.name), name, str(saturation), str(lanes),
                         " ".join(map(str, link.stages))])
    return rows


def movement_rows(town: Town, junction: Junction) -> List[List[str]]:
    """The rows of a junction's turns."""
    rows = []
    for arm in junction.arms:
        for turn in arm.turns:
            goal = town.goals.get((junction.number, arm.edge.name, turn.name))
            rows.append([str(junction.number), csv_name(arm.edge.name), turn.name,
                         str(town.number(junction, arm, turn.link)),
                         *((str(goal[0]), csv_name(goal[1])) if goal else ("", ""))])
    return rows


def way_table(town: Town, tell: Tell) -> List[List[str]]:
    """The table of ways."""
    rows = [["from junction", "to junction", "to arm", "metres", "km/h", "seconds", "between"]]
    for (source, goal, arm), way in town.ways.items():
        seconds, metres = way.seconds, max(1, half_up(exact(way.metres)))
        fields = [str(metres), f"{3.6 * metres / seconds:.3f}" if seconds else "", ""]
        if not 1 <= half_up(exact(seconds)) <= MOST_CRUISE or metres > 99_999:
            taken = max(1, min(MOST_CRUISE, half_up(exact(seconds))))
            tell(f"the way from junction {source} to edge {arm} takes {seconds:.1f} s, and a cruise time is 1 to "
                 f"{MOST_CRUISE} s: taken is {taken} s")
            fields = ["", "", str(taken)]
        rows.append([str(source), str(goal), csv_name(arm), *fields, ""])
    return rows


def count_table(town: Town, intervals: Optional[Sequence[Interval]], tell: Tell) -> List[List[str]]:
    """The table of counts: a row for each arm and window; one with empty fields where there are no counts."""
    arms = [(junction, arm) for junction in town.junctions for arm in junction.arms]
    turns = sorted({turn.name for _, arm in arms for turn in arm.turns})
    rows = [["junction", "arm", "from", "minutes", *turns]]
    if intervals is None:
        return rows + [[str(junction.number), csv_name(arm.edge.name), "00:00", "60", *([""] * len(turns))]
                       for junction, arm in arms]
    for interval in intervals:
        for junction, arm in arms:
            counted = counts_of(arm, interval)
            rows.append([str(junction.number), csv_name(arm.edge.name), time_text(interval.begin),
                         str(interval.minutes), *(str(counted[turn]) if turn in counted else "" for turn in turns)])
    known = {(arm.edge.name, turn.goal) for _, arm in arms for turn in arm.turns}
    left = sorted({key for interval in intervals for key in interval.vehicles} - known)
    if left:
        tell(f"{len(left)} of the counts are of no turn of these junctions, and are left: from "
             + ", ".join(f"{start} to {end}" for start, end in left[:3]) + (" .." if len(left) > 3 else ""))
    return rows


def counts_of(arm: Arm, interval: Interval) -> Dict[str, int]:
    """The vehicles of each turn of an arm; turns to one edge share its count by their lanes."""
    found: Dict[str, int] = {}
    for goal in dict.fromkeys(turn.goal for turn in arm.turns):
        alike = [turn for turn in arm.turns if turn.goal == goal]
        whole = interval.vehicles.get((arm.edge.name, goal), Fraction(0))
        lanes = [lane_count(turn) for turn in alike]
        parts = by_remainder([whole * count / sum(lanes) for count in lanes], half_up(whole))
        found.update({turn.name: part for turn, part in zip(alike, parts)})
    return found


def lane_count(turn: Turn) -> int:
    """How many lanes a turn has."""
    return len({one.from_lane for one in turn.connections})


def give_table(town: Town, tell: Tell) -> List[List[str]]:
    """The table of give-way rules: one for each link that always looks out and has a foe that goes first."""
    rows = [["link", "other", "percent"]]
    for junction in town.junctions:
        for arm in junction.arms:
            for place, link in enumerate(arm.links):
                if link.is_minor:
                    number = town.number(junction, arm, place)
                    others = list(dict.fromkeys(other for other in foes_of(town, junction, arm, place)
                                                if other != number))
                    rows += [[str(number), str(other), ""] for other in others[:1]]
                    if len(others) > 1:
                        tell(f"edge {arm.edge.name}: link {number} gives way to the links "
                             f"{', '.join(map(str, others))}; the rule has the first alone")
    return rows


def foes_of(town: Town, junction: Junction, arm: Arm, place: int) -> Iterable[int]:
    """The links that go first with `G` while a link looks out, in the order of its requests."""
    links = {(one.start, one.from_lane): town.number(junction, that, turn.link) for that in junction.arms
             for turn in that.turns for one in turn.connections}
    own = {one for turn in arm.turns if turn.link == place for one in turn.connections}
    ordered = town.net.requests_at(arm.edge.end)
    for connection, request in ordered:
        if connection in own:
            for foe in request.foes:
                other = ordered[foe][0] if foe < len(ordered) else connection
                if (other.start, other.from_lane) in links and goes_first(junction, connection, other):
                    yield links[other.start, other.from_lane]


def goes_first(junction: Junction, connection: Connection, other: Connection) -> bool:
    """Whether another connection has `G` in a phase in which a connection has `g`."""
    logic = junction.program.logic
    return connection.signals == other.signals == logic.name and any(
        phase.state[connection.place] == "g" and phase.state[other.place] == "G" for phase in logic.phases)


def check_empty(folder: str) -> None:
    """Refuses a folder that is there and isn't empty."""
    if os.path.lexists(folder) and (not os.path.isdir(folder) or os.listdir(folder)):
        raise Fault(f"{folder} is there already, and isn't an empty folder")


def write_tables(folder: str, tables: Tables) -> None:
    """Writes tables as CSV files into a new or empty folder."""
    check_empty(folder)
    os.makedirs(folder, exist_ok=True)
    for name, rows in tables.items():
        with open(os.path.join(folder, f"{name}.csv"), "w", encoding="utf-8", newline="") as file:
            csv.writer(file, lineterminator="\n").writerows(rows)
