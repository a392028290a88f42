"""Tables into sheets: each row as a value, with every fault of it."""

from fractions import Fraction
from typing import Callable, Dict, Iterable, Mapping, Optional, Sequence, Set, Tuple, TypeVar

from ..text import name_fault, words_of
from . import values
from .cross import judge_sheets
from .faults import Judge
from .model import ArmKey, Count, Frame, Give, Junction, Link, Movement, Period, Sheets, Stage, Way
from .tables import Row, Source, Table, folded, table_of

NUMBERS = (1, 99_999)
PERIOD_LETTERS = set("abcdefghijklmnopqrstuvwxyz0123456789-_")
# Each table: its columns, those of them that may be missing, and whether the table itself may be.
TABLES: Mapping[str, Tuple[Sequence[str], Sequence[str], bool]] = {
    "frame": (("name", "value"), (), False),
    "junctions": (("junction", "name", "offset"), ("name", "offset"), False),
    "stages": (("junction", "stage", "name", "intergreen", "least", "change"), ("name", "change"), False),
    "links": (("link", "junction", "arm", "name", "saturation", "lanes", "stages", "start lag", "end lag",
               "delay weight", "stop weight"),
              ("name", "lanes", "start lag", "end lag", "delay weight", "stop weight"), False),
    "movements": (("junction", "arm", "turn", "link", "to junction", "to arm"), ("to junction", "to arm"), False),
    "ways": (("from junction", "to junction", "to arm", "metres", "km/h", "seconds", "between"),
             ("to arm", "metres", "km/h", "seconds", "between"), False),
    "counts": (("junction", "arm", "from", "minutes"), (), False),
    "gives": (("link", "other", "percent"), ("percent",), True),
    "periods": (("name", "from", "for"), (), True),
}
# Each number of frame: its range and its default; None where it has to stand or depends on the network.
FRAME: Mapping[str, Tuple[int, int, Optional[int]]] = {
    "cycle": (30, 240, None), "steps": (10, 120, None), "sweeps": (1, 8, 3), "period": (15, 120, 60),
    "stop": (0, 9_999, 1_000), "dispersion": (0, 100, 35),
}
Made = TypeVar("Made")


def read_sheets(path: str, counts: Optional[str] = None) -> Sheets:
    """The sheets of a folder or a workbook, with the counts of another one where it is named."""
    judge = Judge()
    source = Source(path)
    tables = {name: read_table(source, name, judge) for name in TABLES if name != "counts"}
    movements = rows_as(tables["movements"], judge, movement_of)
    turns = {movement.turn for movement in movements}
    table = read_table(Source(counts) if counts else source, "counts", judge, turns)
    sheets = Sheets(
        frame_of(tables["frame"], judge),
        once(rows_as(tables["junctions"], judge, junction_of), lambda one: (one.number, one.row, "junction"), judge),
        stages_of(rows_as(tables["stages"], judge, stage_of), judge),
        once(rows_as(tables["links"], judge, link_of), lambda one: (one.number, one.row, "link"), judge),
        movements, rows_as(tables["ways"], judge, way_of),
        rows_as(table, judge, lambda row, told: count_of(row, turns, told)),
        rows_as(tables["gives"], judge, give_of), periods_of(tables["periods"], judge),
        arms_of(tables["links"], tables["movements"]))
    judge_sheets(sheets, judge)
    judge.raise_faults()
    return sheets


def read_table(source: Source, name: str, judge: Judge, turns: Iterable[str] = ()) -> Table:
    """A table of a source; one that may be missing is empty then."""
    columns, optional, may_miss = TABLES[name]
    rows = source.rows(name, judge)
    if rows is None:
        if not may_miss:
            judge.fault(source.called(name), f"there is no such table in {source.path}")
        return Table(source.called(name), (), ())
    if not rows and judge.sentences:
        return Table(source.called(name), (), ())
    missing = [turn for turn in turns]
    return table_of(source.called(name), rows, (*columns, *sorted(missing)), optional, judge)


def rows_as(table: Table, judge: Judge, made: Callable[[Row, Judge], Optional[Made]]) -> Tuple[Made, ...]:
    """Each row of a table as a value; rows with a fault are noted and left."""
    found = [made(row, judge) for row in table.rows if any(row.fields.values())]
    return tuple(one for one in found if one is not None)


def once(found: Iterable[Made], key: Callable[[Made], Tuple[int, Row, str]], judge: Judge) -> Dict[int, Made]:
    """Values by their numbers; a number that stands twice is a fault."""
    rows: Dict[int, Made] = {}
    for one in found:
        number, row, column = key(one)
        if number in rows:
            judge.fault(row.place(column), f"{column} {number} stands twice")
        else:
            rows[number] = one
    return rows


def frame_of(table: Table, judge: Judge) -> Frame:
    """The frame; numbers that aren't there or have a fault are put as their least, once noted."""
    rows: Dict[str, Row] = {}
    for row in table.rows:
        key = folded(row.field("name"))
        if key not in FRAME and key not in ("town", "budget", "sizes"):
            judge.fault(row.place("name"), f"there is no {key} in the frame" if key else "it is empty")
        elif key in rows:
            judge.fault(row.place("name"), f"{key} stands twice")
        else:
            rows[key] = row
    found = {name: frame_number(table.name, rows.get(name), name, judge) for name in FRAME}
    return Frame(town_of(table.name, rows.get("town"), judge), found["cycle"], found["steps"], found["sweeps"],
                 found["period"], found["stop"], found["dispersion"], budget_of(rows.get("budget"), judge),
                 sizes_of(rows.get("sizes"), found["steps"], judge))


def frame_number(table: str, row: Optional[Row], name: str, judge: Judge) -> int:
    """A number of the frame, its default where it is left out."""
    least, most, default = FRAME[name]
    if row is None or not row.field("value"):
        if default is None:
            judge.fault(table, f"there is no row with the {name}")
        return least if default is None else default
    return values.whole_of(row.field("value"), row.place("value"), judge, least, most) or least


def town_of(table: str, row: Optional[Row], judge: Judge) -> str:
    """The town's name."""
    if row is None or not row.field("value"):
        judge.fault(table, "there is no row with the town")
        return ""
    fault = name_fault(row.field("value"), "* NAME TOWN ")
    if fault:
        judge.fault(row.place("value"), fault)
    return row.field("value")


def budget_of(row: Optional[Row], judge: Judge) -> Optional[int]:
    """The budget of a climb; None where it depends on the network."""
    if row is None or not row.field("value"):
        return None
    return values.whole_of(row.field("value"), row.place("value"), judge, 1, 1_000_000)


def sizes_of(row: Optional[Row], steps: int, judge: Judge) -> Optional[Tuple[int, ...]]:
    """The step sizes of a climb, 1 to 16; None where they depend on the number of steps."""
    if row is None or not row.field("value"):
        return None
    words = words_of(row.field("value"))
    found = [values.whole_of(word, row.place("value"), judge, 1, steps - 1) for word in words]
    if len(words) > 16:
        judge.fault(row.place("value"), f"there are {len(words)} sizes, and 16 are the most")
    return tuple(size for size in found if size is not None)


def junction_of(row: Row, judge: Judge) -> Optional[Junction]:
    """A junction; its offset is 0 where it is empty."""
    number = values.whole(row, "junction", judge, *NUMBERS)
    called = values.name(row, "name", judge, f"* NAME NODE {number} ")
    offset = values.decimal(row, "offset", judge)
    return None if number is None else Junction(row, number, called, offset or Fraction(0))


def stage_of(row: Row, judge: Judge) -> Optional[Stage]:
    """A stage of a junction."""
    junction = values.whole(row, "junction", judge, *NUMBERS)
    number = values.whole(row, "stage", judge, 1, 8)
    called = values.name(row, "name", judge, f"* NAME STAGE {junction} {number} ")
    found = {column: values.decimal(row, column, judge) for column in ("intergreen", "least", "change")}
    for column in ("intergreen", "least"):
        if not row.field(column):
            judge.fault(row.place(column), "it is empty")
    if junction is None or number is None:
        return None
    return Stage(row, junction, number, called, found["intergreen"] or Fraction(0), found["least"] or Fraction(0),
                 found["change"])


def stages_of(found: Iterable[Stage], judge: Judge) -> Dict[int, Tuple[Stage, ...]]:
    """The stages of each junction by number; a number twice or a gap is a fault."""
    junctions: Dict[int, Dict[int, Stage]] = {}
    for stage in found:
        stages = junctions.setdefault(stage.junction, {})
        if stage.number in stages:
            judge.fault(stage.row.place("stage"), f"stage {stage.number} of junction {stage.junction} stands twice")
        stages.setdefault(stage.number, stage)
    for junction, stages in junctions.items():
        for number in range(1, max(stages)):
            if number not in stages:
                judge.fault(stages[max(stages)].row.place("stage"), f"junction {junction} has a stage {max(stages)} "
                                                                    f"and no stage {number}")
    return {junction: tuple(stage for _, stage in sorted(stages.items())) for junction, stages in junctions.items()}


def link_of(row: Row, judge: Judge) -> Optional[Link]:
    """A link; its lags stay empty where they are."""
    number = values.whole(row, "link", judge, *NUMBERS)
    junction = values.whole(row, "junction", judge, *NUMBERS)
    lanes = values.whole(row, "lanes", judge, 1, 99) if row.field("lanes") else None
    saturation = values.whole(row, "saturation", judge, 100, 9_999)
    words = words_of(row.field("stages"))
    stages = [values.whole_of(word, row.place("stages"), judge, 1, 8) for word in words]
    if not words:
        judge.fault(row.place("stages"), "it is empty")
    if len(set(stages)) < len(stages):
        judge.fault(row.place("stages"), "a stage stands twice")
    arm = values.word(row, "arm", judge)
    called = values.name(row, "name", judge, f"* NAME LINK {number} ")
    lags = [values.decimal(row, column, judge) for column in ("start lag", "end lag")]
    weights = [values.whole(row, column, judge, 0, 999, 1) for column in ("delay weight", "stop weight")]
    if number is None or junction is None:
        return None
    return Link(row, number, junction, arm, called, saturation or 100, lanes,
                tuple(sorted({stage for stage in stages if stage is not None})), lags[0], lags[1],
                weights[0] or 0, weights[1] or 0)


def movement_of(row: Row, judge: Judge) -> Optional[Movement]:
    """A movement: a turn of an arm, its link, and the arm to which it goes on."""
    junction = values.whole(row, "junction", judge, *NUMBERS)
    arm, turn = values.word(row, "arm", judge), values.word(row, "turn", judge)
    link = values.whole(row, "link", judge, *NUMBERS)
    to_junction, to_arm = row.field("to junction"), folded(row.field("to arm"))
    goal: Optional[ArmKey] = None
    if to_junction and to_arm:
        number = values.whole(row, "to junction", judge, *NUMBERS)
        goal = (number or 0, to_arm)
    elif to_junction or to_arm:
        judge.fault(row.place("to arm" if to_junction else "to junction"),
                    "it is empty, and the other field of the goal isn't")
    if turn in TABLES["counts"][0]:
        judge.fault(row.place("turn"), f"a turn can't be called {turn}, as a column of the counts is")
    return None if junction is None or link is None else Movement(row, junction, arm, turn, link, goal)


def way_of(row: Row, judge: Judge) -> Optional[Way]:
    """A way between two junctions, with its cruise time in whole seconds."""
    source = values.whole(row, "from junction", judge, *NUMBERS)
    goal = values.whole(row, "to junction", judge, *NUMBERS)
    between = folded(row.field("between")) or "scale"
    if between not in ("scale", "entry"):
        judge.fault(row.place("between"), f"{between} is neither scale nor entry")
    seconds = cruise_of(row, judge)
    metres = values.whole_of(row.field("metres"), row.place("metres"), Judge(), 1, 99_999)
    if source is None or goal is None:
        return None
    return Way(row, source, goal, folded(row.field("to arm")), seconds or 1, metres, between)


def cruise_of(row: Row, judge: Judge) -> Optional[int]:
    """The cruise time of a way: out of metres and km/h, or as seconds."""
    by_length = bool(row.field("metres") or row.field("km/h"))
    if by_length == bool(row.field("seconds")):
        judge.fault(row.place("seconds"), "metres and km/h stand there, and seconds too" if by_length
                    else "neither metres and km/h nor seconds stand there")
        return None
    if not by_length:
        return values.whole(row, "seconds", judge, 1, 300)
    metres, speed = values.whole(row, "metres", judge, 1, 99_999), values.decimal(row, "km/h", judge)
    if not row.field("km/h") or speed == 0:
        judge.fault(row.place("km/h"), "it is empty or 0")
    if not metres or not speed:
        return None
    seconds = values.half_up(Fraction(36, 10) * metres / speed)
    if not 1 <= seconds <= 300:
        judge.fault(row.place("metres"), f"{metres} m at {row.field('km/h')} km/h take {seconds} s, and a cruise time "
                                         "is 1 to 300 s")
    return seconds


def count_of(row: Row, turns: Set[str], judge: Judge) -> Optional[Count]:
    """A count of an arm, with the vehicles of each turn."""
    junction = values.whole(row, "junction", judge, *NUMBERS)
    arm = values.word(row, "arm", judge)
    begin, minutes = values.time(row, "from", judge), values.whole(row, "minutes", judge, 1, 1_440)
    vehicles = {turn: values.whole(row, turn, judge, 0, 999_999) if row.field(turn) else None
                for turn in sorted(turns) if turn in row.fields}
    if begin is not None and minutes is not None and begin + minutes > values.DAY:
        judge.fault(row.place("minutes"), "the count goes on after midnight")
    if junction is None or begin is None or minutes is None:
        return None
    return Count(row, junction, arm, begin, minutes, vehicles)


def give_of(row: Row, judge: Judge) -> Optional[Give]:
    """A give-way rule."""
    link, other = values.whole(row, "link", judge, *NUMBERS), values.whole(row, "other", judge, *NUMBERS)
    percent = values.whole(row, "percent", judge, 0, 400) if row.field("percent") else None
    return None if link is None or other is None else Give(row, link, other, percent)


def periods_of(table: Table, judge: Judge) -> Dict[str, Period]:
    """The periods by their folded names, which name folders too."""
    found: Dict[str, Period] = {}
    for row in table.rows:
        key = folded(row.field("name"))
        if not key or not set(key) <= PERIOD_LETTERS:
            judge.fault(row.place("name"), f"{row.field('name')} isn't made of letters, digits, - and _" if key
                        else "it is empty")
        elif key in found:
            judge.fault(row.place("name"), f"{key} stands twice")
        begin, minutes = values.time(row, "from", judge), values.whole(row, "for", judge, 1, 1_440)
        if begin is not None and minutes is not None and begin + minutes > values.DAY:
            judge.fault(row.place("for"), "the period goes on after midnight")
        found.setdefault(key, Period(row.field("name"), begin or 0, minutes or 60))
    return found


def arms_of(*tables: Table) -> Dict[ArmKey, str]:
    """Each arm as it is written where it stands first."""
    arms: Dict[ArmKey, str] = {}
    for table in tables:
        for row in table.rows:
            junction, arm = row.field("junction"), row.field("arm")
            if junction.isascii() and junction.isdecimal():
                arms.setdefault((int(junction), folded(arm)), arm)
    return arms
