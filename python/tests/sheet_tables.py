"""Sheets for tests: tables as lists of rows, written into a folder."""

import csv
import os
import random
from typing import Dict, List, Sequence, Tuple

Tables = Dict[str, List[List[str]]]


def table(text: str) -> List[List[str]]:
    """The rows of a text, fields parted by commas."""
    return [line.split(",") for line in text.strip().split("\n")]


def two_junctions() -> Tables:
    """Two junctions with a road between them, counted for an hour in quarters at one arm and whole at the others."""
    return {
        "frame": table("name,value\ntown,Two\ncycle,80\nsteps,40"),
        "junctions": table("junction,name,offset\n1,First,\n2,Second,6"),
        "stages": table("junction,stage,name,intergreen,least,change\n1,1,road,4,8,0\n1,2,side,6,8,40\n"
                        "2,1,road,4,8,0\n2,2,side,6,8,44"),
        "links": table("link,junction,arm,name,saturation,lanes,stages,start lag,end lag,delay weight,stop weight\n"
                       "11,1,west,in,1900,1,1,2,4,1,1\n12,1,south,,1700,,2,2,4,,\n"
                       "21,2,west,between,1800,2,1,2,4,,\n22,2,north,,1600,,2,2,4,,"),
        "movements": table("junction,arm,turn,link,to junction,to arm\n1,west,ahead,11,2,west\n1,west,left,11,,\n"
                           "1,south,right,12,2,west\n2,west,ahead,21,,\n2,north,left,22,,"),
        "ways": table("from junction,to junction,to arm,metres,km/h,seconds,between\n1,2,,250,45,,"),
        "counts": table("junction,arm,from,minutes,ahead,left,right\n1,west,07:45,15,100,10,\n1,west,08:00,15,110,11,\n"
                        "1,west,08:15,15,120,12,\n1,west,08:30,15,70,9,\n1,south,07:45,60,,,90\n"
                        "2,west,07:45,60,500,,\n2,north,07:45,60,,130,"),
        "gives": table("link,other,percent\n12,11,"),
        "periods": table("name,from,for\nam,07:45,60\nhalf,08:00,30"),
    }


def write_tables(folder: str, tables: Tables) -> str:
    """Writes tables into a folder as CSV files."""
    os.makedirs(folder, exist_ok=True)
    for name, rows in tables.items():
        with open(os.path.join(folder, f"{name}.csv"), "w", encoding="utf-8", newline="") as file:
            csv.writer(file, lineterminator="\n").writerows(rows)
    return folder


ARMS = ("north", "east", "south", "west")
FACING = {"north": "south", "south": "north", "east": "west", "west": "east"}
TURNS = ("left", "ahead", "right")


def turned(arm: str, turn: str) -> str:
    """The side on which a turn from an arm leaves the junction, where traffic drives on the left."""
    return ARMS[(ARMS.index(arm) + {"left": 1, "ahead": 2, "right": 3}[turn]) % 4]


def random_town(draw: random.Random) -> Tables:
    """A town of junctions in a row, each with four arms of one or two links, counts in quarters that don't agree."""
    size, between = draw.randint(2, 5), draw.choice(("scale", "entry", ""))
    tables: Tables = {name: [rows[0]] for name, rows in two_junctions().items()}
    cycle = draw.choice((60, 90, 120))
    tables["frame"] = table(f"name,value\ntown,Drawn\ncycle,{cycle}\nsteps,{cycle}")
    tables["counts"] = [["junction", "arm", "from", "minutes", *TURNS]]
    for junction in range(1, size + 1):
        tables["junctions"].append([str(junction), f"Junction {junction}", str(draw.randrange(30))])
        tables["stages"] += [[str(junction), "1", "", "5", "7", "0"], [str(junction), "2", "", "5", "7", "29"]]
        for place, arm in enumerate(ARMS):
            add_arm(draw, tables, (junction, size), arm, 10 * junction + 2 * place)
        if junction < size:
            metres = str(draw.randint(90, 900))
            tables["ways"] += [[str(junction), str(junction + 1), "", metres, "50", "", between],
                               [str(junction + 1), str(junction), "", metres, "50", "", between]]
    return tables


def add_arm(draw: random.Random, tables: Tables, at: Tuple[int, int], arm: str, number: int) -> None:
    """An arm with one link for all turns, or with a pocket for one of them, and its counts."""
    junction, size = at
    pocket = draw.choice((None, "left", "right"))
    stage = "1" if arm in ("east", "west") else "2"
    for link, there in ((number, True), (number + 1, pocket is not None)):
        if there:
            tables["links"].append([str(link), str(junction), arm, "", str(draw.randint(1200, 3600)), "", stage, "", "",
                                    "", ""])
    for turn in TURNS:
        side = turned(arm, turn)
        goal = junction + {"east": 1, "west": -1}.get(side, 0)
        inside = goal != junction and 1 <= goal <= size
        tables["movements"].append([str(junction), arm, turn, str(number + (turn == pocket)),
                                    str(goal) if inside else "", FACING[side] if inside else ""])
    for quarter in range(4):
        tables["counts"].append([str(junction), arm, f"07:{15 * quarter:02d}", "15",
                                 *(str(draw.randint(0, 60)) for _ in range(3))])


def shuffled(draw: random.Random, tables: Tables) -> Tables:
    """The same tables with their rows and columns in another order."""
    return {name: shuffled_rows(draw, rows) for name, rows in tables.items()}


def shuffled_rows(draw: random.Random, rows: Sequence[Sequence[str]]) -> List[List[str]]:
    """A table with its rows and columns in another order."""
    order = draw.sample(range(len(rows[0])), len(rows[0]))
    body = [list(row) for row in rows[1:]]
    draw.shuffle(body)
    return [[row[column] for column in order] for row in [rows[0], *body]]
