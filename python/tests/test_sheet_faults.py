"""Every fault of a sheet is told, with its file, row and column, and nothing is written."""

import datetime
import importlib
import os
import subprocess
import sys
import tempfile
import unittest
from typing import Callable, List, Tuple

from transyt.faults import Fault
from transyt.sheets import All, Faults, make_deck, read_sheets

from sheet_tables import Tables, two_junctions, write_tables

Change = Callable[[Tables], None]


def put(table: str, row: int, column: int, text: str) -> Change:
    """The change of one field; rows as a spreadsheet counts them, columns from 1."""
    def change(tables: Tables) -> None:
        tables[table][row - 1][column - 1] = text

    return change


def add(table: str, *fields: str) -> Change:
    """A row more."""
    return lambda tables: tables[table].append(list(fields))


def drop(table: str, row: int) -> Change:
    """A row less."""
    return lambda tables: tables[table].pop(row - 1) and None


def without(table: str) -> Change:
    """A table less."""
    return lambda tables: tables.pop(table) and None


def feeders(count: int) -> Change:
    """So many links more that turn into 2 west."""
    def change(tables: Tables) -> None:
        for number in range(count):
            tables["links"].append([str(100 + number), "1", f"a{number}", "", "1800", "", "1", "", "", "", ""])
            tables["movements"].append(["1", f"a{number}", "ahead", str(100 + number), "2", "west"])
            tables["counts"].append(["1", f"a{number}", "07:45", "60", "10", "", ""])

    return change


# Each fault: what is changed in sheets that are right, and the sentence that tells it.
FAULTS: List[Tuple[Change, str]] = [
    (without("links"), "links.csv: there is no such table in"),
    (put("links", 1, 7, "stage"), "links.csv, row 1: there is no column stage"),
    (put("links", 1, 7, "stage"), "links.csv, row 1: the column stages is missing"),
    (put("counts", 1, 5, "LEFT"), "counts.csv, row 1: the column left stands twice"),
    (put("counts", 1, 5, "around"), "counts.csv, row 1: there is no column around"),
    (put("frame", 3, 2, ""), "frame.csv: there is no row with the cycle"),
    (put("frame", 3, 2, "25"), "frame.csv, row 3, value: 25 is not within 30 to 240"),
    (put("frame", 2, 1, "city"), "frame.csv, row 2, name: there is no city in the frame"),
    (put("frame", 2, 2, ""), "frame.csv: there is no row with the town"),
    (add("frame", "sizes", "10 40"), "frame.csv, row 5, value: 40 is not within 1 to 39"),
    (add("frame", "budget", "1000001"), "frame.csv, row 5, value: 1000001 is not within 1 to 1,000,000"),
    (add("junctions", "1", "Again", ""), "junctions.csv, row 4, junction: junction 1 stands twice"),
    (add("junctions", "3", "Third", ""), "junctions.csv, row 4, junction: junction 3 has fewer than two stages"),
    (drop("stages", 3), "junctions.csv, row 2, junction: junction 1 has fewer than two stages"),
    (put("junctions", 3, 3, "3"), "junctions.csv, row 3, offset: 3 s is no whole number of steps of 2 s; the nearest "
                                  "are 2 and 4 s"),
    (put("junctions", 3, 3, "80"), "junctions.csv, row 3, offset: 80 s is not within 0 to 78 s"),
    (put("junctions", 2, 2, "a\u202eb"), "junctions.csv, row 2, name: the direction mark U+202E can't be in a name"),
    (put("junctions", 2, 2, "a\nb"), "junctions.csv, row 2, name: the control character U+000A can't be in a name"),
    (put("junctions", 2, 2, "n" * 201), "junctions.csv, row 2, name: the name has 201 characters"),
    (put("stages", 3, 2, "3"), "stages.csv, row 3, stage: junction 1 has a stage 3 and no stage 2"),
    (put("stages", 3, 2, "1"), "stages.csv, row 3, stage: stage 1 of junction 1 stands twice"),
    (put("stages", 3, 5, ""), "stages.csv, row 3, least: it is empty"),
    (put("stages", 3, 5, "1"), "stages.csv, row 3, least: 1 s is no whole number of steps of 2 s; the nearest are 0 "
                               "and 2 s"),
    (put("stages", 3, 5, "0"), "stages.csv, row 3, least: 0 s is not within 2 to 80 s"),
    (put("stages", 3, 6, ""), "stages.csv, row 3, change: it is empty, and other changes of junction 1 aren't"),
    (put("stages", 2, 1, "9"), "stages.csv, row 2, junction: there is no junction 9"),
    (put("links", 3, 1, "11"), "links.csv, row 3, link: link 11 stands twice"),
    (put("links", 3, 1, "0"), "links.csv, row 3, link: 0 is not within 1 to 99,999"),
    (put("links", 3, 2, "7"), "links.csv, row 3, junction: there is no junction 7"),
    (put("links", 3, 5, "99"), "links.csv, row 3, saturation: 99 is not within 100 to 9,999"),
    (put("links", 3, 5, "1.700"), "links.csv, row 3, saturation: 1.700 is no whole number"),
    (put("links", 3, 7, "2 4"), "links.csv, row 3, stages: junction 1 has no stage 4"),
    (put("links", 3, 7, "2 2"), "links.csv, row 3, stages: a stage stands twice"),
    (put("links", 3, 7, ""), "links.csv, row 3, stages: it is empty"),
    (put("links", 3, 8, "1"), "links.csv, row 3, start lag: 1 s is no whole number of steps of 2 s; the nearest are 0 "
                              "and 2 s"),
    (put("links", 3, 10, "1000"), "links.csv, row 3, delay weight: 1000 is not within 0 to 999"),
    (put("movements", 2, 4, "77"), "movements.csv, row 2, link: there is no link 77"),
    (put("movements", 2, 4, ""), "movements.csv, row 2, link: it is empty"),
    (put("movements", 2, 4, "12"), "movements.csv, row 2, link: link 12 stands on arm 1 south, and not on 1 west"),
    (put("movements", 3, 3, "ahead"), "movements.csv, row 3, turn: the turn ahead of arm 1 west stands twice"),
    (put("movements", 2, 6, ""), "movements.csv, row 2, to arm: it is empty, and the other field of the goal isn't"),
    (put("movements", 2, 6, "east"), "movements.csv, row 2, to arm: no link stands on arm 2 east"),
    (put("movements", 6, 5, "1"), "movements.csv, row 6, to arm: it is empty"),
    (drop("ways", 2), "movements.csv, row 2, to arm: ways has no row from junction 1 to arm 2 west"),
    (put("ways", 2, 6, "20"), "ways.csv, row 2, seconds: metres and km/h stand there, and seconds too"),
    (put("ways", 2, 5, "0"), "ways.csv, row 2, km/h: it is empty or 0"),
    (put("ways", 2, 4, "9000"), "ways.csv, row 2, metres: 9000 m at 45 km/h take 720 s"),
    (put("ways", 2, 7, "share"), "ways.csv, row 2, between: share is neither scale nor entry"),
    (add("ways", "1", "2", "", "", "", "20", ""), "ways.csv, row 3, to arm: this way stands twice"),
    (add("ways", "1", "5", "", "", "", "20", ""), "ways.csv, row 3, to junction: there is no junction 5"),
    (put("counts", 2, 3, "25:00"), "counts.csv, row 2, from: 25:00 is no time HH:MM"),
    (put("counts", 2, 4, "0"), "counts.csv, row 2, minutes: 0 is not within 1 to 1,440"),
    (put("counts", 2, 3, "23:50"), "counts.csv, row 2, minutes: the count goes on after midnight"),
    (put("counts", 2, 5, ""), "counts.csv, row 2, ahead: it is empty, and movements has this turn"),
    (put("counts", 2, 7, "3"), "counts.csv, row 2, right: 3 vehicles make a turn that movements hasn't"),
    (put("counts", 2, 5, "-4"), "counts.csv, row 2, ahead: -4 is no whole number"),
    (drop("counts", 8), "arm 2 north was never counted"),
    (add("counts", "2", "moon", "07:45", "60", "", "", ""), "counts.csv, row 9, arm: there is no arm 2 moon"),
    (drop("counts", 3), "arm 1 west has no count from 08:00 to 08:15"),
    (add("counts", "1", "west", "08:00", "15", "1", "1", ""), "arm 1 west is counted twice from 08:00 to 08:15"),
    (put("gives", 2, 2, "99"), "gives.csv, row 2, other: there is no link 99"),
    (put("gives", 2, 3, "401"), "gives.csv, row 2, percent: 401 is not within 0 to 400"),
    (add("gives", "12", "21", "50"), "gives.csv, row 3, link: link 12 gives way twice"),
    (put("periods", 2, 1, "a/b"), "periods.csv, row 2, name: a/b isn't made of letters, digits, - and _"),
    (put("periods", 2, 1, "HALF"), "periods.csv, row 3, name: half stands twice"),
    (put("periods", 2, 2, "23:30"), "periods.csv, row 2, for: the period goes on after midnight"),
    (feeders(8), "links.csv, row 4, link: link 21 is fed by 10 links, and 8 are the most"),
    (put("counts", 7, 5, "12500"),
     "links.csv, row 4, link: the feed from link 11 of link 21 is 10,204 vehicles an hour"),
    (put("counts", 6, 7, "20000"), "links.csv, row 3, link: the entry flow of link 12 is 20,000 vehicles an hour"),
]


def faults_of(tables: Tables) -> List[str]:
    """The faults of tables; none where a deck can be made."""
    with tempfile.TemporaryDirectory() as folder:
        try:
            make_deck(read_sheets(write_tables(folder, tables)), All())
        except Faults as faults:
            return faults.sentences
        except Fault as fault:
            return [str(fault)]
    return []


class SheetFaults(unittest.TestCase):
    """One change each of sheets that are right."""

    def test_the_sheets_are_right(self) -> None:
        """No fault without a change."""
        self.assertEqual(faults_of(two_junctions()), [])

    def test_each_fault(self) -> None:
        """Its sentence is told."""
        for change, sentence in FAULTS:
            with self.subTest(sentence=sentence):
                tables = two_junctions()
                change(tables)
                found = faults_of(tables)
                self.assertTrue(any(sentence in one for one in found), found)

    def test_faults_are_told_together(self) -> None:
        """Three faults in three tables, three sentences."""
        tables = two_junctions()
        for change in (put("links", 3, 5, "99"), put("stages", 3, 5, ""), put("gives", 2, 2, "99")):
            change(tables)
        self.assertEqual(len(faults_of(tables)), 3)

    def test_a_cycle_too_short_for_its_stages(self) -> None:
        """Without changes: 4 + 8 and 6 + 70 s pass the cycle of 80."""
        tables = two_junctions()
        tables["stages"][1][5] = tables["stages"][2][5] = ""
        tables["stages"][2][4] = "70"
        self.assertIn("junctions.csv, row 2, junction: intergreens and least greens of junction 1 sum to 88 s, and the "
                      "cycle has 80", faults_of(tables))

    def test_ways_that_differ(self) -> None:
        """Two junctions before one arm, `scale` and `entry`."""
        tables = two_junctions()
        tables["junctions"].append(["3", "", ""])
        tables["stages"] += [["3", "1", "", "4", "8", "0"], ["3", "2", "", "4", "8", "40"]]
        tables["links"].append(["31", "3", "south", "", "1800", "", "1", "", "", "", ""])
        tables["movements"].append(["3", "south", "right", "31", "2", "west"])
        tables["counts"].append(["3", "south", "07:45", "60", "", "", "10"])
        tables["ways"].append(["3", "2", "west", "", "", "30", "entry"])
        self.assertIn("ways.csv, row 3, between: two ways to arm 2 west differ in it", faults_of(tables))


class Spelling(unittest.TestCase):
    """What is taken for the same."""

    def deck_of(self, tables: Tables) -> str:
        """The deck of tables."""
        with tempfile.TemporaryDirectory() as folder:
            return str(make_deck(read_sheets(write_tables(folder, tables)), All()).deck)

    def test_case_and_blanks_of_arms_and_turns(self) -> None:
        """`  WEST ` is west, `Ahead` ahead, `From  Junction` the header."""
        tables = two_junctions()
        right = self.deck_of(tables)
        tables["counts"][2][1], tables["counts"][0][4], tables["ways"][0][0] = "  WEST ", "Ahead", "From  Junction"
        tables["movements"][1][5] = "West"
        self.assertEqual(self.deck_of(tables), right)

    def test_semicolons_and_a_mark(self) -> None:
        """`;` parts fields where the header has only it, and a byte-order mark is dropped; CR LF too."""
        right = self.deck_of(two_junctions())
        with tempfile.TemporaryDirectory() as folder:
            write_tables(folder, two_junctions())
            path = os.path.join(folder, "counts.csv")
            with open(path, "rb") as file:
                data = file.read().replace(b",", b";").replace(b"\n", b"\r\n")
            with open(path, "wb") as file:
                file.write(b"\xef\xbb\xbf" + data)
            self.assertEqual(str(make_deck(read_sheets(folder), All()).deck), right)

    def test_files_that_are_no_tables(self) -> None:
        """An empty file, a file of blank rows, bytes that aren't UTF-8, a quote without its end."""
        cases = ((b"", "there is no header row"), (b",,\n,,\n", "there is no header row"),
                 (b"junction,name\n1,B\xfccher\n", "row 2: a byte that isn't UTF-8"),
                 (b'junction,name\n1,"open\n', "it can't be read as CSV"))
        for data, sentence in cases:
            with self.subTest(sentence=sentence), tempfile.TemporaryDirectory() as folder:
                write_tables(folder, two_junctions())
                with open(os.path.join(folder, "junctions.csv"), "wb") as file:
                    file.write(data)
                with self.assertRaises(Faults) as caught:
                    read_sheets(folder)
                self.assertTrue(any(sentence in one for one in caught.exception.sentences), caught.exception)

    def test_a_workbook(self) -> None:
        """An .xlsx gives the deck of the folder; a date in a number's place is a fault with its place."""
        try:
            openpyxl = importlib.import_module("openpyxl")
        except ImportError:
            self.skipTest("openpyxl isn't installed")
        workbook = openpyxl.Workbook()
        workbook.remove(workbook.active)
        for name, rows in two_junctions().items():
            sheet = workbook.create_sheet(name)
            for row in rows:
                sheet.append([int(field) if field.isdecimal() else field for field in row])
        with tempfile.TemporaryDirectory() as folder:
            path = os.path.join(folder, "town.xlsx")
            workbook.save(path)
            self.assertEqual(str(make_deck(read_sheets(path), All()).deck), self.deck_of(two_junctions()))
            workbook["links"]["E3"] = datetime.datetime(2026, 3, 12)
            workbook.save(path)
            with self.assertRaises(Faults) as caught:
                read_sheets(path)
            self.assertIn("town.xlsx, links, row 3, saturation: 2026-03-12 00:00:00 is no whole number",
                          caught.exception.sentences)


class Word(unittest.TestCase):
    """The word deck as it is called."""

    def test_faults_end_with_two_and_write_nothing(self) -> None:
        """Two faults, two lines of standard error, exit number 2."""
        tables = two_junctions()
        put("links", 3, 5, "99")(tables)
        put("gives", 2, 2, "99")(tables)
        with tempfile.TemporaryDirectory() as folder:
            write_tables(folder, tables)
            top = os.path.dirname(os.path.dirname(os.path.realpath(__file__)))
            run = subprocess.run([sys.executable, "-m", "transyt", "deck", folder], capture_output=True, text=True,
                                 check=False, env={**os.environ, "PYTHONPATH": top})
        self.assertEqual((run.returncode, run.stdout), (2, ""))
        self.assertIn("links.csv, row 3, saturation", run.stderr)
        self.assertIn("gives.csv, row 2, other", run.stderr)


if __name__ == "__main__":
    unittest.main()
