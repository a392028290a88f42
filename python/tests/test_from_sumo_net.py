"""Networks of SUMO into sheets: grids of netgenerate, a roundabout, a map of OpenStreetMap, counts of turns."""

import contextlib
import gzip
import io
import os
import random
import shutil
import tempfile
import unittest
from typing import Dict, List, Sequence, Tuple, Union

import support  # noqa: F401
from sumo_nets import grid, needs_sumo, of_a_map, roundabout, write
from support import PROGRAM, needs_program
from transyt.__main__ import main
from transyt.faults import Fault
from transyt.sheets import All, make_deck, read_sheets
from transyt.sheets.checking import checked
from transyt.sheets.tables import Source
from transyt.sheets.faults import Judge
from transyt.sumo.netfile import read_net


Tables = Dict[str, List[Dict[str, str]]]
Turn = Tuple[int, Tuple[str, str]]  # when its interval begins, and the edges that it joins


@needs_sumo
class FromSumo(unittest.TestCase):
    """Tests that make a network and call the word."""

    def setUp(self) -> None:
        folder = tempfile.TemporaryDirectory()
        self.addCleanup(folder.cleanup)
        self.folder = folder.name

    def made(self, net: str, *words: str, status: int = 0) -> Tables:
        """The tables that `from-sumo` makes of a network, each with its rows by header; and what is told."""
        sheets, said = os.path.join(self.folder, "sheets"), io.StringIO()
        shutil.rmtree(sheets, ignore_errors=True)
        with contextlib.redirect_stderr(said):
            self.assertEqual(main(["from-sumo", net, "-o", sheets, *words]), status, said.getvalue())
        self.said = said.getvalue().splitlines()
        if status:
            self.assertFalse(os.path.exists(sheets))
            return {}
        source = Source(sheets)
        tables: Tables = {}
        for name in ("frame", "junctions", "stages", "links", "movements", "ways", "counts", "gives"):
            (_, head), *rows = source.rows(name, Judge())
            tables[name] = [dict(zip(head, row)) for _, row in rows]
        return tables

    def edited(self, net: str, *pairs: Tuple[str, str]) -> str:
        """A network with texts of it replaced."""
        with open(net, encoding="utf-8") as file:
            text = file.read()
        for old, new in pairs:
            self.assertIn(old, text)
            text = text.replace(old, new)
        return write(self.folder, "edited.net.xml", text)

    def told(self, *words: str) -> bool:
        """Whether a line has all these words."""
        return any(all(word in line for word in words) for line in self.said)


class Grids(FromSumo):
    def test_junctions_arms_and_ways(self) -> None:
        made = self.made(grid(self.folder))
        self.assertEqual([row["name"] for row in made["junctions"]], [x + y for x in "ABC" for y in "012"])
        self.assertEqual(len(made["links"]), 36)
        self.assertEqual(len(made["ways"]), 24)
        self.assertEqual({row["metres"] for row in made["ways"]} - {str(metres) for metres in range(195, 206)}, set())
        self.assertEqual({(row["name"], row["value"]) for row in made["frame"]},
                         {("town", "grid"), ("cycle", "90"), ("steps", "90")})
        goals = {(row["junction"], row["arm"], row["turn"]): (row["to junction"], row["to arm"])
                 for row in made["movements"]}
        self.assertEqual(goals["5", "A1B1", "s"], ("8", "B1C1"))
        self.assertEqual(goals["8", "B1C1", "s"], ("", ""))

    def test_two_greens_with_yellow_between(self) -> None:
        made = self.made(grid(self.folder))
        rows = [row for row in made["stages"] if row["junction"] == "5"]
        self.assertEqual([(row["intergreen"], row["least"], row["change"]) for row in rows], [("3", "7", "0"),
                                                                                            ("3", "7", "45")])
        self.assertEqual([row["offset"] for row in made["junctions"]], ["87"] * 9)

    def test_pockets_have_links_of_their_own_and_the_ways_go_through_the_points_where_they_begin(self) -> None:
        made = self.made(grid(self.folder, "--turn-lanes", "1", "--tls.left-green.time", "6"))
        links = [row for row in made["links"] if row["junction"] == "5"]
        self.assertEqual([row["stages"] for row in links], ["3", "3 4", "1", "1 2", "1", "1 2", "3", "3 4"])
        self.assertEqual(len(made["ways"]), 24)
        self.assertTrue(self.told("signals B1", "stage 2", "6 s of green"))
        self.assertEqual([row["least"] for row in made["stages"] if row["junction"] == "5"], ["7", "6", "7", "6"])
        self.assertTrue(self.told("B2B1", "gives way in some stages alone"))
        self.assertEqual(made["gives"], [])

    def test_pockets_that_always_look_out_give_way(self) -> None:
        made = self.made(grid(self.folder, "--turn-lanes", "1", "--tls.left-green.time", "0"))
        numbers = {row["link"]: row for row in made["links"]}
        self.assertEqual(len(made["gives"]), 36)
        for row in made["gives"]:
            link, other = numbers[row["link"]], numbers[row["other"]]
            self.assertEqual((link["junction"], link["stages"], row["percent"]),
                             (other["junction"], other["stages"], ""))
            self.assertNotEqual(link["arm"], other["arm"])
            self.assertTrue(link["name"].endswith(": l") and not other["name"].endswith(": l"))

    def test_crossings_on_foot_make_no_stages(self) -> None:
        made = self.made(grid(self.folder, "--sidewalks.guess", "true", "--crossings.guess", "true"))
        self.assertEqual([(row["intergreen"], row["change"]) for row in made["stages"]], [("3", "0"), ("3", "45")] * 9)
        self.assertEqual({row["lanes"] for row in made["links"]}, {"1"})

    def test_some_junctions_alone(self) -> None:
        made = self.made(grid(self.folder), "--junctions", "B1,A1")
        self.assertEqual([row["name"] for row in made["junctions"]], ["A1", "B1"])
        self.assertEqual([(row["from junction"], row["to arm"]) for row in made["ways"]],
                         [("1", "A1B1"), ("2", "B1A1")])
        self.made(grid(self.folder), "--junctions", "B1,X9", status=2)
        self.assertTrue(self.told("--junctions X9", "no signals with this id"))

    def test_actuated_signals_have_no_changes(self) -> None:
        net = grid(self.folder, "--tls.default-type", "actuated")
        made = self.made(net)
        self.assertEqual({row["change"] for row in made["stages"]}, {""})
        self.assertEqual({row["least"] for row in made["stages"]}, {"5"})
        self.assertTrue(self.told("signals B1 are actuated", "equal saturation"))

    def test_offsets_of_the_file_are_added(self) -> None:
        net = self.edited(grid(self.folder), ('id="B1" type="static" programID="0" offset="0"',
                                              'id="B1" type="static" programID="0" offset="17"'))
        made = self.made(net)
        self.assertEqual([row["offset"] for row in made["junctions"]], ["87"] * 4 + ["14"] + ["87"] * 4)

    def test_a_cycle_that_most_signals_have_not(self) -> None:
        net = grid(self.folder)
        made = self.made(net, "--cycle", "60")
        self.assertEqual({row["change"] for row in made["stages"]}, {""})
        self.assertTrue(self.told("signals A0 have a cycle of 90 s, and the sheets 60"))
        self.made(net, "--cycle", "20", status=2)

    def test_nobody_turns_back_at_the_end_of_a_street(self) -> None:
        made = self.made(grid(self.folder, "--no-turnarounds", "false"))
        goals = {(row["junction"], row["arm"], row["turn"]): (row["to junction"], row["to arm"])
                 for row in made["movements"]}
        self.assertEqual(goals["8", "B1C1", "s"], ("", ""))
        self.assertEqual(goals["5", "A1B1", "t"], ("2", "B1A1"))
        self.assertEqual(len(made["ways"]), 24)

    def test_more_than_a_deck_takes(self) -> None:
        self.made(grid(self.folder, "--grid.number", "15"), status=2)
        self.assertTrue(self.told("the network has 225 junctions with signals, and a deck 200 at most", "--junctions"))

    def test_a_packed_network(self) -> None:
        net = grid(self.folder)
        with open(net, "rb") as file, gzip.open(net + ".gz", "wb") as packed:
            packed.write(file.read())
        self.assertEqual(self.made(net + ".gz"), self.made(net))


class Turned(FromSumo):
    """Programs that can't be carried over whole."""

    def test_a_lane_whose_turns_have_different_greens(self) -> None:
        # the straight way out of the north ends with the first green second half of its phase, the turn right doesn't
        net = grid(self.folder)
        with open(net, encoding="utf-8") as file:
            state = file.read().split('<tlLogic id="B1"')[1].split('state="')[1].split('"')[0]
        half = state[:1] + "r" + state[2:]
        at = '<tlLogic id="B1" type="static" programID="0" offset="0">\n        <phase duration="42" '
        net = self.edited(net, (f'{at}state="{state}"/>', f'{at}state="{state}"/>\n        <phase duration="20" '
                                                          f'state="{half}"/>'))
        self.made(net, "--cycle", "110")
        self.assertTrue(self.told("its turns have different greens; taken is stage"))

    def test_more_than_eight_stages(self) -> None:
        net = grid(self.folder)
        with open(net, encoding="utf-8") as file:
            block = file.read().split('<tlLogic id="B1"')[1].split(">", 1)[1].split("</tlLogic>")[0]
        places = len(block.split('state="')[1].split('"')[0])
        phases = "".join(f'<phase duration="{seconds}" state="{"r" * place + colour + "r" * (places - place - 1)}"/>'
                         for place in range(9) for seconds, colour in ((7 + place % 3, "G"), (2, "y")))
        made = self.made(self.edited(net, (block, phases)))
        self.assertEqual(len([row for row in made["stages"] if row["junction"] == "5"]), 8)
        self.assertTrue(self.told("signals B1 have 9 stages, and 8 are the most", "left out"))

    def test_several_junctions_under_one_program(self) -> None:
        net = self.edited(grid(self.folder), ('tl="B1"', 'tl="A1"'), ('<tlLogic id="B1"', '<tlLogic id="unused"'))
        made = self.made(net)
        self.assertEqual([row["name"] for row in made["junctions"]], ["A0", "A1", "A2", "B0", "B2", "C0", "C1", "C2"])
        self.assertEqual(sum(row["junction"] == "2" for row in made["links"]), 8)
        self.assertTrue(self.told("signals unused have fewer than two stages, and are left out"))
        self.assertIn(("2", "2", "A1B1"), {(row["from junction"], row["to junction"], row["to arm"])
                                           for row in made["ways"]})

    def test_edges_that_differ_in_case_alone(self) -> None:
        self.made(self.edited(grid(self.folder), ('"A1B1"', '"b0b1"'), ("A1B1_", "b0b1_")), status=2)
        self.assertTrue(self.told("signals B1: the edges", "b0b1", "B0B1", "differ in case"))

    def test_a_turn_without_a_signal_runs_in_all_stages(self) -> None:
        net = grid(self.folder, "--turn-lanes", "1")
        found = [one for one in read_net(net).connections if one.signals == "B1" and one.start.startswith("A1B1")
                 and one.direction == "l"]
        place = found[0].place
        with open(net, encoding="utf-8") as file:
            line = next(line for line in file if f'tl="B1" linkIndex="{place}"' in line)
        made = self.made(self.edited(net, (line, line.replace(f' tl="B1" linkIndex="{place}"', ""))))
        links = [row for row in made["links"] if row["arm"] == found[0].start]
        self.assertEqual(links[-1]["stages"], "1 2 3 4")


class Ways(FromSumo):
    def test_a_roundabout_without_signals(self) -> None:
        made = self.made(roundabout(self.folder))
        self.assertEqual([row["name"] for row in made["junctions"]], ["A", "B"])
        ways = {(row["from junction"], row["to junction"], row["to arm"]): row for row in made["ways"]}
        self.assertEqual(set(ways), {("1", "2", "reB"), ("2", "1", "rwA")})
        # 300 m to the roundabout and from it at 45 km/h, and a half round of some 63 m at 21.6 km/h
        self.assertAlmostEqual(int(ways["1", "2", "reB"]["metres"]), 600 + 20, delta=25)
        self.assertTrue(self.told("edge Arw parts before the next signals", "rnn", "rss", "taken to go to reB"))

    def test_a_map_of_openstreetmap(self) -> None:
        made = self.made(of_a_map(self.folder))
        self.assertEqual([row["name"] for row in made["junctions"]], ["2", "3"])
        self.assertEqual(len(made["links"]), 8)
        self.assertEqual({(row["from junction"], row["to arm"]) for row in made["ways"]},
                         {("1", "10#1"), ("2", "'-10#1")})
        for row in made["ways"]:
            self.assertAlmostEqual(int(row["metres"]), 300, delta=3)
        names = {row["name"].split(":")[0] for row in made["links"]}
        self.assertIn("from Mill Lane", names)
        self.assertTrue(any(name.startswith("from Åkervägen") for name in names))
        self.assertTrue(self.told("lane -10#1_0", "gives way"))


class Counts(FromSumo):
    def turns(self, net: str, intervals: Sequence[Tuple[int, int]] = ((28800, 29700), (29700, 32400))
              ) -> Tuple[str, Dict[Turn, int]]:
        """A file of counts for all turns at signals of a network, and the vehicles of each."""
        draw = random.Random(11)
        keys = sorted({(one.start, one.end) for one in read_net(net).connections
                       if one.signals and not one.start.startswith(":")})
        counts = {(begin, key): draw.randint(0, 90) for begin, _ in intervals for key in keys}
        rows = "".join(f'<interval id="x" begin="{begin}" end="{end}">' + "".join(
            f'<edgeRelation from="{key[0]}" to="{key[1]}" count="{counts[begin, key]}"/>' for key in keys)
            + "</interval>" for begin, end in intervals)
        return write(self.folder, "turns.xml", f"<data>{rows}</data>"), counts

    def test_each_interval_is_a_window(self) -> None:
        net = grid(self.folder)
        path, counts = self.turns(net)
        made = self.made(net, "--turns", path)
        self.assertEqual({(row["from"], row["minutes"]) for row in made["counts"]}, {("08:00", "15"), ("08:15", "45")})
        row = next(row for row in made["counts"] if row["arm"] == "A1B1" and row["from"] == "08:15")
        self.assertEqual({turn: row[turn] for turn in "lrs"}, {
            turn: str(counts[29700, ("A1B1", goal)]) for turn, goal in (("l", "B1B2"), ("r", "B1B0"), ("s", "B1C1"))})

    @needs_program
    def test_the_deck_of_the_sheets_has_the_counts(self) -> None:
        for options in ((), ("--turn-lanes", "1", "--tls.left-green.time", "0"), ("--default.lanenumber", "3")):
            net = grid(self.folder, *options)
            path, counts = self.turns(net)
            made = self.made(net, "--turns", path)
            deck, _ = checked(make_deck(read_sheets(os.path.join(self.folder, "sheets")), All()), PROGRAM)
            self.assertAlmostEqual(sum(counts.values()), sum(link.total_flow for link in deck.links),
                                   delta=len(deck.links) / 2)
            self.assertEqual(sum(1 for link in deck.links if link.gives_way), len(made["gives"]))

    def test_counts_left_empty_are_faults_of_the_sheets(self) -> None:
        self.made(grid(self.folder))
        with self.assertRaisesRegex(Fault, "counts.csv, row 2, l: it is empty"):
            read_sheets(os.path.join(self.folder, "sheets"))

    def test_faults_of_the_counts(self) -> None:
        net = grid(self.folder)
        interval = '<data><interval begin="{}" end="{}"><edgeRelation from="A1B1" to="B1C1"{}/></interval></data>'
        for text, words in (("<data/>", "has no interval"),
                            ("<data><interval begin='0' end='60'/></data>", "edgeRelation"),
                            (interval.format(0, 100, ' count="1"'), "100 s is no whole number of minutes"),
                            (interval.format(60, 60, ' count="1"'), "within a day"),
                            (interval.format(0, 86460, ' count="1"'), "within a day"),
                            (interval.format(0, 60, ""), "from A1B1 to B1C1, count: it is missing"),
                            (interval.format(0, 60, ' count="-1"'), "-1 is no number"),
                            (interval.format(0, 60, ' count="1e999999999"'), "is no number"),
                            (interval.format("", 60, ' count="1"'), "begin: it is missing"),
                            ("<data>", "can't be read as XML")):
            self.made(net, "--turns", write(self.folder, "turns.xml", text), status=2)
            self.assertTrue(self.told(words), (text, self.said))


class Refused(unittest.TestCase):
    """Files that are no networks; SUMO isn't needed."""

    def refused(self, text: Union[str, bytes], words: str, name: str = "x.net.xml") -> None:
        """Has a file refused with these words, and with its name."""
        with tempfile.TemporaryDirectory() as folder:
            path = os.path.join(folder, name)
            with open(path, "wb") as file:
                file.write(text if isinstance(text, bytes) else text.encode())
            with self.assertRaisesRegex(Fault, words) as raised:
                read_net(path)
            self.assertIn(path, str(raised.exception))

    def test_a_doctype_is_refused_before_its_entities(self) -> None:
        self.refused('<?xml version="1.0"?><!DOCTYPE net [<!ENTITY a "b">]><net>&a;</net>', "DOCTYPE")
        self.refused('<!DOCTYPE net SYSTEM "file:///etc/passwd"><net/>', "DOCTYPE")
        self.refused('<?xml version="1.0" encoding="utf-16"?><!DOCTYPE net><net/>'.encode("utf-16"), "DOCTYPE")

    def test_what_is_no_network(self) -> None:
        self.refused("<routes/>", "its root is routes")
        self.refused("<net><edge/></net>", "as SUMO writes it")
        self.refused("<net>", "can't be read as XML")
        self.refused("", "can't be read as XML")
        self.refused(b"\x1f\x8b\x08\x00broken", "can't be read as XML")
        with self.assertRaisesRegex(Fault, "none.net.xml can't be read"):
            read_net("none.net.xml")

    def test_a_folder_with_something_in_it(self) -> None:
        with tempfile.TemporaryDirectory() as folder:
            write(folder, "there", "")
            said = io.StringIO()
            with contextlib.redirect_stderr(said):
                self.assertEqual(main(["from-sumo", "none.net.xml", "-o", folder]), 2)
            self.assertIn("isn't an empty folder", said.getvalue())

    def test_a_network_without_signals(self) -> None:
        with tempfile.TemporaryDirectory() as folder:
            said, sheets = io.StringIO(), os.path.join(folder, "sheets")
            with contextlib.redirect_stderr(said):
                self.assertEqual(main(["from-sumo", write(folder, "a.net.xml", "<net/>"), "-o", sheets]), 2)
            self.assertIn("no junction with signals", said.getvalue())
            self.assertFalse(os.path.exists(sheets))


if __name__ == "__main__":
    unittest.main()
