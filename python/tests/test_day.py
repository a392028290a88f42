"""A day of plans, and a plan at more and less traffic."""

import csv
import io
import os
import shutil
import subprocess
import sys
import tempfile
import unittest
from dataclasses import replace
from fractions import Fraction
from typing import Dict, List
from unittest import mock

import support
from sheet_tables import table, two_junctions, write_tables
from support import PROGRAM, ROOT, needs_program
from test_sheets import made
from transyt.day import begin_of, least_turn
from transyt.day import turned as turned_toward
from transyt.deck import Deck, read_deck
from transyt.faults import Fault
from transyt.filing.checking import Check
from transyt.program import Program
from transyt.session import Session
from transyt.sheets import Window
from transyt.stress import read_factor, reserve, scaled, stressed

SIGNED = ["--title", "Two", "--by", "A. Engineer", "--date", "2026-04-02"]


def turned(deck: Deck, steps: int) -> Deck:
    """A deck with one number added to all offsets."""
    text = str(deck)
    for node in deck.nodes:
        text = text.replace(f"NODE {node.number} {node.offset}\n",
                            f"NODE {node.number} {(node.offset + steps) % deck.frame.step_count}\n")
    return read_deck(text)


class Turning(unittest.TestCase):
    """By how much a plan is turned toward the one before."""

    def test_the_shorter_way_round(self) -> None:
        """A plan that was turned as a whole is turned back, by the least number of steps."""
        deck = read_deck(support.THREE)
        for steps in (0, 1, 5, 11):
            self.assertEqual(least_turn(turned(deck, steps), deck), -steps % 12)

    def test_of_equal_turns_the_least(self) -> None:
        """One of two junctions half a cycle late: any turn moves them by half a cycle together."""
        deck = read_deck(support.THREE)
        two = replace(deck, nodes=deck.nodes[:2], links=())
        late = replace(two, nodes=(replace(two.nodes[0], offset=6), two.nodes[1]))
        self.assertEqual(least_turn(late, two), 0)

    def test_what_is_turned(self) -> None:
        """All offsets by the turn, then it is climbed on, and told; not where the cycle is another, nor the first."""
        deck, said = read_deck(support.THREE), []
        late, climbed = turned(deck, 5), replace(deck, comments=("* climbed",))
        day = mock.Mock(tell=said.append)
        with mock.patch("transyt.day.climb_to_local", return_value=(climbed, 77)) as climb:
            self.assertIs(turned_toward(day, "pm", late, deck), climbed)
            self.assertEqual(climb.call_args.args[0], deck)
            self.assertEqual(said, ["pm: turned by 7 steps toward the period before; INDEX 77"])
            other = replace(deck, frame=replace(deck.frame, cycle=90, step_count=18))
            for before in (None, other, late):
                self.assertIs(turned_toward(day, "pm", late, before), late)
            self.assertEqual(climb.call_count, 1)

    def test_the_sum_over_the_junctions_is_least(self) -> None:
        """Two of three junctions 2 steps late and one at its place: 2 back leaves 2, which is less than 4."""
        deck = read_deck(support.THREE)
        other = read_deck(support.THREE.replace("NODE 1 0", "NODE 1 2").replace("NODE 2 3", "NODE 2 5"))
        turn = least_turn(other, deck)
        self.assertEqual(turn, 10)
        self.assertEqual([(begin_of(other, node) + turn - begin_of(deck, node)) % 12 for node in (1, 2, 3)],
                         [0, 0, 10])


@needs_program
class Day(unittest.TestCase):
    """The two junctions of the sheets' tests, with their periods."""

    def setUp(self) -> None:
        self.folder = tempfile.mkdtemp()
        self.addCleanup(shutil.rmtree, self.folder)
        self.tables = two_junctions()
        self.tables["periods"] = table("name,from,for\nam,07:45,60\npm,16:00,60")
        self.tables["counts"] += table("1,west,16:00,60,300,40,\n1,south,16:00,60,,,150\n2,west,16:00,60,420,,\n"
                                       "2,north,16:00,60,,200,")
        self.sheets = write_tables(os.path.join(self.folder, "sheets"), self.tables)
        self.out = os.path.join(self.folder, "day")

    def day(self, *more: str) -> "subprocess.CompletedProcess[str]":
        """The command's run."""
        words = [os.path.join(ROOT, "plan"), "day", self.sheets, "-o", self.out, *SIGNED, "--starts", "2", "--program",
                 str(PROGRAM), "--workers", "1", *more]
        return subprocess.run(words, capture_output=True, text=True, timeout=120, check=False)

    def periods(self) -> Dict[str, Deck]:
        """The filed decks."""
        found = {}
        for name in sorted(os.listdir(self.out)):
            if os.path.isdir(os.path.join(self.out, name)):
                with open(os.path.join(self.out, name, "plan.deck"), "rb") as file:
                    found[name] = read_deck(file.read())
        return found

    def test_each_period_is_filed_and_holds(self) -> None:
        """A folder a period; day.csv has its index and the times of each stage; day.html shows them."""
        done = self.day()
        self.assertEqual(done.returncode, 0, done.stderr)
        decks = self.periods()
        self.assertGreaterEqual(len(decks), 1)
        with open(os.path.join(self.out, "day.csv"), encoding="utf-8", newline="") as file:
            rows = list(csv.reader(file))
        with open(os.path.join(self.out, "day.html"), encoding="utf-8") as file:
            page = file.read()
        for row, (name, deck) in zip(sorted(rows[1:1 + len(decks)]), decks.items()):
            findings = Check(os.path.join(self.out, name), Program(PROGRAM)).run()
            self.assertEqual([finding.sentence for finding in findings if not finding.holds], [])
            with Session(deck, 1, PROGRAM) as town:
                self.assertEqual(row[:3], [name, str(deck.frame.cycle), str(town.index())])
                self.assertRegex(page, f'<data value="{town.index()}" class="{name} [A-Z ]*INDEX">')
        stages = [row for row in rows[len(decks) + 3:] if row]
        self.assertEqual(len(stages), sum(len(node.stages) for node in next(iter(decks.values())).nodes))

    def test_what_nothing_touched_stays(self) -> None:
        """A second day makes nothing again; after another count of the afternoon the afternoon alone is made."""
        self.assertEqual(self.day().returncode, 0)
        said = "nothing that it is made of has changed"
        self.assertEqual([f"{name}: {said}" in self.day().stderr for name in ("am", "pm")], [True, True])
        before = self.periods()
        self.tables["counts"][-1][5] = "230"
        write_tables(self.sheets, self.tables)
        again = self.day()
        self.assertEqual([f"{name}: {said}" in again.stderr for name in ("am", "pm")], [True, False])
        self.assertEqual(self.periods()["am"], before["am"])
        self.assertEqual(self.periods()["pm"].links[-1].entry, 230)
        for name in ("am", "pm"):
            findings = Check(os.path.join(self.out, name), Program(PROGRAM)).run()
            self.assertEqual([finding.sentence for finding in findings if not finding.holds], [])

    def test_each_fault_is_a_line_with_its_period(self) -> None:
        """A period that the counts don't cover is told arm by arm; nothing is written."""
        self.tables["periods"].append(["late", "17:00", "60"])
        write_tables(self.sheets, self.tables)
        done = self.day()
        self.assertEqual(done.returncode, 2)
        told = [line for line in done.stderr.split("\n") if line.startswith("plan day: period late: counts: arm ")]
        self.assertEqual(len(told), 4)
        self.assertNotIn("x0a", done.stderr)
        self.assertFalse(os.path.exists(self.out))

    def test_one_cycle(self) -> None:
        """The same cycle time for all, and the sum of indexes is told; without --cycles it is refused."""
        self.assertEqual(self.day("--one-cycle").returncode, 2)
        done = self.day("--one-cycle", "--cycles", "60", "80", "20")
        self.assertEqual(done.returncode, 0, done.stderr)
        sums: Dict[int, int] = {}
        for deck in (made(self.tables, Window(60 * hour + minute, 60)).deck for hour, minute in ((7, 45), (16, 0))):
            for cycle in (60, 80):
                lines = Program(PROGRAM).answer(["cycles", 1, cycle, cycle, 1], str(deck.bare()))
                sums[cycle] = sums.get(cycle, 0) + int(next(line for line in lines if " TO " in line).split(" ")[-1])
        best = min(sums, key=lambda cycle: sums[cycle])
        self.assertIn(f"one cycle for all periods: {best} s, the sum of their indexes is {sums[best]}", done.stderr)
        self.assertEqual({deck.frame.cycle for deck in self.periods().values()}, {best})


@needs_program
class Stress(unittest.TestCase):
    """All flows times a factor."""

    def test_flows_are_rounded_a_half_up(self) -> None:
        """0.5 times 90 + ENTRY 500, 0.05 times 90 is 4.5, which is 5."""
        deck = scaled(read_deck(support.THREE), Fraction(5, 100))
        self.assertEqual((deck.link(11).entry, deck.link(21).feed(12).flow, deck.link(21).feed(11).flow), (25, 5, 18))

    def test_factors(self) -> None:
        """0.01 to 3 with two decimals."""
        self.assertEqual([read_factor(word) for word in ("0.01", "3", "1.2", "2.")],
                         [Fraction(1, 100), 3, Fraction(6, 5), 2])
        for word in ("0", "0.001", "3.01", "-1", "1e1", "", ".", "\u0663"):
            with self.assertRaises(Fault, msg=word):
                read_factor(word)

    def test_reserves(self) -> None:
        """900 over SATURATION less 1, in per cent, down."""
        self.assertEqual([reserve(greatest) for greatest in (0, 900, 901, 450, 700, 1000)],
                         [None, 0, -1, 100, 28, -10])

    def test_rows(self) -> None:
        """The figures are those of the scaled deck; climbed is LOCAL; what passes 9,999 is told and left out."""
        said: List[str] = []
        text = support.THREE.replace("LINK 12 1 300", "LINK 12 1 6000")
        rows = stressed(read_deck(text), [Fraction(1), Fraction(2)], 1, PROGRAM, said.append)
        with Session(text, 1, PROGRAM) as town:
            standing = town.figures()
        self.assertEqual(rows[0].standing, standing)
        assert rows[0].climbed is not None
        self.assertLessEqual(rows[0].climbed.index, standing.index)
        self.assertEqual([row.factor for row in rows], [1])
        self.assertEqual(len(said), 1)
        self.assertIn("at 2 a flow passes 9,999", said[0])

    def test_a_deck_without_steps(self) -> None:
        """It isn't climbed anew, which is told once."""
        said: List[str] = []
        rows = stressed(read_deck(support.THREE.replace("STEPS 200 1 3\n", "")), [Fraction(1), Fraction(8, 10)], 1,
                        PROGRAM, said.append)
        self.assertEqual([row.climbed for row in rows], [None, None])
        self.assertEqual(said, ["the deck has no STEPS card, and so no moves to climb by: the plan is kept, and not "
                                "climbed anew"])

    def test_the_command_leaves_a_factor_out(self) -> None:
        """No row of it, no head where no row is left; the reserves stand in any case."""
        text = support.THREE.replace("LINK 12 1 300", "LINK 12 1 6000")
        for factors, heads in ((["0.8", "2"], ["flows", "0.80", "reserve"]), (["2"], ["reserve"])):
            words = [sys.executable, "-m", "transyt", "stress", "-", "--factors", *factors, "--program", str(PROGRAM)]
            done = subprocess.run(words, input=text, capture_output=True, text=True, timeout=60, check=False,
                                  env={**os.environ, "PYTHONPATH": os.path.join(ROOT, "python")})
            self.assertEqual(done.returncode, 0, done.stderr)
            firsts = [line.split()[0] for line in done.stdout.split("\n")[:-1]]
            self.assertEqual(firsts[:len(heads)], heads)
            self.assertEqual(len(firsts), len(heads) + 3)
            self.assertIn("at 2 a flow passes 9,999", done.stderr)

    def test_the_command(self) -> None:
        """A row a factor, and the reserve of each junction of the plan, whatever the factors are."""
        words = [sys.executable, "-m", "transyt", "stress", "-", "--factors", "0.8", "--program", str(PROGRAM)]
        done = subprocess.run(words, input=support.THREE, capture_output=True, text=True, timeout=60, check=False,
                              env={**os.environ, "PYTHONPATH": os.path.join(ROOT, "python")})
        self.assertEqual(done.returncode, 0, done.stderr)
        lines = done.stdout.split("\n")
        self.assertTrue(lines[1].strip().startswith("0.80"))
        with Session(support.THREE, 1, PROGRAM) as town:
            figures = town.figures()
        greatest = max(figures.link(link).raw["SATURATION"] for link in (11, 12))
        self.assertIn(f"  1 Market Street: {reserve(greatest)} %", lines)
        self.assertTrue(io.StringIO(done.stdout).readline().startswith("flows"))


if __name__ == "__main__":
    unittest.main()
