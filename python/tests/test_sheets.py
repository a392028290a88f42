"""Sheets into decks: the hour, flows, feeds, defaults, and properties of random towns against the program."""

import os
import random
import tempfile
import unittest
from fractions import Fraction
from typing import Dict, Optional

from transyt.deck import read_deck
from transyt.faults import Fault
from transyt.program import BUILT
from transyt.sheets import All, Faults, Made, Peak, Window, make_deck, read_sheets
from transyt.sheets.checking import balanced, checked
from transyt.sheets.flows import by_remainder

from sheet_tables import Tables, random_town, shuffled, two_junctions, write_tables

PROGRAM = os.environ.get("TRANSYT") or (BUILT if os.access(BUILT, os.X_OK) else None)
NO_PROGRAM = "the program isn't built, and the variable TRANSYT names none"


def made(tables: Tables, asked: object = All(), plan: Optional[object] = None) -> Made:
    """The deck of tables in a folder of their own."""
    with tempfile.TemporaryDirectory() as folder:
        return make_deck(read_sheets(write_tables(folder, tables)), asked, plan)  # type: ignore[arg-type]


class Hours(unittest.TestCase):
    """The window of the day."""

    def test_all_rows_are_an_hour(self) -> None:
        """100 + 110 + 120 + 70 ahead and 42 to the left in an hour."""
        deck = made(two_junctions()).deck
        self.assertEqual(deck.link(11).total_flow, 442)
        self.assertEqual(deck.names.sheets, "--from 07:45 --for 60")

    def test_a_quarter_counts_four_times(self) -> None:
        """A window of 15 minutes makes each vehicle four an hour; arms that weren't counted in quarters cross it."""
        tables = two_junctions()
        with self.assertRaises(Faults) as caught:
            made(tables, Window(8 * 60, 15))
        self.assertIn("crosses the edge", str(caught.exception))
        tables["counts"] = [row for row in tables["counts"] if row[0] == "junction" or row[2] != "07:45"]
        for junction, arm, *vehicles in (("1", "south", "", "", "20"), ("2", "west", "80", "", ""),
                                         ("2", "north", "", "31", "")):
            tables["counts"].append([junction, arm, "08:00", "15", *vehicles])
        deck = made(tables, Window(8 * 60, 15)).deck
        self.assertEqual(deck.link(11).total_flow, 4 * (110 + 11))
        self.assertEqual(deck.link(22).total_flow, 4 * 31)

    def test_the_peak_is_the_fullest_window_of_equals_the_earliest(self) -> None:
        """Three quarters at each arm: 20, 30 and 30 vehicles make 08:00 the fullest half hour's beginning."""
        tables = two_junctions()
        tables["counts"] = tables["counts"][:1]
        for junction, arm, column in (("1", "west", 0), ("1", "south", 2), ("2", "west", 0), ("2", "north", 1)):
            for begin, vehicles in (("07:45", "20"), ("08:00", "30"), ("08:15", "30"), ("08:30", "30")):
                row = ["", "", ""]
                row[column] = vehicles
                if (junction, arm) == ("1", "west"):
                    row[1] = "0"
                tables["counts"].append([junction, arm, begin, "15", *row])
        found = made(tables, Peak(30))
        self.assertEqual(found.window, Window(8 * 60, 30))
        self.assertIn("08:00 to 08:30, with 240 vehicles", found.told[0])
        with self.assertRaises(Fault):
            made(tables, Peak(75))

    def test_holes_and_overlaps_are_told_for_each_arm(self) -> None:
        """Arms that don't cover the window are all named, with the minutes."""
        tables = two_junctions()
        tables["counts"] = [row for row in tables["counts"] if row[2] != "08:00" and row[1] != "north"]
        tables["counts"] += [["2", "north", "07:45", "45", "", "90", ""], ["2", "north", "08:15", "30", "", "60", ""]]
        with self.assertRaises(Faults) as caught:
            made(tables)
        self.assertIn("arm 1 west has no count from 08:00 to 08:15", str(caught.exception))
        self.assertIn("arm 2 north is counted twice from 08:15 to 08:30", str(caught.exception))


class Flows(unittest.TestCase):
    """Counts, feeds and what enters between."""

    def test_scaled_to_the_count(self) -> None:
        """400 go on from 11 and 90 from 12, and 500 were counted: 500·400/490 = 408.16 and 91.84."""
        link = made(two_junctions()).deck.link(21)
        self.assertEqual((link.entry, [(feed.feeder, feed.flow) for feed in link.feeds]), (0, [(11, 408), (12, 92)]))
        self.assertEqual(link.feeds[0].cruise, 20)  # 3.6 · 250 / 45

    def test_the_rest_enters(self) -> None:
        """With `entry` the feeds are 400 and 90, and ten enter."""
        tables = two_junctions()
        tables["ways"][1][-1] = "entry"
        link = made(tables).deck.link(21)
        self.assertEqual((link.entry, [feed.flow for feed in link.feeds]), (10, [400, 90]))

    def test_more_arrive_than_were_counted(self) -> None:
        """Where 490 arrive and 245 were counted, each feed is half, with `entry` too; the half goes to the first."""
        tables = two_junctions()
        tables["counts"][6][4], tables["ways"][1][-1] = "245", "entry"
        link = made(tables).deck.link(21)
        self.assertEqual((link.entry, [feed.flow for feed in link.feeds]), (0, [200, 45]))

    def test_nothing_arrives(self) -> None:
        """Where nothing arrives, what was counted enters, and this is told."""
        tables = two_junctions()
        for row in tables["counts"][1:5]:
            row[4] = "0"
        tables["counts"][5][6] = "0"
        found = made(tables)
        self.assertEqual(found.deck.link(21).entry, 500)
        self.assertTrue(any("nothing arrives" in said for said in found.told))

    def test_remainders(self) -> None:
        """Of equal remainders the earlier part is rounded up."""
        self.assertEqual(by_remainder([Fraction(5, 2), Fraction(5, 2), Fraction(2)], 7), [3, 2, 2])
        self.assertEqual(by_remainder([Fraction(0), Fraction(1, 3), Fraction(2, 3)], 1), [0, 0, 1])

    def test_the_balance_is_worst_first(self) -> None:
        """The one inner arm: 500 counted, 490 arrive."""
        (balance,) = made(two_junctions()).balances
        self.assertEqual((balance.counted, balance.arriving, balance.done), (500, 490, "scaled"))


class Defaults(unittest.TestCase):
    """What empty fields become."""

    def test_sizes_and_budget(self) -> None:
        """Of 40 steps 16, 10.4, 6.4, 4, 1.6 and 0.8 and 1; 20 times 2 · 6 sizes · 6 nodes and stages."""
        plan = made(two_junctions()).deck.climb_plan
        self.assertEqual(plan and (plan.sizes, plan.budget), ((16, 10, 6, 4, 2, 1), 20 * 2 * 6 * 6))

    def test_lags(self) -> None:
        """2 and 3 s in steps of 2 s are 1 and, a half up, 2 steps; the second isn't exact, and told."""
        tables = two_junctions()
        for row in tables["links"][1:]:
            row[7] = row[8] = ""
        found = made(tables)
        self.assertEqual((found.deck.link(11).start_lag, found.deck.link(11).end_lag), (1, 2))
        self.assertIn("links.csv, row 2, end lag: 3 s is taken as 4 s", found.told)

    def test_give_way_is_estimated(self) -> None:
        """Against 442 vehicles an hour the last row that isn't above is that of 400: 110."""
        found = made(two_junctions())
        rule = found.deck.link(12).gives_way
        self.assertEqual(rule and (rule.other, rule.percent), (11, 110))
        self.assertTrue(any("110 is an estimate" in said for said in found.told))

    def test_a_stage_for_pedestrians_is_told(self) -> None:
        """A stage that no link uses stands at its place, and so does a link that no movement uses."""
        tables = two_junctions()
        tables["stages"].append(["2", "3", "on foot", "8", "6", "66"])
        tables["links"].append(["29", "2", "west", "", "1800", "", "1", "", "", "", ""])
        found = made(tables)
        self.assertTrue(any("no link uses stage 3 of junction 2" in said for said in found.told))
        self.assertTrue(any("no movement uses link 29" in said for said in found.told))
        self.assertEqual(found.deck.link(29).total_flow, 0)

    def test_a_plan_that_stands(self) -> None:
        """Cycle, steps, offsets and changes come from a deck of the same step; the rest from the sheets."""
        deck = made(two_junctions()).deck
        plan = read_deck(str(deck).replace("CYCLE 80 40", "CYCLE 90 45").replace("NODE 2 3", "NODE 2 7"))
        found = made(two_junctions(), All(), plan).deck
        self.assertEqual((found.frame.cycle, found.frame.step_count, found.node(2).offset), (90, 45, 7))
        with self.assertRaises(Fault):
            made(two_junctions(), All(), read_deck(str(deck).replace("CYCLE 80 40", "CYCLE 90 40")))


@unittest.skipUnless(PROGRAM, NO_PROGRAM)
class AgainstTheProgram(unittest.TestCase):
    """Decks of sheets, run."""

    def test_random_towns(self) -> None:
        """A hundred towns: accepted, FLOW is the count, entry and feeds sum to it, the deck reads back, and the order
        of rows and columns doesn't matter."""
        for seed in range(100):
            draw = random.Random(seed)
            tables = random_town(draw)
            with self.subTest(seed=seed):
                found = made(tables)
                deck, _ = checked(found, PROGRAM)
                for link in deck.links:
                    self.assertEqual(link.entry + sum(feed.flow for feed in link.feeds), found.counts[link.number])
                self.assertEqual(self.counts_of(tables), dict(found.counts))
                self.assertEqual(read_deck(str(deck)), deck)
                self.assertEqual(str(made(shuffled(draw, tables)).deck), str(deck))

    @staticmethod
    def counts_of(tables: Tables) -> Dict[int, int]:
        """The vehicles of each link in the hour, summed from the rows of the sheets."""
        links = {(row[0], row[1], row[2]): int(row[3]) for row in tables["movements"][1:]}
        sums = {int(row[0]): 0 for row in tables["links"][1:]}
        turns = tables["counts"][0][4:]
        for junction, arm, _, _, *vehicles in tables["counts"][1:]:
            for turn, number in zip(turns, vehicles):
                sums[links[junction, arm, turn]] += int(number)
        return sums

    def test_balanced_greens(self) -> None:
        """A junction without changes gets those of equisat, the other keeps its own."""
        tables = two_junctions()
        tables["stages"][1][5] = tables["stages"][2][5] = ""
        found = made(tables)
        self.assertEqual((found.unbalanced, [stage.change for stage in found.deck.node(1).stages]), ((1,), [0, 33]))
        deck = balanced(found, PROGRAM).deck
        self.assertEqual([stage.change for stage in deck.node(2).stages], [0, 22])
        lengths = [deck.node(1).length(place, 40) for place in (1, 2)]
        self.assertEqual(sum(lengths), 40)
        self.assertTrue(lengths[0] >= 6 and lengths[1] >= 7)

    def test_more_sent_than_counted_is_told(self) -> None:
        """Link 12 sends on 92 vehicles an hour, and 90 were counted on it."""
        _, told = checked(made(two_junctions()), PROGRAM)
        self.assertIn("link 12 sends on 92 vehicles an hour, and 90 were counted on it", told)


if __name__ == "__main__":
    unittest.main()
