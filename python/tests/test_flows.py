"""Flows of sheets by hand: fractions that are rounded once, several turns of one link, what is told."""

import unittest

from sheet_tables import table, two_junctions
from test_sheets import made


class Fractions(unittest.TestCase):
    """A window of 40 minutes: each vehicle is one and a half an hour."""

    def test_a_movement_stays_a_fraction(self) -> None:
        """7 ahead and 7 to the left are 10.5 each, and 21 together; 5 alone are 7.5, which is 8, as its ENTRY is."""
        tables = two_junctions()
        tables["counts"] = table("junction,arm,from,minutes,ahead,left,right\n1,west,08:00,40,7,7,\n"
                                 "1,south,08:00,40,,,5\n2,west,08:00,40,11,,\n2,north,08:00,40,,3,")
        deck = made(tables).deck
        self.assertEqual((deck.link(11).entry, deck.link(12).entry, deck.link(22).entry), (21, 8, 5))
        # 11 are 16.5 at link 21, which is 17; 10.5 and 7.5 arrive, and are scaled: 16.5 · 10.5/18 = 9.625, 6.875
        feeds = {feed.feeder: feed.flow for feed in deck.link(21).feeds}
        self.assertEqual((deck.link(21).entry, feeds), (0, {11: 10, 12: 7}))


class Turns(unittest.TestCase):
    """Several turns of a link lead to one arm."""

    def test_two_turns_of_one_link_to_one_arm(self) -> None:
        """400 ahead, 42 to the left and 90 to the right arrive where 500 were counted: 442 and 90 times 500/532."""
        tables = two_junctions()
        tables["movements"][2] = ["1", "west", "left", "11", "2", "west"]
        found = made(tables)
        feeds = {feed.feeder: feed.flow for feed in found.deck.link(21).feeds}
        self.assertEqual(feeds, {11: 415, 12: 85})
        self.assertEqual(found.balances[0].arriving, 532)


class Told(unittest.TestCase):
    """The table of what was counted and what arrives."""

    def test_worst_first(self) -> None:
        """Both ways between the junctions are inner arms: 490 arrive for 500 at one, 200 for 100 at the other."""
        tables = two_junctions()
        tables["links"].append(["13", "1", "east", "back", "1800", "1", "1", "2", "4", "", ""])
        tables["movements"] += [["1", "east", "ahead", "13", "", ""], ["2", "north", "right", "22", "1", "east"]]
        tables["ways"].append(["2", "1", "", "250", "45", "", ""])
        tables["counts"][-1] = ["2", "north", "07:45", "60", "", "130", "200"]
        tables["counts"].append(["1", "east", "07:45", "60", "100", "", ""])
        balances = made(tables).balances
        self.assertEqual([(one.arm, one.counted, one.arriving, one.done) for one in balances],
                         [("1 east", 100, 200, "scaled"), ("2 west", 500, 490, "scaled")])

    def test_an_arm_where_nothing_was_counted_isnt_told(self) -> None:
        """Nothing arrives and nothing was counted: as counted, and no sentence."""
        tables = two_junctions()
        for row in tables["counts"][1:]:
            for column in (4, 6):
                row[column] = "0" if row[column] else ""
        found = made(tables)
        self.assertEqual((found.balances[0].done, found.deck.link(21).entry), ("as counted", 0))
        self.assertFalse(any("nothing arrives" in said for said in found.told))


if __name__ == "__main__":
    unittest.main()
