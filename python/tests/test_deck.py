"""Decks: read, written, with names and comments."""

import unittest
from typing import List, Tuple

import support
from transyt.deck import ClimbPlan, Deck, Feed, Frame, GiveWay, Stage, cards_of, has_end, read_deck
from transyt.edits import Edit, after, inverse, moves, read_edit
from transyt.faults import Fault
from transyt.text import lines_of


class ReadDeck(unittest.TestCase):
    def test_parts(self) -> None:
        deck = read_deck(support.THREE)
        self.assertEqual(deck.frame, Frame(60, 12, 1, 60, 100, 35))
        self.assertEqual(deck.node(3).offset, 11)
        self.assertEqual(deck.node(3).stages, (Stage(1, 1, 3), Stage(8, 1, 2)))
        self.assertEqual([deck.node(3).length(place, 12) for place in (1, 2)], [7, 5])
        link = deck.link(31)
        self.assertEqual((link.entry, link.saturation, link.start_lag, link.stages), (40, 1800, 0, (1,)))
        self.assertEqual(link.feeds, (Feed(21, 400, 17), Feed(22, 60, 19)))
        self.assertEqual((link.total_flow, deck.sent(21)), (500, 400))
        self.assertEqual(deck.link(32).gives_way, GiveWay(31, 40))
        self.assertEqual(deck.climb_plan, ClimbPlan(200, (1, 3)))

    def test_form_2_has_lags(self) -> None:
        deck = read_deck("FORM 2\nCYCLE 060 12 1 60 100 0\nNODE 1 0\nSTAGE 0 1 2\nSTAGE 6 1 2\n"
                         "LINK 1 1 5 1800 1 2 3 4 1 2\nEND\n")
        link = deck.link(1)
        self.assertEqual((link.delay_weight, link.stop_weight, link.start_lag, link.end_lag, link.stages),
                         (1, 2, 3, 4, (1, 2)))

    def test_line_ends_tabs_and_bytes(self) -> None:
        plain = read_deck(support.THREE)
        self.assertEqual(read_deck(support.THREE.replace("\n", "\r\n").replace("LINK 11 1", "\tLINK\t11  1")), plain)
        self.assertEqual(read_deck(support.THREE.encode()), plain)
        self.assertEqual(read_deck(support.THREE + "INDEX\nnonsense\n"), plain)

    def test_written_as_read(self) -> None:
        deck = read_deck(support.THREE)
        self.assertEqual(read_deck(str(deck)), deck)
        for name in ("arterial.deck", "town.deck", "cycles.deck", "certificate.deck"):
            deck = read_deck(support.example(name))
            self.assertEqual(read_deck(str(deck)), deck)

    def test_text_is_the_programs(self) -> None:
        text = str(read_deck(support.example("arterial.deck")).bare())
        self.assertTrue(text.startswith("FORM 2\nCYCLE 80 40 3 60 100 35\nNODE 1 0\nSTAGE 0 3 5\n"))
        self.assertNotIn("*", text)

    def refused(self, old: str, new: str, said: str) -> None:
        """A deck with one text in the place of another is refused in a sentence."""
        with self.assertRaisesRegex(Fault, said):
            read_deck(support.THREE.replace(old, new))

    def test_faults_have_their_line(self) -> None:
        self.refused("END\n", "", "no END card")
        self.refused("NODE 1 0", "NUDE 1 0", "line 5: there is no card NUDE")
        self.refused("NODE 1 0", "NODE 1 x", "line 5: x is no number")
        self.refused("NODE 1 0", "NODE 1", "line 5: NODE has 1 numbers, and takes 2")
        self.refused("NODE 2 3", "NODE 1 3", "line 9: the card NODE 1 3")
        self.refused("FEED 31 21", "FEED 33 21", "line 26: the card FEED 33")
        self.refused("CYCLE 60 12 1 60 100\n", "", "no CYCLE card")

    def test_cards_of(self) -> None:
        self.assertEqual(cards_of("CYCLE 1\n* END\nEND\nINDEX\n"), "CYCLE 1\n* END\nEND\n")
        self.assertEqual(cards_of("CYCLE 1\r\n END\r\nINDEX"), "CYCLE 1\r\n END\r\n")
        self.assertEqual(cards_of("CYCLE 1\nEND"), "CYCLE 1\nEND\n")
        self.assertEqual((has_end("* END\nENDS\n"), has_end("a\n\tEND \n")), (False, True))


class ReadNames(unittest.TestCase):
    def test_names_and_counts(self) -> None:
        names = read_deck(support.THREE).names
        self.assertEqual((names.town, names.nodes, names.links), ("Mill Road, morning", {1: "Market Street"},
                                                                  {21: "from Bridge Street"}))
        self.assertEqual((names.stages, names.lanes, names.metres), ({(1, 1): "main road"}, {21: 2}, {(21, 11): 340}))

    def told(self, line: str) -> Tuple[Deck, List[str]]:
        """The deck with a line before END, and what is said of it."""
        said: List[str] = []
        deck = read_deck(support.THREE.replace("END\n", line + "\nEND\n"), said.append)
        return deck, said

    def test_anywhere_before_end(self) -> None:
        deck, said = self.told("* NAME NODE 1 Mill Lane")
        self.assertEqual((deck.names.nodes[1], said), ("Mill Lane", []))
        after_end = read_deck(support.THREE + "* NAME NODE 2 too late\n")
        self.assertNotIn(2, after_end.names.nodes)

    def test_parts_that_arent_there_are_told_and_left(self) -> None:
        for line in ("* NAME NODE 9 x", "* NAME LINK 9 x", "* NAME STAGE 1 3 x", "* LANES 9 2", "* METRES 21 31 5",
                     "* NAME NODE x y", "* NAME NODE 1", "* LANES 21 0", "* LANES 21", "* METRES 21 11"):
            deck, said = self.told(line)
            self.assertEqual(len(said), 1, line)
            self.assertIn("line 30", said[0])
            self.assertEqual(deck.names, read_deck(support.THREE).names)

    def test_other_comments_are_no_names(self) -> None:
        for line in ("*NAME NODE 1 x", "* NAMES NODE 1 x", "* NAME STREET 1 x", "* name NODE 1 x"):
            deck, said = self.told(line)
            self.assertEqual((said, deck.names), ([], read_deck(support.THREE).names))

    def test_name_that_is_too_long(self) -> None:
        with self.assertRaisesRegex(Fault, "line 30: the name has 201 characters"):
            self.told("* NAME NODE 1 " + "x" * 201)

    def test_name_in_another_script_and_in_other_bytes(self) -> None:
        text = support.THREE.encode().replace(b"Market Street", b"\xc3\x85kerv\xe4gen")
        self.assertEqual(read_deck(text).names.nodes[1], "Åkerv\ufffdgen")

    def test_name_lines_stand_above_their_cards(self) -> None:
        lines = lines_of(str(read_deck(support.THREE)))
        for comment, card in (("* NAME NODE 1 Market Street", "NODE 1 0"),
                              ("* NAME STAGE 1 1 main road", "STAGE 0 1 2"),
                              ("* LANES 21 2", "LINK 21 2 100 1800 1 1 0 0 1"),
                              ("* METRES 21 11 340", "FEED 21 11 350 21")):
            self.assertEqual(lines[lines.index(comment) + 1], card)

    def test_comments_at_the_top_go_along_without_rows(self) -> None:
        top = ("* ours\n* CYCLE 60 FROM 5 TOOK 2 LOCAL 3 TO 4\n* CYCLE 70 BARRED 3\n* CYCLE 75 NONE\n* BEST 60 4\n"
               "* START 0 FROM 5 TOOK 2 BUDGET 3 TO 4\n* NONE\n* CYCLE: cycle in seconds\n"
               "* SHEETS --from 07:45 --for 60\n")
        deck = read_deck(top + support.THREE)
        self.assertEqual(deck.comments, ("* ours", "* CYCLE: cycle in seconds", "* Three junctions in a road."))
        self.assertEqual(deck.names.sheets, "--from 07:45 --for 60")
        self.assertIn("* SHEETS --from 07:45 --for 60\nFORM 2\n", str(deck))

    def test_long_comment_of_other_bytes_still_fits(self) -> None:
        deck = read_deck(b"* " + b"\xe4" * 3000 + b"\n" + support.THREE.encode())
        self.assertLessEqual(max(len(line.encode()) for line in lines_of(str(deck))), 4096)


class Edits(unittest.TestCase):
    def test_each_edit_and_its_inverse(self) -> None:
        deck = read_deck(support.THREE)
        for line, back in (("OFFSET 2 7", "OFFSET 2 3"), ("CHANGE 3 2 9", "CHANGE 3 2 8"),
                           ("ENTRY 11 9", "ENTRY 11 500"),
                           ("PART 21 12 5", "PART 21 12 90"), ("CRUISE 21 12 5", "CRUISE 21 12 24"),
                           ("SATURATION 22 900", "SATURATION 22 1700"), ("WEIGHT 32 5 6", "WEIGHT 32 1 2")):
            edit = read_edit(line)
            edited = after(deck, edit)
            self.assertNotEqual(edited, deck)
            self.assertEqual(str(inverse(deck, edit)), back)
            self.assertEqual(after(edited, inverse(deck, edit)), deck)

    def test_lines_that_are_no_edits(self) -> None:
        for line in ("OFFSET 2", "INDEX", "OFFSET a 2", "", "WEIGHT 1 2"):
            with self.assertRaises(Fault):
                read_edit(line)

    def test_moves(self) -> None:
        listed = moves(read_deck(support.THREE))
        self.assertEqual(len(listed), 2 * 3 * 6)
        self.assertEqual([str(move) for move in listed[:6]],
                         ["OFFSET 1 1", "OFFSET 1 11", "CHANGE 1 1 1", "CHANGE 1 1 11", "CHANGE 1 2 8", "CHANGE 1 2 6"])
        self.assertEqual(listed[18], Edit("OFFSET", (1, 3)))

    def test_plan(self) -> None:
        deck = read_deck(support.THREE)
        other = deck.with_plan({2: (5, [1, 8])})
        self.assertEqual(other.plan(), {1: (0, [0, 7]), 2: (5, [1, 8]), 3: (11, [1, 8])})
        with self.assertRaises(Fault):
            deck.with_plan({2: (5, [1])})


if __name__ == "__main__":
    unittest.main()
