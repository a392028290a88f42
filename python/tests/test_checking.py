"""What `check` compares, piece by piece: cards of a deck and of its sheets, figures of a page, a folder's files."""

import os
import tempfile
import unittest
from typing import List, Tuple

import support
from transyt.deck import Deck, read_deck
from transyt.faults import Fault
from transyt.filing.checking import differences, first_difference, numbers_of
from transyt.filing.folder import read_folder, sheet_files
from transyt.filing.shown import texts_of, wrong_figure, wrong_text


def differing(*changes: Tuple[str, str]) -> List[Tuple[bool, str]]:
    """What differs between three junctions in a road and the same with changes of its text."""
    text = support.THREE
    for old, new in changes:
        assert old in text, old
        text = text.replace(old, new)
    return differences(read_deck(text), read_deck(support.THREE))


class Cards(unittest.TestCase):
    """All cards are the same but offsets, changes, C and N with C/N the same, and STEPS."""

    def test_offsets_and_changes_are_the_plans(self) -> None:
        """Nothing is told of them, nor of names."""
        self.assertEqual(differing(("NODE 2 3", "NODE 2 9"), ("STAGE 7 1 2", "STAGE 6 1 2"), ("Mill Road", "X")), [])

    def test_another_cycle_of_the_same_step_is_told(self) -> None:
        """60 s in 12 steps and 90 in 18 are steps of 5 s; 90 in 12 aren't."""
        (told,) = differing(("CYCLE 60 12", "CYCLE 90 18"))
        self.assertEqual(told, (False, "the cycle is 90 s in 18 steps, and 60 in 12 in the sheets"))
        self.assertIn((True, "a step isn't as long"), differing(("CYCLE 60 12", "CYCLE 90 12")))

    def test_steps_are_told(self) -> None:
        """Another budget or other sizes are no fault."""
        for new in ("STEPS 300 1 3", "STEPS 200 1 4"):
            self.assertEqual([wrong for wrong, _ in differing(("STEPS 200 1 3", new))], [False])

    def test_all_else_is_wrong(self) -> None:
        """Sweeps, period, penalty, dispersion, intergreens, least greens, and each number of a link."""
        frame = "the CYCLE card differs in more than cycle and steps"
        for old, new, said in (("60 12 1 60", "60 12 2 60", frame), ("1 60 100", "1 50 100", frame),
                               ("60 100\n", "60 99\n", frame), ("60 100\n", "60 100 20\n", frame),
                               ("STAGE 7 1 2", "STAGE 7 2 2", "NODE 1 differs"),
                               ("STAGE 7 1 2", "STAGE 7 1 3", "NODE 1 differs"),
                               ("LINK 11 1 500", "LINK 11 1 501", "LINK 11 differs"),
                               ("21 11 350 21", "21 11 351 21", "LINK 21 differs"),
                               ("21 11 350 21", "21 11 350 22", "LINK 21 differs"),
                               ("YIELD 32 31 40", "YIELD 32 31 41", "LINK 32 differs"),
                               ("YIELD 32 31 40\n", "", "LINK 32 differs")):
            with self.subTest(new):
                self.assertEqual(differing((old, new)), [(True, said)])

    def test_a_link_or_a_junction_more(self) -> None:
        """Whichever of the two has it."""
        one = read_deck(support.THREE)
        link = one.links[-1]
        other = Deck(one.frame, one.nodes[:2], tuple(one for one in one.links if one.number != link.number),
                     one.climb_plan)
        for pair in ((one, other), (other, one)):
            self.assertEqual(differences(*pair), [(True, "NODE 3 differs"), (True, f"LINK {link.number} differs")])


class Figures(unittest.TestCase):
    """The figures of a page that another version of the package made."""

    RIGHT = [("10", "LINK 1 DELAY", "1.0"), ("10", "LINK 1 AT", "20"), ("10", "LINK 1 AT", "10")]

    def test_as_they_are(self) -> None:
        """In their order: a place may stand twice, as in seconds and in steps."""
        self.assertIsNone(wrong_figure(self.RIGHT, self.RIGHT))
        said = "LINK 1 AT is 10, shown as 10, on the page, and 10, 20, by plan.report at this place"
        self.assertEqual(wrong_figure([self.RIGHT[0], self.RIGHT[2], self.RIGHT[1]], self.RIGHT), said)

    def test_what_is_wrong(self) -> None:
        """A raw number, how it is shown, a place that there isn't, one that is left out, and one more."""
        for raw, place, shown, there in (("11", "LINK 1 DELAY", "1.0", "10, 1.0,"),
                                         ("10", "LINK 1 DELAY", "1.1", "10, 1.0,"),
                                         ("10", "LINK 2 DELAY", "1.0", "LINK 1 DELAY 10, 1.0,")):
            said = f"{place} is {raw}, shown as {shown}, on the page, and {there} by plan.report at this place"
            self.assertEqual(wrong_figure([(raw, place, shown), *self.RIGHT[1:]], self.RIGHT), said)
        self.assertEqual(wrong_figure(self.RIGHT[:2], self.RIGHT),
                         "LINK 1 AT isn't on the page, or not as often as in plan.report")
        self.assertEqual(wrong_figure([*self.RIGHT, self.RIGHT[0]], self.RIGHT),
                         "LINK 1 DELAY is on the page once more than it belongs there")

    def test_texts_of_a_page(self) -> None:
        """Titles, names, sums, the cells that name a row, and the mark; nothing of a picture, nor the page's words."""
        page = ('<title>T</title><h1><bdi>T</bdi></h1><p class="mark">UNFINISHED: x</p><svg>\n<title>no</title></svg>'
                '<td>11</td><td><bdi>north</bdi></td><td class="number"><data value="1" class="A">2</data></td>'
                "<code>5f</code>")
        self.assertEqual(texts_of(page), ["T", "T", "UNFINISHED", "11", "north", "5f"])
        self.assertIsNone(wrong_text(["a"], ["a"]))
        self.assertEqual(wrong_text(["b"], ["a"]), "b stands on the page where a belongs, by plan.deck")
        self.assertEqual(wrong_text([], ["a"]), "nothing stands on the page where a belongs, by plan.deck")

    def test_numbers_of_a_sheet(self) -> None:
        """Rows without heads and names."""
        self.assertEqual(numbers_of('junction,name,stage,name,a\n1,"x, y",2,z,7.5\n'), [["1", "2", "7.5"]])

    def test_where_two_texts_differ(self) -> None:
        """The first line; past the shorter one where all else is alike."""
        self.assertEqual([first_difference(*pair) for pair in (("a\nb\nc", "a\nx\nc"), ("a\n", "a"), ("a", "b"))],
                         [2, 1, 1])


class Folders(unittest.TestCase):
    """Nothing but plain files, and no link to anywhere."""

    def test_a_link_in_the_sheets_place(self) -> None:
        """A folder of sheets that is a link isn't followed; folders within aren't files."""
        with tempfile.TemporaryDirectory() as path:
            os.mkdir(os.path.join(path, "elsewhere"))
            with open(os.path.join(path, "elsewhere", "counts.csv"), "w", encoding="utf-8") as file:
                file.write("x")
            filed = os.path.join(path, "filed")
            os.mkdir(filed)
            os.symlink(os.path.join(path, "elsewhere"), os.path.join(filed, "sheets"))
            self.assertEqual(read_folder(filed), ({}, ["sheets is no file of a filed plan"]))
            os.unlink(os.path.join(filed, "sheets"))
            os.mkdir(os.path.join(filed, "sheets"))
            self.assertEqual(read_folder(filed), ({}, ["sheets has no file"]))
            os.makedirs(os.path.join(filed, "sheets", "counts.csv"))
            os.mkfifo(os.path.join(filed, "plan.deck"))
            self.assertEqual(read_folder(filed), ({}, ["plan.deck is no plain file",
                                                       "sheets/counts.csv is no plain file"]))


    def test_sheets_whose_names_fit_on_no_line(self) -> None:
        """A name with a line's end would put a line of its own into plan.deck."""
        with tempfile.TemporaryDirectory() as path:
            with open(os.path.join(path, "ways.csv"), "wb") as file:
                file.write(b"x")
            self.assertEqual(sheet_files(path), {"ways.csv": b"x"})
            self.assertEqual(sheet_files(os.path.join(path, "ways.csv")), {"ways.csv": b"x"})
            with open(os.path.join(path, "a\n* STATUS finished.csv"), "wb") as file:
                file.write(b"x")
            with self.assertRaisesRegex(Fault, r"control character U\+000A"):
                sheet_files(path)


if __name__ == "__main__":
    unittest.main()
