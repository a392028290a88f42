"""The guide's sheets, its deck, and its filed plan."""

import os
import tempfile
import unittest

import support
from support import PROGRAM, ROOT, needs_program
from transyt.filing.checking import Check
from transyt.filing.writing import Asked, made_files, write_folder
from transyt.program import Program
from transyt.session import Session
from transyt.sheets import All, make_deck, read_sheets
from transyt.sheets.checking import balanced, checked

GUIDE = os.path.join(ROOT, "examples", "guide")
PAGE = os.path.join(ROOT, "docs", "GUIDE.md")


@needs_program
class Guide(unittest.TestCase):
    """What docs/GUIDE.md does."""

    def test_the_deck_is_that_of_the_sheets(self) -> None:
        """`./plan deck examples/guide` is two-junctions.deck."""
        made = balanced(make_deck(read_sheets(GUIDE), All()), PROGRAM)
        deck, _ = checked(made, PROGRAM)
        self.assertEqual(str(deck), support.example("guide/two-junctions.deck"))

    def test_filed_and_checked(self) -> None:
        """The plan after a climb, filed with its sheets, holds."""
        made = balanced(make_deck(read_sheets(GUIDE), All()), PROGRAM)
        with Session(made.deck, 1, PROGRAM) as town:
            town.climb().run()
            deck = town.deck()
        program = Program(PROGRAM)
        with tempfile.TemporaryDirectory() as folder:
            path = os.path.join(folder, "filed")
            write_folder(path, made_files(deck, program, Asked("Guide", "A. Engineer", "2026-04-02", GUIDE)))
            findings = Check(path, program).run()
        self.assertEqual([finding.sentence for finding in findings if not finding.holds], [])


@unittest.skipUnless(os.path.isfile(PAGE), "the documents aren't beside the package")
class Told(unittest.TestCase):
    """What docs/GUIDE.md shows."""

    def test_each_line_is_copied(self) -> None:
        """Of its blocks after the sketch each line stands in run.report or in the deck; `$` begins what is typed."""
        copied = support.example("guide/run.report") + support.example("guide/two-junctions.deck")
        there = {"..", *(line.strip() for line in copied.split("\n"))}
        with open(PAGE, encoding="utf-8") as file:
            _, *blocks = file.read().split("```")[1::2]
        self.assertGreater(len(blocks), 20)
        shown = [line.strip() for block in blocks for line in block.split("\n")[1:]]
        self.assertEqual([line for line in shown if line and line not in there and line[0] != "$"], [])


if __name__ == "__main__":
    unittest.main()
