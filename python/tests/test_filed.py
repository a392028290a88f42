"""The plans that are filed under examples/filed: `./plan check` holds on each."""

import glob
import os
import random
import tempfile
import unittest
from typing import Dict, List, Sequence, Tuple

from support import PROGRAM, ROOT, needs_program
from transyt.filing.checking import Check
from transyt.filing.folder import PAGE, SUMS, read_folder, sums_text
from transyt.filing.shown import wrong_shown
from transyt.filing.writing import write_folder
from transyt.html import FIGURE
from transyt.program import Answer, Program

FOLDERS = sorted(os.path.dirname(path) for path in glob.glob(os.path.join(ROOT, "examples", "filed", "*", "plan.deck")))


class Remembering(Program):
    """The program, asked each thing once."""

    def __init__(self, path: str) -> None:
        super().__init__(path)
        self.answers: Dict[Tuple[Tuple[object, ...], str], Answer] = {}

    def ask(self, words: Sequence[object], text: str = "") -> Answer:
        """The answer that was had before, else the program's."""
        asked = tuple(words), text
        if asked not in self.answers:
            self.answers[asked] = super().ask(words, text)
        return self.answers[asked]


def with_another_byte(data: bytes, place: int, chance: random.Random) -> bytes:
    """Bytes of which one is another."""
    return data[:place] + bytes([(data[place] + chance.randrange(1, 256)) % 256]) + data[place + 1:]


def swapped(page: str) -> List[str]:
    """A page with two neighbouring figures exchanged, for each two that aren't alike: whole, and what they show."""
    pages: List[str] = []
    found = list(FIGURE.finditer(page))
    for one, other in zip(found, found[1:]):
        whole = page[:one.start()] + other[0] + page[one.end():other.start()] + one[0] + page[other.end():]
        shown = page[:one.start(3)] + other[3] + page[one.end(3):other.start(3)] + one[3] + page[other.end(3):]
        pages += [whole] if one.groups() != other.groups() else []
        pages += [shown] if one[3] != other[3] else []
    return pages


@needs_program
@unittest.skipUnless(FOLDERS, "no plan is filed under examples/filed: examples/filed/make.sh files them")
class Filed(unittest.TestCase):
    """Each folder as it stands in the repository."""

    def test_each_holds(self) -> None:
        """Whatever program is here: another one is told, and fails only where its answer differs."""
        for path in FOLDERS:
            with self.subTest(os.path.basename(path)):
                findings = Check(path, Program(PROGRAM)).run()
                self.assertEqual([finding.sentence for finding in findings if not finding.holds], [])

    def test_a_byte_of_each_file(self) -> None:
        """At five random places of each file, with the sums made anew: found."""
        chance, program = random.Random(60), Remembering(PROGRAM or "")
        for folder in FOLDERS:
            files, _ = read_folder(folder)
            for name, data in files.items():
                for place in (chance.randrange(len(data)) for _ in range(5)):
                    changed = {**files, name: with_another_byte(data, place, chance)}
                    if name != SUMS:
                        rest = {one: what for one, what in changed.items() if one != SUMS}
                        changed[SUMS] = sums_text(rest).encode("ascii")
                    with self.subTest(folder=os.path.basename(folder), name=name, place=place):
                        self.assertFalse(self.holds(changed, program))

    def holds(self, files: Dict[str, bytes], program: Program) -> bool:
        """Whether a folder with these files holds."""
        with tempfile.TemporaryDirectory() as parent:
            path = os.path.join(parent, "filed")
            write_folder(path, files)
            return all(finding.holds for finding in Check(path, program).run())

    def test_two_figures(self) -> None:
        """Any two neighbouring figures of a page exchanged are found, whatever version made it."""
        for folder in FOLDERS:
            with open(os.path.join(folder, PAGE), encoding="utf-8") as file:
                page = file.read()
            pages = swapped(page)
            self.assertGreater(len(pages), 100)
            self.assertIsNone(wrong_shown(page, page))
            self.assertEqual([other for other in pages if wrong_shown(other, page) is None], [])


if __name__ == "__main__":
    unittest.main()
