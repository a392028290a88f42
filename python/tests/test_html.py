"""Pieces of a page: another plan's figures beside its own; how a click on a head sorts a table."""

import json
import shutil
import subprocess
import unittest
from typing import List

import support  # noqa: F401
from transyt.html import SCRIPT, beside, figure, more_or_less, paired, with_others

# A document with one table of one column; it tells the rows after each of two clicks on the head.
BEFORE = """
const cells = JSON.parse(process.argv[1]).map(words => ({ textContent: words, querySelector: () => null }));
const body = { rows: cells.map(cell => ({ cells: [cell] })), append(row) { this.rows.push(row); } };
const head = { dataset: {}, addEventListener: (_, clicked) => { head.click = clicked; } };
const table = { tBodies: [body], querySelectorAll: () => [head] };
const document = { querySelectorAll: () => [table] };
"""
AFTER = """
for (const wanted of ['up', 'down']) {
  const { append } = body, told = [];
  body.append = row => told.push(row);
  head.click();
  if (head.dataset.sorted !== wanted) throw new Error(head.dataset.sorted);
  body.rows = told;
  console.log(JSON.stringify(told.map(row => row.cells[0].textContent)));
}
"""


class Beside(unittest.TestCase):
    """Another page's figures beside those of a page."""

    def test_more_or_less_as_it_is_shown(self) -> None:
        """By what is shown; by the raw value where that is no number; no mark where the same is shown."""
        for mine, its, kind in ((("5", "10"), ("5", "15"), " more"), (("5", "25"), ("10", "9.5"), " less"),
                                (("5", "25"), ("10", "25"), ""), (("47451", "47.45"), ("47452", "47.45"), ""),
                                (("999", "99.9"), ("999999", "no green"), " more"),
                                (("999999", "no green"), ("5", "0.5"), " less"),
                                (("-3", "-0.3"), ("2", "+0.2"), " more")):
            self.assertEqual(more_or_less(mine, its), kind, (mine, its))

    def test_each_at_its_place(self) -> None:
        """In order where a place stands twice; with the other's formula; nothing where both are the same."""
        one = figure("X AT", 5, "10", "AT × 2") + figure("X AT", 5, "5") + figure("Y", 7, "7")
        other = figure("Y", 7, "7") + figure("X AT", 5, "15", "AT × 3") + figure("X AT", 5, "5")
        self.assertEqual(with_others(one, other), figure("X AT", 5, "10", "AT × 2")
                         + ' <span class="against more" title="the other plan">'
                         + figure("AGAINST X AT", 5, "15", "AT × 3") + "</span>"
                         + figure("X AT", 5, "5") + figure("Y", 7, "7"))

    def test_as_a_whole(self) -> None:
        """A piece whose words differ, or that is no amount, has the other one whole beside it, unmarked."""
        one, other = f"{figure('X', 1, '1')} moves", f"{figure('X', 2, '2')} moves"
        whole = f'{one} <span class="against" title="the other plan">{figure("AGAINST X", 2, "2")} moves</span>'
        self.assertEqual(beside(one, other), whole)
        self.assertEqual((beside(one, one), paired(one, one)), (one, one))
        self.assertEqual(paired(one, other), with_others(one, other))
        self.assertEqual(paired(one, "none"), f'{one} <span class="against" title="the other plan">none</span>')


@unittest.skipUnless(shutil.which("node"), "node isn't installed")
class Sorting(unittest.TestCase):
    """A table with one column, under node."""

    def check(self, wanted: List[str]) -> None:
        """One click sorts the cells as wanted, from any order; a second turns them round."""
        for cells in (wanted, wanted[::-1], wanted[1::2] + wanted[::2]):
            ran = subprocess.run(["node", "-e", BEFORE + SCRIPT + AFTER, json.dumps(cells)], check=True, text=True,
                                 stdout=subprocess.PIPE)
            up, down, _ = ran.stdout.split("\n")
            self.assertEqual((json.loads(up), json.loads(down)), (wanted, wanted[::-1]))

    def test_numbers_are_compared_as_numbers(self) -> None:
        """2 before 10, with a sign and decimals too."""
        self.check(["1", "2", "10", "21", "100"])
        self.check(["-21.5", "-4.4", "0.0", "+1.8", "+8.9", "+10.1"])

    def test_a_name_may_stand_beside_a_number(self) -> None:
        """The number counts first, then the name."""
        self.check(["2 Market Street", "10 Bridge Street", "10 Mill Road", "21"])

    def test_words_are_compared_as_text(self) -> None:
        """A word that begins with a digit too; they stand after the numbers."""
        self.check(["9.5", "81.0", "", "10th Avenue", "9th Avenue", "no green"])


if __name__ == "__main__":
    unittest.main()
