"""The tables of examples/sumo: the overview of README.md is what its other tables say."""

import importlib.util
import os
import unittest

import support  # noqa: F401
from transyt.program import ROOT

SCRIPT = os.path.join(ROOT, "examples", "sumo", "tables.py")


@unittest.skipUnless(os.path.isfile(SCRIPT), "the examples aren't beside the package")
class Tables(unittest.TestCase):
    def setUp(self) -> None:
        spec = importlib.util.spec_from_file_location("tables", SCRIPT)
        self.tables = importlib.util.module_from_spec(spec)
        spec.loader.exec_module(self.tables)

    def test_each_table_stands_in_the_readme(self) -> None:
        for name in [*self.tables.DRIVES, "ten"]:
            lines = self.tables.parts(name)[1].split("\n")
            self.assertTrue(any(line.startswith("| delay in SUMO") for line in lines), name)

    def test_the_overview_is_of_these_tables(self) -> None:
        self.assertEqual(self.tables.parts("overview")[1], self.tables.overview())

    def test_the_readme_has_the_totals_of_the_stored_table(self) -> None:
        with open(os.path.join(ROOT, "examples", "sumo", "ten.md"), encoding="utf-8") as file:
            self.assertEqual(self.tables.parts("ten")[1], self.tables.totals_of(file.read()))

    def test_figures_that_are_apart_are_marked(self) -> None:
        with open(os.path.join(ROOT, "examples", "sumo", "ten.md"), encoding="utf-8") as file:
            lines = file.read().split("\n")
        rows = [cells for cells in map(self.tables.cells_of, lines) if len(cells) == 10 and cells[1].isdecimal()]
        self.assertEqual(len(rows), 80)
        for link, flow, *cells in rows:
            bold = [cell.startswith("**") for cell in cells]
            figures = [float(cell.strip("*")) for cell in cells]
            apart = [abs(driven - programs) * 3 > programs + 1e-9
                     for programs, driven in zip(figures[::2], figures[1::2])]
            self.assertEqual(bold[1::2], apart if flow != "0" else [False] * 4, link)
            self.assertEqual("*" in link, any(bold), link)


if __name__ == "__main__":
    unittest.main()
