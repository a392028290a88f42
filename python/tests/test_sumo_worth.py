"""examples/sumo/worth.py: its networks and its tables, and the figures that docs/GUIDE.md takes from them."""

import importlib.util
import os
import sys
import unittest
import xml.etree.ElementTree as ElementTree
from types import ModuleType
from typing import List

import support
from support import ROOT, needs_program
from transyt.deck import read_deck
from transyt.sumo.drive import LinkMeasures, Measures

SCRIPT = os.path.join(ROOT, "examples", "sumo", "worth.py")


def script() -> ModuleType:
    """The script as a module."""
    spec = importlib.util.spec_from_file_location("worth", SCRIPT)
    if spec is None or spec.loader is None:
        raise ImportError(SCRIPT)
    module = importlib.util.module_from_spec(spec)
    sys.modules["worth"] = module
    spec.loader.exec_module(module)
    return module


@unittest.skipUnless(os.path.isfile(SCRIPT), "the examples aren't beside the package")
class Worth(unittest.TestCase):
    """What needs neither SUMO nor the program."""

    def setUp(self) -> None:
        self.worth = script()

    def measures(self, delay: float, collisions: int = 0) -> Measures:
        """A run with a delay on one link."""
        return Measures({1: LinkMeasures(600, delay, 3)}, collisions, 0)

    def test_a_junction_without_a_given_offset_keeps_that_of_the_deck(self) -> None:
        """In seconds, as tlsCoordinator gives the others."""
        given = ElementTree.fromstring('<additional><tlLogic id="node2" programID="0" offset="7.25"/></additional>')
        self.assertEqual(self.worth.held(read_deck(support.THREE), given), {"node1": 0, "node2": 7.25, "node3": 55})

    def test_the_greens_fill_their_stages(self) -> None:
        """So nothing but offsets can be moved; the changes and the offset stay."""
        node = read_deck(support.THREE).node(3)
        full = self.worth.with_full_stages(node, 12)
        self.assertEqual([stage.least for stage in full.stages], [6, 4])
        self.assertEqual((full.offset, [stage.change for stage in full.stages]), (11, [1, 8]))

    def test_all_flows_are_multiplied(self) -> None:
        """Entry flows and feeds."""
        link = self.worth.busier(read_deck(support.THREE), 1.1).link(31)
        self.assertEqual((link.entry, [feed.flow for feed in link.feeds]), (44, [440, 66]))

    def test_offsets_are_left_out(self) -> None:
        """For the network that tlsCoordinator reads."""
        self.assertEqual({node.offset for node in self.worth.without_offsets(read_deck(support.THREE)).nodes}, {0})

    def test_names(self) -> None:
        """What a network is called, also one that is made fuller."""
        names = [network.name for network in self.worth.NETWORKS]
        self.assertEqual((names[0], names[2], names[8]),
                         ("road: `examples/arterial.deck`", "road: `make 1 6`", "near saturation: `make 1 12` at 0.95"))

    def test_rows(self) -> None:
        """What is taken off stands against the deck's offsets, and by seed."""
        plans = {name: self.worth.Driven(index, [self.measures(delay, 1), self.measures(2 * delay)])
                 for name, index, delay in zip(self.worth.PLANS, (5e6, 0, 4.2e6, 4e6), (10, 11, 9, 8))}
        lines = self.worth.rows_of(self.worth.NETWORKS[0], plans)
        head = "| road: `examples/arterial.deck` | the deck's |"
        self.assertEqual(lines[0], f"{head} the deck's offsets | 5.00 | 15.00 |  |  |")
        self.assertEqual(lines[1], f"{head} `tlsCoordinator` | - | 16.50 | -10.0 | -10.0 to -10.0 |")
        self.assertEqual(lines[3], f"{head} the end of the climb | 4.00 | 12.00 | 20.0 | 20.0 to 20.0 |")


@unittest.skipUnless(os.path.isfile(SCRIPT), "the examples aren't beside the package")
class Told(unittest.TestCase):
    """docs/GUIDE.md tells the figures of worth.md, from the least to the most of each kind of network."""

    def setUp(self) -> None:
        self.worth = script()
        with open(os.path.join(ROOT, "examples", "sumo", "worth.md"), encoding="utf-8") as file:
            rows = [[cell.strip() for cell in line.rstrip("\n")[1:-1].split("|")] for line in file
                    if line.startswith("| ")]
        self.plans = [row for row in rows if len(row) == 7 and ": `" in row[0]]
        self.lasts = [row for row in rows if len(row) == 6 and ": `" in row[0]]
        with open(os.path.join(ROOT, "docs", "GUIDE.md"), encoding="utf-8") as file:
            self.guide = next(line for line in file if line.startswith("**What a lower index is worth.**"))

    def told(self, figures: List[float], digits: int) -> str:
        """The least and the most of some figures, as the guide has them."""
        return f"{min(figures):.{digits}f} to {max(figures):.{digits}f}".replace("-", "\u2212")

    def test_each_network_has_its_rows(self) -> None:
        """In the order of the script, with the greens that it names."""
        wanted = [[network.name, network.greens] for network in self.worth.NETWORKS]
        self.assertEqual([row[:2] for row in self.lasts], wanted)
        self.assertEqual([row[:3] for row in self.plans],
                         [[*names, plan] for names in wanted for plan in self.worth.PLANS])

    def test_what_is_taken_off(self) -> None:
        """By the offsets of `starts` and by those of tlsCoordinator."""
        for plan in (self.worth.BEST, self.worth.COORDINATED):
            for kind in (self.worth.ROAD, self.worth.GRID, self.worth.FULL):
                off = [float(row[5]) for row in self.plans if row[2] == plan and row[0].startswith(f"{kind}:")]
                self.assertIn(self.told(off, 1), self.guide, (plan, kind))

    def test_the_last_of_the_index(self) -> None:
        """SUMO's delay from 5 in 100 above the end of a climb to its end."""
        for kinds in ((self.worth.ROAD, self.worth.GRID), (self.worth.FULL,)):
            ratios = [float(row[4]) for row in self.lasts if row[0].split(":")[0] in kinds]
            self.assertIn(self.told(ratios, 3), self.guide, kinds)


@unittest.skipUnless(os.path.isfile(SCRIPT), "the examples aren't beside the package")
@needs_program
class Read(unittest.TestCase):
    """The networks as the program balances them."""

    def test_own_greens_stay_and_offsets_too(self) -> None:
        """The town as it stands, and with greens of equal saturation."""
        worth = script()
        town = read_deck(support.example("town.deck"))
        own, equal = worth.NETWORKS[4].read(), worth.NETWORKS[5].read()
        self.assertEqual(own.plan(), town.plan())
        self.assertNotEqual(equal.plan(), town.plan())
        self.assertEqual([node.offset for node in equal.nodes], [node.offset for node in town.nodes])

    def test_a_fuller_network_is_as_full_as_it_says(self) -> None:
        """To a hundredth."""
        worth = script()
        for network in worth.NETWORKS[7:]:
            self.assertAlmostEqual(worth.fullest(network.read()), network.full, delta=0.01)


if __name__ == "__main__":
    unittest.main()
