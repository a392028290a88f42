"""Ways that merge: which of them meet, and that cars of two links that lead into one lane don't collide."""

import os
import shutil
import tempfile
import unittest
from dataclasses import replace

import support  # noqa: F401
from transyt.deck import Deck, read_deck
from transyt.sumo.drive import Measures, Run, drive, put_signals, write_signals
from transyt.sumo.giving import as_drawn
from transyt.sumo.merging import UNREGULATED, bits_of, merging_with
from transyt.sumo.netfile import Connection, read_root
from transyt.sumo.network import Net, build
from transyt.sumo.plans import write_all_cars

needs_sumo = unittest.skipUnless(shutil.which("netconvert"), "SUMO isn't installed: there is no netconvert")

# Two links of one stage, from either side, that lead into one lane; a third one goes across.
DECK = """FORM 2
CYCLE 60 30 1 60 0 0
NODE 1 0
STAGE 0 1 3
STAGE 20 2 4
NODE 2 0
STAGE 0 1 3
STAGE 24 2 4
LINK 11 1 450 1800 1 1 0 0 1
LINK 12 1 450 1800 1 1 0 0 1
LINK 13 1 200 1800 1 1 0 0 2
LINK 21 2 0 1800 1 1 0 0 1
FEED 21 11 400 20
FEED 21 12 400 20
END
"""


def way(start: str, end: str, to_lane: int = 0) -> Connection:
    """A connection from the right lane of a road."""
    return Connection(start, end, 0, to_lane, "", "node1", 0, "s")


class Merging(unittest.TestCase):
    """Which ways merge, and how a request names them."""

    def test_ways_of_other_roads_into_the_same_lane(self) -> None:
        """A road's own ways, other lanes and other roads don't merge."""
        ways = [way("link1", "link9"), way("link2", "link9"), way("link2", "link9", 1), way("link3", "link8"),
                way("link1", "link9"), way("link4", "link9")]
        self.assertEqual([merging_with(one, ways) for one in ways], [[1, 5], [0, 4, 5], [], [], [1, 5], [0, 1, 4]])

    def test_the_last_bit_is_place_0(self) -> None:
        """As SUMO writes them."""
        self.assertEqual((bits_of([0], 3), bits_of([1, 2], 4), bits_of([], 2)), ("001", "0110", "00"))


@needs_sumo
class Driven(unittest.TestCase):
    """The network of a deck with ways that merge."""

    def setUp(self) -> None:
        folder = tempfile.TemporaryDirectory()
        self.addCleanup(folder.cleanup)
        self.folder = folder.name
        self.deck: Deck = read_deck(DECK)
        self.net = build(self.deck, self.folder)

    def drive(self, net: Net) -> Measures:
        """The measures of an hour."""
        write_all_cars(self.deck, 1.2, self.folder, (1,))
        write_signals(self.deck, net, os.path.join(self.folder, "plan.add.xml"))
        return drive(self.deck, net, Run(self.folder, self.deck.frame.cycle, "plan.add.xml", "cars-1.rou.xml", 1))

    def test_ways_that_merge_meet_and_those_that_cross_do_not(self) -> None:
        """Nobody waits for anybody, and the node at which nothing merges stays as it was."""
        self.assertTrue(self.net.meets("link11", "link12") and self.net.meets("link12", "link11"))
        self.assertFalse(self.net.waits("link11", "link12") or self.net.waits("link12", "link11"))
        self.assertFalse(any(self.net.meets(one, "link13") or self.net.meets("link13", one)
                             for one in ("link11", "link12")))
        kinds = [self.net.file.junctions[name].kind for name in ("node1", "node2")]
        self.assertEqual(kinds, ["traffic_light", "traffic_light_unregulated"])

    def test_ways_of_different_stages_are_left(self) -> None:
        """One of the two merging links in the other stage: the network is as netconvert made it."""
        net = build(read_deck(DECK.replace("LINK 12 1 450 1800 1 1 0 0 1", "LINK 12 1 450 1800 1 1 0 0 2")),
                    self.folder)
        self.assertEqual({net.file.junctions[name].kind for name in ("node1", "node2")}, {UNREGULATED})

    def test_nobody_waits_within_the_junction(self) -> None:
        """On ways that cross; at the junction of the arterial where a link gives way netconvert's stay."""
        deck = as_drawn(read_deck(support.example("arterial.deck")), lambda _: None)
        links = tuple(replace(link, stages=(1, 2)) for link in deck.links)
        build(replace(deck, links=links), self.folder)
        root = read_root(os.path.join(self.folder, "town.net.xml"))
        inside = {one.get("id", ""): (one.get("incLanes", "").count(" "), one.get("intLanes"))
                  for one in root.iterfind("junction") if one.get("type") == "internal"}
        waiting = {name for name, lanes in inside.items() if lanes != (0, "")}
        self.assertTrue(waiting and set(inside) - waiting)
        self.assertEqual({name.split("_")[0] for name in waiting}, {":node4"})

    def test_their_cars_hardly_collide(self) -> None:
        """As netconvert leaves the junction they do, in almost every green."""
        after = self.drive(self.net)
        path = os.path.join(self.folder, "town.net.xml")
        with open(path, encoding="utf-8") as file:
            lines = [line.replace('type="traffic_light"', 'type="traffic_light_unregulated"')
                     for line in file if "<request" not in line]
        with open(path, "w", encoding="utf-8") as file:
            file.writelines(lines)
        before = self.drive(Net(path))
        self.assertGreater(before.collisions, 20)
        self.assertLess(after.collisions, before.collisions / 10)
        self.assertLess(abs(after.delay / before.delay - 1), 0.2)

    def test_signals_are_put_into_such_a_network(self) -> None:
        """`sumo look` writes the signals into the network's file."""
        path = os.path.join(self.folder, "town.net.xml")
        put_signals(self.deck, self.net, path)
        self.assertEqual({name: len(order) for name, order in Net(path).signals.items()}, {"node1": 5, "node2": 1})


if __name__ == "__main__":
    unittest.main()
