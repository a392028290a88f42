"""The round trip: a deck as `sumo look` writes it, read back by `from-sumo`."""

import contextlib
import io
import os
import random
import tempfile
import unittest
import unittest.mock
from dataclasses import replace
from fractions import Fraction
from typing import Dict, List, Tuple

import support
from sumo_nets import needs_sumo, run
from support import PROGRAM, needs_program
from transyt.__main__ import main
from transyt.deck import Deck, read_deck
from transyt.from_sumo.tables import tables_of
from transyt.from_sumo.town import town_of
from transyt.sumo.drive import put_signals
from transyt.sumo.giving import as_drawn
from transyt.sumo.netfile import read_net, read_root
from transyt.sumo.network import build
from transyt.sumo.roads import mean_cruise

Tables = Dict[str, List[Dict[str, str]]]
Times = Dict[int, List[Tuple[Fraction, Fraction, Fraction]]]  # of each node AT, intergreen and green of its stages

# Two stages of which the second has all links of the first: the intergreen between them ends nothing.
THREE_STAGES = """FORM 2
CYCLE 60 30 1 60 0 0
NODE 1 4
STAGE 28 2 3
STAGE 10 1 4
STAGE 20 3 4
NODE 2 0
STAGE 0 1 3
STAGE 15 2 4
LINK 11 1 500 3600 1 1 0 0 1 2
LINK 12 1 100 1500 1 1 0 0 2
LINK 13 1 100 1500 1 1 0 0 3
LINK 21 2 40 1800 1 1 0 0 1
LINK 22 2 90 1800 1 1 0 0 2
FEED 21 11 400 20
END
"""


def another_plan(deck: Deck, draw: random.Random) -> Deck:
    """The deck with each node's clock turned, and its stages as long as before or longer by what another gives."""
    steps = deck.frame.step_count
    nodes = []
    for node in deck.nodes:
        lengths = [node.length(place, steps) for place in range(1, len(node.stages) + 1)]
        least = [stage.intergreen + stage.least for stage in node.stages]
        giver, taker = draw.sample(range(len(lengths)), 2)
        moved = draw.randint(0, lengths[giver] - least[giver])
        lengths[giver], lengths[taker] = lengths[giver] - moved, lengths[taker] + moved
        begin = draw.randrange(steps)
        changes = [(begin + sum(lengths[:place])) % steps for place in range(len(lengths))]
        nodes.append(replace(node, offset=draw.randrange(steps), stages=tuple(
            replace(stage, change=change) for stage, change in zip(node.stages, changes))))
    return replace(deck, nodes=tuple(nodes))


def times_of(deck: Deck) -> Times:
    """Of each node AT, intergreen and green of its stages, in seconds."""
    frame = deck.frame
    step = Fraction(frame.cycle, frame.step_count)
    return {node.number: [((node.offset + stage.change) % frame.step_count * step, stage.intergreen * step,
                           (node.length(place, frame.step_count) - stage.intergreen) * step)
                          for place, stage in enumerate(node.stages, 1)] for node in deck.nodes}


@needs_sumo
class RoundTrip(unittest.TestCase):
    def back(self, deck: Deck, offset: int = 0) -> Tuple[Tables, List[str]]:
        """The tables of a deck's town, written as look does and read back, with what is told."""
        told: List[str] = []
        with tempfile.TemporaryDirectory() as folder:
            net, path = build(deck, folder), os.path.join(folder, "town.net.xml")
            put_signals(deck, net, path)
            if offset:
                with open(path, encoding="utf-8") as file:
                    text = file.read().replace('offset="0"', f'offset="{offset}"')
                with open(path, "w", encoding="utf-8") as file:
                    file.write(text)
            run(["netconvert", "-s", path, "-o", "again.net.xml"], folder)
            town = town_of(read_net(path), None, None, told.append)
        tables = {name: [dict(zip(rows[0], row)) for row in rows[1:]]
                  for name, rows in tables_of(town, "town", None, told.append).items()}
        return tables, told

    def times(self, tables: Tables, cycle: int) -> Times:
        """As times_of, of tables."""
        node = {row["junction"]: int(row["name"][len("node"):]) for row in tables["junctions"]}
        offset = {row["junction"]: Fraction(row["offset"]) for row in tables["junctions"]}
        found: Dict[int, List[Tuple[Fraction, Fraction]]] = {}
        for row in tables["stages"]:
            found.setdefault(node[row["junction"]], []).append(
                ((offset[row["junction"]] + Fraction(row["change"])) % cycle, Fraction(row["intergreen"])))
        return {number: [(at, intergreen, (stages[place % len(stages)][0] - at) % cycle - intergreen)
                         for place, (at, intergreen) in enumerate(stages, 1)] for number, stages in found.items()}

    def compare(self, deck: Deck, offset: int = 0) -> Tables:
        """Compares a deck of steps of whole seconds with itself read back."""
        tables, _ = self.back(deck, offset)
        cycle = deck.frame.cycle
        wanted = {number: [((at + offset) % cycle, intergreen, green) for at, intergreen, green in stages]
                  for number, stages in times_of(deck).items()}
        self.assertEqual(self.times(tables, cycle), wanted)
        roads = {f"link{link.number}": link for link in deck.links}
        self.assertEqual({row["arm"]: row["stages"] for row in tables["links"]},
                         {name: " ".join(map(str, sorted(link.stages))) for name, link in roads.items()})
        ways = {row["to arm"]: 3.6 * int(row["metres"]) / float(row["km/h"]) for row in tables["ways"]}
        for name, link in roads.items():
            self.assertEqual(name in ways, bool(link.used_feeds))
            if link.used_feeds:
                self.assertLessEqual(abs(ways[name] - mean_cruise(link)), 1, name)
        return tables

    def test_examples(self) -> None:
        for name in ("town.deck", "arterial.deck", "cycles.deck"):
            with self.subTest(name):
                self.compare(as_drawn(read_deck(support.example(name)), lambda _: None))

    def test_other_plans_of_them(self) -> None:
        draw = random.Random(5)
        for name in ("town.deck", "arterial.deck"):
            deck = read_deck(support.example(name)).without_give_way()
            for _ in range(4):
                with self.subTest(name):
                    self.compare(another_plan(deck, draw))

    @needs_program
    def test_by_the_words_themselves(self) -> None:
        with tempfile.TemporaryDirectory() as folder, contextlib.redirect_stderr(io.StringIO()):
            deck, town, sheets = (os.path.join(folder, name) for name in ("a.deck", "town", "sheets"))
            with open(deck, "w", encoding="utf-8") as file:
                file.write(THREE_STAGES)
            with unittest.mock.patch("transyt.words.sumo.write"):
                self.assertEqual(main(["sumo", "look", deck, town, "--program", PROGRAM]), 0)
            net, signals = (os.path.join(town, name) for name in ("town.net.xml", "signals.add.xml"))
            # the same phases under two names, since SUMO takes both files together
            self.assertEqual(read_net(net).logics["node1"].program, "0")
            self.assertEqual([logic.get("programID") for logic in read_root(signals)], ["plan", "plan"])
            self.assertEqual(main(["from-sumo", net, "-o", sheets]), 0)
            with open(os.path.join(sheets, "stages.csv"), encoding="utf-8") as file:
                rows = [row.split(",") for row in file.read().split()[1:]]
        # AT is at 4, 28 and 48 s at junction 1, whose stages follow one another from the first on
        self.assertEqual([(row[0], row[3], row[5]) for row in rows],
                         [("1", "4", "0"), ("1", "2", "24"), ("1", "6", "44"), ("2", "2", "0"), ("2", "4", "30")])

    def test_an_intergreen_that_ends_nothing(self) -> None:
        self.compare(read_deck(THREE_STAGES))

    def test_an_offset_of_the_file(self) -> None:
        self.compare(read_deck(THREE_STAGES), 7)

    def test_a_give_way_rule(self) -> None:
        deck = as_drawn(read_deck(support.example("arterial.deck")), lambda _: None)
        tables = self.compare(deck)
        names = {row["link"]: row["arm"] for row in tables["links"]}
        self.assertEqual([(names[row["link"]], names[row["other"]]) for row in tables["gives"]], [("link44", "link42")])

    def test_steps_that_are_no_whole_seconds_are_told(self) -> None:
        deck = read_deck(THREE_STAGES.replace("CYCLE 60 30", "CYCLE 70 30"))
        tables, told = self.back(deck)
        self.assertTrue(any("aren't whole steps" in line for line in told), told)
        for row, (_, intergreen, _) in zip(tables["stages"], [one for _, stages in sorted(times_of(deck).items())
                                                              for one in stages]):
            self.assertLessEqual(abs(Fraction(row["intergreen"]) - intergreen), 1)


if __name__ == "__main__":
    unittest.main()
