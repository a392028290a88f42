"""`./plan best`: its words, its kicks against a second script, and the deck that Ctrl-C leaves."""

import os
import signal
import subprocess
import sys
import unittest
from typing import List, Optional
from unittest import mock

import support
from support import PROGRAM, needs_program
from transyt.best import Search, Wanted
from transyt.deck import Deck, read_deck
from transyt.faults import Fault
from transyt.kicks import Draws, Kicker, near
from transyt.program import ROOT, Program
from transyt.rows import Row, read_rows
from transyt.session import Session

ROWS = """* CYCLE 45 NONE
* CYCLE 60 BARRED 300
* CYCLE 90 FROM 1181182170 TOOK 24 BUDGET 250 TO 525337775
* CYCLE 105 FROM 1321231334 TOOK 24 LOCAL 202 TO 355203319
* BEST 105 355203319
""".split("\n")[:-1]


# Four junctions round a block, of which one has three stages; links feed one another round it, and 41 gives way.
LOOP = """FORM 2
CYCLE 50 10 2 60 80 20
NODE 1 0
STAGE 0 1 2
STAGE 3 1 1
STAGE 6 1 1
NODE 2 4
STAGE 0 1 2
STAGE 5 1 2
NODE 3 1
STAGE 2 1 2
STAGE 7 1 1
NODE 4 9
STAGE 0 1 2
STAGE 5 1 2
LINK 11 1 60 1800 1 1 1 1 1
LINK 12 1 300 1700 1 1 0 0 2 3
LINK 21 2 50 1800 1 1 1 1 1
LINK 22 2 350 1700 2 1 0 0 2
LINK 31 3 40 1800 1 1 0 1 1
LINK 41 4 80 1800 1 1 0 0 1
LINK 42 4 260 1600 1 3 0 0 2
FEED 11 41 250 18
FEED 21 11 240 22
FEED 21 12 120 23
FEED 31 21 300 15
FEED 31 22 90 16
FEED 41 31 270 26
YIELD 41 42 50
STEPS 150 2 1
END
"""


class ReadRows(unittest.TestCase):
    def test_rows_and_deck(self) -> None:
        rows = read_rows(ROWS + str(read_deck(support.THREE).bare()).split("\n"))
        self.assertEqual([(row.number, row.index, row.local, row.barred) for row in rows.rows],
                         [(45, None, False, None), (60, None, False, 300), (90, 525337775, False, None),
                          (105, 355203319, True, None)])
        self.assertEqual((rows.rows[2].before, rows.rows[2].taken, rows.rows[2].looked, rows.index),
                         (1181182170, 24, 250, 355203319))
        self.assertEqual(rows.deck, read_deck(support.THREE).bare())

    def test_none(self) -> None:
        self.assertIsNone(read_rows(ROWS[:2] + ["* NONE"]).deck)

    def test_start_row(self) -> None:
        self.assertEqual(read_rows(["* START 7 FROM 5 TOOK 4 LOCAL 3 TO 2"]).rows[0].index, 2)


class KicksApart(unittest.TestCase):
    def test_draws_are_the_generators(self) -> None:
        # `make 1 1` has these draws before the remainder is taken (docs/MODEL.md, "The generated town")
        draws = Draws(1)
        self.assertEqual([draws.below(10 ** 9) for _ in range(6)], [16838, 5758, 10113, 17515, 31051, 5627])

    def test_near(self) -> None:
        self.assertEqual(near(read_deck(support.THREE)), {1: (1, 2), 2: (1, 2, 3), 3: (2, 3)})


@needs_program
class Kicks(unittest.TestCase):
    def kicked(self, text: str, count: int, seed: int) -> str:
        """The plan after kicks by the package, told as the second script tells it."""
        with Session(text, 1, PROGRAM) as town:
            kicker = Kicker(town, town.deck(), town.index(), seed)
            for _ in range(count):
                before = kicker.index
                kept = kicker.kick()
                self.kept += kept
                self.assertEqual(kept, kicker.index < before)
                self.assertEqual((town.index(), town.deck()), (kicker.index, kicker.deck))
            lines = [f"{number} {offset} {' '.join(map(str, changes))}\n"
                     for number, (offset, changes) in town.deck().plan().items()]
            return "".join(lines) + f"{town.index()}\n"

    def compare(self, text: str, count: int, seed: int) -> int:
        """Climbs until LOCAL, kicks, and compares with the second script to the byte; how many kicks were kept."""
        self.kept = 0
        with Session(text, 1, PROGRAM) as town:
            while not town.climb().run().local:
                pass
            text = str(town.deck())
        again = subprocess.run([sys.executable, os.path.join(support.HERE, "kicks_again.py"), str(count), str(seed)],
                               input=text, capture_output=True, text=True, check=True)
        self.assertEqual(self.kicked(text, count, seed), again.stdout)
        return self.kept

    def test_as_the_second_script(self) -> None:
        kept = [self.compare(support.THREE, count, seed) for seed, count in ((1, 4), (5, 2), (6, 4), (3, 2))]
        self.assertTrue(sum(kept) >= 2 and 0 in kept)  # some are kept, and some are taken back

    def test_kicks_of_best_are_these(self) -> None:
        """The same seed and count, with each kept one the best so far."""
        with Session(support.THREE, 1, PROGRAM) as town:
            while not town.climb().run().local:
                pass
            text = str(town.deck())
        self.kept = 0
        wanted = self.kicked(text, 4, 6)
        self.assertTrue(self.kept)
        said: List[str] = []
        search = Search(read_deck(text), Program(PROGRAM), Wanted(starts=0, seed=6), said.append)
        search.kicks(4)
        lines = [f"{number} {offset} {' '.join(map(str, changes))}\n"
                 for number, (offset, changes) in search.deck.plan().items()]
        self.assertEqual("".join(lines) + f"{search.index}\n", wanted)
        search.check()
        self.assertTrue(said[0].endswith(f"{self.kept} of 4 kept"))

    def test_as_the_second_script_in_a_loop(self) -> None:
        self.compare(LOOP, 2, 1)
        self.compare(LOOP, 2, 4)


@needs_program
class Best(unittest.TestCase):
    def search(self, text: str, wanted: Wanted) -> Search:
        """A search that is over, and checked."""
        self.said: List[str] = []
        search = Search(read_deck(text), Program(PROGRAM), wanted, self.said.append)
        search.run()
        search.check()
        return search

    def test_words_one_after_another(self) -> None:
        search = self.search(support.example("cycles.deck"), Wanted((60, 100, 20), 12, 3, 1, 2))
        self.assertEqual([line.split(":")[0] for line in self.said], ["cycles", "starts", "climb", "kicks", "climb"])
        self.assertIn("4 rows", self.said[0])  # 60, 80, 100, and the deck's own plan at its own 80 s
        self.assertIn("12 rows", self.said[1])
        self.assertEqual(search.deck.frame.cycle, 100)
        with Session(search.deck, 1, PROGRAM) as town:
            self.assertTrue(all(move.index is None or move.index >= search.index for move in town.certificate().moves))

    def test_starts_in_parts_are_the_starts(self) -> None:
        text = support.example("cycles.deck")
        whole = read_rows(Program(PROGRAM).answer(["starts", 2, 5, 25], str(read_deck(text).bare())))
        search = Search(read_deck(text), Program(PROGRAM), Wanted(seed=5, workers=2), lambda _: None)
        search.starts(25)
        self.assertEqual((search.deck.bare(), search.index), (whole.deck, whole.index))

    def test_cycles_one_after_another_are_the_cycles(self) -> None:
        text = support.example("cycles.deck")
        whole = read_rows(Program(PROGRAM).answer(["cycles", 2, 90, 110, 10], str(read_deck(text).bare())))
        search = Search(read_deck(text), Program(PROGRAM), Wanted(workers=2), lambda _: None)
        search.cycles(90, 110, 10)
        self.assertEqual((search.deck.bare(), search.index), (whole.deck, whole.index))

    def test_no_cycle_time_fits(self) -> None:
        with self.assertRaisesRegex(Fault, "no cycle time can be climbed on"):
            self.search(support.example("cycles.deck"), Wanted((61, 63, 2)))
        self.assertEqual([line[:30] for line in self.said],
                         [f"cycles: {cycle}: no whole number of" for cycle in (61, 63)])

    def test_names_and_comments_go_along(self) -> None:
        search = self.search(support.THREE, Wanted((60, 60, 1), 3, 1))
        given = read_deck(support.THREE)
        self.assertEqual((search.deck.names, search.deck.comments), (given.names, given.comments))

    def test_deck_without_steps(self) -> None:
        text = "".join(line + "\n" for line in support.THREE.split("\n")[:-1] if not line.startswith("STEPS"))
        with self.assertRaisesRegex(Fault, "no STEPS card"):
            self.search(text, Wanted())

    def test_budget_shorter_than_the_list(self) -> None:
        text = support.THREE.replace("STEPS 200 1 3", "STEPS 2 1 3")
        search = self.search(text, Wanted((60, 60, 1), 1, 2))
        self.assertTrue(any("a budget of 2 doesn't go round the list of 36 moves" in line for line in self.said))
        self.assertIn("STEPS 2 1 3\n", str(search.deck))
        with Session(search.deck, 1, PROGRAM) as town:
            self.assertTrue(all(move.index is None or move.index >= search.index for move in town.certificate().moves))

    def test_how_many(self) -> None:
        wanted = Wanted()
        self.assertEqual([wanted.start_count(junctions) for junctions in (1, 8, 9, 20, 21)], [100, 100, 30, 30, 0])
        self.assertEqual([wanted.kick_count(junctions) for junctions in (1, 8, 9)], [0, 0, 250])
        self.assertEqual((Wanted(starts=0, kicks=0).start_count(3), Wanted(kicks=0).kick_count(30)), (0, 0))


# Answers `starts w seed count from`: start i ends at 100 + 7 i mod 9, and its deck has i % 12 as an offset.
STARTS = """
words = sys.argv[1:]
if words[0] == "run":
    deck(); said("ACCEPTED 3 6")
    for line in sys.stdin: said("INDEX 500")
    sys.exit()
text = sys.stdin.read()
with open(__file__ + ".words", "a") as file: file.write(" ".join(words) + "\\n")
count, begin = int(words[3]), int(words[4])
index = lambda i: 100 + 7 * i % 9
for i in range(begin, begin + count):
    said(f"* START {i} FROM 200 TOOK 3 {'BUDGET' if i == 4 else 'LOCAL'} 40 TO {index(i)}")
best = min(range(begin, begin + count), key=index)
said(f"* BEST {best} {index(best)}")
sys.stdout.write(text.replace("NODE 1 0", f"NODE 1 {best % 12}"))
"""


class Parts(support.Played):
    def test_starts_in_parts_of_ten(self) -> None:
        path, said = self.play(STARTS), []
        search = Search(read_deck(support.THREE), Program(path), Wanted(seed=5, workers=2), said.append)
        search.starts(25)
        with open(path + ".words", encoding="utf-8") as file:
            self.assertEqual(file.read(), "starts 2 5 10 0\nstarts 2 5 10 10\nstarts 2 5 5 20\n")
        # starts 0, 9 and 18 end at 100, and the first stays
        self.assertEqual((search.index, search.deck.node(1).offset), (100, 0))
        self.assertEqual(said, ["starts: 500 to 100; 25 rows, 1 ended BUDGET"])

    def test_of_equal_cycles_the_first_stays(self) -> None:
        """And rows that can't be climbed on are told, and counted as no budget."""
        path, said = self.play(STARTS), []
        deck = read_deck(support.THREE)
        search = Search(deck, Program(path), Wanted(), said.append)
        found = {60: [(Row(60, None), None)], 70: [(Row(70, 90, 95, local=True), deck.with_plan({1: (7, [0, 7])}))],
                 80: [(Row(80, 90, 95, local=False), deck.with_plan({1: (8, [0, 7])}))]}
        with mock.patch.object(search, "_cycle", found.get):
            search.cycles(60, 80, 10)
        self.assertEqual((search.index, search.deck.node(1).offset), (90, 7))
        self.assertEqual(len(said), 2)
        self.assertTrue(said[1].endswith("3 rows, 1 ended BUDGET"), said)

    def test_an_index_that_isnt_the_expected_one(self) -> None:
        """The best deck is run once more, and not written where its index is another."""
        search = Search(read_deck(support.THREE), Program(self.play(STARTS)), Wanted(), lambda _: None)
        search.check()
        search.best = (search.deck, search.index + 1)
        with self.assertRaisesRegex(Fault, "500, and 501 was expected: nothing is written"):
            search.check()


@needs_program
class CtrlC(unittest.TestCase):
    def stop(self, phase: str, words: List[str], text: str, after: int = 2) -> Deck:
        """Runs `best`, presses Ctrl-C in a phase after some progress of it, and judges the deck that it leaves."""
        code = ("import os, signal, sys\n"
                f"sys.path.insert(0, {os.path.dirname(support.HERE)!r})\n"
                "from transyt import best, __main__\n"
                "seen = []\n"
                "def progress(self, sentence):\n"
                f"    seen.append(sentence.startswith({phase!r}))\n"
                f"    if sum(seen) == {after}: os.kill(os.getpid(), signal.SIGINT)\n"
                "best.Search.progress = progress\n"
                "signal.signal(signal.SIGINT, signal.default_int_handler)\n"
                "sys.exit(__main__.main(sys.argv[1:]))\n")
        done = subprocess.run([sys.executable, "-c", code, "best", "-", "--program", str(PROGRAM), "--workers", "2",
                               *words], input=text.encode(), capture_output=True, timeout=60)
        self.assertEqual(done.returncode, 130, done.stderr)
        index = int(done.stderr.decode().strip().split(" ")[-1])
        with Session(done.stdout, 1, PROGRAM) as town:
            self.assertEqual(town.index(), index)
            self.assertLessEqual(index, Session(text, 1, PROGRAM).index())
            return town.deck()

    def test_in_each_phase(self) -> None:
        text = support.example("arterial.deck")
        self.stop("cycles", ["--cycles", "80", "120", "20"], text)
        self.stop("starts", ["--starts", "30"], text, after=1)
        climbed = self.stop("climb", ["--starts", "0"], text)
        moved = [node for node in climbed.nodes if node != read_deck(text).node(node.number)]
        self.assertEqual(len(moved), 1)  # two steps at the first junction
        self.stop("kicks", ["--starts", "0", "--kicks", "5"], text)

    def test_ctrl_c_of_the_terminal_comes_to_python_alone(self) -> None:
        with Session(support.THREE, 1, PROGRAM) as town:
            self.assertNotEqual(os.getpgid(town._child.process.pid), os.getpgid(0))


@needs_program
class Command(unittest.TestCase):
    def plan(self, *words: str, text: str = "", folder: Optional[str] = None) -> "subprocess.CompletedProcess[str]":
        """The command with words, in a folder."""
        return subprocess.run([os.path.join(ROOT, "plan"), *words, "--program", str(PROGRAM)], input=text, text=True,
                              capture_output=True, cwd=folder or ROOT, timeout=120)

    def test_from_another_folder_and_by_standard_input(self) -> None:
        done = self.plan("best", "-", "--starts", "2", text=support.THREE, folder="/tmp")
        self.assertEqual(done.returncode, 0, done.stderr)
        self.assertIn("* NAME TOWN Mill Road, morning\n", done.stdout)

    def test_faults(self) -> None:
        for words, text, said in ((["best", "/nowhere"], "", "/nowhere can't be read"),
                                  (["best", "-"], "CYCLE 60 12\n", "-, line 1, CYCLE 60 12"),
                                  (["best", "-", "--cycles", "90", "80", "10"], support.THREE, "the low one first"),
                                  (["best", "-", "--starts", "1001"], support.THREE, "1001 is no whole number")):
            done = self.plan(*words, text=text)
            self.assertEqual((done.returncode, done.stdout), (2, ""))
            self.assertIn(said, done.stderr)


if __name__ == "__main__":
    unittest.main()
