"""The program: where it is found, and words that take their input whole."""

import os
import re
import signal
import unittest
from typing import List, Tuple
from unittest import mock

import support
from support import PROGRAM, is_there, needs_program
from transyt import program
from transyt.deck import read_deck
from transyt.faults import Fault, Refused
from transyt.program import Program, find_program
from transyt.session import Session


class Found(unittest.TestCase):
    def test_order(self) -> None:
        def none(_path: str, _mode: int) -> bool:
            return False

        with mock.patch.dict(os.environ, {"TRANSYT": "/b"}):
            self.assertEqual((find_program("/a"), find_program()), ("/a", "/b"))
        without = {key: value for key, value in os.environ.items() if key != "TRANSYT"}
        with mock.patch.dict(os.environ, without, clear=True):
            with mock.patch.object(program.os, "access", lambda path, _: path == program.BUILT):
                self.assertEqual(find_program(), program.BUILT)
            with mock.patch.object(program.os, "access", lambda path, _: path == program.SCRIPT):
                self.assertEqual(find_program(), program.SCRIPT)
            with mock.patch.object(program.os, "access", none):
                with mock.patch.object(program.shutil, "which", lambda _: "/c"):
                    self.assertEqual(find_program(), "/c")
                with mock.patch.object(program.shutil, "which", lambda _: None):
                    with self.assertRaisesRegex(Fault, "isn't found"):
                        find_program()


class Played(support.Played):
    def test_exit_number_is_told(self) -> None:
        with self.assertRaisesRegex(Fault, "ended with 1 at run 2: what"):
            Program(self.play('told("what"); sys.exit(1)')).answer(["run", 2], "")

    def test_missing_program_is_told(self) -> None:
        with self.assertRaisesRegex(Fault, "can't be started"):
            Program("/nowhere/transyt").answer(["run"], support.THREE)

    def test_sentence_of_a_refused_card(self) -> None:
        body = 'deck(); told("line 9: code 14: offset 30, and it is 0 to 11"); said("CARD 9 REFUSED 14"); sys.exit(2)'
        with self.assertRaises(Refused) as caught:
            Program(self.play(body)).answer(["equisat"], support.THREE)
        self.assertEqual((caught.exception.code, caught.exception.line), (14, 9))
        self.assertEqual(str(caught.exception), "NODE 2 3: offset 30, and it is 0 to 11")

    def test_refused_row(self) -> None:
        body = 'deck(); told("row 2: code 17: there is no link 9"); said("ROW 2 REFUSED 17"); sys.exit(2)'
        with self.assertRaisesRegex(Refused, "ROW 2 REFUSED 17: there is no link 9"):
            Program(self.play(body)).answer(["counts"], support.THREE)

    def test_more_than_a_pipe_holds_both_ways(self) -> None:
        body = 'for line in sys.stdin: sys.stdout.write(line)\nsys.stderr.write("e\\n" * 50000)'
        text = "x" * 99 + "\n"
        answer = Program(self.play(body)).ask(["run"], text * 20000)
        self.assertEqual((answer.text, answer.status, len(answer.messages)), (text * 20000, 0, 1000))

    def test_ctrl_c_ends_the_child(self) -> None:
        path = self.play('open(__file__ + ".pid", "w").write(str(os.getpid())); time.sleep(1000)')
        signal.signal(signal.SIGALRM, lambda *_: (_ for _ in ()).throw(KeyboardInterrupt()))
        self.addCleanup(signal.signal, signal.SIGALRM, signal.SIG_DFL)
        signal.setitimer(signal.ITIMER_REAL, 1)
        with self.assertRaises(KeyboardInterrupt):
            Program(path).ask(["run"], support.THREE)
        with open(path + ".pid", encoding="utf-8") as file:
            self.assertFalse(is_there(int(file.read())))


@needs_program
class Decks(unittest.TestCase):
    def test_towns_are_written_as_the_program_writes_them(self) -> None:
        for seed in range(1, 21):
            text = "".join(line + "\n" for line in Program(PROGRAM).answer(["make", seed, 1 + seed * 5]))
            deck = read_deck(text)
            self.assertEqual(str(deck), text)
            with Session(deck, 1, PROGRAM) as town:
                self.assertEqual(town.deck(), deck)


@needs_program
class LongCertificates(unittest.TestCase):
    """CERT tells how far it is, where it has more than 5,000 places."""

    def certificate(self, sizes: int, workers: int) -> Tuple[List[str], List[str]]:
        """The certificate's lines, of a town of 64 with so many sizes of moves, and what standard error was told."""
        town = Program(PROGRAM).answer(["make", 1, 64])
        steps = "STEPS 2000 " + " ".join(str(size) for size in range(1, sizes + 1))
        cards = [steps if line.startswith("STEPS ") else line for line in town]
        answer = Program(PROGRAM).ask(["run", workers], "".join(line + "\n" for line in [*cards, "CERT"]))
        return answer.text.splitlines()[1:], list(answer.messages)

    def test_how_far_a_long_one_is(self) -> None:
        for workers in (1, 3):
            lines, told = self.certificate(14, workers)
            moves, last = lines[:-1], lines[-1].split(" ")
            self.assertEqual(last[:2], ["CERT", str(len(moves))])
            self.assertGreater(len(moves), 5000)
            index = int(last[-1])
            places = []
            for sentence in told:
                found = re.fullmatch(r"certificate: place (\d+) of (\d+), (\d+) lower so far", sentence)
                assert found, sentence
                done, count, lower = (int(number) for number in found.groups())
                ends = [move.split(" ")[-1] for move in moves[:done]]
                self.assertEqual(count, len(moves))
                self.assertEqual(lower, sum(end != "BARRED" and int(end) < index for end in ends))
                places.append(done)
            self.assertEqual(places, sorted(set(places)))
            self.assertLess(places[-1], len(moves))
            self.assertTrue(40 <= len(places) <= 50, places)

    def test_a_short_one_tells_nothing(self) -> None:
        lines, told = self.certificate(12, 2)
        self.assertTrue(4000 < len(lines) <= 5001)
        self.assertEqual(told, [])


@needs_program
class Asked(unittest.TestCase):
    def test_balanced(self) -> None:
        deck = read_deck(support.example("equisat.deck"))
        other = Program(PROGRAM).balanced(deck)
        self.assertEqual([node.offset for node in other.nodes], [node.offset for node in deck.nodes])
        lines = Program(PROGRAM).answer(["equisat"], support.example("equisat.deck"))
        self.assertEqual([stage.change for node in other.nodes for stage in node.stages],
                         [int(line.split(" ")[3]) for line in lines if line.startswith("STAGE")])

    def test_refused_deck(self) -> None:
        with self.assertRaises(Refused) as caught:
            Program(PROGRAM).answer(["starts", 1, 1, 1], support.THREE.replace("NODE 2 3", "NODE 2 30"))
        self.assertEqual((caught.exception.code, caught.exception.line, caught.exception.command), (14, 9, "NODE 2 30"))

    def test_words_that_are_none(self) -> None:
        with self.assertRaisesRegex(Fault, "ended with 1 at nonsense"):
            Program(PROGRAM).answer(["nonsense"])


if __name__ == "__main__":
    unittest.main()
