"""The program as a child: it is killed, it floods its standard error, it hangs; none is left behind."""

import os
import signal
import subprocess
import sys
import time
import unittest
from typing import Tuple

import support
from support import is_there, wait_until
from transyt.faults import Ended, Fault, Refused
from transyt.session import Session

# Accepts a deck, and answers INDEX.
SERVER = """
deck(); said("ACCEPTED 3 6")
while True:
    line = sys.stdin.readline()
    if not line: break
    {said}
    said("REFUSED 17" if line.startswith("OFFSET") else "INDEX 5")
"""
# (under nohup a child begins with SIGHUP ignored)
HOLDER = """
import signal, sys, time
signal.signal(signal.SIGHUP, signal.SIG_DFL)
sys.path.insert(0, {package!r})
from transyt.session import Session
town = Session({deck!r}, 1, {program!r})
print(town._child.process.pid, flush=True)
{then}
"""


class Sentences(support.Played):
    def test_sentence_of_the_refused_line(self) -> None:
        said = 'told("line 31: code 17: there is no node 99")'
        with Session(support.THREE, 1, self.play(SERVER.format(said=said))) as town:
            with self.assertRaises(Refused) as caught:
                town.offset(99, 1)
        self.assertEqual((caught.exception.sentence, caught.exception.line), ("there is no node 99", 31))

    def test_meaning_of_the_code_where_nothing_is_said(self) -> None:
        with Session(support.THREE, 1, self.play(SERVER.format(said="pass"))) as town:
            with self.assertRaises(Refused) as caught:
                town.offset(99, 1)
        self.assertIn("code 17: a node", caught.exception.sentence)

    def test_sentence_of_another_line_isnt_taken(self) -> None:
        said = 'told("line 30: code 17: there is no node 98")'
        with Session(support.THREE, 1, self.play(SERVER.format(said=said))) as town:
            with self.assertRaises(Refused) as caught:
                town.offset(99, 1)
        self.assertIn("code 17: a node", caught.exception.sentence)

    def test_refused_card(self) -> None:
        body = 'deck(); told("line 9: code 14: offset 30, and it is 0 to 11"); said("CARD 9 REFUSED 14"); sys.exit(2)'
        with self.assertRaises(Refused) as caught:
            Session(support.THREE, 1, self.play(body))
        self.assertEqual(str(caught.exception), "NODE 2 3: offset 30, and it is 0 to 11")

    def test_full_standard_error(self) -> None:
        said = 'sys.stderr.write("x" * 200 + "\\n" * 3000 + "y" * 100000); sys.stderr.flush()'
        with Session(support.THREE, 1, self.play(SERVER.format(said=said))) as town:
            for _ in range(20):
                self.assertEqual(town.index(), 5)
            self.assertTrue(wait_until(lambda: len(town.messages()) == 1000))


class Ends(support.Played):
    def test_child_that_is_killed(self) -> None:
        with Session(support.THREE, 1, self.play(SERVER.format(said="pass"))) as town:
            os.kill(town._child.process.pid, signal.SIGKILL)
            with self.assertRaisesRegex(Ended, "ended by signal 9"):
                town.index()
            with self.assertRaisesRegex(Ended, "closed"):
                town.index()

    def test_child_that_ends_in_an_answer(self) -> None:
        body = 'deck(); said("ACCEPTED 3 6"); sys.stdin.readline(); sys.stdout.write("IND"); sys.exit(5)'
        with Session(support.THREE, 1, self.play(body)) as town:
            with self.assertRaisesRegex(Ended, "ended with 5"):
                town.index()

    def test_child_that_is_no_program(self) -> None:
        with self.assertRaisesRegex(Ended, "ended with 1: what"):
            Session(support.THREE, 1, self.play('told("what"); sys.exit(1)'))

    def test_program_that_isnt_there(self) -> None:
        with self.assertRaisesRegex(Fault, "can't be started"):
            Session(support.THREE, 1, "/nowhere/transyt")

    def test_child_that_doesnt_end_with_its_input(self) -> None:
        body = 'deck(); said("ACCEPTED 3 6"); time.sleep(1000)'
        town = Session(support.THREE, 1, self.play(body))
        child = town._child.process.pid
        begin = time.monotonic()
        town.close()
        self.assertLess(time.monotonic() - begin, 5)
        self.assertFalse(is_there(child))

    def test_session_that_is_dropped(self) -> None:
        town = Session(support.THREE, 1, self.play(SERVER.format(said="pass")))
        child = town._child.process.pid
        del town
        self.assertTrue(wait_until(lambda: not is_there(child)))


class Signals(support.Played):
    def hold(self, then: str = "time.sleep(1000)") -> "Tuple[subprocess.Popen[bytes], int]":
        """Another Python that holds a session, and the number of its child."""
        program = self.play(SERVER.format(said="pass"))
        package = os.path.dirname(support.HERE)
        code = HOLDER.format(package=package, deck=support.THREE, program=program, then=then)
        holder = subprocess.Popen([sys.executable, "-c", code], stdout=subprocess.PIPE, stderr=subprocess.PIPE)
        self.addCleanup(holder.communicate)
        self.addCleanup(holder.kill)
        assert holder.stdout is not None
        return holder, int(holder.stdout.readline())

    def ended_by(self, number: int) -> None:
        """Python ends by a signal, and its child with it."""
        holder, child = self.hold()
        self.assertTrue(is_there(child))
        holder.send_signal(number)
        self.assertEqual(holder.wait(10), -number)
        self.assertTrue(wait_until(lambda: not is_there(child)))

    def test_sigterm_and_sighup_end_the_child(self) -> None:
        self.ended_by(signal.SIGTERM)
        self.ended_by(signal.SIGHUP)

    def test_python_killed_outright(self) -> None:
        self.ended_by(signal.SIGKILL)

    def test_end_of_python_ends_the_child(self) -> None:
        holder, child = self.hold("sys.exit(3)")
        self.assertEqual(holder.wait(10), 3)
        self.assertTrue(wait_until(lambda: not is_there(child)))

    def test_ctrl_c_in_an_answer(self) -> None:
        program = 'deck(); said("ACCEPTED 3 6"); time.sleep(1000)'
        town = Session(support.THREE, 1, self.play(program))
        child = town._child.process.pid
        signal.signal(signal.SIGALRM, lambda *_: (_ for _ in ()).throw(KeyboardInterrupt()))
        self.addCleanup(signal.signal, signal.SIGALRM, signal.SIG_DFL)
        signal.setitimer(signal.ITIMER_REAL, 0.2)
        with self.assertRaises(KeyboardInterrupt):
            town.index()
        self.assertFalse(is_there(child))
        self.assertTrue(town.is_closed)

    def test_child_has_a_process_group_of_its_own(self) -> None:
        with Session(support.THREE, 1, self.play(SERVER.format(said="pass"))) as town:
            child = town._child.process.pid
            self.assertEqual(os.getpgid(child), child)


if __name__ == "__main__":
    unittest.main()
