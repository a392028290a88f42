"""The board without a browser: its changes, a climb that is stopped, long answers, a lost child."""

import os
import signal
import subprocess
import threading
import time
import unittest
from dataclasses import replace
from fractions import Fraction
from typing import List
from unittest import mock

import support
from support import PROGRAM, needs_program, wait_until
from transyt.board.state import Board, Stale, Wanted, counted, steps_of
from transyt.board.view import changed
from transyt.deck import Frame, read_deck
from transyt.edits import Edit
from transyt.faults import Ended, Fault
from transyt.pictures.svg import seconds
from transyt.session import Session

TOWN = read_deck(support.example("arterial.deck"))


def index_of(text: str) -> int:
    """The index of a deck, asked of the program apart from the board."""
    with Session(text, 1, PROGRAM) as town:
        return town.index()


class Shown(unittest.TestCase):
    """How times and differences are told; without the program."""

    def test_a_time_as_it_is_shown_is_its_step(self) -> None:
        """Steps of 5/3 s and of 7/6 s are shown to a thousandth, and come back as what they are."""
        for frame in (Frame(100, 60, 1, 60, 0), Frame(70, 60, 1, 60, 0), Frame(90, 45, 1, 60, 0)):
            for steps in range(frame.step_count):
                self.assertEqual(steps_of(frame, Fraction(seconds(steps * frame.step_seconds))), steps)

    def test_the_two_nearest_are_times_that_can_be(self) -> None:
        """After the last step comes 0, and not the cycle."""
        for told, sentence in (("89", "the nearest are 88 and 0 s"), ("88.5", "the nearest are 88 and 0 s"),
                               ("3", "the nearest are 2 and 4 s")):
            with self.assertRaisesRegex(Fault, sentence):
                steps_of(Frame(90, 45, 1, 60, 0), Fraction(told))

    def test_great_times_are_told_as_they_were_typed(self) -> None:
        """Without an exponent."""
        with self.assertRaisesRegex(Fault, "^99999999999 s is not within 0 to 88 s$"):
            steps_of(Frame(90, 45, 1, 60, 0), Fraction(99999999999))

    def test_a_difference_that_is_shown_as_nought_has_no_sign(self) -> None:
        """It is left empty, as where there is none."""
        self.assertEqual([changed(one, 1_000_000, 1) for one in (0, 49_000, -49_000, 51_000, -51_000)],
                         ["", "", "", "+0.1", "\u22120.1"])
        self.assertEqual([changed(one, 1, 3) for one in (0, 7, -7)], ["", "+7", "\u22127"])

    def test_one_of_a_thing(self) -> None:
        """A climb of one step."""
        self.assertEqual([counted(count, "step") for count in (0, 1, 2)], ["0 steps", "1 step", "2 steps"])


@needs_program
class Changes(unittest.TestCase):
    """What hands do."""

    def setUp(self) -> None:
        self.board = Board(TOWN, 1, PROGRAM, [])
        self.addCleanup(self.board.close)

    def total(self) -> int:
        """The index that the board shows."""
        return int(self.board.view()["totals"][0]["raw"])

    def test_an_edit_is_what_run_answers(self) -> None:
        """Offset of junction 4 at 16 s, 8 steps of 2 s: README has the index of `OFFSET 4 8`."""
        self.board.edit(0, Wanted(4, 0, Fraction(16)))
        self.assertEqual(self.total(), 47853157)
        self.assertEqual(index_of(self.board.deck_text()), 47853157)

    def test_differences_to_the_deck_of_the_call(self) -> None:
        """Of the totals and of each link, as now less then; a stage is shown where it begins in the common cycle."""
        first = self.board.view()
        self.assertEqual([total["change"] for total in first["totals"]], [""] * 4)
        now = self.board.edit(0, Wanted(4, 0, Fraction(16)))
        self.assertEqual(now["totals"][0]["change"], f"\u2212{first['totals'][0]['raw'] - 47853157}")
        for before, after in zip(first["links"], now["links"]):
            change = after["raw"]["DELAY"] - before["raw"]["DELAY"]
            self.assertEqual(after["delay_change"][:1], "+" if change > 0 else "\u2212" if change else "")
        stages = [[node["stages"][1]["at"] for node in view["nodes"] if node["number"] == 4] for view in (first, now)]
        self.assertEqual((stages[1][0] - stages[0][0]) % 80, 16)

    def test_a_stage_begins_in_the_common_cycle(self) -> None:
        """With the offset of 16 s a stage that is to begin at 70 s has its change at 54 s, step 27."""
        self.board.edit(0, Wanted(4, 0, Fraction(16)))
        self.board.edit(1, Wanted(4, 2, Fraction(70)))
        self.assertEqual(read_deck(self.board.deck_text()).node(4).stages[1].change, 27)

    def test_undo_and_redo(self) -> None:
        """Back to the deck of the call and again."""
        first = self.total()
        self.board.edit(0, Wanted(4, 0, Fraction(16)))
        self.board.undo(1)
        self.assertEqual((self.total(), self.board.view()["can_redo"]), (first, True))
        self.board.redo(2)
        self.assertEqual(self.total(), 47853157)

    def test_times_that_are_no_steps(self) -> None:
        """3 s isn't whole in steps of 2 s; the state stays."""
        with self.assertRaises(Fault) as caught:
            self.board.edit(0, Wanted(4, 0, Fraction(3)))
        self.assertIn("the nearest are 2 and 4 s", str(caught.exception))
        self.assertEqual(self.board.version, 0)

    def test_the_fullest_link_is_told_with_its_saturation(self) -> None:
        """As its row has it."""
        view = self.board.view()
        row = next(link for link in view["links"] if link["number"] == view["totals"][3]["raw"])
        self.assertEqual(view["totals"][3]["shown"], f"link {row['number']}, {row['saturation']} %")

    def test_a_junction_that_is_not_there(self) -> None:
        """Told by the word of the page."""
        with self.assertRaisesRegex(Fault, "^there is no junction 99$"):
            self.board.edit(0, Wanted(99, 0, Fraction(2)))

    def test_a_board_that_can_not_be_made_leaves_no_child(self) -> None:
        """Its road names a link that the deck hasn't."""
        with mock.patch.object(Session, "close", autospec=True) as close:
            with self.assertRaises(Fault):
                Board(TOWN, 1, PROGRAM, [[11, 99]])
        close.assert_called_once_with(mock.ANY, at_once=True)
        Session.close(close.call_args.args[0], at_once=True)

    def test_a_refused_edit_is_a_sentence(self) -> None:
        """A stage that begins where it has no room; nothing has changed."""
        before = self.board.deck_text()
        with self.assertRaises(Fault) as caught:
            self.board.edit(0, Wanted(4, 2, Fraction(2)))
        self.assertRegex(str(caught.exception),
                         r"^stage 2 of junction 4 can't begin at 2 s: .*stage.* \(code 1[89]\)$")
        self.assertEqual(self.board.deck_text(), before)

    def test_another_tab_was_quicker(self) -> None:
        """A change from a state that isn't there is refused."""
        self.board.edit(0, Wanted(4, 0, Fraction(16)))
        with self.assertRaises(Stale):
            self.board.edit(0, Wanted(4, 0, Fraction(18)))

    def test_a_climb_is_one_change(self) -> None:
        """Climb to LOCAL, take it back whole, make it again."""
        first = self.total()
        self.board.climb(0)
        self.assertTrue(wait_until(lambda: not self.board.view()["climbing"], 30))
        local = self.total()
        self.assertLess(local, first)
        self.assertEqual(index_of(self.board.deck_text()), local)
        self.board.undo(self.board.version)
        self.assertEqual(self.total(), first)
        self.board.redo(self.board.version)
        self.assertEqual(self.total(), local)

    def test_an_edit_ends_what_can_be_made_again(self) -> None:
        """After Undo and another edit there is nothing to redo."""
        self.board.edit(0, Wanted(4, 0, Fraction(16)))
        self.board.undo(1)
        self.board.edit(2, Wanted(4, 0, Fraction(18)))
        self.assertFalse(self.board.view()["can_redo"])
        with self.assertRaises(Fault):
            self.board.redo(3)

    def test_a_change_is_made_whole_or_not(self) -> None:
        """Of several edits one is refused: the program has none of them."""
        before = self.board.deck_text()
        self.board._undo.append([(Edit("CHANGE", (4, 2, 0)), Edit("CHANGE", (4, 2, 0))),
                                 (Edit("OFFSET", (4, 0)), Edit("OFFSET", (4, 9)))])
        with self.assertRaises(Fault):
            self.board.undo(0)
        self.assertEqual(self.board.deck_text(), before)
        self.assertEqual(str(self.board._session.deck()), before)

    def test_a_child_that_is_lost_after_an_edit(self) -> None:
        """The edit is taken back with all that goes with it, and the plan is as it was before."""
        before = self.board.deck_text()
        with mock.patch.object(self.board, "_made", mock.Mock(side_effect=Ended("gone"))):
            with self.assertRaises(Fault) as caught:
                self.board.edit(0, Wanted(4, 0, Fraction(16)))
        self.assertIn("started again", str(caught.exception))
        self.assertEqual((self.board.version, self.board.view()["can_undo"]), (0, False))
        self.assertEqual(self.board.deck_text(), before)
        self.assertEqual(str(self.board._session.deck()), before)
        with self.assertRaises(Fault):
            self.board.undo(0)

    def test_steps_that_lead_elsewhere(self) -> None:
        """Where the program's index isn't that of the last step the plan from before the climb stands."""
        before = self.board.deck_text()
        climb = self.board._session.climb()
        climb.run()
        climb.steps[-1] = replace(climb.steps[-1], index=climb.steps[-1].index - 1)
        self.assertIn("the plan from before it stands", self.board._after_climb(climb, "LOCAL")[0])
        self.assertEqual((self.board.deck_text(), str(self.board._session.deck())), (before, before))

    def test_start_again(self) -> None:
        """To the deck of the call, and back from there."""
        self.board.edit(0, Wanted(4, 0, Fraction(16)))
        self.board.start_again(1)
        self.assertEqual(self.total(), index_of(str(TOWN)))
        self.board.undo(2)
        self.assertEqual(self.total(), 47853157)

    def test_start_again_is_taken_back_by_the_edits_that_led_there(self) -> None:
        """Two stages that moved one after another are taken back in that order, where the other order has no room."""
        for seconds, stage in ((20, 1), (70, 2), (60, 2)):
            self.board.edit(self.board.version, Wanted(4, stage, Fraction(seconds)))
        moved = self.total()
        self.board.start_again(self.board.version)
        self.board.undo(self.board.version)
        self.assertEqual(self.total(), moved)
        self.assertEqual(index_of(self.board.deck_text()), moved)
        self.board.redo(self.board.version)
        self.assertEqual(self.total(), index_of(str(TOWN)))
        self.board.undo(self.board.version)
        for _ in range(3):
            self.board.undo(self.board.version)
        self.assertEqual((self.total(), self.board.view()["can_undo"]), (index_of(str(TOWN)), False))
        self.board.start_again(self.board.version)
        self.assertFalse(self.board.view()["can_undo"])

    def test_a_deck_without_steps(self) -> None:
        """It is shown and changed, and can't be climbed; the certificate is refused in a sentence."""
        lines = [line for line in str(TOWN).split("\n") if not line.startswith("STEPS")]
        board = Board(read_deck("\n".join(lines)), 1, PROGRAM, [])
        self.addCleanup(board.close)
        self.assertFalse(board.view()["has_climb"])
        board.edit(0, Wanted(4, 0, Fraction(16)))
        with self.assertRaises(Fault):
            board.certificate(1)
        board.climb(1)
        self.assertTrue(wait_until(lambda: "STEPS" in board.view()["message"]))
        board.edit(board.version, Wanted(4, 0, Fraction(18)))

    def test_the_certificate(self) -> None:
        """A point for each move, of the plan as it stands; another tab's change is told here too."""
        svg = self.board.certificate(0)["sensitivity"]
        self.assertIn("OFFSET 4 ", svg)
        self.board.edit(0, Wanted(4, 0, Fraction(16)))
        with self.assertRaises(Stale):
            self.board.certificate(0)
        self.assertIn("now at step 8", self.board.certificate(1)["sensitivity"])

    def test_a_long_answer_is_stopped(self) -> None:
        """Stop ends it: the plan is as it was before, and goes on."""
        before = self.board.deck_text()
        said: List[str] = []

        def ask() -> None:
            try:
                self.board.certificate(0)
            except Fault as fault:
                said.append(str(fault))

        child = self.board._session._child
        assert child is not None
        os.kill(child.process.pid, signal.SIGSTOP)  # so that its answer takes long
        asking = threading.Thread(target=ask)
        asking.start()
        self.assertTrue(wait_until(self.board._lock.locked))
        self.board.stop()
        asking.join(10)
        self.assertEqual([sentence.split(":")[0] for sentence in said], ["stopped"])
        self.assertEqual(self.board.deck_text(), before)
        self.board.edit(0, Wanted(4, 0, Fraction(16)))
        self.assertEqual(self.total(), 47853157)

    def test_the_board_is_at_hand(self) -> None:
        """At most 100 ms for some 20 links and 300 ms for 200, at the best of some changes."""
        made = subprocess.run([str(PROGRAM), "make", "7", "50"], capture_output=True, text=True, check=True).stdout
        large = Board(read_deck(made), 1, PROGRAM, [])
        self.addCleanup(large.close)
        for board, links, most in ((self.board, 19, 0.1), (large, 200, 0.3)):
            self.assertEqual(len(board.view()["links"]), links)
            step = Fraction(str(board.view()["step"]))
            taken = []
            for count in range(1, 7):
                begun = time.monotonic()
                board.edit(board.version, Wanted(4, 0, count * step))
                taken.append(time.monotonic() - begun)
            self.assertLess(min(taken), most)

    def test_profiles_of_the_road_alone(self) -> None:
        """A change asks for the profiles and queues of the links that the road shows, once each."""
        asked: List[str] = []
        ask = self.board._session.ask
        with mock.patch.object(self.board._session, "ask", lambda command: asked.append(command) or ask(command)):
            self.board.edit(0, Wanted(4, 0, Fraction(16)))
        self.assertEqual(len(asked), len(set(asked)))
        self.assertEqual({command for command in asked if command.startswith("PROFILE")},
                         {f"PROFILE {link}" for link in (11, 21, 31, 41, 51, 61, 12, 22, 32, 42, 52, 62)})

    def test_a_lost_child(self) -> None:
        """The board starts another one with the deck that it keeps."""
        self.board.edit(0, Wanted(4, 0, Fraction(16)))
        child = self.board._session._child
        assert child is not None
        child.process.kill()
        child.process.wait()
        with self.assertRaises(Fault) as caught:
            self.board.edit(1, Wanted(4, 0, Fraction(18)))
        self.assertIn("started again", str(caught.exception))
        self.board.edit(1, Wanted(4, 0, Fraction(18)))
        self.assertEqual(read_deck(self.board.deck_text()).node(4).offset, 9)


@needs_program
class Stopping(unittest.TestCase):
    """A climb that is stopped half way."""

    def test_the_state_is_that_of_the_last_whole_step(self) -> None:
        """The index is the program's, after whatever steps there were; Undo takes them back."""
        made = subprocess.run([str(PROGRAM), "make", "7", "200"], capture_output=True, text=True, check=True).stdout
        board = Board(read_deck(made.replace("STEPS 2000 ", "STEPS 100000 ")), 1, PROGRAM, [])
        self.addCleanup(board.close)
        first = board.view()["totals"][0]["raw"]
        board.climb(0)
        self.assertTrue(wait_until(lambda: len(board.view()["took"]) >= 3, 20))
        with self.assertRaises(Fault):
            board.edit(0, Wanted(1, 0, Fraction(0)))
        self.assertFalse(board.stop()["climbing"])
        self.assertIn("stopped", board.view()["message"])
        self.assertEqual(board.view()["totals"][0]["raw"], index_of(board.deck_text()))
        self.assertLess(board.view()["totals"][0]["raw"], first)
        board.undo(board.version)
        self.assertEqual(board.view()["totals"][0]["raw"], first)

    def test_all_steps_of_an_ended_climb_are_listed(self) -> None:
        """The list has every step, its last index is that of the plan, and the next change ends it."""
        board = Board(TOWN, 1, PROGRAM, [])
        self.addCleanup(board.close)
        board.climb(0)
        self.assertTrue(wait_until(lambda: not board.view()["climbing"], 20))
        view = board.view()
        self.assertIn(f" {len(view['took'])} steps", view["message"])
        self.assertEqual(view["took"][-1].rsplit(" ", 1)[-1], str(view["totals"][0]["raw"]))
        board.undo(board.version)
        self.assertEqual(board.view()["took"], [])


if __name__ == "__main__":
    unittest.main()
