"""A session over the built program."""

import os
import signal
import time
import unittest
from typing import List, Tuple

import support
from support import PROGRAM, is_there, needs_program, wait_until
from transyt.deck import Deck, cards_of, read_deck
from transyt.edits import Edit, after, read_edit
from transyt.faults import Ended, Fault, Refused
from transyt.session import Session


def child_of(session: Session) -> int:
    """The number of a session's child."""
    assert session._child is not None
    return session._child.process.pid


@needs_program
class Asked(unittest.TestCase):
    def setUp(self) -> None:
        self.town = Session(support.example("arterial.deck"), 2, PROGRAM)
        self.addCleanup(self.town.close)

    def test_each_report(self) -> None:
        town = self.town
        figures, links, timing = town.figures(), town.links(), town.timing()
        self.assertEqual(figures.index, town.index())
        self.assertEqual(links.total.raw["INDEX"], town.index())
        self.assertEqual(sum(link.raw["INDEX"] for link in links.links), town.index())
        link = figures.link(43)
        self.assertEqual((link.raw["SATURATION"], link.saturation, link.place("DELAY")),
                         (828, 0.828, "FIGURES LINK 43 DELAY"))
        self.assertEqual((figures.worst, len(figures.links)), (43, 19))
        self.assertEqual(timing.plan(), town.deck().plan())
        stage = timing.node(4).stages[1]
        self.assertEqual((stage.raw["AT"], stage.place("AT")), (26, "TIMING NODE 4 STAGE 2 AT"))
        self.assertEqual({len(line) for line in town.chart().values()}, {40})
        self.assertEqual(max(town.queue(43).raw), link.raw["QUEUE"])
        profile = town.profile(43)
        self.assertEqual([len(values) for values in (profile.arrivals, profile.go, profile.departures)], [40] * 3)
        self.assertEqual(profile.place("GO", 3), "PROFILE 43 GO 3")

    def test_deck_is_that_of_the_cards_with_the_edits(self) -> None:
        given = read_deck(support.example("arterial.deck"))
        self.assertEqual(self.town.deck(), given)
        edited = given
        for edit in ("OFFSET 2 7", "CHANGE 3 2 22", "ENTRY 11 9", "PART 21 11 5", "CRUISE 21 13 5", "SATURATION 22 900",
                     "WEIGHT 32 5 6"):
            self.town.edit(edit)
            edited = after(edited, read_edit(edit))
        self.assertEqual(self.town.deck(), edited)

    def test_edits_by_name(self) -> None:
        town = self.town
        town.offset(2, 7), town.change(3, 2, 22), town.entry(11, 9), town.part(21, 11, 5)
        town.cruise(21, 13, 5), town.saturation(22, 900), town.weight(32, 5, 6)
        deck = town.deck()
        self.assertEqual((deck.node(2).offset, deck.node(3).stages[1].change, deck.link(11).entry), (7, 22, 9))
        self.assertEqual((deck.link(21).feed(11).flow, deck.link(21).feed(13).cruise), (5, 5))
        self.assertEqual((deck.link(22).saturation, deck.link(32).delay_weight, deck.link(32).stop_weight), (900, 5, 6))

    def test_certificate(self) -> None:
        certificate = self.town.certificate()
        self.assertEqual(len(certificate.moves), 6 * 6 * 3)
        self.assertEqual(certificate.index, self.town.index())
        self.assertEqual(str(certificate).count("\n"), 6 * 6 * 3 + 1)
        self.assertIsNone(next(move for move in certificate.moves if move.index is None).index)

    def test_a_thousand_trials_a_second(self) -> None:
        def seconds() -> float:
            begin = time.monotonic()
            for count in range(1000):
                with self.town.trial():
                    self.town.offset(2, count % 40)
                    self.town.index()
            return time.monotonic() - begin

        self.assertLess(min(seconds() for _ in range(3)), 1)  # the machine may be busy for a while

    def test_what_isnt_asked(self) -> None:
        for command in ("CLIMB", "STOP", "PLOT 1", "* x", "", "INDEX\nSTOP", "index"):
            with self.assertRaisesRegex(Fault, "no command"):
                self.town.ask(command)
        self.assertGreater(self.town.index(), 0)


@needs_program
class Trials(unittest.TestCase):
    def setUp(self) -> None:
        self.town = Session(support.example("arterial.deck"), 1, PROGRAM)
        self.addCleanup(self.town.close)

    def test_taken_back_unless_kept(self) -> None:
        before = self.town.index()
        with self.town.trial() as trial:
            self.town.offset(4, 8)
            self.assertNotEqual(self.town.index(), before)
            self.assertEqual((trial.before, self.town.in_trial), (before, True))
        self.assertEqual((self.town.index(), self.town.in_trial), (before, False))
        with self.town.trial() as trial:
            self.town.offset(4, 8)
            kept = self.town.index()
            trial.keep()
        self.assertEqual(self.town.index(), kept)

    def test_refusal_in_a_trial(self) -> None:
        before = self.town.index()
        with self.assertRaises(Refused) as caught:
            with self.town.trial():
                self.town.offset(4, 8)
                self.town.offset(99, 8)
        self.assertEqual((caught.exception.code, caught.exception.command), (17, "OFFSET 99 8"))
        self.assertIn("OFFSET 99 8: ", str(caught.exception))
        self.assertEqual((self.town.index(), self.town.in_trial), (before, False))

    def test_trial_within_a_trial_and_climb_within_one(self) -> None:
        with self.town.trial():
            with self.assertRaises(Refused) as caught:
                self.town.ask("TRIAL")
            self.assertEqual(caught.exception.code, 25)
            with self.assertRaises(Refused) as caught:
                self.town.climb().run()
            self.assertEqual(caught.exception.code, 25)
            self.town.offset(4, 8)
        with self.assertRaises(Refused) as caught:
            self.town.ask("BACK")
        self.assertEqual(caught.exception.code, 24)

    def test_exception_in_a_trial_takes_it_back(self) -> None:
        before = self.town.index()
        with self.assertRaises(ZeroDivisionError):
            with self.town.trial():
                self.town.offset(4, 8)
                1 / 0
        self.assertEqual(self.town.index(), before)


@needs_program
class Attempts(unittest.TestCase):
    def setUp(self) -> None:
        self.town = Session(support.THREE, 1, PROGRAM)
        self.addCleanup(self.town.close)

    def test_index_of_a_try(self) -> None:
        before = self.town.index()
        tried = self.town.attempt(read_edit("OFFSET 2 7"))
        self.assertTrue(self.town.in_trial)
        self.assertEqual(self.town.index(), tried)
        self.assertIsNone(self.town.attempt(read_edit("CHANGE 2 2 11"), "BACK"))
        self.assertEqual(self.town.index(), before)
        self.assertEqual(self.town.attempt(read_edit("OFFSET 2 7"), "BACK"), tried)
        self.town.attempt(read_edit("OFFSET 3 2"), "KEEP")
        self.town.ask("BACK")
        self.assertEqual((self.town.index(), self.town.in_trial), (tried, False))

    def test_what_isnt_tried(self) -> None:
        for edit, ending in ((read_edit("OFFSET 2 7"), "BACK"), (Edit("INDEX", ()), "")):
            with self.assertRaises(Fault):
                self.town.attempt(edit, ending)
        with self.town.trial():
            for ending in ("", "STOP"):
                with self.assertRaises(Fault):
                    self.town.attempt(read_edit("OFFSET 2 7"), ending)


@needs_program
class Climbs(unittest.TestCase):
    def setUp(self) -> None:
        self.town = Session(support.example("arterial.deck"), 2, PROGRAM)
        self.addCleanup(self.town.close)

    def test_steps_and_end(self) -> None:
        climb = self.town.climb()
        steps = list(climb)
        self.assertEqual((climb.local, climb.looked, climb.end.index), (True, 492, steps[-1].index))
        self.assertEqual((str(steps[0].edit), steps[0].place, steps[0].index), ("OFFSET 1 39", 1, 49024819))
        self.assertEqual(self.town.index(), steps[-1].index)
        deck = read_deck(support.example("arterial.deck"))
        for step in steps:
            deck = after(deck, step.edit)
        self.assertEqual(self.town.deck(), deck)

    def test_another_call_meanwhile_raises(self) -> None:
        climb = self.town.climb()
        next(climb)
        with self.assertRaisesRegex(Fault, "climb is being read"):
            self.town.index()
        climb.run()
        self.assertEqual(self.town.index(), climb.end.index)

    def test_left_early(self) -> None:
        child = child_of(self.town)
        for step in self.town.climb():
            if step.place == 7:
                break
        self.assertTrue(wait_until(lambda: not is_there(child)))
        self.assertEqual(self.town.index(), step.index)
        self.assertTrue(self.town.climb().run().local)

    def test_left_before_its_first_step(self) -> None:
        before = self.town.index()
        self.town.climb().close()
        self.assertEqual(self.town.index(), before)

    def test_stopped_from_another_thread(self) -> None:
        climb = self.town.climb()
        first = next(climb)
        climb.stop()
        rest = list(climb)
        self.assertIsNone(climb.end)
        self.assertEqual(self.town.index(), (rest or [first])[-1].index)

    def test_session_ends_in_a_climb(self) -> None:
        child = child_of(self.town)
        with self.assertRaises(ZeroDivisionError):
            with self.town:
                for _ in self.town.climb():
                    1 / 0
        self.assertFalse(is_there(child))
        with self.assertRaises(Ended):
            self.town.index()

    def test_ctrl_c_in_a_climb(self) -> None:
        child = child_of(self.town)
        signal.signal(signal.SIGALRM, lambda *_: (_ for _ in ()).throw(KeyboardInterrupt()))
        self.addCleanup(signal.signal, signal.SIGALRM, signal.SIG_DFL)
        with self.assertRaises(KeyboardInterrupt):
            for step in self.town.climb():
                os.kill(os.getpid(), signal.SIGALRM)
        self.assertTrue(wait_until(lambda: not is_there(child)))
        self.assertEqual(self.town.index(), step.index)

    def test_deck_without_a_climb_plan(self) -> None:
        text = "".join(line + "\n" for line in cards_of(support.THREE).split("\n") if not line.startswith("STEPS"))
        with Session(text, 1, PROGRAM) as town:
            with self.assertRaises(Refused) as caught:
                town.climb().run()
            self.assertEqual(caught.exception.code, 26)
            self.assertGreater(town.index(), 0)


@needs_program
class AnotherChild(unittest.TestCase):
    def follow(self, full: int) -> Tuple[List[object], int, Deck]:
        """What a session answers to some edits, trials and climbs, and how many children it had."""
        with Session(support.THREE, 1, PROGRAM, full=full) as town:
            told: List[object] = []
            children = {child_of(town)}
            for count in range(60):
                town.offset(2, count % 12)
                with town.trial() as trial:
                    for node in (1, 2, 3):
                        town.offset(node, (count * node) % 12)
                        told.append(town.index())
                        children.add(child_of(town))
                    if count % 5 == 0:
                        trial.keep()
                if count % 20 == 0:
                    told += [str(step.edit) for step in town.climb()]
                told += [town.index(), town.work()]
            return told, len(children), town.deck()

    def test_a_session_over_many_children_answers_alike(self) -> None:
        one, few, deck = self.follow(3_000_000)
        self.assertEqual(few, 1)
        for full in (700, 1000, 3000):
            told, many, last = self.follow(full)
            self.assertEqual((told, last), (one, deck))
            self.assertGreater(many, 2)

    def test_past_the_programs_limit(self) -> None:
        with Session(support.THREE, 1, PROGRAM) as town:
            children, before, sent = {child_of(town)}, town.index(), 0
            with town.trial():
                town.offset(2, 7)
                within = town.index()
                comment = "WEIGHT 11 " + "0" * 900 + "1 1"
                while sent < 4_400_000:
                    with self.assertRaises(Refused):
                        town.ask(comment)
                    sent += len(comment) + 1
                    children.add(child_of(town))
                self.assertEqual(town.index(), within)
            self.assertEqual(town.index(), before)
            self.assertEqual(len(children), 2)


@needs_program
class Decks(unittest.TestCase):
    def test_deck_refused_at_end(self) -> None:
        with self.assertRaises(Refused) as caught:
            Session(support.THREE.replace("STAGE 7 1 2", "STAGE 11 1 9"), 1, PROGRAM)
        self.assertEqual((caught.exception.code, caught.exception.line, caught.exception.command), (19, 30, "END"))

    def test_card_that_is_refused(self) -> None:
        with self.assertRaises(Refused) as caught:
            Session(support.THREE.replace("NODE 2 3", "NODE 2 30"), 1, PROGRAM)
        self.assertEqual((caught.exception.code, caught.exception.line, caught.exception.command), (14, 9, "NODE 2 30"))

    def test_deck_without_end(self) -> None:
        with self.assertRaises(Refused) as caught:
            Session(support.THREE.replace("END\n", ""), 1, PROGRAM)
        self.assertEqual((caught.exception.code, caught.exception.command), (21, "the deck"))

    def test_text_after_end_isnt_sent(self) -> None:
        with Session(support.THREE + "OFFSET 1 5\nSTOP\n", 1, PROGRAM) as town:
            self.assertEqual(town.deck().node(1).offset, 0)

    def test_names_and_comments_go_along(self) -> None:
        with Session(support.THREE, 1, PROGRAM) as town:
            self.assertEqual(town.deck(), read_deck(support.THREE))
            self.assertIn("* NAME NODE 1 Market Street\nNODE 1 0\n", str(town.deck()))

    def test_deck_as_value_and_as_bytes(self) -> None:
        for deck in (read_deck(support.THREE), support.THREE.encode()):
            with Session(deck, 1, PROGRAM) as town:
                self.assertEqual(town.deck(), read_deck(support.THREE))

    def test_comment_in_other_bytes(self) -> None:
        # each of these bytes is shown as three, and the line is still one that the program takes
        data = b"* " + b"\xe4" * 4000 + b"\n" + support.THREE.encode()
        for deck in (data, data.decode("utf-8", "surrogateescape")):
            with Session(deck, 1, PROGRAM) as town:
                self.assertEqual(town.deck().names.town, "Mill Road, morning")
                with Session(town.deck(), 1, PROGRAM) as again:
                    self.assertEqual(again.index(), town.index())

    def test_deck_that_is_too_long(self) -> None:
        with self.assertRaisesRegex(Fault, "4,194,304"):
            Session("* x\n" * 1_100_000 + support.THREE, 1, PROGRAM)


if __name__ == "__main__":
    unittest.main()
