"""The random inputs have every shape that is wanted, and all.py notices a wrong byte and a wrong exit number."""
import contextlib, io, os, tempfile, unittest
from random import Random
from typing import Callable
from unittest import mock

import all as everything
import decks
from cards import read_deck
from twin import answer
from worked import QUEUE, deck

SMALL = 6  # the seed of a small deck


class Inputs(unittest.TestCase):
    @classmethod
    def setUpClass(cls) -> None:
        cls.drafts = [decks.Draft(Random(seed)) for seed in range(300)]
        cls.towns = [read_deck([card.encode() for card in [*draft.cards, 'END']])[0] for draft in cls.drafts]

    def test_every_draft_is_a_deck(self): self.assertNotIn(None, self.towns)

    def test_shapes(self):
        wanted = {'no plan': lambda town: town.plan is None, 'ten steps': lambda town: town.frame[1] == 10,
                  '120 steps': lambda town: town.frame[1] == 120, 'eight sweeps': lambda town: town.frame[2] == 8,
                  'no nodes': lambda town: not town.intergreens, 'no links': lambda town: town.intergreens and not town.links,
                  'a rule': lambda town: any(link.rule for link in town.links.values()),
                  'a rule to itself': lambda town: any(link.rule and link.rule[0] == l for l, link in town.links.items()),
                  'a link that feeds itself': lambda town: any(l in link.feeders for l, link in town.links.items()),
                  'eight feeds': lambda town: any(len(link.feeders) == 8 for link in town.links.values()),
                  'eight stages': lambda town: any(len(least) == 8 for least in town.least.values()),
                  'lags': lambda town: any(link.start or link.end for link in town.links.values())}
        for name, is_so in wanted.items(): self.assertGreater(sum(map(bool, map(is_so, self.towns))), 5, name)

    def test_some_links_are_oversaturated(self):
        towns = [town for town in self.towns if town.links and town.frame[1] < 30][:20]
        self.assertTrue(any(sum(link.IN) > sum(link.GO) > 0 for town in towns for link in town.evaluation.links.values()))

    def test_feeds_and_rules_are_mixed(self):
        orders = [''.join(card[0] for card in draft.cards if card[0] in 'FY' and card[1] != 'O') for draft in self.drafts]
        self.assertTrue(any('YF' in order for order in orders) and any('FY' in order for order in orders))

    def test_spoiled_decks_have_every_code(self):
        codes = {}
        for draft in self.drafts * 12:
            lines = [card.encode('latin-1') for card in decks.spoiled(draft, [*draft.cards, 'END'])]
            code = read_deck(lines)[2]
            codes[code] = codes.get(code, 0) + 1
        for code in (0, 10, 11, 12, 13, 14, 15, 16, 17, 18, 19, 20, 21, 22): self.assertIn(code, codes)

    def test_commands_are_refused_for_every_reason(self):
        codes = set()
        for draft in self.drafts[:60]:
            if draft.N > 60: continue
            lines = '\n'.join([*draft.cards, 'END', *decks.commands(draft, 40)]).encode('latin-1')
            codes |= {line for line in answer(['run'], lines) if line.startswith('REFUSED')}
        self.assertEqual(codes, {f'REFUSED {code}' for code in (10, 11, 12, 13, 14, 17, 18, 19, 23, 24, 25, 26)})

    def test_lines_are_written_in_every_way(self):
        written = b'|'.join(decks.written(Random(seed), deck()) for seed in range(200))
        for form in (b'\r\n', b'\tLINK', b'LINK\t', b'\n\n', b'\n* a comment', b'\n*', b'END|', b'END\r|', b' \t \n'):
            self.assertTrue(form in written, form)

    def test_what_is_written_in_another_way_is_the_same_deck(self):
        right = list(answer(['run'], '\n'.join([*deck(), 'DECK']).encode()))
        for seed in range(100): self.assertEqual(list(answer(['run'], decks.written(Random(seed), [*deck(), 'DECK']))), right)


class Played(everything.Checks):
    """A program that is played by twin.py, with its answers changed."""

    def __init__(self, change: Callable) -> None:
        super().__init__('/nowhere')
        self.change = change

    def run(self, words: list, data: bytes) -> tuple:
        text, end = everything.due(words, data)
        return self.change(words, text), end


class Comparisons(unittest.TestCase):
    def counts(self, checks: everything.Checks) -> tuple:
        """How many comparisons of one random deck pass and fail."""
        with contextlib.redirect_stdout(io.StringIO()): everything.check_random(checks, 'a deck', Random(SMALL))
        return checks.passed, checks.failed

    def test_a_right_program_passes_and_a_wrong_one_fails(self):
        passed, failed = self.counts(Played(lambda words, text: text))
        self.assertTrue(passed > 10 and not failed)
        self.assertEqual(self.counts(Played(lambda words, text: text[:-1])), (0, passed))
        changes = {'a blank line more': lambda words, text: text + b'\n',
                   'another word': lambda words, text: text.replace(b'ACCEPTED', b'ACCEPT'),
                   'eight workers': lambda words, text: b'' if words[-1] == '8' else text}
        for name, change in changes.items(): self.assertGreater(self.counts(Played(change))[1], 0, name)

    def test_a_program_is_run(self):
        with tempfile.TemporaryDirectory() as folder:
            program = os.path.join(folder, 'program')
            with open(program, 'w') as file: file.write('#!/bin/sh\necho "$@"\ncat\nexit 2\n')
            os.chmod(program, 0o755)
            self.assertEqual(everything.Checks(program).run(['run', '8'], b'END\n'), (b'run 8\nEND\n', 2))

    def test_another_exit_number_fails(self):
        checks = everything.Checks('/nowhere')
        with contextlib.redirect_stdout(io.StringIO()):
            self.assertFalse(checks.tell('x', (b'a', 0), (b'a', 2)))
            self.assertTrue(checks.tell('x', (b'a', 2), (b'a', 2)))
        self.assertEqual((checks.passed, checks.failed), (1, 1))

    def test_the_first_difference_is_told(self):
        tell = everything.first_difference
        self.assertEqual(tell((b'a\nb\n', 0), (b'a\nc\n', 0)), "line 2: the program wrote b'b', twin.py gives b'c'")
        self.assertEqual(tell((b'a\n', 0), (b'a\n', 2)), 'the program ended with 0, twin.py with 2')
        self.assertIn('line 2', tell((b'a\n', 0), (b'a\nb\n', 0)))

    def test_words_lengths_and_the_version(self):
        for change, fails in ((lambda words, text: text, False), (lambda words, text: text + b'\n', True)):
            checks = Played(change)
            with contextlib.redirect_stdout(io.StringIO()):
                everything.check_words(checks, Random(1))
                everything.check_lengths(checks)
                everything.check_version(checks)
            self.assertGreater(checks.failed if fails else checks.passed, 30)
            self.assertEqual(checks.passed if fails else checks.failed, 0)

    def main_over(self, report: list) -> tuple:
        """How all.py ends, and what it tells, over one example that is made here and without a program."""
        out = io.StringIO()
        with tempfile.TemporaryDirectory() as folder:
            for name, lines in (('one.deck', [*deck(), 'QUEUE 1']), ('one.report', report)):
                with open(os.path.join(folder, name), 'w') as file: file.write('\n'.join([*lines, '']))
            with mock.patch('all.EXAMPLES', folder), mock.patch('all.STORED', [('one', 'one', 'run')]):
                with contextlib.redirect_stdout(out): end = everything.main('/nowhere')
        return end, out.getvalue().splitlines()

    def test_a_stored_report(self):
        self.assertEqual(self.main_over(['ACCEPTED 1 1', QUEUE]), (0, ['one.report, run: every byte agrees',
                         '/nowhere is not built: no random decks', '1 passed, 0 failed']))
        for report in ([], ['ACCEPTED 1 1'], ['ACCEPTED 1 1', QUEUE + '1'], ['ACCEPTED 1 1', QUEUE, 'DONE']):
            end, told = self.main_over(report)
            self.assertEqual((end, told[-1]), (1, '0 passed, 1 failed'))

    def test_a_program_that_is_not_there_gives_no_answer(self):
        self.assertEqual(everything.Checks('/nowhere').run(['run'], b''), (b'', None))


if __name__ == '__main__': unittest.main()
