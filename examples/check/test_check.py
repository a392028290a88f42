"""check.py finds each fault of a report. The right report is put together from answers known apart from it."""
import contextlib, io, os, tempfile, unittest
from unittest import mock

import check
from worked import CERT, CLIMB, LINKS, PROFILE, QUEUE, REFUSED, TIMING, deck

COMMANDS = ['LINKS', 'QUEUE 1', 'PROFILE 1', 'TRIAL', 'OFFSET 1 9', 'OFFSET 1 0', 'BACK', 'CHANGE 1 3 0', 'WORK', 'CLIMB',
            'WORK', 'CERT', 'TIMING']
REPORT = ['ACCEPTED 1 1', *LINKS, QUEUE, *PROFILE, *['DONE'] * 4, 'REFUSED 17', 'WORK 2', *CLIMB, 'WORK 11', *CERT, *TIMING]
DECK = [*deck(steps='STEPS 100 1'), *COMMANDS]


def bytes_of(lines: list) -> bytes: return ''.join(line + '\n' for line in lines).encode('latin-1')


class Command(unittest.TestCase):
    """Calls check.py as a command."""

    def setUp(self) -> None:
        folder = tempfile.TemporaryDirectory()
        self.addCleanup(folder.cleanup)
        self.files = [os.path.join(folder.name, name) for name in ('deck', 'report')]

    def call(self, *words: str) -> tuple:
        """The exit number, and what was written on standard output and on standard error."""
        out, err = io.StringIO(), io.StringIO()
        with mock.patch('sys.argv', ['check.py', *words]), contextlib.redirect_stdout(out), contextlib.redirect_stderr(err):
            try: end = check.main()
            except SystemExit as stop: end = stop.code
        return end, out.getvalue(), err.getvalue()

    def check(self, report: bytes, lines: list = DECK, words: tuple = (), options: tuple = ()) -> tuple:
        for name, data in zip(self.files, (bytes_of(lines), report)):
            with open(name, 'wb') as file: file.write(data)
        return self.call(*options, *self.files, *words)[:2]

    def fails(self, lines: list, at: int, options: tuple = ()) -> None:
        """A report of these lines fails, and first at line `at`, from 1."""
        end, told = self.check(bytes_of(lines), options=options)
        self.assertEqual((end, told.split(':')[0]), (1, f'line {at}'), lines)


class Faults(Command):
    def test_the_right_report_agrees(self):
        self.assertEqual(self.check(bytes_of(REPORT)), (0, f'{len(REPORT)} lines agree\n'))
        # the line of WORK after the climb isn't compared then
        self.assertEqual(self.check(bytes_of(REPORT), options=('--quick',)), (0, f'{len(REPORT) - 1} lines agree\n'))

    def test_a_report_that_is_too_short(self):
        for options in ((), ('--quick',)):
            for length in (0, 1, 5, 13, 14, len(REPORT) - 1): self.fails(REPORT[:length], length + 1, options)

    def test_a_report_that_is_too_long(self):
        for more in ('', 'DONE', 'INDEX 889826', 'WORK 11'): self.fails([*REPORT, more], len(REPORT) + 1)

    def test_each_line_left_out_doubled_or_changed(self):
        for place, line in enumerate(REPORT):
            same = next((k for k in range(place, len(REPORT)) if REPORT[k] != line), len(REPORT))
            self.fails(REPORT[:place] + REPORT[place + 1:], same)
            self.fails([*REPORT[:place], line + ' ', *REPORT[place + 1:]], place + 1)
            self.fails([*REPORT[:place], line + '0', *REPORT[place + 1:]], place + 1)
            self.fails([*REPORT[:place], 'REFUSED 17' if line != 'REFUSED 17' else 'DONE', *REPORT[place + 1:]], place + 1)
            self.fails([*REPORT[:place], '', *REPORT[place:]], place + 1)

    def test_edits_are_judged_here(self):
        for place in (8, 9, 10, 11):
            self.assertEqual(REPORT[place - 1], 'DONE')
            for code in (14, 17, 24): self.fails([*REPORT[:place - 1], f'REFUSED {code}', *REPORT[place:]], place)
        lines, codes = [*deck(), *REFUSED], [f'REFUSED {code}' for code in REFUSED.values()]
        self.assertEqual(self.check(bytes_of(['ACCEPTED 1 1', *codes]), lines)[0], 0)
        for place in range(len(codes)):
            spoiled = ['ACCEPTED 1 1', *codes[:place], 'DONE', *codes[place + 1:]]
            self.assertEqual(self.check(bytes_of(spoiled), lines)[0], 1)

    def test_accepted_is_read(self):
        for line in ('ACCEPTED 1 2', 'ACCEPTED 2 1', 'CARD 6 REFUSED 21', 'accepted 1 1'): self.fails([line, *REPORT[1:]], 1)

    def test_a_refused_deck(self):
        right = bytes_of(['CARD 5 REFUSED 22'])
        cards = [*deck()[:3], 'LINK 1 1 360 1800 1 1 1', 'END', 'INDEX']
        self.assertEqual(self.check(right, cards), (0, '1 lines agree\n'))
        for told in (b'', right + b'ACCEPTED 1 1\n', right.replace(b'5', b'4'), b'ACCEPTED 1 1\n'):
            self.assertEqual(self.check(told, cards)[0], 1)

    def test_ends_of_lines(self):
        self.assertEqual(self.check(bytes_of(REPORT)[:-1])[0], 1)
        self.assertEqual(self.check(bytes_of(REPORT).replace(b'\n', b'\r\n'))[0], 1)

    def test_steps_that_a_quick_check_takes_from_the_report(self):
        first = REPORT.index(CLIMB[0])
        for line in ('TOOK 2 CHANGE 1 1 1 INDEX 1352922', 'TOOK 9 CHANGE 1 1 9 INDEX 1352922', 'TOOK x', 'TOOK',
                     'TOOK 0 OFFSET 1 1 INDEX 1948618', 'TOOK 3 CHANGE 1 1 9 INDEX 1352921', 'BUDGET 100 INDEX 1948618',
                     'LOCAL 7 INDEX 1948618'):
            self.fails([*REPORT[:first], line, *REPORT[first + 1:]], first + 1, ('--quick',))
        for line in ('LOCAL 10 INDEX 889826', 'BUDGET 11 INDEX 889826', 'BUDGET 100 INDEX 889826'):
            self.fails([*REPORT[:first + 2], line, *REPORT[first + 3:]], first + 3, ('--quick',))
        # a step that lowers, though an earlier place does too: a quick check doesn't see that, the whole one does
        cards = [*deck(steps='STEPS 1000 1 2'), 'CLIMB']
        told = bytes_of(['ACCEPTED 1 1', 'TOOK 9 CHANGE 1 1 8 INDEX 889826', 'LOCAL 22 INDEX 889826'])
        self.assertEqual(self.check(told, cards, options=('--quick',))[0], 0)
        self.assertEqual(self.check(told, cards)[0], 1)

    def test_other_words(self):
        lines = [*deck(steps='STEPS 100 1', first=8), *CERT]
        self.assertEqual(self.check(b'AUDIT YES 6 INDEX 889826\n', lines, ('audit',))[0], 0)
        self.assertEqual(self.check(b'AUDIT NO 9 28\n', lines, ('audit',))[0], 1)


class Ends(Command):
    def test_no_arguments_tell_the_usage(self):
        for words in ((), ('deck',), ('--nothing', 'deck', 'report')):
            end, out, err = self.call(*words)
            self.assertEqual((end, out, err.startswith('usage: check.py')), (2, '', True))

    def test_a_file_that_is_not_there_and_words_that_are_none(self):
        end, _, err = self.call('/nowhere/deck', '/nowhere/report')
        self.assertEqual((end, '/nowhere/deck cannot be read' in err), (2, True))
        end, _, err = self.call('deck', 'report', 'run', '9')
        self.assertEqual((end, 'the program takes no such words' in err), (2, True))

    def test_nothing_compared_is_no_agreement(self):
        with mock.patch('check.answer', lambda *_, **__: iter(())):
            self.assertEqual(self.check(b''), (1, 'nothing was compared\n'))

    def test_it_tells_how_far_it_is(self):
        self.check(bytes_of(REPORT))
        with mock.patch('check.EVERY', 0): err = self.call(*self.files)[2].splitlines()
        self.assertIn(f'check.py: {REPORT.index(CERT[3]) + 1} of {len(REPORT)} lines', err)
        self.assertTrue(any(line.endswith(', 11 places of a climb') for line in err))
        self.assertEqual(self.call(*self.files)[2], '')

    def test_it_stops_after_some_differences(self):
        end, told = self.check(bytes_of(['DONE'] * 30))
        self.assertEqual((end, len(told.splitlines())), (1, check.SHOWN + 1))


if __name__ == '__main__': unittest.main()
