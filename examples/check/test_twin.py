"""Every word by answers known apart from twin.py: the texts, and each exit number."""
import os, subprocess, sys, unittest

import worked
from cards import MOST
from twin import answer, are_words
from worked import CERT, CLIMB, GIVES_WAY, LINKS, LOOP, MADE, QUEUE, REFUSED, TIMING, TWO, TWO_REPORT, deck

TWIN = os.path.join(os.path.dirname(os.path.abspath(__file__)), 'twin.py')


def told(words: str, *lines: str, data: bytes = b'', has_failed: bool = False) -> tuple[list[str], int]:
    """The lines of an answer, and the exit number."""
    data = data or ''.join(line + '\n' for line in lines).encode('latin-1')
    answers, written = answer(words.split(), data, has_failed), []
    while True:
        try: written.append(next(answers))
        except StopIteration as end: return written, end.value


class Run(unittest.TestCase):
    def answers(self, cards: list[str], commands: list[str], right: list[str]) -> None:
        self.assertEqual(told('run', *cards, *commands), (right, 0))

    def test_reports(self):
        self.answers(deck(), ['LINKS', 'QUEUE 1', 'PROFILE 1'], ['ACCEPTED 1 1', *LINKS, QUEUE, *worked.PROFILE])
        self.answers(deck(1800), ['LINKS', 'QUEUE 1'], ['ACCEPTED 1 1', *worked.OVERSATURATED])
        self.answers(GIVES_WAY, ['LINKS', 'PROFILE 2'], ['ACCEPTED 1 2', *worked.GIVES_WAY_REPORT])
        self.answers(deck()[:1], ['STEPS 1 1', 'END', 'CLIMB', 'CERT', 'LINKS', 'TIMING'],
                     ['ACCEPTED 0 0', 'LOCAL 0 INDEX 0', 'CERT 0 INDEX 0', 'INDEX 0', 'END TIMING'])
        self.answers(deck(), ['OFFSET 1 4', 'DECK'],
                     ['ACCEPTED 1 1', 'DONE', 'FORM 2', 'CYCLE 60 10 1 60 100 35', 'NODE 1 4', *deck()[2:4],
                      'LINK 1 1 360 1800 1 1 0 0 1', 'END'])

    def test_a_plot_and_a_chart(self):
        rows = ['....................|....................', 'GGGGGGGGGGGGGGGGGGGG|OOOOOOOOOOOOOOOOOOOO',
                'GGGGGGGGGGGGGGGGGGGG|OOOOOOOOOOOO........', *['GGGGGGGGGGGGGGGGGGGG|OOOO................'] * 2]
        rows = [f'{i:03} IIII................|{row}' for i, row in enumerate(rows + rows[:1] * 5)]
        self.answers(deck(), ['PLOT 1', 'PLOT 2', 'CHART'],
                     ['ACCEPTED 1 1', 'PLOT 1 SCALE 3000000', *rows, 'REFUSED 17', 'CHART 1 qQGGGqqqqq', 'END CHART'])

    def test_a_climb_its_certificate_and_its_work(self):
        self.answers(deck(steps='STEPS 100 1'), ['CLIMB', 'WORK', 'CERT', 'WORK', 'TIMING'],
                     ['ACCEPTED 1 1', *CLIMB, 'WORK 9', *CERT, 'WORK 13', *TIMING])
        self.answers(deck(steps='STEPS 4 1'), ['CLIMB', 'CLIMB'],
                     ['ACCEPTED 1 1', CLIMB[0], 'BUDGET 4 INDEX 1352922', CLIMB[1], 'BUDGET 4 INDEX 889826'])
        for budget, end in ((1, 'BUDGET 1'), (5, 'BUDGET 5'), (6, 'LOCAL 6')):
            self.answers(deck(steps=f'STEPS {budget} 5'), ['CLIMB'], ['ACCEPTED 1 1', end + ' INDEX 1948618'])

    def test_work_of_edits(self):
        edits = {'ENTRY 1 360': 0, 'ENTRY 1 720': 2, 'CRUISE 2 1 20': 3, 'CRUISE 2 1 21': 4, 'SATURATION 2 1800': 4,
                 'OFFSET 1 1': 6, 'OFFSET 2 4': 7, 'WEIGHT 2 0 0': 7}
        self.answers(TWO, [line for edit in edits for line in (edit, 'WORK')],
                     ['ACCEPTED 2 2', *(line for work in edits.values() for line in ('DONE', f'WORK {work}'))])
        self.answers(LOOP, ['PROFILE 1', 'ENTRY 3 3420', 'WORK', 'PROFILE 1'],
                     ['ACCEPTED 1 3', *worked.STEADY, 'DONE', 'WORK 7', *worked.LESS])
        self.answers(GIVES_WAY, ['ENTRY 1 360', 'WORK', 'ENTRY 1 0', 'WORK'],
                     ['ACCEPTED 1 2', 'DONE', 'WORK 0', 'DONE', 'WORK 2'])

    def test_trials(self):
        edits = ['TRIAL', 'ENTRY 1 1800', 'INDEX', 'ENTRY 1 0', 'INDEX', 'ENTRY 1 900']
        self.answers(deck(), [*edits, 'BACK', 'INDEX', 'WORK', 'BACK'],
                     ['ACCEPTED 1 1', 'DONE', 'DONE', 'INDEX 544612051', 'DONE', 'INDEX 0', 'DONE', 'DONE', 'INDEX 1948618',
                      'WORK 3', 'REFUSED 24'])
        self.answers(deck(steps='STEPS 100 1'), ['TRIAL', 'ENTRY 1 0', 'TRIAL', 'CLIMB', 'CERT', 'INDEX', 'KEEP', 'INDEX'],
                     ['ACCEPTED 1 1', 'DONE', 'DONE', *['REFUSED 25'] * 3, 'INDEX 0', 'DONE', 'INDEX 0'])

        self.answers(deck(), ['TRIAL', 'KEEP', 'TRIAL', 'KEEP', 'KEEP'], ['ACCEPTED 1 1', *['DONE'] * 4, 'REFUSED 24'])

    def test_timing_is_round_the_cycle(self):
        self.answers(deck(), ['OFFSET 1 9', 'TIMING'],
                     ['ACCEPTED 1 1', 'DONE', 'NODE 1 OFFSET 9',
                      'STAGE 1 CHANGE 0 AT 9 LENGTH 5 INTERGREEN 1 GREEN 4 LEAST 2',
                      'STAGE 2 CHANGE 5 AT 4 LENGTH 5 INTERGREEN 1 GREEN 4 LEAST 2', 'END TIMING'])

    def test_refused_commands_change_nothing(self):
        self.answers(deck(), [*REFUSED, 'INDEX', 'WORK'],
                     ['ACCEPTED 1 1', *(f'REFUSED {code}' for code in REFUSED.values()), 'INDEX 1948618', 'WORK 0'])

    def test_blanks_tabs_cr_comments_and_no_last_lf(self):
        data = '\r\n'.join(['* x', *TWO, '', 'LINKS', '\t QUEUE\t 2 ', 'PROFILE 2']).replace(' ', '\t').encode()
        self.assertEqual(told('run', data=data), (['ACCEPTED 2 2', *TWO_REPORT], 0))

    def test_stop(self):
        self.assertEqual(told('run', *deck(), 'STOP', 'HELLO'), (['ACCEPTED 1 1'], 0))
        self.assertEqual(told('run', *deck(), 'STOP 1', 'INDEX'), (['ACCEPTED 1 1', 'REFUSED 12', 'INDEX 1948618'], 0))

    def test_refused_decks(self):
        for lines, right in (([], 'CARD 1 REFUSED 21'), (deck()[:-1], 'CARD 6 REFUSED 21'),
                             (['NODE 1 0', 'STOP'], 'CARD 1 REFUSED 15'),
                             (deck(end='EN'), 'CARD 6 REFUSED 10'), (['*' * 4097], 'CARD 1 REFUSED 11')):
            self.assertEqual(told('run', *lines), ([right], 2))
            for words in ('equisat', 'audit', 'counts', 'scan 1 60 60 1', 'starts 1 1 1', 'cycles 1 60 60 1'):
                self.assertEqual(told(words, *lines), ([right], 2))


class Words(unittest.TestCase):
    def test_a_made_town(self):
        self.assertEqual(told('make 1 1'), (MADE, 0))
        # eight nodes in a row: 8 and 9 aren't side by side, 1 and 9 stand one above the other
        fed = {tuple(line.split()[1:3]) for line in told('make 1 9')[0] if line.startswith('FEED')}
        self.assertFalse({('82', '92'), ('91', '81')} & fed)
        self.assertLessEqual({('14', '94'), ('93', '13'), ('81', '71')}, fed)

    def test_equal_saturation(self):
        two = [*deck()[:-1], 'LINK 2 1 900 1800 1 1 2', 'END']
        self.assertEqual(told('equisat', *two), (['NODE 1 PEAK 9000 OF 9000 LINK 2', 'STAGE 1 CHANGE 0 GREEN 3 NEED 3',
                                                  'STAGE 2 CHANGE 4 GREEN 5 NEED 6', 'END EQUISAT'], 0))
        for entry, peak, needs in ((360, '3600 OF 10800 LINK 1', (7, 2)), (0, '0 OF 1 LINK 0', (0, 0))):
            right = [f'NODE 1 PEAK {peak}', f'STAGE 1 CHANGE 0 GREEN 6 NEED {needs[0]}',
                     f'STAGE 2 CHANGE 7 GREEN 2 NEED {needs[1]}', 'END EQUISAT']
            self.assertEqual(told('equisat', *deck(entry)), (right, 0))

    def test_scan(self):
        self.assertEqual(told('scan 2 60 120 60', *deck(steps='STEPS 100 1')),
                         (['CYCLE 60 FROM 1948618 TOOK 2 LOCAL 11 TO 889826',
                           'CYCLE 120 FROM 3328618 TOOK 2 LOCAL 11 TO 1489826',
                           'BEST 60 889826'], 0))
        self.assertEqual(told('scan 8 60 60 1', *deck())[0],
                         ['CYCLE 60 FROM 1948618 TOOK 0 LOCAL 0 TO 1948618', 'BEST 60 1948618'])

    def test_starts_from_a_later_one_are_those_of_the_whole_list(self):
        rows = told('starts 1 7 4', *TWO)[0][:4]
        self.assertEqual([row.split()[2] for row in rows], ['0', '1', '2', '3'])
        self.assertEqual(told('starts 1 7 2 2', *TWO)[0][:2], rows[2:])
        self.assertEqual(told('starts 1 7 2 0', *TWO), told('starts 1 7 2', *TWO))
        # one junction alone is the same at each offset, so the first start is the best
        self.assertEqual(told('starts 1 5 3 2', *deck())[0][:4], [f'* START {i} FROM 1948618 TOOK 0 LOCAL 0 TO 1948618'
                                                                  for i in (2, 3, 4)] + ['* BEST 2 1948618'])

    def test_cycles(self):
        self.assertEqual(told('cycles 1 30 36 1', *deck())[0][:4],
                         ['* CYCLE 30 NONE', '* CYCLE 31 NONE', '* CYCLE 32 NONE', '* CYCLE 33 NONE'])
        barred = [*deck()[:3], 'STAGE 5 1 4', 'END']
        self.assertEqual(told('cycles 1 30 30 1', *barred), (['* CYCLE 30 NONE', '* NONE'], 0))
        barred = ['CYCLE 60 20 1 60 100', 'NODE 7 0', 'STAGE 0 1 5', 'STAGE 9 1 5', 'END']
        self.assertEqual(told('cycles 1 30 33 3', *barred), (['* CYCLE 30 BARRED 7', '* CYCLE 33 BARRED 7', '* NONE'], 0))

    def test_counts(self):
        table = ['1,,45,15', '2,1,80,15', '1,,55,15']
        self.assertEqual(told('counts', *TWO, *table), (['ENTRY 1 200', 'PART 2 1 320', '* COUNTS 3 2'], 0))
        for row, right in (('2,2,1,15', 23), ('1,,999999,15', 27), ('1,,1', 12), ('1,,1,1,', 12), ('1, ,1,1', 13), (' ', 12),
                           ('9,,1,1', 17), ('1,9,1,1', 17), ('1,,1000000,1', 14), ('1,,1,0', 14), ('1,,1,1441', 14), ('1,,1,\x00', 13)):
            self.assertEqual(told('counts', *TWO, *table, '', row), ([f'ROW 4 REFUSED {right}'], 2), row)
        self.assertEqual(told('counts', *TWO), (['* COUNTS 0 0'], 0))
        self.assertEqual(told('counts', *TWO, '"1","","45","15"\r')[0], ['ENTRY 1 180', '* COUNTS 1 1'])

    def test_audits(self):
        cards = deck(steps='STEPS 100 1', first=8)
        for lines, right in ((CERT, 'YES 6 INDEX 889826'), (CERT[:-1], 'NO 14 28'), (['* x', *CERT], 'YES 6 INDEX 889826'),
                             ([*CERT[:2], CERT[2].replace('1352922', '1352921'), *CERT[3:]], 'NO 10 28'),
                             ([*CERT, 'CERT'], 'NO 15 28'), ([*CERT[:6], ' CERT\t6  INDEX 889826 \r'], 'YES 6 INDEX 889826'),
                             ([CERT[0] + ' ' * 4096, *CERT[1:]], 'NO 8 28')):
            self.assertEqual(told('audit', *cards, *lines), ([f'AUDIT {right}'], 0))
        self.assertEqual(told('audit', *deck()), (['AUDIT NO 6 26'], 0))
        climbing = deck(steps='STEPS 100 1')
        lines = told('run', *climbing, 'CERT')[0][1:]
        self.assertEqual(told('audit', *climbing, *lines), (['AUDIT NO 11 29'], 0))


class Ends(unittest.TestCase):
    def test_words_that_are_none(self):
        for words in ('', 'Run', 'run 0', 'run 9', 'run 01', 'run 1 1', 'make 1', 'make 1 0', 'make 1 201', 'make x 1',
                      'make 1000000000 1', 'brief 1 1 9', 'counts 1', 'scan 1 61 60 1', 'scan 0 60 60 1', 'scan 1 60 60 0',
                      'scan 1 60 60 211', 'scan 1 29 60 1', 'cycles 1 60 241 1', 'cycles 02 60 60 1', 'starts 1 1 0',
                      'starts 1 1 1001', 'starts 1 1', 'starts 1 1 1000 1', 'starts 1 1 1 1000', 'starts 1 1 1 1 1',
                      'starts 1 1 1 x', 'version 1', '--help'):
            self.assertEqual(told(words, *deck()), ([], 1), words)
        for words in ('run', 'run 8', 'make 000000012 017', 'brief 0 1', 'brief 0 1 8', 'starts 1 1 1000',
                      'starts 8 1 1 999', 'starts 1 1 1 0', 'scan 1 030 240 210', 'version'):
            self.assertTrue(are_words(words.split()), words)

    def test_too_long(self):
        cards = '\n'.join(deck()).encode() + b'\n'
        full = cards + b'*' * 95 + (b'\n' + b' ' * 1023) * ((MOST - len(cards)) // 1024)
        full += b'\n' * (MOST - len(full))
        self.assertEqual(told('run', data=full), (['ACCEPTED 1 1'], 0))
        self.assertEqual(told('run', data=full + b'\n'), (['ACCEPTED 1 1'], 6))
        self.assertEqual(told('run', data=cards + b'STOP\n' + full), (['ACCEPTED 1 1'], 0))
        self.assertEqual(told('run', data=b'NODE 1 0\n' + full), (['CARD 1 REFUSED 15'], 2))
        self.assertEqual(told('run', data=cards + b' ' * (MOST - len(cards) - 4) + b'STOP\n'), (['ACCEPTED 1 1'], 6))
        for data in (full + b'\n', b'NODE 1 0\n' + full): self.assertEqual(told('equisat', data=data), ([], 6))

    def test_a_read_that_fails(self):
        data = '\n'.join([*deck(), 'INDEX', 'WORK']).encode()
        self.assertEqual(told('run', data=data, has_failed=True), (['ACCEPTED 1 1', 'INDEX 1948618'], 3))
        self.assertEqual(told('run', data=data[:20], has_failed=True), ([], 3))
        self.assertEqual(told('run', data=b'END\n', has_failed=True), (['CARD 1 REFUSED 15'], 2))
        self.assertEqual(told('audit', data=data, has_failed=True), ([], 3))

    def test_the_command(self):
        run = lambda *words, **how: subprocess.run([sys.executable, TWIN, *words], input=b'END',
                                                   stderr=subprocess.DEVNULL, **how)
        done = run('run', stdout=subprocess.PIPE)
        self.assertEqual((done.stdout, done.returncode), (b'CARD 1 REFUSED 15\n', 2))
        self.assertEqual(run('run', '9').returncode, 1)
        self.assertEqual(run(b'\xff').returncode, 7)
        if os.path.exists('/dev/full'):
            with open('/dev/full', 'wb') as full: self.assertEqual(run('run', stdout=full).returncode, 4)


if __name__ == '__main__': unittest.main()
