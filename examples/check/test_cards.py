"""Lines, words and cards: each code of docs/FORMATS.md, at its limit and in its order."""
import unittest

from cards import cut, is_skipped, read_deck, words_of

HEAD = ['CYCLE 60 10 1 60 100', 'NODE 1 0', 'STAGE 0 1 2', 'STAGE 5 1 2']
LINK = 'LINK 1 1 360 1800 1 1 1'


def code_of(*cards: str) -> tuple:
    """The number of the refused line and its code, or none."""
    town, place, code = read_deck([card.encode('latin-1') for card in cards])
    return None if town else (place, code)


class Lines(unittest.TestCase):
    def test_one_cr_goes_and_a_last_line_needs_a_byte(self):
        self.assertEqual(cut(b'a\r\nb\r\r\n\nc'), [b'a', b'b\r', b'', b'c'])
        self.assertEqual(cut(b'a\n'), [b'a'])
        self.assertEqual(cut(b'a\n\r'), [b'a', b''])
        self.assertEqual(cut(b''), [])
        self.assertEqual(cut(b'a\nb', whole=True), [b'a'])

    def test_comments_and_blank_lines_are_skipped_up_to_4096_bytes(self):
        for line in (b'', b' \t', b'*', b'* \xff\x00', b'*' * 4096, b' ' * 4096): self.assertTrue(is_skipped(line))
        for line in (b' *', b'*' * 4097, b' ' * 4097, b'\r', b'\x0b', b'END'): self.assertFalse(is_skipped(line))

    def test_words_are_parted_by_blanks_and_tabs(self):
        self.assertEqual(words_of(b'\t NODE 1\t\t 2 '), ['NODE', '1', '2'])


class Codes(unittest.TestCase):
    def test_a_deck_that_is_right_has_none(self):
        self.assertIsNone(code_of(*HEAD, LINK, 'END'))
        self.assertIsNone(code_of('CYCLE 60 10 1 60 100', 'END'))
        self.assertIsNone(code_of('FORM 2', *HEAD, 'LINK 1 1 360 1800 1 1 9 9 1', 'FEED 1 1 1 1', 'YIELD 1 1 0', 'END'))

    def test_words(self):
        for card, code in (('X' * 4097, 11), ('* ' * 2049, 11), ('HELLO', 10), ('cycle 60 10 1 60 100', 10), (' * x', 10),
                           ('CYCLE 60 10 1 60 100\x7f', 10), ('CYCLE 60\x0b10 1 60 100', 10), ('CYCLE 60\r10 1 60 100', 10),
                           ('OFFSET 1 1', 10),
                           ('CYCLE 60 10 1 60', 12), ('CYCLE 1 2 3 4 5 6 7', 12), ('END x', 12), ('CYCLE 60 10 1 60 x', 13),
                           ('CYCLE 60 10 1 60 0000000100', 13), ('CYCLE 60 10 1 60 +1', 13)):
            self.assertEqual(code_of(card), (1, code), card)
        self.assertEqual(code_of('* town', '', 'HELLO'), (3, 10))
        self.assertEqual(code_of('CYCLE 000000060 10 1 60 100', 'END'), None)

    def test_places(self):
        for card in ('NODE 1 0', 'STAGE 0 1 2', LINK, 'FEED 1 1 1 1', 'YIELD 1 1 1', 'STEPS 1 1', 'END'):
            self.assertEqual(code_of(card), (1, 15), card)
        for card in ('FORM 1', HEAD[0]): self.assertEqual(code_of(HEAD[0], card), (2, 15), card)
        self.assertEqual(code_of('FORM 2', 'FORM 3'), (2, 15))
        for card in ('NODE 2 0', 'STAGE 1 1 1'): self.assertEqual(code_of(*HEAD, LINK, card), (6, 15), card)
        for card in ('NODE 2 0', LINK): self.assertEqual(code_of(*HEAD, LINK, 'FEED 1 1 1 1', card), (7, 15), card)
        for card in ('NODE 2 0', LINK, 'FEED 1 1 1 1', 'YIELD 1 1 1', 'STEPS 1 1'):
            self.assertEqual(code_of(*HEAD, LINK, 'STEPS 1 1', card), (7, 15), card)

    def test_names(self):
        for card, code in (('NODE 1 10', 16), (LINK, 16), ('LINK 2 1 0 1800 1 1 9 9', 16), ('LINK 2 9 10000 1800 1 1 1', 17),
                           ('LINK 2 1 10000 1800 1 1 3', 17), ('LINK 2 1 0 1800 1 1 0', 17), ('FEED 9 1 10000 1', 17),
                           ('FEED 1 9 10000 1', 17), ('YIELD 1 9 401', 17)):
            before = [*HEAD, *([LINK] if card.startswith(('LINK 1', 'FEED', 'YIELD')) else [])]
            self.assertEqual(code_of(*before, card), (len(before) + 1, code), card)
        self.assertEqual(code_of(*HEAD, LINK, 'FEED 1 1 1 1', 'FEED 1 1 10000 1'), (7, 16))
        self.assertEqual(code_of(*HEAD, LINK, 'YIELD 1 1 1', 'YIELD 1 9 1'), (7, 16))

    def test_ranges(self):
        for card in ('CYCLE 29 10 1 60 100', 'CYCLE 241 10 1 60 100', 'CYCLE 60 9 1 60 100', 'CYCLE 60 121 1 60 100',
                     'CYCLE 60 10 0 60 100', 'CYCLE 60 10 9 60 100', 'CYCLE 60 10 1 14 100', 'CYCLE 60 10 1 121 100',
                     'CYCLE 60 10 1 60 10000', 'CYCLE 60 10 1 60 100 101', 'FORM 0', 'FORM 3'):
            self.assertEqual(code_of(card), (1, 14), card)
        for card in ('NODE 0 0', 'NODE 100000 0', 'NODE 2 10', 'STAGE 10 1 2', 'STAGE 0 10 2', 'STAGE 0 1 0', 'STAGE 0 1 11',
                     'LINK 0 1 0 1800 1 1 1', 'LINK 100000 1 0 1800 1 1 1', 'LINK 2 1 10000 1800 1 1 1',
                     'LINK 2 1 0 99 1 1 1', 'LINK 2 1 0 10000 1 1 1', 'LINK 2 1 0 1800 1000 1 1', 'LINK 2 1 0 1800 1 1000 1',
                     'STEPS 0 1', 'STEPS 1000001 1', 'STEPS 1 0', 'STEPS 1 9 10'):
            self.assertEqual(code_of(*HEAD, card), (5, 14), card)
        for card in ('FEED 1 1 10000 1', 'FEED 1 1 1 0', 'FEED 1 1 1 301', 'YIELD 1 1 401'):
            self.assertEqual(code_of(*HEAD, LINK, card), (6, 14), card)
        self.assertEqual(code_of('FORM 2', *HEAD, 'LINK 1 1 0 1800 1 1 10 0 1'), (6, 14))
        self.assertEqual(code_of('FORM 2', *HEAD, 'LINK 1 1 0 1800 1 1 0 10 1'), (6, 14))

    def test_too_many(self):
        stages = [HEAD[0], 'NODE 1 0'] + ['STAGE 0 0 1'] * 8
        self.assertEqual(code_of(*stages, 'STAGE 0 0 1'), (11, 20))
        self.assertEqual(code_of(*stages, 'STAGE 0 0 11'), (11, 14))
        nodes = [HEAD[0], *(f'NODE {n} 0' for n in range(1, 201))]
        self.assertEqual(code_of(*nodes, 'NODE 201 0'), (202, 20))
        self.assertEqual(code_of(*nodes, 'NODE 200 0'), (202, 16))
        links = [*HEAD, *(f'LINK {n} 1 0 1800 1 1 1' for n in range(1, 1001))]
        self.assertEqual(code_of(*links, 'LINK 1001 1 0 1800 1 1 1'), (1005, 20))
        feeds = [*links, *(f'FEED 1 {n} 1 1' for n in range(1, 9))]
        self.assertEqual(code_of(*feeds, 'FEED 1 9 1 1'), (1013, 20))
        self.assertEqual(code_of(*feeds, 'FEED 1 8 1 1'), (1013, 16))
        self.assertEqual(code_of(*feeds, 'FEED 1 9 1 0'), (1013, 14))

    def test_the_end(self):
        self.assertEqual(code_of(), (1, 21))
        self.assertEqual(code_of(*HEAD, LINK), (6, 21))
        self.assertEqual(code_of(*HEAD[:3], 'END'), (4, 22))
        self.assertEqual(code_of(*HEAD, 'STAGE 2 1 2', 'END'), (6, 18))
        self.assertEqual(code_of(*HEAD[:3], 'STAGE 2 1 2', 'END'), (5, 19))
        # nodes in card order, and of each node 22, 18, 19
        self.assertEqual(code_of(*HEAD[:3], 'STAGE 2 1 2', 'NODE 2 0', 'END'), (6, 19))

    def test_the_network_is_that_of_the_cards(self):
        town, place, _ = read_deck([card.encode() for card in (
            'FORM 2', '* x', *HEAD, 'LINK 7 1 360 1800 3 4 2 1 2 1', 'FEED 7 7 5 6', 'YIELD 7 7 8', 'STEPS 9 3 3', 'END')])
        self.assertEqual(place, 11)
        self.assertEqual((town.frame, town.plan), ([60, 10, 1, 60, 100, 35], [9, 3, 3]))
        self.assertEqual((town.intergreens, town.least), ({1: [1, 1]}, {1: [2, 2]}))
        self.assertEqual(town.links[7], (1, 2, 1, (2, 1), (7,), (7, 8)))
        self.assertEqual(town.numbers, {('OFFSET', 1): (0,), ('CHANGE', 1, 1): (0,), ('CHANGE', 1, 2): (5,),
                                        ('ENTRY', 7): (360,), ('SATURATION', 7): (1800,), ('WEIGHT', 7): (3, 4),
                                        ('PART', 7, 7): (5,), ('CRUISE', 7, 7): (6,)})


if __name__ == '__main__': unittest.main()
