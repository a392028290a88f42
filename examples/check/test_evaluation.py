"""The evaluation by values known apart from it: dispersion, greens, queues, figures, sweeps and give way."""
import unittest

from cards import read_deck
from evaluation import dispersed, greens, stop_line
from worked import GIVES_WAY, GIVES_WAY_REPORT, deck


def town_of(cards: list[str]):
    return read_deck([card.encode() for card in cards])[0]


class Formulas(unittest.TestCase):
    def test_a_platoon_disperses(self):
        x = (10000000,) + (0,) * 9
        self.assertEqual(dispersed(x, 2, 35), (4861, 2001, 5883234, 2422508, 997503, 410736, 169126, 69640, 28675, 11807))
        self.assertEqual(dispersed(x, 12, 35), (406747, 328526, 2245734, 1813862, 1465042, 1183303, 955744, 771947, 623495,
                                                503592))

    def test_dispersion_at_its_ends(self):
        x = (10000000,) + (0,) * 9
        self.assertEqual(dispersed(x, 0, 35), x)
        self.assertEqual(dispersed(x, 12, 0), (0, 0) + x[:8])
        self.assertEqual(dispersed((7,) * 10, 31, 100), (7,) * 10)

    def test_greens(self):
        green = lambda *given: [i for i, is_green in enumerate(greens(10, *given)) if is_green]
        self.assertEqual(green((0, 3, 6), (1, 1, 1), (1, 3), 0, 0), [0, 1, 2, 7, 8, 9])
        self.assertEqual(green((0, 5), (1, 1), (1, 2), 9, 0), list(range(10)))  # shown at every step: no opening
        self.assertEqual(green((0, 5), (1, 1), (1,), 2, 1), [3, 4, 5])
        self.assertEqual(green((0, 5), (1, 1), (1,), 4, 0), [])
        self.assertEqual(green((0, 5), (1, 1), (1,), 5, 3), [6, 7])  # what is left of the start lag counts over the end lag

    def test_a_queue_has_no_first_step(self):
        _, queue, out = stop_line((600000,) * 10, (0,) + (3000000,) * 4 + (0,) * 5)
        self.assertEqual(queue, (3600000, 1200000, 0, 0, 0, 600000, 1200000, 1800000, 2400000, 3000000))
        self.assertEqual(out, (0, 3000000, 1800000, 600000, 600000, 0, 0, 0, 0, 0))
        self.assertEqual(stop_line((700000,) * 10, (300000,) * 10), ((300000,) * 10, (0,) * 10, (300000,) * 10))
        self.assertEqual(stop_line((700000,) * 10, (0,) * 10), ((0,) * 10,) * 3)


class Networks(unittest.TestCase):
    def test_figures(self):
        for entry, figures in ((360, (1380000, 498618, 70000, 1948618)), (0, (0, 0, 0, 0)),
                               (1800, (3600000, 540832051, 180000, 544612051))):
            self.assertEqual(town_of(deck(entry)).evaluation.links[1].figures, figures)
        self.assertEqual(town_of(deck(stages='1 2')).evaluation.links[1].figures, (0, 124978, 0, 124978))

    def test_weights_and_the_stop_penalty(self):
        cards = deck()
        cards[0], cards[4] = 'CYCLE 60 10 1 60 250', 'LINK 1 1 360 1800 3 2 1'
        self.assertEqual(town_of(cards).index(), 3 * (1380000 + 498618) + 2 * 250 * 70000 // 100)

    def test_a_link_that_feeds_itself_reads_the_sweep_before(self):
        cards = ['CYCLE 60 10 2 60 100', *deck()[1:4], 'LINK 1 1 360 180 1 1 1 2', 'FEED 1 1 180 15', 'END']
        link = town_of(cards).evaluation.links[1]
        self.assertEqual((link.IN, link.GO, link.OUT), ((700000,) * 10, (300000,) * 10, (300000,) * 10))
        self.assertEqual(town_of([cards[0].replace(' 2 ', ' 1 '), *cards[1:]]).evaluation.links[1].IN, (900000,) * 10)

    def test_a_link_that_gives_way_reads_this_sweep_of_an_earlier_link_alone(self):
        go = town_of(GIVES_WAY).evaluation.links[2].GO
        self.assertEqual(go, tuple(map(int, GIVES_WAY_REPORT[4].split()[2:])))
        turned = [*GIVES_WAY[:4], GIVES_WAY[5], GIVES_WAY[4], *GIVES_WAY[6:]]
        self.assertEqual(town_of(turned).evaluation.links[2].GO, (2400000,) * 10)

    def test_what_is_due(self):
        evaluation = town_of(GIVES_WAY).evaluation
        self.assertEqual(len(evaluation.sweeps), 2)
        self.assertEqual(evaluation.sweeps[0], {1: (600000,) * 10, 2: (600000,) * 10})


if __name__ == '__main__': unittest.main()
