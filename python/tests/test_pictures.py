"""Pictures and the page: their numbers are the report's, what is refused, what is text."""

import re
import unittest
from dataclasses import replace
from typing import List
from xml.etree import ElementTree

import support
from support import PROGRAM, needs_program
from transyt import pictures
from transyt.comparing import DIFFERENT, MEASURES, Pair, as_csv, as_text, compared
from transyt.deck import read_deck
from transyt.faults import Fault
from transyt.html import CSS, SCRIPT, digest
from transyt.page import comparison_part, ended_text, page, pair_cells, seconds_text
from transyt.pictures.climbing import looks_of
from transyt.pictures.letters import width_of
from transyt.pictures.roads import heights_of, lengths_of, to_scale
from transyt.report import Certificate, Move, Step
from transyt.edits import Edit
from transyt.session import Session

ONE = """CYCLE 60 20 1 60 100
NODE 1 0
STAGE 0 2 3
STAGE 10 2 3
LINK 1 1 900 1800 1 1 1
LINK 2 1 9000 900 1 1 2
LINK 3 1 0 1800 1 1 2
STEPS 100 1
END
"""
ALL = ("signals", "saturation", "sensitivity")


def titles(svg: str) -> List[str]:
    """The titles of a picture, once it is read as XML."""
    return [element.text or "" for element in ElementTree.fromstring(svg).iter() if element.tag.endswith("title")]


@needs_program
class Pictures(unittest.TestCase):
    """Three junctions in a road, one junction, the arterial."""

    def setUp(self) -> None:
        self.town = Session(support.THREE, 1, PROGRAM)
        self.addCleanup(self.town.close)

    def test_signals_have_the_times_of_timing(self) -> None:
        """AT, INTERGREEN and GREEN of each stage."""
        found = titles(pictures.signals(self.town))
        for node in self.town.timing().nodes:
            for stage in node.stages:
                wanted = f"AT {stage.raw['AT']}, INTERGREEN {stage.raw['INTERGREEN']}, GREEN {stage.raw['GREEN']} steps"
                self.assertTrue(any(wanted in title and f"junction {node.number}, stage {stage.number}" in title
                                    for title in found))

    def test_saturation_has_the_degrees(self) -> None:
        """Of every link, the fullest first."""
        found = [title for title in titles(pictures.saturation(self.town)) if title.startswith("FIGURES")]
        wanted: List[str] = []
        for one in sorted(self.town.figures().links, key=lambda one: -one.raw["SATURATION"]):
            bar, delay = (f"FIGURES LINK {one.number} {word} {one.raw[word]}" for word in ("SATURATION", "DELAY"))
            wanted += [bar, f"{bar} / 10, %", f"{delay} / 10, s"]
        self.assertEqual(found, wanted)

    def test_the_road_shows_go_and_queues(self) -> None:
        """A bar ends where GO ends; the queue's title is QUEUE's greatest."""
        svg = pictures.road(self.town, [[11, 21, 31]])
        found, step = titles(svg), 5
        for link in (11, 21, 31):
            go = self.town.profile(link).go
            begins = [place for place, value in enumerate(go) if value and not go[place - 1]]
            for begin in begins:
                self.assertTrue(any(f"link {link} can go from {begin * step} to" in title for title in found))
            self.assertIn(f"queue of link {link}: greatest {max(self.town.queue(link).raw)} (QUEUE)", found)

    def test_a_link_step_by_step(self) -> None:
        """GO and the queue of each step that has any."""
        found = titles(pictures.link(self.town, 21))
        for step, value in enumerate(self.town.queue(21).raw):
            if value:
                self.assertIn(f"queue of link 21 at the end of each step, step {step}: {value} (QUEUE)", found)

    def test_sensitivity_has_the_certificate(self) -> None:
        """Each move with its index, or barred."""
        found = titles(pictures.sensitivity(self.town))
        for move in self.town.certificate().moves:
            self.assertIn(f"{move.edit} {'BARRED' if move.index is None else f'INDEX {move.index}'}", found)

    def test_climb_counts_the_looks(self) -> None:
        """The first step at place + 1, each next as far round the list; the end agrees with the last line."""
        steps = [Step(3, Edit("OFFSET", (1, 1)), 9), Step(3, Edit("OFFSET", (1, 2)), 8),
                 Step(1, Edit("OFFSET", (1, 3)), 7)]
        self.assertEqual(looks_of(steps, 10), [4, 5, 14])
        self.assertIn("LOCAL", pictures.climb(self.town))

    def test_a_route_that_isnt_fed(self) -> None:
        """It is refused with the pair."""
        with self.assertRaises(Fault) as caught:
            pictures.road(self.town, [[11, 31]])
        self.assertIn("link 31 isn't fed by link 11", str(caught.exception))
        with self.assertRaises(Fault):
            pictures.road(self.town, [[11, 99]])

    def test_routes_that_are_found(self) -> None:
        """By the greatest feed, through at least three junctions; both ways of the arterial."""
        self.assertEqual(pictures.routes_of(self.town.deck()), [[11, 21, 31]])
        arterial = read_deck(support.example("arterial.deck"))
        self.assertEqual(pictures.routes_of(arterial), [[11, 21, 31, 41, 51, 61], [62, 52, 42, 32, 22, 12]])

    def test_one_junction(self) -> None:
        """No road, an oversaturated link, a link that nothing uses; every picture is XML with no style attribute."""
        with Session(ONE, 1, PROGRAM) as town:
            with self.assertRaises(Fault):
                pictures.road(town)
            for name in ALL:
                svg = getattr(pictures, name)(town)
                self.assertTrue(titles(svg))
                self.assertNotIn("style=", svg)
            self.assertIn("Saturation", page(town))

    def test_labels_dont_run_into_each_other(self) -> None:
        """ATs of stages that last 4 s stand in lines of their own; a long caption goes on in another line."""
        stages = "".join(f"STAGE {change} 1 1\n" for change in (0, 2, 4, 6, 8, 10, 40, 50))
        links = "".join(f"LINK {place} 1 300 1800 1 1 {place}\n" for place in range(1, 9))
        text = f"* NAME TOWN {'Mill ' * 39}\nCYCLE 120 60 1 60 100\nNODE 1 50\n{stages}{links}STEPS 9 1\nEND\n"
        with Session(text, 1, PROGRAM) as town:
            svg = pictures.signals(town)
        ats = [(float(x), float(y), shown) for x, y, shown in re.findall(
            r'<text x="([0-9.]+)" y="([0-9.]+)"[^>]*class="at"[^>]*><title>[^<]*</title>([0-9.]+)<', svg)]
        self.assertEqual(len(ats), 8)
        for x, y, shown in ats:
            near = [one for one in ats if one[1] == y and abs(one[0] - x) < 6.2 * len(shown) and one[2] != shown]
            self.assertEqual(near, [])
        captions = re.findall(r'class="of">([^<]*)<', svg)
        self.assertEqual(len(captions), 2)
        self.assertLess(11 * max(map(width_of, captions)), 736)

    def test_stop_lines_stand_at_their_distance(self) -> None:
        """By METRES where all are told, else by cruise times; to scale, or it is said that it isn't."""
        deck = self.town.deck()
        self.assertEqual(lengths_of(deck, [11, 21, 31]), ([21, 17], "s"))
        told = read_deck(support.THREE.replace("* METRES 21 11 340", "* METRES 21 11 340\n* METRES 31 21 170"))
        self.assertEqual(lengths_of(told, [11, 21, 31]), ([340, 170], "m"))
        low, middle, high = heights_of(told, [11, 21, 31], True)
        self.assertAlmostEqual((low - middle) / (middle - high), 2)
        far = read_deck(support.THREE.replace("* METRES 21 11 340", "* METRES 21 11 9000\n* METRES 31 21 90"))
        self.assertFalse(to_scale(far, [11, 21, 31], []))
        self.assertNotIn("to scale", pictures.road(self.town, [[11, 21, 31]]))
        with Session(far, 1, PROGRAM) as town:
            self.assertIn("drawn to scale", pictures.road(town, [[11, 21, 31]]))

    def test_below_the_road_stands_where_the_signals_are(self) -> None:
        """Bars are GO, with lags and give way: the signals' own times are in another picture."""
        captions = re.findall(r'class="of">([^<]*)<', pictures.road(self.town))
        self.assertIn("the signals' own times are in the picture signals", " ".join(captions))

    def test_names_are_text(self) -> None:
        """Markup in a name is shown."""
        with Session(support.THREE.replace("Market Street", "<b>&\"x"), 1, PROGRAM) as town:
            svg = pictures.signals(town)
        self.assertIn("&lt;b&gt;&amp;", svg)
        ElementTree.fromstring(svg)

    def test_the_same_answers_the_same_picture(self) -> None:
        """To the byte."""
        self.assertEqual(pictures.road(self.town, [[11, 21, 31]]), pictures.road(self.town, [[11, 21, 31]]))


@needs_program
class Pages(unittest.TestCase):
    """The page and the comparison."""

    def setUp(self) -> None:
        self.town = Session(support.THREE, 1, PROGRAM)
        self.addCleanup(self.town.close)

    def test_each_figure_is_at_its_place(self) -> None:
        """The raw values of all links, looked up in FIGURES, and of all stages, in TIMING."""
        text = page(self.town)
        found = dict((place, int(raw)) for raw, place in re.findall(r'<data value="([0-9]+)" class="([^"]*)"', text))
        for one in self.town.figures().links:
            for word in ("FLOW", "SATURATION", "DELAY", "STOPPED", "QUEUE"):
                self.assertEqual(found[one.place(word)], one.raw[word])
        for node in self.town.timing().nodes:
            for stage in node.stages:
                self.assertEqual(found[stage.place("AT")], stage.raw["AT"])
                self.assertEqual(found[f"{stage.place('AT')}+INTERGREEN"],
                                 (stage.raw["AT"] + stage.raw["INTERGREEN"]) % 12)

    def test_greens_begin_round_the_cycle(self) -> None:
        """AT 11 and an intergreen of 1 step of 12: green begins at 0."""
        with Session(support.THREE.replace("NODE 1 0", "NODE 1 11"), 1, PROGRAM) as town:
            self.assertIn('<data value="0" class="TIMING NODE 1 STAGE 1 AT+INTERGREEN"', page(town))

    def test_seconds_are_rounded_a_half_up(self) -> None:
        """33 s in 48 steps: a step is 0.6875 s, three are 2.0625."""
        deck = read_deck(support.THREE.replace("CYCLE 60 12", "CYCLE 33 48"))
        self.assertEqual([seconds_text(deck, steps) for steps in (0, 1, 3, 16, 48)],
                         ["0", "0.688", "2.063", "11", "33"])

    def test_a_queue_longer_than_its_link_is_marked(self) -> None:
        """Than the shortest way to it."""
        text = support.THREE.replace("* METRES 21 11 340", "* METRES 21 11 340\n* METRES 21 12 2")
        with Session(text, 1, PROGRAM) as town:
            self.assertIn("longer than the link", page(town))
        self.assertNotIn("longer than the link", page(self.town))

    def test_how_it_ended(self) -> None:
        """A move with the same index doesn't lower it; one with less does, and is counted."""
        moves = tuple(Move(place, Edit("OFFSET", (1, place)), index) for place, index in enumerate((9, None, 10)))
        self.assertIn("LOCAL", ended_text(Certificate(moves, 9, ())))
        self.assertIn(">1</data> listed moves lower", ended_text(Certificate(moves, 10, ())))

    def test_differences_have_their_sign(self) -> None:
        """The second number less the first; none where one has no green."""
        with Session(support.THREE.replace("NODE 2 3", "NODE 2 9"), 1, PROGRAM) as town:
            comparison = compared(self.town, town)
            more = town.index() - self.town.index()
        self.assertEqual(comparison.totals[2].cells()[2], f"{more:+d}")
        row = comparison.rows[0]
        assert row.one and row.other
        closed = replace(row, other=replace(row.other, raw={**row.other.raw, "SATURATION": 999_999}))
        delay, saturation, _ = (pair.cells() for pair in closed.pairs)
        self.assertEqual(saturation[1:], ("no green", ""))
        self.assertNotEqual(delay[2], "")

    def test_a_page_needs_no_network(self) -> None:
        """No address but the name of SVG; its policy allows its own style sheet and script alone."""
        text = page(self.town)
        self.assertEqual(set(re.findall(r"https?://[^\"' <]*", text)), {"http://www.w3.org/2000/svg"})
        self.assertIn(f"default-src 'none'; style-src '{digest(CSS)}'; script-src '{digest(SCRIPT)}'", text)
        self.assertNotIn("style=", text)

    def test_queues_in_metres(self) -> None:
        """6 m a vehicle over two lanes at link 21; no lanes, no metres."""
        text = page(self.town)
        queue = self.town.figures().link(21).raw["QUEUE"]
        metres = f"{6 * queue / 1_000_000 / 2:.0f}"
        formula = "6 m × QUEUE / 1,000,000 / 2 lanes"
        self.assertRegex(text, rf'class="FIGURES LINK 21 QUEUE" title="{formula}">{metres}(<|, )')

    def test_two_plans(self) -> None:
        """The greatest loss first; no difference of the index where K differs; a link of one plan alone last."""
        other = support.THREE.replace("CYCLE 60 12 1 60 100", "CYCLE 60 12 1 60 200").replace("NODE 2 3", "NODE 2 9")
        with Session(other, 1, PROGRAM) as town:
            comparison = compared(self.town, town)
        losses = [row.loss for row in comparison.rows]
        self.assertEqual(losses, sorted(losses, reverse=True))
        self.assertIn("stop penalty K: 100 and 200", comparison.differences)
        self.assertFalse(comparison.is_same_index)
        self.assertNotIn("difference", as_text(comparison, str).split("INDEX: ")[1])
        self.assertIn("link,name,s a vehicle", as_csv(comparison))

    def test_what_else_differs(self) -> None:
        """Each of S, T, K, k, flows, weights, saturations, cruise times; offsets and changes alone are nothing."""
        for old, new, said in (
                ("60 12 1 60", "60 12 2 60", "sweeps S: 1 and 2"), ("1 60 100", "1 30 100", "period T, min: 60 and 30"),
                ("60 100\n", "60 100 20\n", "dispersion k, %: 35 and 20"),
                ("LINK 11 1 500", "LINK 11 1 510", "flow of link 11"), ("11 350 21", "11 340 21", "flow of link 21"),
                ("1800 1 1 1\nLINK 12", "1800 2 1 1\nLINK 12", "weights of link 11"),
                ("300 1800", "300 1900", "saturation flow of link 12"), ("350 21", "350 22", "cruise time of link 21"),
                ("YIELD 32 31 40", "YIELD 32 31 50", "give-way rule of link 32"), ("NODE 2 3", "NODE 2 9", None)):
            text = support.THREE.replace(old, new)
            self.assertNotEqual(text, support.THREE)
            with self.subTest(new), Session(text, 1, PROGRAM) as town:
                comparison = compared(self.town, town)
                self.assertEqual(comparison.differences, () if said is None else (said,))
                wanted = said is None or said.split(" ")[0] in ("flow", "saturation", "cruise", "give-way")
                self.assertEqual(comparison.is_same_index, wanted)
                self.assertEqual("difference" in as_text(comparison, str).split("INDEX: ")[1], wanted)

    def test_another_network(self) -> None:
        """A link of one deck alone stands last, without a difference; totals are told as of different networks."""
        with Session(support.THREE.replace("LINK 12 1", "LINK 19 1").replace("21 12 ", "21 19 "), 1, PROGRAM) as town:
            comparison = compared(self.town, town)
            html = page(self.town, town)
        self.assertEqual({row.number for row in comparison.rows[-2:]}, {12, 19})
        self.assertNotIn("difference", as_text(comparison, str).split("different networks")[1])
        for told in (as_text(comparison, str), as_csv(comparison), html):
            self.assertIn(DIFFERENT, told)

    def test_each_figure_has_the_other_plans_beside_it(self) -> None:
        """Where the two differ, at the same place; the page of a plan against itself is the page and no difference."""
        with Session(support.THREE.replace("NODE 2 3", "NODE 2 9"), 1, PROGRAM) as town:
            text, other = page(self.town, town), page(town)
            figures = town.figures()
        found = re.findall(r'<data value="([0-9]+)" class="AGAINST ([^"]*)"', text)
        self.assertIn((str(figures.index), "FIGURES TOTAL INDEX"), found)
        self.assertIn((str(figures.link(21).raw["DELAY"]), "FIGURES LINK 21 DELAY"), found)
        self.assertTrue(any(place == "TIMING NODE 2 STAGE 1 AT" for _, place in found))
        theirs = re.findall(r'<data value="([0-9]+)" class="([^"]*)"', other)
        self.assertEqual([one for one in found if one not in theirs], [])
        with Session(support.THREE, 1, PROGRAM) as town:
            alike = page(self.town, town)
        self.assertNotRegex(alike, 'class="(against|better|worse)')
        self.assertEqual({int(raw) for raw in re.findall(r'value="([^"]*)" class="DIFFERENCE', alike)}, {0})

    def test_each_figure_of_a_comparison_is_at_its_place(self) -> None:
        """Of this plan, of the other, and the difference, with its formula and the two raw numbers in its title; no
        number of the two tables stands outside."""
        with Session(support.THREE.replace("NODE 2 3", "NODE 2 9"), 1, PROGRAM) as town:
            text, figures, others = comparison_part(compared(self.town, town)), self.town.figures(), town.figures()
        found = {place: (int(raw), formula) for raw, place, formula in
                 re.findall(r'<data value="(-?[0-9]+)" class="([^"]*)"(?: title="([^"]*)")?>', text)}
        lines = [(figures.total, others.total, ("DELAY", "STOPS", "INDEX"))]
        lines += [(one, others.link(one.number), ("DELAY", "SATURATION", "QUEUE")) for one in figures.links]
        for mine, its, words in lines:
            for word in words:
                place, one, other = mine.place(word), mine.raw[word], its.raw[word]
                self.assertEqual((found[place][0], found[f"AGAINST {place}"][0]), (one, other))
                difference, formula = found[f"DIFFERENCE {place}"]
                self.assertEqual(difference, other - one)
                self.assertIn(f"AGAINST {word} - {word}", formula)
                self.assertIn(f"{other} - {one}", formula)
        self.assertEqual(len(found), 9 * (1 + len(figures.links)))
        self.assertEqual(re.findall(r'<td class="number">[^<]', text), [])
        self.assertIn('title="(AGAINST DELAY - DELAY) / 10 = (', text)

    def test_what_else_differs_is_at_its_place(self) -> None:
        """A number of the frame in the deck of either plan."""
        with Session(support.THREE.replace("1 60 100", "1 30 100"), 1, PROGRAM) as town:
            text = comparison_part(compared(self.town, town))
        self.assertIn('<li><bdi>period T, min</bdi>: <data value="60" class="DECK CYCLE 4">60</data> and '
                      '<data value="30" class="AGAINST DECK CYCLE 4">30</data></li>', text)
        self.assertNotIn("DIFFERENCE FIGURES TOTAL INDEX", text)

    def test_a_difference_is_marked_as_it_is_shown(self) -> None:
        """One that is 0 as shown isn't marked; a greater delay is worse, a less one better."""
        (row, *_), delay = compared(self.town, self.town).rows, MEASURES[0]
        assert row.one
        for measure, more, kind in ((MEASURES[2], 40_000, None), (MEASURES[2], 60_000, "worse"), (delay, -1, "better"),
                                    (delay, 0, None)):
            raw = {**row.one.raw, measure.word: row.one.raw[measure.word] + more}
            cell = pair_cells(Pair(measure, row.one, replace(row.one, raw=raw)))[2]
            self.assertEqual(re.findall('class="(better|worse)"', cell), [kind] if kind else [])
            self.assertIn(f'value="{more}" class="DIFFERENCE', cell)

    def test_more_is_more_as_it_is_shown(self) -> None:
        """3 steps of 7.5 s are longer than 3 of 5 s; the steps themselves are the same, and have none beside them."""
        with Session(support.THREE.replace("CYCLE 60 12", "CYCLE 90 12"), 1, PROGRAM) as town:
            text = page(self.town, town)
        self.assertIn('<data value="3" class="TIMING NODE 2 STAGE 1 AT" title="AT × 60 s / 12">15</data> '
                      '<span class="against more" title="the other plan"><data value="3" '
                      'class="AGAINST TIMING NODE 2 STAGE 1 AT" title="AT × 90 s / 12">22.5</data></span>', text)
        self.assertIn('<data value="3" class="TIMING NODE 2 STAGE 1 AT">3</data></td>', text)

    def test_the_sizes_of_the_list(self) -> None:
        """Each at its place in the STEPS card; another plan's list stands beside it as a whole."""
        sizes = '<data value="1" class="DECK STEPS 2">1</data> <data value="3" class="DECK STEPS 3">3</data>'
        self.assertIn(f"moves by steps of {sizes}, <data", page(self.town))
        with Session(support.THREE.replace("STEPS 200 1 3", "STEPS 200 1 2 4"), 1, PROGRAM) as town:
            text = page(self.town, town)
        theirs = " ".join(f'<data value="{size}" class="AGAINST DECK STEPS {place}">{size}</data>'
                          for place, size in ((2, 1), (3, 2), (4, 4)))
        self.assertIn(f'{sizes} <span class="against" title="the other plan">{theirs}</span>, <data', text)

    def test_how_either_plan_ended(self) -> None:
        """One LOCAL, one that isn't, one without STEPS: the other's end is told as a whole; and its fullest link."""
        with Session(support.THREE, 1, PROGRAM) as town:
            town.climb().run()
            text = page(self.town, town)
        other = '<span class="against" title="the other plan">LOCAL: no listed move lowers INDEX</span>'
        self.assertEqual(text.count(f"listed moves lower INDEX: the climb isn't over {other}"), 2)
        with Session(support.THREE.replace("STEPS 200 1 3\n", ""), 1, PROGRAM) as town:
            text = page(self.town, town)
        self.assertIn('<span class="against" title="the other plan">the deck has no STEPS card</span>', text)
        self.assertIn("moves by steps of", text)
        with Session(support.THREE.replace("LINK 12 1 300", "LINK 12 1 900"), 1, PROGRAM) as town:
            text = page(self.town, town)
        self.assertNotEqual(self.town.figures().worst, 12)
        self.assertIn('<span class="against" title="the other plan"><data value="12" class="AGAINST FIGURES TOTAL '
                      'WORST">12</data> <bdi></bdi></span>', text)

    def test_derived_figures_have_their_formula(self) -> None:
        """In their titles; figures as they are printed have none."""
        text = page(self.town)
        self.assertRegex(text, r'class="FIGURES LINK 21 DELAY" title="DELAY / 10">')
        self.assertRegex(text, r'class="FIGURES TOTAL STOPS" title="STOPS / 1,000,000">')
        self.assertRegex(text, r'class="TIMING NODE 2 STAGE 1 AT" title="AT × 60 s / 12">')
        self.assertRegex(text, r'AT\+INTERGREEN" title="\(\(AT \+ INTERGREEN\) mod 12\) × 60 s / 12">')
        self.assertRegex(text, r'class="FIGURES LINK 21 FLOW">')


if __name__ == "__main__":
    unittest.main()
