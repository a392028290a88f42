"""Where shapes stand in the pictures: worked out again from the report's numbers and the picture's own scale."""

import re
import subprocess
import unittest
from typing import Dict, List, Sequence, Tuple
from xml.etree import ElementTree

import support
from support import PROGRAM, needs_program
from test_pictures import ONE
from transyt import pictures
from transyt.deck import Deck, read_deck
from transyt.faults import Fault
from transyt.pictures.climbing import drawn
from transyt.pictures.letters import fitted, width_of, wrapped
from transyt.pictures.svg import SMALLEST, Drawing
from transyt.report import ClimbEnd
from transyt.session import Session

Shape = Tuple[Dict[str, str], str]  # its attributes and its title


def shapes(svg: str, name: str) -> List[Shape]:
    """The shapes of a kind with their titles."""
    return [(dict(element.attrib), next((child.text or "" for child in element if child.tag.endswith("title")), ""))
            for element in ElementTree.fromstring(svg).iter() if element.tag.endswith("}" + name)]


def scale_of(svg: str) -> Tuple[float, float]:
    """Where the picture's seconds begin, and how wide one is."""
    root = ElementTree.fromstring(svg).attrib
    left = float(root["data-left"])
    return left, (float(root["data-right"]) - left) / float(root["data-seconds"])


def points_of(shape: Shape) -> List[Tuple[float, float]]:
    """The corners of a polygon."""
    return [(float(x), float(y)) for x, y in (pair.split(",") for pair in shape[0]["points"].split(" "))]


class Texts(unittest.TestCase):
    """Texts in a picture; without the program."""

    def test_what_xml_forbids_is_shown_as_a_mark(self) -> None:
        """A control character in a name, in titles too: comments may hold any byte."""
        drawing = Drawing("road", 20, "a \x1b title", "\x00 & <b>")
        drawing.words((0, 0), "name\x01\x7f\ufffe\U0001f6a6\tend", width=30)
        drawing.dot((0, 0), 1, "#000000", "point \x08")
        read = "".join(ElementTree.fromstring(str(drawing)).itertext())
        for text in ("a \ufffd title", "\ufffd & <b>", "name\ufffd\x7f\ufffd\U0001f6a6\tend", "point \ufffd"):
            self.assertIn(text, read)

    def test_widths_go_by_letter(self) -> None:
        """Capitals and bold letters take more room; accents and marks of direction none; what isn't known much."""
        self.assertLess(width_of("illicit"), width_of("wayward"))
        for text in ("mill road", "MILL ROAD", "ЩУКИНО"):
            self.assertLess(width_of(text), width_of(text, True))
        self.assertEqual(width_of("\u2068é\u2069"), width_of("e"))
        self.assertEqual(width_of("e\u0301"), width_of("e"))
        self.assertGreater(width_of("\U0001f6a6"), width_of("W"))

    def test_texts_are_cut_where_they_dont_fit(self) -> None:
        """With dots; an isolated part stays isolated; lines are as wide as told."""
        self.assertEqual(fitted("Mill Road", 9), "Mill Road")
        self.assertEqual(fitted("6 \u2068WWWWWW\u2069", 4), "6 \u2068WW…\u2069")
        self.assertEqual(fitted("6 \u2068WWWWWW\u2069", 2.5), "6…")
        for text in ("COMMONWEALTH BOULEVARD SOUTH " * 9, "w" * 400, "Wimbledon Common Parkway " * 9):
            self.assertLessEqual(max(map(width_of, wrapped(text, 60))), 60)

    def test_labels_have_the_room_told(self) -> None:
        """Smaller letters at first, then a cut, with the whole as title."""
        name = "6 COMMONWEALTH BOULEVARD SOUTH"
        for bold, width, whole in ((False, 194, True), (True, 230, True), (True, 194, False), (False, 30, False)):
            drawing = Drawing("road", 20, "a title", "a caption")
            drawing.words((0, 0), name, bold=bold, width=width)
            found = re.search(r'font-size="([0-9.]+)"[^>]*>(?:<title>([^<]*)</title>)?([^<]*)</text>', drawing.parts[0])
            assert found is not None
            self.assertGreaterEqual(float(found[1]), SMALLEST)
            self.assertLess(float(found[1]) * width_of(found[3], bold), width + 0.2)
            self.assertEqual((found[2], found[3][-1]), (None, "H") if whole else (name, "…"))


@needs_program
class Shapes(unittest.TestCase):
    """Three junctions in a road: steps of 5 s."""

    def setUp(self) -> None:
        self.town = Session(support.THREE.replace("NODE 1 0", "NODE 1 11"), 1, PROGRAM)
        self.addCleanup(self.town.close)
        self.svg = pictures.road(self.town, [[11, 21, 31]])
        self.left, self.second = scale_of(self.svg)

    def test_bars_are_go(self) -> None:
        """Each step of each link lies in a bar that says whether GO is above 0 there, departures or not."""
        with Session(support.THREE.replace("LINK 12 1 300", "LINK 12 1 0"), 1, PROGRAM) as town:
            self.assertEqual(max(town.profile(12).departures), 0)
            self.check_bars(town, (12, 21, 31))
        self.check_bars(self.town, (11, 21, 31))

    def check_bars(self, town: Session, route: Sequence[int]) -> None:
        """The bars of a route."""
        svg = pictures.road(town, [route])
        for link in route:
            go = town.profile(link).go
            said = [False] * 12
            for _, title in shapes(svg, "rect"):
                found = re.fullmatch(rf"link {link} can go from ([0-9]+) to ([0-9]+) s \(GO\)", title)
                if found:
                    said[int(found[1]) // 5:int(found[2]) // 5] = [True] * ((int(found[2]) - int(found[1])) // 5)
            self.assertEqual(said, [value > 0 for value in go])

    def test_bands_arrive_a_cruise_time_later(self) -> None:
        """As wide as the steps that send them, shifted by 21 s to link 21 and by 17 s to link 31."""
        bands = [(points_of(shape), shape[1]) for shape in shapes(self.svg, "polygon") if "departures" in shape[1]]
        self.assertTrue(bands)
        for points, title in bands:
            found = re.search(r"steps ([0-9]+) to ([0-9]+).* ([0-9]+) s to", title)
            assert found is not None
            begin, end, cruise = 5 * int(found[1]), 5 * (int(found[2]) + 1), int(found[3])
            self.assertEqual(cruise, 21 if "link 11" in title else 17)
            for (x, _), seconds in zip(points, (begin, end, end + cruise, begin + cruise)):
                self.assertAlmostEqual(x, self.left + seconds * self.second, 1)

    def test_fronts_are_at_four_fifths(self) -> None:
        """From the beginning of a green to 0.8 of the cruise time later."""
        fronts = [shape for shape in shapes(self.svg, "line") if "platoon" in shape[1]]
        self.assertTrue(fronts)
        for attributes, title in fronts:
            cruise = 21 if "link 11" in title else 17
            self.assertAlmostEqual(float(attributes["x2"]) - float(attributes["x1"]), 0.8 * cruise * self.second, 1)

    def test_queues_go_round_the_cycle(self) -> None:
        """At the beginning stands the queue of the last step, as at the end of the cycle."""
        for shape in shapes(self.svg, "polygon"):
            if "queue" in shape[1]:
                points = points_of(shape)
                self.assertEqual(points[1][1], points[-2][1])
                self.assertAlmostEqual(points[-2][0] - points[1][0], 60 * self.second, 1)

    def test_stages_stand_at_their_times(self) -> None:
        """Boxes of each stage, parted at the cycle's end, cover INTERGREEN from AT on and then GREEN."""
        svg = pictures.signals(self.town)
        left, second = scale_of(svg)
        for node in self.town.timing().nodes:
            for stage in node.stages:
                at, clearing, green = (stage.raw[word] for word in ("AT", "INTERGREEN", "GREEN"))
                for kind, begin, length in (("intergreen", at, clearing), ("green", at + clearing, green)):
                    covered = set()
                    for attributes, title in shapes(svg, "rect"):
                        if attributes.get("class") == f"stage stage-{stage.number} {kind}" \
                                and title.startswith(f"junction {node.number},"):
                            first = round((float(attributes["x"]) - left) / second / 5)
                            covered |= set(range(first, first + round(float(attributes["width"]) / second / 5)))
                    self.assertEqual(covered, {(begin + step) % 12 for step in range(length)})


@needs_program
class Chosen(unittest.TestCase):
    """Which links and routes are shown."""

    def test_routes_follow_the_greatest_feed(self) -> None:
        """Not the first one; and never through fewer than three junctions."""
        other = support.THREE.replace("FEED 21 11 350 21", "FEED 21 11 40 21")
        self.assertEqual(pictures.routes_of(read_deck(other)), [[12, 21, 31]])
        deck = read_deck(support.THREE)
        two = Deck(deck.frame, deck.nodes[:2], deck.links[:4])
        self.assertEqual(pictures.routes_of(two), [])

    def test_the_sixty_fullest(self) -> None:
        """Of 200 links, and the picture says so."""
        made = subprocess.run([str(PROGRAM), "make", "7", "50"], capture_output=True, text=True, check=True).stdout
        with Session(made, 1, PROGRAM) as town:
            svg = pictures.saturation(town)
        self.assertEqual(len([title for _, title in shapes(svg, "rect") if "SATURATION" in title]), 60)
        self.assertIn("the 60 fullest of 200 links", svg)

    def test_colours_begin_at_90_and_100(self) -> None:
        """In 20 steps of which 8 are green 648 and 720 of 1,800 are 90 and 100 %; 647 are below."""
        fills = {}
        for flow in (647, 648, 719, 720):
            with Session(ONE.replace("LINK 1 1 900", f"LINK 1 1 {flow}"), 1, PROGRAM) as town:
                saturation = town.figures().link(1).raw["SATURATION"]
                bar = next(shape for shape in shapes(pictures.saturation(town), "rect")
                           if shape[1] == f"FIGURES LINK 1 SATURATION {saturation}")
            fills[saturation] = bar[0]["fill"]
        below, ninety, under, full = (fills[raw] for raw in sorted(fills))
        self.assertEqual((sorted(fills)[1], sorted(fills)[3]), (900, 1000))
        self.assertEqual(len({below, ninety, full}), 3)
        self.assertEqual(ninety, under)

    def test_looks_that_dont_agree(self) -> None:
        """A climb whose last line has another count of looks than its steps is refused."""
        deck = read_deck(support.THREE)
        drawn(deck, 9, [], ClimbEnd(True, 36, 9), "x")
        for end in (ClimbEnd(True, 35, 9), ClimbEnd(False, 36, 9)):
            with self.assertRaises(Fault):
                drawn(deck, 9, [], end, "x")


if __name__ == "__main__":
    unittest.main()
