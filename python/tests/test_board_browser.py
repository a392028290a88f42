"""The board in Chromium: a drag, the keyboard, a climb that is stopped, two tabs, refusals, the deck as a download."""

import importlib.util
import os
import shutil
import signal
import subprocess
import tempfile
import time
import unittest
from typing import Any, List

import support
from support import PROGRAM, needs_program, wait_until
from transyt.board.server import serve
from transyt.board.state import Board
from transyt.deck import read_deck
from transyt.session import Session

CHROMIUM = shutil.which("chromium") or shutil.which("chromium-browser") or shutil.which("google-chrome")
has_browser = unittest.skipUnless(importlib.util.find_spec("selenium") and CHROMIUM and shutil.which("chromedriver"),
                                  "there is no selenium, chromium or chromedriver")


@needs_program
@has_browser
class Browser(unittest.TestCase):
    """The arterial on the board."""

    def setUp(self) -> None:
        from selenium import webdriver
        from selenium.webdriver.chrome.service import Service
        self.folder = tempfile.TemporaryDirectory()
        self.addCleanup(self.folder.cleanup)
        options = webdriver.ChromeOptions()
        for word in ("--headless=new", "--no-sandbox", "--disable-gpu", "--window-size=1280,800"):
            options.add_argument(word)
        options.add_experimental_option("prefs", {"download.default_directory": self.folder.name})
        options.set_capability("goog:loggingPrefs", {"browser": "ALL"})
        options.binary_location = CHROMIUM
        self.driver = webdriver.Chrome(options=options, service=Service(shutil.which("chromedriver")))
        self.addCleanup(self.driver.quit)
        self.open(support.example("arterial.deck"))

    def open(self, text: str) -> None:
        """A deck on a board of its own, in the browser."""
        self.board = Board(read_deck(text), 1, PROGRAM, [])
        self.addCleanup(self.board.close)
        self.server, _ = serve(self.board)
        self.addCleanup(self.server.server_close)
        self.addCleanup(self.server.shutdown)
        self.driver.get(f"{self.server.origin}/#{self.server.secret}")
        self.assertTrue(wait_until(lambda: bool(self.rows())))

    def tearDown(self) -> None:
        said = [entry for entry in self.driver.get_log("browser") if "favicon" not in entry["message"]]
        self.assertEqual(said, [])

    def find(self, selector: str) -> Any:
        """The first element of a selector."""
        return self.driver.find_element("css selector", selector)

    def rows(self) -> List[str]:
        """The totals as they are shown."""
        return list(self.driver.execute_script("return [...document.querySelectorAll('#totals tbody tr')].map(row => "
                                               "[...row.cells].map(cell => cell.textContent).join(' '))"))

    def index(self) -> int:
        """The index that the page shows."""
        return int(self.rows()[0].split(" ")[1])

    def drag(self, selector: str, pixels: int) -> float:
        """Drags an element to the right, and returns the milliseconds from its end to the new numbers."""
        from selenium.webdriver.common.action_chains import ActionChains
        before, element = self.rows(), self.find(selector)
        self.driver.execute_script("arguments[0].scrollIntoView({block: 'center'})", element)
        ActionChains(self.driver).click_and_hold(element).move_by_offset(pixels, 0).perform()
        self.assertTrue(self.find(".ghost, g.lane[transform]"))  # the bars follow the hand
        self.driver.execute_script("performance.clearMeasures()")
        ActionChains(self.driver).release().perform()
        wait_until(lambda: self.rows() != before, 3)
        return float(self.driver.execute_script("return (performance.getEntriesByName('answer')[0] || {duration: 9e9})"
                                                ".duration"))

    def test_a_drag_changes_what_run_then_answers(self) -> None:
        """A stage and a name of the signals, a bar and a name of the road; the index is the program's over the deck."""
        for selector in ("[data-key='stage-1-2']", "[data-key='offset-3']", "[data-key='road-4']",
                         "#road .name.node-5"):
            before = self.index()
            self.drag(selector, 60)
            self.assertNotEqual(self.index(), before)
            with Session(self.board.deck_text(), 1, PROGRAM) as town:
                self.assertEqual(self.index(), town.index())

    def test_a_drag_goes_as_far_as_the_hand(self) -> None:
        """What is dragged lies where the hand leaves it, by the picture's own scale."""
        svg = "const svg = arguments[0].ownerSVGElement, data = svg.dataset; "
        for selector in ("[data-key='stage-2-2']", "[data-key='road-4']"):
            element = self.find(selector)
            scale = self.driver.execute_script(svg + "return svg.getBoundingClientRect().width / 760 * "
                                               "(data.right - data.left) / data.seconds", element)
            before = float(element.get_attribute("aria-valuenow"))
            self.drag(selector, round(6 * scale))
            self.assertEqual(float(self.find(selector).get_attribute("aria-valuenow")), before + 6)

    def test_it_is_at_hand(self) -> None:
        """From a drag's end to the new numbers: 100 ms for some 20 links, 300 ms for 200, on a free machine."""
        made = subprocess.run([str(PROGRAM), "make", "7", "50"], capture_output=True, text=True, check=True).stdout
        for text, most in ((None, 100), (made, 300)):
            if text:
                self.open(text)
            taken = min(self.drag("[data-key='offset-3']", pixels) for pixels in (30, 40, 50, -30, -40))
            self.assertLess(taken, most * (4 if os.getloadavg()[0] > (os.cpu_count() or 1) / 2 else 1))
        bars = self.driver.find_elements("css selector", "#saturation svg > rect > title")
        self.assertEqual(len(bars), 60)

    def test_a_refused_drag(self) -> None:
        """The sentence stands where the hand was, and the picture is as before; Escape takes it away."""
        from selenium.webdriver.common.action_chains import ActionChains
        from selenium.webdriver.common.keys import Keys
        before = self.index()
        stage = self.find("[data-key='stage-3-2']")
        box = stage.rect
        ActionChains(self.driver).click_and_hold(stage).move_by_offset(-400, 0).release().perform()
        self.assertTrue(wait_until(lambda: self.find("#note").is_displayed()))
        self.assertRegex(self.find("#note").text, r"stage.*intergreen.*green.*\(code 19\)")
        self.assertEqual(self.find("#message").text, self.find("#note").text)
        self.assertLess(abs(self.find("#note").rect["y"] - box["y"]), 60)
        self.assertEqual(self.index(), before)
        self.find("[data-key='stage-3-2']").send_keys(Keys.ESCAPE)
        self.assertFalse(self.find("#note").is_displayed())

    def test_escape_ends_a_drag(self) -> None:
        """What was dragged lies where it was."""
        from selenium.webdriver.common.action_chains import ActionChains
        from selenium.webdriver.common.keys import Keys
        before = self.index()
        ActionChains(self.driver).click_and_hold(self.find("[data-key='stage-3-2']")).move_by_offset(50, 0) \
            .send_keys(Keys.ESCAPE).move_by_offset(20, 0).release().perform()
        time.sleep(0.3)
        self.assertEqual((self.index(), self.board.version), (before, 0))
        self.assertEqual(self.driver.find_elements("css selector", ".ghost"), [])

    def test_certificate_and_start_again(self) -> None:
        """The certificate by its button alone; a change hides it; Start again goes to the deck of the call."""
        first = self.index()
        self.assertFalse(self.find("#sensitivity-part").is_displayed())
        self.find("#certificate").click()
        self.assertTrue(wait_until(lambda: self.find("#sensitivity-part").is_displayed()))
        self.assertIn("INDEX", self.find("#sensitivity").get_attribute("innerHTML"))
        self.drag("[data-key='stage-1-2']", 60)
        self.assertFalse(self.find("#sensitivity-part").is_displayed())
        self.find("#again").click()
        self.assertTrue(wait_until(lambda: self.index() == first))
        self.find("#undo").click()
        self.assertTrue(wait_until(lambda: self.index() != first))

    def test_a_deck_without_steps(self) -> None:
        """No Climb and no Certificate; all else works."""
        lines = [line for line in support.example("arterial.deck").split("\n") if not line.startswith("STEPS")]
        self.open("\n".join(lines))
        self.assertEqual([self.find(f"#{name}").is_enabled() for name in ("climb", "stop", "certificate")], [False] * 3)
        self.drag("[data-key='stage-1-2']", 60)

    def test_markup_is_text(self) -> None:
        """Names and comments with markup are shown as they are."""
        odd = "<img src=x onerror=alert(1)><script>alert(2)</script> & \"q\" \u05d0\u05d1"
        text = support.THREE.replace("Market Street", odd).replace("from Bridge Street", odd).replace("Mill Road", odd)
        self.open("* <script>alert(3)</script>\n" + text)
        self.assertIn("<img src=x", self.find("#town").text)
        self.assertIn("<script>alert(2)</script>", self.find("#links").text)
        self.assertEqual(self.driver.find_elements("css selector", "main script, main img, h1 img"), [])

    def test_a_long_answer_is_told(self) -> None:
        """After five seconds, with Stop; Stop ends it, and the plan is as before."""
        child = self.board._session._child
        assert child is not None
        os.kill(child.process.pid, signal.SIGSTOP)
        self.find("#certificate").click()
        self.assertTrue(wait_until(lambda: "still at work" in self.find("#message").text, 8))
        self.assertTrue(self.find("#stop").is_enabled())
        self.find("#stop").click()
        self.assertTrue(wait_until(lambda: "stopped" in self.find("#message").text))
        self.drag("[data-key='stage-1-2']", 60)

    def test_a_climb_is_stopped_and_gone_on_with(self) -> None:
        """Each step is shown as it comes; stopped, the state is that of a whole step; on, and one step back."""
        made = subprocess.run([str(PROGRAM), "make", "7", "200"], capture_output=True, text=True, check=True).stdout
        self.open(made.replace("STEPS 2000 ", "STEPS 100000 "))
        first = self.index()
        self.find("#climb").click()
        self.assertTrue(wait_until(lambda: len(self.driver.find_elements("css selector", "#took li")) > 2, 20))
        self.find("#stop").click()
        self.assertTrue(wait_until(lambda: "stopped" in self.find("#message").text, 20))
        stopped = self.index()
        self.assertLess(stopped, first)
        with Session(self.board.deck_text(), 1, PROGRAM) as town:
            self.assertEqual(stopped, town.index())
        self.find("#undo").click()
        self.assertTrue(wait_until(lambda: self.index() == first))

    def test_everything_by_keyboard(self) -> None:
        """Tab comes to each button that can be pressed, each stage, each junction's name and each field."""
        from selenium.webdriver.common.action_chains import ActionChains
        from selenium.webdriver.common.keys import Keys
        seen: List[str] = []
        for _ in range(60):
            ActionChains(self.driver).send_keys(Keys.TAB).perform()
            seen.append(self.driver.execute_script("const at = document.activeElement; "
                                                   "return at.id || at.dataset.key"))
        wanted = ["climb", "certificate", "download"] + [f"offset-{node}" for node in range(1, 7)] \
            + [f"stage-{node}-{stage}" for node in range(1, 7) for stage in (1, 2)] \
            + [f"road-{node}" for node in range(1, 7)] + [f"field-{node}-0" for node in range(1, 7)]
        self.assertEqual([name for name in wanted if name not in seen], [])

    def test_the_secret_is_in_no_address(self) -> None:
        """It is taken off the address, and the page works on after a reload."""
        self.assertEqual(self.driver.current_url, f"{self.server.origin}/")
        self.driver.refresh()
        self.assertTrue(wait_until(lambda: bool(self.rows())))

    def test_climb_undo_redo(self) -> None:
        """Lower by hand, climb to LOCAL, one step back, and the deck."""
        first = self.index()
        self.find("#climb").click()
        self.assertTrue(wait_until(lambda: "LOCAL" in self.find("#message").text, 20))
        self.assertLess(self.index(), first)
        self.find("#undo").click()
        self.assertTrue(wait_until(lambda: self.index() == first))
        self.find("#redo").click()
        self.assertTrue(wait_until(lambda: self.index() < first))
        self.find("#download").click()
        path = os.path.join(self.folder.name, "plan.deck")
        self.assertTrue(wait_until(lambda: os.path.exists(path)))
        with open(path, encoding="utf-8") as file:
            self.assertEqual(read_deck(file.read()), read_deck(self.board.deck_text()))

    def test_by_keyboard(self) -> None:
        """Tab to a stage, arrows, Enter; Escape leaves it."""
        from selenium.webdriver.common.keys import Keys
        before = self.index()
        stage = self.find("[data-key='stage-3-2']")
        self.assertEqual(stage.get_attribute("tabindex"), "0")
        self.assertIn("stage 2 of junction 3", stage.get_attribute("aria-label"))
        stage.send_keys(Keys.ARROW_RIGHT, Keys.ARROW_RIGHT, Keys.ESCAPE)
        time.sleep(0.3)
        self.assertEqual(self.index(), before)
        self.find("[data-key='stage-3-2']").send_keys(Keys.ARROW_RIGHT, Keys.ARROW_RIGHT, Keys.ENTER)
        self.assertTrue(wait_until(lambda: self.index() != before))

    def test_typed_seconds(self) -> None:
        """A time that is no whole number of steps is a sentence with the two nearest."""
        from selenium.webdriver.common.keys import Keys
        self.find("[data-key='field-4-0']").send_keys(Keys.CONTROL, "a", Keys.NULL, "3", Keys.ENTER)
        self.assertTrue(wait_until(lambda: "the nearest are 2 and 4 s" in self.find("#message").text))
        self.find("[data-key='field-4-0']").send_keys(Keys.CONTROL, "a", Keys.NULL, "16", Keys.ENTER)
        self.assertTrue(wait_until(lambda: self.index() == 47853157))

    def test_two_tabs(self) -> None:
        """The slower tab is refused in a sentence, and shows the state that is."""
        self.driver.execute_script("window.open(arguments[0])", f"{self.server.origin}/#{self.server.secret}")
        self.driver.switch_to.window(self.driver.window_handles[1])
        self.assertTrue(wait_until(lambda: bool(self.rows())))
        self.drag("[data-key='stage-1-2']", 60)
        quicker = self.index()
        self.driver.switch_to.window(self.driver.window_handles[0])
        self.drag("[data-key='stage-2-2']", 60)
        self.assertTrue(wait_until(lambda: "elsewhere" in self.find("#message").text))
        self.assertEqual(self.index(), quicker)

    def test_green_of_the_pictures_is_go(self) -> None:
        """The bars of the road say when a link can go, as GO does."""
        with Session(self.board.deck_text(), 1, PROGRAM) as town:
            go = town.profile(21).go
        opens = next(place for place, value in enumerate(go) if value and not go[place - 1])
        self.assertIn(f"link 21 can go from {2 * opens} to", self.find("#road").get_attribute("innerHTML"))


if __name__ == "__main__":
    unittest.main()
