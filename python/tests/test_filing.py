"""A filed plan: what `check` finds, with the sums made anew each time."""

import os
import re
import shutil
import subprocess
import tempfile
import unittest
from typing import Callable, Dict, List, Tuple

import support
from sheet_tables import two_junctions, write_tables
from support import PROGRAM, ROOT, needs_program
from transyt.deck import cards_of, read_deck
from transyt.edits import moves
from transyt.faults import Fault
from transyt.filing.checking import Check, Finding
from transyt.filing.commands import FiledReport
from transyt.filing.folder import SUMS, read_filed, sum_of, sums_text
from transyt.filing.writing import Asked, made_files, write_folder
from transyt.program import Program
from transyt.session import Session
from transyt.sheets import All, make_deck, read_sheets

Files = Dict[str, bytes]
Change = Callable[[Files], None]


def put(name: str, old: str, new: str) -> Change:
    """The first text of a file in the place of another."""
    def change(files: Files) -> None:
        text = files[name].decode("utf-8")
        assert old in text, (name, old)
        files[name] = text.replace(old, new, 1).encode("utf-8")

    return change


def swap_figures(files: Files) -> None:
    """Two figures of the page exchanged, raw values and all."""
    text = files["plan.html"].decode("utf-8")
    one, other = re.findall(r'<data value="([0-9]+)" class="FIGURES LINK [0-9]+ DELAY" title="DELAY / 10">([^<]*)<',
                            text)[:2]
    first, second, in_second, in_first = (
        f'<data value="{raw}" class="FIGURES LINK {link} DELAY" title="DELAY / 10">{shown}</data>'
        for (raw, shown), link in ((one, 11), (other, 12), (one, 12), (other, 11)))
    changed = text.replace(first, "\0").replace(second, in_second).replace("\0", in_first)
    files["plan.html"] = changed.encode("utf-8")
    assert files["plan.html"] != text.encode("utf-8")


def swap_shown(place: str) -> Change:
    """What is shown of the first two figures of one place exchanged."""
    def change(files: Files) -> None:
        text = files["plan.html"].decode("utf-8")
        one, other = list(re.finditer(f'class="{re.escape(place)}"[^>]*>([^<]*)<', text))[:2]
        files["plan.html"] = (text[:one.start(1)] + other[1] + text[one.end(1):other.start(1)] + one[1]
                              + text[other.end(1):]).encode("utf-8")

    return change


def swap_labels(files: Files) -> None:
    """The numbers of two links exchanged, so that each row has the other's figures."""
    text = files["plan.html"].decode("utf-8")
    changed = text.replace("<td>11</td>", "\0").replace("<td>12</td>", "<td>11</td>").replace("\0", "<td>12</td>")
    assert changed != text
    files["plan.html"] = changed.encode("utf-8")


@needs_program
class Filing(unittest.TestCase):
    """The town of the sheets' tests, climbed until LOCAL and filed."""

    files: Files

    @classmethod
    def setUpClass(cls) -> None:
        cls.folder = tempfile.mkdtemp()
        cls.addClassCleanup(shutil.rmtree, cls.folder)
        cls.sheets = write_tables(os.path.join(cls.folder, "sheets"), two_junctions())
        cls.program = Program(PROGRAM)
        with Session(make_deck(read_sheets(cls.sheets), All()).deck, 1, PROGRAM) as town:
            cls.unclimbed = town.deck()
            town.climb().run()
            cls.deck = town.deck()
        cls.files = made_files(cls.deck, cls.program, Asked("Two", "A. Engineer", "2026-04-02", cls.sheets))

    def checked(self, files: Files, sums: bool = True, **how: bool) -> List[Finding]:
        """The findings of a folder with these files, with its sums made anew."""
        path = os.path.join(tempfile.mkdtemp(dir=self.folder), "filed")
        if sums:
            rest = {name: data for name, data in files.items() if name != SUMS}
            files = {**rest, SUMS: sums_text(rest).encode("ascii", "replace")}
        write_folder(path, files)
        return Check(path, self.program, **how).run()

    def failing(self, files: Files, sums: bool = True) -> str:
        """What doesn't hold, in sentences."""
        return "; ".join(finding.sentence for finding in self.checked(files, sums) if not finding.holds)

    def test_it_holds(self) -> None:
        """As it was filed."""
        self.assertEqual(self.failing(self.files), "")

    def test_each_change_is_found(self) -> None:
        """A sentence that names the file; sums made anew each time."""
        slipped = "an edit after END", self.slipped(), "after END stands OFFSET 2 5"
        for what, change, sentence in [*self.changes_of_files(), slipped]:
            with self.subTest(what):
                files = dict(self.files)
                change(files)
                self.assertIn(sentence, self.failing(files))

    def slipped(self) -> Change:
        """An edit after END, with report, page and controller's sheet made to fit."""
        edit = "OFFSET 2 5\nTIMING\n"
        with Session(self.deck, 1, PROGRAM) as town:
            town.offset(2, 5)
            moved = town.deck()
        fitting = made_files(moved, self.program, Asked("Two", "A. Engineer", "2026-04-02", self.sheets, True))
        with_edit = self.files["plan.deck"].replace(b"END\nTIMING\n", b"END\n" + edit.encode())
        slipped: Files = {**fitting, "plan.deck": with_edit, "certificate": self.files["certificate"]}
        slipped["plan.report"] = self.program.ask(["run"], slipped["plan.deck"].decode()).text.encode()
        return lambda files: files.update(slipped)

    def changes_of_files(self) -> List[Tuple[str, Change, str]]:
        """What is changed, how, and what the sentence says of it."""
        line = next(line for line in self.files["plan.report"].decode().split("\n") if line.startswith("MOVE 3 "))
        at = re.search(r"AT ([0-9]+)", self.files["plan.report"].decode())
        assert at is not None
        return [
            ("a byte of plan.deck", put("plan.deck", "LINK 11 1 442", "LINK 11 1 443"),
             "sheets give another deck: LINK 11"),
            ("the title", put("plan.deck", "* TITLE Two", "* TITLE Too"), "plan.html"),
            ("a byte of plan.report", put("plan.report", "TOTAL DELAY", "TOTAL  DELAY"), "plan.report, line"),
            ("an AT", put("plan.report", at[0], f"AT {int(at[1]) + 1}"), "plan.report, line"),
            ("a MOVE", put("plan.report", line, line[:-1] + str((int(line[-1]) + 1) % 10) if line[-1].isdigit() else
                           line.replace("BARRED", "INDEX 7")), "plan.report, line"),
            ("a byte of certificate", put("certificate", "CYCLE 80", "CYCLE 82"), "certificate, line"),
            ("audit's answer", put("certificate", "* AUDIT YES", "* AUDIT yes"), "certificate, line 1"),
            ("audit's word", put("certificate", "* AUDIT YES", "* AUDIR YES"), "certificate, line 1"),
            ("a time of the controllers", put("controller.csv", "1,First,1,road,", "1,First,1,main,"),
             "controller.csv, line 2"),
            ("a byte of the page", put("plan.html", "Certificate", "certificate"), "plan.html"),
            ("two figures", swap_figures, "plan.html: FIGURES LINK"),
            ("a count", put("sheets/counts.csv", "07:45,15,100", "07:45,15,101"), "the sheets aren't those"),
            ("a count with its sum", recount, "the sheets give another deck"),
            ("a file more", lambda files: files.update({"notes": b"x"}), "notes is no file"),
            ("a sheet more", lambda files: files.update({"sheets/ways2.csv": b"x"}), "ways2.csv"),
            ("a file less", lambda files: files.pop("controller.csv") and None, "controller.csv isn't there"),
            ("a sheet less", lambda files: files.pop("sheets/gives.csv") and None, "gives.csv"),
        ]

    def test_an_edit_at_the_very_end(self) -> None:
        """After the last command, with the report made to fit."""
        files = dict(self.files)
        files["plan.deck"] += b"OFFSET 2 5\n"
        files["plan.report"] = self.program.ask(["run"], files["plan.deck"].decode()).text.encode()
        self.assertIn("after END stands OFFSET 2 5", self.failing(files))

    def test_a_report_that_goes_on(self) -> None:
        """Past its last answer."""
        lines = self.files["plan.report"].decode().split("\n")[:-1]
        FiledReport(self.deck, lines)
        for more in ([*lines, "INDEX 1"], lines[:-1], ["ACCEPTED 1 1", *lines[1:]]):
            with self.assertRaises(Fault):
                FiledReport(self.deck, more)

    def test_lines_of_the_sums(self) -> None:
        """One more, or another order, is found."""
        for change in (lambda data: data + b"0  x\n", lambda data: b"\n".join(sorted(data.split(b"\n"))[1:]) + b"\n"):
            files = {**self.files, SUMS: change(self.files[SUMS])}
            self.assertIn("SHA256SUMS has lines of its own", self.failing(files, sums=False))

    def test_a_sum(self) -> None:
        """Without the sums made anew the file itself is named."""
        files = dict(self.files)
        put("controller.csv", "First", "Furst")(files)
        self.assertIn("SHA256SUMS hasn't the sum of controller.csv", self.failing(files, sums=False))

    def test_a_link_in_a_files_place(self) -> None:
        """No link is followed."""
        path = os.path.join(tempfile.mkdtemp(dir=self.folder), "filed")
        write_folder(path, self.files)
        os.rename(os.path.join(path, "plan.report"), os.path.join(self.folder, "elsewhere"))
        os.symlink(os.path.join(self.folder, "elsewhere"), os.path.join(path, "plan.report"))
        findings = Check(path, self.program).run()
        self.assertEqual([finding.holds for finding in findings], [False])
        self.assertEqual(findings[0].sentence, "plan.report is no plain file")

    def test_another_program(self) -> None:
        """It is told with both versions, and fails where that is asked for."""
        files = dict(self.files)
        put("plan.deck", "* PROGRAM-SUM ", "* PROGRAM-SUM 0")(files)
        told = [finding for finding in self.checked(files) if "the program is another one" in finding.sentence]
        self.assertEqual([finding.holds for finding in told], [True])
        told = [finding for finding in self.checked(files, same_program=True) if "another one" in finding.sentence]
        self.assertEqual([finding.holds for finding in told], [False])

    def of_another_version(self) -> Files:
        """The folder as another version of the package would have filed it."""
        files = dict(self.files)
        old = sum_of(files["plan.deck"])
        put("plan.deck", "* PLAN plan ", "* PLAN plan 0.")(files)
        put("plan.html", "<bdi>plan ", "<bdi>plan 0.")(files)
        put("plan.html", old, sum_of(files["plan.deck"]))(files)
        return files

    def test_another_version_of_the_package(self) -> None:
        """It is told; text and pictures aren't compared then, but each figure is."""
        files = self.of_another_version()
        put("plan.html", "<h2>Signals</h2>", "<h2>The signals</h2>")(files)
        findings = self.checked(files)
        self.assertEqual([finding.sentence for finding in findings if not finding.holds], [])
        told = " ".join(finding.sentence for finding in findings)
        self.assertRegex(told, r"\./plan is another one: plan [0-9.]+, and plan 0\.[0-9.]+ was filed")
        self.assertIn("other text and pictures, by plan 0.", told)

    def test_figures_behind_another_version(self) -> None:
        """Two figures exchanged, of two places or of one, and two rows' labels."""
        for what, change in (("two delays", swap_figures), ("a queue", swap_shown("FIGURES LINK 11 QUEUE")),
                             ("an AT", swap_shown("TIMING NODE 1 STAGE 2 AT")), ("labels", swap_labels)):
            with self.subTest(what):
                files = self.of_another_version()
                change(files)
                self.assertIn("plan.html: ", self.failing(files))

    def test_lines_behind_another_version(self) -> None:
        """Lines of plan.deck that the page has otherwise; the same with its sum on the page made to fit."""
        for line, other in (("TITLE Two", "TITLE Too"), ("BY A.", "BY B."), ("DATE 2026", "DATE 2027"),
                            ("PLAN plan 0.", "PLAN plan 2."), ("PROGRAM transyt", "PROGRAM transit")):
            with self.subTest(line):
                files = self.of_another_version()
                old = sum_of(files["plan.deck"])
                put("plan.deck", f"* {line}", f"* {other}")(files)
                self.assertIn("plan.html: ", self.failing(files))
                put("plan.html", old, sum_of(files["plan.deck"]))(files)
                self.assertIn("belongs, by plan.deck", self.failing(files))

    def test_a_program_that_says_nothing(self) -> None:
        """It is told in a sentence, and nothing else is asked of it."""
        path = os.path.join(tempfile.mkdtemp(dir=self.folder), "filed")
        write_folder(path, self.files)
        silent = shutil.which("true") or "/bin/true"
        last = Check(path, Program(silent)).run()[-1]
        self.assertEqual((last.holds, last.sentence), (False, f"the program {silent} doesn't tell its version"))

    def test_an_unfinished_plan(self) -> None:
        """Refused; filed with --unfinished, which its deck and page say, and checked as such."""
        asked = Asked("Two", "A. Engineer", "2026-04-02", self.sheets)
        with self.assertRaises(Fault) as caught:
            made_files(self.unclimbed, self.program, asked)
        self.assertIn("AUDIT NO", str(caught.exception))
        files = made_files(self.unclimbed, self.program, Asked("Two", "A. Engineer", "2026-04-02", self.sheets, True))
        self.assertFalse(read_filed(files["plan.deck"].decode()).finished)
        self.assertIn(b"UNFINISHED", files["plan.html"])
        self.assertEqual(self.failing(files), "")
        put("plan.deck", "* STATUS UNFINISHED: a listed move lowers the index", "* STATUS finished")(files)
        self.assertIn("the plan is filed as finished", self.failing(files))

    def test_by_the_witness(self) -> None:
        """--again needs no program, and says the same."""
        path = os.path.join(tempfile.mkdtemp(dir=self.folder), "filed")
        write_folder(path, self.files)
        self.assertEqual([finding.sentence for finding in Check(path, None, again=True).run() if not finding.holds], [])

    def command(self, *words: str, text: str = "") -> "subprocess.CompletedProcess[str]":
        """The command's run."""
        return subprocess.run([os.path.join(ROOT, "plan"), *words], input=text, capture_output=True, text=True,
                              timeout=120, check=False, env={**os.environ, "TRANSYT": str(PROGRAM)})

    def test_the_commands(self) -> None:
        """Filed, and checked with and without the program; the last line is HOLDS with the sum that the page has."""
        path = os.path.join(tempfile.mkdtemp(dir=self.folder), "filed")
        words = ["file", "-", "-o", path, "--title", "T", "--by", "A", "--date", "2026-04-02"]
        done = self.command(*words, "--sheets", self.sheets, text=str(self.deck))
        self.assertEqual(done.returncode, 0, done.stderr)
        again = self.command(*words, text=str(self.deck))
        self.assertEqual((again.returncode, "isn't an empty folder" in again.stderr), (2, True))
        with open(os.path.join(path, "plan.html"), encoding="utf-8") as file:
            page = file.read()
        for how in ([], ["--same-program"], ["--again"]):
            done = self.command("check", path, *how)
            before, last = done.stdout.strip().split("\n")[-2:]
            self.assertIn("a folder made anew as a whole isn't found here", before)
            self.assertEqual((done.returncode, last[:6]), (0, "HOLDS "), done.stdout)
            self.assertIn(last[6:], page)
        self.assertIn(f"{len(moves(self.deck))} moves are worked out from nothing", done.stderr)
        self.assertIn("audit: done", done.stderr)
        with open(os.path.join(path, "plan.deck"), "ab") as deck:
            deck.write(b"OFFSET 1 1\n")
        done = self.command("check", path, "--again")
        self.assertEqual((done.returncode, done.stdout.strip().split("\n")[-1]), (1, "DOES NOT HOLD"))

    def test_sheets_that_give_another_deck(self) -> None:
        """Nothing is filed that wouldn't hold."""
        path = os.path.join(tempfile.mkdtemp(dir=self.folder), "filed")
        text = str(self.deck).replace("LINK 11 1 442", "LINK 11 1 443")
        with Session(text, 1, PROGRAM) as town:
            town.climb().run()
            text = str(town.deck())
        done = self.command("file", "-", "-o", path, "--title", "T", "--by", "A", "--date", "2026-04-02", "--sheets",
                            self.sheets, text=text)
        self.assertEqual(done.returncode, 2)
        self.assertIn("the sheets give another deck: LINK 11", done.stderr)
        self.assertEqual(os.listdir(os.path.dirname(path)), [])

    def test_controllers_of_another_version(self) -> None:
        """Its numbers are compared, its heads aren't."""
        files = dict(self.files)
        put("plan.deck", "* PLAN plan ", "* PLAN plan 0.")(files)
        put("controller.csv", "intergreen begins (s)", "intergreen begins, s")(files)
        told = [finding for finding in self.checked(files) if "controller.csv" in finding.sentence]
        self.assertEqual([finding.holds for finding in told], [True])
        number = files["controller.csv"].decode().split("\n")[1].split(",")[5]
        put("controller.csv", f",{number},", f",{number}1,")(files)
        told = [finding for finding in self.checked(files) if "controller.csv" in finding.sentence]
        self.assertEqual([finding.holds for finding in told], [False])

    def test_what_cant_be_filed(self) -> None:
        """No title, a date that is none, a direction mark, a deck without STEPS, a folder that isn't empty."""
        for title, by, date in (("", "A", "2026-04-02"), ("T", "A\u202e", "2026-04-02"), ("T", "A", "2.4.2026"),
                                ("T\n* BY B", "A", "2026-04-02")):
            with self.assertRaises(Fault):
                made_files(self.deck, self.program, Asked(title, by, date))
        bare = read_deck(str(self.deck).replace(next(line for line in str(self.deck).split("\n")
                                                     if line.startswith("STEPS")) + "\n", ""))
        with self.assertRaises(Fault):
            made_files(bare, self.program, Asked("T", "A", "2026-04-02", None, True))
        with self.assertRaises(Fault):
            write_folder(self.folder, self.files)

    def test_a_deck_of_odd_names(self) -> None:
        """Markup, quotes, right-to-left text and 4,000 letters are shown as text, and the plan holds."""
        odd = support.THREE.replace("Mill Road, morning", "<script>alert('x')</script> & \"Mill\" \u05d3\u05e8\u05da")
        odd = odd.replace("* Three junctions in a road.", "* <b>" + "x" * 3_990)
        with Session(odd, 1, PROGRAM) as town:
            town.climb().run()
            files = made_files(town.deck(), self.program, Asked("<i>T</i>", "A & B", "2026-04-02"))
        page = files["plan.html"].decode("utf-8")
        self.assertNotIn("<script>alert", page)
        self.assertNotIn("<i>T", page)
        self.assertIn("&lt;i&gt;T&lt;/i&gt;", page)
        self.assertEqual(self.failing(files), "")
        self.assertIn("x" * 3_990, cards_of(files["plan.deck"].decode("utf-8")))


def recount(files: Files) -> None:
    """Another count, with its sum in plan.deck."""
    old = sum_of(files["sheets/counts.csv"])
    put("sheets/counts.csv", "07:45,15,100", "07:45,15,140")(files)
    put("plan.deck", old, sum_of(files["sheets/counts.csv"]))(files)


if __name__ == "__main__":
    unittest.main()
