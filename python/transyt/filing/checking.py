"""Checking a filed plan: a line a thing, and whether all of it holds.

Nothing of the folder is run as a command, and no path in it leads out of it. What can't be found here: a folder that
was made anew as a whole; only the sum on the signed paper shows that.
"""

import csv
import io
import os
from dataclasses import dataclass, replace
from typing import Dict, List, Mapping, Optional, Sequence, Tuple

from ..deck import Deck, cards_of, has_end, read_deck
from ..faults import Fault
from ..names import Tell, ignore
from ..program import Program, Silent
from ..sheets import make_deck, read_sheets
from ..sheets.hour import read_window
from ..text import decoded, lines_of
from .commands import FiledReport, commands_of
from .controller import controller_sheet
from .folder import (CERTIFICATE, CONTROLLER, DECK, FILES, PAGE, REPORT, SHEETS, SUMS, Filed, not_plain, read_filed,
                     read_folder, sum_of, sums_text)
from .shown import wrong_shown
from .witness import Witness
from .writing import filed_certificate, filed_page, plan_name, program_sum


@dataclass(frozen=True)
class Finding:
    """One thing that was checked: whether it holds, and what is said of it."""

    holds: bool
    sentence: str


class Check:
    """The check of one folder."""

    def __init__(self, path: str, program: Optional[Program], same_program: bool = False, again: bool = False,
                 follow: Tell = ignore) -> None:
        if not os.path.isdir(path):
            raise Fault(f"{path} is no folder")
        self.path, self.program, self.same_program = path, program, same_program
        self.witness = Witness(follow) if again else None
        self.files, self.odd = read_folder(path)
        self.findings: List[Finding] = []

    def note(self, holds: bool, holding: str, failing: str = "") -> bool:
        """Notes a finding, with its sentence for either case."""
        self.findings.append(Finding(holds, holding if holds else failing or holding))
        return holds

    def run(self) -> List[Finding]:
        """All findings; what stands on something that doesn't hold is left out."""
        if not self.check_files():
            return self.findings
        try:
            text = self.text(DECK)
            filed, deck = read_filed(text), read_deck(self.files[DECK])
        except Fault as fault:
            self.note(False, "", f"{DECK} can't be read: {fault}")
            return self.findings
        if not self.check_commands(text, deck):
            return self.findings
        self.check_sheets(filed, deck)
        report = self.check_report(deck) if self.check_maker(filed) else None
        if report:
            self.check_certificate(filed, deck, report)
            self.check_controller(report, filed)
            self.check_page(report, filed)
        return self.findings

    def text(self, name: str) -> str:
        """The text of a file."""
        return decoded(self.files[name])

    def check_files(self) -> bool:
        """The folder has exactly the files of a filing, all of them plain, with the sums that SHA256SUMS tells."""
        faults = list(self.odd) + [f"{name} isn't there" for name in (*FILES, SUMS)
                                   if name not in self.files and not_plain(name) not in self.odd]
        self.note(not faults, f"the folder has the {len(self.files)} files of a filed plan", "; ".join(faults))
        if faults:
            return False
        told = self.files.pop(SUMS)
        wanted = sums_text(self.files).encode("ascii", "replace")
        differ = [line.split("  ", 1)[1] for line in wanted.decode().split("\n")[:-1]
                  if line not in told.decode("utf-8", "replace").split("\n")]
        return self.note(told == wanted, f"{SUMS} has the sums of all files",
                         f"{SUMS} hasn't the sum of {', '.join(differ)}" if differ else f"{SUMS} has lines of its own")

    def check_commands(self, text: str, deck: Deck) -> bool:
        """After END stand exactly the commands of a filing, and no edit."""
        after = lines_of(text[len(cards_of(text)):])
        wanted = commands_of(deck)
        odd = next((line for line, right in zip(after, [*wanted, *[""] * len(after)]) if line != right), None)
        sentence = f"after END stands {odd}, where a filed plan has another command" if odd is not None else \
            f"after END stand {len(after)} commands, and a filed plan has {len(wanted)}"
        return self.note(has_end(text) and after == wanted, "after END stand the commands of a filed plan, and no edit",
                         sentence)

    def check_maker(self, filed: Filed) -> bool:
        """The program and the package are those that made the filing, or others that are told; whether one answers."""
        if filed.plan != plan_name():
            self.note(True, f"./plan is another one: {plan_name()}, and {filed.plan} was filed")
        if self.program is None:
            return self.note(True, "checked again without the program, by examples/check")
        try:
            version, total = self.program.version(), program_sum(self.program)
        except Silent as fault:
            return self.note(False, "", str(fault))
        if (version, total) == (filed.program, filed.program_sum):
            return self.note(True, f"the program is the one that was filed: {version}")
        self.note(not self.same_program, f"the program is another one: {version} ({total[:16]}..), and "
                                         f"{filed.program} ({filed.program_sum[:16]}..) was filed")
        return True

    def check_report(self, deck: Deck) -> Optional[FiledReport]:
        """plan.report is the answer to plan.deck, to the byte."""
        found = self.text(REPORT)
        answer = self.answer(["run"], self.text(DECK))
        place = first_difference(found, answer)
        if not self.note(found == answer, f"{REPORT} is the answer to {DECK}", f"{REPORT}, line {place}: the answer to "
                         f"{DECK} is another"):
            return None
        try:
            return FiledReport(deck, lines_of(found))
        except Fault as fault:
            self.note(False, "", f"{REPORT}: {fault}")
            return None

    def answer(self, words: Sequence[str], text: str) -> str:
        """The answer to words and an input, by the program or by the witness."""
        if self.program is not None:
            return self.program.ask(words, text).text
        assert self.witness is not None
        return self.witness.answer(words, text)

    def check_certificate(self, filed: Filed, deck: Deck, report: FiledReport) -> None:
        """certificate is deck text and CERT of these cards, to the byte, and audit says now what is filed."""
        certificate = report.text_of("CERT")
        verdict = lines_of(self.answer(["audit"], str(deck.bare()) + certificate))
        wanted = filed_certificate(verdict, deck, certificate)
        found = self.text(CERTIFICATE)
        self.note(found == wanted, f"{CERTIFICATE} is that of {DECK}", f"{CERTIFICATE}, line "
                  f"{first_difference(found, wanted)}: it isn't that of {DECK}")
        said = verdict[0] if verdict else "nothing"
        right = said.startswith("AUDIT YES") if filed.finished else said.startswith("AUDIT NO")
        self.note(right, f"audit says {said}", f"audit says {said}, and the plan is filed as "
                  f"{'finished' if filed.finished else 'unfinished'}")

    def check_controller(self, report: FiledReport, filed: Filed) -> None:
        """The controller's sheet is that of TIMING; of one that another version of the package made each number is."""
        found, wanted = self.text(CONTROLLER), controller_sheet(report.deck(), report.timing())
        if found != wanted and filed.plan != plan_name() and numbers_of(found) == numbers_of(wanted):
            self.note(True, f"{CONTROLLER} has the numbers of TIMING; its text, by {filed.plan}, wasn't compared")
            return
        self.note(found == wanted, f"{CONTROLLER} is that of TIMING", f"{CONTROLLER}, line "
                  f"{first_difference(found, wanted)}: TIMING gives another")

    def check_page(self, report: FiledReport, filed: Filed) -> None:
        """The page is made again and compared; of another version of the package each figure is, at its own place, and
        what comes out of the deck: title, names, date, row labels, sum."""
        found, wanted = self.text(PAGE), filed_page(report, filed, sum_of(self.files[DECK]))
        if found == wanted:
            self.note(True, f"{PAGE} is the page of {REPORT}")
            return
        wrong = wrong_shown(found, wanted)
        if wrong or filed.plan == plan_name():
            self.note(False, "", f"{PAGE}: {wrong}" if wrong else
                      f"{PAGE}, line {first_difference(found, wanted)}: it isn't the page of {REPORT}")
        else:
            self.note(True, f"{PAGE} has the figures of {REPORT} and the names of {DECK}; other text and pictures, by "
                      f"{filed.plan}, weren't compared")

    def check_sheets(self, filed: Filed, deck: Deck) -> None:
        """The sheets are those that were filed, and the deck is what they give."""
        there = {name[len(SHEETS) + 1:]: sum_of(data) for name, data in self.files.items()
                 if name.startswith(SHEETS + "/")}
        odd = {name for name, _ in set(there.items()) ^ set(filed.sheets.items())}
        if not self.note(not odd, f"{len(there)} sheets are those that {DECK} names",
                         f"the sheets aren't those that {DECK} names: {', '.join(sorted(odd))}"):
            return
        if not there:
            self.note(True, "no sheets are filed, so the flows are as they were typed")
            return
        try:
            told = differences(deck, self.deck_of_sheets(deck, there))
        except Fault as fault:
            self.note(False, "", f"the sheets can't be read: {lines_of(str(fault))[0]}")
            return
        wrong = [sentence for is_wrong, sentence in told if is_wrong]
        also = "".join(f"; {sentence}" for is_wrong, sentence in told if not is_wrong)
        self.note(not wrong, f"the deck is what the sheets give for {deck.names.sheets}{also}",
                  f"the sheets give another deck: {wrong[0] if wrong else ''}")

    def deck_of_sheets(self, deck: Deck, there: Mapping[str, str]) -> Deck:
        """The deck that the filed sheets give for the filed window."""
        words = (deck.names.sheets or "").split(" ")
        if len(words) != 4 or words[0] != "--from" or words[2] != "--for" or not words[3].isdecimal():
            raise Fault(f"{DECK} has no line * SHEETS --from HH:MM --for MINUTES")
        folder = os.path.join(self.path, SHEETS)
        alone = next(iter(there)) if len(there) == 1 else ""
        path = os.path.join(folder, alone) if alone.endswith(".xlsx") else folder
        return make_deck(read_sheets(path), read_window(words[1], int(words[3]))).deck


def numbers_of(sheet: str) -> List[List[str]]:
    """The rows of a controller's sheet without their heads and names."""
    return [row[:1] + row[2:3] + row[4:] for row in list(csv.reader(io.StringIO(sheet)))[1:]]


def hold(path: str, program: Program) -> None:
    """Raises where a folder doesn't hold that is about to be filed."""
    wrong = [finding.sentence for finding in Check(path, program).run() if not finding.holds]
    if wrong:
        raise Fault(f"nothing is filed, since it wouldn't hold: {'; '.join(wrong)}")


def differences(deck: Deck, sheets: Deck) -> List[Tuple[bool, str]]:
    """What differs between a deck and that of its sheets, but offsets and changes: whether it is wrong; a sentence."""
    told: List[Tuple[bool, str]] = []
    one, other = deck.frame, sheets.frame
    if one.cycle * other.step_count != other.cycle * one.step_count:
        told.append((True, "a step isn't as long"))
    if replace(one, cycle=0, step_count=0) != replace(other, cycle=0, step_count=0):
        told.append((True, "the CYCLE card differs in more than cycle and steps"))
    if (one.cycle, one.step_count) != (other.cycle, other.step_count):
        told.append((False, f"the cycle is {one.cycle} s in {one.step_count} steps, and {other.cycle} in "
                            f"{other.step_count} in the sheets"))
    if deck.climb_plan != sheets.climb_plan:
        told.append((False, f"STEPS is {deck.climb_plan}, and {sheets.climb_plan} in the sheets"))
    for kind, parts, others in (("NODE", nodes_of(deck), nodes_of(sheets)), ("LINK", links_of(deck), links_of(sheets))):
        for number in sorted({*parts, *others}):
            if parts.get(number) != others.get(number):
                told.append((True, f"{kind} {number} differs"))
    return told


def nodes_of(deck: Deck) -> Dict[int, object]:
    """The nodes without offsets and changes."""
    return {node.number: tuple((stage.intergreen, stage.least) for stage in node.stages) for node in deck.nodes}


def links_of(deck: Deck) -> Dict[int, object]:
    """The links with their feeds and rules."""
    return {link.number: link for link in deck.links}


def first_difference(found: str, wanted: str) -> int:
    """The number of the first line in which two texts differ."""
    one, other = found.split("\n"), wanted.split("\n")
    return next((place for place, (a, b) in enumerate(zip(one, other), 1) if a != b), min(len(one), len(other)))

