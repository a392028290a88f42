"""Filing a plan: the folder as it is written."""

import os
import shutil
import tempfile
from dataclasses import dataclass, replace
from typing import Dict, List, Optional

from .. import VERSION
from ..deck import Deck, read_deck
from ..faults import Fault
from ..names import Tell, ignore
from ..page import page
from ..program import BUILT, SCRIPT, Program
from ..html import text
from .commands import FiledReport, commands_of
from .controller import controller_sheet
from .folder import (CERTIFICATE, CONTROLLER, DECK, PAGE, REPORT, SHEETS, SUMS, Filed, judged, sheet_files, sum_of,
                     sums_text, without_filing)


@dataclass(frozen=True)
class Asked:
    """What a filing is asked with: title, name, date, the sheets' folder, whether an unfinished plan is filed too."""

    title: str
    by: str
    date: str
    sheets: Optional[str] = None
    unfinished: bool = False


def plan_name() -> str:
    """What made a filing, besides the program."""
    return f"plan {VERSION}"


def program_sum(program: Program) -> str:
    """The sum of the program's file; of the script that builds it, the sum of what it built."""
    path = shutil.which(program.path) or program.path
    with open(BUILT if os.path.realpath(path) == os.path.realpath(SCRIPT) else path, "rb") as file:
        return sum_of(file.read())


def filed_deck(deck: Deck, filed: Filed) -> str:
    """The text of plan.deck: what the plan says of itself, the deck with its names, END and the commands."""
    whole = replace(deck, comments=(*filed.lines(), *without_filing(deck).comments))
    return str(whole) + "".join(f"{command}\n" for command in commands_of(deck))


def filed_certificate(verdict: List[str], deck: Deck, certificate: str) -> str:
    """The text of certificate: audit's answer as a comment, the deck text, the certificate."""
    return "".join(f"* {line}\n" for line in verdict) + str(deck.bare()) + certificate


def filed_page(report: FiledReport, filed: Filed, deck_sum: str) -> str:
    """The page of a filed plan: what it says of itself at the top, the sum of its deck at the foot."""
    mark = "" if filed.finished else '<p class="mark">UNFINISHED: a listed move lowers the index.</p>'
    top = f"<p>{text(filed.by)}, {text(filed.date)}</p>{mark}"
    foot = (f'<p class="small">SHA-256 of plan.deck: <code>{deck_sum}</code>. Made by {text(filed.program)} and '
            f"{text(filed.plan)}. Who checks the folder compares this sum with that of the paper that was signed: a "
            "folder that was made anew as a whole only the paper shows.</p>")
    return page(report, top=top, foot=foot, title=filed.title)


def made_files(deck: Deck, program: Program, asked: Asked) -> Dict[str, bytes]:
    """The files of a filing, once audit has judged the plan."""
    judged(asked.title, asked.by, asked.date)
    if deck.climb_plan is None:
        raise Fault("the deck has no STEPS card, and so no certificate: a plan is filed with one")
    bare = str(deck.bare())
    certificate = "".join(line + "\n" for line in program.answer(["run"], bare + "CERT\n")[1:])
    verdict = program.answer(["audit"], bare + certificate)
    finished = verdict[0].startswith("AUDIT YES")
    if not finished and not asked.unfinished:
        raise Fault(f"audit says {verdict[0]} of this plan: climb until LOCAL, or file it with --unfinished")
    sheets = sheet_files(asked.sheets)
    filed = Filed(asked.title, asked.by, asked.date, finished, program.version(), program_sum(program), plan_name(),
                  {name: sum_of(data) for name, data in sheets.items()})
    deck_text = filed_deck(deck, filed)
    lines = program.answer(["run"], deck_text)
    report = FiledReport(read_deck(deck_text), lines)
    files = {DECK: deck_text, REPORT: "".join(line + "\n" for line in lines),
             CERTIFICATE: filed_certificate(verdict, deck, certificate),
             CONTROLLER: controller_sheet(report.deck(), report.timing()),
             PAGE: filed_page(report, filed, sum_of(deck_text.encode("utf-8")))}
    whole = {name: data.encode("utf-8") for name, data in files.items()}
    whole.update({f"{SHEETS}/{name}": data for name, data in sheets.items()})
    whole[SUMS] = sums_text(whole).encode("ascii")
    return whole


def write_folder(path: str, files: Dict[str, bytes], judge: Tell = ignore) -> None:
    """Writes files into a new folder beside, and renames it at the end; a folder that isn't empty is refused.

    `judge` is given the new folder before it is renamed: where it raises, nothing is left.
    """
    if os.path.lexists(path) and not (os.path.isdir(path) and not os.path.islink(path) and not os.listdir(path)):
        raise Fault(f"{path} is there already, and isn't an empty folder")
    parent = os.path.dirname(os.path.abspath(path))
    beside = tempfile.mkdtemp(prefix=f".{os.path.basename(path)}.", dir=parent)
    try:
        for name, data in files.items():
            place = os.path.join(beside, name)
            os.makedirs(os.path.dirname(place), exist_ok=True)
            with open(place, "wb") as file:
                file.write(data)
        os.chmod(beside, 0o755)
        judge(beside)
        os.rename(beside, path)
    except BaseException:
        shutil.rmtree(beside, ignore_errors=True)
        raise
