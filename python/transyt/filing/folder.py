"""What a filed folder has: its files, their sums, and the first comments of its deck."""

import hashlib
import os
import re
from dataclasses import dataclass, replace
from typing import Dict, List, Mapping, Optional, Tuple

from ..deck import Deck, cards_of
from ..faults import Fault
from ..text import lines_of, name_fault, rest_of, words_of

DECK, REPORT, CERTIFICATE, CONTROLLER, PAGE, SHEETS, SUMS = (
    "plan.deck", "plan.report", "certificate", "controller.csv", "plan.html", "sheets", "SHA256SUMS")
FILES = (DECK, REPORT, CERTIFICATE, CONTROLLER, PAGE)
DATE = re.compile(r"[0-9]{4}-[0-9]{2}-[0-9]{2}")
# The lines above a filed deck's cards: each word of them once, in this order; SHEET once for each sheet.
WORDS = ("TITLE", "BY", "DATE", "STATUS", "PROGRAM", "PROGRAM-SUM", "PLAN", "SHEET")


def sum_of(data: bytes) -> str:
    """The SHA-256 of bytes, as hexadecimal digits."""
    return hashlib.sha256(data).hexdigest()


@dataclass(frozen=True)
class Filed:
    """What a filed plan says of itself: title, name, date, whether it is finished, what made it, its sheets' sums."""

    title: str
    by: str
    date: str
    finished: bool
    program: str
    program_sum: str
    plan: str
    sheets: Mapping[str, str]

    def lines(self) -> List[str]:
        """The comment lines."""
        status = "finished" if self.finished else "UNFINISHED: a listed move lowers the index"
        told = (self.title, self.by, self.date, status, self.program, self.program_sum, self.plan)
        lines = [f"* {word} {what}" for word, what in zip(WORDS, told)]
        return lines + [f"* SHEET {sum_text} {name}" for name, sum_text in sorted(self.sheets.items())]


def read_filed(text: str) -> Filed:
    """What the first comments of a filed deck say."""
    found: Dict[str, str] = {}
    sheets: Dict[str, str] = {}
    for line in lines_of(cards_of(text)):
        words = words_of(line)
        if words[:1] != ["*"] or len(words) < 2 or words[1] not in WORDS:
            continue
        if words[1] == "SHEET" and len(words) >= 4:
            sheets[rest_of(line, 3)] = words[2]
        elif words[1] in found:
            raise Fault(f"{DECK} has two lines * {words[1]}")
        else:
            found[words[1]] = rest_of(line, 2)
    for word in WORDS[:-1]:
        if word not in found:
            raise Fault(f"{DECK} has no line * {word}")
    return Filed(found["TITLE"], found["BY"], found["DATE"], found["STATUS"] == "finished", found["PROGRAM"],
                 found["PROGRAM-SUM"], found["PLAN"], sheets)


def judged(title: str, by: str, date: str) -> None:
    """Raises where title, name or date can't stand on their lines."""
    for option, what, before in (("--title", title, "* TITLE "), ("--by", by, "* BY ")):
        fault = name_fault(what, before) if what.strip(" \t") else "it is empty"
        if fault:
            raise Fault(f"{option}: {fault}")
    if not DATE.fullmatch(date):
        raise Fault(f"--date {date}: a date is YYYY-MM-DD")


def without_filing(deck: Deck) -> Deck:
    """A deck without the comments of an earlier filing."""
    kept = tuple(line for line in deck.comments
                 if words_of(line)[:1] != ["*"] or words_of(line)[1:2] == [] or words_of(line)[1] not in WORDS)
    return replace(deck, comments=kept)


def sums_text(files: Mapping[str, bytes]) -> str:
    """The lines of SHA256SUMS, as sha256sum writes them, by file name."""
    return "".join(f"{sum_of(data)}  {name}\n" for name, data in sorted(files.items()))


def read_folder(path: str) -> Tuple[Dict[str, bytes], List[str]]:
    """The files of a folder by their paths in it, and a sentence for each thing that is no plain file of a filing.

    Links aren't followed, and no path leads out of the folder.
    """
    files: Dict[str, bytes] = {}
    faults: List[str] = []
    for name in sorted(os.listdir(path)):
        place = os.path.join(path, name)
        if name == SHEETS and os.path.isdir(place) and not os.path.islink(place):
            sheets = sorted(os.listdir(place))
            for sheet in sheets:
                take(os.path.join(place, sheet), f"{SHEETS}/{sheet}", files, faults)
            faults += [] if sheets else [f"{SHEETS} has no file"]
        elif name in (*FILES, SUMS):
            take(place, name, files, faults)
        else:
            faults.append(f"{name} is no file of a filed plan")
    return files, faults


def not_plain(name: str) -> str:
    """The sentence of a link, a folder and the like in a file's place."""
    return f"{name} is no plain file"


def take(path: str, name: str, files: Dict[str, bytes], faults: List[str]) -> None:
    """Takes a plain file."""
    if os.path.islink(path) or not os.path.isfile(path):
        faults.append(not_plain(name))
        return
    with open(path, "rb") as file:
        files[name] = file.read()


def sheet_files(path: Optional[str]) -> Dict[str, bytes]:
    """The sheets of a folder, or the workbook that it is, by their names, which have to fit on their lines."""
    if path is None:
        return {}
    folder, names = (os.path.dirname(path), [os.path.basename(path)]) if os.path.isfile(path) else (
        path, [name for name in sorted(os.listdir(path)) if name.endswith(".csv")])
    found: Dict[str, bytes] = {}
    for name in names:
        fault = name_fault(name, f"* SHEET {sum_of(b'')} ")
        if fault:
            raise Fault(f"--sheets, {name}: {fault}")
        if os.path.isfile(os.path.join(folder, name)):
            with open(os.path.join(folder, name), "rb") as file:
                found[name] = file.read()
    return found
