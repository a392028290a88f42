"""The program: where it is found, and words of it that take their input whole."""

import os
import shutil
import threading
from dataclasses import dataclass
from typing import List, Optional, Sequence, Tuple

from .child import Child
from .deck import Deck, Plan
from .faults import Fault, Refused, meaning
from .report import Balance, read_balance
from .text import lines_of

ROOT = os.path.dirname(os.path.dirname(os.path.dirname(os.path.realpath(__file__))))
BUILT = os.path.join(ROOT, "crates", "transyt_cli", "out", "transyt_cli")
SCRIPT = os.path.join(ROOT, "transyt")  # which builds it
MOST_BYTES = 4_194_304  # of an input


def is_repository() -> bool:
    """Whether this package stands in the repository of the program."""
    return os.path.isfile(os.path.join(ROOT, "crates.txt"))


def find_program(path: Optional[str] = None) -> str:
    """The program's file: the one named, the variable TRANSYT, the built one, ./transyt, `transyt` on the path."""
    named = path or os.environ.get("TRANSYT")
    if named:
        return os.path.abspath(named) if os.sep in named or os.path.exists(named) else named
    if os.access(BUILT, os.X_OK):
        return BUILT
    if is_repository() and os.access(SCRIPT, os.X_OK):
        return SCRIPT
    found = shutil.which("transyt")
    if not found:
        raise Fault("the program transyt isn't found: name it by --program FILE or by the variable TRANSYT")
    return found


class Silent(Fault):
    """A program that can be started, and doesn't tell its version: it is another one."""


@dataclass(frozen=True)
class Answer:
    """What the program wrote to an input: its lines, its exit number, and its standard error's last lines."""

    lines: Tuple[str, ...]
    status: int
    messages: Tuple[str, ...]

    @property
    def text(self) -> str:
        """All lines with their ends."""
        return "".join(line + "\n" for line in self.lines)


class Program:
    """The program as a file that is run with words."""

    def __init__(self, path: Optional[str] = None) -> None:
        self.path = find_program(path)

    def ask(self, words: Sequence[object], text: str = "") -> Answer:
        """What the program answers to words and an input, whatever it is; the child is ended in any case."""
        child = Child([self.path, *map(str, words)])
        at_once = True
        lines: List[str] = []
        try:
            threading.Thread(target=child.send_all, args=(text.encode("utf-8", "replace"),), daemon=True).start()
            for data in child.process.stdout or ():
                lines.append(data.rstrip(b"\n").decode("latin-1"))
            status = child.process.wait()
            at_once = False
        finally:
            child.end(at_once)
        return Answer(tuple(lines), status, tuple(child.messages()))

    def answer(self, words: Sequence[object], text: str = "") -> List[str]:
        """The lines of an answer to an input that is accepted whole; else `Refused` or `Fault`."""
        answer = self.ask(words, text)
        for line in answer.lines:
            if line.startswith(("CARD ", "REFUSED ", "ROW ")) and "REFUSED" in line.split(" "):
                raise _refused(line, text, answer)
        if answer.status:
            said = "".join(f": {message}" for message in answer.messages[-1:])
            raise Fault(f"the program ended with {answer.status} at {' '.join(map(str, words))}{said}")
        return list(answer.lines)

    def version(self) -> str:
        """The program's name and version, as the word version writes it."""
        answer = self.ask(["version"])
        if answer.status or not answer.lines:
            raise Silent(f"the program {self.path} doesn't tell its version")
        return answer.lines[0]

    def balance(self, deck: Deck) -> Tuple[Balance, ...]:
        """The stage lengths of equal saturation at each node."""
        return read_balance(self.answer(["equisat"], str(deck.bare())))

    def balanced(self, deck: Deck) -> Deck:
        """The deck with the stage lengths of equal saturation; offsets stay."""
        plan: Plan = {node.number: (deck.node(node.number).offset, [stage["CHANGE"] for stage in node.stages])
                      for node in self.balance(deck)}
        return deck.with_plan(plan)


def _refused(line: str, text: str, answer: Answer) -> Refused:
    """The refusal of a card, a command or a row."""
    words = line.split(" ")
    code = int(words[-1])
    if words[0] != "CARD":
        said = [message.split(": ", 2)[-1] for message in answer.messages if f"code {code}:" in message]
        return Refused(code, line if words[0] == "ROW" else "", said[0] if said else meaning(code))
    place, lines = int(words[1]), lines_of(text)
    card = lines[place - 1] if place <= len(lines) else ""
    before = f"line {place}: code {code}: "
    said = [message[len(before):] for message in answer.messages if message.startswith(before)]
    return Refused(code, card[:80], said[0] if said else meaning(code), place)
