"""The program as one child after another, which is asked command by command."""

from types import TracebackType
from typing import List, Optional, Sequence, Type, TypeVar, Union

from .child import Child
from .climbing import Climb
from .deck import Deck, card_bytes, has_end, read_deck
from .edits import COUNTS, Edit
from .faults import Ended, Fault, Refused, meaning
from .names import Tell, ignore
from .program import MOST_BYTES, find_program
from .report import LAST_WORDS, Step, is_last, read_index
from .text import decoded, escaped, lines_of

FULL = MOST_BYTES * 3 // 4  # bytes after which another child goes on
ASKED = frozenset([*LAST_WORDS, *COUNTS, "TRIAL", "KEEP", "BACK"]) - {"CLIMB"}
Self = TypeVar("Self", bound="Asker")


class Asker:
    """The program with a deck, asked one command after another, over as many children as it takes.

    The program takes 4,194,304 bytes in one run: before three quarters of them are used another child goes on, in a
    trial too. Besides the deck from before a trial or a climb and the edits since no network is kept. Where an answer
    isn't read to its end, by Ctrl-C too, the child is ended and the session closed; a climb that is left goes on as its
    steps say. `given` is the deck that was given.
    """

    def __init__(self, deck: Union[str, bytes, Deck], workers: int = 1, program: Optional[str] = None,
                 tell: Tell = ignore, full: int = FULL) -> None:
        self._command = [find_program(program), "run", str(workers)]
        self._full = full
        self._child: Optional[Child] = None
        self._trial: Optional[List[str]] = None  # the edits of an open trial
        self._base = card_bytes(deck)
        self._steps: List[Step] = []  # those of a climb that was left, over the base
        self._work_before = self._work_left = self._sent = self._line_count = 0
        self.is_closed = self._is_climbing = False
        if len(self._base) > MOST_BYTES:
            raise Fault(f"the deck is longer than the {MOST_BYTES:,} bytes that the program takes")
        try:
            self._start()
            self.given = read_deck(self._base, tell)
        except BaseException:
            self.close(at_once=True)
            raise

    def __enter__(self: Self) -> Self:
        return self

    def __exit__(self, kind: Optional[Type[BaseException]], fault: Optional[BaseException],
                 trace: Optional[TracebackType]) -> None:
        self.close(at_once=kind is not None)

    def close(self, at_once: bool = False) -> None:
        """Ends the session and its child."""
        self.is_closed = True
        child, self._child = self._child, None
        if child:
            child.end(at_once or self._is_climbing)

    def __del__(self) -> None:
        if getattr(self, "_child", None):
            self.close(at_once=True)

    # What is asked.

    @property
    def in_trial(self) -> bool:
        """Whether a trial is open."""
        return self._trial is not None

    def messages(self) -> List[str]:
        """The last 1,000 lines of the child's standard error."""
        return self._child.messages() if self._child else []

    def ask(self, command: str) -> List[str]:
        """The lines of the answer to a command other than CLIMB, PLOT and STOP; a refused one raises `Refused`."""
        word = command.split(" ", 1)[0]
        if "\n" in command or word not in ASKED:
            raise Fault(f"{escaped(command[:80])} is no command that a session asks")
        self._check_free()
        self._renew_if_full(len(command) + 1)
        return self._exchange(command)

    def attempt(self, edit: Edit, ending: str = "") -> Optional[int]:
        """TRIAL, an edit and INDEX in one go: the index in the trial, which stays open; None where it is refused.

        An open trial is ended before by `ending`, which is KEEP or BACK.
        """
        self._check_free()
        if (self._trial is None) == bool(ending) or ending not in ("", "KEEP", "BACK") or edit.word not in COUNTS:
            raise Fault(f"{edit} can't be tried: it is no edit, or a trial is open, or none is to be ended")
        commands = [ending] * bool(ending) + ["TRIAL", str(edit), "INDEX"]
        self._renew_if_full(sum(map(len, commands)) + len(commands))
        *_, made, index = self._exchange_all(commands)
        return read_index(index) if made == ["DONE"] else None

    def climb(self) -> Climb:
        """Climbs: an iterator of the steps that are taken. Until it ends or is left another call raises."""
        self._check_free()
        if self._trial is not None:
            self._exchange("CLIMB")  # which is refused
        base, work = _bytes(self.ask("DECK")), self.work()
        self._renew_if_full(len("CLIMB\n"))
        self._base, self._steps, self._work_left = base, [], work
        try:
            self._is_climbing = True
            self._send("CLIMB")
            return Climb(self)
        except BaseException:
            self.close(at_once=True)
            raise

    def work(self) -> int:
        """How many cells were worked out for edits and climbs, over all children.

        Of a climb that was left only the moves that another child then makes as edits are counted.
        """
        return self._work_before + read_index(self.ask("WORK"))

    # The child.

    def _check_free(self) -> None:
        """Raises where nothing can be asked now."""
        if self.is_closed:
            raise Ended("the session is closed")
        if self._is_climbing:
            raise Fault("a climb is being read: read it to its end, or leave it by close()")

    def _start(self) -> None:
        """Starts a child with the base."""
        self._child = Child(self._command)
        lines = lines_of(decoded(self._base))
        self._sent, self._line_count = len(self._base), len(lines)
        self._child.send(self._base)
        if not has_end(decoded(self._base)):
            self._child.close_input()
        words = self._child.line().split(" ")
        if words[0] == "CARD":
            place = int(words[1])
            card = lines[place - 1] if place <= len(lines) else "the deck"
            raise self._refused(int(words[3]), escaped(card[:80]), place)

    def _live(self) -> Child:
        """The child; after a climb that was left a new one, with the base and the climb's steps."""
        if self._child is None:
            self._start()
            for step in self._steps:
                self._exchange(str(step.edit))
            if self._steps and read_index(self._exchange("INDEX")) != self._steps[-1].index:
                self.close(at_once=True)
                raise Fault("the steps of the climb that was left don't lead to the index that the program told")
        if self._child is None:
            raise Ended("the session is closed")
        return self._child

    def _send(self, *commands: str) -> None:
        """Sends commands."""
        data = "".join(command + "\n" for command in commands).encode("utf-8")
        self._live().send(data)
        self._sent += len(data)
        self._line_count += len(commands)

    def _exchange_all(self, commands: Sequence[str]) -> List[List[str]]:
        """Sends commands and reads their answers; where they aren't read to their end, the session is closed."""
        answers = []
        try:
            child = self._live()
            self._send(*commands)
            for command in commands:
                lines = [child.line()]
                while not is_last(command, lines[-1]):
                    lines.append(child.line())
                answers.append(lines)
                if lines[0] == "DONE":
                    self._note(command)
        except BaseException:
            self.close(at_once=True)
            raise
        return answers

    def _note(self, command: str) -> None:
        """Notes the edits of an open trial: what an accepted command has changed of them."""
        if command == "TRIAL":
            self._trial = []
        elif command in ("KEEP", "BACK"):
            self._trial = None
        elif self._trial is not None:
            self._trial.append(command)

    def _exchange(self, command: str) -> List[str]:
        """Sends a command and reads its answer; a refused one raises."""
        lines = self._exchange_all([command])[0]
        if lines[0].startswith("REFUSED "):
            raise self._refused(int(lines[0].split(" ")[1]), command, self._line_count)
        return lines

    def _refused(self, code: int, command: str, line: int) -> Refused:
        """The refusal of a line, with what standard error says of it now, or the meaning of its code."""
        said = self._child.sentence(line) if self._child else None
        return Refused(code, command, said or meaning(code), line)

    def _renew_if_full(self, more: int) -> None:
        """Goes on with another child before too many bytes are sent to this one."""
        if self._child is not None and self._sent + more > self._full:
            try:
                self._renew(self._child, self._trial)
            except BaseException:
                self.close(at_once=True)
                raise

    def _renew(self, child: Child, edits: Optional[List[str]]) -> None:
        """Goes on with another child; in a trial with the deck from before it, TRIAL and its edits in order."""
        self._work_before += read_index(self._exchange("WORK"))
        if edits is not None:
            self._exchange("BACK")
        self._base, self._steps = _bytes(self._exchange("DECK")), []
        child.end()
        self._start()
        if edits is not None:
            for command in ["TRIAL", *edits]:
                self._exchange(command)
            self._work_before -= read_index(self._exchange("WORK"))

    def end_child(self) -> None:
        """Ends the child at once, from whatever thread: who waits for an answer of it then gets `Ended`."""
        child = self._child
        if child:
            child.kill()

    def _climb_line(self) -> str:
        """The next line of the climb."""
        return self._live().line()

    def _climb_is_over(self, line: str) -> None:
        """The climb's last line has come; it may be a refusal."""
        self._is_climbing = False
        if line.startswith("REFUSED "):
            raise self._refused(int(line.split(" ")[1]), "CLIMB", self._line_count)

    def _leave_climb(self, steps: List[Step]) -> None:
        """The climb is left: the child is ended, and another one begins with the steps when it is asked."""
        self._is_climbing = False
        child, self._child = self._child, None
        if child:
            child.end(at_once=True)
            self._steps, self._work_before = list(steps), self._work_left


def _bytes(lines: List[str]) -> bytes:
    """Lines with their ends."""
    return "".join(line + "\n" for line in lines).encode("ascii")
