"""The plan on the board: one session behind a lock, changes that can be undone, a climb that can be stopped.

The view is made after each change and read without the lock, so that a long climb or answer stops nobody from looking.
Besides the session the board keeps the deck text after each change, for a child that is lost, and the edits for Undo.
"""

import threading
from dataclasses import dataclass
from fractions import Fraction
from types import TracebackType
from typing import Dict, List, Optional, Sequence, Tuple, Type

from ..deck import Deck, Frame
from ..edits import Edit, after, inverse
from ..faults import Ended, Fault, Refused
from ..pictures import sensitivity
from ..pictures.svg import seconds as shown
from ..session import Climb, Session
from .view import Shown, view_of

Change = List[Tuple[Edit, Edit]]  # edits in their order, each with its inverse
HALF_SHOWN = Fraction(1, 2000)  # seconds: times are shown to a thousandth
STARTED = "the program had ended: it was started again, and the plan is as it was before"
STOPPED = "stopped: the program was started again, and the plan is as it was before"


class Stale(Fault):
    """A change was made from a state that isn't there any more."""


@dataclass(frozen=True)
class Wanted:
    """What a hand asks for: a node's offset, or where a stage begins in the common cycle, in seconds."""

    node: int
    stage: int  # 0 for the offset
    seconds: Fraction

    def refused(self) -> str:
        """What can't be, where the program refuses it."""
        seconds = f"{shown(float(self.seconds))} s"
        return f"stage {self.stage} of junction {self.node} can't begin at {seconds}" if self.stage else \
            f"the offset of junction {self.node} can't be {seconds}"


class Board:
    """A plan that is changed by hand."""

    def __init__(self, deck: Deck, workers: int, program: Optional[str], routes: Sequence[Sequence[int]]) -> None:
        self._workers, self._program, self._routes = workers, program, routes
        self._lock = threading.Lock()
        self._session = Session(deck, workers, program)
        self._undo: List[Change] = []
        self._redo: List[Change] = []
        self._climb: Optional[Climb] = None
        self._climber: Optional[threading.Thread] = None
        self._is_stopped = False  # whether a long answer, and not a climb, was stopped
        self.version = 0
        try:
            self._given = self._kept = self._session.deck()
            self._given_figures = self._session.figures()
            self._view = self._made("")
        except BaseException:
            self._session.close(at_once=True)
            raise

    def view(self) -> Shown:
        """The view as it was made last, with how far a climb is."""
        return {**self._view, **self.took()}

    def took(self) -> Shown:
        """How far a climb is: whether one goes, and its steps so far; after it all of them, until the next change."""
        climb = self._climb
        return {"climbing": climb is not None, "took": self._view["took"] if climb is None else lines_of(climb)}

    def edit(self, version: int, wanted: Wanted) -> Shown:
        """Makes a change by hand."""
        with self._changing(version):
            edit = edit_of(self._kept, wanted)
            change = [(edit, inverse(self._kept, edit))]
            self._do([edit], wanted.refused())
            self._undo.append(change)
            self._redo.clear()
            return self._next("")

    def undo(self, version: int) -> Shown:
        """Takes the last change back, a whole climb too."""
        with self._changing(version):
            if not self._undo:
                raise Fault("there is nothing to undo")
            change = self._undo[-1]
            self._do([back for _, back in reversed(change)])
            self._redo.append(self._undo.pop())
            return self._next("")

    def redo(self, version: int) -> Shown:
        """Makes the change again that was undone last."""
        with self._changing(version):
            if not self._redo:
                raise Fault("there is nothing to redo")
            change = self._redo[-1]
            self._do([edit for edit, _ in change])
            self._undo.append(self._redo.pop())
            return self._next("")

    def start_again(self, version: int) -> Shown:
        """Goes to the deck of the call, by the inverse of every change since it; Undo comes back from there."""
        with self._changing(version):
            change, deck = [], self._kept
            for edit, back in ((edit, back) for done in reversed(self._undo) for edit, back in reversed(done)):
                if deck == self._given:
                    break
                change.append((back, edit))
                deck = after(deck, back)
            if change:
                self._kept = self._given
                self._start_child()
                self._undo.append(change)
                self._redo.clear()
            return self._next("")

    def climb(self, version: int) -> Shown:
        """Begins a climb; it goes on in a thread of its own, and the view has its steps."""
        with self._changing(version):
            self._climb = self._session.climb()
            self._climber = threading.Thread(target=self._read_climb, args=(self._climb,), daemon=True)
            self._climber.start()
            return self.view()

    def stop(self) -> Shown:
        """Stops a climb: the state is that of its last whole step. A long answer to something else is stopped too."""
        climb, climber = self._climb, self._climber
        if climb is not None:
            climb.stop()
        elif self._lock.locked():
            self._is_stopped = True
            self._session.end_child()
        if climber is not None:
            climber.join(10)
        return self.view()

    def certificate(self, version: int) -> Dict[str, str]:
        """The picture of the certificate, when it is asked for."""
        with self._changing(version):
            return {"sensitivity": sensitivity(self._session)}

    def deck_text(self) -> str:
        """The deck as it stands, names and all."""
        return str(self._kept)

    def close(self) -> None:
        """Ends the child."""
        climb = self._climb
        if climb is not None:
            climb.stop()
        self._session.close(at_once=True)

    # Behind the lock.

    def _changing(self, version: int) -> "_Changing":
        """The lock for one change from a state."""
        return _Changing(self, version)

    def _do(self, edits: Sequence[Edit], refused_what: str = "") -> None:
        """Makes edits one after another, or none; the board keeps the deck after all of them."""
        for place, edit in enumerate(edits):
            try:
                self._session.edit(edit)
            except Refused as refused:
                if place:
                    self._start_child()
                raise Fault(f"{refused_what or f'{edit} is refused'}: {said_of(refused)}") from refused
        for edit in edits:
            self._kept = after(self._kept, edit)

    def _start_child(self) -> None:
        """Starts the program again, with the deck that the board keeps."""
        self._session.close(at_once=True)
        self._session = Session(self._kept, self._workers, self._program)

    def _next(self, message: str, took: Sequence[str] = ()) -> Shown:
        """The view of the state that is there now, after the steps that a climb took."""
        made = self._made(message)
        self.version += 1
        self._view = {**made, "version": self.version, "took": list(took)}
        return self._view

    def _made(self, message: str) -> Shown:
        """The view, asked of the program."""
        view = view_of(self._session, self._given, self._given_figures, self._routes)
        return {**view, "version": self.version, "message": message, "climbing": False, "took": [],
                "can_undo": bool(self._undo), "can_redo": bool(self._redo)}

    def _read_climb(self, climb: Climb) -> None:
        """Reads a climb to its end or until it is stopped, and notes it as one change."""
        try:
            for _ in climb:
                pass
            steps = counted(len(climb.steps), "step")
            message = f"{'LOCAL' if climb.local else 'BUDGET'} after {counted(climb.looked, 'look')}, {steps}" \
                if climb.end else f"stopped after {steps}"
        except Fault as fault:
            message = f"the climb ended: {fault}"
        with self._lock:
            message, took = self._after_climb(climb, message)
            try:
                self._next(message, took)
            except Ended:
                self._start_child()
                self._next(message, took)
            self._climb = self._climber = None

    def _after_climb(self, climb: Climb, message: str) -> Tuple[str, List[str]]:
        """Takes the steps of a climb as one change; where the program's index isn't the last step's, none of them.

        The message then, and the lines of the steps that were taken."""
        change, deck = [], self._kept
        for step in climb.steps:
            change.append((step.edit, inverse(deck, step.edit)))
            deck = after(deck, step.edit)
        try:
            wrong = bool(climb.steps) and self._session.index() != climb.steps[-1].index
        except Fault:
            wrong = True
        if wrong:
            self._start_child()
            return ("the steps of the climb don't lead to the index that the program told: the plan from before it "
                    "stands"), []
        self._kept = deck
        if change:
            self._undo.append(change)
            self._redo.clear()
        return message, lines_of(climb)


def counted(count: int, what: str) -> str:
    """A number of things, one of them too."""
    return f"{count} {what}{'' if count == 1 else 's'}"


def lines_of(climb: Climb) -> List[str]:
    """The steps that a climb took so far, a line each."""
    return [f"{step.edit}  INDEX {step.index}" for step in list(climb.steps)]


class _Changing:
    """The lock of a board for one change: refused where the state is another, or a climb is on its way.

    Where the child is lost in it, or a long answer is stopped, another one is started with the deck from before.
    """

    def __init__(self, board: Board, version: int) -> None:
        self._board, self._version = board, version

    def __enter__(self) -> None:
        board = self._board
        board._lock.acquire()
        if board._climb is not None:
            board._lock.release()
            raise Fault("a climb is on its way: stop it first, or wait for its end")
        if self._version != board.version:
            board._lock.release()
            raise Stale("the plan was changed elsewhere meanwhile: this is how it stands now")
        board._is_stopped = False
        self._before = board._kept, list(board._undo), list(board._redo)

    def __exit__(self, kind: Optional[Type[BaseException]], fault: Optional[BaseException],
                 trace: Optional[TracebackType]) -> None:
        board = self._board
        try:
            if isinstance(fault, Ended):
                board._kept, board._undo, board._redo = self._before
                board._start_child()
                raise Fault(STOPPED if board._is_stopped else STARTED) from None
        finally:
            board._lock.release()


def said_of(refused: Refused) -> str:
    """What a refusal says, with its code at the end."""
    return f"{refused.sentence.replace(f'code {refused.code}: ', '', 1)} (code {refused.code})"


def edit_of(deck: Deck, wanted: Wanted) -> Edit:
    """The edit that a hand asks for."""
    if wanted.node not in deck.node_by_number:
        raise Fault(f"there is no junction {wanted.node}")
    node, steps = deck.node(wanted.node), steps_of(deck.frame, wanted.seconds)
    if wanted.stage == 0:
        return Edit("OFFSET", (node.number, steps))
    if not 1 <= wanted.stage <= len(node.stages):
        raise Fault(f"junction {node.number} has no stage {wanted.stage}")
    return Edit("CHANGE", (node.number, wanted.stage, (steps - node.offset) % deck.frame.step_count))


def steps_of(frame: Frame, seconds: Fraction) -> int:
    """The step at a time, to the thousandth that the page shows; another one is refused with the two nearest."""
    step = Fraction(frame.cycle, frame.step_count)
    if not 0 <= seconds < frame.cycle:
        raise Fault(f"{shown(float(seconds))} s is not within 0 to {shown(float(frame.cycle - step))} s")
    below = int(seconds / step)
    nearest = [below, (below + 1) % frame.step_count]
    if seconds - below * step <= HALF_SHOWN:
        return nearest[0]
    if (below + 1) * step - seconds <= HALF_SHOWN:
        return nearest[1]
    low, high = (shown(float(steps * step)) for steps in nearest)
    raise Fault(f"{shown(float(seconds))} s is no whole number of steps of {shown(float(step))} s; the nearest are "
                f"{low} and {high} s")
