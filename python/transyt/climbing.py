"""A climb while the program makes it."""

import threading
from typing import TYPE_CHECKING, Iterator, List, Optional

from .faults import Ended
from .report import ClimbEnd, Step, read_climb_end, read_step

if TYPE_CHECKING:
    from .asking import Asker


class Climb(Iterator[Step]):
    """A climb as the program makes it: yields its steps; `end` is how it ended, None while it goes or was left.

    `steps` are those so far. A climb that isn't read to its end ends the child; the session goes on with another one
    that has the steps taken so far. `stop` may be called from any thread.
    """

    def __init__(self, session: "Asker") -> None:
        self._session = session
        self._is_over = self._is_stopped = False
        self._lock = threading.Lock()
        self.steps: List[Step] = []
        self.end: Optional[ClimbEnd] = None

    @property
    def local(self) -> bool:
        """Whether the climb ended with no move left that lowers the index."""
        return self.end is not None and self.end.local

    @property
    def looked(self) -> int:
        """How many places the climb looked at; 0 before its end."""
        return self.end.looked if self.end else 0

    def __next__(self) -> Step:
        if not self._is_over and not self._is_stopped:
            line = self._read()
            if line.startswith("TOOK "):
                self.steps.append(read_step(line))
                return self.steps[-1]
            with self._lock:
                self._is_over = not self._is_stopped
            if self._is_over:
                self._session._climb_is_over(line)
                self.end = read_climb_end(line)
        self.close()
        raise StopIteration

    def _read(self) -> str:
        """The climb's next line; where it can't be read the climb is left, or the session lost."""
        try:
            return self._session._climb_line()
        except Ended:
            if self._is_stopped:
                self.close()
                raise StopIteration from None
            self._is_over = True
            self._session.close(at_once=True)
            raise
        except BaseException:
            self.close()
            raise

    def run(self) -> ClimbEnd:
        """Reads the climb to its end, and tells it."""
        for _ in self:
            pass
        if self.end is None:
            raise Ended("the climb was stopped")
        return self.end

    def stop(self) -> None:
        """Ends the child, from whatever thread; who reads the climb then gets no more steps."""
        with self._lock:
            if not self._is_over:
                self._is_stopped = True
                self._session.end_child()

    def close(self) -> None:
        """Leaves the climb: the child is ended, and the session has the steps so far."""
        if not self._is_over:
            self._is_over = True
            self._session._leave_climb(self.steps)

    def __del__(self) -> None:
        self.close()
