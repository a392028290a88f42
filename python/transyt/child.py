"""The program as a child: in a process group of its own, with a thread that reads its standard error."""

import atexit
import os
import re
import select
import signal
import subprocess
import threading
import weakref
from collections import deque
from types import FrameType
from typing import Deque, Dict, List, Optional, Sequence

from .faults import Ended, Fault
from .text import decoded

KEPT = 1000  # lines of standard error
LONGEST = 65536  # bytes of a line of standard error that are kept
SENTENCE = re.compile(r"line ([0-9]+): code [0-9]+: (.*)")

_alive: "weakref.WeakSet[Child]" = weakref.WeakSet()


class Child:
    """A running program that is asked line by line."""

    def __init__(self, command: Sequence[str]) -> None:
        guard()
        try:
            self.process = subprocess.Popen(command, stdin=subprocess.PIPE, stdout=subprocess.PIPE,
                                            stderr=subprocess.PIPE, start_new_session=True)
        except OSError as error:
            raise Fault(f"the program {command[0]} can't be started: {error.strerror}") from error
        _alive.add(self)
        assert self.process.stdin and self.process.stdout and self.process.stderr
        self._input, self._output, self._errors = self.process.stdin, self.process.stdout, self.process.stderr
        self._input_number = self._input.fileno()
        self._lock = threading.Lock()
        self._kept: Deque[str] = deque(maxlen=KEPT)
        self._sentences: Dict[int, str] = {}
        self._begun = b""
        os.set_blocking(self._errors.fileno(), False)
        self._thread = threading.Thread(target=self._listen, daemon=True)
        self._thread.start()

    def send(self, data: bytes) -> None:
        """Sends bytes; a child that is gone shows when its answer is read."""
        try:
            while data:
                data = data[os.write(self._input_number, data):]
        except (OSError, ValueError):
            pass

    def close_input(self) -> None:
        """Ends the input."""
        self._input_number = -1
        self._input.close()

    def send_all(self, data: bytes) -> None:
        """Sends a whole input and ends it."""
        self.send(data)
        self.close_input()

    def line(self) -> str:
        """The next line of the answer without its end."""
        try:
            data = self._output.readline()
        except ValueError:  # it was closed
            data = b""
        if not data.endswith(b"\n"):
            raise Ended(self._told_end())
        return data[:-1].decode("latin-1")

    def sentence(self, line: int) -> Optional[str]:
        """What standard error has said of a line of the input, as far as it is there now."""
        self._drain()
        return self._sentences.get(line)

    def messages(self) -> List[str]:
        """The last 1,000 lines of standard error."""
        self._drain()
        return list(self._kept)

    def end(self, at_once: bool = False) -> None:
        """Ends the child: by the end of its input, or at once; and where it doesn't end within a second, at once."""
        try:
            self._input_number = -1
            self._input.close()
            if not at_once:
                self.process.wait(1)
        except (subprocess.TimeoutExpired, OSError):
            pass
        finally:
            self.kill()
            self.process.wait()
            _alive.discard(self)
            self._thread.join(1)
            self._output.close()

    def kill(self) -> None:
        """Ends the child's process group at once, by its number; from any thread."""
        if self.process.poll() is None:
            try:
                os.killpg(self.process.pid, signal.SIGKILL)
            except ProcessLookupError:
                pass

    def _told_end(self) -> str:
        """How the child ended, in a sentence, with its last words."""
        try:
            status = self.process.wait(1)
        except subprocess.TimeoutExpired:
            return "the program closed its output"
        last = self.messages()[-1:]
        how = f"was ended by signal {-status}" if status < 0 else f"ended with {status}"
        return f"the program {how}{''.join(': ' + line for line in last)}"

    def _listen(self) -> None:
        """Reads standard error until it ends."""
        waiting = select.poll()
        waiting.register(self._errors.fileno(), select.POLLIN | select.POLLHUP)
        while True:
            waiting.poll()
            if not self._drain():
                self._errors.close()
                return

    def _drain(self) -> bool:
        """Takes what standard error has now; false where it has ended."""
        with self._lock:
            while True:
                try:
                    data = os.read(self._errors.fileno(), 65536)
                except BlockingIOError:
                    return True
                except (OSError, ValueError):
                    return False
                if not data:
                    return False
                self._keep(data)

    def _keep(self, data: bytes) -> None:
        """Keeps the lines of some bytes of standard error."""
        *lines, self._begun = (self._begun + data).split(b"\n")
        self._begun = self._begun[:LONGEST]
        for line in lines:
            text = decoded(line[:LONGEST])
            self._kept.append(text)
            found = SENTENCE.match(text)
            if found:
                self._sentences[int(found.group(1))] = found.group(2)
                if len(self._sentences) > KEPT:
                    del self._sentences[next(iter(self._sentences))]


def end_all() -> None:
    """Ends each child at once."""
    for child in list(_alive):
        child.kill()


def _ended_by(number: int, _: Optional[FrameType]) -> None:
    """Ends the children, and then Python by the same signal."""
    end_all()
    signal.signal(number, signal.SIG_DFL)
    os.kill(os.getpid(), number)


def guard() -> None:
    """Has SIGTERM and SIGHUP end the children too, where nobody else handles them and Python lets it be said."""
    if threading.current_thread() is threading.main_thread():
        for number in (signal.SIGTERM, signal.SIGHUP):
            if signal.getsignal(number) is signal.SIG_DFL:
                signal.signal(number, _ended_by)


atexit.register(end_all)
