"""The independent witness: examples/check/twin.py, which answers without the program."""

import os
import subprocess
import sys
import threading
import time
from typing import Sequence

from ..faults import Fault
from ..names import Tell, ignore
from ..program import ROOT

PAUSE = 2  # seconds between two lines of how far it is
TWIN = os.path.join(ROOT, "examples", "check", "twin.py")


class Witness:
    """The script as it is run with words; it works each move out from nothing, and so takes its time.

    `follow` hears how far it is: how many moves of a certificate it has written.
    """

    def __init__(self, follow: Tell = ignore) -> None:
        self._follow = follow
        if not os.path.isfile(TWIN):
            raise Fault("--again needs the script examples/check/twin.py of transyt's repository, which isn't beside "
                        "this package: take a clone of the repository, and its ./plan check --again FOLDER")

    def answer(self, words: Sequence[str], text: str) -> str:
        """What the script answers; it is ended with whoever asks."""
        with subprocess.Popen([sys.executable, TWIN, *words], stdin=subprocess.PIPE, stdout=subprocess.PIPE) as run:
            assert run.stdin is not None and run.stdout is not None
            threading.Thread(target=self._send, args=(run, text.encode("utf-8", "replace")), daemon=True).start()
            lines, moves, told = [], 0, time.monotonic()
            try:
                for line in run.stdout:
                    lines.append(line)
                    moves += line.startswith(b"MOVE ")
                    if time.monotonic() - told >= PAUSE:
                        told = time.monotonic()
                        self._follow(f"{words[0]}: {moves} moves so far")
            except BaseException:
                run.kill()
                raise
        self._follow(f"{words[0]}: done")
        return b"".join(lines).decode("latin-1")

    @staticmethod
    def _send(run: "subprocess.Popen[bytes]", data: bytes) -> None:
        """Sends the whole input and ends it."""
        assert run.stdin is not None
        try:
            run.stdin.write(data)
            run.stdin.close()
        except OSError:
            pass
