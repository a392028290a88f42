"""What the tests share: the package on the path, the built program, decks, and programs that play a part.

A test never starts a build: the program is the file that the variable TRANSYT names, or the one that is built. Where
neither is there the tests that need it are skipped, and say so.
"""

import os
import stat
import sys
import tempfile
import time
import unittest
from typing import Callable

HERE = os.path.dirname(os.path.realpath(__file__))
sys.path.insert(0, os.path.dirname(HERE))

from transyt.program import BUILT, ROOT  # noqa: E402

PROGRAM = os.environ.get("TRANSYT") or (BUILT if os.access(BUILT, os.X_OK) else None)
needs_program = unittest.skipUnless(PROGRAM, f"the program isn't built: there is no {BUILT}, and TRANSYT names none")

THREE = """* Three junctions in a road.
* NAME TOWN Mill Road, morning
CYCLE 60 12 1 60 100
* NAME NODE 1 Market Street
NODE 1 0
* NAME STAGE 1 1 main road
STAGE 0 1 2
STAGE 7 1 2
NODE 2 3
STAGE 0 1 2
STAGE 6 1 2
NODE 3 11
STAGE 1 1 3
STAGE 8 1 2
LINK 11 1 500 1800 1 1 1
LINK 12 1 300 1800 1 1 2
* NAME LINK 21 from Bridge Street
* LANES 21 2
LINK 21 2 100 1800 1 1 1
LINK 22 2 200 1700 1 1 2
LINK 31 3 40 1800 1 1 1
LINK 32 3 250 1600 1 2 2
* METRES 21 11 340
FEED 21 11 350 21
FEED 21 12 90 24
FEED 31 21 400 17
FEED 31 22 60 19
YIELD 32 31 40
STEPS 200 1 3
END
"""


def example(name: str) -> str:
    """The text of an example."""
    with open(os.path.join(ROOT, "examples", name), encoding="utf-8") as file:
        return file.read()


def is_there(number: int) -> bool:
    """Whether a process is there."""
    try:
        os.kill(number, 0)
    except ProcessLookupError:
        return False
    return True


def wait_until(condition: Callable[[], object], seconds: float = 10) -> bool:
    """Whether a condition holds within some seconds."""
    end = time.monotonic() + seconds
    while time.monotonic() < end:
        if condition():
            return True
        time.sleep(0.01)
    return False


class Played(unittest.TestCase):
    """Tests with a program that plays a part: `play(body)` makes a script of it and returns its file's name."""

    HEAD = """#!{python}
import os, sys, time
def said(text):
    sys.stdout.write(text + "\\n"); sys.stdout.flush()
def told(text):
    sys.stderr.write(text + "\\n"); sys.stderr.flush()
def deck():
    count = 0
    for line in iter(sys.stdin.readline, ""):
        count += 1
        if line.split()[:1] == ["END"]: return count
"""

    def play(self, body: str) -> str:
        """The file of a script that plays a part."""
        folder = tempfile.TemporaryDirectory()
        self.addCleanup(folder.cleanup)
        path = os.path.join(folder.name, "transyt")
        with open(path, "w", encoding="utf-8") as file:
            file.write(self.HEAD.format(python=sys.executable) + body)
        os.chmod(path, os.stat(path).st_mode | stat.S_IXUSR)
        return path
