"""Plans for traffic signals by the program transyt: `import transyt`, or the command `./plan`.

This package works out no figure that the program prints: it asks the program and shows the answer.
"""

from .deck import ClimbPlan, Deck, Feed, Frame, GiveWay, Link, Node, Stage, read_deck
from .edits import Edit, read_edit
from .faults import Ended, Fault, Refused
from .names import Names
from .program import Answer, Program, find_program
from .report import (Balance, Certificate, ClimbEnd, Figures, Line, LinkDelays, LinkFigures, Links, Move, NodeTiming,
                     Profile, Queue, StageTiming, Step, Timing)
from .session import Climb, Session, Trial

VERSION = "1.0.0"

__all__ = [
    "Answer", "Balance", "Certificate", "Climb", "ClimbEnd", "ClimbPlan", "Deck", "Edit", "Ended", "Fault", "Feed",
    "Figures", "Frame", "GiveWay", "Line", "Link", "LinkDelays", "LinkFigures", "Links", "Move", "Names", "Node",
    "NodeTiming", "Profile", "Program", "Queue", "Refused", "Session", "Stage", "StageTiming", "Step", "Timing",
    "Trial", "VERSION", "find_program", "read_deck", "read_edit"]
