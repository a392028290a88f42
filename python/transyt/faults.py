"""What can go wrong, each time as a sentence with its place."""

from typing import Optional

# The meaning of each code, by docs/FORMATS.md, where the program says no sentence of its own.
MEANINGS = {
    10: "a byte that isn't printable, or a keyword that is none of this part's",
    11: "a line longer than 4,096 bytes",
    12: "a wrong count of numbers",
    13: "a word after the keyword that isn't a number",
    14: "a number out of its range",
    15: "a card out of its place",
    16: "a number, a stage, a feeder or a rule given twice",
    17: "a node, a link, a feeder or a stage that isn't there",
    18: "stage lengths that don't sum to the cycle",
    19: "a stage shorter than its intergreen plus its least green",
    20: "one node, link, stage or feed too many",
    21: "the input ended before END",
    22: "a node with fewer than two stages",
    23: "a link that isn't fed by this feeder",
    24: "no trial is open",
    25: "a trial is open",
    26: "the deck has no STEPS card",
    27: "a counted flow above 9,999",
    28: "a line that isn't the certificate's",
    29: "a listed move that lowers the index",
}


class Fault(Exception):
    """Why something can't be done, in a sentence for whoever asked for it."""


class Refused(Fault):
    """A card or a command that the program refused.

    `code` is the program's, `command` the line that it refused, `sentence` what it said of it on standard error, or
    the meaning of the code; `line` is the number of the line in what the program was sent, None where it has none.
    """

    def __init__(self, code: int, command: str, sentence: str, line: Optional[int] = None) -> None:
        super().__init__(f"{command}: {sentence}" if command else sentence)
        self.code, self.command, self.sentence, self.line = code, command, sentence, line


class Ended(Fault):
    """The program isn't there any more: it ended, was ended, or the session was closed."""


def meaning(code: int) -> str:
    """The meaning of a code in words."""
    return f"code {code}: {MEANINGS.get(code, 'refused')}"


def in_file(path: str, fault: Fault) -> Fault:
    """A fault of a deck with the name of its file before it."""
    if isinstance(fault, Refused) and fault.line is not None:
        return Refused(fault.code, f"{path}, line {fault.line}, {fault.command}", fault.sentence, fault.line)
    return Fault(f"{path}: {fault}")
