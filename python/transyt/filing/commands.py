"""What a filed plan asks the program, and its answer read as a session's answers are."""

from typing import Dict, List, Mapping, Sequence

from ..deck import Deck
from ..faults import Fault
from ..report import (READERS, Certificate, Figures, Links, Profile, Queue, Timing, read_certificate, read_chart,
                      read_figures, read_links, read_profile, read_queue, read_timing, split_answers)

ALWAYS = ("TIMING", "FIGURES", "CHART", "LINKS", "CERT")


def commands_of(deck: Deck) -> List[str]:
    """The commands after END in a filed deck, in their order."""
    return [*ALWAYS, *(f"{word} {link.number}" for link in deck.links for word in ("PROFILE", "QUEUE"))]


class FiledReport:
    """The answers of a filed report: pictures and the page take it as they take a session."""

    def __init__(self, deck: Deck, lines: Sequence[str]) -> None:
        accepted = f"ACCEPTED {len(deck.nodes)} {len(deck.links)}"
        if list(lines[:1]) != [accepted]:
            raise Fault(f"the report doesn't begin with {accepted}")
        self._deck = deck
        self._answers: Dict[str, List[str]] = dict(split_answers(commands_of(deck), lines[1:]))
        if sum(map(len, self._answers.values())) + 1 != len(lines):
            raise Fault("the report goes on after its last answer")

    def deck(self) -> Deck:
        """The filed deck."""
        return self._deck

    def index(self) -> int:
        """The index, out of FIGURES."""
        return self.figures().index

    def figures(self) -> Figures:
        """The answer to FIGURES."""
        return read_figures(self._answers["FIGURES"])

    def links(self) -> Links:
        """The answer to LINKS."""
        return read_links(self._answers["LINKS"])

    def timing(self) -> Timing:
        """The answer to TIMING."""
        return read_timing(self._answers["TIMING"])

    def chart(self) -> Mapping[int, str]:
        """The answer to CHART."""
        return read_chart(self._answers["CHART"])

    def text_of(self, command: str) -> str:
        """The answer to a command as it was written."""
        return "".join(line + "\n" for line in self._answers[command])

    def certificate(self) -> Certificate:
        """The answer to CERT."""
        return read_certificate(self._answers["CERT"])

    def profile(self, link: int) -> Profile:
        """The answer to PROFILE."""
        return read_profile(self._answers[f"PROFILE {link}"])

    def queue(self, link: int) -> Queue:
        """The answer to QUEUE."""
        return read_queue(self._answers[f"QUEUE {link}"])


assert all(word in READERS for word in ALWAYS)
