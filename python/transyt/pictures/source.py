"""What a picture is made of: the answers of the program to a deck."""

from typing import Dict, Mapping, Optional, Protocol

from ..deck import Deck
from ..report import Certificate, Figures, Profile, Queue, Timing


class Answers(Protocol):
    """Whoever answers as a session does: a session itself, or a filed report."""

    def deck(self) -> Deck:
        """The network as it stands, with its names."""
        ...

    def index(self) -> int:
        """The index of the network."""
        ...

    def figures(self) -> Figures:
        """The answer to FIGURES."""
        ...

    def timing(self) -> Timing:
        """The answer to TIMING."""
        ...

    def profile(self, link: int) -> Profile:
        """The answer to PROFILE."""
        ...

    def queue(self, link: int) -> Queue:
        """The answer to QUEUE."""
        ...

    def chart(self) -> Mapping[int, str]:
        """The answer to CHART."""
        ...

    def certificate(self) -> Certificate:
        """The answer to CERT."""
        ...


class Once:
    """Answers that are asked once each: for a page or a board, where several pictures are made of the same ones."""

    def __init__(self, answers: Answers) -> None:
        self._answers = answers
        self._deck: Optional[Deck] = None
        self._figures: Optional[Figures] = None
        self._timing: Optional[Timing] = None
        self._certificate: Optional[Certificate] = None
        self._profiles: Dict[int, Profile] = {}
        self._queues: Dict[int, Queue] = {}

    def deck(self) -> Deck:
        """The network as it stands."""
        self._deck = self._deck or self._answers.deck()
        return self._deck

    def index(self) -> int:
        """The index of the network, out of FIGURES."""
        return self.figures().index

    def figures(self) -> Figures:
        """The answer to FIGURES."""
        self._figures = self._figures or self._answers.figures()
        return self._figures

    def timing(self) -> Timing:
        """The answer to TIMING."""
        self._timing = self._timing or self._answers.timing()
        return self._timing

    def profile(self, link: int) -> Profile:
        """The answer to PROFILE."""
        if link not in self._profiles:
            self._profiles[link] = self._answers.profile(link)
        return self._profiles[link]

    def queue(self, link: int) -> Queue:
        """The answer to QUEUE."""
        if link not in self._queues:
            self._queues[link] = self._answers.queue(link)
        return self._queues[link]

    def chart(self) -> Mapping[int, str]:
        """The answer to CHART."""
        return self._answers.chart()

    def certificate(self) -> Certificate:
        """The answer to CERT."""
        self._certificate = self._certificate or self._answers.certificate()
        return self._certificate


def whose(answers: Answers, deck: Deck) -> str:
    """What deck and plan a picture is of, for the line below it."""
    town = f"{isolated(deck.names.town)}, " if deck.names.town else ""
    return f"{town}cycle {deck.frame.cycle} s in {deck.frame.step_count} steps, INDEX {answers.index()}"


def isolated(text: str) -> str:
    """A text whose direction doesn't reach beyond it."""
    return f"\u2068{text}\u2069"


def link_name(deck: Deck, link: int) -> str:
    """A link by its number and its name."""
    name = deck.names.links.get(link)
    return f"link {link} {isolated(name)}" if name else f"link {link}"


def short_name(deck: Deck, link: int) -> str:
    """A link by its name after its number, where room is short."""
    name = deck.names.links.get(link)
    return f"{link} {isolated(name)}" if name else f"link {link}"


def node_name(deck: Deck, node: int) -> str:
    """A junction by its number and its name."""
    name = deck.names.nodes.get(node)
    return f"{node} {isolated(name)}" if name else f"junction {node}"
