"""A session: the program with a deck, each command of it a call."""

from dataclasses import replace
from types import TracebackType
from typing import Mapping, Optional, Type, Union

from .asking import Asker
from .climbing import Climb
from .deck import Deck, read_deck
from .edits import Edit
from .report import (Certificate, Figures, Links, Profile, Queue, Timing, read_certificate, read_chart, read_figures,
                     read_index, read_links, read_profile, read_queue, read_timing)

__all__ = ["Climb", "Session", "Trial"]


class Trial:
    """A trial as a context: taken back at its end unless kept. `before` is the index before it."""

    def __init__(self, session: "Session") -> None:
        self._session = session
        self.before = 0

    def __enter__(self) -> "Trial":
        self.before = self._session.index()
        self._session.ask("TRIAL")
        return self

    def keep(self) -> None:
        """Keeps what the trial has changed; later edits are outside of it."""
        self._session.ask("KEEP")

    def back(self) -> None:
        """Takes back what the trial has changed, before its end."""
        self._session.ask("BACK")

    def __exit__(self, kind: Optional[Type[BaseException]], fault: Optional[BaseException],
                 trace: Optional[TracebackType]) -> None:
        if self._session.in_trial and not self._session.is_closed:
            self._session.ask("BACK")


class Session(Asker):
    """The program with a deck. Each call is one command and its answer; a refused one raises `Refused`.

    `trial` is a context, `climb` an iterator of the steps that are taken.
    """

    # What the program tells.

    def index(self) -> int:
        """The index of the network, in units, weighted."""
        return read_index(self.ask("INDEX"))

    def links(self) -> Links:
        """Delays, stops and index of each link."""
        return read_links(self.ask("LINKS"))

    def figures(self) -> Figures:
        """Flow, saturation, delay, stops and queue of each link, in an engineer's units, and the totals."""
        return read_figures(self.ask("FIGURES"))

    def timing(self) -> Timing:
        """The stages of each node in steps of the common cycle."""
        return read_timing(self.ask("TIMING"))

    def profile(self, link: int) -> Profile:
        """Arrivals, GO and departures of a link at each step."""
        return read_profile(self.ask(f"PROFILE {link}"))

    def queue(self, link: int) -> Queue:
        """The queue of a link at the end of each step."""
        return read_queue(self.ask(f"QUEUE {link}"))

    def chart(self) -> Mapping[int, str]:
        """The cycle of each link, a character a step."""
        return read_chart(self.ask("CHART"))

    def deck(self) -> Deck:
        """The network as it stands, with the names and comments of the deck that was given."""
        text = "".join(line + "\n" for line in self.ask("DECK"))
        return replace(read_deck(text), names=self.given.names, comments=self.given.comments)

    def certificate(self) -> Certificate:
        """The index of each listed move."""
        return read_certificate(self.ask("CERT"))

    # Edits.

    def edit(self, edit: Union[Edit, str]) -> None:
        """Makes an edit."""
        self.ask(str(edit))

    def offset(self, node: int, offset: int) -> None:
        """Sets a node's offset, in steps."""
        self.ask(f"OFFSET {node} {offset}")

    def change(self, node: int, stage: int, change: int) -> None:
        """Sets the step of the node's clock at which a stage begins; stages count from 1."""
        self.ask(f"CHANGE {node} {stage} {change}")

    def entry(self, link: int, flow: int) -> None:
        """Sets a link's entry flow, in vehicles an hour."""
        self.ask(f"ENTRY {link} {flow}")

    def part(self, link: int, feeder: int, flow: int) -> None:
        """Sets the flow of a feed, in vehicles an hour."""
        self.ask(f"PART {link} {feeder} {flow}")

    def cruise(self, link: int, feeder: int, seconds: int) -> None:
        """Sets the cruise time of a feed, in seconds."""
        self.ask(f"CRUISE {link} {feeder} {seconds}")

    def saturation(self, link: int, flow: int) -> None:
        """Sets a link's saturation flow, in vehicles an hour."""
        self.ask(f"SATURATION {link} {flow}")

    def weight(self, link: int, delay: int, stop: int) -> None:
        """Sets a link's weights of delay and of stops."""
        self.ask(f"WEIGHT {link} {delay} {stop}")

    def trial(self) -> Trial:
        """A trial as a context: `with session.trial() as trial:`."""
        return Trial(self)
