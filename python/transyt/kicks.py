"""Kicks: offsets around a drawn junction are drawn anew, and what is near it is climbed on.

Two junctions are near where a link of one is fed by a link of the other; each is near itself.
"""

from dataclasses import dataclass
from typing import Dict, Iterator, List, Tuple

from .deck import Deck
from .edits import Edit
from .session import Session


class Draws:
    """The draws of the program's generator from a seed on."""

    def __init__(self, seed: int) -> None:
        self.state = seed

    def below(self, count: int) -> int:
        """A draw modulo a count."""
        self.state = (1_103_515_245 * self.state + 12_345) % 2_147_483_648
        return self.state // 65_536 % count


def near(deck: Deck) -> Dict[int, Tuple[int, ...]]:
    """For each node's number the numbers of the nodes near it, in card order."""
    found = {node.number: {node.number} for node in deck.nodes}
    for link in deck.links:
        for feed in link.feeds:
            feeder = deck.link(feed.feeder).node
            found[link.node].add(feeder)
            found[feeder].add(link.node)
    return {number: tuple(node.number for node in deck.nodes if node.number in others)
            for number, others in found.items()}


@dataclass(frozen=True)
class MoveKind:
    """A place of the list of moves: the node's offset, or the change of a stage (from 1), by some steps on or back."""

    node: int
    stage: int  # 0 for the offset
    by: int


class Kicker:
    """Kicks through a session. `deck` is the network after the kicks so far, `index` its index."""

    def __init__(self, session: Session, deck: Deck, index: int, seed: int) -> None:
        self.session, self.deck, self.index = session, deck, index
        self._draws = Draws(seed)
        self._near = near(deck)
        self._plan = {number: [offset, *changes] for number, (offset, changes) in deck.plan().items()}
        self._kinds = list(self._list())

    def _list(self) -> Iterator[MoveKind]:
        """The list of moves of the deck, in its order."""
        for size in self.deck.climb_plan.sizes if self.deck.climb_plan else ():
            for node in self.deck.nodes:
                for stage in range(len(node.stages) + 1):
                    yield MoveKind(node.number, stage, size)
                    yield MoveKind(node.number, stage, -size)

    def kick(self) -> bool:
        """Makes the next kick; whether it was kept. Where it isn't, the session's network is that from before."""
        nodes, count = self.deck.nodes, self.deck.frame.step_count
        drawn = nodes[self._draws.below(len(nodes))].number
        taken_back: List[Edit] = []
        for number in self._near[drawn]:
            offset = self._draws.below(2 * count)
            if offset < count:
                taken_back.append(self._set(number, 0, offset))
                self.session.edit(self._edit(number, 0, offset))
        index = self._climb(drawn, taken_back)
        if index < self.index:
            self.index = index
            self.deck = self.deck.with_plan({number: (plan[0], plan[1:]) for number, plan in self._plan.items()})
            return True
        for edit in reversed(taken_back):
            self.session.edit(edit)
            self._plan[edit.numbers[0]][edit.numbers[1] if edit.word == "CHANGE" else 0] = edit.numbers[-1]
        return False

    def _climb(self, drawn: int, taken_back: List[Edit]) -> int:
        """Climbs on the moves near the drawn node by CLIMB's rule until a round lowers nothing; the index there."""
        kinds = [kind for kind in self._kinds if kind.node in self._near[drawn]]
        index, place, since, ending = self.session.index(), 0, 0, ""
        while since < len(kinds):
            kind = kinds[place]
            value = (self._plan[kind.node][kind.stage] + kind.by) % self.deck.frame.step_count
            after = self.session.attempt(self._edit(kind.node, kind.stage, value), ending)
            if after is not None and after < index:
                index, since, ending = after, 0, "KEEP"
                taken_back.append(self._set(kind.node, kind.stage, value))
            else:
                place, since, ending = (place + 1) % len(kinds), since + 1, "BACK"
        if ending:
            self.session.ask(ending)
        return index

    def _edit(self, node: int, stage: int, value: int) -> Edit:
        """The edit of an offset or a change."""
        return Edit("CHANGE", (node, stage, value)) if stage else Edit("OFFSET", (node, value))

    def _set(self, node: int, stage: int, value: int) -> Edit:
        """Notes a new offset or change; returns the edit that takes it back."""
        before = self._plan[node][stage]
        self._plan[node][stage] = value
        return self._edit(node, stage, before)
