"""A network, its edits and what refuses them, the list of moves, the climb, and the pairs that are due."""
from dataclasses import dataclass, field, replace
from functools import cached_property
from typing import Callable, Iterator, NamedTuple, Optional

from evaluation import Evaluation, evaluate

Edit = tuple  # a command's keyword and its numbers


class Link(NamedTuple):
    """What no edit changes of a link."""
    node: int
    start: int
    end: int
    stages: tuple[int, ...]
    feeders: tuple[int, ...] = ()
    rule: Optional[tuple[int, int]] = None


@dataclass
class Town:
    """A network and its climb plan. Its numbers are named as the commands are that edit them."""
    frame: list[int]
    intergreens: dict[int, list[int]] = field(default_factory=dict)
    least: dict[int, list[int]] = field(default_factory=dict)
    links: dict[int, Link] = field(default_factory=dict)
    numbers: dict[tuple, tuple[int, ...]] = field(default_factory=dict)
    plan: Optional[list[int]] = None

    @cached_property
    def evaluation(self) -> Evaluation: return evaluate(self)
    def index(self) -> int: return self.evaluation.index
    def offset(self, node: int) -> int: return self.numbers['OFFSET', node][0]

    def changes(self, node: int) -> list[int]:
        return [self.numbers['CHANGE', node, k + 1][0] for k in range(len(self.intergreens[node]))]

    def flow(self, l: int) -> int:
        """The total flow of a link."""
        return self.numbers['ENTRY', l][0] + sum(self.numbers['PART', l, f][0] for f in self.links[l].feeders)

    def lengths(self, node: int) -> list[int]:
        changes = self.changes(node)
        return [(after - change) % self.frame[1] for change, after in zip(changes, changes[1:] + changes[:1])]

    def plan_fault(self, node: int) -> Optional[int]:
        """The code of a node's plan, or none where it is allowed: [Stage plan]."""
        lengths = self.lengths(node)
        if len(lengths) < 2: return 22
        if sum(lengths) != self.frame[1]: return 18
        needs = [sum(need) for need in zip(self.intergreens[node], self.least[node])]
        return 19 if any(length < need for length, need in zip(lengths, needs)) else None

    def edited(self, keyword: str, *n: int) -> 'Town':
        """The town with the numbers of an edit set."""
        name = next((keyword, *n[:k]) for k in (1, 2) if (keyword, *n[:k]) in self.numbers)
        return replace(self, numbers={**self.numbers, name: n[len(name) - 1:]})


RANGES = {'ENTRY': (0, 9999), 'PART': (0, 9999), 'CRUISE': (1, 300), 'SATURATION': (100, 9999), 'WEIGHT': (0, 999)}


def refusal(town: Town, keyword: str, *n: int) -> Optional[int]:
    """The code of an edit, or none where it is allowed: [Edit]."""
    values = 2 if keyword == 'WEIGHT' else 1
    names, set_to = n[:-values], n[-values:]
    if names[0] not in (town.intergreens if keyword in ('OFFSET', 'CHANGE') else town.links): return 17
    if keyword == 'CHANGE' and not 1 <= names[1] <= len(town.intergreens[names[0]]): return 17
    if keyword in ('PART', 'CRUISE') and names[1] not in town.links: return 17
    if (keyword, *names) not in town.numbers: return 23
    low, high = RANGES.get(keyword, (0, town.frame[1] - 1))
    if not all(low <= value <= high for value in set_to): return 14
    return town.edited(keyword, *n).plan_fault(n[0]) if keyword == 'CHANGE' else None


def moves(town: Town) -> Iterator[Edit]:
    """The list of moves: [Moves]."""
    for h in (town.plan or [0])[1:]:
        for node in town.intergreens:
            for step in (h, -h): yield 'OFFSET', node, (town.offset(node) + step) % town.frame[1]
            for k, change in enumerate(town.changes(node), 1):
                for step in (h, -h): yield 'CHANGE', node, k, (change + step) % town.frame[1]


def with_move(town: Town, move: Edit) -> Optional[Town]:
    """The town with a move made, or none where it is barred."""
    return None if refusal(town, *move) else town.edited(*move)


def own(town: Town, l: int) -> tuple:
    """The own data of a link: [Due]."""
    link, number = town.links[l], lambda *name: town.numbers[name]
    feeds = [(number('PART', l, f), number('CRUISE', l, f), town.flow(f)) for f in link.feeders]
    return number('ENTRY', l), number('SATURATION', l), town.offset(link.node), town.changes(link.node), feeds


def due(a: Town, b: Town) -> int:
    """How many pairs of a sweep and a link are due from one network to the other: [Due]."""
    before, after, place = a.evaluation.sweeps, b.evaluation.sweeps, {l: p for p, l in enumerate(a.links)}
    count = 0
    for l, link in a.links.items():
        reads = [(other, place[other] >= place[l]) for other in (*link.feeders, *(link.rule or ())[:1])]
        differs = [any(before[s - late][other] != after[s - late][other] for other, late in reads)
                   for s in range(1, a.frame[2] + 1)]
        count += a.frame[2] if own(a, l) != own(b, l) else sum(differs)
    return count


class Climb(NamedTuple):
    """The town at a climb's end, the lines of its steps, LOCAL or BUDGET, how many places were looked at, the work."""
    town: Town
    steps: list[str]
    end: str
    looked: int
    work: int


def climb(town: Town, look: Callable[[int], None] = lambda looked: None) -> Climb:
    """One climb by the climb plan; without one it takes nothing and looks at nothing: [Climb]. `look` is told each look."""
    steps, place, since, looked, work, count = [], 0, 0, 0, 0, len(list(moves(town)))
    while since < count and looked < town.plan[0]:
        move = list(moves(town))[place]
        after, looked = with_move(town, move), looked + 1
        look(looked)
        work += due(town, after) if after else 0
        if after and after.index() < town.index():
            town, since = after, 0
            steps.append(f'TOOK {place} {text_of(move)} INDEX {town.index()}')
        else: place, since = (place + 1) % count, since + 1
    return Climb(town, steps, 'LOCAL' if since == count else 'BUDGET', looked, work)


def text_of(move: Edit) -> str: return ' '.join(map(str, move))
