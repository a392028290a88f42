"""Plans compared: greens of equal saturation, cycle times, starts, and the generated town."""
from dataclasses import replace
from fractions import Fraction
from typing import Callable, Iterable, Iterator, Union

from cards import Deck
from texts import deck, line
from town import Climb, Town, climb


def balance(town: Town, node: int) -> tuple[list[int], list[int], tuple[int, int], int]:
    """Greens of equal saturation, needs, the peak as a fraction that isn't reduced, and its link: [Balance]."""
    N, stages, least = town.frame[1], range(1, len(town.least[node]) + 1), town.least[node]
    mine = [(l, link.stages[0]) for l, link in town.links.items() if link.node == node and len(link.stages) == 1]
    parts = lambda l, e: (town.flow(l) * N, town.numbers['SATURATION', l][0] * e)
    degree = lambda l, e: Fraction(*parts(l, e))
    # a green that is longer than the cycle fits in no plan
    green = lambda k, fits: next((e for e in range(least[k - 1], N + 2)
                                  if all(fits(degree(l, e)) for l, stage in mine if stage == k)), N + 2)
    spare = N - sum(town.intergreens[node])
    peaks = sorted({Fraction(0)} | {degree(l, e) for l, _ in mine for e in range(1, N + 1)})
    flows = any(town.flow(l) for l, _ in mine)
    low, high = int(flows), len(peaks) - 1
    while low < high:  # a greater peak wants no more green
        V = peaks[(low + high) // 2]
        if sum(green(k, lambda d: d <= V) for k in stages) <= spare: high = (low + high) // 2
        else: low = (low + high) // 2 + 1
    V = peaks[low]
    greens = [green(k, lambda d: d <= V) for k in stages]
    greens[0] += spare - sum(greens)
    if not flows: return greens, [0] * len(greens), (0, 1), 0
    link, stage = next((l, k) for l, k in mine if degree(l, greens[k - 1]) == V)
    return greens, [green(k, lambda d: d < V) for k in stages], parts(link, greens[stage - 1]), link


def balanced(town: Town) -> Town:
    """The town with the changes of equal saturation."""
    numbers = dict(town.numbers)
    for node, intergreens in town.intergreens.items():
        change = town.numbers['CHANGE', node, 1][0]
        for k, (intergreen, green) in enumerate(zip(intergreens, balance(town, node)[0]), 1):
            numbers['CHANGE', node, k] = change,
            change = (change + intergreen + green) % town.frame[1]
    return replace(town, numbers=numbers)


def equisat(town: Town) -> Iterator[str]:
    after = balanced(town)
    for node in town.intergreens:
        greens, needs, (top, base), link = balance(town, node)
        yield line('NODE', node, 'PEAK', top, 'OF', base, 'LINK', link)
        for k, (change, green, need) in enumerate(zip(after.changes(node), greens, needs), 1):
            yield line('STAGE', k, 'CHANGE', change, 'GREEN', green, 'NEED', need)
    yield 'END EQUISAT'


def row(town: Town, done: Climb) -> str:
    """The end of a row of a climb from a town."""
    return line('FROM', town.index(), 'TOOK', len(done.steps), done.end, done.looked, 'TO', done.town.index())


def scan(town: Town, low: int, high: int, by: int) -> Iterator[str]:
    rows = []
    for cycle in range(low, high + 1, by):
        start = replace(town, frame=[cycle, *town.frame[1:]])
        done = climb(start)
        rows.append((done.town.index(), cycle))
        yield line('CYCLE', cycle, row(start, done))
    yield 'BEST {1} {0}'.format(*min(rows))


def best_of(rows: Iterable[tuple[str, int, Union[str, Town]]]) -> Iterator[str]:
    """Rows of a word, a number and a town, or what stands in its place; then the best, and its deck."""
    ends = []
    for word, number, town in rows:
        if isinstance(town, str):
            yield line('*', word, number, town)
            continue
        done = climb(town)
        ends.append((done.town.index(), number, done.town))
        yield line('*', word, number, row(town, done))
    if not ends:
        yield '* NONE'
        return
    index, number, end = min(ends, key=lambda found: found[0])
    yield line('*', 'BEST', number, index)
    yield from deck(end)


def draws(x: int) -> Callable[[int], int]:
    """The draws from a seed: the next one modulo a number."""
    def draw(most: int) -> int:
        nonlocal x
        x = (1103515245 * x + 12345) % 2147483648
        return x // 65536 % most
    return draw


def starts(town: Town, seed: int, count: int, first: int = 0) -> Iterator[str]:
    """`count` starts from number `first` on; the draws go through all starts before them: [Starts]."""
    draw, towns = draws(seed), [town]
    for _ in range(1, first + count):
        offsets = {('OFFSET', node): (draw(town.frame[1]),) for node in town.intergreens}
        towns.append(replace(town, numbers={**town.numbers, **offsets}))
    return best_of(('START', i, towns[i]) for i in range(first, first + count))


def at_cycle(town: Town, cycle: int) -> Union[str, Town]:
    """The town at another cycle, with steps as long as before and at equal saturation; else NONE, or BARRED node."""
    C, N, *rest = town.frame
    n, lags = N * cycle // C, [lag for link in town.links.values() for lag in (link.start, link.end)]
    if N * cycle % C or not 10 <= n <= 120 or max([0, *lags, *(town.plan or [0])[1:]]) > n - 1: return 'NONE'
    for node, intergreens in town.intergreens.items():
        if sum(intergreens) + sum(town.least[node]) > n: return line('BARRED', node)
    numbers = dict(town.numbers)
    for node in town.intergreens:
        numbers['OFFSET', node] = town.offset(node) * n // N,
        numbers['CHANGE', node, 1] = numbers['CHANGE', node, 1][0] * n // N,
    return balanced(replace(town, frame=[cycle, n, *rest], numbers=numbers))


def cycles(town: Town, low: int, high: int, by: int) -> Iterator[str]:
    return best_of(('CYCLE', cycle, at_cycle(town, cycle)) for cycle in range(low, high + 1, by))


def make(seed: int, count: int) -> Town:
    """The generated town: [Generator]."""
    draw, nodes, cards = draws(seed), range(1, count + 1), ['FORM 2', 'CYCLE 100 50 3 60 100 35']
    for i in nodes: cards += [line('NODE', i, draw(50)), 'STAGE 0 3 4', line('STAGE', 15 + draw(21), 3, 4)]
    beside = lambda i: {1: i - 1 if (i - 1) % 8 > 0 else 0, 2: i + 1 if (i - 1) % 8 < 7 and i < count else 0,
                        3: max(0, i - 8), 4: i + 8 if i + 8 <= count else 0}
    streets = [(i, d, j) for i in nodes for d, j in beside(i).items()]
    for i, d, j in streets:
        entry = draw(41) if j else 300 + draw(201)
        cards.append(line('LINK', 10 * i + d, i, entry, 1800, 1, 1, 0, 0, 1 if d < 3 else 2))
    for i, d, j in streets:
        if j:
            cruise, turning = 15 + draw(16), (3, 4) if d < 3 else (1, 2)
            cards.append(line('FEED', 10 * i + d, 10 * j + d, 240 + draw(41), cruise))
            for turn in turning: cards.append(line('FEED', 10 * i + d, 10 * j + turn, 60 + draw(41), cruise))
    made = Deck()
    for card in [*cards, 'STEPS 2000 1 8 20', 'END']: made.take(card.encode())
    return made.town


def brief(town: Town) -> Iterator[str]:
    yield line('BRIEF', len(town.intergreens), len(town.links), row(town, climb(town)))
