"""The evaluation of docs/MODEL.md: greens, give way, dispersion, sweeps, the cut, the queue, figures and index.

Every network is worked out from nothing. What is kept is the answers of pure functions alone, each by all that it is
given, so that a network which differs from the last one in a move takes less time."""
from functools import lru_cache
from itertools import accumulate
from math import isqrt
from typing import TYPE_CHECKING, NamedTuple

if TYPE_CHECKING:
    from town import Town

Profile = tuple[int, ...]


class Shown(NamedTuple):
    """A link at the last sweep; the figures are uniform and random delay, stops, and index."""
    IN: Profile
    GO: Profile
    OUT: Profile
    QUEUE: Profile
    figures: tuple[int, int, int, int]


class Evaluation(NamedTuple):
    """The departures of each link at each sweep, from sweep 0, each link at the last sweep, and the network's index."""
    sweeps: list[dict[int, Profile]]
    links: dict[int, Shown]
    index: int


def units(frame: list[int], flow: int) -> int:
    """A flow in vehicles per hour as millionths of a vehicle in a step: [Flow]."""
    return flow * frame[0] * 1000000 // (3600 * frame[1])


def travel(frame: list[int], cruise: int) -> int:
    """The steps of a cruise time in seconds."""
    return (8 * cruise * frame[1] + 5 * frame[0]) // (10 * frame[0])


def dispersed(x: Profile, t: int, k: int) -> Profile:
    """A profile after t steps, with a percentage: [Dispersion]."""
    N, z = len(x), [sum(x) // len(x)]
    for j in range(2 * N): z.append((100 * x[j % N] + k * t * z[-1]) // (100 + k * t))
    return tuple(z[N + 1 + (i - t) % N] for i in range(N))


@lru_cache(1 << 13)
def platoon(departures: Profile, part: int, whole: int, t: int, k: int) -> Profile:
    """What a feed brings: its share of the feeder's departures, dispersed."""
    return dispersed(tuple(x * part // whole if whole else 0 for x in departures), t, k)


@lru_cache(1 << 13)
def greens(N: int, begins: Profile, intergreens: Profile, stages: Profile, start: int, end: int) -> list[bool]:
    """At which steps a link is green: [Green]. `begins` has the step of the cycle at which each stage begins."""
    shown, runs = [False] * N, [k + 1 in stages for k in range(len(begins))]
    for k, begin in enumerate(begins):
        for p in range((begins[(k + 1) % len(begins)] - begin) % N):
            shown[(begin + p) % N] = runs[k] and (p >= intergreens[k] or runs[k - 1])
    opens = [shown[i] and not shown[i - 1] for i in range(N)]
    return [any(shown[i - n] for n in range(end + 1)) and not any(opens[i - n] for n in range(start)) for i in range(N)]


@lru_cache(1 << 13)
def stop_line(IN: Profile, GO: Profile) -> tuple[Profile, Profile, Profile]:
    """The arrivals after the cut, the queue and the departures: [Queue]."""
    A, B, N = sum(IN), sum(GO), len(IN)
    arrivals = tuple(a * B // A for a in IN) if A > B else IN
    net = [a - g for a, g in zip(arrivals, GO)]
    # the last steps up to i, the latest first
    last = [net[i::-1] + net[:i:-1] for i in range(N)]
    Q = tuple(max(0, *accumulate(steps)) for steps in last)
    return arrivals, Q, tuple(Q[i - 1] + arrivals[i] - Q[i] for i in range(N))


def figures_of(frame: list[int], weights: tuple[int, ...], IN: Profile, GO: Profile) -> tuple[int, int, int, int]:
    """Uniform and random delay, stops, and index of a link: [Figures], [Index]."""
    C, N, _, T, K, _ = frame
    (arrivals, Q, _), (wd, ws) = stop_line(IN, GO), weights
    x, y = 60 * T * sum(IN) // C, 60 * T * sum(GO) // C
    uniform, random = sum(Q) // N, (isqrt((x - y) ** 2 + 4000000 * x) + x - y) // 4
    stops = sum(a for a, q in zip(arrivals, Q) if q) // C
    return uniform, random, stops, wd * (uniform + random) + ws * K * stops // 100


def capacities(town: 'Town', l: int) -> Profile:
    """SIG of a link: its saturation flow at green steps, and 0 elsewhere."""
    link, N = town.links[l], town.frame[1]
    begins = tuple((town.offset(link.node) + change) % N for change in town.changes(link.node))
    is_green = greens(N, begins, tuple(town.intergreens[link.node]), link.stages, link.start, link.end)
    saturation = units(town.frame, town.numbers['SATURATION', l][0])
    return tuple(saturation if green else 0 for green in is_green)


def arrivals_at(town: 'Town', l: int, OUT: dict[int, Profile], total: dict[int, int]) -> Profile:
    """IN of a link, where OUT has the departures that it reads."""
    number = lambda *name: town.numbers[name][0]
    brought = [platoon(OUT[f], number('PART', l, f), total[f], travel(town.frame, number('CRUISE', l, f)), town.frame[5])
               for f in town.links[l].feeders]
    return tuple(map(sum, zip((units(town.frame, number('ENTRY', l)),) * town.frame[1], *brought)))


def evaluate(town: 'Town') -> Evaluation:
    """All links at all sweeps, in card order: [Sweeps], [Give way]."""
    total, SIG = {l: town.flow(l) for l in town.links}, {l: capacities(town, l) for l in town.links}
    sweeps, shown = [{l: (units(town.frame, total[l]),) * town.frame[1] for l in town.links}], {}
    for _ in range(town.frame[2]):
        OUT = dict(sweeps[-1])
        for l, link in town.links.items():
            IN, GO = arrivals_at(town, l, OUT, total), SIG[l]
            if link.rule:
                other, percent = link.rule
                GO = tuple(g and max(1, g - percent * y // 100) for g, y in zip(GO, OUT[other]))
            _, Q, OUT[l] = stop_line(IN, GO)
            shown[l] = IN, GO, OUT[l], Q
        sweeps.append(OUT)
    links = {l: Shown(*rows, figures_of(town.frame, town.numbers['WEIGHT', l], *rows[:2])) for l, rows in shown.items()}
    return Evaluation(sweeps, links, sum(link.figures[3] for link in links.values()))
