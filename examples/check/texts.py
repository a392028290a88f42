"""The texts of docs/FORMATS.md over one network: each report, a line at a time, and the deck text."""
from typing import Iterator

from town import Town


def line(*words: object) -> str: return ' '.join(map(str, words))


def deck(town: Town) -> Iterator[str]:
    """The deck text."""
    number = lambda *name: town.numbers[name]
    yield 'FORM 2'
    yield line('CYCLE', *town.frame)
    for node in town.intergreens:
        yield line('NODE', node, town.offset(node))
        stages = zip(town.changes(node), town.intergreens[node], town.least[node])
        for stage in stages: yield line('STAGE', *stage)
    for l, link in town.links.items():
        flows = *number('ENTRY', l), *number('SATURATION', l), *number('WEIGHT', l)
        yield line('LINK', l, link.node, *flows, link.start, link.end, *link.stages)
    for l, link in town.links.items():
        for f in link.feeders: yield line('FEED', l, f, *number('PART', l, f), *number('CRUISE', l, f))
    for l, link in town.links.items():
        if link.rule: yield line('YIELD', l, *link.rule)
    if town.plan: yield line('STEPS', *town.plan)
    yield 'END'


def index(town: Town) -> Iterator[str]: yield line('INDEX', town.index())


def links(town: Town) -> Iterator[str]:
    for l, link in town.evaluation.links.items():
        yield 'LINK {} UNIFORM {} RANDOM {} STOPS {} INDEX {}'.format(l, *link.figures)
    yield from index(town)


def figures(town: Town) -> Iterator[str]:
    C, delays, stops, worst = town.frame[0], 0, 0, (-1, 0)
    for l, link in town.evaluation.links.items():
        A, B, (uniform, random, stopped, _) = sum(link.IN), sum(link.GO), link.figures
        sent = sum(flow for (word, *names), (flow, *_) in town.numbers.items() if word == 'PART' and names[1] == l)
        degree = 0 if A == 0 else 999999 if B == 0 else min(999999, 1000 * A // B)
        delay, part = (10 * C * (uniform + random) // A, 1000 * C * stopped // A) if A else (0, 0)
        yield line('LINK', l, 'FLOW', town.flow(l), 'SENT', sent, 'SATURATION', degree, 'DELAY', delay, 'STOPPED', part,
                   'QUEUE', max(link.QUEUE))
        delays, stops = delays + uniform + random, stops + stopped
        if degree > worst[0]: worst = degree, l
    yield line('TOTAL DELAY', delays, 'STOPS', stops, 'INDEX', town.index(), 'WORST', worst[1])


def chart(town: Town) -> Iterator[str]:
    for l, link in town.evaluation.links.items():
        marks = ['.qGQ'[2 * (go > 0) + (queue > 0)] for go, queue in zip(link.GO, link.QUEUE)]
        yield line('CHART', l, ''.join(marks))
    yield 'END CHART'


def timing(town: Town) -> Iterator[str]:
    for node, intergreens in town.intergreens.items():
        yield line('NODE', node, 'OFFSET', town.offset(node))
        stages = zip(town.changes(node), town.lengths(node), intergreens, town.least[node])
        for k, (change, length, intergreen, least) in enumerate(stages, 1):
            yield line('STAGE', k, 'CHANGE', change, 'AT', (change + town.offset(node)) % town.frame[1], 'LENGTH', length,
                       'INTERGREEN', intergreen, 'GREEN', length - intergreen, 'LEAST', least)
    yield 'END TIMING'


def profile(town: Town, l: int) -> Iterator[str]:
    link = town.evaluation.links[l]
    for name in ('IN', 'GO', 'OUT'): yield line(name, l, *getattr(link, name))


def queue(town: Town, l: int) -> Iterator[str]: yield line('QUEUE', l, *town.evaluation.links[l].QUEUE)


def plot(town: Town, l: int) -> Iterator[str]:
    rows = town.evaluation.links[l][:3]
    scale = max(map(max, rows))
    yield line('PLOT', l, 'SCALE', scale)
    for i, values in enumerate(zip(*rows)):
        fields = [(letter * (20 * value // max(1, scale))).ljust(20, '.') for letter, value in zip('IGO', values)]
        yield f'{i:03} ' + '|'.join(fields)


REPORTS = {'INDEX': index, 'LINKS': links, 'FIGURES': figures, 'CHART': chart, 'TIMING': timing, 'DECK': deck,
           'PROFILE': profile, 'QUEUE': queue, 'PLOT': plot}
