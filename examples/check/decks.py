"""Random inputs for the program: decks of every shape, with commands, refused cards, and lines written in every way.

Each is drawn by a `random.Random`, so that the same seed gives the same input."""
from random import Random
from typing import Callable


class Draft:
    """A random deck as cards, and the names that commands may use."""

    def __init__(self, draw: Random) -> None:
        self.draw, self.form = draw, draw.choice([0, 1, 2, 2])
        self.N = draw.choice([10, 120, 12, 18, 25, 40, 60])
        self.nodes: dict[int, int] = {}  # the number of stages of each
        self.links: list[int] = []
        self.feeds: list[tuple[int, int]] = []
        self.plan = ''
        self.cards = [f'FORM {self.form}'] if self.form else []
        self.cards.append(self.frame())
        for _ in range(draw.choice([0, 1, 1, 2, 2, 3, 4])): self.add_node()
        # a network without links is worked out too
        for _ in range(draw.choice([0, 1, 2, 3, 5, 8, 10]) if self.nodes else 0): self.add_link()
        self.add_feeds_and_rules()
        if draw.random() < 0.8: self.add_plan()

    def number(self, usual: int, most: int) -> int:
        """A number up to a usual greatest one, and now and then up to the limit of the cards."""
        return self.draw.randint(0, usual if self.draw.random() < 0.9 else most)

    def new_number(self, others: object) -> int:
        return self.draw.choice([n for n in self.draw.sample(range(1, 100000), 8) if n not in others])

    def frame(self) -> str:
        draw = self.draw
        frame = [draw.choice([30, 240, 60, 90, draw.randint(30, 240)]), self.N, draw.choice([1, 1, 2, 3, 8]),
                 draw.randint(15, 120), self.number(200, 9999), self.number(60, 100)]
        self.cycle = frame[0]
        return ' '.join(map(str, ['CYCLE', *frame[:draw.choice([5, 6])]]))

    def add_node(self) -> None:
        """A node of two to eight stages whose lengths sum to the cycle."""
        draw, N, number = self.draw, self.N, self.new_number(self.nodes)
        count = min(draw.choice([2, 2, 3, 4, 8]), N // 5)
        needs = [(draw.randint(0, 2), draw.randint(1, 3)) for _ in range(count)]
        spare, first = N - sum(map(sum, needs)), draw.randrange(N)
        cuts = sorted(draw.randint(0, spare) for _ in range(count - 1))
        lengths = [sum(need) + high - low for need, low, high in zip(needs, [0, *cuts], [*cuts, spare])]
        self.nodes[number] = count
        self.cards.append(f'NODE {number} {draw.randrange(N)}')
        for k, need in enumerate(needs): self.cards.append(f'STAGE {(first + sum(lengths[:k])) % N} {need[0]} {need[1]}')

    def add_link(self) -> None:
        draw, number, node = self.draw, self.new_number(self.links), self.draw.choice(list(self.nodes))
        runs = draw.sample(range(1, self.nodes[node] + 1), draw.choice([1, 1, 2, self.nodes[node]]))
        lags = [self.number(2, self.N - 1), self.number(2, self.N - 1)] if self.form == 2 else []
        # most links have room, some get more than they can let go
        entry = draw.choice([0, self.number(700, 9999), self.number(700, 9999), 9999])
        saturation = draw.choice([100, 100 + self.number(3500, 9899), 1800, 9999])
        card = [number, node, entry, saturation, self.number(5, 999), self.number(5, 999), *lags, *runs]
        self.links.append(number)
        self.cards.append(' '.join(map(str, ['LINK', *card])))

    def add_feeds_and_rules(self) -> None:
        """Feeds from any link, the same and later ones too, mixed with the rules."""
        draw, cards = self.draw, []
        for link in self.links:
            for feeder in draw.sample(self.links, min(len(self.links), draw.choice([0, 0, 1, 2, 3, 8]))):
                self.feeds.append((link, feeder))
                cards.append(f'FEED {link} {feeder} {self.number(600, 9999)} {1 + self.number(60, 299)}')
            if draw.random() < 0.3: cards.append(f'YIELD {link} {draw.choice(self.links)} {self.number(150, 400)}')
        draw.shuffle(cards)
        self.cards += cards

    def add_plan(self) -> None:
        sizes = [self.draw.randint(1, self.N - 1) for _ in range(self.draw.choice([1, 1, 2, 3]))]
        self.plan = ' '.join(map(str, ['STEPS', self.draw.choice([1, 7, 30, 60, 200]), *sizes]))
        self.cards.append(self.plan)


def commands(draft: Draft, count: int) -> list[str]:
    """Commands over a deck: edits, trials, climbs and reports, some of them refused."""
    draw, number, N = draft.draw, draft.number, draft.N
    name = lambda names, other: draw.choice(names) if names and draw.random() < 0.9 else other
    node, link = (lambda: name(list(draft.nodes), 7)), (lambda: name(draft.links, 5))
    feed = lambda: '{} {}'.format(*name(draft.feeds, (link(), link())))
    kinds: list[Callable[[], str]] = [
        lambda: f'OFFSET {node()} {draw.randrange(N + 2)}', lambda: f'ENTRY {link()} {number(700, 12000)}',
        lambda: f'CHANGE {node()} {draw.randint(0, 4)} {draw.randrange(N + 2)}',
        lambda: f'CHANGE {node()} {draw.randint(1, 2)} {draw.randrange(N)}',
        lambda: f'SATURATION {link()} {number(3500, 12000)}', lambda: f'PART {feed()} {number(600, 12000)}',
        lambda: f'WEIGHT {link()} {number(5, 999)} {number(5, 1100)}', lambda: f'CRUISE {feed()} {number(60, 330)}',
        lambda: f'PROFILE {link()}', lambda: f'QUEUE {link()}', lambda: f'PLOT {link()}', lambda: odd_command(draw)]
    plain = ['TRIAL', 'TRIAL', 'BACK', 'KEEP', 'CLIMB', 'INDEX', 'WORK', 'LINKS', 'FIGURES', 'CHART', 'TIMING', 'DECK']
    drawn = [draw.choice(kinds)() if draw.random() < 0.7 else draw.choice(plain) for _ in range(count)]
    if draw.random() < 0.1: drawn.insert(draw.randrange(count), 'STOP')
    return ['LINKS', *drawn, 'KEEP', 'CLIMB', 'LINKS', 'CERT', 'WORK', 'TIMING', 'DECK']


def odd_command(draw: Random) -> str:
    """A line that no command is, or one with other words than it has."""
    return draw.choice(['NODE 1 0', 'END', 'offset 1 1', 'LINKS 1', 'WORK x', 'TRIAL 0', 'QUEUE', 'QUEUE 1 1', 'OFFSET 1 -1',
                        'ENTRY 1 1.5', 'PROFILE 0000000001', 'CLIMB\r\r', ' * no comment', 'PLOT \xe9', '*' * 4097,
                        'INDEX' + ' ' * 4092, 'INDEX' + ' ' * 4091, 'X' * 5000, 'CERT 1 2 3', 'WEIGHT 1 1', 'BACK', 'KEEP'])


def spoiled(draft: Draft, cards: list[str]) -> list[str]:
    """The cards, END among them, with one thing wrong or, now and then, still right."""
    draw, cards = draft.draw, list(cards)
    place = draw.randrange(len(cards))
    keyword, *words = cards[place].split()
    spot = draw.randrange(len(words)) if words else 0
    number = draw.choice(['0', '1', '8', '9', str(draft.N - 1), str(draft.N), '300', '400', '401', '9999', '10000', '99999',
                          '100000', '1000001', '000000001', '0000000001', '-1', '+1', '1a', ''])
    kind = draw.randrange(9)
    if kind == 0: cards.insert(draw.randrange(len(cards)), cards.pop(place))  # out of order
    elif kind == 1: cards.insert(place, cards[draw.randrange(len(cards))])  # twice
    elif kind == 2: del cards[place]
    elif kind == 3: del cards[place:]  # no END
    elif kind in (4, 5): cards[place] = ' '.join([keyword, *words[:spot], number, *words[spot + 1:]])
    elif kind == 6: cards[place] = ' '.join([keyword, *words, *words[:1]])
    elif kind == 7: cards.insert(place, odd_command(draw))
    else: cards[place] = draw.choice([cards[place].lower(), cards[place] + '\x7f', '\x0b' + cards[place],
                                      '\xef\xbb\xbf' + cards[place], cards[place] + ' ' * 4096])
    return cards


def written(draw: Random, lines: list[str]) -> bytes:
    """The bytes of lines, now plain, now with comments, tabs, blanks, zeros and CR that change nothing."""
    if draw.random() < 0.4: return '\n'.join([*lines, '']).encode('latin-1')
    drawn, ends = [], draw.choice(['\n', '\r\n'])
    for line in lines:
        if draw.random() < 0.1: drawn.append(draw.choice(['* a comment \xff\x00', '', ' \t ', '*' * 4096, ' ' * 4096]))
        if len(line) < 4000 and not line.startswith(('*', ' ')):
            part = lambda byte: draw.choice([' ', '\t', ' \t ']) if byte == ' ' and draw.random() < 0.5 else byte
            line = ''.join(map(part, line))
            if draw.random() < 0.1: line = draw.choice([' ', '\t']) + line + draw.choice([' ', '\t', ''])
        drawn.append(line)
    return (ends.join(drawn) + draw.choice(['', '\n', '\r', '\r\n'])).encode('latin-1')


def certificate(draw: Random, lines: list[str]) -> list[str]:
    """The lines of a certificate, mostly with a line gone, doubled or changed."""
    place = draw.randrange(len(lines))
    return draw.choice([lines, lines[:place] + lines[place + 1:], [*lines[:place], lines[place], *lines[place:]],
                        [*lines[:place], '* a comment', lines[place] + '0', *lines[place + 1:]], [*lines, 'CERT'],
                        [*lines[:place], '', ' \t' + lines[place].replace(' ', '\t') + '\r', *lines[place + 1:]],
                        [*lines[:place], lines[place].replace('1', '01'), *lines[place + 1:]]])


def table(draft: Draft) -> list[str]:
    """A table of counts as spreadsheets write it; some rows have a code."""
    draw = draft.draw
    keys = [*draft.feeds, *((link, '') for link in draft.links)]
    rows = [[*draw.choice(keys), draft.number(900, 999999), 1 + draft.number(60, 1500)]
            for _ in range(draw.randrange(10) if keys else 0)]
    cells = [list(map(str, row)) for row in rows]
    for row in cells:
        odd = draw.choice(['', '7', 'x', '1,2', ' 1', '"1"', '""', '"1""2"', '1"'])
        if draw.random() < 0.1: row[draw.randrange(4)] = odd
        if draw.random() < 0.2: row[3] = draw.choice(['"15"', '015', '15', '15\r', '15\r\r'])
    lines = [','.join(row) for row in cells]
    for _ in range(draw.choice([0, 0, 1])):
        lines.insert(draw.randrange(len(lines) + 1), draw.choice(['', ' ', '* x', '"', '\x00']))
    return lines
