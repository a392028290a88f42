"""Lines, words and cards: how an input is cut, which code each line has, and the network of a deck."""
from typing import Optional

from town import Link, Town

LONGEST, MOST = 4096, 4194304  # bytes of a line and of an input


def cut(data: bytes, whole: bool = False) -> list[bytes]:
    """The lines of an input, each without its LF and one CR before it: [Lines]. Or only those that an LF ends."""
    *lines, last = data.split(b'\n')
    if last and not whole: lines.append(last)
    return [line[:-1] if line.endswith(b'\r') else line for line in lines]


def is_skipped(line: bytes) -> bool:
    """Whether a line is a comment, or holds blanks and tabs alone."""
    return len(line) <= LONGEST and (line[:1] == b'*' or not line.strip(b' \t'))


def words_of(line: bytes) -> list[str]:
    return [word.decode('latin-1') for word in line.replace(b'\t', b' ').split(b' ') if word]


def is_number(word: str) -> bool: return 1 <= len(word) <= 9 and all('0' <= digit <= '9' for digit in word)


def line_fault(line: bytes, counts: dict[str, range]) -> Optional[int]:
    """The first of 11, 10, 12 and 13 that holds of a line; `counts` says how many numbers each keyword has."""
    if len(line) > LONGEST: return 11
    if not all(33 <= byte <= 126 or byte in b' \t' for byte in line): return 10
    keyword, *words = words_of(line)
    if keyword not in counts: return 10
    if len(words) not in counts[keyword]: return 12
    return None if all(map(is_number, words)) else 13


def numbers_of(line: bytes) -> list:
    """The keyword and the numbers of a line that is no fault."""
    keyword, *words = words_of(line)
    return [keyword, *map(int, words)]


COUNTS = {'FORM': range(1, 2), 'CYCLE': range(5, 7), 'NODE': range(2, 3), 'STAGE': range(3, 4), 'LINK': range(7, 15),
          'FEED': range(4, 5), 'YIELD': range(3, 4), 'STEPS': range(2, 18), 'END': range(0, 1)}
# the cards that may not stand before one
BARS = {'FORM': set(COUNTS), 'CYCLE': set(COUNTS) - {'FORM'}, 'NODE': {'LINK', 'FEED', 'YIELD', 'STEPS'},
        'LINK': {'FEED', 'YIELD', 'STEPS'}, 'FEED': {'STEPS'}, 'YIELD': {'STEPS'}, 'STEPS': {'STEPS'}}
NUMBER, FLOW, WEIGHT = (1, 99999), (0, 9999), (0, 999)


class Deck:
    """The cards that were accepted so far. `town` is their network."""

    def __init__(self) -> None:
        self.town, self.form, self.accepted, self.last = Town([]), 1, set(), ''

    def take(self, line: bytes) -> Optional[int]:
        """The code of a line that isn't skipped; or none, and then its card is accepted."""
        counts = {**COUNTS, 'LINK': range(9, 17)} if self.form == 2 else COUNTS
        code = line_fault(line, counts)
        if code: return code
        keyword, *n = numbers_of(line)
        code = self.fault(keyword, n)
        if code: return code
        getattr(self, 'take_' + keyword.lower())(*n)
        self.accepted.add(keyword)
        self.last = keyword

    def fault(self, keyword: str, n: list[int]) -> Optional[int]:
        """The first of 15, 16, 17, 14 and 20 that holds of a card, and of END 22, 18, 19."""
        if not self.is_in_place(keyword): return 15
        if self.is_given_twice(keyword, n): return 16
        if not self.are_known(keyword, n): return 17
        if not all(low <= value <= high for value, (low, high) in zip(n, self.ranges(keyword, n))): return 14
        if self.is_full(keyword, n): return 20
        plans = map(self.town.plan_fault, self.town.intergreens) if keyword == 'END' else []
        return next(filter(None, plans), None)

    def is_in_place(self, keyword: str) -> bool:
        if keyword == 'STAGE': return self.last in ('NODE', 'STAGE')
        return not self.accepted & BARS.get(keyword, set()) and (keyword in ('FORM', 'CYCLE') or 'CYCLE' in self.accepted)

    def split_link(self, n: list[int]) -> tuple[list[int], list[int], list[int]]:
        """The numbers of a LINK card up to its weights, its lags, and its stages."""
        return (n[:6], n[6:8], n[8:]) if self.form == 2 else (n[:6], [0, 0], n[6:])

    def is_given_twice(self, keyword: str, n: list[int]) -> bool:
        town = self.town
        if keyword == 'NODE': return n[0] in town.intergreens
        if keyword == 'LINK': return n[0] in town.links or len(set(self.split_link(n)[2])) < len(self.split_link(n)[2])
        if keyword == 'FEED': return n[0] in town.links and n[1] in town.links[n[0]].feeders
        return keyword == 'YIELD' and n[0] in town.links and town.links[n[0]].rule is not None

    def are_known(self, keyword: str, n: list[int]) -> bool:
        town = self.town
        if keyword in ('FEED', 'YIELD'): return n[0] in town.links and n[1] in town.links
        if keyword != 'LINK': return True
        return n[1] in town.intergreens and all(1 <= k <= len(town.intergreens[n[1]]) for k in self.split_link(n)[2])

    def ranges(self, keyword: str, n: list[int]) -> list[tuple[int, int]]:
        """The range of each number of a card; a name that has to be known already is in its range."""
        if keyword == 'FORM': return [(1, 2)]
        if keyword == 'CYCLE': return [(30, 240), (10, 120), (1, 8), (15, 120), (0, 9999), (0, 100)]
        if keyword == 'FEED': return [NUMBER, NUMBER, FLOW, (1, 300)]
        if keyword == 'YIELD': return [NUMBER, NUMBER, (0, 400)]
        if keyword == 'END': return []
        N = self.town.frame[1]
        step = (0, N - 1)
        if keyword == 'NODE': return [NUMBER, step]
        if keyword == 'STAGE': return [step, step, (1, N)]
        if keyword == 'STEPS': return [(1, 1000000)] + [(1, N - 1)] * 16
        return [NUMBER, NUMBER, FLOW, (100, 9999), WEIGHT, WEIGHT] + ([step, step] if self.form == 2 else [])

    def is_full(self, keyword: str, n: list[int]) -> bool:
        town = self.town
        if keyword == 'NODE': return len(town.intergreens) == 200
        if keyword == 'STAGE': return len(town.intergreens[self.node]) == 8
        if keyword == 'LINK': return len(town.links) == 1000
        return keyword == 'FEED' and len(town.links[n[0]].feeders) == 8

    def take_form(self, form: int) -> None: self.form = form
    def take_cycle(self, *frame: int) -> None: self.town.frame = [*frame, 35][:6]
    def take_steps(self, *plan: int) -> None: self.town.plan = list(plan)
    def take_end(self) -> None: pass

    def take_node(self, number: int, offset: int) -> None:
        self.node, self.town.intergreens[number], self.town.least[number] = number, [], []
        self.town.numbers['OFFSET', number] = offset,

    def take_stage(self, change: int, intergreen: int, least: int) -> None:
        self.town.intergreens[self.node].append(intergreen)
        self.town.least[self.node].append(least)
        self.town.numbers['CHANGE', self.node, len(self.town.least[self.node])] = change,

    def take_link(self, *n: int) -> None:
        (number, node, entry, saturation, *weights), lags, stages = self.split_link(list(n))
        self.town.links[number] = Link(node, *lags, tuple(stages))
        self.town.numbers.update({('ENTRY', number): (entry,), ('SATURATION', number): (saturation,),
                                  ('WEIGHT', number): tuple(weights)})

    def take_feed(self, number: int, feeder: int, flow: int, cruise: int) -> None:
        link = self.town.links[number]
        self.town.links[number] = link._replace(feeders=(*link.feeders, feeder))
        self.town.numbers.update({('PART', number, feeder): (flow,), ('CRUISE', number, feeder): (cruise,)})

    def take_yield(self, number: int, other: int, percent: int) -> None:
        self.town.links[number] = self.town.links[number]._replace(rule=(other, percent))


def read_deck(lines: list[bytes]) -> tuple[Optional[Town], int, int]:
    """The network of a deck and the number of END's line; or none, the number of the refused line and its code: [Deck]."""
    deck = Deck()
    for place, line in enumerate(lines, 1):
        if is_skipped(line): continue
        code = deck.take(line)
        if code: return None, place, code
        if deck.last == 'END': return deck.town, place, 0
    return None, len(lines) + 1, 21
