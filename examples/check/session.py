"""A run: a deck, then commands, and the answer to each line."""
from typing import Callable, Generator, Iterator, Optional

from cards import Deck, is_skipped, line_fault, numbers_of
from texts import REPORTS, line
from town import Town, climb, due, moves, refusal, text_of, with_move

COUNTS = {'OFFSET': 2, 'CHANGE': 3, 'ENTRY': 2, 'PART': 3, 'CRUISE': 3, 'SATURATION': 2, 'WEIGHT': 3, 'TRIAL': 0,
          'BACK': 0, 'KEEP': 0, 'CLIMB': 0, 'CERT': 0, 'INDEX': 0, 'LINKS': 0, 'FIGURES': 0, 'TIMING': 0, 'PROFILE': 1,
          'PLOT': 1, 'QUEUE': 1, 'CHART': 0, 'WORK': 0, 'DECK': 0, 'STOP': 0}
TAKEN = {keyword: range(count, count + 1) for keyword, count in COUNTS.items()}
Answers = Generator[str, None, str]


class Session:
    """The network under edits, the one before the open trial or none, and the work so far: [Session]."""

    def __init__(self, town: Town, climber: Callable = climb) -> None:
        self.town, self.before, self.work, self.climber = town, None, 0, climber

    def code(self, keyword: str, *n: int) -> Optional[int]:
        """The code of a command whose words are right, or none."""
        if keyword in ('PROFILE', 'QUEUE', 'PLOT'): return None if n[0] in self.town.links else 17
        if keyword in ('BACK', 'KEEP'): return None if self.before else 24
        if keyword in ('TRIAL', 'CLIMB', 'CERT') and self.before: return 25
        if keyword in ('CLIMB', 'CERT') and not self.town.plan: return 26
        return refusal(self.town, keyword, *n) if n else None

    def answer(self, keyword: str, *n: int) -> Iterator[str]:
        """The lines of a command that isn't refused."""
        if keyword in REPORTS: yield from REPORTS[keyword](self.town, *n)
        elif keyword == 'WORK': yield line('WORK', self.work)
        elif keyword == 'CLIMB': yield from self.climb()
        elif keyword == 'CERT':
            for town, text in cert(self.town):
                self.work += due(self.town, town) if town else 0
                yield text
        elif keyword != 'STOP':
            self.change(keyword, *n)
            yield 'DONE'

    def change(self, keyword: str, *n: int) -> None:
        """Makes an edit, or opens or closes a trial."""
        if keyword == 'TRIAL': self.before = self.town
        elif keyword == 'KEEP': self.before = None
        elif keyword == 'BACK': self.town, self.before = self.before, None
        else:
            after = self.town.edited(keyword, *n)
            self.work, self.town = self.work + due(self.town, after), after

    def climb(self) -> Iterator[str]:
        done = self.climber(self.town)
        self.town, self.work = done.town, self.work + done.work
        yield from done.steps
        yield line(done.end, done.looked, 'INDEX', self.town.index())


def cert(town: Town) -> Iterator[tuple[Optional[Town], str]]:
    """A certificate: each move's town, or none where it is barred, with its line; and the last line."""
    place = -1
    for place, move in enumerate(moves(town)):
        after = with_move(town, move)
        yield after, line('MOVE', place, text_of(move), *(['INDEX', after.index()] if after else ['BARRED']))
    yield None, line('CERT', place + 1, 'INDEX', town.index())


def answered(lines: Iterator[bytes], climber: Callable = climb) -> Answers:
    """The answers to lines, and what they came to: REFUSED at a card, STOPPED, DONE; OPEN where END didn't come."""
    deck, session, number = Deck(), None, 0
    for number, text in enumerate(lines, 1):
        if is_skipped(text): continue
        if not session:
            code = deck.take(text)
            if code:
                yield line('CARD', number, 'REFUSED', code)
                return 'REFUSED'
            if deck.last == 'END':
                session = Session(deck.town, climber)
                yield line('ACCEPTED', len(deck.town.intergreens), len(deck.town.links))
            continue
        code = line_fault(text, TAKEN) or session.code(*numbers_of(text))
        if code:
            yield line('REFUSED', code)
            continue
        yield from session.answer(*numbers_of(text))
        if numbers_of(text) == ['STOP']: return 'STOPPED'
    return 'DONE' if session else 'OPEN'
