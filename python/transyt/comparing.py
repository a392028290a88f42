"""Two plans side by side: the figures of each link, and their differences; what else differs between the decks."""

import csv
import io
from dataclasses import dataclass
from typing import Callable, List, Optional, Tuple

from .deck import Deck, Link
from .pictures.source import Answers
from .report import Figures, Line, LinkFigures
from .text import csv_name

NO_GREEN = 999_999  # SATURATION where GO is 0
DIFFERENT = "the totals are of different networks"
Shown = Callable[[int], str]


def in_tenths(raw: int) -> str:
    """A number of tenths."""
    return f"{raw / 10:.1f}"


def in_millions(raw: int) -> str:
    """A number of millionths with three decimals."""
    return f"{raw / 1_000_000:.3f}"


@dataclass(frozen=True)
class Measure:
    """A figure that is compared: its word in FIGURES, its name, how a raw number is shown, by what it is divided."""

    word: str
    name: str
    shown: Shown
    divisor: str = ""

    @property
    def formula(self) -> str:
        """How what is shown is worked out of the raw number, where it isn't that number."""
        return self.divided(self.word)

    def divided(self, numerator: str) -> str:
        """A numerator over the divisor, if there is one."""
        return f"{numerator} / {self.divisor}" if self.divisor else ""


MEASURES = (
    Measure("DELAY", "s a vehicle", in_tenths, "10"),
    Measure("SATURATION", "saturation %", lambda raw: "no green" if raw >= NO_GREEN else in_tenths(raw), "10"),
    Measure("QUEUE", "queue", lambda raw: f"{raw / 1_000_000:.1f}", "1,000,000"),
)
TOTALS = (Measure("DELAY", "delay, vehicle-hours in an hour", in_millions, "1,000,000"),
          Measure("STOPS", "stops a second", in_millions, "1,000,000"), Measure("INDEX", "INDEX", str))


@dataclass(frozen=True)
class Pair:
    """A figure of both plans: the lines of either report in which it stands, None where a plan hasn't it."""

    measure: Measure
    one: Optional[Line]
    other: Optional[Line]
    is_comparable: bool = True

    @property
    def difference(self) -> Optional[int]:
        """The second raw number less the first; None where the two can't be compared, or one has no green."""
        if self.one is None or self.other is None or not self.is_comparable:
            return None
        one, other = self.one.raw[self.measure.word], self.other.raw[self.measure.word]
        return None if self.measure.word == "SATURATION" and max(one, other) >= NO_GREEN else other - one

    @property
    def is_nothing_as_shown(self) -> bool:
        """Whether the difference is 0 as it is shown."""
        return self.difference is None or self.measure.shown(abs(self.difference)) == self.measure.shown(0)

    @property
    def difference_formula(self) -> str:
        """How the difference is worked out, in words and in the two raw numbers."""
        if self.one is None or self.other is None:
            return ""
        word = self.measure.word
        sides = f"AGAINST {word} - {word}", f"{self.other.raw[word]} - {self.one.raw[word]}"
        return " = ".join(self.measure.divided(f"({side})") or side for side in sides)

    def cells(self) -> Tuple[str, str, str]:
        """The figure of both plans, and the difference, as text."""
        one, other = ("" if line is None else self.measure.shown(line.raw[self.measure.word])
                      for line in (self.one, self.other))
        return one, other, "" if self.difference is None else signed(self.difference, self.measure.shown)


@dataclass(frozen=True)
class Row:
    """A link of one plan or of both."""

    number: int
    name: str
    one: Optional[LinkFigures]
    other: Optional[LinkFigures]

    @property
    def loss(self) -> int:
        """By how much the delay of a vehicle is greater in the second plan, in tenths of a second."""
        return self.other.raw["DELAY"] - self.one.raw["DELAY"] if self.one and self.other else 0

    @property
    def pairs(self) -> Tuple[Pair, ...]:
        """Its figures that are compared."""
        return tuple(Pair(measure, self.one, self.other) for measure in MEASURES)


@dataclass(frozen=True)
class Differs:
    """What else differs between two decks; a number of the frame with its place in the deck, and what it is in both."""

    name: str
    place: str = ""
    one: int = 0
    other: int = 0

    def __str__(self) -> str:
        return f"{self.name}: {self.one} and {self.other}" if self.place else self.name


@dataclass(frozen=True)
class Comparison:
    """Two plans: what else differs, the rows with the greatest loss first, and the totals."""

    told: Tuple[Differs, ...]
    is_same_network: bool
    is_same_index: bool
    rows: Tuple[Row, ...]
    one: Figures
    other: Figures

    @property
    def differences(self) -> Tuple[str, ...]:
        """What else differs, as text."""
        return tuple(map(str, self.told))

    @property
    def totals(self) -> Tuple[Pair, ...]:
        """The totals; without a difference where the two can't be compared."""
        return tuple(Pair(measure, self.one.total, self.other.total,
                          self.is_same_network and (measure.word != "INDEX" or self.is_same_index))
                     for measure in TOTALS)


def compared(one: Answers, other: Answers) -> Comparison:
    """The comparison of two plans."""
    deck, second = one.deck(), other.deck()
    first_figures, second_figures = one.figures(), other.figures()
    rows: List[Row] = []
    for number in dict.fromkeys([link.number for link in (*deck.links, *second.links)]):
        name = deck.names.links.get(number) or second.names.links.get(number) or ""
        rows.append(Row(number, name, figures_of(first_figures, deck, number),
                        figures_of(second_figures, second, number)))
    rows.sort(key=lambda row: (row.one is None or row.other is None, -row.loss))
    same = set(deck.link_by_number) == set(second.link_by_number)
    return Comparison(tuple(differences_of(deck, second)), same, index_by(deck) == index_by(second), tuple(rows),
                      first_figures, second_figures)


def index_by(deck: Deck) -> object:
    """What an index is reckoned by: S, T, K, k and the weights; where these differ two indexes have no difference."""
    frame = deck.frame
    return (frame.sweeps, frame.period, frame.stop_penalty, frame.dispersion,
            sorted((link.number, *weights_of(link)) for link in deck.links))


def figures_of(figures: Figures, deck: Deck, number: int) -> Optional[LinkFigures]:
    """The figures of a link, if it is there."""
    return figures.link(number) if number in deck.link_by_number else None


def differences_of(one: Deck, other: Deck) -> List[Differs]:
    """What differs besides offsets and changes: the frame, and flows, saturations, weights, cruise times and rules."""
    told = []
    for place, (word, name) in enumerate((("cycle", "cycle, s"), ("step_count", "steps"), ("sweeps", "sweeps S"),
                                          ("period", "period T, min"), ("stop_penalty", "stop penalty K"),
                                          ("dispersion", "dispersion k, %")), 1):
        before, after = getattr(one.frame, word), getattr(other.frame, word)
        if before != after:
            told.append(Differs(name, f"DECK CYCLE {place}", before, after))
    both = [number for number in one.link_by_number if number in other.link_by_number]
    for what, value in (("flow", flow_of), ("saturation flow", lambda link: link.saturation), ("weights", weights_of),
                        ("cruise time", cruises_of), ("lags", lambda link: (link.start_lag, link.end_lag)),
                        ("stages", lambda link: link.stages), ("give-way rule", lambda link: link.gives_way)):
        differ = [number for number in both if value(one.link(number)) != value(other.link(number))]
        if differ:
            told.append(Differs(f"{what} of {'link' if len(differ) == 1 else 'links'} {', '.join(map(str, differ))}"))
    return told


def flow_of(link: Link) -> object:
    """The flows of a link: its entry flow and its feeds."""
    return link.entry, sorted((feed.feeder, feed.flow) for feed in link.feeds)


def weights_of(link: Link) -> Tuple[int, int]:
    """The weights of a link."""
    return link.delay_weight, link.stop_weight


def cruises_of(link: Link) -> object:
    """The cruise times of a link's feeds."""
    return sorted((feed.feeder, feed.cruise) for feed in link.feeds)


def signed(difference: int, shown: Shown) -> str:
    """A difference with its sign."""
    return f"{'+' if difference > 0 else '-' if difference < 0 else ''}{shown(abs(difference))}"


def heads() -> List[str]:
    """The heads of a comparison's table."""
    return ["link", "name"] + [head for measure in MEASURES for head in (measure.name, "against", "difference")]


def table_rows(comparison: Comparison) -> List[List[str]]:
    """The rows of a comparison's table as text."""
    return [[str(row.number), row.name] + [cell for pair in row.pairs for cell in pair.cells()]
            for row in comparison.rows]


def as_csv(comparison: Comparison) -> str:
    """The comparison as CSV."""
    out = io.StringIO()
    writer = csv.writer(out, lineterminator="\n")
    writer.writerow(heads())
    for row in table_rows(comparison):
        writer.writerow([row[0], csv_name(row[1]), *row[2:]])
    if not comparison.is_same_network:
        writer.writerow(["total", DIFFERENT])
    for total in comparison.totals:
        writer.writerow(["total", total.measure.name, *total.cells()])
    return out.getvalue()


def as_text(comparison: Comparison, shown: Callable[[str], str]) -> str:
    """The comparison as text; `shown` makes a name fit for a terminal."""
    lines = [f"differs: {difference}" for difference in comparison.differences]
    rows = [heads()] + [[row[0], shown(row[1])[:30], *row[2:]] for row in table_rows(comparison)]
    wide = [max(len(row[column]) for row in rows) for column in range(len(rows[0]))]
    lines += ["  ".join(cell.ljust(wide[place]) if place == 1 else cell.rjust(wide[place])
                        for place, cell in enumerate(row)).rstrip() for row in rows]
    if not comparison.is_same_network:
        lines.append(DIFFERENT)
    for total in comparison.totals:
        one, other, difference = total.cells()
        more = f", difference {difference}" if difference else ""
        lines.append(f"{total.measure.name}: {one}, against {other}{more}")
    return "".join(line + "\n" for line in lines)
