"""The page of a plan: one file that needs no network and no script, with the pictures, the figures and the tables.

Each figure stands in a `<data>` with its raw value and its place in the report, as `FIGURES LINK 21 DELAY`. A place
with a `+` is the sum of numbers, round the cycle where it is a time. A place after `AGAINST` is one in the other plan's
report; one after `DIFFERENCE` is the other plan's number less this plan's, and both stand in its title.
"""

from typing import Callable, List, Optional, Tuple

from . import pictures
from .comparing import DIFFERENT, Comparison, Differs, Pair, compared, heads
from .deck import Deck
from .html import beside, document, figure, paired, table, text, with_others
from .pictures.source import Answers, Once
from .report import Certificate, Line, LinkFigures, StageTiming

Part = Callable[[Answers], str]
METRES_A_VEHICLE = 6
LEAST, LOWER = "the least INDEX of the MOVE lines", "MOVE lines with an INDEX below that of CERT"


def page(answers: Answers, against: Optional[Answers] = None, top: str = "", foot: str = "", title: str = "") -> str:
    """The page of a plan, each figure with another plan's beside it where one is given.

    `top` and `foot` are HTML for what a filed plan says of itself.
    """
    answers, other = Once(answers), Once(against) if against is not None else None

    def both(part: Part) -> str:
        return joined(with_others, part, answers, other)

    deck = answers.deck()
    name = title or deck.names.town or "Signal plan"
    parts = [f"<h1>{text(name)}</h1>", top, summary(answers, other)]
    if other:
        parts.append(comparison_part(compared(answers, other)))
    if pictures.routes_of(deck):
        parts += ["<h2>Road</h2>", pictures.road(answers)]
    parts += ["<h2>Signals</h2>", pictures.signals(answers), "<h2>Saturation</h2>", pictures.saturation(answers),
              "<h2>Links</h2>", both(links_table), "<h2>For the controllers</h2>", both(controller_table)]
    if deck.climb_plan:
        parts += ["<h2>Certificate</h2>",
                  certificate_part(answers, other if other and other.deck().climb_plan else None)]
    parts += ['<p class="small">Delay, queue, saturation, stops and INDEX are the program\'s; of each the page has the '
              "raw number and its place in the report. They hold for the model: docs/GUIDE.md says when not to trust "
              "it.</p>", foot]
    return document(name, "\n".join(part for part in parts if part))


def joined(way: Callable[[str, str], str], part: Part, answers: Answers, other: Optional[Answers]) -> str:
    """A part of the page; where there is another plan, with its part in the way that is named."""
    return way(part(answers), part(other)) if other else part(answers)


def summary(answers: Answers, other: Optional[Answers] = None) -> str:
    """The frame, the totals, and how a climb would go on."""
    return ("<dl>" + joined(with_others, frame_and_totals, answers, other)
            + described("Fullest link", joined(beside, fullest, answers, other))
            + described("Ended", joined(paired, ended, answers, other)) + "</dl>")


def described(name: str, value: str) -> str:
    """A name and its value."""
    return f"<dt>{name}</dt><dd>{value}</dd>"


def frame_and_totals(answers: Answers) -> str:
    """The frame, and the totals of FIGURES."""
    frame, total = answers.deck().frame, answers.figures().total
    rows = [("Cycle", f"{figure('DECK CYCLE 1', frame.cycle, str(frame.cycle))} s in "
                      f"{figure('DECK CYCLE 2', frame.step_count, str(frame.step_count))} steps"),
            ("Period, sweeps", f"{figure('DECK CYCLE 4', frame.period, str(frame.period))} min, "
                               f"{figure('DECK CYCLE 3', frame.sweeps, str(frame.sweeps))}"),
            ("Stop penalty, dispersion", f"{figure('DECK CYCLE 5', frame.stop_penalty, str(frame.stop_penalty))} "
             f"hundredths of a second, {figure('DECK CYCLE 6', frame.dispersion, str(frame.dispersion))} %"),
            ("INDEX", figure(total.place("INDEX"), total.raw["INDEX"], str(total.raw["INDEX"]))),
            ("Delay", in_millions(total, "DELAY", 2) + " vehicle-hours in an hour"),
            ("Stops", in_millions(total, "STOPS", 3) + " a second")]
    return "".join(described(name, value) for name, value in rows)


def fullest(answers: Answers) -> str:
    """The link with the greatest degree of saturation, and its name."""
    figures = answers.figures()
    name = answers.deck().names.links.get(figures.worst, "")
    return f"{figure(figures.total.place('WORST'), figures.worst, str(figures.worst))} {text(name)}"


def ended(answers: Answers) -> str:
    """How the climb to the plan ended, if it can be climbed."""
    return ended_text(answers.certificate()) if answers.deck().climb_plan else "the deck has no STEPS card"


def in_millions(total: Line, word: str, digits: int) -> str:
    """A total that is printed in millionths."""
    shown = f"{total.raw[word] / 1_000_000:.{digits}f}"
    return figure(total.place(word), total.raw[word], shown, f"{word} / 1,000,000")


def ended_text(certificate: Certificate) -> str:
    """How the climb to the plan ended, by its certificate."""
    lower = sum(1 for move in certificate.moves if move.index is not None and move.index < certificate.index)
    if not lower:
        return "LOCAL: no listed move lowers INDEX"
    return f"{figure('CERT lower', lower, str(lower), LOWER)} listed moves lower INDEX: the climb isn't over"


def links_table(answers: Answers) -> str:
    """The links with their figures; a queue in metres where the sheets told lanes, marked where it is longer than a
    link."""
    deck = answers.deck()
    rows = [link_row(deck, one) for one in answers.figures().links]
    heads = ["link", "name", "veh/h", "saturation %", "s a vehicle", "stopped %", "queue, veh", "queue, m"]
    return table(heads, rows, 6, "sortable")


def link_row(deck: Deck, one: LinkFigures) -> List[str]:
    """A link's row."""
    def cell(word: str, shown: str, divisor: str = "") -> str:
        return figure(one.place(word), one.raw[word], shown, f"{word} / {divisor}" if divisor else "")

    saturation = f"{one.raw['SATURATION'] / 10:.1f}" if one.has_capacity else "no green"
    return [str(one.number), text(deck.names.links.get(one.number, "")), cell("FLOW", str(one.flow_an_hour)),
            cell("SATURATION", saturation, "10"), cell("DELAY", f"{one.delay_seconds:.1f}", "10"),
            cell("STOPPED", f"{100 * one.stopped:.1f}", "10"), cell("QUEUE", f"{one.queue_vehicles:.1f}", "1,000,000"),
            metres_cell(deck, one)]


def metres_cell(deck: Deck, one: LinkFigures) -> str:
    """A queue in metres: 6 m a vehicle over the lanes; marked where it is longer than the link is from some feeder."""
    lanes = deck.names.lanes.get(one.number)
    if not lanes:
        return ""
    metres = METRES_A_VEHICLE * one.queue_vehicles / lanes
    lengths = [length for (link, _), length in deck.names.metres.items() if link == one.number]
    shown = figure(one.place("QUEUE"), one.raw["QUEUE"], f"{metres:.0f}",
                   f"{METRES_A_VEHICLE} m × QUEUE / 1,000,000 / {lanes} lanes")
    longer = bool(lengths) and metres > min(lengths)
    return f'<span class="mark">{shown}, longer than the link</span>' if longer else shown


def controller_table(answers: Answers) -> str:
    """When each stage's intergreen and green begin and how long they last, in seconds of the common cycle and in
    steps."""
    deck = answers.deck()
    rows = []
    for node in answers.timing().nodes:
        for stage in node.stages:
            times = times_of(deck, stage)
            rows.append([f"{node.number} {text(deck.names.nodes.get(node.number, ''))}",
                         f"{stage.number} {text(deck.names.stages.get((node.number, stage.number), ''))}",
                         *(figure(place, steps, seconds_text(deck, steps), seconds_formula(deck, place))
                           for place, steps in times),
                         *(figure(place, steps, str(steps)) for place, steps in times)])
    seconds = ["intergreen begins, s", "lasts, s", "green begins, s", "lasts, s"]
    return table(["junction", "stage", *seconds, *(head.replace(", s", ", steps") for head in seconds)], rows, 8)


def times_of(deck: Deck, stage: StageTiming) -> List[Tuple[str, int]]:
    """The four times of a stage in steps, each with its place: AT, INTERGREEN, where green begins, GREEN."""
    begins = (stage.raw["AT"] + stage.raw["INTERGREEN"]) % deck.frame.step_count
    return [(stage.place("AT"), stage.raw["AT"]), (stage.place("INTERGREEN"), stage.raw["INTERGREEN"]),
            (f"{stage.place('AT')}+INTERGREEN", begins), (stage.place("GREEN"), stage.raw["GREEN"])]


def seconds_text(deck: Deck, steps: int) -> str:
    """Steps in seconds, with at most three decimals, a half up."""
    thousandths = (2000 * steps * deck.frame.cycle + deck.frame.step_count) // (2 * deck.frame.step_count)
    return f"{thousandths // 1000}.{thousandths % 1000:03d}".rstrip("0").rstrip(".")


def seconds_formula(deck: Deck, place: str) -> str:
    """How the seconds of a time in steps are worked out."""
    word, count = place.split(" ")[-1], deck.frame.step_count
    steps = f"((AT + INTERGREEN) mod {count})" if "+" in word else word
    return f"{steps} × {deck.frame.cycle} s / {count}"


def certificate_part(answers: Answers, other: Optional[Answers] = None) -> str:
    """What the certificate says: how many moves by which sizes, how many barred, whether one lowers the index."""
    return (f"<p>{joined(paired, ended, answers, other)}. {joined(with_others, places_text, answers, other)} moves by "
            f"steps of {joined(beside, sizes_text, answers, other)}, "
            f"{joined(paired, moves_text, answers, other)}. It says as much as the list.</p>")


def places_text(answers: Answers) -> str:
    """How many moves the list has."""
    places = len(answers.certificate().moves)
    return figure("CERT places", places, str(places), "MOVE lines")


def sizes_text(answers: Answers) -> str:
    """The step sizes of the list; the first number of STEPS is the budget."""
    plan = answers.deck().climb_plan
    return " ".join(figure(f"DECK STEPS {place}", size, str(size)) for place, size in enumerate(plan.sizes, 2)) \
        if plan else ""


def moves_text(answers: Answers) -> str:
    """How many moves are barred, the index, and the least with a move."""
    certificate = answers.certificate()
    indexes = [move.index for move in certificate.moves if move.index is not None]
    barred, least = len(certificate.moves) - len(indexes), ""
    if indexes:
        least = f"; the least with a move is {figure('CERT least', min(indexes), str(min(indexes)), LEAST)}"
    return (f"{figure('CERT barred', barred, str(barred), 'MOVE lines with BARRED')} of them barred; "
            f"INDEX {figure('CERT INDEX', certificate.index, str(certificate.index))}{least}")


def comparison_part(comparison: Comparison) -> str:
    """The other plan's figures beside this one's."""
    told = "".join(f"<li>{differs_text(differs)}</li>" for differs in comparison.told)
    rows = [[str(row.number), text(row.name), *(cell for pair in row.pairs for cell in pair_cells(pair))]
            for row in comparison.rows]
    totals = [[text(pair.measure.name), *pair_cells(pair)] for pair in comparison.totals]
    also = f"<p>Besides offsets and changes these differ:</p><ul>{told}</ul>" if told else ""
    return (f"<h2>Against the other plan</h2>{also}"
            + ("" if comparison.is_same_network else f'<p class="mark">{DIFFERENT}</p>')
            + table(["total", "this plan", "against", "difference"], totals, 3)
            + table(heads(), rows, len(heads()) - 2, "sortable"))


def differs_text(differs: Differs) -> str:
    """What else differs between the decks, its numbers with their places."""
    if not differs.place:
        return text(differs.name)
    return (f"{text(differs.name)}: {figure(differs.place, differs.one, str(differs.one))} and "
            f"{figure(f'AGAINST {differs.place}', differs.other, str(differs.other))}")


def pair_cells(pair: Pair) -> List[str]:
    """A figure of this plan and of the other, and the difference, which is marked where it isn't 0 as it is shown."""
    shown, formula = pair.cells(), pair.measure.formula
    cells = [figure(f"{plan}{line.place(pair.measure.word)}", line.raw[pair.measure.word], its, formula) if line else ""
             for plan, line, its in (("", pair.one, shown[0]), ("AGAINST ", pair.other, shown[1]))]
    if pair.one is None or pair.difference is None:
        return [*cells, ""]
    place = f"DIFFERENCE {pair.one.place(pair.measure.word)}"
    difference = figure(place, pair.difference, shown[2], pair.difference_formula)
    kind = "" if pair.is_nothing_as_shown else "worse" if pair.difference > 0 else "better"
    return [*cells, f'<span class="{kind}">{difference}</span>' if kind else difference]
