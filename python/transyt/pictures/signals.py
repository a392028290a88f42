"""Each junction's stages over the cycle."""

from typing import List, Tuple

from ..deck import Deck
from ..report import NodeTiming, StageTiming
from .letters import width_of
from .source import Answers, isolated, node_name, whose
from .svg import CAN_GO, GREEN_EDGE, WIDE, Axis, Drawing, legend, seconds

LEFT, BAR, LINE = 216.0, 20.0, 10.0  # the column of names, a bar's height, that of a line of ATs
AT_SIZE = 10.0  # of an AT's digits
ROOM_FOR_NAME = 30.0  # of a stage's green, so that some letters of its name are seen beside its number
Mark = Tuple[float, str, int]  # where an AT stands, as it is shown, and its line: from 0 up above the bar, else below


def signals(answers: Answers) -> str:
    """Each junction's stages in seconds of the common cycle: intergreens hatched, greens with their number and name."""
    deck, timing = answers.deck(), answers.timing()
    axis = Axis(LEFT, WIDE - 24, deck.frame.cycle)
    rows = [(node, marks_of(deck, axis, node)) for node in timing.nodes]
    tops, y = [], 38.0
    for _, marks in rows:
        tops.append(y + LINE * (1 + max([0, *(line for _, _, line in marks)])))
        y = tops[-1] + BAR + 10 + LINE * max([0, *(-line for _, _, line in marks)])
    drawing = Drawing("signals", y + 16, "Stages over the cycle", whose(answers, deck))
    legend(drawing, 18, ((drawing.hatch(), "intergreen"), (CAN_GO, "green of a stage"),
                         ("-#1d1d26", "AT, where the intergreen begins, in seconds")))
    axis.draw(drawing, 30, y)
    for (node, marks), top in zip(rows, tops):
        draw_node(drawing, deck, axis, (node, marks), top)
    return str(drawing)


def marks_of(deck: Deck, axis: Axis, node: NodeTiming) -> List[Mark]:
    """Where each AT of a junction is written: above its bar, or in the next line where it would run into another."""
    marks: List[Mark] = []
    ends = {line: -1e9 for line in (0, -1, 1, -2, 2, -3)}
    for at in sorted(stage.raw["AT"] * deck.frame.step_seconds for stage in node.stages):
        shown, x = seconds(at), axis.x(at)
        half = AT_SIZE * width_of(shown) / 2
        line = next((line for line, end in ends.items() if x - half > end), 3)
        ends[line] = x + half + 2
        marks.append((x, shown, line))
    return marks


def draw_node(drawing: Drawing, deck: Deck, axis: Axis, row: Tuple[NodeTiming, List[Mark]], top: float) -> None:
    """A junction's bar, its name before it, its ATs above and below."""
    node, marks = row
    drawing.open(f'class="junction node-{node.number}"')
    drawing.words((12, top + 14), node_name(deck, node.number), bold=True, width=LEFT - 22, kind="name")
    for stage in node.stages:
        draw_stage(drawing, deck, axis, (node.number, stage), top)
    for x, shown, line in marks:
        high, low = top - 3 - LINE * max(line, 0), top + BAR + 3 + LINE * max(-1 - line, 0)
        drawing.line((x, high), (x, low), wide=1.4)
        drawing.words((x, high - 2 if line >= 0 else low + 8), shown, "middle", size=AT_SIZE, kind="at",
                      title=f"AT × {deck.frame.cycle} s / {deck.frame.step_count} steps")
    drawing.close()


def draw_stage(drawing: Drawing, deck: Deck, axis: Axis, which: Tuple[int, StageTiming], top: float) -> None:
    """A stage's intergreen and green, parted where the cycle ends."""
    node, stage = which
    step, count = deck.frame.step_seconds, deck.frame.step_count
    at, intergreen, green = (stage.raw[word] for word in ("AT", "INTERGREEN", "GREEN"))
    name = deck.names.stages.get((node, stage.number), "")
    title = (f"junction {node}, stage {stage.number}{' ' + isolated(name) if name else ''}: AT {at}, "
             f"INTERGREEN {intergreen}, GREEN {green} steps of {seconds(step)} s")
    widest: Tuple[float, float] = (0, 0)
    for begin, length, fill in ((at, intergreen, drawing.hatch()), (at + intergreen, green, CAN_GO)):
        kind = f"stage stage-{stage.number} {'green' if fill == CAN_GO else 'intergreen'}"
        for first, last in parted(begin % count, length, count):
            drawing.box((axis.x(first * step), top), (axis.wide((last - first) * step), BAR), fill, title, kind=kind,
                        edge=GREEN_EDGE)
            if fill == CAN_GO:
                widest = max(widest, (axis.wide((last - first) * step), axis.x(first * step)))
    if widest[0] >= 12:
        room = widest[0] - 6
        label = f"{stage.number} {isolated(name)}" if name and room >= ROOM_FOR_NAME else str(stage.number)
        drawing.words((widest[1] + 4, top + 14), label, size=11, width=room, kind="label")


def parted(begin: int, length: int, count: int) -> Tuple[Tuple[int, int], ...]:
    """A time round the cycle as one or two times within it."""
    end = begin + length
    if length == 0:
        return ()
    return ((begin, end),) if end <= count else ((begin, count), (0, end - count))
