"""The index at the moves of the certificate."""

from typing import Dict, List, Optional, Tuple

from ..deck import Deck
from ..report import Move
from .source import Answers, node_name, whose
from .svg import CANNOT, FLOW, INK, PALE, WIDE, Axis, Drawing

HIGH, LEFT = 44.0, 216.0
Row = Tuple[Tuple[int, int], List[Tuple[int, Optional[int]]]]  # node and stage, 0 for the offset; numbers with indexes
Scale = Tuple[float, Tuple[int, int, int]]  # a row's top; the least index, that of the plan, the greatest


def sensitivity(answers: Answers) -> str:
    """Of each junction the index at the offsets of the list, of each stage at its changes; barred moves are marked."""
    deck, certificate = answers.deck(), answers.certificate()
    rows: Dict[Tuple[int, int], List[Tuple[int, Optional[int]]]] = {}
    for node in deck.nodes:
        rows.update({(node.number, stage): [] for stage in range(len(node.stages) + 1)})
    for move in certificate.moves:
        rows[key_of(move)].append((move.edit.numbers[-1], move.index))
    indexes = [index for moves in rows.values() for _, index in moves if index is not None]
    least, most = min([*indexes, certificate.index]), max([*indexes, certificate.index + 1])
    drawing = Drawing("sensitivity", 40 + HIGH * len(rows) + 22, "The index at each listed move", whose(answers, deck)
                      + f"; each row goes from {least} to {most}; crosses are barred")
    axis = Axis(LEFT, WIDE - 24, deck.frame.cycle)
    axis.draw(drawing, 26, 40 + HIGH * len(rows))
    drawing.words((12, 18), "over each offset and change of the list, in seconds; the black point is the plan", size=11)
    for place, (key, moves) in enumerate(rows.items()):
        draw_row(drawing, deck, axis, (key, moves), (34 + HIGH * place, (least, certificate.index, most)))
    return str(drawing)


def key_of(move: Move) -> Tuple[int, int]:
    """The row of a move: its node, and its stage, 0 for the offset."""
    return move.edit.node, move.edit.numbers[1] if move.edit.word == "CHANGE" else 0


def draw_row(drawing: Drawing, deck: Deck, axis: Axis, row: Row, scale: Scale) -> None:
    """The points of an offset or of a change, and where it stands now."""
    (node, stage), moves = row
    top, (least, standing, most) = scale
    bottom = top + HIGH - 10

    def y(index: int) -> float:
        """How high an index stands."""
        return bottom - (bottom - top - 4) * (index - least) / (most - least)

    drawing.words((12, top + 16), node_name(deck, node), bold=stage == 0, width=LEFT - 22)
    drawing.words((12, top + 29), f"stage {stage}, change" if stage else "offset", size=11)
    drawing.line((axis.left, bottom), (axis.right, bottom), PALE, 2)
    part = deck.node(node)
    now = part.stages[stage - 1].change if stage else part.offset
    drawing.dot((axis.x(now * deck.frame.step_seconds), y(standing)), 3.4, INK, f"now at step {now}, INDEX {standing}")
    for value, index in moves:
        x = axis.x(value * deck.frame.step_seconds)
        edit = f"CHANGE {node} {stage} {value}" if stage else f"OFFSET {node} {value}"
        if index is None:
            drawing.line((x - 3, bottom - 3), (x + 3, bottom + 3), CANNOT, 1.4, title=f"{edit} BARRED")
            drawing.line((x - 3, bottom + 3), (x + 3, bottom - 3), CANNOT, 1.4)
        else:
            drawing.dot((x, y(index)), 2.6, FLOW, f"{edit} INDEX {index}")
