"""The controller's sheet: when each stage's intergreen and green begin and how long they last."""

import csv
import io

from ..deck import Deck
from ..page import seconds_text, times_of
from ..report import Timing
from ..text import csv_name

HEADS = ("junction", "name", "stage", "name", "intergreen begins (s)", "intergreen lasts (s)", "green begins (s)",
         "green lasts (s)", "intergreen begins (steps)", "intergreen lasts (steps)", "green begins (steps)",
         "green lasts (steps)")


def controller_sheet(deck: Deck, timing: Timing) -> str:
    """The sheet as CSV: seconds of the common cycle with at most three decimals, and exact steps."""
    out = io.StringIO()
    writer = csv.writer(out, lineterminator="\n")
    writer.writerow(HEADS)
    for node in timing.nodes:
        for stage in node.stages:
            steps = [count for _, count in times_of(deck, stage)]
            writer.writerow([node.number, csv_name(deck.names.nodes.get(node.number, "")), stage.number,
                             csv_name(deck.names.stages.get((node.number, stage.number), "")),
                             *(seconds_text(deck, count) for count in steps), *steps])
    return out.getvalue()
