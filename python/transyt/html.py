"""Pieces of a page: text as text, figures with their raw value and their place in the report, tables."""

import base64
import hashlib
import re
from decimal import Decimal, InvalidOperation
from html import escape
from typing import Dict, List, Sequence, Tuple

CSS = """
body { font: 14px/1.45 sans-serif; color: #1d1d26; max-width: 62em; margin: 2em auto; padding: 0 1em; }
h1 { font-size: 1.5em; margin-bottom: 0.2em; } h2 { font-size: 1.15em; margin: 1.6em 0 0.4em; }
table { border-collapse: collapse; width: 100%; } th, td { padding: 0.18em 0.5em; border-bottom: 1px solid #d9d9e0; }
th { text-align: left; vertical-align: bottom; } td.number, th.number { text-align: right; }
thead th { border-bottom: 2px solid #4a4e69; } th[data-sorted] { text-decoration: underline; }
.against { color: #4a4e69; } .against::before { content: "/ "; } .more { font-weight: bold; }
.worse { font-weight: bold; } .better { color: #1b6ca8; } .mark { color: #b23a48; font-weight: bold; }
.small { font-size: 0.85em; color: #4a4e69; } code { overflow-wrap: anywhere; } svg { width: 100%; height: auto; }
dl { display: grid; grid-template-columns: max-content 1fr; gap: 0.1em 1em; } dd { margin: 0; }
@page { size: A4; margin: 14mm; }
@media print { body { margin: 0; max-width: none; font-size: 10pt; } h2, svg, tr { break-inside: avoid; } }
"""
SCRIPT = """
const number = words => Number((/^[+-]?\\d+(\\.\\d+)?(?= |$)/.exec(words) || ['Infinity'])[0]);
const less = (a, b) => a < b ? -1 : a > b ? 1 : 0;
const compared = (a, b) => less(number(a), number(b)) || less(a, b);
for (const table of document.querySelectorAll('table.sortable')) {
  table.querySelectorAll('thead th').forEach((head, column) => head.addEventListener('click', () => {
    const value = row => { const cell = row.cells[column], data = cell.querySelector('data');
      return data ? data.value : cell.textContent; };
    const rows = [...table.tBodies[0].rows], sign = head.dataset.sorted === 'up' ? -1 : 1;
    rows.sort((a, b) => sign * compared(value(a), value(b)));
    table.querySelectorAll('thead th').forEach(other => delete other.dataset.sorted);
    head.dataset.sorted = sign < 0 ? 'down' : 'up';
    rows.forEach(row => table.tBodies[0].append(row));
  }));
}
"""


FIGURE = re.compile(r'<data value="([^"]*)" class="([^"]*)"[^>]*>([^<]*)</data>')
TITLED = re.compile(r'<data value="([^"]*)" class="([^"]*)"([^>]*)>([^<]*)</data>')  # with its title


def text(words: str) -> str:
    """A text as text, isolated in its direction."""
    return f"<bdi>{escape(words)}</bdi>"


def figure(place: str, raw: int, shown: str, formula: str = "") -> str:
    """A figure: its raw value, its place in the report, how it is shown; its formula as title where it is derived."""
    title = f' title="{escape(formula)}"' if formula else ""
    return f'<data value="{raw}" class="{escape(place)}"{title}>{escape(shown)}</data>'


def with_others(page: str, other: str) -> str:
    """A page's figures, each with that of the same place on another page beside it where the two differ; it is marked
    where the other is more or less as it is shown."""
    others: Dict[str, List[Tuple[str, str, str]]] = {}
    for raw, place, title, shown in TITLED.findall(other):
        others.setdefault(place, []).append((raw, title, shown))

    def both(found: "re.Match[str]") -> str:
        raw, place, title, shown = found.groups()
        there = others.get(place, [])
        against, its_title, its = there.pop(0) if there else (raw, title, shown)
        if against == raw and its == shown:
            return found[0]
        kind = more_or_less((raw, shown), (against, its))
        return (f'{found[0]} <span class="against{kind}" title="the other plan">'
                f'<data value="{against}" class="AGAINST {place}"{its_title}>{its}</data></span>')

    return TITLED.sub(both, page)


def more_or_less(mine: Tuple[str, str], its: Tuple[str, str]) -> str:
    """The mark of the other plan's figure, each raw and as it is shown: by what is shown, since a step may be longer in
    one plan than in the other; by the raw values where that is no number, as `no green`."""
    try:
        one, other = Decimal(mine[1]), Decimal(its[1])
    except InvalidOperation:
        one, other = Decimal(mine[0]), Decimal(its[0])
    return " more" if other > one else " less" if other < one else ""


def beside(piece: str, other: str) -> str:
    """A piece of a page, with that of another page as a whole beside it where the two differ: for what is no amount."""
    if piece == other:
        return piece
    theirs = TITLED.sub(r'<data value="\1" class="AGAINST \2"\3>\4</data>', other)
    return f'{piece} <span class="against" title="the other plan">{theirs}</span>'


def paired(piece: str, other: str) -> str:
    """A piece of a page with that of another page: figure by figure where they have the same words, else as a whole."""
    same = FIGURE.sub(r"\2", piece) == FIGURE.sub(r"\2", other)
    return with_others(piece, other) if same else beside(piece, other)


def digest(text_of: str) -> str:
    """The source by which a policy allows a script or a style sheet."""
    return "sha256-" + base64.b64encode(hashlib.sha256(text_of.encode("utf-8")).digest()).decode("ascii")


def document(title: str, body: str) -> str:
    """A page that needs no network: its policy allows its own style sheet and script by their sums, nothing else."""
    policy = f"default-src 'none'; style-src '{digest(CSS)}'; script-src '{digest(SCRIPT)}'"
    return (f'<!DOCTYPE html>\n<html lang="en">\n<head>\n<meta charset="utf-8">\n'
            f'<meta http-equiv="Content-Security-Policy" content="{policy}">\n'
            f'<meta name="viewport" content="width=device-width, initial-scale=1">\n<title>{escape(title)}</title>\n'
            f"<style>{CSS}</style>\n</head>\n<body>\n{body}\n<script>{SCRIPT}</script>\n</body>\n</html>\n")


def table(heads: Sequence[str], rows: Sequence[Sequence[str]], numbers: int, kind: str = "") -> str:
    """A table of cells that are HTML already; the last `numbers` columns are set to the right."""
    def cells(name: str, row: Sequence[str]) -> str:
        first = len(row) - numbers
        return "".join(f'<{name} class="number">{cell}</{name}>' if place >= first else f"<{name}>{cell}</{name}>"
                       for place, cell in enumerate(row))

    body = "\n".join(f"<tr>{cells('td', row)}</tr>" for row in rows)
    named = f' class="{kind}"' if kind else ""
    return f"<table{named}>\n<thead><tr>{cells('th', heads)}</tr></thead>\n<tbody>\n{body}\n</tbody>\n</table>"
