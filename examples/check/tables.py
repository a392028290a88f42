"""What may stand after a deck: a certificate, and a table of counts."""
import csv, io
from typing import Iterator, Optional

from cards import cut, is_number, is_skipped, words_of, LONGEST
from session import cert
from texts import line
from town import Town


def audit(town: Town, data: bytes, end: int) -> Iterator[str]:
    """The verdict on the lines after END, which is line `end`: [Verdict]."""
    lines = cut(data)
    if not town.plan: return (yield line('AUDIT NO', end, 26))
    given = [(place, text) for place, text in enumerate(lines, 1) if place > end and not is_skipped(text)]
    right, lowering = list(cert(town)), None
    for k, (place, text) in enumerate(given):
        if k >= len(right) or len(text) > LONGEST or words_of(text) != right[k][1].split():
            return (yield line('AUDIT NO', place, 28))
        after = right[k][0]
        if not lowering and after and after.index() < town.index(): lowering = place
    if len(given) < len(right): yield line('AUDIT NO', len(lines) + 1, 28)
    elif lowering: yield line('AUDIT NO', lowering, 29)
    else: yield line('AUDIT YES', len(right) - 1, 'INDEX', town.index())


def row_fault(town: Town, row: list[str]) -> Optional[int]:
    """The code of a row of a table of counts, or none."""
    if len(row) != 4: return 12
    link, feeder, vehicles, minutes = row
    if not all(map(is_number, [link, feeder or '0', vehicles, minutes])): return 13
    if int(link) not in town.links or feeder and int(feeder) not in town.links: return 17
    if key_of(row) not in town.numbers: return 23
    return None if int(vehicles) <= 999999 and 1 <= int(minutes) <= 1440 else 14


def key_of(row: list[str]) -> tuple:
    return ('PART', int(row[0]), int(row[1])) if row[1] else ('ENTRY', int(row[0]))


def records(table: bytes) -> list[list[str]]:
    """The records of a table as spreadsheets write it; an empty line is none."""
    csv.field_size_limit(1 << 30)
    # a byte order mark goes; 0 is no digit here, and older versions of csv don't read it
    text = (table[3:] if table.startswith(b'\xef\xbb\xbf') else table).decode('latin-1').replace('\0', '?')
    return [row for row in csv.reader(io.StringIO(text, newline='')) if row]


def counts(town: Town, data: bytes, end: int) -> Iterator[str]:
    """The commands of a table of counts after END, or its first row with a code: [Counts]."""
    keys: dict[tuple, list[tuple[int, int, int]]] = {}
    rows = records(data.split(b'\n', end)[end] if data.count(b'\n') >= end else b'')
    for place, row in enumerate(rows, 1):
        code = row_fault(town, row)
        if code: return (yield line('ROW', place, 'REFUSED', code))
        keys.setdefault(key_of(row), []).append((place, int(row[2]), int(row[3])))
    flows = {key: 60 * sum(v for _, v, _ in counted) // sum(m for _, _, m in counted) for key, counted in keys.items()}
    for key, flow in flows.items():
        if flow > 9999: return (yield line('ROW', keys[key][-1][0], 'REFUSED', 27))
    for key, flow in flows.items(): yield line(*key, flow)
    yield line('* COUNTS', len(rows), len(keys))
