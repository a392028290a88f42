"""Tables as they come: a folder of CSV files with header rows, or one workbook with a sheet for each.

Rows are counted as a spreadsheet counts them: the header row is row 1. Fields are trimmed; a row of empty fields is
left out; `;` parts fields where the header row has only it; a byte-order mark is dropped.
"""

import csv
import datetime
import importlib
import io
import os
from dataclasses import dataclass
from typing import Callable, Dict, Iterable, List, Mapping, Optional, Sequence, Tuple

from ..faults import Fault
from .faults import Judge

MARK = b"\xef\xbb\xbf"
Rows = List[Tuple[int, List[str]]]


def folded(text: str) -> str:
    """A name for comparing: without case, with outer blanks off and inner ones as one."""
    return " ".join(text.split()).casefold()


@dataclass(frozen=True)
class Row:
    """A row of a table: its number, and its fields by their folded headers; a field that isn't there is empty."""

    table: str
    number: int
    fields: Mapping[str, str]

    def place(self, column: str) -> str:
        """Where a field of this row stands, as `links.csv, row 7, stages`."""
        return f"{self.table}, row {self.number}, {column}"

    def field(self, column: str) -> str:
        """The text of a field, trimmed."""
        return self.fields.get(column, "")


@dataclass(frozen=True)
class Table:
    """A table: how it is called in sentences, its folded headers, its rows."""

    name: str
    columns: Tuple[str, ...]
    rows: Tuple[Row, ...]


class Source:
    """Where tables come from: a folder of CSV files, or a workbook."""

    def __init__(self, path: str) -> None:
        self.path = path
        if os.path.isdir(path):
            self.workbook: Optional[Dict[str, Rows]] = None
        elif path.lower().endswith(".xlsx") and os.path.isfile(path):
            self.workbook = read_workbook(path)
        else:
            raise Fault(f"{path} is neither a folder of sheets nor an .xlsx workbook")

    def called(self, name: str) -> str:
        """How a table is called in sentences."""
        return f"{name}.csv" if self.workbook is None else f"{os.path.basename(self.path)}, {name}"

    def rows(self, name: str, judge: Judge) -> Optional[Rows]:
        """The numbered rows of a table, its header row first; None where there is no such table."""
        if self.workbook is not None:
            return self.workbook.get(name)
        path = os.path.join(self.path, f"{name}.csv")
        if not os.path.lexists(path):
            return None
        try:
            with open(path, "rb") as file:
                data = file.read()
        except OSError as error:
            judge.fault(f"{name}.csv", f"it can't be read: {error.strerror}")
            return []
        return rows_of(f"{name}.csv", data, judge)


def rows_of(called: str, data: bytes, judge: Judge) -> Rows:
    """The rows of a CSV file's bytes."""
    try:
        text = (data[len(MARK):] if data.startswith(MARK) else data).decode("utf-8")
    except UnicodeDecodeError as error:
        row = data.count(b"\n", 0, error.start) + 1
        judge.fault(f"{called}, row {row}", "a byte that isn't UTF-8; save the sheet as CSV in UTF-8")
        return []
    header = text.split("\n", 1)[0]
    parting = ";" if ";" in header and "," not in header else ","
    rows: Rows = []
    reader = csv.reader(io.StringIO(text, newline=""), delimiter=parting, strict=True)
    try:
        for number, fields in enumerate(reader, 1):
            rows.append((number, [field.strip() for field in fields]))
    except csv.Error as error:
        judge.fault(f"{called}, row {len(rows) + 1}", f"it can't be read as CSV: {error}")
    return rows


def read_workbook(path: str) -> Dict[str, Rows]:
    """The rows of each sheet of a workbook, by the sheet's folded name."""
    try:
        openpyxl = importlib.import_module("openpyxl")
    except ImportError:
        raise Fault(f"{path}: an .xlsx is read with openpyxl, which isn't installed: "
                    "install Debian's python3-openpyxl, or save each sheet as CSV") from None
    try:
        workbook = openpyxl.load_workbook(path, read_only=True, data_only=True)
    except Exception as error:  # openpyxl raises whatever its parts raise on a file that is no workbook
        raise Fault(f"{path} can't be read as a workbook: {error}") from error
    return {folded(sheet.title): [(number, [cell_text(cell) for cell in cells])
                                  for number, cells in enumerate(sheet.iter_rows(values_only=True), 1)]
            for sheet in workbook.worksheets}


def cell_text(cell: object) -> str:
    """The text of a workbook's cell: a whole number without a point, a time as HH:MM, a date as it stands."""
    if cell is None:
        return ""
    if isinstance(cell, bool):
        return str(cell)
    if isinstance(cell, float) and cell.is_integer():
        return str(int(cell))
    if isinstance(cell, datetime.time):
        return cell.strftime("%H:%M") if not cell.second else cell.strftime("%H:%M:%S")
    return str(cell).strip()


def table_of(called: str, rows: Rows, columns: Sequence[str], optional: Iterable[str], judge: Judge,
             more: Callable[[str], bool] = lambda _: False) -> Table:
    """The table of rows: its headers judged against the columns that there are, and those that may be missing.

    `more` tells which headers beside these are columns too.
    """
    filled = [(number, fields) for number, fields in rows if any(fields)]
    if not filled:
        judge.fault(called, "there is no header row")
        return Table(called, (), ())
    headers = [folded(field) for field in filled[0][1]]
    while headers and not headers[-1]:
        headers.pop()
    judge_headers(called, headers, columns, set(optional), judge, more)
    found = [Row(called, number, dict(zip(headers, fields))) for number, fields in filled[1:]]
    for number, fields in filled[1:]:
        if any(fields[len(headers):]):
            judge.fault(f"{called}, row {number}", f"it has a field past the {len(headers)} of the header row")
    return Table(called, tuple(headers), tuple(found))


def judge_headers(called: str, headers: List[str], columns: Sequence[str], optional: Iterable[str], judge: Judge,
                  more: Callable[[str], bool]) -> None:
    """Notes headers that are none, stand twice or are missing."""
    for place, header in enumerate(headers):
        if header in headers[:place]:
            judge.fault(f"{called}, row 1", f"the column {header or 'without a name'} stands twice")
        elif header not in columns and not more(header):
            judge.fault(f"{called}, row 1", f"there is no column {header}" if header else
                        f"column {place + 1} has no name")
    for column in columns:
        if column not in headers and column not in optional:
            judge.fault(f"{called}, row 1", f"the column {column} is missing")
