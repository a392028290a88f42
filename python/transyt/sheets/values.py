"""Fields as values: numbers, times of day, seconds as steps, names. A fault is noted, and the value is None."""

import re
from fractions import Fraction
from typing import Optional, Tuple

from ..text import name_fault, number_of
from .faults import Judge
from .tables import Row, folded

DECIMAL = re.compile(r"[0-9]{1,9}(?:\.[0-9]{1,6})?")
TIME = re.compile(r"([0-9]{1,2}):([0-9]{2})")
DAY = 24 * 60  # minutes


def half_up(value: Fraction) -> int:
    """A value to the nearest whole number, a half up."""
    return (2 * value.numerator + value.denominator) // (2 * value.denominator)


def whole(row: Row, column: str, judge: Judge, least: int, most: int, default: Optional[int] = None) -> Optional[int]:
    """A whole number within its range; the default where the field is empty."""
    text = row.field(column)
    if not text and default is not None:
        return default
    return whole_of(text, row.place(column), judge, least, most)


def whole_of(text: str, place: str, judge: Judge, least: int, most: int) -> Optional[int]:
    """A whole number of a text within its range."""
    value = number_of(text)
    if not text:
        judge.fault(place, "it is empty")
    elif value is None:
        judge.fault(place, f"{text} is no whole number")
    elif not least <= value <= most:
        judge.fault(place, f"{value} is not within {least:,} to {most:,}")
    else:
        return value
    return None


def decimal(row: Row, column: str, judge: Judge) -> Optional[Fraction]:
    """A number with at most six decimals; None where the field is empty too, which is no fault."""
    text = row.field(column)
    if not text:
        return None
    if not DECIMAL.fullmatch(text):
        judge.fault(row.place(column), f"{text} is no number")
        return None
    return Fraction(text)


def time_text(minutes: int) -> str:
    """A time of day, HH:MM."""
    return f"{minutes // 60:02d}:{minutes % 60:02d}"


def minutes_of(text: str) -> Optional[int]:
    """The minutes since midnight of a time HH:MM; None where it is none."""
    found = TIME.fullmatch(text)
    if not found or int(found[1]) > 23 or int(found[2]) > 59:
        return None
    return 60 * int(found[1]) + int(found[2])


def time(row: Row, column: str, judge: Judge) -> Optional[int]:
    """The minutes since midnight of a field HH:MM."""
    text = row.field(column)
    found = minutes_of(text)
    if found is None:
        judge.fault(row.place(column), f"{text} is no time HH:MM" if text else "it is empty")
    return found


def name(row: Row, column: str, judge: Judge, before: str) -> str:
    """A name that a deck's comment line can carry after `before`; empty where there is none."""
    text = row.field(column)
    fault = name_fault(text, before)
    if fault:
        judge.fault(row.place(column), fault)
        return ""
    return text


def word(row: Row, column: str, judge: Judge) -> str:
    """A text that has to be there, as an arm or a turn: folded."""
    text = folded(row.field(column))
    if not text:
        judge.fault(row.place(column), "it is empty")
    return text


def beside(seconds: Fraction, step: Fraction) -> Tuple[str, str]:
    """The two nearest times in whole steps, below and above one that isn't."""
    below = int(seconds / step)
    return seconds_text(below * step), seconds_text((below + 1) * step)


def seconds_text(seconds: Fraction) -> str:
    """Seconds with at most three decimals."""
    return f"{float(seconds):.3f}".rstrip("0").rstrip(".")
