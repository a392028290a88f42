"""Lines, words and texts as docs/FORMATS.md cuts them, and as a terminal and a spreadsheet may show them.

Lines are cut at LF alone, with one CR before it, and words at blanks and tabs: `splitlines` and `split` of Python cut
at more, at U+0085 and U+2028 too, and so aren't used.
"""

import re
import unicodedata
from typing import List, Optional, Union

LONGEST_LINE = 4096  # bytes
LONGEST_NAME = 200  # characters
DIRECTION_MARKS = "\u061c\u200e\u200f\u202a\u202b\u202c\u202d\u202e\u2066\u2067\u2068\u2069"
NUMBER = re.compile("[0-9]{1,9}")


def decoded(source: Union[str, bytes]) -> str:
    """A text out of bytes in UTF-8; bytes that aren't become U+FFFD."""
    return (source if isinstance(source, bytes) else bytes_of(source)).decode("utf-8", "replace")


def bytes_of(text: str) -> bytes:
    """The bytes of a text in UTF-8; those that weren't where it was read with `surrogateescape` are as they were."""
    try:
        return text.encode("utf-8", "surrogateescape")
    except UnicodeEncodeError:
        return text.encode("utf-8", "replace")


def lines_of(text: str) -> List[str]:
    """The lines of a text, without their ends."""
    lines = text.split("\n")
    if lines[-1] == "":
        lines.pop()
    return [line[:-1] if line.endswith("\r") else line for line in lines]


def words_of(line: str) -> List[str]:
    """The words of a line: its longest runs without blanks and tabs."""
    return [word for word in line.replace("\t", " ").split(" ") if word]


def rest_of(line: str, count: int) -> str:
    """What stands on a line after its first `count` words, without blanks and tabs around it."""
    rest = line.strip(" \t")
    for _ in range(count):
        rest = rest[len(words_of(rest)[0]):].lstrip(" \t") if rest else ""
    return rest


def number_of(word: str) -> Optional[int]:
    """The number that a word is, 1 to 9 decimal digits; None where it is none."""
    return int(word) if NUMBER.fullmatch(word) else None


def is_control(character: str) -> bool:
    """Whether a character is a control character: LF, CR, escape and their like."""
    return unicodedata.category(character) == "Cc"


def escaped(text: str) -> str:
    """A text for a terminal: control characters, direction marks and line separators as `\\x1b` and `\\u202e`."""
    def shown(character: str) -> str:
        if is_control(character):
            return f"\\x{ord(character):02x}"
        if character in DIRECTION_MARKS or character in "\u2028\u2029":
            return f"\\u{ord(character):04x}"
        return character

    return "".join(shown(character) for character in text)


def csv_name(name: str) -> str:
    """A name for a CSV file: with an apostrophe before it where a spreadsheet would take it for a formula."""
    return "'" + name if name[:1] in ("=", "+", "-", "@") else name


def name_fault(name: str, before: str = "") -> Optional[str]:
    """Why a text can't be a name, in words that go on from the place of it; None where it can.

    `before` is what stands before the name on its line, as `* NAME LINK 21 `.
    """
    for character in name:
        if is_control(character):
            return f"the control character U+{ord(character):04X} can't be in a name"
        if character in DIRECTION_MARKS:
            return f"the direction mark U+{ord(character):04X} can't be in a name"
    if len(name) > LONGEST_NAME:
        return f"the name has {len(name)} characters, and {LONGEST_NAME} are the most"
    if len((before + name).encode("utf-8", "replace")) > LONGEST_LINE:
        return f"its line would be longer than {LONGEST_LINE:,} bytes"
    return None
