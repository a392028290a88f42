"""Drawing in SVG: shapes with attributes and classes alone, text as text, a title with its number on each shape."""

import re
from typing import List, Optional, Sequence, Tuple
from xml.sax import saxutils
from xml.sax.saxutils import quoteattr

from .letters import fitted, width_of, wrapped

# Told apart by people who don't see red and green, and in grey print: from light to dark.
CAN_GO, GREEN_EDGE, PALE, MIDDLE, QUEUE, FLOW, CANNOT, INK = (
    "#f4d35e", "#8a6d00", "#e9e9ee", "#b9bccb", "#d1603d", "#1b6ca8", "#4a4e69", "#1d1d26")
SMALLEST = 9.0  # size of a label
WIDE = 760.0  # of a picture, so that its text is read on A4
FORBIDDEN = re.compile("[^\t\n\r -\ud7ff\ue000-\ufffd\U00010000-\U0010ffff]")  # in XML, however they are written


def escape(text: str) -> str:
    """A text as text; in the place of a character that XML forbids stands U+FFFD."""
    return saxutils.escape(FORBIDDEN.sub("\ufffd", text))


def number(value: float) -> str:
    """A coordinate with at most two decimals."""
    return f"{value:.2f}".rstrip("0").rstrip(".") if value % 1 else str(int(value))


def length_of(text: str) -> int:
    """How many letters of a text are seen."""
    return sum(1 for letter in text if letter not in "\u2068\u2069")


def shortened(text: str, most: int) -> str:
    """A text of at most so many letters, with dots where it is cut; an isolated part stays isolated."""
    if length_of(text) <= most:
        return text
    cut = text.replace("\u2069", "")[:most - 1].rstrip() + "…"
    return cut + "\u2069" if "\u2068" in cut else cut


def seconds(value: float) -> str:
    """Seconds with at most three decimals."""
    return f"{value:.3f}".rstrip("0").rstrip(".")


class Drawing:
    """A picture that grows; `str` is its SVG. `name` is the beginning of its ids, so that a page may have several."""

    def __init__(self, name: str, height: float, title: str, caption: str) -> None:
        self.name, self.height, self.title, self.caption = name, height, title, caption
        self.parts: List[str] = []
        self.definitions: List[str] = []
        self.data = ""  # what a script has to know of the picture, as attributes

    def __str__(self) -> str:
        lines = wrapped(self.caption, (WIDE - 24) / 11)
        high, wide = self.height + 10 + 14 * len(lines), number(WIDE)
        below = "".join(f'\n<text x="12" y="{number(self.height + 1 + 14 * place)}" font-size="11" fill="{INK}" '
                        f'class="of">{escape(line)}</text>' for place, line in enumerate(lines, 1))
        return (f'<svg xmlns="http://www.w3.org/2000/svg" class="picture {self.name}"{self.data} '
                f'viewBox="0 0 {wide} {number(high)}" width="{wide}" height="{number(high)}" '
                f'font-family="sans-serif" font-size="12" role="img">\n<title>{escape(self.title)}</title>\n'
                + (f'<defs>{"".join(self.definitions)}</defs>\n' if self.definitions else "")
                + f'<rect width="{wide}" height="{number(high)}" fill="#ffffff"/>\n' + "\n".join(self.parts)
                + f"{below}\n</svg>\n")

    def add(self, element: str, title: str = "") -> None:
        """An element, with a title inside it where there is one; `element` ends with `/>`."""
        self.parts.append(f"{element[:-2]}><title>{escape(title)}</title></{element[1:].split(' ', 1)[0]}>" if title
                          else element)

    def box(self, at: Tuple[float, float], size: Tuple[float, float], fill: str, title: str = "", *, kind: str = "",
            edge: str = "", opacity: float = 1) -> None:
        """A rectangle."""
        more = (f" class={quoteattr(kind)}" if kind else "") + (f' stroke="{edge}" stroke-width="0.8"' if edge else "")
        more += f' fill-opacity="{number(opacity)}"' if opacity != 1 else ""
        self.add(f'<rect x="{number(at[0])}" y="{number(at[1])}" width="{number(size[0])}" height="{number(size[1])}" '
                 f'fill="{fill}"{more}/>', title)

    def line(self, begin: Tuple[float, float], end: Tuple[float, float], colour: str = INK, wide: float = 1,
             dashes: str = "", title: str = "") -> None:
        """A line."""
        dashed = f' stroke-dasharray="{dashes}"' if dashes else ""
        self.add(f'<line x1="{number(begin[0])}" y1="{number(begin[1])}" x2="{number(end[0])}" y2="{number(end[1])}" '
                 f'stroke="{colour}" stroke-width="{number(wide)}"{dashed}/>', title)

    def shape(self, points: Sequence[Tuple[float, float]], fill: str, title: str = "", *, opacity: float = 1,
              kind: str = "") -> None:
        """A polygon."""
        places = " ".join(f"{number(x)},{number(y)}" for x, y in points)
        named = f" class={quoteattr(kind)}" if kind else ""
        self.add(f'<polygon points="{places}" fill="{fill}" fill-opacity="{number(opacity)}"{named}/>', title)

    def path(self, points: Sequence[Tuple[float, float]], colour: str, wide: float = 1.5, title: str = "",
             dashes: str = "") -> None:
        """A line through points."""
        places = " ".join(f"{number(x)},{number(y)}" for x, y in points)
        dashed = f' stroke-dasharray="{dashes}"' if dashes else ""
        self.add(f'<polyline points="{places}" fill="none" stroke="{colour}" stroke-width="{number(wide)}"{dashed}/>',
                 title)

    def dot(self, at: Tuple[float, float], size: float, colour: str, title: str = "") -> None:
        """A point."""
        self.add(f'<circle cx="{number(at[0])}" cy="{number(at[1])}" r="{number(size)}" fill="{colour}"/>', title)

    def words(self, at: Tuple[float, float], text: str, anchor: str = "start", *, size: float = 12, bold: bool = False,
              width: Optional[float] = None, colour: str = INK, kind: str = "", title: str = "") -> None:
        """A text; where a width is told, smaller letters or a cut make it fit, and a cut one has the whole as title."""
        shown = text
        if width is not None:
            size = max(min(size, SMALLEST), min(size, width / max(width_of(text, bold), 0.1)))
            shown = fitted(text, width / size, bold)
        more = (f" class={quoteattr(kind)}" if kind else "") + (' font-weight="bold"' if bold else "")
        more += (f' font-size="{number(size)}"' if size != 12 else "")
        more += f' text-anchor="{anchor}"' if anchor != "start" else ""
        told = title or (text if shown != text else "")
        title = f"<title>{escape(told)}</title>" if told else ""
        self.parts.append(f'<text x="{number(at[0])}" y="{number(at[1])}" fill="{colour}"{more}>{title}{escape(shown)}'
                          "</text>")

    def hatch(self, colour: str = CANNOT) -> str:
        """A fill of slanted lines."""
        definition = (f'<pattern id="{self.name}-hatch" width="6" height="6" patternUnits="userSpaceOnUse" '
                      f'patternTransform="rotate(45)"><rect width="6" height="6" fill="#ffffff"/>'
                      f'<line x1="0" y1="0" x2="0" y2="6" stroke="{colour}" stroke-width="4"/></pattern>')
        if definition not in self.definitions:
            self.definitions.append(definition)
        return f"url(#{self.name}-hatch)"

    def clip(self, name: str, at: Tuple[float, float], size: Tuple[float, float]) -> str:
        """The id of an area outside of which nothing is shown."""
        self.definitions.append(f'<clipPath id="{self.name}-{name}"><rect x="{number(at[0])}" y="{number(at[1])}" '
                                f'width="{number(size[0])}" height="{number(size[1])}"/></clipPath>')
        return f"{self.name}-{name}"

    def open(self, attributes: str = "") -> None:
        """Opens a group."""
        self.parts.append(f"<g {attributes}>" if attributes else "<g>")

    def close(self) -> None:
        """Closes a group."""
        self.parts.append("</g>")

    def again(self, ident: str, x: float) -> None:
        """A group once more, moved to the right."""
        self.parts.append(f'<use href="#{ident}" x="{number(x)}"/>')


class Axis:
    """Seconds across a picture: from a left edge, so many pixels a second."""

    def __init__(self, left: float, right: float, span: float) -> None:
        self.left, self.right, self.span = left, right, span

    def x(self, time: float) -> float:
        """Where a time stands."""
        return self.left + (self.right - self.left) * time / self.span

    def wide(self, time: float) -> float:
        """How wide a time is."""
        return (self.right - self.left) * time / self.span

    def draw(self, drawing: Drawing, top: float, bottom: float, step: Optional[float] = None) -> None:
        """Thin lines with their seconds below. The picture's attributes say where its seconds begin and end."""
        drawing.data = (f' data-left="{number(self.left)}" data-right="{number(self.right)}" '
                        f'data-seconds="{number(self.span)}"')
        pace = step or next(pace for pace in (5, 10, 20, 30, 60, 120, 240) if self.span / pace <= 16)
        time = 0.0
        while time <= self.span + 1e-9:
            drawing.line((self.x(time), top), (self.x(time), bottom), PALE if time % 60 else MIDDLE)
            drawing.words((self.x(time), bottom + 13), seconds(time), "middle", size=10.5)
            time += pace
        drawing.words((self.right + 13, bottom + 13), "s", size=10.5)


def legend(drawing: Drawing, y: float, entries: Sequence[Tuple[str, str]]) -> None:
    """What the colours mean, in a row; a fill that begins with `-` is a line of that colour."""
    x = 12.0
    for fill, text in entries:
        if fill.startswith("-"):
            drawing.line((x, y - 4), (x + 14, y - 4), fill[1:], 1.4)
        else:
            drawing.box((x, y - 10), (14, 11), fill, edge=MIDDLE)
        drawing.words((x + 19, y), text, size=11)
        x += 33 + 11 * width_of(text)
