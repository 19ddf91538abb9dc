"""Marks of pictures: rectangles, lines, letters, and the text of each under the mouse.

Places are numbers in units of the picture, or percent of its width as text. Colours are roles of `ink`.
"""

from __future__ import annotations

from collections.abc import Sequence
from html import escape
from typing import Literal, TypeAlias

from cca_tools.page.ink import painted, pattern

Place: TypeAlias = float | str
Side: TypeAlias = Literal["start", "middle", "end"]
LETTER = 11.5  # the size of letters, in units


def spot(value: Place) -> str:
    """A place as SVG has it."""
    return value if isinstance(value, str) else f"{value:.2f}".rstrip("0").rstrip(".")


def share(part: float) -> str:
    """A part of the whole width, in percent."""
    return f"{spot(100 * part)}%"


def width_of(words: str, size: float = LETTER) -> float:
    """How wide a text is at most in the faces that are usual, in units."""
    return 0.645 * size * len(words)


def paint(fill: str | None, stroke: str | None, width: float, dash: str = "") -> str:
    """The attributes of a mark: its colours, and how wide and how broken its line is."""
    parts = [painted(fill, stroke)]
    if stroke:
        parts.append(f'stroke-width="{width:g}"')
    return " ".join(parts + ([f'stroke-dasharray="{dash}"'] if dash else []))


class Drawing:
    """The marks of a picture, in drawing order. Names of patterns begin with its key."""

    def __init__(self, key: str) -> None:
        self.key = key
        self.parts: list[str] = []
        self.patterns = dict[str, str]()

    def inner(self) -> str:
        """The marks as text."""
        defined = f"<defs>{''.join(self.patterns.values())}</defs>\n" if self.patterns else ""
        return defined + "".join(self.parts)

    def mark(self, name: str, places: str, paint_: str, says: str = "") -> None:
        """A mark, and what it says under the mouse."""
        end = f"><title>{escape(says)}</title></{name}>\n" if says else "/>\n"
        self.parts.append(f"<{name} {places} {paint_}{end}")

    def hatch(self, role: str, number: int | None = None) -> str:
        """The fill of a pattern: of a winner's number, or hatched."""
        name = f"{self.key}-{role}-hatch"
        self.patterns.setdefault(name, pattern(name, role, number))
        return f"url(#{name})"

    def rect(
        self,
        x: Place,
        y: Place,
        width: Place,
        height: float,
        fill: str | None,
        stroke: str | None = None,
        line: float = 1,
        dash: str = "",
        says: str = "",
    ) -> None:
        """A rectangle."""
        places = f'x="{spot(x)}" y="{spot(y)}" width="{spot(width)}" height="{spot(height)}"'
        self.mark("rect", places, paint(fill, stroke, line, dash), says)

    def line(
        self,
        x: Place,
        y: float,
        to_x: Place,
        to_y: float,
        role: str,
        width: float = 1.6,
        dash: str = "",
        says: str = "",
    ) -> None:
        """A straight line."""
        places = f'x1="{spot(x)}" y1="{spot(y)}" x2="{spot(to_x)}" y2="{spot(to_y)}"'
        self.mark("line", places, paint(None, role, width, dash), says)

    def path(self, points: Sequence[tuple[float, float]], role: str, width: float = 2, says: str = "") -> None:
        """A line through points."""
        self.mark("path", f'd="M{"L".join(f"{spot(x)} {spot(y)}" for x, y in points)}"', paint(None, role, width), says)

    def area(
        self,
        points: Sequence[tuple[float, float]],
        fill: str | None,
        stroke: str | None = None,
        width: float = 1,
        says: str = "",
    ) -> None:
        """A polygon."""
        places = f'd="M{"L".join(f"{spot(x)} {spot(y)}" for x, y in points)}Z"'
        self.mark("path", places, paint(fill, stroke, width) + ' stroke-linejoin="round"', says)

    def dot(self, x: Place, y: float, radius: float, role: str, says: str = "") -> None:
        """A filled circle."""
        self.mark("circle", f'cx="{spot(x)}" cy="{spot(y)}" r="{spot(radius)}"', paint(role, None, 0), says)

    def triangle(self, x: float, y: float, size: float, role: str, says: str = "") -> None:
        """A triangle that points up to (x, y)."""
        self.area([(x, y), (x + size / 2, y + size), (x - size / 2, y + size)], role, says=says)

    def text(
        self,
        x: Place,
        y: float,
        words: str,
        role: str = "soft",
        side: Side = "start",
        size: float = LETTER,
        under: str = "",
        is_bold: bool = False,
    ) -> None:
        """Letters on the line y; if they lie over a pattern they have an edge of the colour `under`."""
        parts = [painted(role, under or None), f'font-size="{size:g}"']
        if under:
            parts.append('stroke-width="4" paint-order="stroke" stroke-linejoin="round"')
        if is_bold:
            parts.append('font-weight="600"')
        if side != "start":
            parts.append(f'text-anchor="{side}"')
        self.parts.append(f'<text x="{spot(x)}" y="{spot(y)}" {" ".join(parts)}>{escape(words)}</text>\n')
