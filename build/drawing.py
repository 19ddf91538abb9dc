"""The pictures of docs/pictures, drawn as the pictures of reports are: letters stay letters, and each picture has its
title, a description, and a ground of its own with colours for a white and for a dark page.

Every viewer draws them: the colours on white are attributes of the marks, and no style sheet is needed for them.
"""

from __future__ import annotations

import pathlib
from collections.abc import Sequence
from typing import TypeAlias

from cca_tools.page.ink import as_file
from cca_tools.page.svg import Drawing, width_of

__all__ = ["Drawing", "Mark", "WIDTH", "draw_key", "keep"]
# How many units a picture is wide at most. A phone shows it as wide as its screen, and its letters can still be read.
WIDTH = 374
# A mark of a key: its colour, its edge or None for a line, whether it is hatched, and its label.
Mark: TypeAlias = tuple[str, str | None, bool, str]


def keep(folder: pathlib.Path, drawing: Drawing, height: int, title: str, about: str) -> None:
    """Keeps a drawing in the folder under the name of its key."""
    folder.mkdir(parents=True, exist_ok=True)
    text = as_file(drawing.key, title, about, (WIDTH, height), drawing.inner())
    (folder / f"{drawing.key}.svg").write_text(text, encoding="utf-8")


def draw_key(drawing: Drawing, x: float, y: float, marks: Sequence[Mark]) -> None:
    """A row of marks with their labels."""
    for fill, edge, is_hatched, words in marks:
        if edge:
            drawing.rect(x, y - 10, 14, 12, fill, edge)
            if is_hatched:
                drawing.rect(x, y - 10, 14, 12, drawing.hatch(edge))
        else:
            drawing.line(x, y - 4, x + 14, y - 4, fill, 2)
        drawing.text(x + 20, y, words)
        x += 36 + width_of(words)
