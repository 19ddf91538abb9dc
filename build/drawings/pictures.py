"""Draws the pictures of docs/pictures that are SVG.

`core` and `rounds` are drawn from what cca prints of the samples, `growth` from the times that `bench/times growth`
keeps in bench/growth.csv, `final-cap` from the results of a study in bench/final-cap.csv, and `checks` from what
build/drawings/checkers.py has about each checker.
"""

from __future__ import annotations

import pathlib

from build.drawings import checkers, core, final_cap, growth, rounds
from checks.cases.limit_books import build_cca


def main(root: pathlib.Path) -> None:
    """Writes the pictures below this folder."""
    build_cca()
    folder = root / "docs" / "pictures"
    for drawn in (core, rounds, growth, final_cap, checkers):
        drawn.draw(folder)
