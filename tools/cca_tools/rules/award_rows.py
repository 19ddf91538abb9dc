"""The line of a field of an award, as an editor numbers it."""

from __future__ import annotations

import re

from cca_tools.rules.stops import FieldSpot


def heading_rows(text: str, kind: str) -> list[int]:
    """The lines where the tables of a list begin, if they are written with headings."""
    return [row for row, line in enumerate(text.splitlines(), 1) if re.match(rf"\s*\[\[\s*{kind}\s*\]\]", line)]


def award_row(text: str, spot: FieldSpot) -> int:
    """The line of an award's field, or of its table's heading if the field isn't found; 0 if neither is."""
    rows = heading_rows(text, spot.heading) if spot.heading else []
    if len(rows) < spot.table:
        return 0
    first = rows[spot.table - 1] if rows else 1
    for row, line in enumerate(text.splitlines()[first - 1 :], first):
        if row > first and line.lstrip().startswith("["):
            break
        if re.match(rf"\s*[\"']?{re.escape(spot.field)}[\"']?\s*=", line):
            return row
    return first if rows else single_row(text, spot)


def single_row(text: str, spot: FieldSpot) -> int:
    """The line of the heading that has a list's name in single brackets, as one table, or else 0."""
    rows = enumerate(text.splitlines(), 1)
    return next((row for row, line in rows if re.match(rf"\s*\[\s*{re.escape(spot.field)}\s*\]", line)), 0)
