"""The colours of pictures and pages, for a white and for a dark ground, and the patterns of winners.

A mark has its colours on white as attributes, which every viewer of SVG draws, and the classes of their roles: a style
sheet gives these the colours of a dark ground.
"""

from __future__ import annotations

import re
from html import escape

# role: the colour on white; the colour on dark. A winner has a colour for its lots (w1 ..) and one for the lines of its
# pattern and edges (l1 ..); its letter has the colour `letter`. The colour-blind distinguish the winners' colours, and
# none of them is the blue of what is paid (test_ink).
ROLES = {
    "ink": ("#1f2328", "#e6edf3"),
    "soft": ("#57606a", "#9da7b3"),
    "rule": ("#d0d7de", "#3d444d"),
    "blue": ("#0a58ca", "#79b8ff"),
    "green": ("#15692d", "#57d364"),
    "orange": ("#a84300", "#ffa657"),
    "red": ("#c0182b", "#ff8f88"),
    "ground": ("#ffffff", "#0f141a"),
    "greenish": ("#d3f0da", "#12351d"),
    "reddish": ("#fbdfe0", "#45191b"),
    "bluish": ("#d5e5fb", "#15304f"),
    "orangish": ("#fde3cf", "#4a2a10"),
    "letter": ("#101418", "#ffffff"),
    "w1": ("#ffcc66", "#6c7701"),
    "w2": ("#4d9294", "#0e7e93"),
    "w3": ("#c9e4b9", "#044201"),
    "w4": ("#a275d7", "#4d227b"),
    "w5": ("#89ecfe", "#6c1041"),
    "w6": ("#c67450", "#9b6757"),
    "l1": ("#b07400", "#a9b73a"),
    "l2": ("#25595b", "#55c4da"),
    "l3": ("#5a8a40", "#3f9a3a"),
    "l4": ("#643a9c", "#9a6fd0"),
    "l5": ("#15869c", "#c0588f"),
    "l6": ("#84401f", "#d8a493"),
}
WINNERS = 6

# What is drawn over the colour of a winner, in a square of 8 units; the first has none.
PATTERNS = (
    "",
    '<path d="M-2 2L2 -2M0 8L8 0M6 10L10 6" {line}/>',
    '<circle cx="4" cy="4" r="1.5" {area}/>',
    '<path d="M0 0V8" {line}/>',
    '<path d="M0 4H8" {line}/>',
    '<path d="M0 0L8 8M0 8L8 0" {line}/>',
)
UNSOLD = PATTERNS[1]
FACES = "system-ui, -apple-system, 'Segoe UI', Roboto, 'DejaVu Sans', sans-serif"


def variables(ground: str) -> str:
    """The colours of a ground as variables of a style sheet."""
    return " ".join(f"--{name}: {colours[ground != 'white']};" for name, colours in ROLES.items())


def page_rules() -> str:
    """The style rules that give the marks of a page the colours of its variables."""
    return "".join(f".f-{it} {{ fill: var(--{it}) }} .s-{it} {{ stroke: var(--{it}) }}\n" for it in ROLES)


def dark_rules(inner: str) -> str:
    """The style rules that give the marks of a picture the colours of a dark ground, for the roles in the picture."""
    used = sorted(set(re.findall(r"\b[fs]-(?:" + "|".join(ROLES) + r")\b", inner)))
    properties = {"f": "fill", "s": "stroke"}
    return " ".join(f".{it} {{ {properties[it[0]]}: {ROLES[it[2:]][1]} }}" for it in used)


def painted(fill: str | None, stroke: str | None = None) -> str:
    """The attributes of a mark with these colours, which are roles; a fill may be a pattern."""
    parts = [f'fill="{ROLES[fill][0] if fill in ROLES else fill or "none"}"']
    parts += [f'stroke="{ROLES[stroke][0]}"'] if stroke else []
    roles = [f"f-{fill}"] if fill in ROLES else []
    roles += [f"s-{stroke}"] if stroke else []
    return " ".join([*parts, *([f'class="{" ".join(roles)}"'] if roles else [])])


def pattern(name: str, role: str, number: int | None) -> str:
    """A pattern of this name: the pattern of a winner's number, or of lots that are unsold or too many."""
    line = f'{painted(None, role)} stroke-width="1.3"'
    inner = UNSOLD if number is None else PATTERNS[number]
    drawn = inner.format(line=line, area=painted(role))
    return f'<pattern id="{name}" width="8" height="8" patternUnits="userSpaceOnUse">{drawn}</pattern>'


def as_picture(key: str, title: str, about: str, size: tuple[int, int] | int, inner: str) -> str:
    """A picture for a page. A picture with a width and a height scales, and its letters too. If `size` is only a
    height, places across are in percent, and letters keep their size."""
    if isinstance(size, int):
        shape = f'class="picture fluid" width="100%" height="{size}"'
    else:
        width, height = size
        shape = f'class="picture" viewBox="0 0 {width} {height}" style="max-width:{1.3 * width:.0f}px"'
    return (
        f'<svg xmlns="http://www.w3.org/2000/svg" {shape} role="img" aria-labelledby="{key}-title {key}-about">\n'
        f'<title id="{key}-title">{escape(title)}</title>\n<desc id="{key}-about">{escape(about)}</desc>\n'
        f"{inner}</svg>\n"
    )


def as_file(key: str, title: str, about: str, size: tuple[int, int], inner: str) -> str:
    """A picture as a file of its own, with a ground."""
    width, height = size
    ground = f'<rect width="100%" height="100%" rx="6" {painted("ground")}/>\n'
    style = f"<style>@media (prefers-color-scheme: dark) {{ {dark_rules(ground + inner)} }}</style>\n"
    return (
        f'<?xml version="1.0" encoding="utf-8"?>\n<svg xmlns="http://www.w3.org/2000/svg" width="{width}"'
        f' height="{height}" viewBox="0 0 {width} {height}" font-family="{FACES}" role="img"'
        f' aria-labelledby="{key}-title {key}-about">\n'
        f'<title id="{key}-title">{escape(title)}</title>\n<desc id="{key}-about">{escape(about)}</desc>\n'
        f"{style}{ground}{inner}</svg>\n"
    )
