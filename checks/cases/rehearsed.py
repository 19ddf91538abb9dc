"""Drawn awards and files of values, for tests of whole auctions of bidders with values."""

from __future__ import annotations

import random
from collections.abc import Sequence

FORMS = ("separable", "complement", "global", "local", "packages")


def award_of(draw: random.Random, form: str, is_small: bool) -> tuple[str, list[int]]:
    """The text of an award. If values are separable, each bidder may win all, so that only its values limit it."""
    supply = (
        [draw.randint(1, 3), draw.randint(1, 3)] if is_small else draw.choice([[4, 6], [2, 3, 5], [1, 2, 2, 4], [9, 9]])
    )
    points = [draw.randint(0 if form != "separable" else 1, 5) for _ in supply]
    whole = sum(n * p for n, p in zip(supply, points))
    lines = [f"version = 1\ntick = {draw.randint(1, 3)}\n"]
    for c, (count, weight) in enumerate(zip(supply, points)):
        lines.append(
            f'[[category]]\nname = "c{c}"\nsupply = {count}\npoints = {weight}\nreserve = {draw.randint(0, 20)}\n'
        )
    for j in range(draw.randint(2, 3 if is_small else 6)):
        points_of_one = whole if form == "separable" else draw.randint(whole // 3, whole)
        lines.append(f'[[bidder]]\nname = "b{j}"\neligibility = {points_of_one}\n')
    lines.append(f"[[step]]\nexcess = 1\npermille = {draw.randint(20, 300)}\n")
    lines.append(f"[[step]]\nexcess = 3\npermille = {draw.randint(20, 500)}\n")
    if form != "separable" and draw.randint(0, 1):
        lines.append(f"[[cap]]\nweight = {[1] * len(supply)}\nlimit = {draw.randint(1, sum(supply))}\n")
    return "\n".join(lines), supply


def lots_of(draw: random.Random, supply: Sequence[int]) -> list[list[int]]:
    low = [draw.randint(0, 30) for _ in supply]
    return [[least, least + draw.randint(10, 120)] for least in low]


def values_of(draw: random.Random, form: str, supply: Sequence[int]) -> str:
    """The text of a file of values, one model for all bidders."""
    lines = ["values = 1\n[[bidder]]"]
    if form == "packages":
        lines.append('model = "packages"')
        every = {tuple(draw.randint(0, count) for count in supply) for _ in range(12)} - {(0,) * len(supply)}
        for package in sorted(every):
            least = sum(package) * draw.randint(5, 40)
            lines.append(f"[[bidder.package]]\nlots = {list(package)}\nvalue = {[least, 3 * least]}")
    elif form in ("separable", "complement"):
        lines.append(f'model = "additive"\nlot = {lots_of(draw, supply)}')
        if draw.randint(0, 1):
            lines.append(f"decrease = [5, {draw.randint(5, 60)}]")
        if form == "complement":
            lots = [min(1, count) for count in supply]
            lines.append(f"complement = [{{ lots = {lots}, value = [20, 200] }}]")
    elif form == "global":
        lines.append(f'model = "global"\nlot = {lots_of(draw, supply)}\nsynergy = [5, 30]')
    else:
        lines.append(f'model = "local"\nlot = {lots_of(draw, supply)}\na = 160\nb = 4')
    return "\n".join(lines) + "\n"


def drawn(number: int, is_small: bool = False) -> tuple[str, bytes, bytes]:
    """The form, the award and the values of this number. (Only this number decides.)"""
    draw = random.Random(number)
    form = FORMS[number % len(FORMS)]
    award, supply = award_of(draw, form, is_small)
    return form, award.encode(), values_of(draw, form, supply).encode()
