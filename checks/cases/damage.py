"""Texts that are changed by another number or a fault of form, and certificates that are written differently and still
right."""

from __future__ import annotations

import collections
import random
import re
from collections.abc import Collection

RANGE = 2**120
LINE = re.compile(r"(\w+) .*")
NUMBER = re.compile(r"-?\d+")


def broken(rng: random.Random, text: str, kinds: Collection[str] | None = None) -> str:
    """The text with another number in one line of these kinds, each kind as likely as any other."""
    lines: collections.defaultdict[str, list[tuple[int, int]]] = collections.defaultdict(list)
    for line in LINE.finditer(text):
        if NUMBER.search(line[0]):
            lines[line[1]].append(line.span())
    kind = rng.choice([kind for kind in sorted(lines) if kinds is None or kind in kinds])
    start, end = rng.choice([number.span() for number in NUMBER.finditer(text, *rng.choice(lines[kind]))])
    n, step = int(text[start:end]), rng.randint(2, 9)
    other = rng.choice(
        [n - 1, n + 1, n + 1, n - step, n + step, -n, 2 * n, rng.randint(0, 5), 2**119, RANGE - 1, RANGE]
    )
    return text[:start] + str(other) + text[end:]


def slipped(rng: random.Random, text: str) -> str:
    """The text with a fault of form: a changed byte, line or end."""
    lines, at = text.splitlines(keepends=True), rng.randrange(len(text))
    n = rng.randrange(len(lines))
    return rng.choice(
        [
            text[:at] + text[at + 1 :],
            text[:at] + rng.choice(" \n\r\t0-a\u00e9\0") + text[at:],
            text[:at],
            "".join(lines[:n] + lines[n + 1 :]),
            "".join(lines[: n + 1] + lines[n:]),
            "".join(lines[:n] + lines[n + 1 : n + 2] + lines[n : n + 1] + lines[n + 2 :]),
            text + rng.choice(["\n", " ", "end\n", text]),
            respelt(rng, text),
            "".join(lines[:n] + [with_other_fields(rng, lines[n])] + lines[n + 1 :]),
        ]
    )


def respelt(rng: random.Random, text: str) -> str:
    """The text with a number in another form."""
    number = rng.choice(list(NUMBER.finditer(text)))
    other = rng.choice(
        [
            "-0",
            "+1",
            "00",
            "0" + number[0],
            number[0] + " ",
            "9" * 50,
            "-" + number[0],
            number[0] + ".0",
            "1e3",
            "x",
            "",
        ]
    )
    return text[: number.start()] + other + text[number.end() :]


def with_other_fields(rng: random.Random, line: str) -> str:
    """A line with a field that is missing, is there twice, or has changed its place."""
    fields = line[:-1].split(" ")
    at, to = rng.randrange(len(fields)), rng.randrange(len(fields))
    kind = rng.choice(["without", "twice", "elsewhere"])
    if kind == "without":
        fields = fields[:at] + fields[at + 1 :]
    elif kind == "twice":
        fields = fields[:at] + fields[at : at + 1] + fields[at:]
    else:
        fields[at], fields[to] = fields[to], fields[at]
    return " ".join(fields) + "\n"


def scaled(rng: random.Random, text: str) -> str:
    """A certificate over a greater denominator: the payments, the multipliers and the lowered table are as many times
    greater."""
    factor = rng.choice([2, 3, 7, 10**6, 2**60])
    head, lowered = text.split("\nlowered\n")

    def times(line: re.Match[str]) -> str:
        return NUMBER.sub(lambda number: str(factor * int(number[0])), line[0])

    return (
        re.sub(r"^(den|pay|mult) .*", times, head, flags=re.M)
        + "\nlowered\n"
        + re.sub(r"^t .*", times, lowered, flags=re.M)
    )


def widened(rng: random.Random, text: str) -> str:
    """A certificate with an entry of a table that is greater by one: no test asks that a table is exact."""
    start, end = rng.choice(
        [number.span() for line in re.finditer(r"^t .*", text, re.M) for number in NUMBER.finditer(text, *line.span())]
    )
    return text[:start] + str(int(text[start:end]) + 1) + text[end:]
