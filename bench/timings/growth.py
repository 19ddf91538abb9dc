"""Times `cca win`, `price` and `check` as a book grows to the limits, and keeps the times in bench/growth.csv.

Bidders, bids of each bidder and states double one after the other, up to 16, 600 and 16,384, while the other two are at
their limit. At most five bidders win. It prints the CPU time in milliseconds, the least of the runs, with the bytes of
the certificate; `build/draw pictures` draws docs/pictures/growth.svg from what is kept. Then an edit of `cca review`
that raises a bid of a middle bidder by 1, in microseconds, and `price` on a book with six winners and as many turns as
were found, whose points take the most work; more than a second is an error. And `place` and `place-check` on slots at
their limits, a band of 40 with a bid on each slot where a bidder may begin, as bidders grow to 6.
"""

from __future__ import annotations

import csv
import itertools
import os
import random
import sys
from collections.abc import Callable, Iterable, Mapping
from typing import TypeAlias

from build.drawings.growth import FIELDS, MEASURED
from checks.cases.limit_books import CCA, OUT, build_cca, price, timed

# What grows, the sizes of the book, the times by commands, the bytes of the certificate, and how many win.
Row: TypeAlias = tuple[str, dict[str, int], dict[str, float], int, int]
FEW, MANY = 10, 510
SUPPLIES: dict[int, tuple[int, ...]] = {
    1024: (15, 3, 3, 3),
    2048: (15, 7, 3, 3),
    4096: (15, 7, 7, 3),
    8192: (15, 7, 7, 3, 1),
    16384: (15, 7, 7, 3, 3),
}
RESERVE = (1000, 300, 150, 60, 25)
MOST = {"bidders": 16, "bids": 600, "states": 16384}
STEPS: dict[str, tuple[int, ...]] = {"bidders": (2, 4, 8, 16), "bids": (75, 150, 300, 600), "states": tuple(SUPPLIES)}
COMMANDS = ("win", "price", "check")


def write_book(bidders: int, bids: int, states: int) -> str:
    """A book where each package has at least three lots of the first category, so that at most five bidders win."""
    rng = random.Random(f"{bidders} {bids} {states}")
    supply = SUPPLIES[states]
    reserve = RESERVE[: len(supply)]
    every = [p for p in itertools.product(*(range(s + 1) for s in supply)) if p[0] >= 3]
    lines = ["book 1", "supply " + " ".join(map(str, supply)), "reserve " + " ".join(map(str, reserve))]
    for j in range(1, bidders + 1):
        lines.append(f"bidder b{j}")
        for package in sorted(rng.sample(every, bids)):
            cost = sum(n * r for n, r in zip(package, reserve))
            lines.append("bid " + " ".join(map(str, package)) + f" {cost + rng.randrange(3 * cost + 1)}")
    name = os.path.join(OUT, "growth.book")
    with open(name, "w") as f:
        f.write("\n".join(lines + ["end"]) + "\n")
    return name


def edits_file(book: str, bidder: int, count: int) -> str:
    """A file of edits. Each edit raises the first bid of a bidder by 1."""
    with open(book) as f:
        lines = f.read().splitlines()
    _, *counts, amount = lines[lines.index(f"bidder b{bidder}") + 1].split()
    raises = [f"raise b{bidder} {' '.join(counts)} {int(amount) + more}" for more in range(1, count + 1)]
    name = os.path.join(OUT, f"growth-{count}.edits")
    with open(name, "w") as f:
        f.write("\n".join(["edits 1", *raises, "end"]) + "\n")
    return name


def edit_time(book: str, bidder: int, runs: int) -> float:
    """The CPU time of an edit, in microseconds: the time of many edits less the time of few edits, divided by the
    difference of their numbers."""
    few, many = (
        min(timed([CCA, "review", book, edits_file(book, bidder, count)])[0] for _ in range(runs))
        for count in (FEW, MANY)
    )
    return 1000 * max(many - few, 0) / (MANY - FEW)


def times_of(sizes: Mapping[str, int], runs: int) -> tuple[dict[str, float], int, int]:
    """The least CPU time of each command on a book of these sizes, the bytes of its certificate, and how many bidders
    win."""
    book, cert = write_book(**sizes), os.path.join(OUT, "growth.cert")
    of: dict[str, Callable[[], tuple[float, str]]] = {
        "win": lambda: timed([CCA, "win", book]),
        "price": lambda: price(book, cert),
        "check": lambda: timed([CCA, "check", book, cert]),
    }
    times = {command: min(of[command]()[0] for _ in range(runs)) for command in COMMANDS}
    return times, os.path.getsize(cert), of["win"]()[1].count("winner ")


def write_turns() -> str:
    """Six winners of a lot each, and a bidder with a bid for each set of their lots, nearly as high as the set is
    large.

    Among 2,500 such drawn books this one has the most turns, so its points have to meet the most rows.
    """
    rng = random.Random(91)
    bids = {}
    for lots in range(1, 64):
        package = tuple(lots >> k & 1 for k in range(6))
        bids[package] = 1 if sum(package) == 1 else 100 * sum(package) + rng.randint(0, 99)
    lines = ["book 1", "supply 1 1 1 1 1 1", "reserve 0 0 0 0 0 0"]
    for winner in range(6):
        lines += [f"bidder w{winner}", "bid " + " ".join(str(int(k == winner)) for k in range(6)) + " 1000000"]
    lines.append("bidder others")
    lines += ["bid " + " ".join(map(str, package)) + f" {amount}" for package, amount in sorted(bids.items())]
    name = os.path.join(OUT, "turns.book")
    with open(name, "w") as f:
        f.write("\n".join(lines + ["end"]) + "\n")
    return name


def write_slots(bidders: int) -> str:
    """A band of 40 slots with room for all bidders. Each has a bid on each slot where it may begin, worth more near a
    place of its own."""
    rng = random.Random(f"slots {bidders}")
    lines = ["slots 1", "band 40"]
    for j in range(1, bidders + 1):
        width, near = rng.randint(1, 40 // bidders), rng.randint(1, 40)
        lines.append(f"bidder b{j} {width}")
        lines += [
            f"place {start} {1000000 - 10000 * abs(start - near) + rng.randint(0, 9999)}"
            for start in range(1, 42 - width)
        ]
    name = os.path.join(OUT, "growth.slots")
    with open(name, "w") as f:
        f.write("\n".join(lines + ["end"]) + "\n")
    return name


def place(slots: str, cert: str) -> tuple[float, str]:
    if os.path.exists(cert):
        os.remove(cert)
    return timed([CCA, "place", slots, cert])


def place_times(bidders: int, runs: int) -> tuple[float, float]:
    """The least CPU time of `place` and of `place-check` on slots with this many bidders."""
    slots, cert = write_slots(bidders), os.path.join(OUT, "growth.placed")
    placed = min(place(slots, cert)[0] for _ in range(runs))
    return placed, min(timed([CCA, "place-check", slots, cert])[0] for _ in range(runs))


def keep(rows: Iterable[Row]) -> None:
    """Keeps the times in bench/growth.csv, for `build/draw pictures`, which draws docs/pictures/growth.svg."""
    with open(MEASURED, "w", newline="", encoding="utf-8") as file:
        writer = csv.writer(file, lineterminator="\n")
        writer.writerow(FIELDS)
        for grown, sizes, times, _, winners in rows:
            writer.writerow([grown, *sizes.values(), *(f"{times[command]:.1f}" for command in COMMANDS), winners])


def main(runs: int) -> None:
    build_cca()
    rows: list[Row] = []
    known: dict[tuple[int, ...], tuple[dict[str, float], int, int]] = {}
    print(f"{'bidders':>8}{'bids':>6}{'states':>8}{'win':>9}{'price':>9}{'check':>9}{'bytes':>13}{'winners':>9}")
    for grown, steps in STEPS.items():
        for step in steps:
            sizes = {**MOST, grown: step}
            key = tuple(sizes.values())
            if key not in known:
                known[key] = times_of(sizes, runs)
            times, length, winners = known[key]
            rows.append((grown, sizes, times, length, winners))
            print(
                "{bidders:8}{bids:6}{states:8}".format(**sizes)
                + "".join(f"{times[c]:9.0f}" for c in COMMANDS)
                + f"{length:13,}{winners:9}",
                flush=True,
            )
    keep(rows)
    print(
        f"an edit on the largest book: {edit_time(write_book(**MOST), (MOST['bidders'] + 1) // 2, runs):.0f} "
        "microseconds"
    )
    book, cert = write_turns(), os.path.join(OUT, "turns.cert")
    turns = price(book, cert, "--rounds")[1].count("round ")
    time = min(price(book, cert)[0] for _ in range(runs))
    print(f"six winners, {turns} turns: price {time:.1f}")
    for bidders in range(1, 7):
        placed, tested = place_times(bidders, runs)
        print(f"slots of {bidders} bidders: place {placed:.1f}, place-check {tested:.1f}")
    if time > 1000:
        sys.exit("price takes more than a second")
