"""Books and certificates for the tests, and the tools as modules.

`certificate_of` writes a certificate from its choices, payments and rows. Its tables are computed by going down the
bidders, and nothing of cca_tools is in it.
"""

from __future__ import annotations

import contextlib
import importlib
import itertools
import operator
import os
import tempfile
import unittest.mock
from collections.abc import Callable, Iterable, Mapping, Sequence
from types import ModuleType
from typing import Any

TOOLS = os.path.join(os.path.dirname(os.path.realpath(__file__)), "..", "..", "tools")
EXAMPLES = os.path.join(TOOLS, "..", "examples")
Package = Sequence[int]
Bids = Sequence[Sequence[tuple[Package, int]]]
Row = tuple[Sequence[int], int, int, Sequence[int]]  # members, multipliers and a choice, all counted from 1


def tool(name: str) -> ModuleType:
    """A tool as a module."""
    return importlib.import_module(f"cca_tools.commands.{name.replace('-', '_')}")


def called(name: str, *words: str, **environment: str) -> tuple[str, int, str]:
    """What a tool prints, its status, and what it writes to standard error, when it is called in this process with
    these variables in its environment."""
    with tempfile.TemporaryFile("w+") as out, tempfile.TemporaryFile("w+") as faults:
        with contextlib.redirect_stdout(out), contextlib.redirect_stderr(faults):
            with unittest.mock.patch.dict(os.environ, environment):
                status: int = tool(name).main(words)
        for file in (out, faults):
            file.seek(0)
        return out.read(), status, faults.read()


def sample(name: str) -> bytes:
    """The bytes of a file of examples/."""
    with open(os.path.join(EXAMPLES, name), "rb") as file:
        return file.read()


def lines(text: str) -> bytes:
    """The text of lines, which ` / ` separates."""
    return "".join(line + "\n" for line in text.split(" / ")).encode()


def taking(name: str) -> Callable[..., Any]:
    """A tool as a function from its arguments to what it prints; a fault is a `Stop`."""
    module = tool(name)
    run = getattr(module, name.replace("-", "_"))
    return lambda words: run(module.parser().words_of(words))


def said(run: Callable[[list[str]], Any], *texts: bytes) -> tuple[Any, int]:
    """What a tool prints of files with these bytes, and its status."""
    from cca_tools.rules.stops import Stop

    with tempfile.TemporaryDirectory() as folder:
        names = [os.path.join(folder, str(at)) for at, _ in enumerate(texts)]
        for name, text in zip(names, texts):
            with open(name, "wb") as file:
                file.write(text)
        try:
            return run(names), 0
        except Stop as stop:
            return stop.line, stop.status


def table_of(supply: Package, bids: Bids, worths: Sequence[Sequence[int]]) -> list[str]:
    """The greatest sum of the bidders after each line within each supply, as the lines of a table."""
    places = list(itertools.product(*(range(most + 1) for most in supply)))
    line: dict[tuple[int, ...], int] = {place: 0 for place in places}
    made = [line]
    for packages, counts in zip(reversed(bids), reversed(worths)):
        after, line = line, {}
        for place in places:
            ways = [
                (worth, tuple(a - b for a, b in zip(place, package))) for (package, _), worth in zip(packages, counts)
            ]
            line[place] = max([after[place]] + [worth + after[left] for worth, left in ways if min(left) >= 0])
        made.insert(0, line)
    return [spaced("t", line.values()) for line in made]


def spaced(word: str, numbers: Iterable[int]) -> str:
    """A word and numbers with spaces between them."""
    return " ".join(map(str, [word, *numbers]))


def certificate_of(
    supply: Package,
    bids: Bids,
    choice: Sequence[int],
    without: Mapping[int, Sequence[int]],
    den: int,
    pay: Sequence[int],
    rows: Sequence[Row],
    head: Sequence[str] = ("cert 1",),
    reserves: Sequence[int] = (),
) -> bytes:
    """A certificate of a book; without reserves these are 0. Rows are (members, first, second, choice), and all numbers
    count from 1."""
    net = [[amount - sum(map(operator.mul, package, reserves)) for package, amount in of_one] for of_one in bids]
    own = [net[j][number - 1] if number else 0 for j, number in enumerate(choice)]
    text = [*head, f"den {den}", f"value {sum(own)}", spaced("choice", choice), "table", *table_of(supply, bids, net)]
    for j, other in without.items():
        worths = [[-1] * len(of_one) if k == j else of_one for k, of_one in enumerate(net, 1)]
        text += [f"without {j}", spaced("choice", other), "table", *table_of(supply, bids, worths)]
    text += [spaced("pay", pay), f"rows {len(rows)}"]
    for members, first, second, other in rows:
        text += [spaced("row", members), f"mult {first} {second}", spaced("choice", other)]
    lost = [den * one - paid if number else 0 for one, paid, number in zip(own, pay, choice)]
    lowered = table_of(supply, bids, [[den * amount - less for amount in of_one] for of_one, less in zip(net, lost)])
    return "\n".join([*text, "lowered", *lowered, "end", ""]).encode()


def spectrum() -> tuple[bytes, bytes]:
    """The book of the log of the UK's sample, and its certificate by the choices, payments and rows that docs/COURT.md
    shows."""
    from cca_tools.rules.auction import replay
    from cca_tools.rules.award import read_award
    from cca_tools.rules.book import book_text
    from cca_tools.rules.log import read_log

    award = read_award(sample("spectrum.award"))
    book = replay(award, read_log(sample("spectrum.log"), award)).book()
    without = {1: (0, 1, 3, 1, 2), 2: (1, 0, 1, 1, 3), 3: (3, 1, 0, 2, 2), 4: (1, 1, 1, 0, 2), 5: (3, 1, 2, 1, 0)}
    rows = [
        ((1,), 1, 0, without[1]),
        ((2,), 1, 0, without[2]),
        ((3,), 1, 0, without[3]),
        ((4, 5), 1, 200, (3, 1, 3, 0, 0)),
    ]
    pay = 47400, 30000, 32000, 6200, 60200
    return book_text(book), certificate_of(
        book.supply, book.bids, (1,) * 5, without, 1, pay, rows, reserves=book.reserves
    )


def six_bidders() -> bytes:
    """A certificate of examples/six-bidders.book: five of six bidders win."""
    supply, reserves = (4, 1, 14, 9), (200000, 250000, 15000, 100)
    bids = [
        [((2, 0, 0, 0), 550000)],
        [((0, 1, 0, 0), 350000)],
        [((2, 0, 4, 5), 710500)],
        [((0, 0, 7, 0), 225000)],
        [((0, 0, 3, 4), 105400)],
        [((4, 0, 7, 0), 1285000)],
    ]
    others = (0, 1, 0, 1, 0, 1)
    without = {1: others, 2: (1, 0, 1, 1, 1, 0), 3: others, 4: (1, 1, 1, 0, 1, 0), 5: (1, 1, 1, 1, 0, 0)}
    rows = [
        ((1, 3, 4), 0, 70000, (0, 1, 0, 0, 1, 1)),
        ((1, 3, 5), 1, 0, others),
        ((4,), 1, -70000, without[4]),
        ((2,), 1, 0, without[2]),
    ]
    return certificate_of(
        supply, bids, (1, 1, 1, 1, 1, 0), without, 1, (140000, 0, 240000, 0, 0, 0), rows, reserves=reserves
    )


def book_of(supply: Package, bids: Bids, names: Sequence[str] | None = None) -> bytes:
    """The text of a book without reserves."""
    text = ["book 1", spaced("supply", supply), spaced("reserve", [0] * len(supply))]
    for name, of_one in zip(names or [f"b{j}" for j, _ in enumerate(bids, 1)], bids):
        text += [f"bidder {name}", *(spaced("bid", [*package, amount]) for package, amount in of_one)]
    return "\n".join([*text, "end", ""]).encode()
