"""Tests the predictions of theory for whole auctions of bidders that follow their values, on drawn awards and values.

NUMBER auctions of award version 1, from number FIRST on, with bidders that are straightforward in the clock and list
every package with its value: each line has to be admitted by the program, no winner may pay more than its value, and if
values are separable with decreasing marginal values, each price has to be the Vickrey price. Then 20 small auctions,
where efficiency and revenue have to be the same as from a program that visits all allocations. It prints what is wrong,
and ends with 1 then.
"""

from __future__ import annotations

import collections
import concurrent.futures
import functools
from collections.abc import Iterable

from checks.cases.limit_books import build_cca

from checks.cases import checked  # noqa: E402

SMALL = 20


def told(results: Iterable[tuple[int, tuple[str, list[str]]]]) -> int:
    """Prints the faults, and returns the number of auctions of each form, and the number with a fault."""
    counts: collections.Counter[str] = collections.Counter()
    wrong = 0
    for number, (form, found) in results:
        counts[form] += 1
        counts["limit winners"] += "limit" in found
        faults = [it for it in found if it != "limit"]
        wrong += bool(faults)
        for it in faults:
            print(f"auction {number}, {form}: {it}")
    print(", ".join(f"{form} {count}" for form, count in sorted(counts.items())), f"with a fault {wrong}")
    return wrong


def main(number: int, first: int) -> int:
    build_cca()
    with concurrent.futures.ProcessPoolExecutor() as pool:
        numbers = range(first, first + number)
        wrong = told(zip(numbers, pool.map(checked.faults, numbers, chunksize=5)))
        small = functools.partial(checked.faults, is_small=True)
        wrong += told(zip(range(SMALL), pool.map(small, range(SMALL))))
    return 1 if wrong else 0
