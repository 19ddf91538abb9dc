"""Times `cca auction` on logs of 100,000 records, ordinary and hostile ones, in one run.

Next to each log is the time of only reading it, which is measured by the same log with a faulty last record, and how
many times as long the whole run takes. A hostile log is to take at most about ten times as long as it takes to read. It
prints the median of the CPU times in milliseconds, less the time of a start.
"""

from __future__ import annotations

import os
import statistics

from checks.cases.hostile_logs import LOGS, award, text_of
from checks.cases.limit_books import CCA, OUT, build_cca, timed


def file_of(name: str, text: str) -> str:
    path = os.path.join(OUT, name)
    with open(path, "w") as f:
        f.write(text)
    return path


def cost(terms: str, log: str, runs: int) -> tuple[float, str]:
    """The median CPU time of `cca auction` in milliseconds, and the last line that it prints."""
    book, spent, last = os.path.join(OUT, "log.book"), [], ""
    for _ in range(runs):
        if os.path.exists(book):
            os.remove(book)
        once, printed = timed([CCA, "auction", terms, log, book], may_fail=True)
        spent.append(once)
        last = printed.splitlines()[-1]
    return statistics.median(spent), last


def main(runs: int) -> None:
    build_cca()
    terms = file_of("log.award", award())
    start, _ = cost(terms, file_of("empty.log", ""), runs)
    print(f"{'log':<20}{'bytes':>11}{'reading':>11}{'auction':>11}{'times':>7}  ends with")
    for kind in LOGS:
        text = text_of(kind)
        broken = text[:-1].rpartition("\n")[0] + "\nclose\n"
        reading, refused = cost(terms, file_of("broken.log", broken), runs)
        whole, last = cost(terms, file_of("whole.log", text), runs)
        assert refused == "cca: refused log 100000", refused
        reading, whole = reading - start, whole - start
        print(f"{kind:<20}{len(text):>11,}{reading:>9.1f}ms{whole:>9.1f}ms{whole / reading:>7.1f}  {last}")
