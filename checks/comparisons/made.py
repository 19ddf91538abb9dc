"""Compares `cca make` with a generator that is written only from the rules, and runs the made auctions through `award`
and `audit`.

The numbers are 0, 7, the greatest one and NUMBER drawn ones. For each two runs of `make` have to append the generator's
bytes and print its line, `award` has to be Done, and `audit` has to print `yes` and the same prices. It prints how many
differ, and the CPU time of each command in milliseconds, the least and the greatest.
"""

from __future__ import annotations

import os
import random
import subprocess

from checks.cases.limit_books import CCA, OUT, build_cca, timed
from checks.cases.made_auction import BIDDERS, award_text, log_text

AWARD, LOG, CERT = (os.path.join(OUT, "made." + part) for part in ("award", "log", "cert"))


def read(name: str) -> bytes:
    with open(name, "rb") as f:
        return f.read()


def fresh(*words: str) -> tuple[float, str]:
    """Removes the files of an earlier run. Returns the CPU time of a run, and what it prints."""
    for word in words:
        if os.path.isabs(word) and os.path.exists(word):
            os.remove(word)
    return timed([CCA, *words])


def is_made(number: int) -> tuple[bool, float]:
    """Whether a run of make appends and prints what the generator returns, and its CPU time."""
    log = log_text(number)
    time, printed = fresh("make", str(number), AWARD, LOG)
    line = f"made {number} bidders {BIDDERS} lines {log.count(chr(10))}\n"
    return (printed, read(AWARD), read(LOG)) == (line, award_text().encode(), log.encode()), time


def differs(number: int, times: dict[str, list[float]]) -> bool:
    try:
        twice = [is_made(number) for _ in range(2)]
        if os.path.exists(CERT):
            os.remove(CERT)
        priced = timed([CCA, "award", AWARD, LOG, CERT])
        audited = timed([CCA, "audit", AWARD, LOG, CERT])
    except subprocess.CalledProcessError as fault:
        print(f"{number}: {fault}")
        return True
    for command, time in (("make", twice[0][1]), ("award", priced[0]), ("audit", audited[0])):
        times.setdefault(command, []).append(time)
    return not all(same for same, _ in twice) or audited[1] != "yes\n" + priced[1]


def main(number: int, seed: int) -> int:
    build_cca()
    rng = random.Random(seed)
    numbers = [0, 7, 2**32 - 1, *(rng.randrange(2**32) for _ in range(number))]
    times: dict[str, list[float]] = {}
    faulty = [number for number in numbers if differs(number, times)]
    print(f"{len(numbers)} made auctions, {len(faulty)} differ", *faulty)
    for command, found in times.items():
        print(f"{command} {min(found):.0f} to {max(found):.0f} ms")
    return 1 if faulty else 0
