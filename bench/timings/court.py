"""Times `tools/audit`, compared with `cca audit`, on files at the limits of an award, a log and a certificate, in one
run.

It prints the least processor time of the runs in milliseconds, less a start's, how many times as long tools/audit
takes, and the first line of the answer, which has to be the same. A time of `cca` below a millisecond isn't compared.
Each file has its greatest length, or its greatest count of records, divided by PART, if the line doesn't name another
length. For an award that is refused, a log and a certificate aren't read.
"""

from __future__ import annotations

import functools
import itertools
import os
import pathlib
import random
import sys
from collections.abc import Callable, Iterator
from typing import NamedTuple

from checks.cases import hostile_logs
from checks.cases.limit_books import BIDDERS, CCA, HERE, OUT, SUPPLY, build_cca, timed

AUDIT = os.path.join(HERE, "..", "tools", "audit")
AWARD_BYTES, LOG_BYTES, CERT_BYTES = 65_536, 8_388_608, 67_108_864
RECORDS, DRAFTS, DOUBLINGS = 100_000, 300, 33
SHORTEST = 1.0  # of the times of `cca` that are compared, in milliseconds


class Sale(NamedTuple):
    """An award, a log and a certificate as texts. The certificate may be empty if it isn't read."""

    award: str
    log: str = ""
    cert: str = ""


# ---- awards ----


def awards(size: int) -> Iterator[tuple[str, Sale]]:
    """Texts of this many bytes in place of an award; none has its form."""
    deep = "[" * 79 + "]" * 79 + ","
    keys = "".join(f"k{n} = 1\n" for n in range(size))
    yield "many keys", Sale(keys[: keys.rfind("\n", 0, size) + 1])
    for what, head, piece, tail in (
        ("one key", "", "k", " = 1\n"),
        ("key of many parts", "k", ".k", " = 1\n"),
        ("float of many digits", "x = 1", "0", ".0\n"),
        ("whole number of many digits", "x = 1", "0", "\n"),
        ("string", 'x = "', "s", '"\n'),
        ("escaped quotes without an end", 'x = """', '\\""" "', "\\"),
        ("deep arrays", "x = [", deep, "]\n"),
        ("arrays without an end", "x = ", "[", ""),
        ("inline tables", "x = [", "{a = {b = 1}},", "]\n"),
        ("many bidders", "", "[[bidder]]\n", ""),
        ("empty lines", "", "\n", ""),
        ("comment", "#", "#", "\n"),
    ):
        room = size - len(head) - len(tail)
        yield what, Sale(head + piece * (room // len(piece)) + tail)


# ---- logs ----


def logs(records: int, size: int) -> Iterator[tuple[str, Sale]]:
    """Logs of this many records, with a close at the end, and logs that are long in other ways."""
    award = hostile_logs.award()
    for kind in hostile_logs.LOGS:
        yield kind, Sale(award, "\n".join([*hostile_logs.LOGS[kind]()[: records - 1], "close,,,"]) + "\n")
    for what, more in (
        ("refused submissions", refused_submissions),
        ("drafts beyond the most", many_drafts),
        ("drafts of what was held last", drafts_of_the_last),
    ):
        yield what, Sale(award, "\n".join([*more(records), "close,,,"]) + "\n")
    for what, text in (("one field", "bid," + "b" * size), ("one quoted field", 'bid,"' + '""' * (size // 2))):
        yield what, Sale(award, text[:size])
    yield "empty lines", Sale(award, "\n" * size)


def refused_submissions(records: int) -> list[str]:
    """A draft list whose last draft breaks its relative cap, submitted again and again."""
    clock = hostile_logs.Clock()
    lines = clock.lines + [hostile_logs.line("draft", 1, package, str(amount)) for package, amount in clock.amounts()]
    package, amount = clock.amounts()[-1]
    lines.append(hostile_logs.line("draft", 1, package, str(amount + 10**9)))
    return (lines + ["submit,b1,,"] * records)[: records - 1]


def many_drafts(records: int) -> list[str]:
    """Drafts for more packages than a draft list may have, in turn."""
    clock = hostile_logs.Clock()
    supply = hostile_logs.SUPPLY
    packages = [(a, b) for a in range(supply[0] + 1) for b in range(supply[1] + 1) if a or b]
    drafts = (hostile_logs.line("draft", 1, package, str(10**9)) for package in itertools.cycle(packages))
    return (clock.lines + list(itertools.islice(drafts, records)))[: records - 1]


def drafts_of_the_last(records: int) -> list[str]:
    """A full draft list, and then, in turn, another amount for the last round's package, which caps all drafts, and a
    submission."""
    clock = hostile_logs.Clock()
    lines = clock.lines + [hostile_logs.line("draft", 1, package, str(amount)) for package, amount in clock.amounts()]
    last = hostile_logs.package_of(hostile_logs.MOST - hostile_logs.ROUNDS)
    pairs = ((hostile_logs.line("draft", 1, last, str(10**9 + n % 2)), "submit,b1,,") for n in range(records))
    return (lines + list(itertools.chain.from_iterable(pairs)))[: records - 1]


# ---- certificates ----


def doubling_award(supply: tuple[int, ...], bidders: int) -> str:
    """Prices that double in each round with an excess; no package has points, so each may be drafted at the last
    prices."""
    lines = ["version = 1", "tick = 1"]
    for c, most in enumerate(supply):
        lines += ["[[category]]", f'name = "c{c}"', f"supply = {most}", "points = 0", "reserve = 1"]
    for j in range(bidders):
        lines += ["[[bidder]]", f'name = "b{j}"', "eligibility = 0"]
    return "\n".join([*lines, "[[step]]", "excess = 1", "permille = 1000", ""])


def doubling_log(supply: tuple[int, ...], bidders: int, drafts: int, rng: random.Random) -> str:
    """All bidders ask for a lot of each category until prices are high, then for nothing, and draft at drawn amounts
    below these prices. Each package has a lot of the first category, so at most as many win as it has lots."""
    ask = " ".join("1" for _ in supply)
    clock = [*(f"bid,b{j},{ask}," for j in range(bidders)), "close,,,"] * DOUBLINGS
    every = [package for package in itertools.product(*(range(most + 1) for most in supply)) if package[0]]
    sealed = []
    for j in range(bidders):
        for package in rng.sample(every, min(drafts, len(every))):
            top = sum(package) * 2**DOUBLINGS
            sealed.append(f"draft,b{j},{' '.join(map(str, package))},{rng.randrange(top // 2, top)}")
        sealed.append(f"submit,b{j},,")
    return "\n".join([*clock, "close,,,", *sealed, "close,,,", ""])


def filled_certificate(lines: int, entries: int, size: int) -> str:
    """A certificate of at most this many bytes where every bidder wins its first bid, which doesn't fit."""
    bidders = lines - 1
    head = "cert 1" if bidders <= 12 and entries <= 4_096 else "cert 2\nlimits 16 16384"
    choice = " ".join(["choice", *["1"] * bidders])
    digits = min(36, max(1, size // ((bidders + 2) * lines * entries) - 1))
    table = "table\n" + (" ".join(["t", *["9" * digits] * entries]) + "\n") * lines
    parts = [f"{head}\nden 1\nvalue 1\n{choice}\n{table}"]
    parts += [f"without {j}\n{choice}\n{table}" for j in range(1, bidders + 1)]
    pay = " ".join(["pay", *["1"] * bidders])
    return "".join([*parts, f"{pay}\nrows 0\n", table.replace("table", "lowered"), "end\n"])


def written_certificate(award: str, log: str) -> str:
    """The certificate that `cca award` writes."""
    names = [written("made.award", award), written("made.log", log), os.path.join(OUT, "made.cert")]
    pathlib.Path(names[2]).unlink(missing_ok=True)
    timed([CCA, "award", *names])
    return pathlib.Path(names[2]).read_text()


def certificates(supply: tuple[int, ...], bidders: int, drafts: int, size: int) -> Iterator[tuple[str, Sale]]:
    """Certificates of an auction whose book has the most states and bids."""
    award = doubling_award(supply, bidders)
    log = doubling_log(supply, bidders, drafts, random.Random("court"))
    states = functools.reduce(lambda product, most: product * (most + 1), supply, 1)
    longest = written_certificate(award, log)
    yield "longest that cca writes", Sale(award, log, longest)
    yield "longest, with a last line too many", Sale(award, log, f"{longest}end\n")
    yield "of most bytes", Sale(award, log, filled_certificate(bidders + 1, states, size))
    yield "one line of digits", Sale(award, log, longest.split("den")[0] + "den " + "9" * (size - 100))
    yield "one line of entries", Sale(award, log, longest.split("t 0")[0] + "t" + " 1" * (size // 2 - 2_000))


# ---- times ----


def written(name: str, text: str) -> str:
    """The path of a file with this text."""
    path = os.path.join(OUT, name)
    pathlib.Path(path).write_text(text)
    return path


def least(words: list[str], runs: int) -> tuple[float, str]:
    """The least processor time of the runs in milliseconds, and what they print."""
    found = [timed(words, may_fail=True) for _ in range(runs)]
    return min(spent for spent, _ in found), found[-1][1]


def row(kind: str, what: str, sale: Sale, starts: tuple[float, float], runs: int) -> str:
    """A line of the table. If the answers differ, it ends the run with status 1."""
    names = [written(f"court.{name}", text) for name, text in zip(Sale._fields, sale, strict=True)]
    size = os.path.getsize(names[["award", "log", "certificate"].index(kind)])
    (ours, said), (theirs, answer) = (
        least([*program, *names], runs) for program in ([CCA, "audit"], [sys.executable, AUDIT])
    )
    if answer != said:
        sys.exit(f"{kind}, {what}: cca says {said[:200]!r}, and tools/audit {answer[:200]!r}")
    ours, theirs = ours - starts[0], theirs - starts[1]
    times = f"{theirs / ours:>7.1f}" if ours >= SHORTEST else f"{'-':>7}"
    return f"{kind:<12} {what:<36}{size:>11,}{ours:>10.1f}{theirs:>12.1f}{times}  {said.splitlines()[0]}"


def main(runs: int, part: int) -> None:
    """Prints the table."""
    build_cca()
    starts = least([CCA, "audit"], runs)[0], least([sys.executable, AUDIT], runs)[0]
    supply, bidders = (SUPPLY, BIDDERS) if part < 2 else ((3, 3), 4)
    makers: list[tuple[str, Callable[[], Iterator[tuple[str, Sale]]]]] = [
        ("award", lambda: awards(AWARD_BYTES // part)),
        ("log", lambda: logs(RECORDS // part, LOG_BYTES // part)),
        ("certificate", lambda: certificates(supply, bidders, DRAFTS, CERT_BYTES // part)),
    ]
    print(f"{'file':<12} {'what it has':<36}{'bytes':>11}{'cca':>10}{'tools/audit':>12}{'times':>7}  answer")
    for kind, made in makers:
        for what, sale in made():
            print(row(kind, what, sale, starts, runs), flush=True)
