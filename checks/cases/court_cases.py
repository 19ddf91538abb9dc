"""Drawn books, slots, weights and auctions with right and altered certificates, and the answers to them by the voices
of checks/cases/voices.py."""

from __future__ import annotations

import itertools
import os
import random
import re
from collections.abc import Callable, Iterable, Iterator, Sequence
from typing import TypeAlias

from cca_tools.rules.auction import replay
from cca_tools.rules.award import read_award
from cca_tools.rules.log import read_log
from cca_tools.rules.stops import Stop
from checks.cases.damage import broken, scaled, slipped, widened
from checks.cases.drawn_auctions import broken_award, broken_log, bytes_of, odd_award, odd_log
from checks.cases.searches import Bids, dot
from checks.cases.second_auctions import drawn
from checks.cases.small_certs import book_certificate, place_certificate
from checks.cases.voices import FILES, court_answer, program_answer, rules_answer

# A command, and the texts of its files.
Case: TypeAlias = tuple[str, tuple[bytes, ...]]
# What changes a text.
Change: TypeAlias = Callable[[random.Random, str], str]
SLIPS: tuple[Change, ...] = (slipped, broken)
# The last number of a range of docs/, or of a machine's word, and the first one after it.
ENDS = (
    65_535,
    65_536,
    10**6,
    2**31,
    2**32,
    2**42 + 1,
    10**18,
    10**18 + 1,
    2**63 - 1,
    2**63,
    10**38,
    10**39 - 1,
    10**39,
)


def answers(folder: str, command: str, texts: Sequence[bytes], program: str | None = None) -> list[tuple[str, int]]:
    """The answers of the court's file, of the rules, and of the program if one is named, for these texts."""
    names = [os.path.join(folder, kind) for kind in FILES[command]]
    for name, text in zip(names, texts):
        with open(name, "wb") as file:
            file.write(text)
    return [
        court_answer(command, names),
        rules_answer(command, names),
        *([program_answer(program, command, names)] if program else []),
    ]


# ---- drawn cases ----


def cases(rng: random.Random) -> Iterator[Case]:
    """Drawn cases without end, each a command with its texts."""
    for kind in itertools.cycle([book_cases, auction_cases, slot_cases, auction_cases, faulty_auctions, wide_cases]):
        yield from kind(rng)


def changed(rng: random.Random, text: bytes, count: int) -> Iterator[bytes]:
    """Texts that are made from a certificate; the first one is unchanged."""
    changes: list[Change] = [broken, broken, broken, slipped, scaled, widened, moved]
    yield text
    for _ in range(count):
        yield rng.choice(changes)(rng, text.decode()).encode()


def moved(rng: random.Random, text: str) -> str:
    """Payments of the same sum."""
    numbers = list(map(int, re.findall(r"^pay(.*)$", text, re.M)[0].split()))
    if len(numbers) > 1:
        one, other = rng.sample(range(len(numbers)), 2)
        numbers[one], numbers[other] = numbers[one] + 1, numbers[other] - 1
    return re.sub(r"^pay.*$", " ".join(["pay", *map(str, numbers)]), text, count=1, flags=re.M)


def book_cases(rng: random.Random) -> Iterator[Case]:
    supply = [rng.randint(1, rng.choice([1, 2, 3])) for _ in range(rng.choice([1, 2, 2, 3]))]
    reserves, top = [rng.choice([0, 0, 1, 7]) for _ in supply], rng.choice([1, 3, 12, 2**41])
    bidders = [drawn_bids(rng, supply, reserves, top) for _ in range(rng.choice([0, 1, 2, 3, 3, 4, 5]))]
    if rng.randrange(20) == 0:
        bidders += [[]] * (rng.randint(12, 16) - len(bidders))
    text = book_text(supply, reserves, bidders)
    weights = [rng.choice([1, 1, 2, 3, 7, 20]) for _ in bidders]
    weight_text = "".join(["weights 1\n", *(f"weight b{j} {weight}\n" for j, weight in enumerate(weights)), "end\n"])
    cert, weighed = book_certificate(supply, reserves, bidders), book_certificate(supply, reserves, bidders, weights)
    if cert and weighed:
        yield from (("check", (text.encode(), other)) for other in changed(rng, cert, 8))
        yield from (("check", (f(rng, text).encode(), cert)) for f in SLIPS)
        yield from (("weigh-check", (text.encode(), weight_text.encode(), other)) for other in changed(rng, weighed, 3))
        yield from (("weigh-check", (text.encode(), f(rng, weight_text).encode(), weighed)) for f in SLIPS)


def drawn_bids(
    rng: random.Random, supply: Sequence[int], reserves: Sequence[int], top: int
) -> list[tuple[tuple[int, ...], int]]:
    packages = {tuple(rng.choice([0, rng.randint(0, most)]) for most in supply) for _ in range(rng.randint(0, 4))}
    return [(package, dot(package, reserves) + rng.randint(0, top)) for package in sorted(packages) if any(package)]


def book_text(supply: Sequence[int], reserves: Sequence[int], bidders: Bids) -> str:
    lines = ["book 1", f"supply {joined(supply)}", f"reserve {joined(reserves)}"]
    for j, bids in enumerate(bidders):
        lines += [f"bidder b{j}", *(f"bid {joined(package)} {amount}" for package, amount in bids)]
    return "\n".join([*lines, "end", ""])


def joined(numbers: Iterable[int]) -> str:
    return " ".join(map(str, numbers))


def slot_cases(rng: random.Random) -> Iterator[Case]:
    band = rng.choice([1, 3, 5, 8, 40])
    bidders: list[tuple[int, list[tuple[int, int]]]] = []
    for _ in range(rng.choice([0, 1, 2, 3, 3, 4])):
        free = band - sum(width for width, _ in bidders)
        if free:
            width = rng.randint(1, min(3, free))
            likely = range(1, min(band - width + 1, 9) + 1)
            starts = sorted(rng.sample(likely, rng.randint(0, min(4, len(likely)))))
            bidders.append((width, [(start, rng.randint(0, 12)) for start in starts]))
    lines = ["slots 1", f"band {band}"]
    for j, (width, bids) in enumerate(bidders):
        lines += [f"bidder b{j} {width}", *(f"place {start} {amount}" for start, amount in bids)]
    text, cert = "\n".join([*lines, "end", ""]), place_certificate(bidders)
    if cert:
        yield from (("place-check", (text.encode(), other)) for other in changed(rng, cert, 8))
        yield from (("place-check", (f(rng, text).encode(), cert)) for f in SLIPS)


def auction_cases(rng: random.Random) -> Iterator[Case]:
    """An auction with its certificate, altered; with lines of its log left out or twice, and with other versions of its
    award."""
    terms, records, _ = drawn(rng)
    award, log = terms.encode(), records.encode()
    rules = read_award(award)
    try:
        book = replay(rules, read_log(log, rules)).need_book()
    except Stop:
        yield "audit", (award, log, b"")
        return
    cert = book_certificate(book.supply, book.reserves, book.bids)
    if cert:
        yield from (("audit", (award, log, other)) for other in changed(rng, cert, 3))
        lines, at = log.splitlines(True), rng.randrange(log.count(b"\n"))
        others = (lines[:at] + lines[at + 1 :], lines[:at] + lines[at:][::-1])
        yield from (("audit", (award, b"".join(other), cert)) for other in others)
        yield "audit", (award, odd_log(rng, records).encode(), cert)
        yield "audit", (re.sub(rb"version = .", other_version, award), log, cert)


def other_version(was: re.Match[bytes]) -> bytes:
    """The line of the other version of an award."""
    return b"version = 1" if was[0][-1:] == b"2" else b"version = 2"


def faulty_auctions(rng: random.Random) -> Iterator[Case]:
    """Awards with a rule broken or of any TOML, and logs with a record that states no line or of any CSV."""
    award, log, size = drawn(rng)
    for kind in (broken_award, broken_award, broken_award, odd_award):
        yield "audit", (bytes_of(rng, kind(rng)), log.encode(), b"")
    for other in (broken_log(rng, log, size), odd_log(rng, log), odd_log(rng, log)):
        yield "audit", (award.encode(), bytes_of(rng, other), b"")


def wide_cases(rng: random.Random) -> Iterator[Case]:
    """Right cases in each of whose texts a number is about the end of a range, or has more bits than a machine's
    word."""
    for kind in (book_cases, auction_cases, slot_cases):
        command, texts = next(kind(rng), ("", ()))
        for at, text in enumerate(texts):
            yield from ((command, (*texts[:at], wide(rng, text), *texts[at + 1 :])) for _ in range(2))


def wide(rng: random.Random, text: bytes) -> bytes:
    """The text with another number in one place. A reader that drops the high bits of 2^64 and more takes the old
    one."""
    numbers = list(re.finditer(rb"\d+", text))
    if not numbers:
        return text
    found = rng.choice(numbers)
    number = rng.choice([*ENDS, int(found[0]) + 2**64, int(found[0]) + 2**64])
    return text[: found.start()] + b"%d" % number + text[found.end() :]
