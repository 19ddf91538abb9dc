"""Compares `cca` with a plain search and with the second program, tools/, on random small books, weights and
placements.

`price`, `weigh` and `place` have to print the prices that checks/cases/searches.py finds. The certificates that they
write, certificates in other forms, and books, weights, slots and certificates that are changed in a number, a byte, a
line or a field, have to get the same line and the same status from `check`, `weigh-check` and `place-check` and from
tools/check and tools/check-places. The amounts that tools/why shows for a certificate have to add up to what is paid.
It prints how often each kind of text was compared and how often each answer came; the last line says how much differs,
and the status is 1 if anything does.
"""

from __future__ import annotations

import collections
import itertools
import os
import random
import re
import subprocess
from collections.abc import Callable, Iterable, Iterator, Sequence
from fractions import Fraction
from typing import TypeAlias

from checks.cases.damage import broken, scaled, slipped, widened
from checks.cases.limit_books import CCA, OUT, build_cca
from checks.cases.searches import Bidders, Bids, book_prices, choices_of_book, dot, place_prices
from checks.cases.second_tools import answer
from cca_tools.rules.book import read_book
from cca_tools.rules.certificate import read_certificate
from cca_tools.rules.stops import load
from cca_tools.rules.weights import read_weights
from cca_tools.rules.why import Reasons, vickrey_offer, why_lines

# What is sold, the reserves, and of each bidder its bids.
DrawnBook: TypeAlias = tuple[list[int], list[int], list[list[tuple[tuple[int, ...], int]]]]
SLIPS: tuple[Callable[[random.Random, str], str], ...] = (slipped, broken)
BREAKS, SLIPPED, INPUTS = 5, 4, 2


class Comparison:
    """Counts by kind and by answer, and the cases that differ."""

    def __init__(self) -> None:
        self.kinds: collections.Counter[str] = collections.Counter()
        self.answers: collections.Counter[str] = collections.Counter()
        self.differ = 0

    def tell(self, kind: str, what: str) -> None:
        self.differ += 1
        print(f"{kind}: {what}", flush=True)

    def prices(self, kind: str, words: Sequence[str], wanted: str) -> None:
        """A command that prices has to print what the search finds. It appends to a fresh file."""
        if os.path.exists(words[-1]):
            os.remove(words[-1])
        printed = subprocess.run([CCA, *words], capture_output=True, text=True).stdout
        self.kinds[kind] += 1
        if printed != wanted + "\n":
            self.tell(kind, f"printed\n{printed}wanted\n{wanted}\nof " + "\n".join(map(read, words[1:-1])))

    def answers_of(self, kind: str, command: str, tool: str, names: Sequence[str]) -> None:
        """Both programs have to give the same answer. The names are in the order of the second program, which has the
        weights last."""
        words = [names[0], names[2], names[1]] if len(names) == 3 else names
        ours = subprocess.run([CCA, command, *words], capture_output=True, text=True)
        said, status = answer(tool, names)
        self.kinds[kind] += 1
        self.answers[re.sub(r" (\d+)$", "", said.split("\n")[0])] += 1
        if (ours.stdout, ours.returncode) != (said + "\n", status):
            texts = "\n".join(f"{name}:\n{read(name)[:3000]}" for name in names if os.path.isfile(name))
            self.tell(kind, f"{command} says {ours.returncode} {ours.stdout}the tool says {status} {said}\nof {texts}")


def read(name: str) -> str:
    with open(name, encoding="utf-8", errors="replace") as f:
        return f.read()


def write(name: str, text: str) -> str:
    with open(name, "w", newline="") as f:
        f.write(text)
    return name


def out(name: str) -> str:
    return os.path.join(OUT, "agree." + name)


def random_book(rng: random.Random) -> DrawnBook:
    # one book in fifty has more bidders, and one more states, than a certificate of version 1 takes
    kind = rng.randrange(50)
    supply = [7, 7, 7, 8] if kind == 1 else [rng.randint(1, 2) for _ in range(rng.choice([1, 2, 3]))]
    reserves = [rng.choice([0, 0, 1, 3]) for _ in supply]
    every = [p for p in itertools.product(*(range(s + 1) for s in supply)) if any(p)]
    # small amounts tie often, and great ones come near the limits of numbers
    bidders: list[list[tuple[tuple[int, ...], int]]] = []
    top = rng.choice([3, 12, 12, 2**41])
    for _ in range(rng.choice([0, 1, 2, 3, 3, 4, 4, 5, 5])):
        packages = sorted(rng.sample(every, rng.randint(0, min(3, len(every)))))
        bidders.append([(p, dot(p, reserves) + rng.randint(0, top)) for p in packages])
    if kind == 0:
        bidders += [[]] * (rng.randint(13, 16) - len(bidders))
        rng.shuffle(bidders)
    return supply, reserves, bidders


def book_text(supply: Sequence[int], reserves: Sequence[int], bidders: Bids) -> str:
    lines = ["book 1", "supply " + " ".join(map(str, supply)), "reserve " + " ".join(map(str, reserves))]
    for j, bids in enumerate(bidders, 1):
        lines.append(f"bidder b{j}")
        lines += ["bid " + " ".join(map(str, p)) + f" {amount}" for p, amount in bids]
    return "\n".join(lines + ["end"]) + "\n"


def weights_text(weights: Iterable[int]) -> str:
    return "".join(["weights 1\n", *(f"weight b{j} {weight}\n" for j, weight in enumerate(weights, 1)), "end\n"])


def random_slots(rng: random.Random) -> tuple[int, list[tuple[int, list[tuple[int, int]]]]]:
    """A band, and bidders as (width, bids)."""
    band = rng.choice([1, 3, 5, 8, 40])
    bidders: list[tuple[int, list[tuple[int, int]]]] = []
    free, top = band, rng.choice([3, 12, 12, 2**42])
    for _ in range(rng.choice([0, 1, 2, 3, 3, 4, 4, 5])):
        if free:
            width = rng.randint(1, min(3, free))
            free -= width
            likely = range(1, min(band - width + 1, 9) + 1)
            starts = sorted(rng.sample(likely, rng.randint(0, min(4, len(likely)))))
            bidders.append((width, [(start, rng.randint(0, top)) for start in starts]))
    return band, bidders


def slots_text(band: int, bidders: Bidders) -> str:
    lines = ["slots 1", f"band {band}"]
    for j, (width, bids) in enumerate(bidders, 1):
        lines += [f"bidder b{j} {width}", *(f"place {start} {amount}" for start, amount in bids)]
    return "\n".join(lines + ["end"]) + "\n"


def with_other_choices(book: DrawnBook, text: str) -> Iterator[str]:
    """Certificates whose head has another choice of the same value, and after it parts that no test reaches: the last
    part of C3 fails first."""
    (_, value), (_, *first) = (
        next(line.split() for line in text.splitlines() if line.startswith(word)) for word in ("value ", "choice")
    )
    [(head, table)] = re.findall(r"\A(.*?)choice.*?\n(table\n(?:t.*\n)+)", text, re.S)
    empty = re.sub(r"\d+", "0", table)
    for choice, net in choices_of_book(*book):
        if net == int(value) and list(map(str, choice)) != first:
            nobody = spaced("choice", [0] * len(choice))
            without = "".join(f"without {j}\n{nobody}\n{empty}" for j, number in enumerate(choice, 1) if number)
            tail = f"{spaced('pay', [0] * len(choice))}\nrows 0\nlowered\n{empty[6:]}end\n"
            yield f"{head}{spaced('choice', choice)}\n{table}{without}{tail}"


def spaced(word: str, numbers: Iterable[int]) -> str:
    return " ".join(map(str, [word, *numbers]))


def changed(rng: random.Random, text: str) -> Iterator[tuple[str, str]]:
    """Texts that are made from a certificate, each with the kind of its change."""
    yield "as made", text
    yield "scaled", scaled(rng, text)
    yield "wider", widened(rng, text)
    yield from (("a number", broken(rng, text)) for _ in range(BREAKS))
    yield from (("a slip", slipped(rng, text)) for _ in range(SLIPPED))


def compare_certs(comparison: Comparison, rng: random.Random, command: str, tool: str, names: Sequence[str]) -> None:
    """The certificate, which is the second of the names, unchanged and changed."""
    if command != "place-check":
        compare_why(comparison, names)
    text, other = read(names[1]), out("other.cert")
    for kind, worse in changed(rng, text):
        comparison.answers_of(
            f"{command}, certificate: {kind}", command, tool, [names[0], write(other, worse), *names[2:]]
        )


def compare_why(comparison: Comparison, names: Sequence[str]) -> None:
    """The amounts of tools/why have to add up to what is paid, winner by winner and coalition by coalition."""
    book = read_book(load(names[0], "book"))
    weights = read_weights(load(names[2], "weights"), book) if len(names) == 3 else None
    certificate = read_certificate(load(names[1], "cert"), book)
    reasons = Reasons(certificate, weights)
    comparison.kinds["why"] += 1
    sums: list[tuple[int | Fraction, int | Fraction]] = [
        (sum(share.amount for share in reasons.shares(j)), reasons.pays(j) - reasons.vickrey(j))
        for j in certificate.winners
    ]
    sums += [(vickrey_offer(certificate, j).gross, reasons.vickrey(j)) for j in certificate.winners]
    sums += [(offer.gross, sum(map(reasons.pays, offer.members))) for offer in reasons.coalitions]
    told = len(list(why_lines(certificate, weights)))
    if any(told != paid for told, paid in sums) or told < len(certificate.winners):
        comparison.tell("why", f"{sums} of " + "\n".join(map(read, names)))


def compare_inputs(
    comparison: Comparison, rng: random.Random, command: str, tool: str, names: Sequence[str], at: int, kind: str
) -> None:
    """The input at a place of the names, changed, with the certificate that was made."""
    text = read(names[at])
    for worse in [f(rng, text) for f in SLIPS for _ in range(INPUTS)]:
        put = [*names[:at], write(out("other." + kind), worse), *names[at + 1 :]]
        comparison.answers_of(f"{command}, {kind}", command, tool, put)


def compare_book(comparison: Comparison, rng: random.Random) -> None:
    book = random_book(rng)
    names = [write(out("book"), book_text(*book)), out("cert")]
    comparison.prices("price", ["price", *names], book_prices(book))
    compare_certs(comparison, rng, "check", "check", names)
    for other in itertools.islice(with_other_choices(book, read(names[1])), 2):
        comparison.answers_of(
            "check, certificate: another choice", "check", "check", [names[0], write(out("other.cert"), other)]
        )
    compare_inputs(comparison, rng, "check", "check", names, 0, "book")
    compare_weights(comparison, rng, book, names)


def compare_weights(comparison: Comparison, rng: random.Random, book: DrawnBook, names: Sequence[str]) -> None:
    weights = [rng.choice([1, 1, 2, 3, 7, 20]) for _ in book[2]]
    names = [*names, write(out("weights"), weights_text(weights))]
    comparison.answers_of("weigh-check, certificate: without these weights", "weigh-check", "check", names)
    names[1] = out("weighed.cert")
    wanted = book_prices(book, weights)
    winners = [int(j) for j in re.findall(r"^winner b(\d+)", wanted, re.M)]
    if len(winners) > 4 and any(weights[j - 1] != 1 for j in winners):
        comparison.prices("weigh", ["weigh", names[0], names[2], names[1]], f"cca: limit winners {len(winners)}")
        return
    comparison.prices("weigh", ["weigh", names[0], names[2], names[1]], wanted)
    compare_certs(comparison, rng, "weigh-check", "check", names)
    compare_inputs(comparison, rng, "weigh-check", "check", names, 2, "weights")


def compare_slots(comparison: Comparison, rng: random.Random) -> None:
    band, bidders = random_slots(rng)
    names = [write(out("slots"), slots_text(band, bidders)), out("places.cert")]
    comparison.prices("place", ["place", *names], place_prices(bidders))
    compare_certs(comparison, rng, "place-check", "check-places", names)
    compare_inputs(comparison, rng, "place-check", "check-places", names, 0, "slots")


def books_about_limits() -> Iterator[str]:
    """Texts of books that reach a limit or go beyond it, by their heads, their bidders, their bids or their bytes."""
    supplies = [
        "2 2 2 2 2 2",
        "2 2 2 2 2 2 2",
        "40",
        "41",
        "39 1",
        "40 1",
        "15 7 7 3 3",
        "16 7 7 3 3",
        "999",
        "1000",
        "1 0",
        "01",
        "",
        "999 " * 30 + "999",
    ]
    for supply in supplies:
        yield f"book 1\nsupply {supply}\nreserve{' 0' * len(supply.split())}\nend\n"
    head = "book 1\nsupply 29 10 1\nreserve 1 1 0\n"
    packages = [p for p in itertools.product(range(30), range(11), range(2)) if any(p)]
    for bidders in (16, 17):
        yield head + "".join(f"bidder b{j}\n" for j in range(bidders)) + "end\n"
    for bids in (600, 601):
        yield head + "bidder b1\n" + "".join(f"bid {a} {b} {c} {a + b}\n" for a, b, c in packages[:bids]) + "end\n"
    for amount in (29, 30, 2**42, 2**42 + 1):
        yield head + f"bidder b1\nbid 20 10 1 {amount}\nend\n"
    for more in (1048576, 1048577):
        yield head + "#" * (more - len(head))


def slots_about_limits() -> Iterator[str]:
    for band in (0, 1, 40, 41, 999, 1000):
        yield f"slots 1\nband {band}\nend\n"
    for bidders in (6, 7):
        yield "slots 1\nband 40\n" + "".join(f"bidder b{j} 1\n" for j in range(bidders)) + "end\n"
    for line in (f"place 40 {2 ** 42}", f"place 40 {2 ** 42 + 1}", "place 41 1", "place 0 1"):
        yield f"slots 1\nband 40\nbidder x 1\n{line}\nend\n"
    for more in (65536, 65537):
        yield "slots 1\n" + "#" * (more - 8)


def compare_limits(comparison: Comparison) -> None:
    cert = write(out("other.cert"), "cert 1\n")
    for text in books_about_limits():
        comparison.answers_of("check, book about limits", "check", "check", [write(out("book"), text), cert])
    for text in slots_about_limits():
        comparison.answers_of(
            "place-check, slots about limits", "place-check", "check-places", [write(out("slots"), text), cert]
        )
    book = write(out("book"), "book 1\nsupply 1\nreserve 0\nbidder b1\nend\n")
    for more in (65536, 65537):
        names = [book, cert, write(out("weights"), "weights 1\n" + "#" * (more - 10))]
        comparison.answers_of("weigh-check, weights about limits", "weigh-check", "check", names)
    for more in (67108864, 67108865):
        comparison.answers_of(
            "check, certificate about limits", "check", "check", [book, write(out("other.cert"), "#" * more)]
        )
    compare_words(comparison, book)


def compare_words(comparison: Comparison, book: str) -> None:
    """Words that aren't the names of two files, files that are missing, and folders."""
    missing = out("missing")
    rows: list[list[str]] = [
        [],
        [book],
        [book, book],
        ["", book],
        [book, ""],
        ["-x", book],
        [book] * 4,
        [missing, book],
        [book, missing],
        [OUT, book],
    ]
    for words in rows:
        comparison.answers_of("check, words and files", "check", "check", words)
        comparison.answers_of("place-check, words and files", "place-check", "check-places", words)


def main(number: int) -> int:
    build_cca()
    comparison = Comparison()
    compare_limits(comparison)
    for seed in range(number):
        compare_book(comparison, random.Random(seed))
        compare_slots(comparison, random.Random(f"slots {seed}"))
    for kind, count in sorted(comparison.kinds.items()):
        print(f"{count:>7} {kind}")
    print(", ".join(f"{count} {answer}" for answer, count in sorted(comparison.answers.items())))
    print(f"{sum(comparison.kinds.values())} compared, {comparison.differ} differ")
    return 1 if comparison.differ else 0
