"""Cases of the texts of books, and of their limits."""

from __future__ import annotations

import itertools

from checks.cases.samples import lines
from checks.cases.vectors_of.cases import Cases
from checks.cases.vectors_of.day_cramton import BOOK, CERT


HEAD = "book 1 / supply 1 1 / reserve 0 0 / bidder east / "
BOOKS = [
    ("book 2 / supply 1 / reserve 0 / end", 0, "another version"),
    ("book 1", 7, "the second line is missing"),
    ("book 1 / supply / reserve 0 / end", 7, "no supply"),
    ("book 1 / supply 0 / reserve 0 / end", 7, "a supply of 0"),
    ("book 1 / supply 1000 / reserve 0 / end", 7, "a supply of 1000"),
    ("book 1 / supply 01 / reserve 0 / end", 7, "a leading zero"),
    ("book 1 / supply -1 / reserve 0 / end", 7, "a sign"),
    ("book 1 / reserve 0 / supply 1 / end", 7, "lines in another order"),
    ("book 1 / supply 1 1 / reserve 0 / end", 18, "a reserve too few"),
    ("book 1 / supply 1 / reserve 0 0 / end", 16, "a reserve too many"),
    ("book 1 / supply 1 / reserve 68719476737 / end", 16, "a reserve above 2^36"),
    ("book 1 / supply 1 / reserve 0 / bid 1 0 / end", 26, "a bid before the first bidder"),
    (HEAD + "bidder east / end", 42, "a name twice"),
    (HEAD + "bidder East / end", 42, "a capital in a name"),
    (HEAD + "bidder a2345678901234567890_ / end", 42, "a name of 21 bytes"),
    (HEAD + "bidder 1a / end", 42, "a name that begins with a digit"),
    (HEAD + "bidder / end", 42, "no name"),
    (HEAD + "bidder west 2 / end", 42, "a field too many"),
    (HEAD + "bidder we-st / end", 42, "a hyphen in a name"),
    (HEAD + "seller west / end", 42, "another word"),
    (HEAD + "bid 0 0 0 / end", 42, "an empty package"),
    (HEAD + "bid 1 2 0 / end", 42, "more lots than are sold"),
    (HEAD + "bid 1 0 / end", 42, "a field too few"),
    (HEAD + "bid 1 0 0 0 / end", 42, "a field too many"),
    (HEAD + "bid 1 0 4398046511105 / end", 42, "an amount above 2^42"),
    (HEAD + "bid 1 0 +5 / end", 42, "a plus sign"),
    (HEAD + "bid 1 0 05 / end", 42, "a leading zero"),
    (HEAD + "bid 1 0  5 / end", 42, "two spaces"),
    (HEAD + "bid 1 0 5 / bid 1 0 6 / end", 52, "a package twice"),
    (HEAD + "bid 1 0 5 / bid 0 1 6 / end", 52, "packages that don't rise"),
    (HEAD + "end / end", 46, "a line behind the end"),
    (HEAD + "bid", 42, "a last line as long as `end`"),
    (HEAD + "ends", 42, "a last line that begins as `end`"),
    (HEAD + "bid 1 0 5", 52, "the end is missing"),
    (
        "book 1 / supply 2 2 / reserve 3 5 / bidder a / bid 1 1 7 / end",
        39,
        "an amount below the reserve of the package",
    ),
]


def books(v: Cases) -> None:
    """Each of `BOOKS`, and books at their greatest values."""
    for number, (text, place, why) in enumerate(BOOKS, 1):
        v.case(f"book-form-{number}", why, "check", (lines(text), b""), f"cca: refused book {place}")
    v.case("book-empty", "an empty file", "check", (b"", b""), "cca: refused book 0")
    v.case(
        "book-no-feed",
        "the last line has no line feed",
        "check",
        (BOOK[:-1], CERT),
        f"cca: refused book {len(BOOK) - 4}",
    )
    other = BOOK[:-1] + b"s"
    answer = f"cca: refused book {len(BOOK) - 4}"
    v.case("book-no-feed-but-a-letter", "a letter in place of the last line feed", "check", (other, CERT), answer)
    v.case("book-carriage", "a carriage return", "check", (BOOK.replace(b"\n", b"\r\n"), CERT), "cca: refused book 0")
    v.case("book-faulty-first", "the book is read before the certificate", "check", (b"x", b"x"), "cca: refused book 0")
    for name, text in (
        ("greatest-amount", HEAD + "bid 1 0 4398046511104 / end"),
        ("greatest-reserve", "book 1 / supply 1 / reserve 68719476736 / end"),
        ("longest-name", HEAD + "bidder a234567890123456789_ / end"),
        ("no-bid", HEAD + "bidder b / end"),
        ("order-of-packages", HEAD + "bid 0 1 0 / bid 1 0 0 / bid 1 1 0 / end"),
        ("at-reserve-of-package", "book 1 / supply 2 2 / reserve 3 5 / bidder a / bid 1 1 8 / end"),
    ):
        v.case(
            f"book-{name}",
            "the book is right, and the certificate is empty",
            "check",
            (lines(text), b""),
            "cca: refused cert 0",
        )


def limits_of_a_supply(v: Cases) -> None:
    """Supplies beyond the limits, and at the limits."""
    for supply, answer, why in [
        ("1 1 1 1 1 1 1", "categories 7", "seven categories"),
        ("41", "lots 41", "41 lots"),
        ("40 1", "lots 41", "41 lots in two categories"),
        ("3 3 3 3 7 8", "states 18432", "18,432 states"),
        ("999 1", "lots 1000", "the whole count is told"),
        ("9 9 9 9 9 9 9", "categories 7", "of several limits the first decides"),
        ("9 9 9 9 9 9 09", None, "a fault of form comes before a limit"),
    ]:
        text = lines(f"book 1 / supply {supply} / reserve {' '.join('0' * len(supply.split()))} / end")
        v.case(
            f"limit-{supply.replace(' ', '-')}",
            why,
            "check",
            (text, b""),
            f"cca: limit {answer}" if answer else "cca: refused book 7",
        )
    for supply in ("3 3 3 3 7 7", "40", "1 1 1 1 1 1"):
        v.case(
            f"within-{supply.replace(' ', '-')}",
            "at the limits, with an empty certificate",
            "check",
            (lines(f"book 1 / supply {supply} / reserve {' '.join('0' * len(supply.split()))} / end"), b""),
            "cca: refused cert 0",
        )


def limits_of_bidders(v: Cases) -> None:
    """The seventeenth bidder."""
    many = "".join(f"bidder b{j} / " for j in range(17))
    v.case(
        "limit-bidders",
        "the seventeenth bidder",
        "check",
        (lines(f"book 1 / supply 1 / reserve 0 / {many}end"), b""),
        "cca: limit bidders 17",
    )
    v.case(
        "limit-bidders-faulty",
        "the seventeenth bidder has the name of another, which is a fault of form",
        "check",
        (lines(f"book 1 / supply 1 / reserve 0 / {many}end").replace(b"b16", b"b3"), b""),
        "cca: refused book 192",
    )
    v.case(
        "limit-of-an-early-line",
        "a limit of an early line comes before a faulty later one",
        "check",
        (lines(f"book 1 / supply 1 / reserve 0 / {many}x / end"), b""),
        "cca: limit bidders 17",
    )


def limits_of_bids_and_bytes(v: Cases) -> None:
    """The greatest numbers of bids and bytes, and one more."""
    packages = ((a, b, c) for a in range(20) for b in range(11) for c in range(9) if a + b + c)
    bids = [f"bid {a} {b} {c} 1 / " for a, b, c in itertools.islice(packages, 601)]
    for count, answer in (600, "cca: refused cert 0"), (601, "cca: limit bids 601"):
        v.case(
            f"bids-{count}",
            f"{count} bids of one bidder",
            "check",
            (lines(f"book 1 / supply 20 11 9 / reserve 0 0 0 / bidder x / {''.join(bids[:count])}end"), b""),
            answer,
        )
    limits: list[tuple[str, int, str, list[bytes]]] = [
        ("book", 1_048_576, "check", []),
        ("weights", 65_536, "weigh-check", [BOOK]),
        ("slots", 65_536, "place-check", []),
    ]
    for kind, count, command, before in limits:
        for more in (0, 1):
            name = f"{kind}-{count + more}-bytes"
            v.case(
                name,
                f"{'as many' if not more else 'more'} bytes {'than' if more else 'as'} the limit, of no {kind}",
                command,
                [*before, name, b""],
                f"cca: limit bytes {count + 1}" if more else f"cca: refused {kind} 0",
                made=[(name, count + more, "#")],
            )
    v.case(
        "cert-67108865-bytes",
        "a certificate with more bytes than the limit",
        "check",
        [BOOK, "cert-67108865-bytes"],
        "cca: limit bytes 67108865",
        made=[("cert-67108865-bytes", 67_108_865, "#")],
    )
