"""Texts of each input that grow in one dimension, up to the limit of the input.

The limits are from docs/FORMATS.md. A text of bytes grows up to the limit of bytes of its file.
"""

from __future__ import annotations

import itertools
import pathlib
from collections.abc import Callable, Iterator, Sequence
from typing import NamedTuple

from bench.grown import models
from bench.grown.form import Grown, between, numbered
from bench.grown.records import journals, noted, posted
from checks.cases import hostile_logs
from checks.cases.samples import EXAMPLES, sample
from cca_tools.rules.stops import MOST

# Certificates up to the part that grows.
CERT = sample("day-cramton.cert")
PLACED = pathlib.Path(EXAMPLES, "..", "second_proof", "band.cert").read_bytes()


class Toml(NamedTuple):
    """A dimension of TOML: the bytes of one item, and the text of a number of items at the top of a file."""

    dimension: str
    size: int
    text: Callable[[int], bytes]


def note(value: bytes) -> bytes:
    return b"note = " + value + b"\n"


TOML = (
    Toml("bytes of a comment", 1, lambda n: b"#" + b"x" * n + b"\n"),
    Toml("comments", 2, lambda n: b"#\n" * n),
    Toml("blank lines", 1, lambda n: b"\n" * n),
    Toml("line ends of two bytes", 2, lambda n: b"\r\n" * n),
    Toml("spaces of a line", 1, lambda n: b"note = 1" + b" " * n + b"\n"),
    Toml("bytes of a key", 1, lambda n: b"a" * n + b" = 1\n"),
    Toml("parts of a key", 2, lambda n: b"a." * n + b"a = 1\n"),
    Toml("keys", 12, lambda n: numbered(b"k%d = 1\n", n)),
    Toml("tables", 10, lambda n: numbered(b"[t%d]\n", n)),
    Toml("tables of a list", 6, lambda n: b"[[t]]\n" * n),
    Toml("bytes of a string", 1, lambda n: note(b'"' + b"x" * n + b'"')),
    Toml("escapes of a string", 2, lambda n: note(b'"' + b"\\n" * n + b'"')),
    Toml("strings", 3, lambda n: note(b"[" + b'"",' * n + b"]")),
    Toml("bytes of a string without an end", 1, lambda n: note(b'"' + b"x" * n)),
    Toml("lines of a long string", 2, lambda n: note(b'"""' + b"x\n" * n + b'"""')),
    Toml("quotes in a long string", 3, lambda n: note(b'"""' + b'""x' * n + b'"""')),
    Toml("folds of a long string", 2, lambda n: note(b'"""' + b"\\\n" * n + b'"""')),
    Toml("spaces after a fold", 1, lambda n: note(b'"""\\\n' + b" " * n + b'"""')),
    Toml("digits of a number", 1, lambda n: note(b"1" * n)),
    Toml("parts of a number", 2, lambda n: note(b"1_" * n + b"1")),
    Toml("digits of a float", 1, lambda n: note(b"0." + b"1" * n)),
    Toml("numbers of a list", 2, lambda n: note(b"[" + b"1," * n + b"]")),
    Toml("depth of lists", 2, lambda n: note(b"[" * n + b"]" * n)),
    Toml("lists without an end", 1, lambda n: note(b"[" * n)),
    Toml("depth of inline tables", 4, lambda n: note(b"{a=" * n + b"1" + b"}" * n)),
    Toml("keys of an inline table", 10, lambda n: note(b"{" + numbered(b"k%d=1,", n)[:-1] + b"}")),
)


def toml(role: str, base: bytes) -> Iterator[Grown]:
    """A file of TOML in all its dimensions, before its usual text."""
    room = MOST[f"{role} bytes"] - len(base) - 20
    for it in TOML:
        # (tables come after the keys of the top)
        is_last = it.dimension.startswith("tables")
        yield Grown(
            role, it.dimension, room // it.size, between(base, it.text, b"") if is_last else between(b"", it.text, base)
        )


BIDDER = b'[[bidder]]\nname = "m%d"\neligibility = 1\n'
STEP, CAP = b"[[step]]\nexcess = 1000\npermille = 1\n", b"[[cap]]\nweight = [1, 1, 1, 1]\nlimit = 9\n"
CATEGORY = b'[[category]]\nname = "m%d"\nsupply = 1\npoints = 1\nreserve = 1\n'


def awards() -> Iterator[Grown]:
    base = sample("spectrum.award")
    yield from toml("award", base)
    yield Grown("award", "bidders", 11, lambda n: base + numbered(BIDDER, n))
    yield Grown("award", "bidders of a long file", 1_400, lambda n: base + numbered(BIDDER, n))
    yield Grown("award", "categories of a long file", 900, lambda n: base + numbered(CATEGORY, n))
    yield Grown("award", "steps of a long file", 1_700, lambda n: base + STEP * n)
    yield Grown("award", "caps of a long file", 1_300, lambda n: base + CAP * n)
    holding = b'[[bidder]]\nname = "m"\neligibility = 1\nholding = ['
    yield Grown("award", "numbers of a holding", 30_000, lambda n: base + holding + b"0," * n + b"]\n")
    yield Grown("award", "bytes of a name", 60_000, lambda n: base + b'[[bidder]]\nname = "' + b"x" * n + b'"\n')


def hostile(kind: str) -> Callable[[int], bytes]:
    """A log that takes long, up to a number of records."""

    def text(count: int) -> bytes:
        lines = hostile_logs.LOGS[kind]()
        return (
            "\n".join(itertools.islice(itertools.cycle(lines) if count > len(lines) else lines, count)) + "\n"
        ).encode()

    return text


def rounds(count: int) -> bytes:
    """A clock of this many rounds, as far as there may be rounds."""
    return b"".join(b"bid,b1,20 19,\nbid,b2,20 19,\nclose,,,\n" for _ in range(count))


def whole_auction(count: int) -> bytes:
    """A complete log of this many records: a clock of up to 299 rounds, then drafts, drops and submissions."""
    lines, each = hostile_logs.ordinary(), hostile_logs.BIDDERS + 1
    last = each * (hostile_logs.ROUNDS - 1)
    clock = each * max(1, min(hostile_logs.ROUNDS - 1, count // 40))
    drafts = itertools.islice(itertools.cycle(lines[last + 1 : -1]), max(0, count - clock - 2))
    return "\n".join([*lines[:clock], "close,,,", *drafts, "close,,,", ""]).encode()


def after_the_end(count: int) -> bytes:
    """A log with this many lines after the auction's end."""
    return b"close,,,\n" * 2 + b"bid,b1,1 1,\n" * count


def view(count: int) -> bytes:
    """A bidder's own view of this many records."""
    rounds = min(hostile_logs.ROUNDS - 1, count // 40)
    clock = b"".join(b"bid,b1,20 19,\nclose,,%d %d,\n" % (1_000 + it, 1_000 + it) for it in range(1, rounds + 1))
    packages = itertools.cycle(it for it in itertools.product(range(21), range(20)) if any(it))
    drafts = itertools.islice(packages, max(0, count - 2 * rounds - 1))
    return clock + b"close,,sealed,\n" + b"".join(b"draft,b1,%d %d,900000\n" % it for it in drafts)


def logs() -> Iterator[Grown]:
    yield Grown("view", "records of a bidder", MOST["records"], view)
    yield Grown("log", "records of a whole auction", MOST["records"], whole_auction)
    yield Grown("log", "lines after the end", MOST["records"], after_the_end)
    room, records = MOST["log bytes"] - 100, MOST["records"]
    for kind in ("ordinary", "bids", "submits", "drafts and submits", "drafts and drops"):
        yield Grown("log", f"records: {kind}", records, hostile(kind))
    yield Grown("log", "rounds", MOST["rounds"], rounds)
    yield Grown("log", "quoted records", records, lambda n: b'"bid","b1","1 1",""\n' * n)
    yield Grown("log", "records of nobody", records, lambda n: b"bid,nobody,1 1,\n" * n)
    for dimension, size, text in (
        ("bytes of a field", 1, lambda n: b"bid," + b"b" * n + b",1 1,\n"),
        ("fields of a record", 1, lambda n: b"bid,b1" + b"," * n + b"\n"),
        ("quotes of a field", 2, lambda n: b'bid,"' + b'""' * n + b'",1 1,\n'),
        ("lines of an open quote", 1, lambda n: b'bid,"' + b"\n" * n),
        ("blank lines", 1, lambda n: b"\n" * n),
        ("carriage returns", 1, lambda n: b"\r" * n),
        ("digits of an amount", 1, lambda n: b"draft,b1,1 1," + b"1" * n + b"\n"),
        ("counts of a package", 2, lambda n: b"bid,b1,1" + b" 1" * n + b",\n"),
        ("bytes that are no text", 1, lambda n: b"\xff" * n),
    ):
        yield Grown("log", dimension, room // size, text)


# Supplies with this many states, and packages of a book with the most of them.
STATES = {
    2: (1,),
    1024: (15, 3, 3, 3),
    2048: (15, 7, 3, 3),
    4096: (15, 7, 7, 3),
    8192: (15, 7, 7, 3, 1),
    16384: (15, 7, 7, 3, 3),
    32768: (15, 7, 7, 7, 3),
}


def book_of(bidders: int, bids: int, states: int = 16_384) -> bytes:
    """A book of these sizes, as far as there are packages; five of its bidders win."""
    supply = STATES[states]
    packages = [it for it in itertools.product(*(range(one + 1) for one in supply)) if it[0] >= min(3, supply[0])]
    step = max(1, len(packages) // max(1, min(bids, len(packages))))
    lines = ["book 1", f"supply {numbers(supply)}", f"reserve {numbers([1] * len(supply))}"]
    for bidder in range(bidders):
        lines.append(f"bidder b{bidder}")
        chosen = packages[bidder % step :: step][:bids] if bids <= len(packages) else packages
        lines += [
            f"bid {numbers(it)} {1000 * sum(it) + (7919 * place + bidder) % 977}" for place, it in enumerate(chosen)
        ]
    return "\n".join([*lines, "end", ""]).encode()


def numbers(values: Sequence[int]) -> str:
    return " ".join(map(str, values))


def many_bids(count: int) -> bytes:
    """A book of a bidder with this many bids, also more than it may have."""
    packages = itertools.islice(itertools.product(range(41), repeat=1), 1, 41)
    lines = [f"bid {it[0]} {100 * it[0]}" for it in packages]
    return (
        "\n".join(
            ["book 1", "supply 40", "reserve 0", "bidder b", *(lines[place % 40] for place in range(count)), "end", ""]
        )
    ).encode()


def books() -> Iterator[Grown]:
    room, head = MOST["book bytes"] - 100, b"book 1\nsupply 1 1\nreserve 0 0\nbidder b1\n"
    yield Grown("book", "bidders", MOST["bidders"], lambda n: book_of(n, 60))
    yield Grown("book", "bids of a bidder", MOST["bids"], lambda n: book_of(2, n))
    yield Grown("book", "states", MOST["states"], lambda n: book_of(4, 100, n if n in STATES else 2))
    yield Grown("book", "bid lines of one package", room // 11, lambda n: head + b"bid 1 1 28\n" * n)
    yield Grown("book", "bidder lines", room // 14, lambda n: head[:-10] + numbered(b"bidder m%d\n", n))
    yield Grown("book", "categories", room // 2, lambda n: b"book 1\nsupply" + b" 1" * n + b"\n")
    yield Grown("book", "counts of a package", room // 2, lambda n: head + b"bid" + b" 1" * n + b"\n")
    yield Grown("book", "bytes of a name", room, lambda n: head[:-3] + b"b" * n + b"\n")
    yield from lines_of("book", room, head, b"bid 1 1 ")


def lines_of(role: str, room: int, head: bytes, number: bytes) -> Iterator[Grown]:
    """Dimensions of a text of lines: after its head, or in a number at the end of a line."""
    yield Grown(role, "bytes of a line", room, lambda n: head + b"x" * n + b"\n")
    yield Grown(role, "digits of a number", room - 20, lambda n: head + number + b"1" * n + b"\n")
    yield Grown(role, "spaces of a line", room - 20, lambda n: head + number + b" " * n + b"\n")
    yield Grown(role, "blank lines", room, lambda n: head + b"\n" * n)


def others() -> Iterator[Grown]:
    """Weights, slots and edits, which are texts of lines."""
    weights, slots, edits = b"weights 1\n", b"slots 1\nband 40\nbidder x 1\n", b"edits 1\n"
    yield from lines_of("weights", MOST["weights bytes"] - 100, weights, b"weight b1 ")
    yield Grown("weights", "weights", 4_000, lambda n: weights + b"weight b1 1\n" * n)
    yield from lines_of("slots", MOST["slots bytes"] - 100, slots, b"place 1 ")
    yield Grown(
        "slots", "places of a bidder", MOST["lots"], lambda n: slots + numbered(b"place %d 9\n", n + 1)[10:] + b"end\n"
    )
    yield Grown("slots", "place lines", 6_000, lambda n: slots + b"place 1 9\n" * n)
    yield Grown("slots", "bidders", 6_000, lambda n: b"slots 1\nband 40\n" + numbered(b"bidder m%d 1\n", n) + b"end\n")
    yield from lines_of("edits", MOST["edits bytes"] - 100, edits, b"raise b1 1 0 ")
    yield Grown(
        "edits", "edits", MOST["edits"], lambda n: edits + numbered(b"raise b1 1 0 %d\n", n + 29)[29 * 16 :] + b"end\n"
    )
    yield Grown("edits", "counts of a package", 500_000, lambda n: edits + b"drop b1" + b" 1" * n + b"\n")


def certificates(role: str, cert: bytes) -> Iterator[Grown]:
    """A certificate that is right up to the part that grows."""
    room, head, choice = MOST["cert bytes"] - len(cert) - 100, cert[: cert.index(b"t ")], cert.index(b"choice")
    yield from lines_of(role, room, head, b"t 0 ")
    yield Grown(role, "numbers of a line", room // 2, lambda n: head + b"t" + b" 0" * n + b"\n")
    yield Grown(role, "lines of a table", room // 10, lambda n: head + b"t 0 20 28\n" * n)
    yield Grown(role, "numbers of its choice", room // 2, lambda n: cert[:choice] + b"choice" + b" 1" * n + b"\n")
    yield Grown(role, "bytes after its end", room, lambda n: cert + b"x" * n)


def tables() -> Iterator[Grown]:
    """Tables of bids for tools/book, with the supply `1 1`, as CSV and as JSON."""
    room = MOST["bids bytes"] - 100
    head = b"bidder,first,second,amount\n"
    for dimension, size, text in (
        ("rows of a bidder", 9, lambda n: head + b"b1,1,0,9\n" * n),
        ("names of categories", 10, lambda n: b"bidder" + numbered(b",c%d", n) + b",amount\n"),
        ("rows of many bidders", 14, lambda n: head + numbered(b"b%d,1,0,9\n", n)),
        ("columns", 2, lambda n: b"bidder,first,second,amount" + b",x" * n + b"\n"),
        ("columns without a head", 2, lambda n: b"b1" + b",1" * n + b"\n"),
        ("bytes of a name", 1, lambda n: head + b"b" * n + b",1,0,9\n"),
        ("digits of a count", 1, lambda n: head + b"b1," + b"1" * n + b",0,9\n"),
        ("digits of an amount", 1, lambda n: head + b"b1,1,0," + b"9" * n + b"\n"),
        ("decimals of an amount", 1, lambda n: head + b"b1,1,0,9." + b"9" * n + b"\n"),
        ("groups of an amount", 4, lambda n: head + b'b1,1,0,"9' + b",999" * n + b'"\n'),
        ("quotes of a cell", 2, lambda n: head + b'"' + b'""' * n + b'",1,0,9\n'),
        ("spaces of a cell", 1, lambda n: head + b"b1,1,0,9" + b" " * n + b"\n"),
        ("blank lines", 1, lambda n: head + b"\n" * n),
        ("bytes of one line", 1, lambda n: b"x" * n),
        ("semicolons", 1, lambda n: b";" * n + b"\n"),
        ("objects of JSON", 42, lambda n: json_bids(b'{"bidder":"b1","package":[1,0],"amount":9},' * n)),
        ("records of JSON", 38, lambda n: b"[" + b'{"bidder":"b1","a":1,"b":0,"amount":9},' * n + b"{}]"),
        ("lines of JSON", 39, lambda n: b'{"bidder":"b1","a":1,"b":0,"amount":9}\n' * n),
        ("keys of a bid", 12, lambda n: json_bids(b"{" + numbered(b'"k%d":1,', n)[:-1] + b"},")),
        ("keys of JSON", 12, lambda n: b"{" + numbered(b'"k%d":1,', n)[:-1] + b"}"),
        ("keys of JSON, one twice", 12, lambda n: b"{" + numbered(b'"k%d":1,', n) + b'"k%d":1}' % (n - 1)),
        ("keys of records", 12, lambda n: b"[{" + numbered(b'"k%d":1,', n)[:-1] + b"}]"),
        ("depth of JSON", 2, lambda n: b"[" * n + b"]" * n),
        ("digits of JSON", 1, lambda n: json_bids(b'{"bidder":"b1","package":[1,0],"amount":' + b"9" * n + b"},")),
        ("exponent of JSON", 1, lambda n: json_bids(b'{"bidder":"b1","package":[1,0],"amount":1e' + b"9" * n + b"},")),
        ("counts of JSON", 2, lambda n: json_bids(b'{"bidder":"b1","package":[1' + b",1" * n + b'],"amount":9},')),
        ("supply of JSON", 2, lambda n: b'{"supply":[1' + b",1" * n + b'],"bids":[]}'),
    ):
        yield Grown("bids", dimension, room // size, text)


def json_bids(bids: bytes) -> bytes:
    return b'{"supply":[1,1],"bids":[' + bids.rstrip(b",") + b"]}"


def all_grown() -> list[Grown]:
    """Each input in each dimension."""
    award = sample("spectrum.award")
    return [
        *awards(),
        *logs(),
        *books(),
        *others(),
        *certificates("cert", CERT),
        *certificates("placed", PLACED),
        *toml("names", models.NAMES),
        *models.names(),
        *toml("values", sample("final-cap.values")),
        *models.values(),
        *toml("plan", models.PLAN + b"auctions = 1\nseed = 1\n"),
        *models.plans(),
        *models.lists(),
        *noted(),
        *posted(award),
        *journals(award),
        *tables(),
    ]
