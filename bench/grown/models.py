"""Files of values, of names and of plans, and lists for the desk, as they grow in one dimension."""

from __future__ import annotations

import itertools
from collections.abc import Iterator

from bench.grown.form import Grown, between
from cca_tools.rules.stops import MOST

NAMES = b'title = "a"\n'
HEAD = b'plan = 1\naward = "award"\n'
PLAN = HEAD + b'values = "values"\n'
# Of the award `final-cap`, whose three categories have 4, 3 and 2 lots.
REST = b'[[bidder]]\nmodel = "global"\nlot = [1, 1, 1]\n'
PACKAGE = b"[[bidder.package]]\nlots = [1, 1, 1]\nvalue = 9\n"
COMPLEMENT = b"[[bidder.complement]]\nlots = [1, 1, 1]\nvalue = 9\n"
MOST_FILE, MOST_FORM = 1 << 18, 1 << 20  # bytes that the desk takes


def names() -> Iterator[Grown]:
    room = MOST["names bytes"] - len(NAMES) - 60
    for dimension, size, text in (
        (
            "names of bidders that aren't there",
            24,
            lambda n: b"".join(b'[bidder.m%d]\nname = "x"\n' % it for it in range(n)),
        ),
        ("bytes of a bidder's name", 1, lambda n: b'[bidder.everest]\nname = "' + b"x" * n + b'"\n'),
        ("digits of a unit", 1, lambda n: b"unit = " + b"1" * n + b"\n"),
    ):
        yield Grown("names", dimension, room // size, between(NAMES, text, b""))


def values() -> Iterator[Grown]:
    room, head = MOST["values bytes"] - 400, b"values = 1\n"
    packages = b'[[bidder]]\nnames = "elm"\nmodel = "packages"\n'
    additive = b'[[bidder]]\nmodel = "additive"\nlot = [1, 1, 1]\n'
    local = b'[[bidder]]\nmodel = "local"\nlot = [1, 1, 1]\nneighbours = ['
    for dimension, size, text in (
        ("packages of a bidder", len(PACKAGE), lambda n: REST + packages + PACKAGE * n),
        ("complements of a bidder", len(COMPLEMENT), lambda n: additive + COMPLEMENT * n),
        ("names of a table", 8, lambda n: b'[[bidder]]\nnames = ["elm"' + b', "elm"' * n + b"]\n" + REST[11:]),
        ("bidders' tables", 70, lambda n: REST + b"".join(table(number) for number in range(n))),
        ("pairs of neighbours", 16, lambda n: local + b'["low", "mid"], ' * n + b"]\n"),
    ):
        yield Grown("values", dimension, room // size, between(head, text, b""))


def table(number: int) -> bytes:
    """The table of a bidder that the award doesn't have."""
    return b'[[bidder]]\nnames = "m%d"\nmodel = "global"\nlot = [1, 1, 1]\n' % number


def plans() -> Iterator[Grown]:
    slow = "of 1,000,000, since each auction takes as long as the others"
    yield Grown("plan", "auctions", 2_000, lambda n: PLAN + b"auctions = %d\nseed = 1\n" % n, slow)
    head = PLAN + b"auctions = 1\nseed = 1\n[vary]\nshare = "
    yield Grown("plan", "cases", 1_000, lambda n: head + b"%a\n" % [it % 1_000 + 1 for it in range(n)])
    rest = b"auctions = 1\nseed = 1\n"
    yield Grown("plan", "files of values", 1_000, lambda n: HEAD + b"values = %s\n" % files(n) + rest)


def files(count: int) -> bytes:
    """A list of this many names of one file of values."""
    return b"[" + b", ".join(b'"%s"' % name for name in spelled("values", count)) + b"]"


def spelled(name: str, count: int) -> list[bytes]:
    """This many different names of one file."""
    folders = itertools.islice(itertools.product((".//", "./"), repeat=11), count)
    return ["".join([*it, name]).encode() for it in folders]


def rows(count: int) -> bytes:
    """Rows of a list, each with another package of the award of hostile logs."""
    packages = itertools.cycle(it for it in itertools.product(range(21), range(20)) if any(it))
    return b"".join(b"%d %d;%d\n" % (*package, 50_000) for package in itertools.islice(packages, count))


def lists() -> Iterator[Grown]:
    """A list of a bidder that is handed in as a file at the desk, and lines that are pasted there."""
    room = MOST_FILE - 100
    for dimension, size, text in (
        ("rows of a list", 12, rows),
        ("rows of one package", 10, lambda n: b"1 1;50000\n" * n),
        ("lines that are no rows", 3, lambda n: b"x;\n" * n),
        ("columns", 2, lambda n: b"1;" * n + b"1\n"),
        ("bytes of a row", 1, lambda n: b"1" * n + b"\n"),
        ("digits of an amount", 1, lambda n: b"1 1;" + b"9" * n + b"\n"),
        ("spaces of a row", 1, lambda n: b"1 1;9" + b" " * n + b"\n"),
        ("quotes of a cell", 2, lambda n: b'"' + b'""' * n + b'";1\n'),
        ("blank lines", 1, lambda n: b"\n" * n + b"1 1;50000\n"),
    ):
        yield Grown("list", dimension, room // size, text)
    room = MOST_FORM // 3 - 1_000  # (a comma takes three bytes of a form)
    for dimension, size, text in (
        ("lines", 20, lambda n: b"draft,b1,1 1,50000\n" * n),
        ("lines that state nothing", 2, lambda n: b"x\n" * n),
        ("bytes of a line", 1, lambda n: b"x" * n + b"\n"),
        ("blank lines", 1, lambda n: b"\n" * n + b"x\n"),
    ):
        yield Grown("pasted", dimension, room // size, text)
