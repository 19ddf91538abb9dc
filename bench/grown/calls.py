"""The calls of each tool that read an input, and the other files that they read."""

from __future__ import annotations

import pathlib
from collections.abc import Callable, Mapping
from typing import NamedTuple

from bench.grown.form import Grown
from bench.grown.models import spelled
from bench.grown.records import KEY, NOBODY, journal_of, other_line, posted_head
from bench.grown.texts import CERT, PLACED
from checks.cases import hostile_logs
from checks.cases.samples import EXAMPLES, sample

# Inputs for the award of the hostile logs, whose bidders are b1 to b16.
HOSTILE = ("log", "view", "list", "pasted")
ROOT = pathlib.Path(EXAMPLES).resolve().parent


class Call(NamedTuple):
    """A call: its tool, and its arguments. An argument in capitals names the file of this role, `NEW` no file yet, and
    `BIDDER` a bidder of the award. What is sent to the desk in a form is a file of the role `sent`."""

    tool: str
    words: tuple[str, ...]
    sent: str = ""

    def roles(self) -> set[str]:
        return {word.lower() for word in self.words if word.isupper() and word != "BIDDER"} | {self.sent} - {""}

    def reader(self) -> str:
        """The program whose code reads the files: all tools of the package read a file by one code."""
        return (
            self.tool.partition("-")[0]
            if self.tool in ("cca", "tools/audit", "tools/check", "tools/check-places")
            else "package"
        )

    def name(self) -> str:
        return " ".join([self.tool, *self.words, *([f"({self.sent})"] if self.sent else [])])


def of(tool: str, words: str) -> Call:
    return Call(tool, tuple(words.split()))


def digits_of(option: str) -> Callable[[int], bytes]:
    """An option with a number of `count` digits."""
    return lambda count: option.encode() + b"\n" + b"1" * count + b"\n"


CALLS = [
    of("cca", "auction AWARD LOG NEW"),
    of("cca", "award AWARD LOG NEW"),
    of("cca", "audit AWARD LOG CERT"),
    of("cca", "win BOOK"),
    of("cca", "price BOOK NEW"),
    of("cca", "check BOOK CERT"),
    of("cca", "weigh BOOK WEIGHTS NEW"),
    of("cca", "weigh-check BOOK WEIGHTS CERT"),
    of("cca", "place SLOTS NEW"),
    of("cca", "place-check SLOTS PLACED"),
    of("cca", "review BOOK EDITS"),
    of("tools/audit", "AWARD LOG CERT"),
    of("tools/check", "BOOK CERT"),
    of("tools/check", "BOOK CERT WEIGHTS"),
    of("tools/check-places", "SLOTS PLACED"),
    of("tools/explain", "auction AWARD LOG"),
    of("tools/explain", "auction AWARD VIEW --bidder BIDDER"),
    of("tools/explain", "award AWARD LOG"),
    of("tools/explain", "audit AWARD LOG CERT"),
    of("tools/explain", "win BOOK"),
    of("tools/explain", "price BOOK"),
    of("tools/explain", "check BOOK CERT"),
    of("tools/explain", "weigh BOOK WEIGHTS"),
    of("tools/explain", "weigh-check BOOK WEIGHTS CERT"),
    of("tools/explain", "place SLOTS"),
    of("tools/explain", "place-check SLOTS PLACED"),
    of("tools/explain", "review BOOK EDITS"),
    of("tools/state", "AWARD LOG"),
    of("tools/state", "--names NAMES AWARD LOG"),
    of("tools/caps", "AWARD LOG BIDDER"),
    of("tools/caps", "AWARD LOG BIDDER --fit"),
    of("tools/caps", "AWARD LOG BIDDER --view"),
    of("tools/caps", "AWARD VIEW BIDDER"),
    of("tools/what-if", "AWARD LOG OTHER"),
    of("tools/what-if", "AWARD LOG --least BIDDER 1_1"),
    of("tools/why", "BOOK CERT"),
    of("tools/why", "BOOK CERT WEIGHTS"),
    of("tools/why", "AWARD LOG CERT"),
    of("tools/report", "--text BOOK CERT"),
    of("tools/report", "AWARD LOG"),
    of("tools/report", "AWARD LOG CERT"),
    of("tools/report", "--bidder BIDDER AWARD VIEW"),
    of("tools/report", "--placed a800 SLOTS PLACED AWARD LOG"),
    of("tools/publish", "AWARD LOG CERT NEW"),
    of("tools/publish", "--key KEY --posted POSTED AWARD LOG CERT NEW"),
    of("tools/price", "BOOK NEW"),
    of("tools/price", "--weights WEIGHTS BOOK NEW"),
    of("tools/price", "AWARD LOG NEW"),
    of("tools/prices", "BOOK"),
    of("tools/book", "--supply 1_1 BIDS"),
    of("tools/book", "--award AWARD BIDS"),
    of("tools/book", "BOOK"),
    of("tools/book", "--as csv BOOK"),
    of("tools/book", "--as json BOOK"),
    of("tools/book", "--as values BOOK"),
    of("tools/rehearse", "AWARD VALUES NEW"),
    of("tools/study", "PLAN --out NEW"),
    of("tools/seal", "new NEW AWARD"),
    of("tools/seal", "sum KEY AWARD LOG POSTED"),
    of("tools/seal", "check KEY AWARD LOG POSTED"),
    of("tools/seal", "check KEY AWARD LOG NOTED --posted POSTED"),
    of("tools/seal", "check KEY AWARD LOG NOTED --journal JOURNAL"),
    of("tools/journal", "JOURNAL"),
    of("tools/journal", "JOURNAL --check AWARD LOG KEY POSTED"),
    of("tools/desk", "AWARD LOG --names NAMES"),
    Call("tools/desk", ("AWARD", "LOG"), "list"),
    Call("tools/desk", ("AWARD", "LOG"), "pasted"),
]
# Calls with more and more files, or with numbers that grow.
COUNTED = [
    (
        of("tools/prices", "BOOK"),
        Grown("arguments", "books", 100, lambda n: b"\n".join(spelled("book", n)), "each takes as long"),
    ),
    (
        of("tools/seal", "check KEY AWARD LOG NOTED --posted POSTED"),
        Grown("arguments", "logs that were kept", 100, lambda n: b"--cut\nlog\n" * n, "each takes as long"),
    ),
    (
        of("tools/report", "AWARD LOG"),
        Grown("arguments", "bands that are placed", 20_000, lambda n: b"--placed\na800\nslots\nplaced\n" * n),
    ),
    (
        of("tools/rehearse", "AWARD VALUES NEW"),
        Grown("arguments", "slips", 10_000, lambda n: b"--slips\n%d\n" % n, "a line that is synced for each"),
    ),
    (of("tools/rehearse", "AWARD VALUES NEW"), Grown("arguments", "digits of a seed", 65_000, digits_of("--seed"))),
    (of("tools/caps", "AWARD LOG BIDDER"), Grown("arguments", "digits of a package", 65_000, lambda n: b"1" * n)),
    (of("tools/book", "BIDS"), Grown("arguments", "digits of a supply", 65_000, digits_of("--supply"))),
    (of("tools/prices", "BOOK"), Grown("arguments", "digits of a unit", 65_000, digits_of("--unit"))),
    (of("cca", "make"), Grown("arguments", "digits of a number", 65_000, lambda n: b"1" * n + b"\naward\nlog\n")),
]
# Every program with arguments that it refuses.
PROGRAMS = sorted({call.tool for call in CALLS}) + ["./cca", "./trial", "second_proof/audit"]

# The reasons why an input, or a dimension of it, has no row.
NO_ROW = (
    "A dimension that ends in reading has one row for each reader: cca, tools/audit, tools/check, tools/check-places,"
    " and the package, whose tools read a file by one code. `--all` prints the others too.",
    "KEY has 65 bytes, and more are not read: `cca: limit bytes`.",
    "A name has at most 20 bytes, a number at most 19 digits, and a supply, a lot or a weight is bounded: rows of names"
    " and digits end in a refusal.",
    "Columns and the depth of JSON are of tables of bids and of journals; no other file has either.",
    "tools/journal --check, tools/seal check --journal and tools/publish --journal test a journal by one code.",
)


def samples() -> Mapping[str, bytes]:
    """The other files of a call, by their roles."""
    award = sample("spectrum.award")
    return {
        "award": award,
        "log": sample("spectrum.log"),
        "view": b"close,,sealed,\n",
        "book": sample("day-cramton.book"),
        "weights": sample("day-cramton.weights"),
        "slots": sample("band.slots"),
        "edits": sample("day-cramton.edits"),
        "cert": CERT,
        "placed": PLACED,
        "values": sample("final-cap.values"),
        "names": b'title = "a"\n',
        "key": KEY,
        "noted": other_line(1),
        "bids": sample("day-cramton.csv"),
        "journal": journal_of(award, 1, NOBODY),
    }


def edited(log: bytes) -> bytes:
    """A log without each seventh of its lines, to be compared with it."""
    return b"".join(line for at, line in enumerate(log.splitlines(True)) if at % 7)


def fitting(call: Call, role: str, text: bytes) -> Mapping[str, bytes]:
    """The other files of a call that reads a grown input, as the input needs them."""
    files = dict(samples())
    if role in HOSTILE:
        files["award"] = hostile_logs.award().encode()
    if role in ("list", "pasted"):
        files["log"] = b"close,,,\n"
    files["other"] = edited(text if role == "log" else files["log"])
    if call.words[-1:] == ("POSTED",) and role != "arguments" or role in ("posted", "noted"):
        files["log"] = b""
    if role == "journal":
        files["log"] = NOBODY.encode()
    if "values" in call.roles() or role == "plan":
        files["award"] = sample("final-cap.award")
    if role == "award":
        files["values"] = b'values = 1\n[[bidder]]\nmodel = "global"\nlot = [1, 1, 1, 1]\n'
    if role == "cert" and "log" in call.roles():
        files["cert"] = sample("spectrum.cert")
    return {**files, "posted": posted_head(text if role == "award" else files["award"])}


def command(call: Call, role: str, program: str) -> list[str]:
    """The command line of a call in the folder of its files."""
    tool, bidder = program if call.tool == "cca" else str(ROOT / call.tool), "b1" if role in HOSTILE else "everest"
    words = (bidder if word == "BIDDER" else word for word in call.words)
    return [tool, *(word.lower() if word.isupper() else word.replace("_", " ") for word in words)]


def certified(call: Call, role: str, program: str) -> list[str]:
    """The command line of the program that makes the certificate for a call with a grown book or log; empty if there is
    no such certificate."""
    if "cert" not in call.roles() or role not in ("book", "log"):
        return []
    if role == "log":
        return [program, "award", "award", "log", "made"] if "log" in call.roles() else []
    weights = ["weights"] if "weights" in call.roles() else []
    return [program, "weigh" if weights else "price", "book", *weights, "made"] if "book" in call.roles() else []
