"""What the pages of docs/ say about the limits, by the names of `cca_tools.rules.stops.MOST`."""

from __future__ import annotations

import pathlib
import re

DOCS = pathlib.Path(__file__).resolve().parents[2] / "docs"
PAGES = ("FORMATS", "CERTIFICATES", "PLACEMENTS", "PROVED")
FORMATS, CERTIFICATES, PLACEMENTS, PROVED = ((DOCS / f"{name}.md").read_text(encoding="utf-8") for name in PAGES)
NUMBER = re.compile(r"\d+\^\d+|[\d,]*\d")
# For each row of the table of limits, the names of the rules for its numbers, in order.
LIMITS = {
    "bytes of an award, of weights, of slots": ["award bytes", "weights bytes", "slots bytes"],
    "bytes of a book, of edits": ["book bytes", "edits bytes"],
    "bytes of a log": ["log bytes"],
    "bytes of a certificate": ["cert bytes"],
    "categories": ["categories"],
    "lots over all categories": ["lots"],
    "the product of the supplies, each plus one": ["states"],
    "bidders": ["bidders", "placed bidders"],
    "bids of one bidder in a book": ["bids"],
    "records of a log; edits": ["records", "edits"],
    "clock rounds": ["rounds"],
    "a price that a close would post": ["price"],
    "winners that": ["winners", "weighted winners"],
}
# By the number of a field of the award what the rules call the greatest that it may have.
FIELDS = {
    2: "price",
    5: "supply",
    6: "points",
    7: "price",
    10: "eligibility",
    11: "holding",
    12: "steps",
    14: "permille",
    15: "caps",
    16: "cap weight",
    17: "cap limit",
}
# What the pages say about further limits.
SAID = {
    "drafts": (FORMATS, r"A draft list has at most ([\d,]+) entries"),
    "amount": (FORMATS, r"sealed amount is at\s+most (\d+\^\d+)"),
    "draft amount": (FORMATS, r"an amount, a number of at most (\d+\^\d+), into"),
    "count": (FORMATS, r"Counts are one number of at most ([\d,]+) for each category"),
    "step excess": (FORMATS, r"1 in the first table, then rising, to ([\d,]+) \|"),
    "rows": (CERTIFICATES, r"`rows R`, where `R` is 0 to ([\d,]+),"),
    "band": (PLACEMENTS, r"a band of 1 to ([\d,]+) slots"),
    "weight": (CERTIFICATES, r"a weight of 1 to ([\d,]+)"),
    "first version bidders": (CERTIFICATES, r"With at most ([\d,]+) bidders and at most"),
    "first version states": (CERTIFICATES, r"bidders and at most\s+([\d,]+) states"),
}
# What they say about limits without a name in the rules.
MORE = {
    "chosen": (CERTIFICATES, r"`choice` is followed by `B` numbers, each 0 to ([\d,]+)\."),
    "name bytes": (CERTIFICATES, r"A \*\*name\*\* is 1 to ([\d,]+) of `a`"),
    "priced cert bytes": (PROVED, r"A priced certificate with at most six winners has less than ([\d,]+) bytes"),
}


def number_of(text: str) -> int:
    """A number with commas, or a power."""
    base, _, power = text.replace(",", "").partition("^")
    return int(int(base) ** int(power or 1))


def table_rows() -> list[tuple[str, list[int]]]:
    """The rows of the table of limits: the quantity, and its numbers."""
    lines = FORMATS.split("## Limits\n")[1].strip().split("\n\n")[0].splitlines()[2:]
    cells = [[cell.strip() for cell in line.split("|")] for line in lines]
    return [(counted, [number_of(it) for it in NUMBER.findall(greatest)]) for _, _, counted, greatest, _ in cells]


def field_numbers() -> dict[int, int]:
    """For the number of a field of an award, the greatest value that its rule allows."""
    rules = dict(re.findall(r"^\| (\d+) [^|]*\| (.*) \|$", FORMATS, re.M))
    found = {number: re.search(rf"(?:\d to|at most) ({NUMBER.pattern})", rules[str(number)]) for number in FIELDS}
    return {number: number_of(it[1]) for number, it in found.items() if it}


def said_number(page: str, said: str) -> int:
    """The number in a sentence of a page. If the page has the sentence more than once, the number has to be the
    same."""
    (found,) = set(re.findall(said, page))
    return number_of(found)


def page_limits() -> dict[str, int]:
    """All limits, by their names."""
    limits = {name: said_number(*it) for name, it in {**SAID, **MORE}.items()}
    limits.update((FIELDS[number], most) for number, most in field_numbers().items())
    for (_, numbers), names in zip(table_rows(), LIMITS.values()):
        limits.update(zip(names, numbers * len(names) if len(numbers) == 1 else numbers))
    return limits
