"""Names for people: what a title, a currency, categories and bidders are called where people read of an auction.

An award has only short names, and no other key. So these are in a TOML file of their own, which no rule reads:

    title = "Northland award of 700 MHz and 3.6 GHz"
    held = "3 to 14 March 2025"      # when the auction was held
    seller = "Northland Communications Authority"
    currency = "EUR"
    unit = 1000                      # an amount of 1 in the files is 1,000 EUR

    [category.p700]
    name = "700 MHz paired"
    mhz = 10                         # of a lot
    start = 703                      # where the first lot of the band begins, in MHz
    step = 5                         # from a lot to the next, if that isn't mhz: of paired lots

    [bidder.aurora]
    name = "Aurora Telecom plc"

Each key may be left out. A name may have any letters, but no character that can't be seen or that changes the direction
of what is around it.
"""

from __future__ import annotations

import dataclasses
import functools
import html
import re
import unicodedata
from collections.abc import Collection, Iterable, Mapping
from typing import NoReturn

from cca_tools.rules.award import Award
from cca_tools.rules.log import Line
from cca_tools.rules.printable import clipped
from cca_tools.rules.stops import load, refused
from cca_tools.rules.toml import read_toml

LONGEST = 80
MOST_UNIT = 10**9
MOST_MHZ = 10_000
MOST_START = 1_000_000
UNITS = {1: "", 1_000: "thousand ", 1_000_000: "million ", 1_000_000_000: "billion "}
# Characters that no name has: control, format (direction among them), private and unassigned ones, halves of
# characters, and the separators of lines.
HIDDEN = ("Cc", "Cf", "Co", "Cn", "Cs", "Zl", "Zp")


@dataclasses.dataclass(frozen=True)
class LongNames:
    """The names of an award's categories and bidders, by their short ones, and what else people want to read.

    `unit` is how many of the currency an amount of 1 is; `mhz` has the width of a lot, `start` the frequency where the
    first lot of a category begins, and `step` the distance to the next lot.
    """

    title: str = ""
    held: str = ""
    seller: str = ""
    currency: str = ""
    unit: int = 1
    categories: Mapping[str, str] = dataclasses.field(default_factory=dict)
    mhz: Mapping[str, int | float] = dataclasses.field(default_factory=dict)
    start: Mapping[str, int | float] = dataclasses.field(default_factory=dict)
    step: Mapping[str, int | float] = dataclasses.field(default_factory=dict)
    bidders: Mapping[str, str] = dataclasses.field(default_factory=dict)

    def category(self, name: str) -> str:
        """What a category is called."""
        return self.categories.get(name, name)

    def bidder(self, name: str) -> str:
        """What a bidder is called."""
        return self.bidders.get(name, name)

    def award(self, award: Award) -> Award:
        """The award with long names instead of the short ones, to be shown and for no program."""
        return Award(
            award.version,
            award.tick,
            [dataclasses.replace(it, name=self.category(it.name)) for it in award.categories],
            [dataclasses.replace(it, name=self.bidder(it.name)) for it in award.bidders],
            award.steps,
            award.caps,
        )

    def lines(self, lines: Iterable[Line]) -> list[Line]:
        """The lines of a log with long names instead of the short ones."""
        return [dataclasses.replace(line, name=self.bidder(line.name)) for line in lines]

    @functools.cached_property
    def short(self) -> Mapping[str, str]:
        """The short names of bidders by their long ones, which differ."""
        return {long: short for short, long in self.bidders.items()}

    def as_sent(self, line: Line) -> Line:
        """One of these lines with the short name that the log has."""
        return dataclasses.replace(line, name=self.short.get(line.name, line.name))

    def lots(self) -> list[str]:
        """How wide the lots are, a sentence for each category that has a width."""
        return [f"A lot of {self.category(name)} is {mhz:g} MHz wide." for name, mhz in self.mhz.items()]

    def occasion(self) -> str:
        """When the auction was run, and by whom, in sentences; empty if neither is named."""
        parts = [f"Held {self.held}." if self.held else "", f"Seller: {self.seller}." if self.seller else ""]
        return " ".join(filter(None, parts))

    def amounts(self) -> str:
        """In what amounts are, in words: `thousand EUR`. Nothing if no currency is named."""
        if not self.currency:
            return ""
        return f"{UNITS[self.unit]}{self.currency}" if self.unit in UNITS else f"{self.unit:,} {self.currency}"


NO_NAMES = LongNames()
# The spaces within a size, such as 2.6 GHz and 2 x 5, and before the number of a round: a line isn't broken there.
SIZE = re.compile(r"(?<=\d) (?=x \d|[kMG]Hz\b)|(?<=\d x) (?=\d)|(?<=\bround) (?=\d)")


def written(text: str) -> str:
    """A text as markup, with each size and each name of a round on one line."""
    return SIZE.sub("\N{NO-BREAK SPACE}", html.escape(text))


def fault(why: str) -> NoReturn:
    """Stops since the file isn't as it has to be."""
    raise refused("names", why=why)


def text_of(value: object, key: str) -> str:
    """A text of the file."""
    if not isinstance(value, str) or not value.strip() or len(value) > LONGEST:
        fault(f"`{key}` has to be a text of 1 to {LONGEST} characters")
    for place, letter in enumerate(value, 1):
        if letter == "`" or unicodedata.category(letter) in HIDDEN:
            fault(f"`{key}` has a character that no name may have: U+{ord(letter):04X}, its character {place}")
    return value


def unit_of(value: object) -> int:
    """How many of the currency an amount of 1 is."""
    if type(value) is not int or not 1 <= value <= MOST_UNIT:
        fault(f"`unit` has to be a whole number from 1 to {MOST_UNIT}")
    return value


def mhz_of(value: object, key: str, most: int) -> int | float:
    """A width or a frequency."""
    if not isinstance(value, (int, float)) or isinstance(value, bool) or not 0 < value <= most:
        fault(f"`{key}` has to be a number above 0 and at most {most}")
    return value


def mhz_by(tables: Mapping[str, Mapping[str, object]], key: str, most: int = MOST_MHZ) -> dict[str, int | float]:
    """The categories that have this key, each with its MHz."""
    return {name: mhz_of(it[key], f"category.{name}.{key}", most) for name, it in tables.items() if key in it}


def need_keys(table: Mapping[str, object], known: Collection[str], where: str) -> None:
    """Stops at the first key that isn't known."""
    for key in table:
        if key not in known:
            fault(f"`{clipped(key)}` is no key {where}; there are {', '.join(known)}")


def table_of(value: object, where: str) -> Mapping[str, object]:
    """A table of the file."""
    if not isinstance(value, dict):
        fault(f"`{clipped(where)}` has to be a table, begun by [{clipped(where)}]")
    return value


def entries(top: Mapping[str, object], kind: str, names: Collection[str]) -> Mapping[str, Mapping[str, object]]:
    """The tables of a kind, each by its short name, in the order of the award."""
    tables = table_of(top.get(kind, {}), kind)
    for name in tables:
        if name not in names:
            fault(f"the award has no {kind} `{clipped(name)}`; it has {', '.join(names) or 'none'}")
    return {name: table_of(tables[name], f"{kind}.{name}") for name in names if name in tables}


def texts(tables: Mapping[str, Mapping[str, object]], kind: str, names: Collection[str]) -> dict[str, str]:
    """The long names of tables. Nobody reads one name for two of them, or the short name of another one."""
    found = {name: text_of(table["name"], f"{kind}.{name}.name") for name, table in tables.items() if "name" in table}
    shown = [found.get(name, name) for name in names]
    for text in shown:
        if shown.count(text) > 1:
            fault(f"two of the tables [{kind}.NAME] have the same name, `{clipped(text)}`")
    return found


def names_of(data: bytes, award: Award) -> LongNames:
    """The names that bytes state, of this award."""
    try:
        top = read_toml(data)
    except ValueError as error:
        fault(f"the names are no TOML: {error}")
    need_keys(top, ("title", "held", "seller", "currency", "unit", "category", "bidder"), "of the names")
    categories = entries(top, "category", [category.name for category in award.categories])
    bidders = entries(top, "bidder", award.names)
    for kind, tables, known in (
        ("category", categories, ("name", "mhz", "start", "step")),
        ("bidder", bidders, ("name",)),
    ):
        for name, table in tables.items():
            need_keys(table, known, f"of [{kind}.{name}]")
    if "unit" in top and "currency" not in top:
        fault("`unit` is there without `currency`")
    return LongNames(
        title=text_of(top["title"], "title") if "title" in top else "",
        held=text_of(top["held"], "held") if "held" in top else "",
        seller=text_of(top["seller"], "seller") if "seller" in top else "",
        currency=text_of(top["currency"], "currency") if "currency" in top else "",
        unit=unit_of(top.get("unit", 1)),
        categories=texts(categories, "category", [category.name for category in award.categories]),
        mhz=mhz_by(categories, "mhz"),
        start=mhz_by(categories, "start", MOST_START),
        step=mhz_by(categories, "step"),
        bidders=texts(bidders, "bidder", award.names),
    )


def read_names(file: str | None, award: Award) -> LongNames:
    """The names of a file, or none if no file is named."""
    return names_of(load(file, "names"), award) if file else NO_NAMES
