"""The plan of a study: an award, files of values, how many auctions, and what varies."""

from __future__ import annotations

import functools
import hashlib
import itertools
import json
import os
from collections.abc import Iterator, Sequence
from dataclasses import asdict, dataclass, replace

from cca_tools.data.references import REFERENCES, Reference
from cca_tools.rules.award import Award, Bidder, Category, SpectrumCap, Step, read_award
from cca_tools.rules.stops import MOST, load
from cca_tools.studies.fields import Fields, fields_of
from cca_tools.studies.strategies import PARTS, PERCENT
from cca_tools.studies.values import BidderModel, read_values

MOST_AUCTIONS, MOST_CASES = 1_000_000, 1_000


FORMATS = ("clock", "sealed")
# What is varied of each bidder's strategy, by the tables of [vary].
OWN = {"shares": "share", "shades": "shade", "budgets": "budget"}


@dataclass(frozen=True)
class Case:
    """One way to run the auctions of a study."""

    values: str  # the name of the file of values
    version: int  # of the award: 1 without the final cap, 2 with it
    increment: int  # the award's steps of prices, in percent of them
    share: int  # what bidders name of their values in the sealed round, in percent, if nothing else says it
    bidders: int  # the first ones of the award
    reserve: int  # the award's reserves, in percent of them
    format: str = "clock"  # or sealed: only sealed bids
    own: tuple[tuple[str, int], ...] = ()  # parts of bidders' strategies, such as `elm_share`

    def get(self, name: str) -> str | int:
        """The value of a field, or of a part of a bidder's strategy."""
        own = dict(self.own)
        found: str | int = own[name] if name in own else getattr(self, name)
        return found

    def strategies(self) -> dict[str, dict[str, int]]:
        """For each bidder the parts of its strategy that are set."""
        found: dict[str, dict[str, int]] = {}
        for name, value in self.own:
            bidder, _, part = name.rpartition("_")
            found.setdefault(bidder, {})[part] = value
        return found


# The fields of a case, in order, without the fields of bidders.
FIELDS = tuple(name for name in Case.__dataclass_fields__ if name != "own")


@dataclass(frozen=True)
class Plan:
    """A plan with the bytes of its files, so that it can be handed to another machine."""

    award: bytes
    values: tuple[tuple[str, bytes], ...]
    auctions: int
    seed: int  # of the first auction; each further one has the next number
    cases: tuple[Case, ...]
    text: bytes = b""
    award_name: str = "award"
    references: tuple[Reference, ...] = ()  # points of reference for nearest prices, besides the Vickrey prices
    weights: tuple[tuple[str, int], ...] = ()  # of bidders, 1 for all others; none if prices aren't weighted too

    def files(self) -> dict[str, bytes]:
        """The plan and its files by their names in the folder of the study. The copy of the plan finds the others there
        if it named them without a folder."""
        found = {"plan.toml": self.text}
        for name, data in ((self.award_name, self.award), *self.values):
            base = os.path.basename(name)
            while found.get(base, data) != data:
                base = f"other-{base}"
            found[base] = data
        return found

    @property
    def fields(self) -> tuple[str, ...]:
        """The fields of a case, and the parts of bidders' strategies that the plan sets."""
        return (*FIELDS, *(name for name, _ in self.cases[0].own))

    @property
    def varied(self) -> tuple[str, ...]:
        """The fields that differ between cases."""
        return tuple(name for name in self.fields if len({case.get(name) for case in self.cases}) > 1)

    @property
    def rules(self) -> tuple[str, ...]:
        """The rules of prices in addition to the program's: a point of reference, or weights."""
        return (*self.references, *(["weighted"] if self.weights else []))

    def label(self, case: Case) -> str:
        """A case by what it has of its own."""
        return ", ".join(f"{name} {case.get(name)}" for name in self.varied) or "all auctions"

    def sum(self) -> str:
        """What decides the rows, except how many there are, as a checksum."""
        cases = [asdict(case) for case in self.cases]
        files = [hashlib.sha256(data).hexdigest() for data in (self.award, *(data for _, data in self.values))]
        asked = [files, self.seed, cases, self.references, self.weights]
        return hashlib.sha256(json.dumps(asked).encode()).hexdigest()

    def base(self) -> Award:
        """The award as its file has it."""
        return read_award(self.award)

    def models(self, case: Case) -> list[BidderModel]:
        """The model of each bidder of the award."""
        return read_values(dict(self.values)[case.values], self.base())


def award_of(base: Award, case: Case) -> Award:
    """The award of a case."""
    categories = [
        Category(it.name, it.supply, it.points, it.reserve * case.reserve // PERCENT) for it in base.categories
    ]
    steps = [
        Step(it.excess, max(1, min(MOST["permille"], it.permille * case.increment // PERCENT))) for it in base.steps
    ]
    return Award(case.version, base.tick, categories, base.bidders[: case.bidders], steps, base.caps)


# The text of an award.


@functools.lru_cache(maxsize=64)
def award_text(award: Award) -> str:
    """An award as TOML."""
    tables = [f"version = {award.version}\ntick = {award.tick}\n"]
    tables += map(category_text, award.categories)
    tables += map(bidder_text, award.bidders)
    tables += [f"[[step]]\nexcess = {it.excess}\npermille = {it.permille}\n" for it in award.steps]
    tables += map(cap_text, award.caps)
    return "\n".join(tables)


def category_text(it: Category) -> str:
    """The table of a category."""
    return f'[[category]]\nname = "{it.name}"\nsupply = {it.supply}\npoints = {it.points}\nreserve = {it.reserve}\n'


def bidder_text(it: Bidder) -> str:
    """The table of a bidder."""
    return f'[[bidder]]\nname = "{it.name}"\neligibility = {it.eligibility}\nholding = {list(it.holding)}\n'


def cap_text(it: SpectrumCap) -> str:
    """The table of a spectrum cap."""
    return f"[[cap]]\nweight = {list(it.weights)}\nlimit = {it.limit}\n"


# From a file.


def read_plan(name: str) -> Plan:
    """The plan of a file; the names of files in it are looked up from its folder."""
    text, folder = load(name, "plan"), os.path.dirname(name)
    top = fields_of(text, "plan")
    top.whole("plan", 1, 1)
    award_name = top.text("award")
    award = load(os.path.join(folder, award_name), "award")
    names = top.texts("values")
    top.need(len(set(names)) == len(names), "values", "names of files that all differ")
    values = tuple((it, load(os.path.join(folder, it), "values")) for it in names)
    auctions, seed = top.whole("auctions", 1, MOST_AUCTIONS), top.whole("seed", 0, 2**32 - 1, 1)
    terms = read_award(award)
    cases = read_cases(Fields("plan", "[vary]", top.take("vary", {})), terms, names)
    asked = top.texts("rules", REFERENCES) if top.has("rules") else []
    references = tuple(it for it in REFERENCES if it in asked)
    weights = read_weights(Fields("plan", "[weights]", top.take("weights", {})), terms)
    top.no_more()
    top.need(len(cases) <= MOST_CASES, "vary", f"so little that there are at most {MOST_CASES} cases")
    plan = Plan(award, values, auctions, seed, cases, text, award_name, references, weights)
    for case in cases:
        plan.models(case)
    return plan


def read_cases(table: Fields, award: Award, values: Sequence[str]) -> tuple[Case, ...]:
    """Each choice of what varies, the first field weighing most."""
    count = len(award.bidders)
    table.need(count > 0, "bidders", "there, since the award has no bidders")
    versions = table.wholes("version", 1, 2, default=award.version)
    increments = table.wholes("increment", 1, 10_000, default=PERCENT)
    shares = table.wholes("share", 1, 1_000, default=PERCENT)
    bidders = table.wholes("bidders", 1, count, default=count)
    reserves = table.wholes("reserve", 0, 10_000, default=PERCENT)
    formats = table.texts("format", FORMATS, FORMATS[0])
    own = dict(read_own(table, award))
    table.no_more()
    ranges = (values, versions, increments, shares, bidders, reserves, formats)
    choices = [tuple(zip(own, parts)) for parts in itertools.product(*own.values())]
    return tuple(replace(Case(*words), own=parts) for words in itertools.product(*ranges) for parts in choices)


def read_own(table: Fields, award: Award) -> Iterator[tuple[str, list[int]]]:
    """What varies of each bidder's strategy: `elm_share` and its values for `shares = { elm = [100, 90] }`."""
    for plural, part in OWN.items():
        inner = Fields("plan", f"[vary], `{plural}`", table.take(plural, {}))
        for name in award.names:
            if inner.has(name):
                yield f"{name}_{part}", inner.wholes(name, *PARTS[part])
        inner.no_more()


def read_weights(table: Fields, award: Award) -> tuple[tuple[str, int], ...]:
    """The weights of bidders."""
    found = tuple((name, table.whole(name, 1, MOST["weight"])) for name in award.names if table.has(name))
    table.no_more()
    return found
