"""The award: the rule of each field in order, then the limits.

`read_award` returns the terms that the bytes of an award state, or stops by the first broken rule: the number of its
field and the number of its table in its list.
"""

from __future__ import annotations

import dataclasses
import math
import operator
import re
from collections.abc import Iterable, Mapping, Sequence

from cca_tools.rules.award_rows import award_row
from cca_tools.rules.printable import clipped
from cca_tools.rules.stops import MOST, FieldSpot, Stop, refused, within
from cca_tools.rules.toml import Moment, read_toml
from cca_tools.rules.types import Amount, BidderNumber, Package, Prices

NAME = re.compile(r"[a-z][a-z0-9_]{0,19}")
A_NAME = "1 to 20 of a to z, 0 to 9 and _, a letter first, that none before has"

# The name of each field, and its rule in words.
FIELDS = {
    1: ("version", "1 or 2"),
    2: ("tick", "a whole number from 1 to 68719476736"),
    3: ("category", "a list of at least one table, each begun by [[category]]"),
    4: ("name", A_NAME),
    5: ("supply", "a whole number from 1 to 999"),
    6: ("points", "a whole number from 0 to 10000"),
    7: ("reserve", "a whole number from 0 to 68719476736"),
    8: ("bidder", "a list of tables, each begun by [[bidder]]"),
    9: ("name", A_NAME),
    10: ("eligibility", "a whole number from 0 to 1000000"),
    11: ("holding", "a list of whole numbers from 0 to 999, one for each category"),
    12: ("step", "a list of 1 to 20 tables, each begun by [[step]]"),
    13: ("excess", "1 in the first step, then greater than the one before, and at most 1000"),
    14: ("permille", "a whole number from 1 to 1000"),
    15: ("cap", "a list of at most 20 tables, each begun by [[cap]]"),
    16: ("weight", "a list of whole numbers from 0 to 1000, one for each category"),
    17: ("limit", "a whole number from 0 to 1000000"),
    18: ("", "no other key is allowed"),
}
MISSING = object()


def dot(left: Iterable[int], right: Iterable[int]) -> int:
    """The sum of the products, place by place."""
    return sum(map(operator.mul, left, right))


@dataclasses.dataclass(frozen=True)
class Category:
    """A category of lots: how many are sold, the points and the reserve of one."""

    name: str
    supply: int
    points: int
    reserve: Amount


@dataclasses.dataclass(frozen=True)
class Bidder:
    """A bidder: its points in round 1, and how many lots of each category it owns already."""

    name: str
    eligibility: int
    holding: Package


@dataclasses.dataclass(frozen=True)
class Step:
    """From this excess on a price rises by this many thousandths."""

    excess: int
    permille: int


@dataclasses.dataclass(frozen=True)
class SpectrumCap:
    """The greatest weighted sum of what a bidder asks for and owns."""

    weights: tuple[int, ...]
    limit: int


class Award:
    """The terms of an auction."""

    def __init__(
        self,
        version: int,
        tick: Amount,
        categories: Sequence[Category],
        bidders: Sequence[Bidder],
        steps: Sequence[Step],
        caps: Sequence[SpectrumCap],
    ) -> None:
        self.version, self.tick, self.categories = version, tick, categories
        self.bidders, self.steps, self.caps = bidders, steps, caps
        self.supply: Package = tuple(c.supply for c in categories)
        self.points = tuple(c.points for c in categories)
        self.reserves: Prices = tuple(c.reserve for c in categories)
        self.names = [b.name for b in bidders]
        self.nothing: Package = (0,) * len(categories)
        self.has_final_cap = version == 2
        self._numbers = {name: number for number, name in enumerate(self.names, 1)}

    def number_of(self, name: str) -> BidderNumber:
        """The number of a bidder from 1, and 0 for a stranger."""
        return self._numbers.get(name, 0)

    def eligibility(self, bidder: BidderNumber) -> int:
        """The points of a bidder in round 1."""
        return self.bidders[bidder - 1].eligibility

    def points_of(self, package: Package) -> int:
        """The points of a package."""
        return dot(self.points, package)

    def reserve_of(self, package: Package) -> Amount:
        """The reserves of a package together."""
        return dot(self.reserves, package)

    def permille(self, excess: int) -> int:
        """The thousandths of the last step that the excess reaches, and 0 where it reaches none."""
        return next((step.permille for step in reversed(self.steps) if step.excess <= excess), 0)

    def raised(self, price: Amount, excess: int) -> Amount:
        """The price of the next round: raised by the least multiple of the tick that is at least a tick and at least
        the thousandths."""
        if excess < 1:
            return price
        ticks = -(-price * self.permille(excess) // (1000 * self.tick))
        return price + max(1, ticks) * self.tick

    def weighted(self, cap: SpectrumCap, bidder: BidderNumber, package: Package) -> int:
        """The weighted lots of the package and of what the bidder owns, together."""
        return dot(cap.weights, package) + dot(cap.weights, self.bidders[bidder - 1].holding)

    def cap_fault(self, bidder: BidderNumber, package: Package) -> tuple[int, int] | None:
        """The number and the limit of the first spectrum cap that a package would break, or None."""
        for number, cap in enumerate(self.caps, 1):
            if self.weighted(cap, bidder, package) > cap.limit:
                return number, cap.limit
        return None


class Fields:
    """A table of the award and its number in its list, 0 for the top; fields are taken from it, and then no key may be
    left."""

    def __init__(self, members: Mapping[str, object], kind: str = "", entry: int = 0) -> None:
        self.members, self.kind, self.entry, self.left = members, kind, entry, list(members)

    def need(self, right: bool, number: int, read: object, entry: int | None = None) -> None:
        """Stops by the rule of a field where what was read doesn't keep it."""
        if not right:
            why, field = self.fault(number, read)
            entry = self.entry if entry is None else entry
            raise refused("award", number, entry, why=why, spot=FieldSpot(field, self.kind, self.entry))

    def fault(self, number: int, read: object) -> tuple[str, str]:
        """Why a field isn't as it has to be, and its key."""
        field, allowed = FIELDS[number]
        where = f"in table {self.entry} of [[{self.kind}]]" if self.entry else "at the top of the award"
        if not field:
            return f"the key `{clipped(str(read))}` is {where}; {allowed}", str(read)
        what = "is missing" if read is MISSING else f"is {shown(read)}"
        return f"`{field}` {what} {where}; it has to be {allowed}{table_hint(field, read)}", field

    def take(self, number: int) -> object:
        """The value of a field, or `MISSING`."""
        name = FIELDS[number][0]
        if name in self.left:
            self.left.remove(name)
        return self.members.get(name, MISSING)

    def whole(self, number: int, low: int, high: int) -> int:
        """A whole number of this range."""
        value = self.take(number)
        self.need(is_whole(value, low, high), number, value)
        assert isinstance(value, int)
        return value

    def name(self, number: int, earlier: set[str]) -> str:
        """A name that isn't one of the earlier ones; it becomes one of them."""
        value = self.take(number)
        self.need(isinstance(value, str) and bool(NAME.fullmatch(value)) and value not in earlier, number, value)
        assert isinstance(value, str)
        earlier.add(value)
        return value

    def wholes(self, number: int, count: int, high: int, missing: Package | None = None) -> Package:
        """A list of this many whole numbers, or what a missing one is taken as."""
        value = self.take(number)
        if value is MISSING and missing is not None:
            return missing
        right = isinstance(value, list) and len(value) == count and all(is_whole(n, 0, high) for n in value)
        self.need(right, number, value)
        assert isinstance(value, list)
        return tuple(value)

    def tables(self, number: int, least: int, most: int | None = None) -> list[Fields]:
        """The tables of a list; a missing list is an empty one."""
        value = self.take(number)
        tables = [] if value is MISSING else value
        right = isinstance(tables, list) and all(isinstance(table, dict) for table in tables)
        right = right and isinstance(tables, list) and least <= len(tables) and (most is None or len(tables) <= most)
        self.need(right, number, value, entry=0)
        assert isinstance(tables, list)
        return [Fields(table, FIELDS[number][0], entry) for entry, table in enumerate(tables, 1)]

    def no_more(self) -> None:
        """Stops at the first key that isn't a field."""
        self.need(not self.left, 18, self.left[0] if self.left else None)


def table_hint(field: str, read: object) -> str:
    """What is wrong where one table is read instead of a list of tables."""
    is_one = isinstance(read, dict) and field in ("category", "bidder", "step", "cap")
    return f"; write [[{field}]] with two brackets instead of [{field}]" if is_one else ""


def shown(value: object) -> str:
    """A value of the award in few words."""
    if isinstance(value, (dict, list)):
        return f"a {'table' if isinstance(value, dict) else 'list'} of {len(value)}"
    return clipped(str(value).lower() if isinstance(value, (bool, Moment)) else repr(value), 57)


def is_whole(value: object, low: int, high: int) -> bool:
    """Whether a value is a whole number of this range. A truth value is none."""
    return type(value) is int and low <= value <= high


def category_of(table: Fields, earlier: set[str]) -> Category:
    """The category of a table."""
    name, supply = table.name(4, earlier), table.whole(5, 1, MOST["supply"])
    category = Category(name, supply, table.whole(6, 0, MOST["points"]), table.whole(7, 0, MOST["price"]))
    table.no_more()
    return category


def bidder_of(table: Fields, earlier: set[str], nothing: Package) -> Bidder:
    """The bidder of a table."""
    name, eligibility = table.name(9, earlier), table.whole(10, 0, MOST["eligibility"])
    bidder = Bidder(name, eligibility, table.wholes(11, len(nothing), MOST["holding"], missing=nothing))
    table.no_more()
    return bidder


def step_of(table: Fields, before: Step | None) -> Step:
    """The step of a table, after the one before it."""
    low, high = (1, 1) if before is None else (before.excess + 1, MOST["step excess"])
    step = Step(table.whole(13, low, high), table.whole(14, 1, MOST["permille"]))
    table.no_more()
    return step


def cap_of(table: Fields, count: int) -> SpectrumCap:
    """The spectrum cap of a table, with a weight for each of this many categories."""
    cap = SpectrumCap(table.wholes(16, count, MOST["cap weight"]), table.whole(17, 0, MOST["cap limit"]))
    table.no_more()
    return cap


def steps_of(tables: Iterable[Fields]) -> list[Step]:
    """The steps of a list of tables."""
    steps: list[Step] = []
    for table in tables:
        steps.append(step_of(table, steps[-1] if steps else None))
    return steps


def award_of(top: Fields) -> Award:
    """The terms of a table; the rules are tested in the order of their numbers, and the other keys of the top last."""
    version, tick = top.whole(1, 1, 2), top.whole(2, 1, MOST["price"])
    names: set[str] = set()
    categories = [category_of(table, names) for table in top.tables(3, 1)]
    nothing = (0,) * len(categories)
    names = set()
    bidders = [bidder_of(table, names, nothing) for table in top.tables(8, 0)]
    steps = steps_of(top.tables(12, 1, MOST["steps"]))
    caps = [cap_of(table, len(categories)) for table in top.tables(15, 0, MOST["caps"])]
    top.no_more()
    return Award(version, tick, categories, bidders, steps, caps)


def test_limits(award: Award) -> None:
    """Stops if the award is beyond a limit."""
    within("categories", len(award.categories), MOST["categories"])
    within("lots", sum(award.supply), MOST["lots"])
    within("states", math.prod(count + 1 for count in award.supply), MOST["states"])
    within("bidders", len(award.bidders), MOST["bidders"])


def toml_of(data: bytes) -> Mapping[str, object]:
    """The table of an award's bytes."""
    try:
        return read_toml(data)
    except ValueError as fault:
        raise refused("award", 0, 0, why=f"the award is no TOML: {fault}") from None


def read_award(data: bytes) -> Award:
    """The terms that the bytes of an award state."""
    try:
        award = award_of(Fields(toml_of(data)))
    except Stop as stop:
        if isinstance(stop.spot, FieldSpot):
            stop.spot = dataclasses.replace(stop.spot, row=award_row(data.decode("utf-8", "replace"), stop.spot))
        raise
    test_limits(award)
    return award
