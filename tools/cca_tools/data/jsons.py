"""Bids of JSON: an object with `bids`, or records as pandas and R write them, a list or one a line."""

from __future__ import annotations

import collections
import json
from collections.abc import Iterable, Iterator, Mapping, Sequence
from decimal import Decimal

from cca_tools.data.raw import MOST_DIGITS, RawBid, Sold, fault, listed
from cca_tools.data.tables import Cell, Row
from cca_tools.rules.types import Package

KEYS = ("supply", "reserve", "bids")
BID_KEYS = ("bidder", "package", "amount")
STARTS = (b"{", b"[")
RECORDS = 'a frame of pandas is written by to_json(orient="records")'


def is_json(data: bytes) -> bool:
    """Whether bytes begin as JSON does."""
    return data.lstrip(b"\xef\xbb\xbf \t\r\n").startswith(STARTS)


def no_key_twice(pairs: Sequence[tuple[str, object]]) -> dict[str, object]:
    """The object of these members."""
    found = dict(pairs)
    if len(found) < len(pairs):
        counts = collections.Counter(name for name, _ in pairs)
        twice = next(name for name, count in counts.items() if count > 1)
        fault(f"an object of the JSON has the key {listed([twice])} twice")
    return found


def value_of(text: str) -> object:
    """The value of a text of JSON; its numbers keep their decimals."""
    return json.loads(text, parse_float=Decimal, parse_constant=Decimal, object_pairs_hook=no_key_twice)


def json_of(data: bytes) -> object:
    """The value of bytes of JSON, or the list of the values of their lines."""
    try:
        text = data.decode("utf-8-sig")
        lines = text.strip().splitlines()
        if len(lines) > 1 and all(line.startswith("{") and line.endswith("}") for line in lines):
            return [value_of(line) for line in lines]
        return value_of(text)
    except (ValueError, RecursionError) as what:
        fault(f"this is no JSON: {what}")


# An object with `bids`.


def numbers_of(value: object, what: str) -> tuple[Decimal, ...]:
    """A list of numbers that aren't below 0."""
    if not isinstance(value, list) or not all(
        isinstance(it, (int, Decimal)) and not isinstance(it, bool) for it in value
    ):
        fault(f"`{what}` is a list of numbers")
    found = tuple(map(Decimal, value))
    if not all(it.is_finite() and it >= 0 for it in found):
        fault(f"`{what}` has a number that is below 0 or isn't finite")
    return found


def whole_of(value: object, what: str) -> Package:
    """A list of whole numbers."""
    found = numbers_of(value, what)
    if any(it >= 10**MOST_DIGITS for it in found):
        fault(f"`{what}` has a number of more than {MOST_DIGITS} digits")
    if any(it != int(it) for it in found):
        fault(f"`{what}` is a list of whole numbers")
    return tuple(map(int, found))


def sold_of(found: Mapping[str, object], sold: Sold | None) -> Sold | None:
    """What is sold, by an object of JSON and by what is known otherwise. Stops if they differ."""
    if unknown := [key for key in found if key not in KEYS]:
        fault(f"the JSON has the key {listed(unknown[:1])}; its keys are {listed(KEYS)}; {RECORDS}")
    if "supply" not in found and not sold:
        return None
    supply = whole_of(found["supply"], "supply") if "supply" in found else sold.supply if sold else ()
    reserves = numbers_of(found["reserve"], "reserve") if "reserve" in found else ()
    if reserves and len(reserves) != len(supply):
        fault(f"`supply` has {len(supply)} numbers, and `reserve` {len(reserves)}")
    if sold and supply != sold.supply:
        fault(f"the JSON has the supply {list(supply)}, and the command states {list(sold.supply)}")
    if sold and sold.has_reserves and reserves and reserves != sold.reserves:
        both = [", ".join(f"{it:f}" for it in of_one) for of_one in (reserves, sold.reserves)]
        fault(f"the JSON has the reserves {both[0]}, and the command states {both[1]}")
    return Sold(supply, reserves or (sold.reserves if sold and sold.has_reserves else ()), sold.names if sold else ())


def bidder_of(value: object, place: str) -> str:
    """The name of a bidder, which may be a whole number."""
    if isinstance(value, str) and value.strip() or type(value) is int:
        return str(value).strip()
    fault(f"{place} has no name of a bidder, which is a text")


def of_bids(bids: object, size: int, changes: list[str]) -> Iterator[RawBid]:
    """The bids of a list of objects with `bidder`, `package` and `amount`."""
    if not isinstance(bids, list):
        fault(f"`bids` is a list of objects with `bidder`, `package` and `amount`; {RECORDS}")
    left = dict.fromkeys(key for bid in bids if isinstance(bid, dict) for key in bid if key not in BID_KEYS)
    if left:
        changes.append(f"left out the keys {', '.join(left)} of bids")
    for number, bid in enumerate(bids, 1):
        place = f"bid {number}"
        if not isinstance(bid, dict) or not set(BID_KEYS) <= set(bid):
            fault(f"{place} is an object with `bidder`, `package` and `amount`")
        package = whole_of(bid["package"], f"package of {place}")
        if len(package) != size:
            fault(f"{place} has a package of {len(package)} counts, and {size} categories are sold")
        (amount,) = numbers_of([bid["amount"]], f"amount of {place}")
        yield RawBid(place, bidder_of(bid["bidder"], place), package, amount)


# Records.


def cell_of(value: object, place: str) -> Cell:
    """A cell of a record: a list of counts is a text of them, and null is empty."""
    if value is None:
        return ""
    if isinstance(value, list):
        return " ".join(str(it) for it in whole_of(value, f"package of {place}"))
    if isinstance(value, (int, Decimal)) and not isinstance(value, bool):
        return Decimal(value)
    if isinstance(value, str):
        return value.strip()
    fault(f"{place} has {json.dumps(value, default=str)} in a cell, which is a number, a text or a list of counts")


def rows_of(records: Iterable[object]) -> Iterator[Row]:
    """The rows of records, their keys first as the head."""
    keys: list[str] = []
    for number, record in enumerate(records, 1):
        place = f"record {number}"
        if not isinstance(record, Mapping) or not record:
            fault(f"{place} is an object with a bidder, a package or its counts, and an amount")
        if not keys:
            keys = list(map(str, record))
            yield Row("the keys", keys)
        cells = {str(key): value for key, value in record.items()}
        if cells.keys() != set(keys):
            fault(f"{place} has the keys {listed(list(cells))}, and the first one has {listed(keys)}")
        yield Row(place, [cell_of(cells[key], place) for key in keys])
