"""Prices by other rules of the same bids, with the winners that the program finds.

`nearest_to` has the core point of least sum that is nearest to a point of reference, as Erdil and Klemperer (2010) and
Day and Cramton (2012) compare them: zero, the reserves, or the bids. Its rows are coalitions that `cca win` finds on
bids lowered by surpluses, and `cca win` answers at the end that no coalition blocks. The least sum has to be the
revenue that the program printed. That the point is the nearest is tested by nothing but the equations here.
"""

from __future__ import annotations

import math
from collections.abc import Sequence
from typing import Literal, TypeAlias, get_args

from cca_tools.data.prices import BY_WIN, Price, Prices, winners_of
from cca_tools.pricing.nearest import Demand, Nearest
from cca_tools.rules.book import Book
from cca_tools.rules.money import difference, gross_price_of, less, net_of, price_total, scaled, total
from cca_tools.rules.stops import CRASH, MOST, Stop, limit
from cca_tools.rules.types import Bid, Gross, Net, NetPrice, Package, ScaledNet

Reference: TypeAlias = Literal["zero", "reserve", "bids"]
REFERENCES: tuple[Reference, ...] = get_args(Reference)


# Other points of reference.


def point_of(row: Price, reference: Reference) -> Net:
    """What a winner would pay at the point of reference, net of its reserve."""
    return {"zero": net_of(Gross(0), row.reserve), "reserve": Net(0), "bids": row.bid_net}[reference]


def nearest_to(book: Book, prices: Prices, reference: Reference, path: str) -> Prices:
    """The prices of the same winners that are in the core, of least sum, and of these the nearest to the reference. A
    `Stop` of status 7 if lowered bids would be above the greatest amount, and of status 70 if their sum isn't the
    revenue."""
    winners = [k for k, row in enumerate(prices.rows) if row.package is not None]
    rows = [prices.rows[k] for k in winners]
    nearest = Nearest([point_of(row, reference) for row in rows], [1] * len(rows))
    nearest.rows = [Demand(1 << i, row.vickrey_net, ()) for i, row in enumerate(rows)]
    while True:
        pays = nearest.point().pays
        demand = blocking(book, prices, winners, pays, path)
        if demand is None:
            break
        nearest.rows.append(demand)
    paid = {
        k: Price(row.bidder, row.package, row.reserve, row.bid, row.vickrey, gross_price_of(pay, row.reserve))
        for k, row, pay in zip(winners, rows, pays)
    }
    found = Prices(tuple(paid.get(k, row) for k, row in enumerate(prices.rows)), prices.net, BY_WIN)
    if found.revenue != prices.revenue:
        why = f"prices nearest to {reference} have the sum {found.revenue}, and the least is {prices.revenue}"
        raise Stop("cca: audit", CRASH, why=why)
    return found


def blocking(book: Book, prices: Prices, winners: Sequence[int], pays: Sequence[NetPrice], path: str) -> Demand | None:
    """The row of a coalition that blocks these payments most, or None."""
    den = math.lcm(1, *(pay.denominator for pay in pays))
    surplus = {k: surplus_of(prices.rows[k], pay, den) for k, pay in zip(winners, pays)}
    lowered = [lowered_bids(book, k, den, surplus.get(k, ScaledNet(0))) for k, _ in enumerate(book.names)]
    if most := max((amount for bids in lowered for _, amount in bids if amount > MOST["amount"]), default=0):
        raise limit("amount", most, "lowered bids are above the greatest amount")
    won = winners_of(Book(book.supply, (0,) * len(book.supply), book.names, lowered), path)
    members = [
        i for i, (k, pay) in enumerate(zip(winners, pays)) if k not in won.packages and pay <= prices.rows[k].bid_net
    ]
    value = total(offered(book, k, package) for k, (package, _) in won.packages.items())
    bound = less(value, total(prices.rows[k].bid_net for i, k in enumerate(winners) if i not in members))
    if bound <= price_total(pays[i] for i in members):
        return None
    return Demand(sum(1 << i for i in members), bound, ())


def surplus_of(row: Price, pay: NetPrice, den: int) -> ScaledNet:
    """How much less than its bid a winner pays, times `den`."""
    return ScaledNet(max(0, int(den * difference(row.bid_net, pay))))


def lowered_bids(book: Book, k: int, den: int, surplus: ScaledNet) -> list[Bid]:
    """The bids of a bidder, net, times `den` and less its surplus, as bids of a book without reserves in this unit;
    those below 0 are left out."""
    worths = [(package, less(scaled(net, den), surplus)) for (package, _), net in zip(book.bids[k], book.net[k])]
    return [(package, Gross(worth)) for package, worth in worths if worth >= 0]


def offered(book: Book, k: int, package: Package) -> Net:
    """What a bidder offers for a package."""
    return next(net for (of_bid, _), net in zip(book.bids[k], book.net[k]) if of_bid == package)
