"""The types of values that the package shares. Categories, bidders, bids, rounds, rows and records are numbered from 1.

Money is in the award's unit. An amount is gross if the reserve of its package is in it: a bid, a draft, what a package
costs in the clock, a value, a printed Vickrey price or price. An amount of a certificate or of a table is net of that
reserve. Payments in a certificate, and what is compared with them, are scaled: net amounts times its denominator `den`.
Each kind is a type of its own, so that mypy refuses one if another is due. At run time all are plain numbers. The
functions of `money` lead from one kind to another.
"""

from __future__ import annotations

from fractions import Fraction
from typing import Literal, NewType, TypeAlias

# A price of a lot, the reserve of a package, or the difference of two amounts of one kind.
Amount: TypeAlias = int
# A whole amount with its reserve, one net of it, and a net one times the denominator of a certificate.
Gross = NewType("Gross", int)
Net = NewType("Net", int)
ScaledNet = NewType("ScaledNet", int)
# A price of a package, which may be a fraction.
GrossPrice = NewType("GrossPrice", Fraction)
NetPrice = NewType("NetPrice", Fraction)
# How many lots of each category.
Package: TypeAlias = tuple[int, ...]
# The price of a lot of each category.
Prices: TypeAlias = tuple[Amount, ...]
# The number of a bidder, 0 for none.
BidderNumber: TypeAlias = int
# A package and what is offered for it.
Bid: TypeAlias = tuple[Package, Gross]
# For each bidder the number of its bid, 0 where it wins none.
Choice: TypeAlias = tuple[int, ...]
# A line of a table: an amount for each remaining supply, or for each set of bidders. It is net, and scaled in a lowered
# table; entries are plain numbers, since a table has millions.
TableLine: TypeAlias = list[Amount]
# A line for each bidder, and one more.
Table: TypeAlias = list[TableLine]

Stage: TypeAlias = Literal["clock", "sealed", "closed"]
Kind: TypeAlias = Literal["bid", "draft", "drop", "submit", "close"]
