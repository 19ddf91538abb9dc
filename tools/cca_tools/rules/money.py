"""The functions that add or subtract reserve, that scale net amounts by the denominator of a certificate and back, and
that sum and subtract amounts of one kind. The kinds are in `types`."""

from __future__ import annotations

from collections.abc import Iterable
from fractions import Fraction
from typing import TypeVar, cast, overload

from cca_tools.rules.types import Amount, Gross, GrossPrice, Net, NetPrice, ScaledNet

WholeT = TypeVar("WholeT", Gross, Net, ScaledNet)
PriceT = TypeVar("PriceT", GrossPrice, NetPrice)


def net_of(gross: Gross, reserve: Amount) -> Net:
    """A gross amount less the reserve of its package."""
    return Net(gross - reserve)


def gross_of(net: Net, reserve: Amount) -> Gross:
    """A net amount and the reserve of its package."""
    return Gross(net + reserve)


def net_price_of(gross: GrossPrice, reserve: Amount) -> NetPrice:
    """A gross price less the reserve of its package."""
    return NetPrice(gross - reserve)


def gross_price_of(net: NetPrice, reserve: Amount) -> GrossPrice:
    """A net price and the reserve of its package."""
    return GrossPrice(net + reserve)


def scaled(net: Net, den: int) -> ScaledNet:
    """A net amount times a denominator."""
    return ScaledNet(den * net)


def unscaled(amount: ScaledNet, den: int) -> NetPrice:
    """The net price that an amount over its denominator is."""
    return NetPrice(Fraction(amount, den))


def total(amounts: Iterable[WholeT]) -> WholeT:
    """The sum of amounts of one kind."""
    return cast(WholeT, sum(amounts))


def price_total(prices: Iterable[PriceT]) -> PriceT:
    """The sum of prices of one kind."""
    return cast(PriceT, sum(prices, Fraction(0)))


def less(amount: WholeT, other: WholeT) -> WholeT:
    """An amount less another one of its kind."""
    return cast(WholeT, amount - other)


@overload
def difference(one: Gross | GrossPrice, other: Gross | GrossPrice) -> Fraction:
    ...


@overload
def difference(one: Net | NetPrice, other: Net | NetPrice) -> Fraction:
    ...


def difference(one: int | Fraction, other: int | Fraction) -> Fraction:
    """How much greater an amount or a price is than another one, both gross or both net."""
    return Fraction(one) - other
