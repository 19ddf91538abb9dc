"""Numbers of tables: amounts as people and programs write them, and fractions as other programs read them."""

from __future__ import annotations

import re
from decimal import Decimal
from fractions import Fraction
from typing import Literal, TypeAlias

Mark: TypeAlias = Literal[".", ","]
MARKS: tuple[Mark, Mark] = (".", ",")
PLACES = 6
# A currency before or after an amount.
CURRENCY = re.compile(r"([€$£¥]|[A-Z]{3}\b)?(.*?)([€$£¥]|\b[A-Z]{3})?", re.S)
# Digits, decimals and an exponent, as R writes 1e+05. Then digits with marks between thousands, all of them alike, and
# decimals.
PLAIN = re.compile(r"[0-9]+(\.[0-9]+)?([eE][+-]?[0-9]{1,3})?")
GROUPED = re.compile(r"[1-9][0-9]{0,2}([,'’_\s\u00a0\u202f])[0-9]{3}(\1[0-9]{3})*(\.[0-9]+)?")
THOUSANDS = re.compile(r"[,'’_\s\u00a0\u202f]")


def exact(value: Fraction) -> str:
    """A fraction as it is: `20`, `4.5`, or `6+2/3` if no decimal is exact, which no spreadsheet takes for a date."""
    rest = value.denominator
    twos, fives = power_in(rest, 2), power_in(rest, 5)
    if 2**twos * 5**fives == rest:
        return decimal(value, max(twos, fives))
    sign = "-" if value < 0 else ""
    whole, part = divmod(abs(value.numerator), rest)
    return f"{sign}{whole}{sign or '+'}{part}/{rest}"


def power_in(number: int, prime: int) -> int:
    """How often a prime divides a number that isn't 0."""
    power = 0
    while number % prime == 0:
        number, power = number // prime, power + 1
    return power


def decimal(value: Fraction, places: int = PLACES) -> str:
    """A fraction with at most this number of decimals, rounded half to even, without zeros at the end."""
    whole = round(value * 10**places)
    head, tail = divmod(abs(whole), 10**places)
    digits = f"{tail:0{places}d}".rstrip("0") if places else ""
    return f"{'-' if whole < 0 else ''}{head}{'.' if digits else ''}{digits}"


def currency_of(text: str) -> str:
    """The currency that a cell states, empty if it states none."""
    found = CURRENCY.fullmatch(text.strip())
    return (found[1] or found[3] or "") if found else ""


def amount_of(text: str, mark: Mark = ".") -> Decimal | None:
    """The amount that a cell states if its decimal mark is a point or a comma; or None.

    Thousands may have spaces, apostrophes or the other mark between them, and a currency may be before or after.
    """
    found = CURRENCY.fullmatch(text.strip())
    cell = found[2].strip() if found else ""
    if mark == ",":
        cell = cell.translate(str.maketrans(",.", ".,"))
    if GROUPED.fullmatch(cell):
        cell = THOUSANDS.sub("", cell)
    return Decimal(cell) if PLAIN.fullmatch(cell) else None


def decimals_of(amount: Decimal) -> int:
    """How many decimals an amount has, zeros at the end left out. Nothing is rounded, however long it is."""
    _, digits, exponent = amount.as_tuple()
    zeros = len(digits) - len("".join(map(str, digits)).rstrip("0"))
    return max(0, -exponent - zeros) if isinstance(exponent, int) and any(digits) else 0


def fraction_of(text: str) -> Fraction:
    """The number of `W`, `W.D` or `W+R/E`, as the program and `exact` print it."""
    sign = -1 if text.startswith("-") else 1
    whole, _, rest = text.lstrip("-").replace("-", "+").partition("+")
    return sign * (Fraction(whole) + Fraction(rest or 0))
