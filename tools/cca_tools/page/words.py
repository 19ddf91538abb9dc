"""Numbers, packages and prices in words."""

from __future__ import annotations

import re
from collections.abc import Iterable
from fractions import Fraction

from cca_tools.page.document import Cell, Tone
from cca_tools.rules.printing import fraction
from cca_tools.rules.types import Amount, BidderNumber, Package

VULGAR = {
    Fraction(it): chr(at)
    for it, at in (
        ("1/2", 0xBD),
        ("1/3", 0x2153),
        ("2/3", 0x2154),
        ("1/4", 0xBC),
        ("3/4", 0xBE),
        ("1/5", 0x2155),
        ("2/5", 0x2156),
        ("3/5", 0x2157),
        ("4/5", 0x2158),
        ("1/6", 0x2159),
        ("5/6", 0x215A),
        ("1/8", 0x215B),
        ("3/8", 0x215C),
        ("5/8", 0x215D),
        ("7/8", 0x215E),
    )
}
SPELLED = "no one two three four five six seven eight nine ten eleven twelve".split()


def number(value: int) -> str:
    """A whole number with commas."""
    return f"{value:,}"


def minus(text: str) -> str:
    """A text with the sign of minus, as it is set, before its negative numbers."""
    return re.sub(r"(?<![\w.])-(?=[\d.])", "\N{MINUS SIGN}", text)


def commas(text: str) -> str:
    """A text with commas in its numbers of more than three digits, and with fractions as people write them."""
    text = re.sub(r"(?<![\w.+])(\d+)\+(\d+/\d+)\b", lambda it: price(int(it[1]) + Fraction(it[2])), text)
    return re.sub(r"(?<![\w.,])\d{4,}(?![\w.]*\w)", lambda it: f"{int(it[0]):,}", text)


def exact(value: Amount | Fraction) -> str:
    """A fraction as the program prints it, with commas: its whole part, and what is left over in lowest terms."""
    whole, rest = divmod(Fraction(value), 1)
    return f"{whole:,}+{rest}" if rest else f"{whole:,}"


def price(value: Amount | Fraction) -> str:
    """A fraction as people write it, if there is a letter for what is left over, or else as the program prints it."""
    whole, rest = divmod(Fraction(value), 1)
    if not rest:
        return f"{whole:,}"
    return f"{whole:,}{VULGAR[rest]}" if rest in VULGAR and whole else VULGAR.get(rest, exact(value))


def price_cell(value: Amount | Fraction, tone: Tone = "") -> Cell:
    """A fraction as people write it, rounded to two places if what is left over isn't a fraction with a letter of its
    own, and as the program prints it."""
    rest = Fraction(value) % 1
    if not rest:
        return Cell(price(value), tone=tone)
    hundredths = (Fraction(value) * 200 + 1) // 2
    rounded = f"\N{ALMOST EQUAL TO} {hundredths // 100:,}.{hundredths % 100:02}"
    return Cell(price(value) if rest in VULGAR else rounded, fraction(Fraction(value)), tone)


def result_cell(value: Amount | Fraction) -> Cell:
    """What a winner pays, with the program's form only where people's form is rounded."""
    cell = price_cell(value, "good")
    return cell if cell.words != price(value) else Cell(cell.words, tone=cell.tone)


def per_cent(part: Amount | Fraction, whole: Amount | Fraction) -> str:
    """The percentage to one decimal, halves up; a dash if the whole is 0."""
    if whole == 0:
        return "\N{EN DASH}"
    tenths = (Fraction(part) * 2000 / whole + 1) // 2
    return f"{tenths // 10:,}.{tenths % 10} %"


def count(value: int, one: str, more: str | None = None) -> str:
    """This many of something."""
    return f"{value:,} {one if value == 1 else more or one + 's'}"


def spelled(value: int) -> str:
    """A small number as a word."""
    return SPELLED[value] if value < len(SPELLED) else f"{value:,}"


def was(number_: int, of_what: str) -> str:
    """How many of something were refused, in words."""
    many = number(number_) if number_ else "none"
    return f"{many} of {of_what} {'was' if number_ == 1 else 'were'} refused"


def listed(items: Iterable[str], last: str = "and") -> str:
    """a; a and b; a, b and c."""
    every = list(items)
    return every[0] if len(every) == 1 else f"{', '.join(every[:-1])} {last} {every[-1]}" if every else "nobody"


def joined(text: str) -> str:
    """The text with the counts of packages, and what is multiplied, on one line each."""
    text = re.sub(r"(?<=\d) (?=\d+\b(?! [x=]))", "\N{NO-BREAK SPACE}", text)
    return re.sub(r"(?<=\d) x (?=\d)", "\N{NO-BREAK SPACE}x\N{NO-BREAK SPACE}", text)


def counts(package: Package) -> str:
    """A package as the program writes it."""
    return " ".join(map(str, package))


# A name that no reader takes for two items of a package: one word, as the short names of an award.
ONE_WORD = re.compile(r"[^\W_][\w.-]*")


class Names:
    """What categories and bidders are called. A book has no names of categories, so they are numbered."""

    def __init__(self, bidders: Iterable[str], categories: Iterable[str] = (), width: int = 0) -> None:
        self.bidders = list(bidders)
        self.packages = dict[Package, str]()
        named = list(categories)
        self.categories = named or [f"category {c}" for c in range(1, width + 1)]
        self.is_plain = all(map(ONE_WORD.fullmatch, named))
        self.joint = "\N{NO-BREAK SPACE}x\N{NO-BREAK SPACE}" if named else "\N{NO-BREAK SPACE}of "

    def bidder(self, number: BidderNumber) -> str:
        """What a bidder is called."""
        return self.bidders[number - 1]

    def package(self, package: Package) -> str:
        """2 x a800, 4 x c2600; of a book, 1 of category 2. Longer names may have commas, and numbers as in `2 x 5 MHz`:
        then 2 lots of 800 MHz, 2 x 5 MHz; 1 lot of 2.6 GHz."""
        if package not in self.packages:
            kinds = [(lots, name) for lots, name in zip(package, self.categories) if lots]
            if self.is_plain:
                found = ", ".join(f"{lots}{self.joint}{name}" for lots, name in kinds)
            else:
                found = "; ".join(f"{lots}\N{NO-BREAK SPACE}lot{'s' * (lots > 1)} of {name}" for lots, name in kinds)
            self.packages[package] = found or "nothing"
        return self.packages[package]

    def cell(self, package: Package, tone: Tone = "") -> Cell:
        """A package in words and in the program's form."""
        return Cell(self.package(package), counts(package), tone)

    def prices(self, prices: Iterable[Amount]) -> str:
        """The price of each category."""
        return ", ".join(f"{name} {number(amount)}" for name, amount in zip(self.categories, prices))
