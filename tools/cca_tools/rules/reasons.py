"""What a reply to a line of a log says, in whole sentences and with its numbers."""

from __future__ import annotations

from collections.abc import Callable, Iterable
from typing import TypeAlias

from cca_tools.rules.auction import Reply
from cca_tools.rules.award import Award, dot
from cca_tools.rules.log import Line
from cca_tools.rules.sealed import Cap
from cca_tools.rules.stops import MOST
from cca_tools.rules.types import Amount, Package

Words: TypeAlias = Callable[[Award, Line, Reply], str]


def counts(package: Iterable[int]) -> str:
    """A package as the program writes it."""
    return " ".join(map(str, package))


def sum_words(factors: Iterable[int], package: Package) -> str:
    """A weighted sum of a package, each product that isn't 0 written out."""
    return " + ".join(f"{n} x {factor}" for n, factor in zip(package, factors) if n and factor) or "0"


def category_words(award: Award, number: int) -> str:
    """A category by its number and its name."""
    return f"category {number}, {award.categories[number - 1].name}"


def reason(award: Award, line: Line, reply: Reply) -> str:
    """Why a line got its reply."""
    return WORDS[reply.word](award, line, reply)


def stage_words(award: Award, line: Line, reply: Reply) -> str:
    stage = reply.facts["stage"]
    if stage == "closed":
        return "The auction is closed, and no line is taken any more."
    if stage == "clock":
        return "The clock is still running, and lists are for the sealed round."
    return "The clock has ended, and packages are asked for at posted prices in the clock alone."


def supply_words(award: Award, line: Line, reply: Reply) -> str:
    lots, sold = reply.facts["count"], reply.facts["supply"]
    are = "is" if sold == 1 else "are"
    return f"The package has {lots} of {category_words(award, reply.numbers[0])}, and {sold} {are} sold."


def spectrum_words(award: Award, line: Line, reply: Reply) -> str:
    number, most = reply.numbers
    held, cap = award.bidders[line.bidder - 1].holding, award.caps[number - 1]
    together = tuple(n + m for n, m in zip(line.package, held))
    return (
        f"With what {line.name} holds already, {counts(held)}, the package comes to {counts(together)}. "
        f"Spectrum cap {number} counts that as {sum_words(cap.weights, together)} = {reply.facts['weighted']}, and its "
        f"limit is {most}."
    )


def points_words(award: Award, line: Line, reply: Reply) -> str:
    eligible, when = reply.numbers[0], "in the sealed round" if line.kind == "draft" else "in this round"
    return (
        f"The package has {sum_words(award.points, line.package)} = {reply.facts['points']} points, "
        f"and {line.name} is eligible for {eligible} {when}."
    )


def reserve_words(award: Award, line: Line, reply: Reply) -> str:
    worked = sum_words(award.reserves, line.package)
    return f"The reserves of the package come to {worked} = {reply.numbers[0]}, and {line.amount} is less."


def clock_words(award: Award, line: Line, reply: Reply) -> str:
    return (
        f"{line.name} asked for this package at {reply.numbers[0]} in the clock, and a sealed amount may not be less. "
        f"{line.amount} is."
    )


def full_words(award: Award, line: Line, reply: Reply) -> str:
    if line.kind == "close":
        return f"More is asked for than is sold, and there is no round after round {MOST['rounds']}."
    return f"The draft list has {MOST['drafts']} packages already, and this is another one."


def price_words(award: Award, line: Line, reply: Reply) -> str:
    number, price = reply.numbers
    return f"The price of {category_words(award, number)}, would be {price}, and the greatest price is {MOST['price']}."


def list_words(award: Award, line: Line, reply: Reply) -> str:
    entry, most = reply.numbers
    cap, amount = reply.facts["cap"], reply.facts["amount"]
    assert cap is not None  # an entry above its cap has one
    return (
        f"Entry {entry} of the list, in the order of packages, is {counts(cap.package)} for {amount}. "
        f"Its cap is {most}. {cap_words(award, line.name, cap)}"
    )


def cap_words(award: Award, name: str, cap: Cap) -> str:
    """Where a cap comes from."""
    package = counts(cap.package)
    if cap.amount is None:
        return f"{package} is what {name} asked for in the final round, and that has no cap."
    points = award.points_of(cap.package)
    words = (
        f"Round {cap.constraining_round} is the last in which {name} was eligible for the {points} points of {package}."
        f" {step_words(name, cap)}"
    )
    if cap.final is None:
        return words
    final = f"The final round is round {cap.final.constraining_round}. {step_words(name, cap.final)}"
    return f"{words} {final} The lesser holds, {cap.amount}."


def more_of(cap: Cap) -> Amount:
    """How much more the package costs than what the bidder asked for, at the prices of the round."""
    return dot(cap.prices, cap.package) - dot(cap.prices, cap.held)


def step_words(name: str, cap: Cap) -> str:
    """What one round shows about a cap."""
    more = more_of(cap)
    asked = (
        f"asked for {counts(cap.held)}, and the highest amount that it named for that is {cap.standing}"
        if any(cap.held)
        else "asked for nothing, which counts 0"
    )
    kind, sign = ("less", "-") if more < 0 else ("more", "+")
    return (
        f"There {name} {asked}. At the prices of that round, {counts(cap.prices)}, the package costs {abs(more)} "
        f"{kind}: {cap.standing} {sign} {abs(more)} = {cap.by_round}."
    )


def round_words(award: Award, line: Line, reply: Reply) -> str:
    number, *prices = reply.numbers
    return f"The round is closed. Round {number} is posted at the prices {counts(prices)}."


WORDS: dict[str, Words] = {
    "ok": lambda award, line, reply: "Admitted.",
    "round": round_words,
    "sealed": lambda award, line, reply: (
        "Nothing was asked for above the supply, so the clock has ended and the sealed round begins."
    ),
    "closed": lambda award, line, reply: "The sealed round is closed, and so is the auction.",
    "unknown": lambda award, line, reply: f"The award has no bidder {line.name}.",
    "empty": lambda award, line, reply: "A package of nothing can't be drafted.",
    "amount-top": lambda award, line, reply: f"The amount is above the greatest one, {reply.numbers[0]}.",
    "no-draft": lambda award, line, reply: f"The draft list of {line.name} doesn't have this package.",
    "stage": stage_words,
    "supply": supply_words,
    "spectrum-cap": spectrum_words,
    "points": points_words,
    "below-reserve": reserve_words,
    "below-clock": clock_words,
    "full": full_words,
    "price-top": price_words,
    "relative-cap": list_words,
}
