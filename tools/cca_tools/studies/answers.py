"""Best answers over a grid: which of a bidder's strategies in a plan has the most profit while all else stays as it is.
If each bidder whose strategy varies has its best answer in a case, the case is an equilibrium of the grid.
"""

from __future__ import annotations

from collections.abc import Sequence
from dataclasses import dataclass
from fractions import Fraction

from cca_tools.studies.measures import Results, Spread, spread_of
from cca_tools.studies.plan import OWN, Case, Plan


@dataclass(frozen=True)
class Tried:
    """A case of a search: what the bidder does there, its mean profit, and what it gains there over its best answer, in
    auctions that all cases of the search have."""

    case: Case
    label: str
    profit: Spread
    gain: Spread


@dataclass(frozen=True)
class Answer:
    """A bidder's strategies while all else stays as it is, in words, and the best answer among them."""

    bidder: str
    others: str
    tried: Sequence[Tried]
    best: Tried


def parts_of(plan: Plan, bidder: str) -> list[str]:
    """The parts of a bidder's strategy that vary, as columns."""
    return [name for name in plan.varied if name in {f"{bidder}_{part}" for part in OWN.values()}]


def searchers_of(plan: Plan) -> list[str]:
    """The bidders whose strategies vary."""
    return [bidder.name for bidder in plan.base().bidders if parts_of(plan, bidder.name)]


def answers_of(results: Results) -> list[Answer]:
    """For each bidder whose strategy varies, and each choice of all else, its best answer."""
    plan, found = results.plan, list[Answer]()
    for bidder in searchers_of(plan):
        own = parts_of(plan, bidder)
        groups: dict[tuple[str | int, ...], list[Case]] = {}
        for case in plan.cases:
            groups.setdefault(tuple(case.get(name) for name in plan.fields if name not in own), []).append(case)
        for cases in groups.values():
            if answer := answer_of(results, bidder, own, cases):
                found.append(answer)
    return found


def answer_of(results: Results, bidder: str, own: Sequence[str], cases: Sequence[Case]) -> Answer | None:
    """The best answer of a bidder in these cases, of equal ones the first; None if no auction is in all of them, or if
    the bidder isn't."""
    common = [n for n in results.rows[cases[0]] if all(n in results.rows[case] for case in cases)]
    profits = {case: [profit_of(results, case, n, bidder) for n in common] for case in cases}
    if not common or not all(results.rows[case][common[0]].get(f"{bidder}_profit") for case in cases):
        return None
    best = max(cases, key=lambda case: sum(profits[case]))
    tried = [
        Tried(
            case,
            ", ".join(f"{name.rpartition('_')[2]} {case.get(name)}" for name in own),
            spread_of(profits[case]),
            spread_of([here - there for here, there in zip(profits[case], profits[best])]),
        )
        for case in cases
    ]
    others = ", ".join(f"{name} {best.get(name)}" for name in results.plan.varied if name not in own)
    return Answer(bidder, others, tried, next(it for it in tried if it.case == best))


def profit_of(results: Results, case: Case, number: int, bidder: str) -> Fraction:
    """The profit of a bidder in an auction."""
    return Fraction(results.rows[case][number].get(f"{bidder}_profit") or 0)


def equilibria_of(results: Results, answers: Sequence[Answer]) -> list[Case]:
    """The cases that have a best answer of each bidder whose strategy varies."""
    bidders = searchers_of(results.plan)
    best = {(answer.bidder, answer.best.case) for answer in answers}
    return [case for case in results.plan.cases if bidders and all((bidder, case) in best for bidder in bidders)]
