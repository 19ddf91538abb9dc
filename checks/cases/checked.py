"""What theory predicts for auctions with bidders that follow their values, tested on one auction."""

from __future__ import annotations

import pathlib
import subprocess
import tempfile
from collections.abc import Iterator, Sequence
from fractions import Fraction

from checks.cases import rehearsed
from checks.cases.enumerated import best, core_sum
from checks.cases.program import PROGRAM

from cca_tools.data.prices import Prices, prices_of
from cca_tools.rules.auction import Auction
from cca_tools.rules.award import Award, read_award
from cca_tools.studies.rehearsal import held
from cca_tools.studies.rows import best_of_values
from cca_tools.studies.awarding import log_text
from cca_tools.studies.strategies import Strategy
from cca_tools.studies.values import Values, values_of_seed


def awarded(award_bytes: bytes, auction: Auction) -> tuple[list[str], list[str]]:
    """What the program prints, and its replies."""
    with tempfile.TemporaryDirectory() as folder:
        award, log = pathlib.Path(folder, "award"), pathlib.Path(folder, "log")
        award.write_bytes(award_bytes)
        log.write_bytes(log_text(auction))
        run = [
            subprocess.run([PROGRAM or "cca", word, award, log, "/dev/null"], capture_output=True, text=True)
            for word in ("award", "auction")
        ]
    return run[0].stdout.splitlines(), run[1].stdout.splitlines()


def faults(number: int, is_small: bool = False) -> tuple[str, list[str]]:
    """The form of auction `number`, and what contradicts the theory; "limit" if the program doesn't price it."""
    form, award_bytes, values_bytes = rehearsed.drawn(number, is_small)
    award = read_award(award_bytes)
    values = values_of_seed(award, values_bytes, number)
    auction = held(award, values, [Strategy(fit=False)] * len(values))
    printed, replies = awarded(award_bytes, auction)
    refused = [it for it in replies if it.split(" ")[1] not in ("ok", "round", "sealed", "closed")]
    found = [f"refused: {it}" for it in refused]
    if printed and printed[0].startswith("cca: limit winners"):
        return form, [*found, "limit"]
    prices = prices_of(award.names, award.reserves, printed)
    if len(prices.winners) != sum(line.startswith("winner ") for line in printed) or not printed[-1].startswith(
        "revenue"
    ):
        return form, [*found, f"printed: {printed}"]
    for j, row in enumerate(prices.rows):
        if row.package and row.pays > values[j][row.package]:
            found.append(f"{row.bidder} pays {row.pays}, more than its value {values[j][row.package]}")
        if form == "separable" and row.pays != row.vickrey:
            found.append(f"{row.bidder} pays {row.pays}, and its Vickrey price is {row.vickrey}")
    if is_small:
        found += differing(award, values, prices)
    return form, found


def differing(award: Award, values: Sequence[Values], prices: Prices) -> Iterator[str]:
    """What differs from going through all allocations of these values."""
    every = range(len(values))
    # What is worth less than its reserves can't be bid for, and is never in the best allocation.
    most = best(award.supply, award.reserves, values, every)
    if best_of_values(award, values) != most:
        yield f"the best value is {best_of_values(award, values)}, and of all allocations {most}"
    won = {j: values[j][row.package] - row.reserve for j, row in enumerate(prices.rows) if row.package}
    if sum(won.values()) != most:
        yield f"the winners have {sum(won.values())}, and the best allocation {most}"
    bids = [
        {package: worth for package, worth in of_one.items() if worth >= award.reserve_of(package)} for of_one in values
    ]
    least = core_sum(award.supply, award.reserves, bids, won)
    paid = sum((row.pays_net for row in prices.rows), Fraction(0))
    if paid != least:
        yield f"the winners pay {paid}, net, and the least sum of the core is {least}"
