"""A certificate that is found, written and judged: what the command `price` does, for other parts of the package."""

from __future__ import annotations

from collections.abc import Sequence
from dataclasses import dataclass

from cca_tools.pricing.certificates import Priced, certificate_of
from cca_tools.pricing.files import new_file
from cca_tools.pricing.judges import Asked, Judge, judge_of, judgement
from cca_tools.rules.book import Book
from cca_tools.rules.stops import MOST
from cca_tools.rules.types import Choice
from cca_tools.terminal import progress


@dataclass(frozen=True)
class Made:
    """Prices whose certificate is in its file, the checker that has tested it, and the lines that the checker prints:
    `yes` and the prices."""

    priced: Priced
    judge: Judge
    lines: list[str]


def make_certificate(
    asked: Asked, book: Book, cert: str, weights: Sequence[int] | None = None, seconds: float = 0
) -> Made:
    """Finds the prices of the book of the files that are asked for, and writes their certificate into the new file
    `cert`, which appears once a checker says yes. A search for fewer rows goes on for `seconds`. A `Stop` if the file
    can't be made (status 5), the certificate would exceed a limit (7), or no checker says yes (70). The file doesn't
    exist after a `Stop`."""
    judge = judge_of(asked)
    with new_file(cert) as file:
        priced = certificate_of(book, weights, seconds)
        progress.step("writing the certificate")
        file.write(priced.lines(), MOST["cert bytes"])
        progress.step(f"testing the certificate by {judge.name}")
        lines = judgement(judge, asked, file)
        file.appear()
    return Made(priced, judge, lines)


def is_beyond(choice: Choice) -> bool:
    """Whether more bidders win than `cca price` and `cca award` price."""
    return sum(map(bool, choice)) > MOST["winners"]
