"""The court's own files and the rules of cca_tools, which have to give the same answers, called in this process. A run
that takes too long is an error."""

from __future__ import annotations

import signal
from collections.abc import Iterable
from typing import NoReturn

from checks.cases.voices import audit, check, check_places
from cca_tools.commands import explain
from cca_tools.rules.stops import Stop

SECONDS = 60  # of processor time


def explained(words: list[str]) -> str:
    """What tools/explain prints."""
    return explain.explain(explain.parser().parse_args(words))


TOOLS = {"audit": audit, "check": check, "check-places": check_places, "explain": explained}


def late(*_: object) -> NoReturn:
    raise TimeoutError(f"a tool took more than {SECONDS} seconds")


def answer(name: str, words: Iterable[str]) -> tuple[str, int]:
    """What a tool prints for these arguments, without the last line feed, and its status."""
    signal.signal(signal.SIGVTALRM, late)
    signal.setitimer(signal.ITIMER_VIRTUAL, SECONDS)
    try:
        return TOOLS[name](list(words)), 0
    except Stop as stop:
        return stop.line, stop.status
    finally:
        signal.setitimer(signal.ITIMER_VIRTUAL, 0)
