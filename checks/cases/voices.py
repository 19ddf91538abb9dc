"""The voices that judge a certificate: the court's own files tools/audit and tools/check, the rules of cca_tools, the
program, and the checker of the second proof.

`audit`, `check` and `check_places` take names of files and ask the court's file and the rules, whose answers have to be
the same. They return what is printed if the certificate is right; any other end is a `Stop`.
"""

from __future__ import annotations

import importlib.machinery
import os
import pathlib
import re
import subprocess
import sys
import tempfile
import unittest.mock
from collections.abc import Mapping, Sequence
from types import ModuleType
from typing import Any, NoReturn, TypeAlias

from cca_tools.rules.auction import replay
from cca_tools.rules.award import read_award
from cca_tools.rules.book import Book, read_book
from cca_tools.rules.certificate import read_certificate
from cca_tools.rules.certificate_tests import first_fault
from cca_tools.rules.log import read_log
from cca_tools.rules.placement import read_places, read_slots
from cca_tools.rules.placement_tests import first_fault as first_place_fault
from cca_tools.rules.printing import place_lines, price_lines
from cca_tools.rules.stops import NO, REFUSED, WORDS, Stop, load
from cca_tools.rules.weights import read_weights
from second_proof.coq_audit.plain import NotPlain, NotToml, plain_award, plain_log

# An answer is what is printed, and the status. Bids are the bids of each bidder.
Answer: TypeAlias = tuple[str, int]
Bids: TypeAlias = list[list[tuple[tuple[int, ...], int]]]
TOOLS = os.path.join(os.path.dirname(os.path.realpath(__file__)), "..", "..", "tools")
FILES = {
    "audit": ("award", "log", "cert"),
    "check": ("book", "cert"),
    "weigh-check": ("book", "weights", "cert"),
    "place-check": ("slots", "cert"),
}
NO_VERDICT = 9  # of an award that TOML 1.0 doesn't have
CHECKER = os.path.join(TOOLS, "..", "second_proof", "built", "checker")


def script(name: str) -> Any:
    """A tool of one file as a module."""
    loader = importlib.machinery.SourceFileLoader(name.replace("-", "_"), os.path.join(TOOLS, name))
    module = ModuleType(loader.name)
    module.__file__ = loader.path
    sys.dont_write_bytecode = True
    loader.exec_module(module)
    return module


# (mypy can't follow a module that is loaded from a file without a suffix)
AUDIT: Any = script("audit")
CHECK: Any = script("check")


def court_answer(command: str, names: Sequence[str]) -> Answer:
    """What the court's own files print for a command of cca with these names, and the status."""
    said: Answer
    if command == "audit":
        said = AUDIT.answer(names)
    elif command == "place-check":
        said = CHECK.answer(names, CHECK.check_places, 2)
    elif command == "weigh-check":
        said = CHECK.answer([*names[:1], *names[2:], *names[1:2]], CHECK.check, 3)
    else:
        said = CHECK.answer(names, CHECK.check, 2)
    return said


def court_book(award: str, log: str) -> tuple[Bids | str, int]:
    """The bids of the book that tools/audit makes of these files, or what it prints instead, and the status."""
    made: list[Bids] = []

    def keep(cert: object, terms: object, bids: Bids) -> NoReturn:
        made.append(bids)
        raise AUDIT.Stop("", 0)

    with unittest.mock.patch.object(AUDIT, "Certificate", keep):
        line, status = AUDIT.answer([award, log, os.devnull])
    return (made[0], 0) if made else (line, status)


def books(award: str, log: str) -> tuple[tuple[Bids | str, int], tuple[Bids | str, int]]:
    """The bids of the book of these files, by tools/audit and by the rules; or the line and status of a stop."""
    rules: tuple[Bids | str, int]
    try:
        rules = [list(bids) for bids in rules_book({"award": award, "log": log}).bids], 0
    except Stop as stop:
        rules = stop.line, stop.status
    return court_book(award, log), rules


def rules_text(command: str, names: Sequence[str]) -> str:
    """The answer of the rules of cca_tools to these files, in the form that `cca` prints. It raises `Stop` if they
    don't accept."""
    files = dict(zip(FILES[command], names))
    if command == "place-check":
        slots = read_slots(load(files["slots"], "slots"))
        placed = read_places(load(files["cert"], "cert"), slots)
        fault, lines = first_place_fault(slots, placed), place_lines(placed)
    else:
        book = rules_book(files)
        weights = read_weights(load(files["weights"], "weights"), book) if "weights" in files else None
        certificate = read_certificate(load(files["cert"], "cert"), book)
        fault, lines = first_fault(book, certificate, weights), price_lines(certificate)
    if fault:
        raise Stop(fault.line, NO, why=fault.text())
    return "\n".join(["yes", *lines])


def rules_book(files: Mapping[str, str]) -> Book:
    """The book of an audit's award and log, or the one that is named."""
    if "book" in files:
        return read_book(load(files["book"], "book"))
    award = read_award(load(files["award"], "award"))
    return replay(award, read_log(load(files["log"], "log"), award)).need_book()


def rules_answer(command: str, names: Sequence[str]) -> tuple[str, int]:
    """What the rules answer, and the status."""
    try:
        return rules_text(command, names), 0
    except Stop as stop:
        return stop.line, stop.status


def is_alike(*said: tuple[object, int]) -> bool:
    """Whether all give the same answer. The court's file, which is first, gives no verdict on an award that isn't TOML
    1.0."""
    first, *others = said
    return all(one == others[0] for one in others) and (first == others[0] or first[1] == NO_VERDICT)


def program_answer(program: str, command: str, names: Sequence[str]) -> tuple[str, int]:
    """What the program prints, without its last line feed, and the status."""
    ended = subprocess.run([program, command, *names], stdin=subprocess.DEVNULL, capture_output=True)
    return ended.stdout.decode().removesuffix("\n"), ended.returncode


def plain_files(award: bytes, log: bytes, cert: bytes) -> tuple[bytes, bytes, bytes]:
    """The files of an audit as the checker of the second proof reads them; a `Stop` if there are none such."""
    try:
        award = plain_award(award)
    except NotToml:
        raise Stop("no verdict", NO_VERDICT) from None
    except NotPlain:
        raise Stop("cca: refused award", REFUSED) from None
    try:
        return award, plain_log(log), cert
    except NotPlain:
        raise Stop("cca: refused log", REFUSED) from None


def checker_answer(command: str, texts: Sequence[bytes]) -> tuple[str, int]:
    """What the checker of the second proof prints for these texts, and the status. An audit gets the plain spellings of
    the award and the log, like `second_proof/audit`."""
    try:
        texts = plain_files(texts[0], texts[1], texts[2]) if command == "audit" else texts
    except Stop as stop:
        return stop.line, stop.status
    with tempfile.TemporaryDirectory() as folder:
        names = [os.path.join(folder, kind) for kind in FILES[command]]
        for name, text in zip(names, texts, strict=True):
            pathlib.Path(name).write_bytes(text)
        return program_answer(CHECKER, command, names)


def is_confirmed(checked: tuple[str, int], said: tuple[str, int]) -> bool:
    """Whether an answer of the second proof's checker is the answer `said`. It numbers no part of an award or a log
    that it refuses, and reads only TOML 1.0."""
    unnumbered = re.sub(r"^(cca: refused (?:award|log)) .*", r"\1", said[0]), said[1]
    return checked in (said, unnumbered) or checked[1] == NO_VERDICT


def agreed(command: str, names: Sequence[str]) -> str:
    """The common answer of the court's file and the rules; raises `Stop` for any other end."""
    said = court_answer(command, names)
    if said == ("cca: words", WORDS):
        raise Stop(*said)
    wanted = rules_answer(command, names)
    if not is_alike(said, wanted):
        raise AssertionError(f"{command}: the court's file says {said}, the rules {wanted}")
    return rules_text(command, names)


def audit(names: Sequence[str]) -> str:
    return agreed("audit", names)


def check(names: Sequence[str]) -> str:
    """BOOK CERT [WEIGHTS], as tools/check takes them."""
    return agreed("weigh-check", [names[0], *names[:0:-1]]) if len(names) == 3 else agreed("check", names)


def check_places(names: Sequence[str]) -> str:
    return agreed("place-check", names)
