"""The verdict of a checker on a certificate: the program, or the file for the court if the program isn't there."""

from __future__ import annotations

import subprocess
import sys
from collections.abc import Sequence
from dataclasses import dataclass

from cca_tools.pricing.files import NewFile
from cca_tools.rules.program import program
from cca_tools.rules.stops import CRASH, Stop
from cca_tools.version import ROOT

NO_JUDGE = "nothing can test the certificate: build the program with ./cca, or say where it is with CCA_PROGRAM=PATH"


@dataclass(frozen=True)
class Judge:
    """The name of a checker, and the arguments that run it, before the files."""

    name: str
    words: list[str]


@dataclass(frozen=True)
class Asked:
    """The files to price: BOOK, BOOK WEIGHTS, or AWARD LOG. `program` is the path of the program that is asked, by
    default the one that `program` finds."""

    files: list[str]
    is_weighted: bool = False
    program: str | None = None

    @property
    def is_auction(self) -> bool:
        """Whether the files are an award and a log."""
        return len(self.files) == 2 and not self.is_weighted


def judge_of(asked: Asked) -> Judge:
    """The program, or the file for the court. A `Stop` of status 70 if neither is there."""
    path = asked.program or program()
    if path:
        word = "audit" if asked.is_auction else "weigh-check" if asked.is_weighted else "check"
        return Judge(f"cca {word}", [path, word])
    court = ROOT / "tools" / ("audit" if asked.is_auction else "check")
    if not court.is_file():
        raise Stop("cca: no program", CRASH, why=NO_JUDGE)
    return Judge(f"tools/{court.name}", [sys.executable, str(court)])


def words_of(judge: Judge, asked: Asked, cert: str) -> list[str]:
    """The arguments that run a checker. The file for the court takes weights after the certificate."""
    if asked.is_weighted and judge.name.startswith("tools/"):
        return [*judge.words, asked.files[0], cert, asked.files[1]]
    return [*judge.words, *asked.files, cert]


def judgement(judge: Judge, asked: Asked, file: NewFile) -> list[str]:
    """The lines that a checker prints of a certificate that passes, `yes` first. A `Stop` of status 70 if it doesn't
    pass, which is a fault of the pricing and no answer."""
    words = words_of(judge, asked, file.path)
    run = subprocess.run(words, stdin=subprocess.DEVNULL, capture_output=True, text=True, pass_fds=[file.handle])
    lines = run.stdout.splitlines()
    if run.returncode == 0 and lines[:1] == ["yes"]:
        return lines
    raise unjudged(judge, lines, run.returncode)


def unjudged(judge: Judge, lines: Sequence[str], status: int) -> Stop:
    """The stop of a certificate that a checker doesn't say yes to."""
    answer = f"`{lines[-1]}`" if lines else f"status {status}"
    why = f"{judge.name} answers {answer} to the certificate. This is a fault of this tool, and nothing is written"
    return Stop(lines[-1] if lines else "cca: no answer", CRASH, why=why)
