"""Each constant of crates/limits against the pages: the number, and what the program and the second program answer to
files at the limit and one beyond it. A constant without a row is a failure."""

from __future__ import annotations

import math
import os
import pathlib
import re
import subprocess
import sys
import tempfile
import unittest

from checks.cases.limit_scenes import BOUNDS, MOST, SCENES, Run, runs
from checks.cases.program import run, with_program
from checks.cases.second_tools import answer

ROOT = pathlib.Path(__file__).resolve().parents[2]
SOURCE = (ROOT / "crates" / "limits" / "src" / "lib.rt").read_text(encoding="utf-8")
CONSTANTS = dict(re.findall(r"^pub const (\w+): \w+ = (.+);$", SOURCE, re.M))
CHECKER = ROOT / "second_proof" / "built" / "checker"
# The court's tool for a command, and its order of the files.
COURT = {
    "check": ("check", (0, 1)),
    "weigh-check": ("check", (0, 2, 1)),
    "place-check": ("check-places", (0, 1)),
    "audit": ("audit", (0, 1, 2)),
}


def value_of(name: str) -> int:
    """The number of a constant, which is one or a product."""
    factors = [re.sub(r" as \w+|_(?=\d)", "", it) for it in CONSTANTS[name].split(" * ")]
    return math.prod(int(it) if it.isdigit() else value_of(it) for it in factors)


def ended(command: list[str], words: list[str]) -> tuple[str, int]:
    """What a program prints for these arguments, and its status."""
    done = subprocess.run([*command, *words], stdin=subprocess.DEVNULL, capture_output=True, text=True, check=False)
    return done.stdout, done.returncode


class Limits(unittest.TestCase):
    def test_each_constant_has_a_row(self) -> None:
        self.assertEqual(sorted(CONSTANTS), sorted([*SCENES, *BOUNDS]))
        self.assertEqual(len(re.findall(r"^pub const ", SOURCE, re.M)), len(CONSTANTS))
        self.assertEqual([name for name, (_, scenes) in SCENES.items() if not scenes], [])

    def test_each_constant_is_the_number_of_the_pages(self) -> None:
        limits = {name: MOST[limit] for name, (limit, _) in SCENES.items()}
        said = {**limits, **{name: most for name, (most, _) in BOUNDS.items()}}
        self.assertEqual({name: value_of(name) for name in CONSTANTS}, said)

    def test_each_word_of_a_limit_has_a_run(self) -> None:
        (kinds,) = re.findall(r"^pub enum LimitKind \{(.*?)^\}", SOURCE, re.M | re.S)
        words = {it.printed.split()[2] for _, it in runs() if it.printed.startswith("cca: limit ")}
        self.assertEqual(words, {it.lower() for it in re.findall(r"^    (\w+),$", kinds, re.M)})

    @with_program
    def test_the_program(self) -> None:
        for name, it in runs():
            with self.subTest(name):
                made = run(*it.words.split(" "), **it.files)
                self.assertEqual((made.printed, made.status), (it.printed + "\n", it.status))
                left = {file: made.files[file] for file in it.files}
                self.assertEqual((left, it.status and made.files), (it.files, it.status and it.files))

    def with_files(self, it: Run) -> list[str]:
        """The arguments of a run whose files are in a folder of this test."""
        folder = tempfile.TemporaryDirectory()
        self.addCleanup(folder.cleanup)
        command, *names = it.words.split(" ")
        for file, text in it.files.items():
            pathlib.Path(folder.name, file).write_bytes(text)
        return [command, *(os.path.join(folder.name, file) for file in names)]

    def test_the_tools_of_the_court(self) -> None:
        for name, it in runs():
            if it.words.split(" ")[0] in COURT:
                with self.subTest(name):
                    command, *files = self.with_files(it)
                    tool, order = COURT[command]
                    made = ended([sys.executable, str(ROOT / "tools" / tool)], [files[at] for at in order])
                    self.assertEqual(made, (it.printed + "\n", it.status))

    def test_the_rules(self) -> None:
        """tools/explain takes the steps of each command by the rules; it prints the line of a fault, and why."""
        for name, it in runs():
            with self.subTest(name):
                said, status = answer("explain", self.with_files(it))
                self.assertEqual(status, it.status)
                if status:
                    self.assertIn(it.printed.rpartition("\n")[2], said.splitlines())

    @unittest.skipUnless(CHECKER.exists(), "second_proof/build has built no checker")
    def test_the_second_proof(self) -> None:
        """For an award or a log that isn't of its form, the extracted checker reports no field and no record."""
        for name, it in runs():
            if it.words.split(" ")[0] in COURT:
                with self.subTest(name):
                    made, status = ended([str(CHECKER)], self.with_files(it))
                    self.assertEqual(status, it.status)
                    self.assertIn(
                        made, [f"{it.printed}\n", re.sub(r"(refused (award|log)) .*", r"\1", it.printed) + "\n"]
                    )


if __name__ == "__main__":
    unittest.main()
