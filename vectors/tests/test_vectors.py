"""The vectors for other people's checkers: the court's files and the rules pass them, and so does the program."""

import collections
import importlib.machinery
import importlib.util
import os
import pathlib
import shutil
import subprocess
import sys
import tempfile
import types
import unittest
from checks.cases.program import PROGRAM, with_program
from checks.cases.samples import TOOLS
from checks.cases.second_auctions import second_auction
from checks.cases.voices import FILES, books, court_answer, is_alike, rules_answer

VECTORS = pathlib.Path(TOOLS).resolve().parent / "vectors"


def runner() -> types.ModuleType:
    """The runner of the folder as a module."""
    sys.dont_write_bytecode = True
    loader = importlib.machinery.SourceFileLoader("run", str(VECTORS / "run"))
    spec = importlib.util.spec_from_loader(loader.name, loader)
    assert spec, "the runner has no spec"
    module = importlib.util.module_from_spec(spec)
    loader.exec_module(module)
    return module


def said(command: str, words: list[str]) -> set[object]:
    """What the voices of the tools print of a case, and the status."""
    if command not in FILES:
        printed, _, status = second_auction(*words[:2])
        court, rules = books(*words[:2])
        return {(printed, status) if is_alike(court, rules) else ("the books differ", court, rules)}
    court = court_answer(command, words)
    others = [] if court == ("cca: words", 2) else [rules_answer(command, words)]
    return {(text + "\n", status) for text, status in [court, *others]}


class Vectors(unittest.TestCase):
    def setUp(self) -> None:
        self.folder, self.before = tempfile.TemporaryDirectory(), os.getcwd()
        shutil.copytree(VECTORS / "files", self.folder.name, dirs_exist_ok=True)
        os.chdir(self.folder.name)

    def tearDown(self) -> None:
        os.chdir(self.before)
        self.folder.cleanup()

    def test_tools(self) -> None:
        for case in runner().cases():
            for name, count, text in case["made"]:
                pathlib.Path(name).write_text(text.replace("\\n", "\n") * count)
            command, *words = case["words"]
            with self.subTest(case=case["case"]):
                self.assertEqual(said(command, words), {(case["printed"], case["status"])})

    def test_what_there_is(self) -> None:
        """Each test of a certificate and each reply is the answer of some case, and each file is needed."""
        cases = list(runner().cases())
        self.assertGreaterEqual(len(cases), 300)
        self.assertEqual(len({case["case"] for case in cases}), len(cases))
        printed = "".join(case["printed"] for case in cases)
        for letter in "CP":
            for number in range(1, 10):
                self.assertIn(f"no {letter}{number} ", printed)
        for reply in (
            "ok,round,sealed,closed,stage,unknown,supply,spectrum-cap,points,empty,below-reserve,below-clock,full,"
            "amount-top,no-draft,relative-cap"
        ).split(","):
            self.assertRegex(printed, rf"(?m)^\d+ {reply}\b")
        self.assertRegex(printed, r"(?m)^\d+ price-top")
        alone = collections.Counter(case["printed"][:5] for case in cases if case["case"].startswith("alone-"))
        self.assertEqual(len(alone), 9)
        named = {word for case in cases for word in case["words"]}
        self.assertEqual(set(os.listdir(VECTORS / "files")) - named, set())

    @with_program
    def test_program(self) -> None:
        words = [str(VECTORS / "run"), "--seconds", "600", os.path.abspath(PROGRAM or "")]
        ended = subprocess.run(words, capture_output=True, cwd=self.before)
        self.assertEqual((ended.stdout.decode().split(", ")[-1], ended.returncode), ("0 differ\n", 0), ended.stdout)

    @unittest.skipUnless(shutil.which("cc"), "there is no C compiler: apt-get install gcc")
    def test_a_checker_in_c(self) -> None:
        program = os.path.abspath("checker")
        subprocess.run(
            ["cc", "-O2", "-Wall", "-Wextra", "-Werror", "-o", program, str(VECTORS / "checker.c")], check=True
        )
        words = [str(VECTORS / "run"), "--only", "check,weigh-check,place-check", program]
        ended = subprocess.run(words, capture_output=True, text=True)
        self.assertEqual((ended.stdout.split(", ")[-1], ended.returncode), ("0 differ\n", 0), ended.stdout)

    def test_a_program_that_says_yes(self) -> None:
        program = pathlib.Path("says-yes")
        program.write_text("#!/bin/sh\necho yes\n")
        program.chmod(0o755)
        ended = subprocess.run([VECTORS / "run", "--only", "place-check", "./says-yes"], capture_output=True)
        self.assertEqual(ended.returncode, 1)
        self.assertIn(
            b"place-test-1: the denominator is 0\n  answered (0, 'yes\\n')\n  has to be (1, 'no P1 1\\n')", ended.stdout
        )

    def test_a_program_that_hangs(self) -> None:
        """It is stopped, and each of its cases differs."""
        program = pathlib.Path("hangs")
        program.write_text("#!/bin/sh\nexec sleep 100\n")
        program.chmod(0o755)
        words = [str(VECTORS / "run"), "--only", "weigh-check", "--seconds", "0.2", "./hangs"]
        ended = subprocess.run(words, capture_output=True, text=True)
        count = sum(case["words"][0] == "weigh-check" for case in runner().cases())
        self.assertEqual(ended.returncode, 1)
        self.assertEqual(ended.stdout.count("  answered not at all within 0.2 seconds\n"), count)
        self.assertEqual(ended.stdout.splitlines()[-1], f"{count} cases, {count} differ")

    def test_words_of_the_runner(self) -> None:
        for words, why in (
            ((), "which program?"),
            (("nothing-of-this-name",), "there is no program 'nothing-of-this-name' to run"),
            (("--only", "check"), "which program?"),
            (("--only", "chek", "true"), "no case has a command of chek"),
        ):
            ended = subprocess.run([VECTORS / "run", *words], capture_output=True, text=True)
            self.assertEqual((ended.returncode, ended.stderr[:18]), (2, "usage: vectors/run"))
            self.assertIn(why, ended.stderr)


if __name__ == "__main__":
    unittest.main()
