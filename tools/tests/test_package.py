"""The package cca_tools as others install it: its version, its command, its types, and what an install leaves."""

from __future__ import annotations

import importlib.util
import os
import pathlib
import re
import shutil
import subprocess
import sys
import tempfile
import tomllib
import unittest

from cca_tools.__main__ import COMMANDS

ROOT = pathlib.Path(__file__).resolve().parents[2]
VERSION = (ROOT / "VERSION").read_text().strip()
CAN_BUILD = all(map(importlib.util.find_spec, ("pip", "setuptools", "wheel")))
# A program of somebody else, which mixes up two kinds of amounts in its last line.
CALLER = """import cca_tools
from cca_tools import Book, Gross, read_book

book: Book = read_book(open("{book}", "rb").read())
reveal_type(book)
reveal_type(cca_tools.__version__)
bid: Gross = book.bids[0][0][1]
bid = book.net[0][0]
"""
MIXED = 'caller.py:8: error: Incompatible types in assignment (expression has type "Net", variable has type "Gross")'


class OneVersion(unittest.TestCase):
    def test_each_file_has_it(self) -> None:
        with open(ROOT / "tools" / "pyproject.toml", "rb") as file:
            self.assertEqual(tomllib.load(file)["project"]["version"], VERSION)
        self.assertIn(f"\nversion: {VERSION}\n", (ROOT / "CITATION.cff").read_text())
        self.assertRegex((ROOT / "CHANGELOG.md").read_text(), rf"(?m)^## {re.escape(VERSION)}\b")

    def test_each_package_is_named(self) -> None:
        """What is installed is what is here."""
        with open(ROOT / "tools" / "pyproject.toml", "rb") as file:
            named = tomllib.load(file)["tool"]["setuptools"]["packages"]
        there = {
            ".".join(path.parent.relative_to(ROOT / "tools").parts)
            for path in (ROOT / "tools").rglob("cca_tools/**/*.py")
        }
        self.assertEqual(set(named), there)


@unittest.skipUnless(CAN_BUILD, "the packages python3-pip and python3-wheel aren't installed")
class Installed(unittest.TestCase):
    """`pip install ./tools` in an environment of its own, from a copy that is then removed."""

    folder: pathlib.Path
    left: set[str]

    @classmethod
    def setUpClass(cls) -> None:
        room = tempfile.TemporaryDirectory()
        cls.addClassCleanup(room.cleanup)
        cls.folder = pathlib.Path(room.name)
        copy, home = cls.folder / "copy", cls.folder / "home"
        left_out = shutil.ignore_patterns("__pycache__", ".mypy_cache", "build", "*.egg-info")
        shutil.copytree(ROOT / "tools", copy / "tools", ignore=left_out)
        for name in ("VERSION", ".gitignore"):
            shutil.copy2(ROOT / name, copy)
        subprocess.run(["git", "init", "-q", str(copy)], check=True)
        subprocess.run(["git", "-C", str(copy), "add", "-A"], check=True)
        subprocess.run(
            [
                sys.executable,
                "-m",
                "venv",
                "--without-pip",
                "--system-site-packages",
                str(home),
            ],
            check=True,
        )
        words = [
            "pip",
            "--python",
            str(home / "bin" / "python"),
            "install",
            "-q",
            "--no-build-isolation",
            "--no-deps",
        ]
        done = subprocess.run(
            [sys.executable, "-m", *words, "--no-index", "./tools"],
            cwd=copy,
            capture_output=True,
            text=True,
        )
        assert not done.returncode, done
        said = subprocess.run(
            ["git", "-C", str(copy), "status", "--porcelain"],
            capture_output=True,
            text=True,
        ).stdout
        cls.left = {line for line in said.splitlines() if line.startswith("??")}
        shutil.rmtree(copy)

    def run_there(self, *words: str) -> subprocess.CompletedProcess[str]:
        """What a command of the environment does, in a folder without the repository."""
        path = f"{self.folder / 'home' / 'bin'}:/usr/bin:/bin"
        return subprocess.run(words, cwd=self.folder, env={"PATH": path}, capture_output=True, text=True)

    def test_nothing_is_left_that_git_sees(self) -> None:
        self.assertEqual(self.left, set())

    def test_the_version(self) -> None:
        for words in (
            ["cca-tools", "--version"],
            ["python", "-m", "cca_tools", "--version"],
        ):
            self.assertEqual(self.run_there(*words).stdout, f"cca_tools {VERSION}\n")
        asked = "import cca_tools; print(cca_tools.__version__)"
        self.assertEqual(self.run_there("python", "-c", asked).stdout, f"{VERSION}\n")

    def test_each_command(self) -> None:
        for name in COMMANDS:
            with self.subTest(name=name):
                done = self.run_there("cca-tools", name, "--help")
                self.assertEqual((done.returncode, done.stderr), (0, ""))
        book, cert = (str(ROOT / "examples" / f"day-cramton.{kind}") for kind in ("book", "cert"))
        there = subprocess.run([ROOT / "tools" / "why", book, cert], capture_output=True, text=True).stdout
        self.assertEqual(self.run_there("cca-tools", "why", book, cert).stdout, there)
        page = self.run_there("cca-tools", "report", book, cert).stdout
        self.assertIn("</html>", page)

    def test_usage_names_the_command_as_it_was_called(self) -> None:
        """In its help, and in the advice after wrong arguments, which is followed here."""
        for called in (["cca-tools"], ["python3", "-m", "cca_tools"], [str(ROOT / "tools" / "what-if")]):
            is_script = len(called) == 1 and called != ["cca-tools"]
            words, name = (
                (called, "tools/what-if") if is_script else ([*called, "what-if"], " ".join(called) + " what-if")
            )
            with self.subTest(name=name):
                self.assertRegex(self.run_there(*words, "--help").stdout, rf"\Ausage: {re.escape(name)} ")
                wrong = self.run_there(*words, "--no-such-option")
                self.assertIn(f"\n`{name} --help` says what it takes.\n", wrong.stderr)
                self.assertEqual(wrong.returncode, 2)
        for called in (["cca-tools"], ["python3", "-m", "cca_tools"]):
            self.assertRegex(
                self.run_there(*called, "--help").stdout, rf"\Ausage: {re.escape(' '.join(called))} COMMAND "
            )

    def test_types(self) -> None:
        """A caller's program is checked against the types of the package."""
        if not shutil.which("mypy"):
            self.skipTest("the package mypy isn't installed")
        program = self.folder / "caller.py"
        program.write_text(CALLER.format(book=ROOT / "examples" / "tie.book"))
        python = str(self.folder / "home" / "bin" / "python")
        words = [
            "mypy",
            "--strict",
            "--python-executable",
            python,
            "--cache-dir",
            os.devnull,
            str(program),
        ]
        said = self.run_there(*words).stdout
        self.assertIn('note: Revealed type is "cca_tools.rules.book.Book"', said)
        self.assertIn('note: Revealed type is "builtins.str"', said)
        self.assertEqual([line for line in said.splitlines() if "error:" in line], [f"{MIXED}  [assignment]"])


if __name__ == "__main__":
    unittest.main()
