"""The programs of build/, checks/ and bench/ on small numbers, so that none rots: what compares, what draws, and the
site of the documents.

Times aren't tested. Each comparison ends with 0 only if nothing differs.
"""
import ast
import collections
import os
import pathlib
import re
import shutil
import subprocess
import sys
import tempfile
import unittest

from checks.cases.program import PROGRAM, with_program

ROOT = pathlib.Path(__file__).resolve().parents[2]
FOLDERS = ("build", "checks", "bench")
# The numbers of a comparison's run here, and the line that shows that it compared something.
SMALL = {
    "books": (["2"], r"^\d{2,} compared, 0 differ$"),
    "explain": (["30"], r"^30 runs, 0 differ$"),
    "reports": (["3"], r"^3 auctions and books, 0 differ"),
    "court": (["60", "7"], r"^60 cases, [34] voices, 0 differ$"),
    "made": (["0"], r"^3 made auctions, 0 differ$"),
    "theory": (["2"], r"with a fault 0$"),
    "economists": (["3", "3", "0"], r"^6 compared, 0 differ$"),
    "files": (["30"], r"^30 runs, seed 1: all ended as they have to$"),
    "earlier": (["20"], r"^335 runs, 0 differ$"),
}
# Comparisons that run long even on small numbers, and what they need.
NOT_RUN = {
    "auctions": "logs of 100,000 records",
    "second-proof": "coq",
    "page": "chromium, and the page of the second proof",
    "memory": "a C compiler, and minutes",
}


def ran(*words: str, earlier: str = PROGRAM or "") -> subprocess.CompletedProcess[str]:
    """Runs a program with these arguments."""
    how = {**os.environ, "CCA_PROGRAM": PROGRAM or "", "CCA_EARLIER": earlier, "PYTHONDONTWRITEBYTECODE": "1"}
    argv = [sys.executable, str(ROOT / words[0]), *words[1:]]
    return subprocess.run(argv, capture_output=True, text=True, env=how, stdin=subprocess.DEVNULL)


def words_of(name: str) -> list[str]:
    """What a program can be asked for, by its help."""
    said = ran(name, "--help")
    return re.findall(r"^ {2,4}([a-z][a-z-]+) ", said.stdout, re.MULTILINE) + re.findall(
        r"^    ([a-z-]+)$", said.stdout, re.MULTILINE
    )


def programs() -> list[str]:
    """The programs of the folders."""
    files = [path for folder in FOLDERS for path in sorted((ROOT / folder).iterdir()) if path.is_file()]
    return [f"{path.parent.name}/{path.name}" for path in files if path.read_bytes()[:2] == b"#!"]


class Bench(unittest.TestCase):
    def test_each_program_has_help(self) -> None:
        """It names its arguments, shows its docstring, and runs nothing."""
        for name in programs():
            with self.subTest(name=name):
                done = ran(name, "--help")
                self.assertEqual((done.returncode, done.stderr), (0, ""))
                self.assertTrue(done.stdout.startswith(f"usage: {name} [-h]"), done.stdout)
                self.assertIn(ast.get_docstring(ast.parse((ROOT / name).read_text())), done.stdout)

    def test_each_comparison_is_run_or_named(self) -> None:
        self.assertEqual(set(words_of("checks/compare")), {*SMALL, *NOT_RUN})

    @with_program
    def test_comparisons(self) -> None:
        for what, (words, line) in SMALL.items():
            with self.subTest(what=what):
                done = ran("checks/compare", what, *words)
                self.assertEqual((done.returncode, done.stderr), (0, ""), done.stdout)
                self.assertRegex(done.stdout, re.compile(line, re.MULTILINE))

    @with_program
    def test_growth_of_each_input(self) -> None:
        """Small sizes, which take no time."""
        done = ran("bench/inputs", "--one", "--largest", "2", "--doublings", "0")
        rows = [line.split(" | ") for line in done.stdout.splitlines() if line.endswith("|")][2:]
        inputs = "award log view book weights slots edits cert placed names values plan list pasted noted posted"
        inputs += " journal bids arguments"
        self.assertEqual((done.returncode, done.stderr), (0, ""))
        self.assertEqual(sorted(row[1] for row in rows), sorted(inputs.split()))
        self.assertEqual({len(row) for row in rows}, {6})
        self.assertEqual(done.stdout.splitlines()[-1], "rows whose time grows faster than 3 times as a size doubles: 0")

    @with_program
    def test_another_program_is_seen(self) -> None:
        """Each run of `win` differs if the earlier program gives another answer: 7 on each of 3 samples."""
        with tempfile.TemporaryDirectory() as folder:
            path = pathlib.Path(folder, "other")
            path.write_text(
                f'#!/bin/sh\n[ "$1" = win ] && echo other || exec "{os.path.abspath(PROGRAM or "")}" "$@"\n'
            )
            path.chmod(0o700)
            done = ran("checks/compare", "earlier", "0", earlier=str(path))
        self.assertEqual((done.returncode, done.stderr), (1, ""))
        self.assertTrue(done.stdout.endswith("\n315 runs, 21 differ\n"), done.stdout)

    @with_program
    def test_times_of_the_court_s_files(self) -> None:
        """On files of a hundredth of the limits `cca` and tools/audit give the same answers, and the written
        certificate gets yes."""
        done = ran("bench/times", "court", "1", "100")
        self.assertEqual((done.returncode, done.stderr), (0, ""), done.stdout)
        rows = re.findall(r"^(award|log|certificate) .*  (yes|no|cca: \w+)", done.stdout, re.MULTILINE)
        self.assertEqual(collections.Counter(kind for kind, _ in rows), {"award": 13, "log": 12, "certificate": 5})
        self.assertEqual([row for row in rows if row[1] == "yes"], [("certificate", "yes")])

    @with_program
    def test_what_is_drawn_is_kept(self) -> None:
        done = ran("build/draw", "pictures", "reports", "manual", "--compare")
        self.assertEqual((done.returncode, done.stdout, done.stderr), (0, "nothing differs\n", ""))

    def test_a_difference_is_seen(self) -> None:
        """A copy with a page that isn't what is drawn."""
        with tempfile.TemporaryDirectory() as folder:
            for part in ("build", "checks", "docs"):
                shutil.copytree(
                    ROOT / part, os.path.join(folder, part), ignore=shutil.ignore_patterns("out", "__pycache__")
                )
            pathlib.Path(folder, "docs", "cca.1").write_text("other\n")
            words = [sys.executable, os.path.join(folder, "build", "draw"), "manual", "--compare"]
            done = subprocess.run(words, capture_output=True, text=True)
            self.assertEqual((done.returncode, done.stderr), (1, ""))
            self.assertTrue(done.stdout.startswith("docs/cca.1 isn't as it is made now"))

    def test_each_task_has_help(self) -> None:
        for name in ("checks/compare", "bench/times"):
            for what in words_of(name):
                with self.subTest(name=name, what=what):
                    done = ran(name, what, "--help")
                    self.assertEqual((done.returncode, done.stderr), (0, ""))
                    self.assertTrue(done.stdout.startswith(f"usage: {name} {what} "))

    def test_wrong_words(self) -> None:
        for words in (
            ["checks/compare"],
            ["checks/compare", "nothing"],
            ["checks/compare", "made", "x"],
            ["bench/times", "win", "1", "2", "3"],
            ["build/draw", "nothing"],
            ["checks/believed", "limits::nothing"],
            ["checks/believed", "nothing"],
            ["checks/desk_kills", "x"],
            ["checks/record_kills", "x"],
            ["checks/documents", "nothing"],
            ["checks/edge_runs", "-1"],
            ["checks/edge_runs", "1", "2", "3", "4"],
            ["bench/inputs", "x"],
            ["bench/late"],
            ["bench/late", "nothing"],
            ["build/libraries", "nothing"],
            ["checks/looks", "nothing"],
            ["checks/mutate", "rules"],
            ["checks/mutate_court", "1", "2", "3", "4"],
            ["checks/mutate_checker", "1", "2", "3"],
            ["checks/wrong", "nothing"],
            *([name, "--nothing"] for name in programs()),
        ):
            with self.subTest(words=words):
                done = ran(*words)
                self.assertEqual((done.returncode, done.stdout), (2, ""))
                self.assertTrue(done.stderr.startswith(f"usage: {words[0]} "))

    def test_a_program_that_is_not_there(self) -> None:
        """CCA_PROGRAM names no file, a folder, or a file that can't be run."""
        for words in (
            ["checks/edge_runs", "1"],
            ["checks/edge_runs", "--tools", "1"],
            ["checks/compare", "books", "1"],
            ["checks/compare", "second-proof", "1"],
            ["checks/priced", "few"],
            ["checks/figures"],
            ["checks/attacks"],
            ["checks/mutate", "1"],
            ["checks/desk_auctions"],
            ["checks/run_tests", "test_program_edge"],
            ["bench/times", "log"],
            ["build/draw", "vectors"],
        ):
            for path in ("/nowhere/cca", str(ROOT), str(ROOT / "VERSION")):
                with self.subTest(words=words, path=path):
                    argv = [sys.executable, str(ROOT / words[0]), *words[1:]]
                    how = {**os.environ, "CCA_PROGRAM": path, "PYTHONDONTWRITEBYTECODE": "1"}
                    done = subprocess.run(argv, capture_output=True, text=True, env=how, stdin=subprocess.DEVNULL)
                    self.assertEqual((done.returncode, done.stdout), (2, ""))
                    name = f"{words[0]}: error: CCA_PROGRAM names {path}, which isn't a program that can be run"
                    self.assertEqual(done.stderr.splitlines()[-1], name)

    def test_each_exported_function_is_called(self) -> None:
        done = ran("checks/uncalled")
        self.assertEqual((done.returncode, done.stdout, done.stderr), (0, "", ""))

    def test_an_uncalled_function_is_seen(self) -> None:
        """A crate that exports a function that is called, and three that are not: one calls itself, one is named by a
        method, one by a text."""
        source = {
            "lib.rt": "mod a;\n\npub use a::{Kind, again, law, named, told, used};\n",
            "a.rt": "pub fn used(n: u8) -> u8\n    ensures { result ≡ used (told(n)) }\n{\n    n\n}\n\n"
            "pub fn again(n: u8) -> u8 {\n    again(used(n))\n}\n\npub fn named() -> u8 {\n    1.named()\n}\n\n"
            'pub fn told(n: u8) -> u8\n{\n    // told(n)\n    n\n}\n\nconst TEXT: &str = "told(1)";\n\npub fn law()\n'
            "{}\n",
        }
        with tempfile.TemporaryDirectory() as folder:
            (top := pathlib.Path(folder, "crates", "box", "src")).mkdir(parents=True)
            for name, text in source.items():
                (top / name).write_text(text)
            pathlib.Path(folder, "checks").mkdir()
            for name in ("__init__.py", "tasks.py", "uncalled"):
                shutil.copy(ROOT / "checks" / name, pathlib.Path(folder, "checks"))
            words = [sys.executable, str(pathlib.Path(folder, "checks", "uncalled"))]
            done = subprocess.run(words, capture_output=True, text=True)
        lines = [f"box::{name}: exported, and called by nothing" for name in ("again", "named", "told")]
        self.assertEqual((done.returncode, done.stdout.splitlines(), done.stderr), (1, lines, ""))

    def test_every_program_is_named(self) -> None:
        """A folder's README names each program of the folder, and no other."""
        for folder in FOLDERS:
            rows = re.findall(r"^\| (`.*?) \|", (ROOT / folder / "README.md").read_text(), re.MULTILINE)
            named = {name.split(" ")[0] for row in rows for name in re.findall(r"`([a-z_ A-Z]+)`", row)}
            self.assertEqual(
                {f"{folder}/{name}" for name in named}, {it for it in programs() if it.startswith(f"{folder}/")}
            )

    def test_site(self) -> None:
        if not shutil.which("mkdocs"):
            self.skipTest("the package mkdocs isn't installed")
        with tempfile.TemporaryDirectory() as folder:
            site = pathlib.Path(folder, "site")
            done = ran("build/site", str(site))
            self.assertEqual((done.returncode, done.stderr), (0, ""), done.stdout)
            self.assertIn(", 0 dead links\n", done.stdout)
            self.assertTrue((site / "docs" / "AUCTIONEER.html").is_file())
            self.assertIn('href="docs/AUCTIONEER.html"', (site / "index.html").read_text())
            guide = (site / "docs" / "AUCTIONEER.html").read_text()
            self.assertIn('<code><span class="whole">--copies</span> FOLDER</code>', guide)
            again = ran("build/site", str(site))
            self.assertEqual((again.returncode, again.stdout), (2, ""))
            self.assertIn("is there already", again.stderr)


if __name__ == "__main__":
    unittest.main()
