"""Auctions through the pages of the desk in a browser, with mistakes of its users."""

from __future__ import annotations

import importlib.util
import os
import pathlib
import subprocess
import sys
import unittest

from checks.cases.program import PROGRAM, with_program
from checks.desk_browser import can_hold

SCRIPT = pathlib.Path(__file__).resolve().parents[1] / "desk_auctions"
HAS_ALL = can_hold() and all(map(importlib.util.find_spec, ("flask", "waitress")))


class InABrowser(unittest.TestCase):
    @with_program
    @unittest.skipUnless(
        HAS_ALL,
        "the packages chromium, python3-flask and python3-waitress aren't all installed",
    )
    def test_an_auction(self) -> None:
        self.need_held(r"\Ashort: 17 lines, 1 cut; \d+ s\n1 auctions, 0 differ; ", "short")

    @with_program
    @unittest.skipUnless(
        HAS_ALL,
        "the packages chromium, python3-flask and python3-waitress aren't all installed",
    )
    def test_people(self) -> None:
        """Faults in view at 400 wide, the room's screen, two people, lists that are closed too early or come as
        files."""
        self.need_held(r"\n5 auctions, 0 differ; ", "narrow", "room", "two", "entered_again", "csv_file")

    def need_held(self, said: str, *names: str) -> None:
        """Holds auctions; each has to print what it should."""
        variables = {**os.environ, "CCA_PROGRAM": os.path.abspath(PROGRAM or "")}
        words = [sys.executable, str(SCRIPT), *names, "--plain"]
        done = subprocess.run(words, env=variables, capture_output=True, text=True)
        self.assertEqual((done.returncode, done.stderr), (0, ""), done.stdout)
        self.assertRegex(done.stdout, said)


if __name__ == "__main__":
    unittest.main()
