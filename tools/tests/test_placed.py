"""The places of a category's lots in its band: what reports and published sets show of a placement, and what they
refuse."""

from __future__ import annotations

import os
import pathlib
import re
import subprocess
import tempfile
import unittest

from checks.cases.samples import EXAMPLES, TOOLS

# The example of docs/PLACEMENTS.md with the winners of a800 in the sample, and its certificate as cca wrote it.
SLOTS = """slots 1
band 4
bidder tarn 2
place 1 10
bidder meridian 1
place 4 8
bidder everest 1
place 2 12
end
"""
CERT = """pcert 1
den 1
value 18
order 1 3 2
choice 1 1 0
table
t 18 8 12 0 8 8 0 0
without 1
order 2 3 1
choice 0 0 1
table
t 12 8 12 0 8 8 0 0
without 2
order 2 3 1
choice 0 0 1
table
t 12 0 12 0 0 0 0 0
pay 7 5 0
rows 1
row 1 2
mult 1 3
order 2 3 1
choice 0 0 1
lowered
t 12 5 12 0 5 5 0 0
end
"""
NAMES = 'currency = "EUR"\n[category.a800]\nmhz = 10\nstart = 791\nstep = 5\n'
AUCTION = [os.path.join(EXAMPLES, f"spectrum.{kind}") for kind in ("award", "log", "cert")]


class Placed(unittest.TestCase):
    def setUp(self) -> None:
        found = tempfile.TemporaryDirectory()
        self.addCleanup(found.cleanup)
        self.folder = pathlib.Path(found.name)
        for name, text in (("slots", SLOTS), ("cert", CERT), ("names.toml", NAMES)):
            (self.folder / name).write_text(text)

    def run_tool(self, tool: str, *words: str, category: str = "a800", status: int = 0) -> str:
        """What a tool prints of the sample with this placement, without the program."""
        placed = ["--placed", category, str(self.folder / "slots"), str(self.folder / "cert")]
        how = {**os.environ, "CCA_PROGRAM": "/nowhere"}
        done = subprocess.run([os.path.join(TOOLS, tool), *placed, *words], capture_output=True, text=True, env=how)
        self.assertEqual(done.returncode, status, done.stderr)
        return done.stdout + done.stderr

    def test_lots_and_prices(self) -> None:
        """tarn has lots 1 and 2, then come everest and meridian; 7 and 5 are paid, as the page of placements says."""
        text = self.run_tool("report", "--text", *AUCTION)
        rows = re.findall(r"^(tarn|everest|meridian) +(\d to \d|\d) +(\d)$", text, re.M)
        self.assertEqual(rows, [("tarn", "1 to 2", "7"), ("everest", "3", "0"), ("meridian", "4", "5")])
        self.assertIn("What winners pay for their places in the band, 12 in all, comes on top.", " ".join(text.split()))

    def test_frequencies(self) -> None:
        """Lots of 5 MHz from one to the next, from 791 MHz on."""
        text = self.run_tool("report", "--text", "--names", str(self.folder / "names.toml"), *AUCTION)
        for winner, span in (("tarn", "791 to 801"), ("everest", "801 to 806"), ("meridian", "806 to 811")):
            self.assertRegex(text, rf"(?m)^{winner} .* a800: {span} MHz ")
            self.assertRegex(text, rf"(?m)^{winner} +\S.* {span} +\d$")

    def test_cells_are_in_the_order_of_the_band(self) -> None:
        page = self.run_tool("report", *AUCTION)
        says = re.findall(r"<title>(\w+) wins \d \((lots? [\d to]+)\) of 4 lots of a800</title>", page)
        shown = [pair for at, pair in enumerate(says) if pair not in says[:at]]
        self.assertEqual(shown, [("tarn", "lots 1 to 2"), ("everest", "lot 3"), ("meridian", "lot 4")])
        self.assertIn("The lots of a800 are in the order of the band.", page)

    def test_refusals(self) -> None:
        """Slots that aren't the lots of the category, and a certificate that fails a test."""
        cases = (
            ("b800", SLOTS, CERT, 3, "The band has 4 slots, and b800 has 1 lot."),
            ("x", SLOTS, CERT, 3, "The award has no category `x`; it has a800, b800, c2600, e2600."),
            ("a800", SLOTS.replace("tarn 2", "tarn 1"), CERT, 3, "Bidder tarn has 1 slot, and wins 2 of a800."),
            ("a800", SLOTS.replace("tarn 2", "niche 2"), CERT, 3, "Bidder niche has 2 slots, and wins none of a800."),
            ("a800", SLOTS.replace("bidder everest 1\nplace 2 12\n", ""), CERT, 3, "everest won lots of a800"),
            ("a800", SLOTS, CERT.replace("pay 7 5 0", "pay 8 4 0"), 1, "no P8"),
        )
        for category, slots, cert, status, why in cases:
            with self.subTest(why=why):
                (self.folder / "slots").write_text(slots)
                (self.folder / "cert").write_text(cert)
                printed = self.run_tool("report", *AUCTION, category=category, status=status)
                self.assertIn(why.lower(), " ".join(printed.split()).lower())

    def test_only_for_everybody(self) -> None:
        self.assertIn("--placed is for", self.run_tool("report", "--bidder", "tarn", *AUCTION, status=2))
        book = os.path.join(EXAMPLES, "day-cramton.book")
        self.assertIn("--placed is for", self.run_tool("report", book, status=2))

    def test_a_published_set(self) -> None:
        """The set has the files, the places in its result, and a test of them that works in its folder."""
        made = self.folder / "set"
        self.run_tool("publish", *AUCTION, str(made))
        index = (made / "index.html").read_text()
        self.assertRegex(index, r"<td>a800: lots 1 to 2\b")
        self.assertIn("What winners pay for their places in the band, 12 in all, comes on top.</small>", index)
        (command,) = re.findall(r"<code>tools/(check-places [^<]+)</code>", index)
        tool, *files = command.split()
        done = subprocess.run([os.path.join(TOOLS, tool), *files], cwd=made, capture_output=True, text=True)
        self.assertEqual((done.returncode, done.stdout[:4]), (0, "yes\n"))
        self.assertIn("placed/a800.cert", (made / "SHA256SUMS").read_text())


if __name__ == "__main__":
    unittest.main()
