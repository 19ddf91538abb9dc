"""What tools/book says about a table that is beyond a limit in one dimension."""

from __future__ import annotations

import os
import pathlib
import tempfile
import unittest

from checks.cases.samples import called


class Limits(unittest.TestCase):
    def said(self, text: str, *words: str) -> tuple[int, str]:
        """The status and the first line for a table of this text."""
        with tempfile.TemporaryDirectory() as folder:
            path = pathlib.Path(folder, "bids")
            path.write_text(text)
            _, status, told = called("book", os.fspath(path), *words)
        return status, "\n".join(told.splitlines()[:2])

    def test_counts_of_many_digits(self) -> None:
        """A count of 5,000 digits, in a cell, in JSON and as an option, is refused by its place."""
        many = "9" * 5000
        status, line = self.said(f"a,{many},5\n", "--supply", "1")
        self.assertEqual(status, 3)
        self.assertRegex(line, r"Row 1 has `9+\.\.` as a count, and a count has at most 30 digits")
        for count in ("1e5000", "1" + "0" * 4000):
            status, line = self.said(f'{{"supply": [{count}], "bids": []}}')
            self.assertEqual(status, 3)
            self.assertIn("`supply` has a number of more than 30 digits", line)
        status, line = self.said("a,1,5\n", "--supply", many)
        self.assertEqual(status, 2)

    def test_many_names(self) -> None:
        """The seventeenth name is one too many, however many come after it and however alike they are."""
        for name in ("b{}", "B {}!", "same  {}"):
            rows = "".join(f"{name.format(number)},1,5\n" for number in range(5000))
            status, line = self.said(rows, "--supply", "1")
            self.assertEqual(status, 7)
            self.assertIn("cca: limit bidders 17", line)


if __name__ == "__main__":
    unittest.main()
