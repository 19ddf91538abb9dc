"""Texts on a terminal: how wide letters are, lines that are filled, and a report whose names have wide letters."""

import os
import re
import tempfile
import unicodedata
import unittest

from checks.cases.samples import EXAMPLES, called, spectrum
from cca_tools.terminal import columns_of, filled, padded

NAMES = """currency = "EUR"
[category]
a800 = { name = "八百兆赫" }
b800 = { name = "800 MHz कवरेज" }
c2600 = { name = "二点六吉赫兹成对频段" }
[bidder]
everest = { name = "珠穆朗玛移动通信股份有限公司" }
harbour = { name = "港湾ネットワークス株式会社" }
meridian = { name = "자오선통신" }
niche = { name = "Niche 📱" }
"""
# Letters of two columns: East Asian ideographs, kana, Hangul syllables, and emoji.
WIDE = range(0x4E00, 0xA000), range(0x3040, 0x3100), range(0xAC00, 0xD7A4), range(0x1F300, 0x1FB00)
VOWEL = "\u0947"  # it is written over the letter before it


def seen(text: str) -> int:
    """The columns of a text that has no other wide letters and no other marks than the names above."""
    return sum(0 if it == VOWEL else 2 if any(ord(it) in part for part in WIDE) else 1 for it in text)


class Widths(unittest.TestCase):
    def test_letters(self) -> None:
        for text, columns in (
            ("abc", 3),
            ("東京", 4),
            ("한글", 4),
            (unicodedata.normalize("NFD", "한글é"), 5),
            ("\N{FULLWIDTH LATIN CAPITAL LETTER A}", 2),
            ("\N{HALFWIDTH KATAKANA LETTER A}", 1),
            ("कवरेज", 4),
            ("📱", 2),
            ("x\N{COMBINING ENCLOSING CIRCLE}", 1),
        ):
            with self.subTest(text=text):
                self.assertEqual(columns_of(text), columns)

    def test_padded(self) -> None:
        self.assertEqual(padded("東京", 6), "東京  ")
        self.assertEqual(padded("東京", 6, to_right=True), "  東京")

    def test_filled(self) -> None:
        self.assertEqual(filled("aaa bbb ccc", 7), ["aaa bbb", "ccc"])
        self.assertEqual(filled("aaa bbb", 6, "- ", "  "), ["- aaa", "  bbb"])
        self.assertEqual(filled("東京東京東京 a", 5), ["東京", "東京", "東京", "a"])
        self.assertEqual(filled("a\N{NO-BREAK SPACE}b c", 4), ["a\N{NO-BREAK SPACE}b", "c"])
        self.assertEqual(filled("", 7), [])


class WideNames(unittest.TestCase):
    def test_columns_of_a_report_stand_below_their_heads(self) -> None:
        _, cert = spectrum()
        with tempfile.TemporaryDirectory() as folder:
            names, certificate = os.path.join(folder, "names.toml"), os.path.join(folder, "cert")
            with open(names, "w", encoding="utf-8") as file:
                file.write(NAMES)
            with open(certificate, "wb") as file:
                file.write(cert)
            files = [os.path.join(EXAMPLES, f"spectrum.{kind}") for kind in ("award", "log")]
            text, status, _ = called("report", "--text", "--names", names, *files, certificate, CCA_PROGRAM="/nowhere")
        self.assertEqual(status, 0)
        lines = text.splitlines()
        self.assertEqual([line for line in lines if seen(line) > 100], [])
        start = lines.index(next(line for line in lines if line.startswith("Winner  ")))
        found = [line for line in lines[start + 2 : lines.index("", start)] if re.search(r"\d,\d{3}$", line)]
        self.assertEqual([seen(line) for line in found], [seen(lines[start])] * 5)
        self.assertTrue(found[0].startswith("珠穆朗玛移动通信股份有限公司  "))


if __name__ == "__main__":
    unittest.main()
