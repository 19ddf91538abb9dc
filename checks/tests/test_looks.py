"""What checks/looks finds: nothing in pictures and reports as they are made, each scale that lies, and each fault that
is planted in a report."""

from __future__ import annotations

import pathlib
import re
import tempfile
import unittest
from fractions import Fraction
from unittest import mock

from checks import browser
from checks.cases import samples  # noqa: F401, finds cca_tools

from cca_tools.page import charts, core
from cca_tools.page.charts import Band
from cca_tools.rules.types import Gross, GrossPrice

SCRIPT = (pathlib.Path(__file__).resolve().parents[1] / "looks.js").read_text()
PAGE = '<!DOCTYPE html><html lang="en"><meta charset="utf-8"><title>Pictures</title><div class="card">{}</div></html>'
EQUAL = "<p>A cell is a lot; all are equally wide.</p>"
BY_MHZ = "<p>A cell is a lot, as wide as its MHz. A lot of a800 is 10 MHz wide. A lot of c2600 is {} MHz wide.</p>"
EXAMPLES = pathlib.Path(__file__).resolve().parents[2] / "examples"
DARK = "@media (prefers-color-scheme: dark)"


def bands() -> str:
    """Two categories of four lots, of which one winner has three each."""
    every = [Band(name, [(1, 3), (2, 1)]) for name in ("a800", "c2600")]
    return charts.bands("lots", "Lots", "Who has them", every, ["north", "south"], ["N", "S"])


def gross(*amounts: int) -> list[Gross]:
    """Gross amounts."""
    return [Gross(amount) for amount in amounts]


def two() -> str:
    """The core of two winners with bids of 28 and 20, as Day and Cramton have it."""
    low, bid, pays = gross(14, 12), gross(28, 20), [GrossPrice(Fraction(17)), GrossPrice(Fraction(15))]
    return core.two("core", "The core", "Payments", ["b1", "b2"], low, bid, Gross(32), pays)


def three() -> str:
    """The core of three winners."""
    pays, names = [GrossPrice(Fraction(it)) for it in (14, 12, 10)], ["a", "b", "c"]
    return core.three("core", "The core", "P", names, gross(10, 8, 6), gross(30, 30, 30), gross(20, 18, 16), pays)


def report(name: str) -> str:
    """One of the reports in examples/."""
    return (EXAMPLES / f"{name}.html").read_text(encoding="utf-8")


def styled(page: str, rules: str) -> str:
    """A page with more rules of style."""
    return page.replace("</style>", f"{rules}</style>", 1)


def without_heads(page: str, caption: str) -> str:
    """A page in which the table with this caption has no heads."""
    before, found, after = page.partition(f"<caption>{caption}</caption>")
    return before + found + re.sub(r"<thead.*?</thead>", "", after, count=1, flags=re.DOTALL)


@unittest.skipUnless(browser.program(), "chromium isn't installed")
class Looked(unittest.TestCase):
    """Pages that are looked at in one browser."""

    seen: browser.Browser

    @classmethod
    def setUpClass(cls) -> None:
        cls.seen = browser.Browser()

    @classmethod
    def tearDownClass(cls) -> None:
        cls.seen.close()

    def looked_at(self, page: str, width: int = 800, scheme: str = "light") -> list[str]:
        """What is found of a page."""
        self.seen.size(width, is_phone=width < 500)
        self.seen.medium("screen", scheme)
        with tempfile.TemporaryDirectory() as folder:
            path = pathlib.Path(folder, "page.html")
            path.write_text(page, encoding="utf-8")
            self.seen.open(path)
            return list(self.seen.evaluate(SCRIPT))


class Scales(Looked):
    def found(self, inner: str) -> list[str]:
        """What is said of the scales of a page."""
        return sorted(text for text in self.looked_at(PAGE.format(inner)) if "differ" in text or "MHz" in text)

    def test_as_they_are_drawn(self) -> None:
        for picture in (bands() + EQUAL, two(), three()):
            self.assertEqual(self.found(picture), [])

    def test_one_lot_is_wider(self) -> None:
        """The first lot takes half as much again."""
        wide = re.sub(r'(<rect [^>]*width=")25(%")', r"\g<1>37.5\2", bands(), count=1)
        self.assertNotEqual(wide, bands())
        self.assertEqual(self.found(wide), ["lots of a800 differ in width"])

    def test_one_category_is_wider(self) -> None:
        """Each category has a scale of its own, though the page says that all lots are equally wide."""
        parts = bands().split(">c2600</text>")
        narrow = re.sub(r'width="25%"', 'width="20%"', parts[1])
        self.assertEqual(
            self.found(parts[0] + ">c2600</text>" + narrow + EQUAL), ["lots of two categories differ in width"]
        )

    def test_lots_by_mhz(self) -> None:
        """Two categories are drawn equally wide: right for lots of 10 MHz each."""
        self.assertEqual(self.found(bands() + BY_MHZ.format(10)), [])
        self.assertEqual(self.found(bands() + BY_MHZ.format(5)), ["lots aren't as wide as their MHz"])
        self.assertEqual(
            self.found(bands() + BY_MHZ.format(10).replace("c2600", "b800")),
            ["lots are as wide as their MHz, and the page doesn't say of each how wide that is"],
        )

    def test_one_axis_is_stretched(self) -> None:
        """Each axis of the core fills its side of the picture."""
        with mock.patch.object(core, "alike", lambda xs, ys, *_: (xs, ys)):
            stretched = two()
        (text,) = self.found(stretched)
        self.assertTrue(text.startswith("axes differ: "), text)

    def test_a_flat_triangle(self) -> None:
        with mock.patch.object(core, "SIDE", 120):
            low = core.Triangle([10, 8, 6], 12).at(22, 8)[1]
        high = core.Triangle([10, 8, 6], 12).at(22, 8)[1]
        flat = three().replace(f" {high:.2f}".rstrip("0").rstrip("."), f" {low:.2f}".rstrip("0").rstrip("."))
        self.assertNotEqual(flat, three())
        self.assertEqual(self.found(flat), ["the sides of the triangle differ"])


class Planted(Looked):
    def test_reports_as_they_are(self) -> None:
        for name in ("spectrum", "day-cramton"):
            for width, scheme in ((400, "light"), (1280, "dark")):
                with self.subTest(name=name, width=width):
                    self.assertEqual(self.looked_at(report(name), width, scheme), [])

    def assert_found(self, start: str, page: str, width: int = 1280, scheme: str = "light") -> None:
        """Something is found that begins like this."""
        found = self.looked_at(page, width, scheme)
        self.assertTrue(any(it.startswith(start) for it in found), found[:3])

    def test_a_lot_is_wider(self) -> None:
        page = report("spectrum").replace('width="7.14%" height="26"', 'width="10%" height="26"', 1)
        self.assert_found("lots of a800 differ in width", page)

    def test_the_core_is_stretched(self) -> None:
        page = report("day-cramton").replace(
            'viewBox="0 0 300 302"', 'preserveAspectRatio="none" viewBox="0 0 300 302"'
        )
        self.assert_found("axes differ", styled(page, "svg.picture:not(.fluid) { height: 12rem }"))

    def test_a_text_is_cut_on_a_phone(self) -> None:
        for rule in (
            ".card p { max-height: 1.4em; overflow: hidden }",
            "td.words { max-width: 4rem; overflow: hidden; text-overflow: ellipsis }"
            " td.words > span { white-space: nowrap }",
        ):
            with self.subTest(rule=rule):
                page = styled(report("spectrum"), f"@media (max-width: 500px) {{ {rule} }}")
                self.assert_found("cut: ", page, width=400)

    def test_a_pale_colour_in_the_dark(self) -> None:
        for rule in (
            ".legend { color: #444c56 }",
            "header p { opacity: .35 }",
            "tbody tr:nth-child(2) > * { background: #9da7b3 }",  # on another ground than the row before
            "svg text { fill-opacity: .3 }",
        ):
            with self.subTest(rule=rule):
                self.assert_found("contrast ", styled(report("spectrum"), f"{DARK} {{ {rule} }}"), scheme="dark")

    def test_a_pale_lot(self) -> None:
        page = styled(report("spectrum"), f"{DARK} {{ .f-w1 {{ fill: #12171d }} }}")
        self.assert_found("a lot that is sold looks empty, with a contrast of 1.03", page, scheme="dark")

    def test_a_broken_word(self) -> None:
        """Of code after a hyphen, of a column within its letters, and of an item after its count."""
        for inner, word in (
            ("<code>tools/report --names</code>", 'the word "--names"'),
            ("<table><tr><td>Appends</td></tr></table>", 'the word "Appends"'),
            ("<p>20 x a800</p>", '"0 x a800"'),
        ):
            with self.subTest(inner=inner):
                page = PAGE.format(f'<div style="width: 1.5rem; overflow-wrap: anywhere">{inner}</div>')
                self.assert_found(f"a line breaks {word}", page)

    def test_a_cell_takes_lines_where_there_is_room(self) -> None:
        """Gaps between columns take the room of words."""
        gaps = ".wide figure th, .wide figure td { padding-right: 1.6rem }"
        page = styled(report("spectrum"), f"{gaps} .wide figure thead th.number {{ width: 7rem }}")
        self.assert_found('a cell takes lines, and there is room: "1 x b800, 2 x c2600, 4 x e2600', page, width=1920)

    def test_a_table_without_heads(self) -> None:
        page = without_heads(report("spectrum"), "Winners and prices, reserves included")
        self.assert_found('a table without heads: "Winners and prices, reserves included"', page)

    def test_a_head_is_missing(self) -> None:
        page = report("spectrum").replace(' class="number">Vickrey price</th>', ' class="number"></th>', 1)
        self.assert_found('a column without a head: "Winners and prices, reserves included"', page)

    def test_a_cell_without_its_head_on_a_phone(self) -> None:
        page = report("spectrum").replace(' data-head="Bid"', "")
        self.assert_found('a cell without its head: "420,000" of "Winners and prices', page, width=400)


if __name__ == "__main__":
    unittest.main()
