"""The pictures of docs/pictures: that every viewer draws them, and that what checks.svg and growth.svg say is true."""

from __future__ import annotations

import os
import pathlib
import re
import shutil
import subprocess
import tempfile
import unittest
import xml.etree.ElementTree as ElementTree
from collections.abc import Callable

from checks.cases import samples  # noqa: F401, finds cca_tools

from build.drawing import WIDTH
from build.drawings import checkers, growth
from cca_tools.page.ink import ROLES

ROOT = pathlib.Path(__file__).resolve().parents[2]
EXAMPLES, PICTURES = ROOT / "examples", ROOT / "docs" / "pictures"
PROGRAM = os.environ.get("CCA_PROGRAM")
SHAPES = ("rect", "path", "line", "circle", "text")
# The files of each row of `A result`, with the command of cca that tests them and the one that makes the certificate.
RESULTS = {
    "award, log, certificate": ("audit", "award", ["spectrum.award", "spectrum.log"]),
    "book, certificate": ("check", "price", ["day-cramton.book"]),
    "book, weights, certificate": ("weigh-check", "weigh", ["day-cramton.book", "day-cramton.weights"]),
    "slots, certificate": ("place-check", "place", ["band.slots"]),
}
COURT: dict[str, Callable[[list[str], str], list[str]]] = {
    "audit": lambda files, cert: ["audit", *files, cert],
    "check": lambda files, cert: ["check", *files, cert],
    "weigh-check": lambda files, cert: ["check", files[0], cert, files[1]],
    "place-check": lambda files, cert: ["check-places", *files, cert],
}


class Files(unittest.TestCase):
    """Each picture as a file."""

    def test_no_style_sheet_is_needed(self) -> None:
        """The colours on white are attributes, and variables, which some viewers don't know, are nowhere."""
        colours = {"none", *(white for white, _ in ROLES.values())}
        for path in sorted(PICTURES.glob("*.svg")):
            text = path.read_text()
            with self.subTest(picture=path.name):
                self.assertNotIn("var(", text)
                self.assertNotIn("style=", text)
                for it in ElementTree.fromstring(text).iter():
                    if it.tag.rpartition("}")[2] in SHAPES:
                        fill, stroke = it.get("fill", ""), it.get("stroke", "none")
                        self.assertTrue(fill in colours or fill.startswith("url(#"), fill)
                        self.assertIn(stroke, colours)

    def test_dark_colours(self) -> None:
        """For each class of a mark the style sheet has the colour of a dark ground."""
        for path in sorted(PICTURES.glob("*.svg")):
            text = path.read_text()
            rules = dict(re.findall(r"\.([fs]-\w+) \{ (?:fill|stroke): (#\w+) \}", text))
            classes = {name for names in re.findall(r'class="([^"]+)"', text) for name in names.split()}
            with self.subTest(picture=path.name):
                self.assertEqual(rules, {name: ROLES[name[2:]][1] for name in classes})

    def test_letters_can_be_read_on_a_phone(self) -> None:
        """A phone of 360 shows a picture as wide as its screen, and letters of 11.5 are at least 10.95 there."""
        for path in sorted(PICTURES.glob("*.svg")):
            root = ElementTree.parse(path).getroot()
            sizes = [float(it.get("font-size", "0")) for it in root.iter() if it.tag.endswith("}text")]
            with self.subTest(picture=path.name):
                self.assertGreater(min(sizes) * min(1, 360 / float(root.get("width", "0"))), 10.95)


class Growth(unittest.TestCase):
    def test_each_size_doubles(self) -> None:
        """The kept times are of books with one size that doubles, and the other two at their limit."""
        rows = growth.read_rows()
        for kind in growth.KINDS:
            grown = [row for row in rows if row.grown == kind]
            sizes = [row.sizes[kind] for row in grown]
            self.assertGreater(len(sizes), 3)
            self.assertEqual(sizes, [sizes[0] * 2**at for at in range(len(sizes))])
            others = {tuple(size for name, size in row.sizes.items() if name != kind) for row in grown}
            self.assertEqual(len(others), 1)

    def test_marks_are_at_their_times(self) -> None:
        """Each dot of `win` is at its time on the scale that the numbers at the left print."""
        root = ElementTree.parse(PICTURES / "growth.svg").getroot()
        texts = [it for it in root if it.tag.endswith("}text") and it.get("text-anchor") == "end"]
        ticks = [(float(it.text or ""), float(it.get("y", "")) - 4) for it in texts if (it.text or "").isdigit()]
        (first, top), (second, below) = ticks[:2]
        for it in (it for it in root if it.tag.endswith("}circle")):
            says = it[0].text or ""
            found = re.fullmatch(r"win, [\d,]+ (\w+): (\d+) ms", says)
            assert found, says
            part = list(growth.KINDS).index(found[1]) * growth.PART
            place = float(it.get("cy", "")) - part
            time = first * (second / first) ** ((place - top) / (below - top))
            self.assertAlmostEqual(time, float(found[2]), delta=0.51)


class Checkers(unittest.TestCase):
    def test_paths(self) -> None:
        """Each path that the picture names is there."""
        words = [it.words for it in checkers.CHECKERS] + [it.words for of in checkers.GROUPS.values() for it in of]
        paths = [path for text in words for path in re.findall(r"\.?\w+/\w*", text)]
        self.assertGreater(len(paths), 8)
        for path in paths:
            self.assertTrue((ROOT / path).exists(), path)

    @unittest.skipUnless(PROGRAM, "CCA_PROGRAM names the program")
    def test_results(self) -> None:
        """cca and the court's files test each kind of result that the picture names, and accept a sample of it."""
        self.assertEqual([it.words for it in checkers.GROUPS["A result"]], list(RESULTS))
        for words, (command, making, names) in RESULTS.items():
            with self.subTest(words=words), tempfile.TemporaryDirectory() as folder:
                files, cert = [str(EXAMPLES / name) for name in names], os.path.join(folder, "cert")
                subprocess.run([str(PROGRAM), making, *files, cert], check=True, capture_output=True)
                name, *rest = COURT[command](files, cert)
                for run in ([str(PROGRAM), command, *files, cert], [str(ROOT / "tools" / name), *rest]):
                    done = subprocess.run(run, capture_output=True, text=True)
                    self.assertEqual((done.returncode, done.stdout[:4]), (0, "yes\n"), run)

    def test_marks(self) -> None:
        """The picture has a mark for each checker of each row, and no other."""
        root = ElementTree.parse(PICTURES / "checks.svg").getroot()
        said = {it[0].text for it in root if len(it) and it.tag.rpartition("}")[2] in ("circle", "rect")}
        rows = [row for of in checkers.GROUPS.values() for row in of]
        self.assertEqual(said, {f"{row.words}: {checker.words}" for row in rows for checker in row.by})
        self.assertEqual(float(root.get("width", "0")), WIDTH)


@unittest.skipUnless(shutil.which("rsvg-convert"), "the package librsvg2-bin isn't installed")
class Viewer(unittest.TestCase):
    def test_a_viewer_without_variables(self) -> None:
        """librsvg, which takes no variables of a style sheet, draws light corners and more than black."""
        for path in sorted(PICTURES.glob("*.svg")):
            done = subprocess.run(["rsvg-convert", "--format=png", str(path)], capture_output=True, check=True)
            with self.subTest(picture=path.name):
                self.assertGreater(len(done.stdout), 5000)  # one black area is 1,500 bytes


if __name__ == "__main__":
    unittest.main()
