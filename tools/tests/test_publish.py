"""Names for people, seals, and the set that is published."""
import csv
import hashlib
import os
import pathlib
import re
import shutil
import subprocess
import sys
import tempfile
import unittest
import unittest.mock

from checks.cases.samples import EXAMPLES, TOOLS, called, sample, taking
from cca_tools.rules import publication
from cca_tools.rules.award import read_award
from cca_tools.rules.names import LongNames, names_of
from cca_tools.rules.stops import Stop

AWARD = read_award(sample("spectrum.award"))
NAMES = """title = "A sample: 800 MHz & 2.6 GHz"
currency = "EUR"
unit = 1000
[category.a800]
name = "800 MHz paired"
mhz = 10
[category.e2600]
mhz = 2.5
[bidder.everest]
name = "Éverest Mobile <plc>"
"""
KEY = b"0123456789abcdef" * 4 + b"\n"
report, seal, publish = map(taking, ("report", "seal", "publish"))


def run(name: str, *words: str) -> tuple[str, int, str]:
    """What a tool prints, its status, and its standard error, if the program isn't there."""
    return called(name, *words, CCA_PROGRAM="/nowhere")


class Files(unittest.TestCase):
    def setUp(self) -> None:
        self.folder = pathlib.Path(tempfile.mkdtemp())
        self.addCleanup(shutil.rmtree, self.folder)
        self.files = [os.path.join(EXAMPLES, f"spectrum.{kind}") for kind in ("award", "log", "cert")]

    def write(self, name: str, data: str | bytes) -> str:
        path = self.folder / name
        path.write_bytes(data.encode() if isinstance(data, str) else data)
        return str(path)


class Names(Files):
    def test_right_names(self) -> None:
        names = names_of(NAMES.encode(), AWARD)
        self.assertEqual(
            (names.title, names.currency, names.unit),
            ("A sample: 800 MHz & 2.6 GHz", "EUR", 1000),
        )
        self.assertEqual((names.category("a800"), names.category("b800")), ("800 MHz paired", "b800"))
        self.assertEqual(
            (names.bidder("everest"), names.bidder("tarn")),
            ("Éverest Mobile <plc>", "tarn"),
        )
        self.assertEqual(names.mhz, {"a800": 10, "e2600": 2.5})
        self.assertEqual(names.amounts(), "thousand EUR")
        self.assertEqual(names_of(b"", AWARD), LongNames())
        self.assertEqual(names_of(b'currency = "NOK"\nunit = 5', AWARD).amounts(), "5 NOK")
        for power, words in (
            (0, "NOK"),
            (3, "thousand NOK"),
            (6, "million NOK"),
            (9, "billion NOK"),
        ):
            self.assertEqual(
                names_of(b'currency = "NOK"\nunit = %d' % 10**power, AWARD).amounts(),
                words,
            )

    def test_faults(self) -> None:
        for text, why in (
            ("title = 5", "`title` has to be a text of 1 to 80 characters"),
            ('title = ""', "`title` has to be a text"),
            (f'title = "{"x" * 81}"', "`title` has to be a text"),
            (r'title = "a\u202eb"', "U+202E, its character 2"),
            (r'title = "a\u2066"', "U+2066"),
            (r'title = "a\u061c"', "U+061C"),
            (r'title = "a\nb"', "U+000A"),
            (r'title = "\u001b[2J"', "U+001B"),
            ('title = "a`b"', "U+0060"),
            ("unit = 1000", "`unit` is there without `currency`"),
            ('currency = "EUR"\nunit = 0', "`unit` has to be a whole number"),
            ('currency = "EUR"\nunit = true', "`unit` has to be a whole number"),
            (
                'colour = "red"',
                "`colour` is no key of the names; there are title, held, seller, currency, unit, category, bidder",
            ),
            (
                '[bidder.nobody]\nname = "x"',
                "the award has no bidder `nobody`; it has everest, harbour",
            ),
            ('[category.everest]\nname = "x"', "the award has no category `everest`"),
            (
                '[bidder.everest]\nname = "x"\n[bidder.tarn]\nname = "x"',
                "two of the tables [bidder.NAME] have the same",
            ),
            (
                '[bidder.everest]\nname = "tarn"',
                "two of the tables [bidder.NAME] have the same name, `tarn`",
            ),
            (
                "[bidder.everest]\nmhz = 5",
                "`mhz` is no key of [bidder.everest]; there are name",
            ),
            (
                "[category.a800]\nmhz = 0",
                "`category.a800.mhz` has to be a number above 0",
            ),
            (
                "[category.a800]\nmhz = nan",
                "`category.a800.mhz` has to be a number above 0",
            ),
            ("bidder = 5", "`bidder` has to be a table"),
            ("[bidder]\neverest = 5", "`bidder.everest` has to be a table"),
            ("title", "the names are no TOML"),
        ):
            with self.subTest(text=text), self.assertRaises(Stop) as caught:
                names_of(text.encode(), AWARD)
            self.assertEqual(
                (caught.exception.line, caught.exception.status),
                ("cca: refused names", 3),
            )
            self.assertIn(why, caught.exception.why)

    def test_tools(self) -> None:
        names = self.write("names.toml", NAMES)
        text, status, fault = run("state", *self.files[:2], "--names", names)
        self.assertEqual((status, fault), (0, ""))
        self.assertEqual(text.splitlines()[0][:31], "= A sample: 800 MHz & 2.6 GHz: ")
        self.assertIn(
            "Amounts are in thousand EUR.\na800: 800 MHz paired, 10 MHz a lot; e2600: 2.5 MHz a lot\n",
            text,
        )
        self.assertTrue(text.endswith("everest: Éverest Mobile <plc>\n"))
        text, status, fault = run("report", "--text", *self.files, "--names", names)
        self.assertEqual((status, fault), (0, ""))
        said_once = " ".join(text.split())
        for words in (
            "Auction report: A sample",
            "thousand EUR",
            "A lot of 800 MHz paired is 10 MHz wide.",
            "Éverest",
        ):
            self.assertIn(words, said_once)
        self.assertIn("bid,everest,2 0 4 0,", text)  # as the log has it
        self.assertNotIn("everest", re.sub(r"\b(bid|draft|drop|submit),everest,", "", text))
        text, status, fault = run("report", "--text", "--bidder", "everest", *self.files, "--names", names)
        self.assertEqual((status, fault), (0, ""))
        self.assertIn(
            "What `Éverest Mobile <plc>` sees",
            " ".join(text.split()).replace("What Éverest Mobile <plc>", "What `Éverest Mobile <plc>`"),
        )
        bad = self.write("bad.toml", 'title = "a\\u202eb"')
        for command, *more in (["state", *self.files[:2]], ["report", "--text", *self.files]):
            text, status, fault = run(command, *more, "--names", bad)
            self.assertEqual((text, status), ("", 3))
            self.assertIn(
                "cca: refused names\n`title` has a character that no name may have: U+202E",
                fault,
            )


class Publish(Files):
    def test_a_set(self) -> None:
        """The whole set; sha256sum accepts its checksums, and the files pass the tests that the page describes."""
        key, posted = self.write("a.key", KEY), str(self.folder / "a.posted")
        self.assertEqual(run("seal", "sum", "--publish", key, *self.files[:2], posted)[1], 0)
        more = [
            "--names",
            self.write("n.toml", NAMES),
            "--key",
            key,
            "--posted",
            posted,
        ]
        folder = self.folder / "set"
        text, status, fault = run("publish", *more, *self.files, str(folder))
        self.assertEqual((status, fault), (0, ""))
        self.assertIn("winner everest 1 0 3 0 bid 420000 vickrey 292400 pays 292400\n", text)
        found = sorted(str(path.relative_to(folder)) for path in folder.rglob("*") if path.is_file())
        reports = [
            f"{name}.{kind}"
            for name in ["report", *(f"bidders/{it}" for it in AWARD.names)]
            for kind in ("html", "txt")
        ]
        parts = [
            "auction.award",
            "auction.log",
            "auction.cert",
            "auction.key",
            "auction.posted",
            "names.toml",
        ]
        tables = [f"tables/{name}.csv" for name in ("winners", "rounds", "prices", "bids")]
        # (the page that audits is in a release, and in a checkout that has built it)
        audit = publication.audit_page()
        self.assertEqual(
            found,
            sorted([*parts, *reports, *tables, *audit, "SHA256SUMS", "index.html"]),
        )
        made = subprocess.run(
            ["sha256sum", "-c", "--strict", "SHA256SUMS"],
            cwd=folder,
            capture_output=True,
            text=True,
        )
        self.assertEqual((made.returncode, made.stdout.count(": OK\n")), (0, len(found) - 1))
        self.assertIn(hashlib.sha256((folder / "SHA256SUMS").read_bytes()).hexdigest(), text)
        for kind, name in zip(("award", "log", "cert"), parts):
            self.assertEqual((folder / name).read_bytes(), sample(f"spectrum.{kind}"))
        page = (folder / "index.html").read_text()
        for name in found:
            if name != "index.html":
                self.assertIn(f'href="{name}"', page)
        self.assertIn("<title>A sample: 800 MHz &amp; 2.6 GHz</title>", page)
        self.assertIn("<h2>Five winners pay 1,436,700 thousand EUR for all 28 lots</h2>", page)
        self.assertLess(page.index("460,200"), page.index("How to test it"))
        self.assertLess(page.index("How to test it"), page.index("Checksum (SHA-256)"))
        self.assertIn('href="tables/bids.csv">bids</a>', (folder / "report.html").read_text())
        self.assertIn("Éverest Mobile &lt;plc&gt;", (folder / "report.html").read_text())
        self.assertIn("auction.award", (folder / "report.txt").read_text())
        self.assertEqual(self.followed(page, folder), 3)

    def followed(self, page: str, folder: pathlib.Path) -> int:
        """Runs the commands of the page that need no program and no bidder's own file."""
        count = 0
        for command in re.findall(r"<dd><code>(.*?)</code>", page):
            words = re.sub("<.*?>", "", command).split()
            if words[0].startswith("tools/") and not {"NAME", "NOTED"} & {*words}:
                made = [sys.executable, os.path.join(TOOLS, words[0][6:]), *words[1:]]
                how = {**os.environ, "CCA_PROGRAM": "/nowhere"}
                self.assertEqual(
                    subprocess.run(made, cwd=folder, env=how, capture_output=True).returncode,
                    0,
                    command,
                )
                count += 1
            elif words[0] == "sha256sum":
                count += subprocess.run(words, cwd=folder, capture_output=True).returncode == 0
        return count

    def test_tables(self) -> None:
        """The tables have the numbers that the program prints of the winners, the rounds and the award."""
        names = NAMES.replace(
            "[category.e2600]",
            "[category.b800]\nmhz = 20\n[category.c2600]\nmhz = 10\n[category.e2600]",
        )
        folder = self.folder / "set"
        self.assertEqual(
            run(
                "publish",
                "--names",
                self.write("n.toml", names),
                *self.files,
                str(folder),
            )[1],
            0,
        )

        def rows(name: str) -> list[dict[str, str]]:
            with open(folder / "tables" / f"{name}.csv", newline="") as file:
                return list(csv.DictReader(file))

        self.assertEqual(
            [(it["bidder"], it["price"], it["mhz"], it["price_per_mhz"]) for it in rows("winners")],
            [
                ("everest", "292400", "40", "7310"),
                ("harbour", "310400", "50", "6208"),
                ("meridian", "292500", "62.5", "4680"),
                ("niche", "81200", "50", "1624"),
                ("tarn", "460200", "20", "23010"),
            ],
        )
        self.assertEqual(rows("winners")[0]["name"], "Éverest Mobile <plc>")
        posted = [[it["price"] for it in rows("rounds") if it["round"] == f"{number}"] for number in (1, 4)]
        self.assertEqual(
            posted,
            [
                ["200000", "250000", "15000", "100"],
                ["242600", "275700", "19200", "400"],
            ],
        )
        self.assertEqual([it["sold"] for it in rows("prices")], ["4", "1", "14", "9"])
        self.assertEqual(
            [it["amount"] for it in rows("bids") if it["won"] == "yes"],
            "420000 400000 380000 120000 500000".split(),
        )

    def test_the_page_that_audits(self) -> None:
        """It is copied unchanged from the release, else from the build, and is the first way to test the auction."""
        places = [self.folder / "release.html", self.folder / "built.html"]
        with unittest.mock.patch.object(publication, "AUDIT_PLACES", places):
            self.assertEqual(publication.audit_page(), {})
            for path in reversed(places):
                path.write_text(path.name)
                self.assertEqual(publication.audit_page(), {"audit.html": path.name.encode()})
            files = {"auction.award": b"", **publication.audit_page()}
        none = publication.Result("", "", "", [], [])
        with_page = publication.page("", none, files, publication.Made([])).decode()
        without = publication.page("", none, {}, publication.Made([])).decode()
        first = with_page.index("<h2>How to test it</h2>\n<dl>\n<dt>The whole auction, in any browser")
        self.assertLess(first, with_page.index("cca audit"))
        self.assertEqual(with_page.count('href="audit.html"'), 2)
        self.assertNotIn("audit.html", without)

    def test_nothing_is_written_where_a_test_fails(self) -> None:
        folder = str(self.folder / "set")
        wrong = self.write("w.cert", sample("spectrum.cert").replace(b"6200 60200", b"6100 60300"))
        other = self.write("s.txt", "close 1 " + "0" * 64)
        for words, status, why in (
            ((*self.files[:2], wrong, folder), 1, "no C8 8"),
            (
                (
                    self.files[0],
                    self.write("o.log", sample("spectrum.log")[:200]),
                    self.files[2],
                    folder,
                ),
                3,
                "refused log",
            ),
            (
                (*self.files, str(self.folder)),
                5,
                "it is there already, and nothing is overwritten",
            ),
            (
                ("--key", self.write("a.key", KEY), *self.files, folder),
                2,
                "--key and --posted are given together",
            ),
            ((*self.files[:2], "-", folder), 2, "none is standard input"),
            (
                (
                    "--key",
                    self.write("a.key", KEY),
                    "--posted",
                    other,
                    *self.files,
                    folder,
                ),
                3,
                "refused posted 1",
            ),
            ((*self.files, str(self.folder / "none" / "set")), 0, "written"),
        ):
            text, ended, fault = run("publish", *words)
            with self.subTest(why=why):
                self.assertEqual(ended, status, fault)
                self.assertIn(why, text + fault)
                self.assertFalse(os.path.exists(folder))


if __name__ == "__main__":
    unittest.main()
