"""tools/audit, explain, caps and what-if on the samples, on worked examples and on faulty files."""
import os
import subprocess
import sys
import tempfile
import unittest
import unittest.mock
from checks.cases.samples import EXAMPLES, TOOLS, called, certificate_of, lines, said, sample, taking
from test_auction import ROW, TWO, TWO_LOG
from checks.cases.program import run as program_run
from checks.cases.program import with_program
from test_tools import PLACE_CERT
from checks.cases.voices import AUDIT, audit
from cca_tools.rules.book import read_book
from cca_tools.rules.program import price_lines
from cca_tools.rules.stops import MOST, Stop
from cca_tools.rules.winners import winner_lines
from collections.abc import Sequence

caps, explain, what_if = map(taking, ("caps", "explain", "what-if"))
SMALL = sample("sample.award")
BIDS = [[((1,), 20), ((3,), 44)], [((2,), 24)]]
PRICES = "winner east 1 bid 20 vickrey 10 pays 10\nwinner west 2 bid 24 vickrey 24 pays 24\nnet 14\nrevenue 34"


def small_cert(pay: Sequence[int] = (0, 4)) -> bytes:
    """The certificate of the worked log: without east only west wins, and without west east's three lots win."""
    rows = [([1], 1, 0, (0, 1)), ([2], 1, 0, (2, 0))]
    return certificate_of((3,), BIDS, (1, 1), {1: (0, 1), 2: (2, 0)}, 1, pay, rows, reserves=(10,))


def run(name: str, *words: str, stdin: bytes = b"") -> tuple[str, int, str]:
    """What a tool prints as a program, its status, and what it says on its standard error."""
    made = subprocess.run([sys.executable, os.path.join(TOOLS, name), *words], input=stdin, capture_output=True)
    return made.stdout.decode(), made.returncode, made.stderr.decode()


class Audit(unittest.TestCase):
    def test_yes(self) -> None:
        self.assertEqual(said(audit, SMALL, lines(ROW), small_cert()), ("yes\n" + PRICES, 0))

    def test_no(self) -> None:
        self.assertEqual(said(audit, SMALL, lines(ROW), small_cert((0, 3))), ("no C6 2", 1))
        # without east's draft for three lots its clock amount of 30 is its bid, and west's part shows too much
        self.assertEqual(said(audit, SMALL, lines(ROW.replace("draft,east,3,44", "drop,east,3,")), small_cert())[1], 1)

    def test_sample(self) -> None:
        """The answers are the same as in the guide."""
        award, log, cert = (sample(f"spectrum.{kind}") for kind in ("award", "log", "cert"))
        text, status = said(audit, award, log, cert)
        self.assertEqual(
            (text.splitlines()[0], text.splitlines()[-2:], status), ("yes", ["net 559100", "revenue 1436700"], 0)
        )
        self.assertIn("winner niche 0 0 5 0 bid 120000 vickrey 81000 pays 81200", text)
        for pay, answer in ((b"6100 60300", "no C8 8"), (b"6000 60000", "no C6 4")):
            self.assertEqual(
                said(
                    audit,
                    award,
                    log,
                    cert.replace(b"pay 47400 30000 32000 6200 60200", b"pay 47400 30000 32000 " + pay),
                ),
                (answer, 1),
            )
        records = log.splitlines(True)
        self.assertEqual(said(audit, award, b"".join(records[:35] + records[36:]), cert), ("no C2 7", 1))

    def test_order_of_steps(self) -> None:
        award, log, cert = SMALL, lines(ROW), small_cert()
        dear = SMALL.replace(b"reserve = 10", b"reserve = 68719476736")
        rows = [
            ((b"version =", b"x", b"x"), "refused award 0 0", 3),
            ((award, b"x", b"x"), "refused log 1", 3),
            ((dear, lines(" / ".join(ROW.split(" / ")[:3])), b"x"), "limit price 82463372084", 7),
            ((award, lines(" / ".join(ROW.split(" / ")[:3])), b"x"), "refused log 4", 3),
            ((award, log, b"x"), "refused cert 0", 3),
            ((award, log, cert[:-2]), f"refused cert {len(cert) - 4}", 3),
            ((award + b"#" * 65536, log, cert), "limit bytes 65537", 7),
            ((award, b"\n" * 8388609, cert), "limit bytes 8388609", 7),
        ]
        for files, line, status in rows:
            with self.subTest(line=line):
                self.assertEqual(said(audit, *files), ("cca: " + line, status))

    def test_long_certificate(self) -> None:
        self.assertEqual(MOST["cert bytes"], 67_108_864)
        with unittest.mock.patch.dict(MOST, {"cert bytes": 1000}), unittest.mock.patch.dict(AUDIT.BYTES, cert=1000):
            self.assertEqual(said(audit, SMALL, lines(ROW), b"x" * 1001), ("cca: limit bytes 1001", 7))

    def test_as_a_program(self) -> None:
        award, log = os.path.join(EXAMPLES, "sample.award"), os.path.join(EXAMPLES, "spectrum.log")
        self.assertEqual(run("audit", award, log, "nothing.cert")[:2], ("cca: refused log 1\n", 3))
        self.assertEqual(run("audit", award, "nothing.log", "nothing.cert")[:2], ("cca: read fault log\n", 4))
        self.assertEqual(run("audit", EXAMPLES, log, "nothing.cert")[:2], ("cca: read fault award\n", 4))
        self.assertEqual(run("audit", award, "-", "nothing.cert", stdin=lines(ROW))[:2], ("cca: read fault cert\n", 4))
        for words in (
            (),
            (award, log),
            (award, log, log),
            (award, log, "-x"),
            (award, log, ""),
            (award, log, "c", "d"),
        ):
            self.assertEqual(run("audit", *words)[:2], ("cca: words\n", 2))


class Explain(unittest.TestCase):
    def told(self, command: str, *texts: bytes) -> tuple[str, int]:
        return said(lambda names: explain([command, *names]), *texts)

    def test_log(self) -> None:
        rows = [
            (
                "bid,everest,1 0 28.5 0,",
                "The package, `28.5`: counts are whole numbers of at most 65535; a whole number has no point or comma.",
            ),
            ('draft,everest,1 0 3 0,"420,000"', "a number has nothing between its thousands"),
            (
                "draft,everest,1 0 3 0,420,000",
                "this one has more; a number seems to have a comma between its thousands",
            ),
            ("bid,Everest,1 0 3 0,", "a name has no capitals"),
            ("Bid,everest,1 0 3 0,", "submit or close; a kind is written in small letters and without spaces."),
            (" bid,everest,1 0 3 0,", "submit or close; a kind is written in small letters and without spaces."),
            ("bids,everest,1 0 3 0,", "a kind is bid, draft, drop, submit or close.\n"),
            ("bid;everest;1 0 3 0;", "the fields seem to be between semicolons"),
            ("draft,everest,1 0 3 0, 420000", "there is a space too many"),
            ("draft,everest,1 0 3 0,-5", "a number has no sign"),
            ("submit,everest,1 0 3 0,", "a submit has no package"),
            ('draft,everest,"1 0 3 0,42\nclose,,,', "a quote is open here"),
        ]
        for text, part in rows:
            said_text, status = self.told(
                "auction", sample("spectrum.award"), b"\n" + sample("spectrum.log") + b"\n" + text.encode() + b"\n"
            )
            with self.subTest(text=text):
                self.assertEqual((said_text.splitlines()[0], status), ("cca: refused log 64", 3))
                self.assertIn("Record 64, line 66 of the file", said_text)
                self.assertIn(part, said_text)

    def test_log_head(self) -> None:
        text, status = self.told("audit", SMALL, b"kind,bidder,package,amount\n" + lines(ROW), b"")
        self.assertEqual(
            (text.splitlines()[:2], status),
            (["cca: refused log 1", "Record 1, line 1 of the file: `kind,bidder,package,amount`"], 3),
        )
        self.assertIn("this seems to be a head", text)

    def test_award(self) -> None:
        text, status = self.told("award", sample("spectrum.award").replace(b"permille = 50", b"permille = 0"), b"")
        self.assertEqual(
            (text, status),
            (
                (
                    "cca: refused award 14 1\nLine 52 of the file. Field 14: `permille` is 0 in table 1 of [[step]]; it"
                    " has to be a whole number from 1 to 1000.\nCorrect this place of the file, and run the command"
                    " again."
                ),
                3,
            ),
        )
        self.assertIn("line 1", self.told("award", b"version 1", b"")[0])

    def test_placements(self) -> None:
        slots, cert = sample("band.slots"), PLACE_CERT
        self.assertEqual(self.told("place-check", slots, cert), ("The certificate passes all tests.", 0))
        self.assertEqual(
            self.told("place", slots)[0], "Nothing is wrong: the band has 4 slots, and there are 3 bidders."
        )
        text, status = self.told("place-check", slots, cert.replace(b"order 1 3 2", b"order 1 2 3", 1))
        self.assertEqual((text.splitlines()[0], status), ("no P2 4", 1))
        self.assertIn("y begins at slot 3, and its bid is for slot 4", text)

    def test_what_is_only_written(self) -> None:
        """The file that a command writes may be named, or left out."""
        book = sample("day-cramton.book")
        told = ("Nothing is wrong: the book has 5 bidders and 5 bids.", 0)
        self.assertEqual(self.told("price", book), told)
        self.assertEqual(self.told("price", book, b"anything"), told)
        with self.assertRaises(Stop):
            explain(["win", "book", "other"])

    def test_a_log_that_isn_t_complete(self) -> None:
        text, _ = self.told("auction", SMALL, lines("bid,east,1, / bid,west,1,"))
        told = "The log has 2 records, and what is to come would be record 3."
        self.assertEqual(text.splitlines()[1:], ["The log isn't complete: no close has ended the sealed round.", told])

    def test_refused_lines_are_counted(self) -> None:
        text, _ = self.told("award", sample("spectrum.award"), sample("spectrum.log"))
        self.assertIn("14 lines of the log are refused: `tools/explain auction AWARD LOG` says why.", text)
        text, _ = self.told("award", SMALL, lines(ROW))
        self.assertIn("1 line of the log is refused: ", text)

    def test_replies(self) -> None:
        text, status = self.told("auction", sample("spectrum.award"), sample("spectrum.log"))
        self.assertEqual((text.count("of the file"), status), (14, 0))
        self.assertIn("5 points 96: record 5, line 5 of the file, `bid,tarn,3 1 0 0,`", text)
        text, status = self.told("auction", SMALL, lines(" / ".join(ROW.split(" / ")[:3])))
        self.assertEqual((text.splitlines()[0], status), ("cca: refused log 4", 3))
        self.assertIn("isn't complete", text)

    def test_certificate(self) -> None:
        cert = sample("day-cramton.cert")
        text, status = self.told("check", sample("day-cramton.book"), cert + cert)
        self.assertEqual((text.splitlines()[0], status), ("cca: refused cert 476", 3))
        self.assertIn("A second certificate begins here", text)
        text, status = self.told("check", sample("day-cramton.book"), cert.replace(b"pay 17 15", b"pay 16 16"))
        self.assertEqual((text.splitlines()[0], status), ("no C8 2", 1))
        self.assertIn("b1", text)

    def test_winners(self) -> None:
        eleven = lines(
            "book 1 / supply 11 / reserve 0 / " + " / ".join(f"bidder b{j} / bid 1 5" for j in range(11)) + " / end"
        )
        text, status = self.told("price", eleven)
        self.assertEqual((text.splitlines()[0], status), ("cca: limit winners 11", 7))
        weights = lines("weights 1 / " + " / ".join(f"weight b{j} 2" for j in range(5)) + " / end")
        five = lines(
            "book 1 / supply 11 / reserve 0 / " + " / ".join(f"bidder b{j} / bid 1 5" for j in range(5)) + " / end"
        )
        text, _ = self.told("weigh", five, weights)
        self.assertEqual(text.splitlines()[0], "cca: limit winners 5")
        told = "5 bidders win (b0, b1, b2, b3, b4), and at most 4 can be priced where their weights aren't all 1."
        self.assertEqual(text.splitlines()[1], told)
        self.assertEqual(self.told("weigh", five, weights.replace(b" 2", b" 1"))[1], 0)
        self.assertEqual(self.told("price", five)[1], 0)

    def test_edits(self) -> None:
        book, edits = sample("day-cramton.book"), sample("day-cramton.edits")
        self.assertEqual(self.told("review", book, edits)[1], 0)
        rows = [
            (b"edits 1", b"edits 2", 0),
            (b"raise b3 1 1 50", b"raise b3 1 50", 8),
            (b"add b4 0 1 23", b"add B4 0 1 23", 24),
            (b"drop b1 1 0", b"drop b1 1 65536", 38),
            (b"end", b"stop", 82),
            (b"add b4 0 1 23", b"add b4 0 1 1000000000000000001", 24),
        ]
        for old, new, place in rows:
            text, status = self.told("review", book, edits.replace(old, new, 1))
            self.assertEqual((text.splitlines()[0], status), (f"cca: refused edits {place}", 3))
        many = b"edits 1\n" + b"drop b1 1 0\n" * 1001 + b"end\n"
        self.assertEqual(self.told("review", book, many)[0].splitlines()[0], "cca: limit records 1001")

    def test_refused_edits(self) -> None:
        """Each reason of `cca review`, in the order of the tests."""
        book = "book 1 / supply 2 1 / reserve 5 7 / bidder a / bid 1 0 9 / bidder b / end"
        top = 2**42
        rows = [
            ("drop c 9 0", "unknown", "The book has no bidder c."),
            ("add a 3 9 1", "supply 1", "The package has 3 lots of category 1, and 2 are sold."),
            ("drop a 0 2", "supply 2", "The package has 2 lots of category 2, and 1 is sold."),
            ("raise a 0 0 1", "empty", "A package of nothing is no bid."),
            ("add a 1 0 4", "present 9", "a has a bid of 9 for this package; `raise` changes it."),
            ("raise a 1 1 4", "absent", "a has no bid for this package; `add` makes one."),
            ("drop b 1 0", "absent", "b has no bid for this package; `add` makes one."),
            ("raise a 1 0 9", "not-higher 9", "The bid for this package is 9, and 9 isn't above it."),
            ("add b 2 1 16", "below-reserve 17", "The reserves of the package come to 17, and 16 is less."),
            (f"add b 2 1 {top + 1}", f"amount-top {top}", f"The amount is above the greatest one, {top}."),
            (f"raise a 1 0 {top + 1}", f"amount-top {top}", f"The amount is above the greatest one, {top}."),
        ]
        for edit, reply, why in rows:
            text, status = self.told("review", lines(book), lines(f"edits 1 / {edit} / end"))
            told = [
                f"1 {reply}: line 2 of the file, `{edit}`",
                f"  {why}",
                "1 of 1 edits is refused, and changes nothing.",
            ]
            self.assertEqual((text.splitlines(), status), (told, 0))
        right = (
            f"edits 1 / add b 2 1 17 / raise b 2 1 {top} / drop b 2 1 / raise b 2 1 20 / drop a 1 0 / drop a 1 0 / end"
        )
        text, _ = self.told("review", lines(book), lines(right))
        self.assertEqual([line[:9] for line in text.splitlines()[::2]], ["4 absent:", "6 absent:", "2 of 6 ed"])
        many = "".join(f"bid {a} {b} 9 / " for a in range(21) for b in range(20) if a + b)
        full = f"book 1 / supply 20 20 / reserve 0 0 / bidder a / {many}end"
        with unittest.mock.patch.dict(MOST, bids=419):
            text, _ = self.told("review", lines(full), lines("edits 1 / add a 20 20 9 / end"))
        told = ["1 full 419: line 2 of the file, `add a 20 20 9`", "  a has 419 bids, and no bidder may have more."]
        self.assertEqual(text.splitlines()[:2], told)

    def test_a_second_text_in_a_file(self) -> None:
        for command, book in (("win", sample("tie.book")), ("price", sample("day-cramton.book"))):
            text, status = self.told(command, book + book)
            self.assertEqual((text.splitlines()[0], status), (f"cca: refused book {len(book)}", 3))
            self.assertIn("A second book begins here: each run appends one. Remove the file before", text)

    def test_single_brackets(self) -> None:
        award = sample("spectrum.award")
        one = award[: award.index(b"[[bidder]]")] + award[award.index(b"[[step]]") :]
        text, _ = self.told("award", one.replace(b"[[step]]", b"[bidder]\nname = 'x'\n[[step]]", 1), b"")
        self.assertIn("Field 8: `bidder` is a table of 1 at the top of the award; it has to be a list of tables", text)
        self.assertIn("write [[bidder]] with two brackets instead of [bidder]", text)
        self.assertIn("Line ", text)
        text, _ = self.told("award", award.replace(b"[[bidder]]", b"[bidder]"), b"")
        self.assertIn("`bidder` is there already; where there are several, each begins with [[bidder]]", text)

    def test_a_bidder(self) -> None:
        """In the whole log and in its own view the refused lines of a bidder are the same, except for their numbers."""
        award, log = sample("spectrum.award"), sample("spectrum.log")
        text, status = said(lambda names: explain(["auction", *names, "--bidder", "tarn"]), award, log)
        self.assertEqual(
            (text.splitlines()[0], text.splitlines()[-1], status),
            (
                "1 points 96: record 1 of its own view, `bid,tarn,3 1 0 0,`",
                "tarn has sent 13 lines, and 2 of them are refused.",
                0,
            ),
        )
        view, _ = said(lambda names: caps([*names, "tarn", "--view"]), award, log)
        own, _ = said(lambda names: explain(["auction", *names, "--bidder", "tarn"]), award, view.encode())
        self.assertEqual(own, text)
        text, _ = said(lambda names: explain(["auction", *names, "--bidder", "east"]), SMALL, lines("bid,east,1,"))
        self.assertEqual(text, "east has sent 1 line, and none of them are refused.")

    def test_words(self) -> None:
        cases: list[list[str]] = [
            [],
            ["nothing"],
            ["check", "a"],
            ["check", "a", "a"],
            ["check", "a", "-x"],
            ["win", "a", "b"],
            ["audit", "a", "b", "c", "--json"],
        ]
        for words in cases:
            self.assertEqual(called("explain", *words)[:2], ("cca: words\n", 2))
        text, status, _ = called("explain", "win", "nothing.book")
        self.assertEqual(
            (text.splitlines()[:2], status),
            (["cca: read fault book", "`nothing.book` can't be read: No such file or directory."], 4),
        )

    def test_an_amount_above_the_greatest(self) -> None:
        log = lines("close,,, / draft,east,1,4398046511105")
        text, _ = self.told("auction", SMALL, log)
        self.assertIn("The amount is above the greatest one, 4398046511104.", text)


class CapsTool(unittest.TestCase):
    def asked(self, award: bytes, log: bytes, *words: str) -> tuple[str, int]:
        return said(lambda names: caps([*names, *words]), award, log)

    def test_sample(self) -> None:
        text, status = self.asked(sample("spectrum.award"), sample("spectrum.log"), "everest")
        self.assertEqual((text.splitlines()[0], status), ("everest final round 4 held 1 0 3 0 list 3", 0))
        self.assertIn(
            (
                "package 2 0 4 0 listed 660000 least 506000 round 3 held 1 0 4 0 stands 430000 prices 231000 275700"
                " 18200 300 cap 661000"
            ),
            text,
        )
        self.assertIn("package 1 0 3 0 listed 420000 least 300200 no cap", text)

    def test_first_list(self) -> None:
        text, _ = self.asked(
            sample("spectrum.award"),
            b"".join(sample("spectrum.log").splitlines(True)[:32]),
            "everest",
            "2",
            "0",
            "4",
            "0",
        )
        self.assertIn("round 3 held 1 0 4 0 stands 303800 prices 231000 275700 18200 300 cap 534800", text)

    def test_final_cap(self) -> None:
        for version, part in (1, "cap 52"), (2, "cap 32"):
            text, _ = self.asked(TWO.format(version).encode(), lines(TWO_LOG), "east", "0 3")
            self.assertEqual(part in text, True, text)

    def test_views(self) -> None:
        for name in ("everest", "harbour", "meridian", "niche", "tarn"):
            view, _ = self.asked(sample("spectrum.award"), sample("spectrum.log"), name, "--view")
            others = {"everest", "harbour", "meridian", "niche", "tarn"} - {name}
            self.assertFalse(any(other in view for other in others))
            self.assertEqual(
                self.asked(sample("spectrum.award"), view.encode(), name),
                self.asked(sample("spectrum.award"), sample("spectrum.log"), name),
            )

    def test_lines_of_others_in_a_view(self) -> None:
        """They aren't the bidder's, and add nothing."""
        view = "bid,east,3, / close,,12, / bid,east,1, / close,,sealed, / draft,east,3,44"
        other = view.replace("bid,east,1,", "bid,east,1, / bid,west,2, / bid,north,9,")
        self.assertEqual(self.asked(SMALL, lines(other), "east"), self.asked(SMALL, lines(view), "east"))

    def test_faulty_views(self) -> None:
        rows = [
            "close,,12, / close,,, / ",
            "close,,sealed, / close,,12, / ",
            "close,,closed, / ",
            "close,,12 13, / ",
            "close,,sealed, / close,,sealed, / ",
            "close,,68719476737, / ",
            "close,west,12, / ",
            "close,,12,5 / ",
            "close,,sealed, / close,,closed, / close,,closed, / ",
        ]
        for text in rows:
            with self.subTest(text=text):
                self.assertIn("cca: refused log", self.asked(SMALL, lines(text + "bid,east,1,"), "east")[0])

    def test_no_caps(self) -> None:
        self.assertEqual(self.asked(SMALL, lines("bid,east,1,"), "east")[0].splitlines()[0][:17], "east round 1 open")
        self.assertEqual(self.asked(SMALL, lines(ROW), "north")[1], 2)
        self.assertIn("supply 1", self.asked(SMALL, lines(ROW), "east", "4")[0])
        self.assertIn("points 2", self.asked(SMALL, lines(ROW), "west", "3")[0])
        self.assertEqual(self.asked(SMALL, lines(ROW), "east", "x")[1], 2)


class WhatIf(unittest.TestCase):
    def setUp(self) -> None:
        self.kept = os.environ.pop("CCA_PROGRAM", None)
        os.environ["CCA_PROGRAM"] = "nothing"

    def tearDown(self) -> None:
        os.environ.pop("CCA_PROGRAM")
        if self.kept:
            os.environ["CCA_PROGRAM"] = self.kept

    def test_dropped_draft(self) -> None:
        text, status = said(what_if, SMALL, lines(ROW), lines(ROW.replace("draft,east,3,44", "drop,east,3,")))
        self.assertEqual(
            (text.splitlines()[:5], status),
            (["lines", "- 10 draft,east,3,44: ok", "+ 10 drop,east,3,: ok", "book", "bid east 3 30, before 44"], 0),
        )
        self.assertEqual(text.count("winner east 1 20"), 2)

    def test_changed_reply(self) -> None:
        text, _ = said(what_if, SMALL, lines(ROW), lines(ROW.replace("draft,east,3,44", "draft,east,3,46")))
        self.assertIn("  11 submit,east,,: relative-cap 2 44, before ok\n    Entry 2 of the list", text)
        self.assertIn("bid east 1 12, before 20", text)

    def test_why_a_new_line_is_refused(self) -> None:
        text, _ = said(what_if, SMALL, lines(ROW), lines("bid,west,3, / " + ROW))
        self.assertIn(
            "+ 1 bid,west,3,: points 2\n    The package has 3 x 1 = 3 points, and west is eligible for 2", text
        )

    def test_the_least_amount_may_be_0(self) -> None:
        """Nobody has a bid, and the reserve is 0."""
        free, log = SMALL.replace(b"reserve = 10", b"reserve = 0"), lines("close,,, / close,,,")
        text, _ = said(lambda names: what_if([*names, "--least", "west", "2"]), free, log)
        self.assertEqual(text.splitlines()[0], "least west 2 0")
        self.assertIn("\nwinner west 2 0\nnet 0\n", text)

    def test_faulty_files(self) -> None:
        with tempfile.TemporaryDirectory() as folder:
            names = [os.path.join(folder, name) for name in ("award", "log", "edited")]
            for name, data in zip(names, (SMALL, lines(ROW), lines(ROW + " / draft,east,1,1.5"))):
                with open(name, "wb") as file:
                    file.write(data)
            text, status, said = called("what-if", *names)
            self.assertEqual(
                (text, said.splitlines()[:2], status),
                (
                    "",
                    [
                        "tools/what-if: cca: refused log 13",
                        "Record 13, line 13 of the file: `draft,east,1,1.5`",
                    ],
                    3,
                ),
            )
            self.assertIn("(in the edited log)", said)
            text, status, said = called("caps", names[0], names[2], "east")
            self.assertEqual(
                (text, said.splitlines()[0], "(in the" in said, status),
                ("", "tools/caps: cca: refused log 13", False, 3),
            )

    def test_gone_and_new(self) -> None:
        head, log = "bid,west,1, / ", lines(ROW)
        text = said(what_if, SMALL, log, lines(head + ROW))[0]
        self.assertEqual(text.splitlines()[:3], ["lines", "+ 1 bid,west,1,: ok", "book"])
        text = said(what_if, SMALL, lines(ROW + " / close,,,"), log)[0]
        self.assertEqual(text.splitlines()[:3], ["lines", "- 13 close,,,: stage", "book"])

    def test_least(self) -> None:
        # with 20 and 24 the net value is 14; three lots have to bring more than that, and come after one lot in the
        # order of ties
        text, status = said(lambda names: what_if([*names, "--least", "east", "3"]), SMALL, lines(ROW))
        self.assertEqual((text.splitlines()[0], status), ("least east 3 45", 0))
        self.assertIn(
            "The rules would refuse it on the submitted list of east: 3 for 45 would be above its cap, 44.", text
        )
        # of west's two lots 20 is the least that the reserve and the clock allow, and they win with one of east's
        self.assertEqual(
            said(lambda names: what_if([*names, "--least", "west", "2"]), SMALL, lines(ROW))[0].splitlines()[0],
            "least west 2 24",
        )
        # with 20 they would win too, where east's three lots are worth their reserve; west named 24 in the clock
        dropped = lines(ROW.replace("draft,east,3,44", "drop,east,3,"))
        text, _ = said(lambda names: what_if([*names, "--least", "west", "2"]), SMALL, dropped)
        self.assertEqual(text.splitlines()[0], "least west 2 24")
        self.assertIn("A sealed amount for this package may not be less, by its reserve and the clock.", text)
        self.assertEqual(said(lambda names: what_if([*names, "--least", "west", "3"]), SMALL, lines(ROW))[1], 1)


@with_program
class BesideTheProgram(unittest.TestCase):
    """The package's winners and prices are the ones that the program prints."""

    def test_books(self) -> None:
        for name in ("day-cramton.book", "tie.book", "six-bidders.book"):
            data = sample(name)
            book = read_book(data)
            printed = program_run("win", "BOOK", BOOK=data)
            self.assertEqual(("\n".join(winner_lines(book)) + "\n", 0), (printed.printed, printed.status))
            printed = program_run("price", "BOOK", "CERT", BOOK=data)
            self.assertEqual("\n".join(price_lines(book)) + "\n", printed.printed)

    def test_what_if(self) -> None:
        log = lines(ROW)
        prices = program_run("award", "AWARD", "LOG", "CERT", AWARD=SMALL, LOG=log).printed.splitlines()
        edited = lines(ROW.replace("draft,east,3,44", "drop,east,3,"))
        after = program_run("award", "AWARD", "LOG", "CERT", AWARD=SMALL, LOG=edited).printed.splitlines()
        text, _ = said(what_if, SMALL, log, edited)
        told = text.splitlines()
        lines_before = told[told.index("before") + 1 : told.index("after")]
        ties = [line for line in lines_before if line.startswith(("There is a tie: ", "  "))]
        self.assertEqual([*prices, *ties], lines_before)
        self.assertEqual(told[told.index("after") + 1 :], after)
        text, _ = said(lambda names: what_if([*names, "--least", "east", "3"]), SMALL, log)
        # (the list that is admitted has 21 for the package that the cap depends on, and wins that instead)
        book = b"book 1\nsupply 3\nreserve 10\nbidder east\nbid 1 21\nbid 3 45\nbidder west\nbid 2 24\nend\n"
        wanted = program_run("price", "BOOK", "CERT", BOOK=book).printed.splitlines()
        found = text.splitlines()[text.splitlines().index("with that list") + 1 :]
        self.assertEqual(found[: len(wanted)], wanted)
        self.assertIn("winner east 1 bid 21", wanted[0])
        self.assertIn("With that list east wins 1 for 21 instead.", text)


if __name__ == "__main__":
    unittest.main()
