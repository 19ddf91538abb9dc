"""Studies: plans, rows, and runs that are stopped, killed, and spread over workers."""
import contextlib
import csv
import hashlib
import importlib.util
import io
import json
import os
import pathlib
import signal
import statistics
import subprocess
import sys
import tempfile
import time
import unittest
import unittest.mock
from fractions import Fraction
from typing import Any

from checks.cases.program import PROGRAM, with_program
from checks.cases.samples import TOOLS

import cca_tools
from cca_tools.page import html, plain
from cca_tools.page.document import Figures, Table
from cca_tools.rules.award import read_award
from cca_tools.rules.stops import Stop
from cca_tools.studies import awarding, pictures, rows
from cca_tools.studies.measures import Spread, pairs_of, results_of, spread_of, student, wilson
from cca_tools.studies.origin import Origin
from cca_tools.studies.pages import drawings, page_of
from cca_tools.studies.plan import award_of, award_text, read_plan
from cca_tools.studies.rows import Row
from cca_tools.studies.rows import Job
from test_rehearse import ONE, VALUES

PLAN = """plan = 1
award = "a.award"
values = "v.values"
auctions = 3
seed = 5
[vary]
version = [1, 2]
share = [100, 60]
"""


ORIGIN = Origin("5a" * 32, "NOT PROVED: so", "1.0.0", "ab12", "c3" * 32, {"plan.toml": "d4" * 32})


def take_interrupts() -> None:
    """Lets Ctrl-C end a process even if this one ignores it."""
    signal.signal(signal.SIGINT, signal.SIG_DFL)


class WithPlan(unittest.TestCase):
    def setUp(self) -> None:
        folder = tempfile.TemporaryDirectory()
        self.addCleanup(folder.cleanup)
        self.folder = pathlib.Path(folder.name)
        (self.folder / "a.award").write_bytes(ONE)
        (self.folder / "v.values").write_bytes(VALUES.replace(b"lot = [20, 9]", b"lot = [[12, 60], [6, 40]]"))

    def plan(self, text: str = PLAN) -> str:
        path = self.folder / "p.toml"
        path.write_text(text)
        return str(path)

    def words(self, out: str, *more: str, text: str = PLAN) -> list[str]:
        tool = os.path.join(TOOLS, "study")
        return [sys.executable, tool, self.plan(text), "--out", str(self.folder / out), *more]

    def run_study(self, out: str, *more: str, text: str = PLAN, status: int = 0) -> tuple[str, str]:
        made = subprocess.run(self.words(out, *more, text=text), capture_output=True, text=True)
        self.assertEqual(made.returncode, status, made.stderr)
        return made.stdout, made.stderr

    def table(self, out: str) -> str:
        return (self.folder / out / "table.csv").read_text()

    def kept(self, out: str) -> int:
        path = self.folder / out / "rows.jsonl"
        return path.read_bytes().count(b"\n") if path.exists() else 0


class Plans(WithPlan):
    def test_cases(self) -> None:
        plan = read_plan(self.plan())
        self.assertEqual([(case.version, case.share) for case in plan.cases], [(1, 100), (1, 60), (2, 100), (2, 60)])
        self.assertEqual((plan.varied, plan.label(plan.cases[1])), (("version", "share"), "version 1, share 60"))
        self.assertEqual(plan.sum(), read_plan(self.plan(PLAN.replace("= 3", "= 9"))).sum())
        self.assertNotEqual(plan.sum(), read_plan(self.plan(PLAN.replace("= 5", "= 9"))).sum())

    def test_the_award_of_a_case(self) -> None:
        text = PLAN.replace("share = [100, 60]", "increment = 150\nreserve = 250\nbidders = 1")
        plan = read_plan(self.plan(text))
        award = read_award(award_text(award_of(plan.base(), plan.cases[0])).encode())
        self.assertEqual((award.version, award.reserves, award.names), (1, (25, 12), ["east"]))
        self.assertEqual([(step.excess, step.permille) for step in award.steps], [(1, 150)])

    def test_an_award_as_text(self) -> None:
        award = read_award(pathlib.Path(TOOLS, "../examples/spectrum.award").read_bytes())
        again = read_award(award_text(award).encode())
        self.assertEqual((vars(again)), vars(award))

    def test_faults(self) -> None:
        for old, new, why in (
            ("plan = 1", "plan = 2", "`plan` is 2; it has to be a whole number from 1 to 1"),
            ("auctions = 3", "auctions = 0", "`auctions` is 0; it has to be a whole number from 1 to 1000000"),
            ("[1, 2]", "[1, 3]", "[vary]: `version` is [1, 3]; it has to be a list of whole numbers from 1 to 2"),
            ("share", "sharing", "[vary]: the key `sharing` isn't known here"),
            (
                "[vary]",
                "[vary]\nbidders = 3",
                "[vary]: `bidders` is 3; it has to be a list of whole numbers from 1 to 2",
            ),
            ("[vary]", "[var]", "the key `var` isn't known here"),
            ('"v.values"', "[]", "`values` is []; it has to be a text or a list of texts"),
            ('"v.values"', '["v.values", 3]', "`values` is ['v.values', 3]; it has to be a text or a list of texts"),
            ("= 5", "=", "the file is no TOML: here a value has to be (line 5, column 7)"),
        ):
            with self.subTest(new), self.assertRaises(Stop) as caught:
                read_plan(self.plan(PLAN.replace(old, new)))
            self.assertEqual((caught.exception.line, caught.exception.why), ("cca: refused plan", why))


class Measures(WithPlan):
    def test_a_spread(self) -> None:
        """Of 1 to 5 the mean is 3, the variance 5/2, and its standard error the root of 1/2."""
        found = spread_of([Fraction(it) for it in (5, 1, 4, 2, 3)])
        self.assertEqual((found.count, found.mean, found.quantiles), (5, 3.0, (1.2, 2.0, 3.0, 4.0, 4.8)))
        self.assertAlmostEqual(found.error, 0.5**0.5)

    def test_one_value_has_no_standard_error(self) -> None:
        found = spread_of([Fraction(7, 3)])
        self.assertEqual((found.error, found.words(), found.interval_words()), (None, "2.33", "n/a"))

    def test_intervals(self) -> None:
        """Student's values are as in printed tables, and Wilson's intervals as in table I of Newcombe (1998)."""
        for freedom, value in {1: 12.706, 2: 4.303, 3: 3.182, 4: 2.776, 9: 2.262, 29: 2.045, 120: 1.980}.items():
            self.assertAlmostEqual(student(freedom), value, 3)
        for some, every, low, high in ((81, 263, 0.2553, 0.3662), (15, 148, 0.0624, 0.1605), (0, 20, 0, 0.1611)):
            found = wilson(some, every)
            self.assertAlmostEqual(found[0], low, 4)
            self.assertAlmostEqual(found[1], high, 4)

    def test_many_values_of_real_size(self) -> None:
        """The mean and the error of 4,000 values with as many denominators, compared with the ones that floats give."""
        values = [Fraction(100 * (n * n % 7919), 3_000_001 + n) for n in range(4000)]
        found = spread_of(values)
        self.assertAlmostEqual(found.mean, statistics.fmean(map(float, values)), 9)
        self.assertAlmostEqual(found.error, statistics.stdev(map(float, values)) / 4000**0.5, 9)

    def test_pairs(self) -> None:
        plan = read_plan(self.plan(PLAN.replace("share = [100, 60]", "share = [100, 80, 60]")))
        table = [{"auction": str(n % 3 + 1), "efficiency": str(n)} for n in range(18)]
        results = results_of(plan, table)
        pairs = [(it.field, it.first.version, it.first.share, it.second.share) for it in pairs_of(results)]
        self.assertEqual(len(pairs), 2 * 2 + 3)
        self.assertEqual(pairs[:2], [("share", 1, 100, 80), ("version", 1, 100, 100)])
        first = results.difference(pairs_of(results)[0], lambda row: Fraction(row["efficiency"]))
        self.assertEqual((first.mean, first.error, first.count), (3.0, 0.0, 3))


def row_of(number: int, *values: object) -> Row:
    """A row of a table; only east has a profit."""
    cells = "auction best core vickrey bids efficiency raised rounds unsold profit east_profit west_profit".split()
    return dict(zip(cells, map(str, (number, *values, values[-1], 0))))


class Pages(WithPlan):
    """The page of two cases of three auctions; a limit stopped one of them."""

    TABLE = [
        row_of(1, 100, 50, 50, 90, 1, "no", 3, 0, 40),
        row_of(2, 100, 60, 50, 80, "0.9", "yes", 4, 0, 30),
        row_of(3, 100, 70, 50, 70, "0.8", "yes", 8, 3, 0),
        row_of(1, 200, 140, 100, 160, 1, "yes", 2, 0, 20),
        row_of(2, 200, 100, 100, 160, 1, "yes", 2, 0, 60),
        {"auction": "3", "stopped": "limit winners 7"},
    ]

    def setUp(self) -> None:
        super().setUp()
        self.results = results_of(read_plan(self.plan(PLAN.replace("share = [100, 60]", ""))), self.TABLE)
        self.page = page_of(self.results, "name", ORIGIN)

    def test_what_was_tried(self) -> None:
        cases, differences, plan, origin = self.page.sections
        self.assertEqual((plan.title, cases.title), ("What was tried", "What came out"))
        self.assertEqual(differences.title, "What differs, auction by auction")
        self.assertRegex(
            cases.finding, r"^Mean revenue over two cases, of what the best allocation is worth: core 60\.0 %,"
        )
        (figures,) = [it for it in plan.blocks if isinstance(it, Figures)]
        self.assertEqual(
            figures.pairs,
            [("auctions of each case", "3"), ("cases", "2"), ("auctions in all", "6"), ("first seed", "5")],
        )
        (fields,) = [it for it in plan.blocks if isinstance(it, Table)]
        self.assertIn(["version", "1, 2"], [row[:2] for row in fields.rows])
        self.assertIn("1 auction was stopped by a limit, and is left out.", plain.text(self.page))

    def test_measures(self) -> None:
        """In the first case the core's revenue is 50, 60 and 70 percent: its mean is 60, its variance 100, and the
        standard error the root of 100/3; the others in the same way. Wilson's interval of 2 of 3 is 20.77 to 93.85 (as
        scipy and R's prop.test without correction have it)."""
        (table,) = [it for it in self.page.sections[0].blocks if isinstance(it, Table)]
        two, both = "66.67 (20.77 to 93.85)", "100.00 (34.24 to 100.00)"
        first = "3", "90.00 ± 5.77", "60.00 ± 5.77", "50.00 ± 0.00", "80.00 ± 5.77", two, "5.00 ± 1.53"
        second = "2", "100.00 ± 0.00", "60.00 ± 10.00", "50.00 ± 0.00", "80.00 ± 0.00", both, "2.00 ± 0.00"
        self.assertEqual(table.rows, [["version 1", *first, "1.00 ± 1.00"], ["version 2", *second, "0.00 ± 0.00"]])

    def test_differences(self) -> None:
        """Only the first two auctions have both. In percent of the first case's best value, 100, revenue is 90 and 40
        more, and profit 20 less and 30 more."""
        rules, pair = drawings(self.results)
        self.assertEqual(
            (rules.key, pair.title), ("rules", "with the final cap (version 2) against without (version 1)")
        )
        self.assertEqual(
            pair.caption,
            "Efficiency isn't seen to change (5.00 ± 5.00) and revenue rises by 65.00 ± 25.00, in % of what the best"
            " allocation of the first case is worth",
        )
        found = {name: (spread.count, spread.mean, spread.error) for name, spread, _ in pair.flat}
        self.assertEqual(
            found,
            {
                "efficiency": (2, 5.0, 5.0),
                "revenue": (2, 65.0, 25.0),
                "profit of all": (2, 5.0, 25.0),
                "profit of east": (2, 5.0, 25.0),
                "profit of west": (2, 0.0, 0.0),
            },
        )

    def test_pictures_are_parts_of_the_page(self) -> None:
        """A picture of the page isn't a file of its own: a browser would show its head as text."""
        text = html.page(self.page)
        self.assertEqual((text.count("<svg "), text.count("<?xml")), (2, 0))
        self.assertEqual([it.text(is_file=True)[:5] for it in drawings(self.results)], ["<?xml"] * 2)

    def test_colours_of_differences(self) -> None:
        """Green is more and orange less, by over two standard errors."""
        every = [pictures.colour_of(Spread(9, mean, 1.0, ())) for mean in (2.1, 2.0, -2.0, -2.1)]
        self.assertEqual([edge for _, edge in every], ["green", "blue", "blue", "orange"])

    def test_without_a_row(self) -> None:
        every = [{"auction": str(n % 3 + 1), "stopped": "limit winners 7"} for n in range(6)]
        page = page_of(results_of(self.results.plan, every), "name", ORIGIN)
        self.assertEqual([it.title for it in page.sections], ["What was tried", "What made it"])
        self.assertIn("6 auctions were stopped by a limit, and are left out.", plain.text(page))
        self.assertEqual(list(drawings(results_of(self.results.plan, every))), [])


def address_of(where: pathlib.Path, end: float) -> str:
    """The address that a scheduler of Dask writes into this file, once it is whole."""
    while time.monotonic() < end:
        with contextlib.suppress(OSError, ValueError):
            address: str = json.loads(where.read_text())["address"]
            return address
        time.sleep(0.1)
    raise AssertionError("the scheduler doesn't start")


@with_program
class Runs(WithPlan):
    def test_a_study_that_is_stopped_goes_on(self) -> None:
        printed, said = self.run_study("whole")
        self.assertIn("12 of 12 auctions", said)
        self.assertIn("(version 2) against without (version 1), share 100, in % of the best value", printed)
        rows = list(csv.DictReader(io.StringIO(self.table("whole"))))
        self.assertEqual(
            [(row["version"], row["share"], row["auction"]) for row in rows[:4]],
            [
                ("1", "100", "1"),
                ("1", "100", "2"),
                ("1", "100", "3"),
                ("1", "60", "1"),
            ],
        )
        for row in rows:
            self.assertEqual((row["refused"], row["audit"]), ("0", "yes" if row["auction"] == "1" else ""))
            paid = sum(Fraction(row[f"{name}_price"]) for name in ("east", "west"))
            value = sum(int(row[f"{name}_value"]) for name in ("east", "west"))
            self.assertEqual((paid, value - paid), (Fraction(row["core_exact"]), Fraction(row["profit"])))
            self.assertLessEqual(int(row["value"]), int(row["best"]))
        whole = (self.folder / "whole" / "rows.jsonl").read_bytes()
        for kept in (0, 1, len(whole) // 2, len(whole)):
            (self.folder / "again").mkdir(exist_ok=True)
            (self.folder / "again" / "rows.jsonl").write_bytes(whole[:kept])
            self.run_study("again")
            self.assertEqual(self.table("again"), self.table("whole"))
        self.run_study("again", text=PLAN.replace("auctions = 3", "auctions = 2"))
        _, said = self.run_study("again", text=PLAN.replace("seed = 5", "seed = 6"), status=5)
        self.assertIn("has rows of another plan", said)
        kept_rows = whole.splitlines(keepends=True)
        (self.folder / "again" / "rows.jsonl").write_bytes(
            b"".join([*kept_rows[:3], b"\0\0" + kept_rows[3][9:], *kept_rows[4:]])
        )
        _, said = self.run_study("again")
        self.assertIn(
            "1 of the lines of rows.jsonl can't be read; their auctions are held again", said.replace("\n", " ")
        )
        self.assertEqual(self.table("again"), self.table("whole"))
        page = (self.folder / "whole" / "page.html").read_text()
        pictures = {path.name: path.read_text() for path in (self.folder / "whole").glob("*.svg")}
        self.assertEqual(sorted(pictures), ["pair1.svg", "pair2.svg", "pair3.svg", "pair4.svg", "rules.svg"])
        # (for each of two pictures it is the head of the card, twice in the picture, and above the table)
        self.assertEqual((page.count("<svg"), page.count("share 60 against 100")), (5, 8))
        self.assertIn("with the final cap (version 2) against without", pictures["pair2.svg"])

    def test_processes_are_few(self) -> None:
        """Also a number with more digits than Python converts is refused in a sentence."""
        for text in ("0", "1001", "x", "1" * 5_000):
            _, said = self.run_study("few", "--processes", text, status=2)
            self.assertIn("--processes takes a whole number from 1 to 1000, and `", said.replace("\n", " "))

    def test_what_made_it(self) -> None:
        """Rows, table and page name the program by the checksum of its file, and another one doesn't go on."""
        self.run_study("made", "--processes", "1")
        total = hashlib.sha256(pathlib.Path(PROGRAM).read_bytes()).hexdigest()
        head = json.loads((self.folder / "made" / "rows.jsonl").read_text().splitlines()[0])
        self.assertEqual((head["program"], head["tools"]), (total, cca_tools.__version__))
        rows = list(csv.DictReader(io.StringIO(self.table("made"))))
        plan = read_plan(self.plan())
        self.assertEqual({(row["program"], row["plan"]) for row in rows}, {(total, plan.sum())})
        page = (self.folder / "made" / "page.html").read_text()
        for name in ("a.award", "v.values", "p.toml"):
            text = (self.folder / name).read_bytes()
            copy = self.folder / "made" / "inputs" / ("plan.toml" if name == "p.toml" else name)
            self.assertEqual(copy.read_bytes(), text)
            self.assertIn(hashlib.sha256(text).hexdigest(), page)
        self.assertEqual(read_plan(str(self.folder / "made" / "inputs" / "plan.toml")).sum(), plan.sum())
        self.assertIn(total, page)
        other = self.folder / "other"
        other.write_bytes(pathlib.Path(PROGRAM).read_bytes() + b"\n")
        other.chmod(0o755)
        with unittest.mock.patch.dict(os.environ, CCA_PROGRAM=str(other)):
            _, said = self.run_study("made", status=5)
            self.assertIn("has rows of another program;", " ".join(said.split()))

    def test_a_price_above_the_bid_stops_the_study(self) -> None:
        """A program between that puts a 9 before each price."""
        other = self.folder / "other"
        other.write_text(f"#!/bin/sh\n{os.path.abspath(PROGRAM)} \"$@\" | sed 's/ pays / pays 9/'\n")
        other.chmod(0o755)
        plan = read_plan(self.plan())
        awarding.audited.add(hashlib.sha256(other.read_bytes()).hexdigest())
        with unittest.mock.patch.dict(os.environ, CCA_PROGRAM=str(other)):
            (made,) = rows.rows_of(plan, [Job(0, 2)], None)
        assert made.stop is not None
        self.assertEqual(made.stop[:2], ("cca: audit", 70))
        self.assertIn("which aren't in this order", made.stop[2])

    def test_two_runs_of_one_folder(self) -> None:
        text = PLAN.replace("auctions = 3", "auctions = 4000")
        with subprocess.Popen(
            self.words("two", text=text), stderr=subprocess.DEVNULL, stdout=subprocess.DEVNULL
        ) as made:
            end = time.monotonic() + 120
            while self.kept("two") < 3 and time.monotonic() < end:
                time.sleep(0.02)
            _, said = self.run_study("two", text=text, status=5)
            made.kill()
        self.assertIn("Another run works on", said)

    def test_no_worker_outlives_its_study(self) -> None:
        """Killed in each way, the study takes its processes with it: the pipe that they have is closed."""
        text = PLAN.replace("auctions = 3", "auctions = 4000")
        for number in (signal.SIGTERM, signal.SIGKILL):
            words = self.words(f"ended{number}", "--processes", "2", text=text)
            with subprocess.Popen(words, stderr=subprocess.DEVNULL, stdout=subprocess.PIPE) as made:
                end = time.monotonic() + 120
                while self.kept(f"ended{number}") < 3 and time.monotonic() < end:
                    time.sleep(0.02)
                made.send_signal(number)
                made.communicate(timeout=60)
            self.assertEqual(made.returncode, -number)

    def test_an_interrupt_ends_the_auctions_that_run(self) -> None:
        """The program never ends, and Ctrl-C ends it with its study."""
        began, other = self.folder / "began", self.folder / "other"
        other.write_text(f"#!/bin/sh\ntouch '{began}'\nexec sleep 600\n")
        other.chmod(0o755)
        with unittest.mock.patch.dict(os.environ, CCA_PROGRAM=str(other)), subprocess.Popen(
            self.words("ended"), stderr=subprocess.PIPE, stdout=subprocess.PIPE, text=True, preexec_fn=take_interrupts
        ) as made:
            end = time.monotonic() + 120
            while not began.exists() and time.monotonic() < end:
                time.sleep(0.02)
            made.send_signal(signal.SIGINT)
            # (the program has the same standard error, which is closed once it has ended)
            printed, said = made.communicate(timeout=60)
        self.assertEqual((made.returncode, printed), (130, ""))
        self.assertIn("0 auctions are kept; run it again to go on.", said)

    def test_a_study_that_is_killed_goes_on(self) -> None:
        text = PLAN.replace("auctions = 3", "auctions = 15")
        with subprocess.Popen(
            self.words("killed", text=text), stderr=subprocess.DEVNULL, start_new_session=True
        ) as made:
            end = time.monotonic() + 120
            while self.kept("killed") < 5 and time.monotonic() < end:
                time.sleep(0.02)
            os.killpg(made.pid, signal.SIGKILL)
        at_kill = self.kept("killed")
        self.assertLess(4, at_kill)
        self.run_study("killed", text=text)
        self.run_study("whole", text=text)
        self.assertEqual((self.table("killed"), self.kept("killed")), (self.table("whole"), 61))

    def test_the_first_of_each_hundred_is_audited(self) -> None:
        plan = read_plan(self.plan())
        made = rows.rows_of(plan, [Job(0, number) for number in (1, 2, 100, 101, 201)], None)
        self.assertEqual([it.row.get("audit") for it in made], ["yes", "", "", "yes", "yes"])

    def study_of_single_lots(self, name: str, lots: int) -> list[Row]:
        """The table of a study whose auctions have as many winners as lots: each wins one, and a further lot is worth
        less."""
        many = b"".join(b'[[bidder]]\nname = "c%d"\neligibility = 9\n' % n for n in range(lots - 1))
        (self.folder / "a.award").write_bytes(
            ONE.replace(b"supply = 2", b"supply = %d" % lots).replace(b"[[step]]", many + b"[[step]]")
        )
        values = b'values = 1\n[[bidder]]\nmodel = "additive"\nlot = [[90, 99], 0]\ndecrease = 90\n'
        (self.folder / "v.values").write_bytes(values)
        self.run_study(name, text=PLAN.replace("auctions = 3", "auctions = 1"))
        return list(csv.DictReader(io.StringIO(self.table(name))))

    def test_more_winners_than_the_program_prices(self) -> None:
        rows = self.study_of_single_lots("seven", 7)
        self.assertEqual(
            {(row["stopped"], row["winners"], row["found_by"]) for row in rows}, {("", "7", "tools/price")}
        )
        self.assertTrue(all(float(row["vickrey"]) <= float(row["core"]) <= float(row["bids"]) for row in rows))

    def test_a_limit_is_a_row(self) -> None:
        rows = self.study_of_single_lots("limit", 11)
        self.assertEqual({(row["stopped"], row["core"]) for row in rows}, {("limit rows 11", "")})

    @unittest.skipUnless(importlib.util.find_spec("distributed"), "the package python3-distributed isn't installed")
    def test_workers_of_dask_one_of_them_killed(self) -> None:
        text = PLAN.replace("auctions = 3", "auctions = 25")
        where = self.folder / "scheduler.json"
        quiet: dict[str, Any] = {"stdout": subprocess.DEVNULL, "stderr": subprocess.DEVNULL, "cwd": self.folder}
        # (this package isn't on the path of the workers: they get it from the study)
        quiet["env"] = {**os.environ, "CCA_PROGRAM": os.path.abspath(PROGRAM)}
        run = [sys.executable, "-m"]
        at = ["--scheduler-file", str(where), "--no-dashboard"]
        scheduler = subprocess.Popen(
            [*run, "distributed.cli.dask_scheduler", "--host", "127.0.0.1", "--port", "0", *at], **quiet
        )
        workers = [
            subprocess.Popen(
                [*run, "distributed.cli.dask_worker", "--no-nanny", "--nthreads", "1", "--host", "127.0.0.1", *at],
                **quiet,
            )
            for _ in range(3)
        ]
        try:
            end = time.monotonic() + 300
            address = address_of(where, end)
            with subprocess.Popen(
                self.words("dask", "--scheduler", address, text=text), stdout=subprocess.PIPE, stderr=subprocess.PIPE
            ) as made:
                while self.kept("dask") < 12 and time.monotonic() < end and made.poll() is None:
                    time.sleep(0.02)
                workers[0].kill()
                at_kill = self.kept("dask")
                _, said = made.communicate()
            self.assertEqual((made.returncode, 12 <= at_kill < 101), (0, True), said.decode())
        finally:
            for process in [*workers, scheduler]:
                process.kill()
                process.wait()
        self.run_study("alone", text=text)
        self.assertEqual(self.table("dask"), self.table("alone"))


if __name__ == "__main__":
    unittest.main()
