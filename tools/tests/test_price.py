"""tools/price: its tables, points, rows and files.

Expected values come from closed forms, plain searches and the second program.
"""

import itertools
import json
import os
import pathlib
import random
import signal
import subprocess
import sys
import tempfile
import unittest
import unittest.mock
from fractions import Fraction
from collections.abc import Iterator, Sequence

from contextlib import AbstractContextManager
from checks.cases import many_winners
from checks.cases.program import PROGRAM, with_program
from checks.cases.samples import EXAMPLES, TOOLS, called
from checks.cases.searches import core_point as plain_point

from cca_tools.rules.types import Bid, Gross, Net
from cca_tools.pricing import certificates, files, program_rows, search
from cca_tools.pricing.certificates import certificate_of
from cca_tools.pricing.fewer_rows import (
    Makers,
    Shown,
    Tight,
    are_independent,
    exchanges_with,
    fewer,
    fewest,
    searched,
    tight_rows,
)
from cca_tools.pricing.nearest import Demand, Nearest, solved
from cca_tools.pricing.search import Found, Market, core_point, market_of
from cca_tools.pricing.tables import ArrayFiller, ListFiller, has_numpy, undominated
from cca_tools.rules.book import Book, book_text
from cca_tools.rules.certificate import read_certificate
from cca_tools.rules.certificate_tests import first_fault
from cca_tools.rules.stops import Stop
from cca_tools.rules.winners import table_of, winning_choice

NO_PROGRAM = {"CCA_PROGRAM": "/nowhere"}


def drawn(seed: int) -> Book:
    """A book of two categories, or of one category with enough lots for more than six winners."""
    rng, is_long = random.Random(seed), seed % 2
    supply = (rng.randint(10, 14),) if is_long else (rng.randint(3, 4), rng.randint(3, 4))
    bids = []
    for _ in range(rng.randint(8, 14)):
        most = rng.choice([1, 1, 2 if is_long else 3])
        packages = {tuple(rng.randint(0, most) for _ in supply) for _ in range(rng.randint(1, 4))}
        bids.append(sorted((p, Gross(sum(p) * rng.randint(3, 12))) for p in packages if any(p)))
    return Book(supply, (1,) * len(supply), [f"b{j}" for j in range(1, len(bids) + 1)], bids)


def singles(amounts: Sequence[int], supply: int, losers: Sequence[tuple[int, int]] = ()) -> Book:
    """A book of one category. Each bidder bids for one lot, and the losers for packages of their own."""
    bids: list[list[Bid]] = [[((1,), Gross(amount))] for amount in amounts]
    bids += [[((count,), Gross(amount))] for count, amount in losers]
    return Book((supply,), (0,), [f"b{j}" for j, _ in enumerate(bids, 1)], bids)


def rivals(winners: int, losers: Sequence[int] = (50, 40, 30, 20, 10)) -> Book:
    """A book whose winners each need a row of their own: all bid for one lot, and the losers offer less one after the
    other. So each single winner has to pay the first loser's bid, and two together less than twice that.
    """
    return singles([100 + j for j in range(winners)], winners, [(1, amount) for amount in losers])


def found_of(book: Book) -> tuple[Market, Found]:
    """The core point of a book without weights."""
    market = market_of(book)
    return market, core_point(market, [1] * len(market.winners))


class Tables(unittest.TestCase):
    def fillers(self, book: Book) -> Iterator[ListFiller | ArrayFiller]:
        yield ListFiller(book)
        if has_numpy():
            yield ArrayFiller(book)

    def test_tables_and_winners_are_those_of_the_second_program(self) -> None:
        for seed in range(30):
            book = drawn(seed)
            for filler in self.fillers(book):
                lines = filler.table(book.net)
                self.assertEqual([filler.numbers(line) for line in lines], table_of(book))
                self.assertEqual(
                    (filler.picked(lines, book.net), filler.top(lines)),
                    winning_choice(book),
                )

    def test_a_table_without_a_bidder_is_the_table_of_its_book_without_bids(self) -> None:
        for seed in range(20):
            book = drawn(seed)
            for filler, k in itertools.product(self.fillers(book), range(book.bidders)):
                bids = [[] if j == k else of_one for j, of_one in enumerate(book.bids)]
                lines = filler.table_without(k, filler.table(book.net), book.net)
                expected = table_of(Book(book.supply, book.reserves, book.names, bids))
                self.assertEqual([filler.numbers(line) for line in lines], expected)

    def test_numbers_beyond_64_bits_are_exact(self) -> None:
        book = drawn(1)
        for filler, times in itertools.product(self.fillers(book), (2**57, 2**60, 2**100)):
            great = [[net * times for net in nets] for nets in book.net]
            expected = [[entry * times for entry in line] for line in table_of(book)]
            self.assertEqual([filler.numbers(line) for line in filler.table(great)], expected)
            scaled = filler.scaled(filler.table(book.net), times)
            self.assertEqual([filler.numbers(line) for line in scaled], expected)

    def test_undominated(self) -> None:
        amounts = {(0, 1): 5, (1, 0): 7, (1, 1): 7, (1, 2): 13, (2, 0): 6}
        bids = [(package, Gross(amount)) for package, amount in amounts.items()]
        self.assertEqual(undominated(bids, list(amounts.values())), [0, 1, 3])


class Points(unittest.TestCase):
    def test_solved(self) -> None:
        self.assertEqual(solved([[2, 1], [1, 2]], [[3, 3]]), [[Fraction(1), Fraction(1)]])
        self.assertIsNone(solved([[1, 1], [1, 1]], [[1, 1]]))

    def test_two_winners_share_equally_or_by_their_weights(self) -> None:
        rows, vickrey = [Demand(1, Net(14), ()), Demand(2, Net(12), ()), Demand(3, Net(32), ())], [Net(14), Net(12)]
        self.assertEqual(Nearest(vickrey, [1, 1], rows).point().pays, [17, 15])
        self.assertEqual(
            Nearest(vickrey, [1, 3], rows).point().pays,
            [Fraction(31, 2), Fraction(33, 2)],
        )

    def test_points_are_those_of_a_plain_search(self) -> None:
        """All rows of three winners at once. The plain search tests all sets of rows that may be tight."""
        rng = random.Random(4)
        for _ in range(60):
            vickrey, weights = [Net(rng.randint(0, 9)) for _ in range(3)], [rng.randint(1, 5) for _ in range(3)]
            sets = [m for m in range(1, 8) if m.bit_count() == 1 or rng.random() < 0.7]
            rows = [
                Demand(m, Net(least + (m.bit_count() > 1) * rng.randint(0, 9)), ())
                for m in sets
                for least in [sum(v for i, v in enumerate(vickrey) if m >> i & 1)]
            ]
            plain = [([int(row.holds(i)) for i in range(3)], row.bound) for row in rows]
            self.assertEqual(
                Nearest(vickrey, weights, rows).point().pays,
                plain_point(plain, vickrey, weights),
            )

    def test_a_rounded_search_ends_at_the_same_point(self) -> None:
        for seed in range(40):
            market = market_of(drawn(seed))
            ones = [1] * len(market.winners)
            exact = core_point(market, ones).point.pays
            with unittest.mock.patch.object(search, "rough_den", lambda market, den: 1):
                self.assertEqual(core_point(market, ones).point.pays, exact)


class Certificates(unittest.TestCase):
    def test_certificates_pass(self) -> None:
        winners = []
        for seed in range(60):
            book, rng = drawn(seed), random.Random(seed)
            weights = [rng.randint(1, 20) for _ in book.names] if seed % 4 < 2 else None
            try:
                priced = certificate_of(book, weights)
            except Stop as stop:
                self.assertRegex(stop.line, "^cca: limit rows 1[1-6]$")
                continue
            winners.append(len(priced.market.winners))
            text = "\n".join([*priced.lines(), ""]).encode()
            self.assertIsNone(first_fault(book, read_certificate(text, book), weights))
        self.assertGreater(sum(count > 6 for count in winners), 20)

    def test_eight_winners_share_what_a_loser_asks_for(self) -> None:
        """Eight bid 10 each for one of eight lots, and a ninth 64 for all: each pays 8, and its Vickrey price is 0."""
        certificate = certificate_of(singles([10] * 8, 8, [(8, 64)])).certificate
        self.assertEqual([Fraction(pay, certificate.den) for pay in certificate.pay], [8] * 8 + [0])
        self.assertEqual([certificate.vickrey(j) for j in certificate.winners], [0] * 8)

    def test_ten_winners_share_by_their_weights(self) -> None:
        """Ten bid 100 each for one of ten lots, and another 550 for all. By weights of 1 to 10 they pay 10 to 100."""
        certificate = certificate_of(singles([100] * 10, 10, [(10, 550)]), [*range(1, 11), 1]).certificate
        self.assertEqual(
            [Fraction(pay, certificate.den) for pay in certificate.pay],
            [*range(10, 101, 10), 0],
        )

    def test_sixteen_winners_without_a_rival_pay_nothing(self) -> None:
        certificate = certificate_of(singles([10] * 16, 16)).certificate
        self.assertEqual((certificate.pay, len(certificate.rows)), ([0] * 16, 1))

    def test_nobody_bids(self) -> None:
        for book in (Book((1,), (0,), [], []), Book((1,), (0,), ["a"], [[]])):
            text = "\n".join([*certificate_of(book).lines(), ""]).encode()
            self.assertIsNone(first_fault(book, read_certificate(text, book)))


class Rows(unittest.TestCase):
    def test_eleven_rows_are_needed_where_no_two_winners_are_asked_together(self) -> None:
        market, found = found_of(rivals(11))
        self.assertEqual(found.point.pays, [50] * 11)
        tight = tight_rows(market, found, 1_000)
        self.assertEqual(
            (sorted(row.members for row in tight.rows), tight.are_all),
            ([1 << i for i in range(11)], True),
        )
        least = fewest(market, found, 10, seconds=60)  # (no search: it is known that none would find fewer)
        self.assertEqual((len(least.shown.rows), least.is_least), (11, True))

    def test_tight_rows_are_those_of_an_enumeration(self) -> None:
        """All sets of winners, each with the best choice without them by a table of its own."""
        for seed in range(12):
            market, found = found_of(drawn(seed))
            book, winners, expected = market.book, market.winners, set()
            for members in range(1, 1 << min(len(winners), 9)):
                out = [k for i, k in enumerate(winners) if members >> i & 1]
                bids = [[] if k in out else of_one for k, of_one in enumerate(book.bids)]
                worth = winning_choice(Book(book.supply, book.reserves, book.names, bids))[1]
                others = sum(b for i, b in enumerate(market.won) if not members >> i & 1)
                if worth - others == sum(p for i, p in enumerate(found.point.pays) if members >> i & 1):
                    expected.add(members)
            if len(winners) <= 9:
                tight = tight_rows(market, found, 100_000)
                self.assertEqual(
                    ({row.members for row in tight.rows}, tight.are_all),
                    (expected, True),
                )

    def test_a_cap_on_the_tight_rows_is_known(self) -> None:
        market, found = found_of(singles([10] * 12, 12))
        self.assertFalse(tight_rows(market, found, 100).are_all)
        self.assertEqual(len(tight_rows(market, found, 5_000).rows), 2**12 - 1)

    def shown(self, sets: Sequence[int]) -> Shown:
        """Rows of these members, with only first multipliers, all of them 1."""
        ones = [Fraction(1)] * len(sets)
        return Shown(
            [Demand(members, Net(0), ()) for members in sets],
            ones,
            [Fraction(0)] * len(sets),
        )

    def test_exchanges_join_rows(self) -> None:
        tight = [Demand(0b111111, Net(0), ())]
        self.assertEqual(len(fewer(self.shown([1 << i for i in range(6)]), tight, 1, 6).rows), 1)
        self.assertEqual(
            len(
                fewer(
                    self.shown([1 << i for i in range(6)]),
                    [Demand(0b000111, Net(0), ())],
                    1,
                    6,
                ).rows
            ),
            4,
        )

    def need_shown(self, market: Market, found: Found, shown: Shown) -> None:
        """Rows show the point: C7 and C8 of docs/CERTIFICATES.md, with equal weights."""
        members = [[row.holds(i) for row in shown.rows] for i in range(len(market.winners))]
        self.assertEqual([sum(u for u, has in zip(shown.first, of) if has) for of in members], [1] * len(members))
        moved = [pays - v for pays, v in zip(found.point.pays, market.vickrey)]
        self.assertEqual([sum(w for w, has in zip(shown.second, of) if has) for of in members], moved)
        self.assertTrue(all(u > 0 or u == 0 < w for u, w in zip(shown.first, shown.second)))

    def test_exchanges_show_the_point(self) -> None:
        counts = []
        for number in (4, 9, 17, 24, 27):
            market, found = found_of(many_winners.drawn(number).book)
            first = fewest(market, found, 16).shown
            for row in tight_rows(market, found, 100).rows:
                for other in exchanges_with(Makers(first, len(market.winners)), row):
                    self.need_shown(market, found, other.shown())
                    counts.append(len(other.rows) - len(first.rows))
        self.assertEqual({*counts}, {-1, 0})

    def test_a_search_joins_rows_that_no_single_exchange_joins(self) -> None:
        """Two ways to cover six winners: three pairs, or two triples that overlap each pair."""
        pairs, triples = [0b000011, 0b001100, 0b110000], [0b010101, 0b101010]
        rows = [Demand(members, Net(0), ()) for members in [*triples, *(1 << i for i in range(6))]]
        found = searched(self.shown(pairs + []), Tight(rows, True), 2, 6, seconds=20)
        self.assertLessEqual(len(found.rows), 3)
        for i in range(6):
            self.assertEqual(sum(u for row, u in zip(found.rows, found.first) if row.holds(i)), 1)

    def test_a_set_of_rows_that_isn_t_found_soon(self) -> None:
        """The rows of the search are kept then."""
        market, found = found_of(many_winners.with_few_winners(15).book)
        with unittest.mock.patch.object(program_rows, "MOST_TRIES", 0):
            other = found_of(market.book)[1]
        self.assertEqual(other.point.pays, found.point.pays)
        self.assertNotEqual(other.point.kept, found.point.kept)

    def test_independence(self) -> None:
        rows = [Demand(members, Net(0), ()) for members in (0b011, 0b101, 0b110)]
        self.assertTrue(are_independent(rows))
        self.assertFalse(are_independent([*rows, Demand(0b111, Net(0), ())]))


class Command(unittest.TestCase):
    """The tool as a program, in a folder of its own."""

    def setUp(self) -> None:
        folder = tempfile.TemporaryDirectory()
        self.addCleanup(folder.cleanup)
        self.folder = pathlib.Path(folder.name)

    def write(self, name: str, data: bytes) -> str:
        (self.folder / name).write_bytes(data)
        return name

    def checker(self, text: str) -> str:
        """A program that takes the place of cca."""
        path = self.folder.parent / f"{self.folder.name}.checker"
        path.write_text("#!/bin/sh\n" + text)
        path.chmod(0o755)
        self.addCleanup(path.unlink)
        return str(path)

    def run_it(
        self, *words: str, program: str | None = None, flags: Sequence[str] = ()
    ) -> subprocess.CompletedProcess[str]:
        """What the tool prints, its status, and what it says on standard error, by this program or the second one."""
        return subprocess.run(
            [sys.executable, *flags, os.path.join(TOOLS, "price"), *words],
            cwd=self.folder,
            env={**os.environ, "CCA_PROGRAM": program or "/nowhere"},
            stdin=subprocess.DEVNULL,
            capture_output=True,
            text=True,
        )

    def names(self) -> list[str]:
        return sorted(os.listdir(self.folder))

    def test_prices_of_eight_winners_by_the_file_for_the_court(self) -> None:
        self.write("a.book", book_text(singles([10] * 8, 8, [(8, 64)])))
        made = self.run_it("a.book", "a.cert")
        expected = [
            "yes",
            *(f"winner b{j} 1 bid 10 vickrey 0 pays 8" for j in range(1, 9)),
            "net 80",
            "revenue 64",
        ]
        self.assertEqual((made.stdout.splitlines(), made.returncode), (expected, 0))
        self.assertEqual(
            made.stderr,
            "tools/price: tools/check has tested the certificate, since cca isn't built here (./cca builds it).\n",
        )
        court = subprocess.run(
            [os.path.join(TOOLS, "check"), "a.book", "a.cert"],
            cwd=self.folder,
            capture_output=True,
            text=True,
        )
        self.assertEqual(court.stdout, made.stdout)

    @with_program
    def test_the_answer_is_that_of_the_program(self) -> None:
        self.write("a.book", book_text(singles([10] * 9, 9, [(9, 64)])))
        made = self.run_it("a.book", "a.cert", program=PROGRAM)
        words = [os.path.abspath(PROGRAM), "check", "a.book", "a.cert"]
        judged = subprocess.run(words, cwd=self.folder, capture_output=True, text=True)
        self.assertEqual((made.stdout, made.returncode, made.stderr), (judged.stdout, 0, ""))
        self.assertTrue(made.stdout.startswith("yes\n"))

    def need_same(self, name: str, book: str, flags: Sequence[str]) -> None:
        """The tool prints what `cca price` prints of a book, and writes its certificate."""
        ours, theirs = f"{name}{len(flags)}.cert", f"{name}{len(flags)}.cca"
        made = self.run_it(book, ours, *flags, program=PROGRAM)
        words = [os.path.abspath(PROGRAM), "price", book, theirs, *flags]
        expected = subprocess.run(words, cwd=self.folder, capture_output=True, text=True).stdout
        self.assertEqual(made.stdout, expected if flags else "yes\n" + expected)
        self.assertEqual((self.folder / ours).read_bytes(), (self.folder / theirs).read_bytes(), name)

    @with_program
    def test_prices_up_to_six_winners_are_those_of_the_program(self) -> None:
        for name in ("day-cramton", "six-bidders", "tie"):
            for flags in ((), ("--json",)):
                self.need_same(name, os.path.join(EXAMPLES, f"{name}.book"), flags)

    @with_program
    def test_rows_are_those_of_the_program_if_several_sets_show_the_prices(self) -> None:
        for number in (15, 43, 44, 54):
            market, found = found_of(many_winners.with_few_winners(number).book)
            tight = tight_rows(market, found, 1_000)
            self.assertFalse(are_independent(tight.rows))
            self.need_same(str(number), self.write(f"{number}.book", book_text(market.book)), ())

    def test_json_and_rounds(self) -> None:
        self.write("a.book", book_text(singles([10] * 8, 8, [(8, 64)])))
        rounds = [
            "round 1 point 0 0 0 0 0 0 0 0 row 1 2 3 4 5 6 7 8 choice 0 0 0 0 0 0 0 0 1 excess 64",
            "round 2 point 8 8 8 8 8 8 8 8 end",
        ]
        made = self.run_it("a.book", "a.cert", "--rounds", "--json")
        winners = [{"bid": 10, "name": f"b{j}", "package": [1], "pays": "8", "vickrey": 0} for j in range(1, 9)]
        expected = {"net": 80, "revenue": "64", "rounds": rounds, "winners": winners}
        self.assertEqual(made.stdout, json.dumps(expected, separators=(",", ":")) + "\n")
        self.assertEqual(
            self.run_it("a.book", "b.cert", "--rounds").stdout.splitlines()[:3],
            [*rounds, "yes"],
        )

    def test_weights(self) -> None:
        self.write("a.book", book_text(singles([100] * 10, 10, [(10, 550)])))
        weights = "".join(f"weight b{j} {j}\n" for j in range(1, 11))
        self.write("a.weights", f"weights 1\n{weights}weight b11 1\nend\n".encode())
        made = self.run_it("a.book", "a.cert", "--weights", "a.weights")
        pays = [int(line.split()[-1]) for line in made.stdout.splitlines() if line.startswith("winner")]
        self.assertEqual((pays, made.returncode), ([*range(10, 101, 10)], 0))

    def auction(self) -> None:
        """Eight bidders ask for a lot each of eight at a reserve of 10, and list 20 for it."""
        bidders = "".join(f'[[bidder]]\nname = "b{j}"\neligibility = 1\n' for j in range(1, 9))
        head = 'version = 1\ntick = 1\n[[category]]\nname = "c"\nsupply = 8\npoints = 1\nreserve = 10\n'
        self.write("a.award", f"{head}{bidders}[[step]]\nexcess = 1\npermille = 100\n".encode())
        log = [f"bid,b{j},1," for j in range(1, 9)] + ["close,,,"]
        log += [f"draft,b{j},1,20" for j in range(1, 9)] + [f"submit,b{j},," for j in range(1, 9)]
        self.write("a.log", "".join(f"{line}\n" for line in [*log, "close,,,"]).encode())

    def test_an_auction(self) -> None:
        self.auction()
        for program in [None, PROGRAM][: 1 + bool(PROGRAM)]:
            made = self.run_it("a.award", "a.log", "a.cert", program=program)
            expected = [f"winner b{j} 1 bid 20 vickrey 10 pays 10" for j in range(1, 9)]
            self.assertEqual(
                made.stdout.splitlines(),
                ["yes", *expected, "net 80", "revenue 80"],
                made.stderr,
            )
            (self.folder / "a.cert").unlink()

    def test_other_tools_name_it_and_take_its_certificate(self) -> None:
        self.auction()
        self.run_it("a.award", "a.log", "a.cert")
        award, log, cert, out = (str(self.folder / name) for name in ("a.award", "a.log", "a.cert", "set"))
        self.assertIn(
            "8 bidders win. `cca award` prices at most 6: use `tools/price",
            called("state", award, log)[0],
        )
        self.assertIn("`tools/price AWARD LOG CERT`", called("explain", "award", award, log)[0])
        self.assertIn(
            "b7 (10) and b8 (10) pay",
            called("why", award, log, cert, **NO_PROGRAM)[0],
        )
        told = " ".join(called("report", award, log, cert, "--text", **NO_PROGRAM)[0].split())
        self.assertIn(
            "8 bidders win, and the program finds prices for at most 6: another program found these.",
            told,
        )
        self.assertEqual(called("publish", award, log, cert, out, **NO_PROGRAM)[1], 0)
        page = (self.folder / "set" / "index.html").read_text()
        self.assertIn("not by cca, which prices at most 6 winners", page)

    def test_more_rows_than_ten_are_refused_and_nothing_is_written(self) -> None:
        self.write("a.book", book_text(rivals(11)))
        for flags in ((), ("--search", "1")):
            made = self.run_it("a.book", "a.cert", *flags)
            self.assertEqual((made.stdout, made.returncode), ("cca: limit rows 11\n", 7))
            self.assertIn(
                "These prices need 11 rows; a certificate has at most 10. Nothing is written.",
                made.stderr,
            )
            self.assertEqual(self.names(), ["a.book"])

    def test_a_file_that_is_there_is_never_changed(self) -> None:
        self.write("a.book", book_text(rivals(3)))
        self.write("a.cert", b"kept")
        (self.folder / "a.link").symlink_to("nothing")
        for name in ("a.cert", "a.link", "no/a.cert"):
            made = self.run_it("a.book", name)
            self.assertEqual((made.stdout, made.returncode), ("cca: write fault cert\n", 5))
        self.assertEqual((self.folder / "a.cert").read_bytes(), b"kept")
        self.assertEqual(self.names(), ["a.book", "a.cert", "a.link"])

    def test_a_file_that_appears_meanwhile_is_never_changed(self) -> None:
        self.write("a.book", book_text(rivals(3)))
        program = self.checker("echo other >a.cert; echo yes\n")
        made = self.run_it("a.book", "a.cert", program=program)
        self.assertEqual((made.stdout, made.returncode), ("cca: write fault cert\n", 5))
        self.assertEqual((self.folder / "a.cert").read_text(), "other\n")

    def test_a_kill_before_the_answer_leaves_nothing(self) -> None:
        self.write("a.book", book_text(rivals(3)))
        made = self.run_it("a.book", "a.cert", program=self.checker("kill -9 $PPID\n"))
        self.assertEqual((made.returncode, self.names()), (-signal.SIGKILL, ["a.book"]))

    def test_a_certificate_without_a_yes_is_a_fault_of_the_tool(self) -> None:
        self.write("a.book", book_text(rivals(3)))
        for text, line in (
            ("echo no C9 1; exit 1", "no C9 1"),
            ("exit 6", "cca: no answer"),
            ("echo yes; exit 5", "yes"),
        ):
            made = self.run_it("a.book", "a.cert", program=self.checker(text))
            self.assertEqual(
                (made.stdout, made.returncode, self.names()),
                (f"{line}\n", 70, ["a.book"]),
            )
            self.assertIn("This is a fault of this tool, and nothing is written.", made.stderr)
            self.doCleanups()
            self.setUp()
            self.write("a.book", book_text(rivals(3)))

    def test_without_numpy_the_certificate_is_the_same(self) -> None:
        self.write("a.book", book_text(drawn(3)))
        first = self.run_it("a.book", "a.cert")
        second = self.run_it("a.book", "b.cert", flags=["-S"])  # (Debian's packages aren't found)
        self.assertEqual((first.stdout, first.returncode), (second.stdout, second.returncode))
        self.assertEqual(*((self.folder / name).read_bytes() for name in ("a.cert", "b.cert")))

    def test_wrong_words(self) -> None:
        for words, why in (
            (["a.book", "-"], "none is standard input or output"),
            (["-", "a.cert"], "none is standard input or output"),
            (["a.book", "a.cert", "--search", "x"], "`x` isn't that"),
            (["a.book", "a.cert", "--search", "86401"], "`86401` isn't that"),
            (
                ["a.award", "a.log", "a.cert", "--weights", "w"],
                "an auction has no weights",
            ),
            (
                ["a.book", "a.cert", "--weights", "a.cert"],
                "two of the files have the same name, a.cert",
            ),
            (["a.book", "a.book"], "two of the files have the same name, a.book"),
        ):
            made = self.run_it(*words)
            self.assertEqual((made.stdout, made.returncode), ("cca: words\n", 2))
            self.assertIn(why, made.stderr)

    def test_faults_of_the_files_come_first(self) -> None:
        self.write("bad.book", b"book 2\n")
        self.write("a.cert", b"")
        for words, line, status in (
            (["bad.book", "a.cert"], "cca: refused book 0", 3),
            (["no.book", "a.cert"], "cca: read fault book", 4),
        ):
            made = self.run_it(*words)
            self.assertEqual((made.stdout, made.returncode), (f"{line}\n", status))


class NewFiles(unittest.TestCase):
    def setUp(self) -> None:
        folder = tempfile.TemporaryDirectory()
        self.addCleanup(folder.cleanup)
        self.path = os.path.join(folder.name, "a.cert")

    def without_nameless(self) -> AbstractContextManager[object]:
        """A file system without nameless files."""
        real = os.open

        def opened(path: str, flags: int, mode: int = 0o777, *, dir_fd: int | None = None) -> int:
            if flags & os.O_TMPFILE == os.O_TMPFILE:
                raise OSError(95, "not supported")
            return real(path, flags, mode, dir_fd=dir_fd)

        return unittest.mock.patch.object(os, "open", opened)

    def test_a_hidden_file_takes_the_place_of_a_nameless_one(self) -> None:
        with self.without_nameless(), files.new_file(self.path) as file:
            file.write(["a", "b"], 4)
            self.assertEqual(pathlib.Path(file.path).read_text(), "a\nb\n")
            self.assertFalse(os.path.exists(self.path))
            file.appear()
        self.assertEqual(os.listdir(os.path.dirname(self.path)), ["a.cert"])
        self.assertEqual(pathlib.Path(self.path).read_text(), "a\nb\n")

    def test_more_bytes_than_the_limit_leave_nothing(self) -> None:
        for patch in (
            unittest.mock.patch.object(files, "WITHOUT", files.WITHOUT),
            self.without_nameless(),
        ):
            with self.assertRaises(Stop) as caught, patch, files.new_file(self.path) as file:
                file.write(["a", "bc"], 4)
            self.assertEqual(
                (caught.exception.line, caught.exception.status),
                ("cca: limit bytes 5", 7),
            )
            self.assertEqual(os.listdir(os.path.dirname(self.path)), [])

    def test_great_numbers_are_refused(self) -> None:
        """Amounts above the greatest of a book, so that the certificate's numbers pass their limit."""
        book = singles([10] * 3, 3, [(3, 20)])
        great = Book(
            book.supply,
            book.reserves,
            book.names,
            [[(p, Gross(a * 2**120)) for p, a in of_one] for of_one in book.bids],
        )
        with self.assertRaises(Stop) as caught:
            certificates.certificate_of(great)
        self.assertRegex(caught.exception.line, "^cca: limit digits 3[89]$")


if __name__ == "__main__":
    unittest.main()
