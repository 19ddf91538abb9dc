"""checks/priced on a few books, the books that it draws, and the tests of prices by all coalitions."""

from __future__ import annotations

import json
import os
import pathlib
import signal
import subprocess
import sys
import tempfile
import time
import unittest
from fractions import Fraction

from checks.cases import many_winners
from checks.cases.all_coalitions import faults, has_solution
from checks.cases.interrupts import take_interrupts
from checks.cases.many_winners import FAMILIES, at_limits, drawn, small, wide, with_few_winners
from checks.cases.priced_runs import CHECKER
from checks.cases.program import PROGRAM, with_program

from cca_tools.rules.book import Book, book_text, read_book
from cca_tools.rules.types import Gross

ROOT = pathlib.Path(__file__).resolve().parents[2]


class Books(unittest.TestCase):
    def need_read(self, book: Book) -> None:
        """A book is within the format and its limits, and its text is read as it was written."""
        read = read_book(book_text(book))
        self.assertEqual((read.supply, read.reserves, read.bids), (book.supply, book.reserves, book.bids))

    def test_drawn_books_are_of_the_format(self) -> None:
        for number in range(40):
            for made in (drawn(number), with_few_winners(number), small(number), wide(number)):
                self.need_read(made.book)
                self.assertTrue(all(1 <= weight <= 20 for weight in made.weights or []))

    def test_a_number_draws_one_book(self) -> None:
        self.assertEqual(drawn(7), drawn(7))
        self.assertNotEqual(drawn(7, 1), drawn(7, 2))

    def test_families_amounts_and_weights(self) -> None:
        made = [drawn(number) for number in range(50)]
        self.assertEqual([it.family for it in made[:10]], [family.__name__ for family in FAMILIES])
        great = [max(a for of in it.book.bids for _, a in of) > 2**41 for it in made]
        self.assertEqual(great, [number // 10 == 3 for number in range(50)])
        self.assertEqual([it.weights is not None for it in made], [number // 10 == 4 for number in range(50)])

    def test_books_at_the_limits(self) -> None:
        for number in range(2):
            book = at_limits(number).book
            self.need_read(book)
            self.assertEqual((book.bidders, book.states, {len(of) for of in book.bids}), (16, 16_384, {600}))
            self.assertEqual(len(book.supply), 6)

    def test_few_winners_compete_for_what_they_win(self) -> None:
        book = with_few_winners(3).book
        self.assertLessEqual(sum(map(bool, many_winners.greatest_choice(book))), 6)
        self.assertGreater(book.bidders, 6)


class Coalitions(unittest.TestCase):
    """Two bid 20 and 30 for a lot of two, and a third 24 for both: they share 24 from Vickrey prices of 0 and 4."""

    book = Book((2,), (0,), ["a", "b", "c"], [[((1,), Gross(20))], [((1,), Gross(30))], [((2,), Gross(24))]])

    def found(self, pays: tuple[str, str], vickrey: tuple[int, int] = (0, 4), *, weights: tuple[int, ...] = ()) -> str:
        """What is wrong with these prices."""
        lines = [f"winner a 1 bid 20 vickrey {vickrey[0]} pays {pays[0]}"]
        lines += [f"winner b 1 bid 30 vickrey {vickrey[1]} pays {pays[1]}", "net 50", "revenue 24"]
        return ", ".join(faults(self.book, weights or (1, 1, 1), lines))

    def test_right_prices(self) -> None:
        self.assertEqual(self.found(("10", "14")), "")
        self.assertEqual(self.found(("6+2/3", "17+1/3"), weights=(1, 2, 1)), "")

    def test_wrong_prices(self) -> None:
        self.assertEqual(self.found(("9", "15")), "the point isn't the nearest")
        self.assertEqual(self.found(("10", "14"), weights=(1, 2, 1)), "the point isn't the nearest")
        self.assertEqual(self.found(("11", "15")), "the sum isn't the least")
        self.assertIn("[0, 1] pay too little", self.found(("9", "14")))
        self.assertIn("bidder 1: Vickrey price", self.found(("10", "14"), (1, 4)))
        self.assertIn("bidder 1 pays more than its bid", self.found(("21", "4")))

    def test_other_winners(self) -> None:
        lines = ["winner c 2 bid 24 vickrey 0 pays 0", "net 24", "revenue 0"]
        self.assertEqual(list(faults(self.book, (1, 1, 1), lines)), ["the winning choice is (1, 1, 0)"])

    def test_multiples_of_columns(self) -> None:
        columns = [[1, 0, 1], [0, 1, 1], [1, 1, 0]]
        self.assertTrue(has_solution(columns, [Fraction(1)] * 3))
        self.assertFalse(has_solution(columns[:2], [Fraction(1)] * 3))
        self.assertFalse(has_solution([[1, 1, 0], [0, 0, 1]], [Fraction(1), Fraction(-1), Fraction(1)]))


class Counts(unittest.TestCase):
    """The program on three books, in a folder of its own."""

    def setUp(self) -> None:
        folder = tempfile.TemporaryDirectory()
        self.addCleanup(folder.cleanup)
        self.folder = pathlib.Path(folder.name, "counted")

    def count(self, *words: str, under: str = "", program: str | None = None) -> tuple[list[str], int]:
        """The lines that the program prints with these arguments and this program of cca, with its records under a
        folder, and its status."""
        how = {name: value for name, value in os.environ.items() if name != "CCA_PROGRAM"}
        run = subprocess.run(
            [sys.executable, ROOT / "checks" / "priced", *words, "--folder", self.folder / under],
            env=how | ({"CCA_PROGRAM": program} if program else {}),
            stdin=subprocess.DEVNULL,
            capture_output=True,
            text=True,
        )
        self.assertEqual(run.stderr, "")
        return run.stdout.splitlines(), run.returncode

    def records(self, name: str) -> list[dict[str, object]]:
        """The records of a count."""
        return [json.loads(line) for line in (self.folder / f"{name}.jsonl").read_text().splitlines()]

    def checker(self, text: str) -> str:
        """A program that takes the place of cca."""
        path = self.folder / "checker"
        path.write_text(f"#!/bin/sh\n{text}\n")
        path.chmod(0o755)
        return str(path)

    def test_many_winners(self) -> None:
        said, status = self.count("many", "2")
        self.assertEqual((status, said[-1].startswith("2 books, 0 with a fault")), (0, True))
        self.assertIn("| tools/check | 2 | 2 |", said)
        self.assertIn("| cca | 0 | 0 |", said)
        self.assertEqual(f"| second proof | {2 * CHECKER.exists()} | {2 * CHECKER.exists()} |" in said, True)
        # (it continues, also after a kill that has cut a line)
        with open(self.folder / "many.jsonl", "a") as file:
            file.write('{"number": 99')
        said, status = self.count("many", "3")
        found = self.records("many")
        self.assertEqual((len(found), len({it["number"] for it in found})), (3, 3))
        self.assertEqual([it["line"] for it in found], ["yes"] * 3)
        self.assertTrue(all(7 <= int(str(it["winners"])) <= 16 for it in found))
        # (nothing is left to do, and a checker that comes later judges what was kept)
        self.assertEqual(self.count("many", "3"), (said, status))
        said, status = self.count("many", "3", program=self.checker("echo no C8 2\nexit 1"))
        self.assertEqual(status, 1)
        self.assertEqual(sum("cca answers ['no C8 2'] and status 1" in line for line in said), 3)
        self.assertIn("| cca | 3 | 0 |", said)

    def outcomes(self, folder: str) -> list[dict[str, object]]:
        """The records of `many` in a folder, without their measurements."""
        found = [json.loads(line) for line in (self.folder / folder / "many.jsonl").read_text().splitlines()]
        for record in found:
            del record["seconds"]
            record["more"] = record["more"]["printed"] if "printed" in record["more"] else ""
        return found

    def test_processes_count_what_one_counts(self) -> None:
        for jobs in ("1", "3"):
            said, status = self.count("many", "5", "--jobs", jobs, under=jobs)
            self.assertEqual((status, said[-1].startswith("5 books, 0 with a fault")), (0, True), said)
        self.assertEqual(self.outcomes("3"), self.outcomes("1"))
        # (a checker that comes later judges what was kept, by several processes too)
        said, status = self.count("many", "5", "--jobs", "3", under="3", program=self.checker("echo no C8 2\nexit 1"))
        made = sum(it["status"] == 0 for it in self.outcomes("1"))
        self.assertEqual((status, sum("cca answers ['no C8 2'] and status 1" in line for line in said)), (1, made))

    def test_an_interrupt_of_processes(self) -> None:
        words = [sys.executable, "checks/priced", "many", "60", "--jobs", "2", "--folder", str(self.folder / "cut")]
        environment = {name: value for name, value in os.environ.items() if name != "CCA_PROGRAM"}
        with subprocess.Popen(
            words, cwd=ROOT, env=environment, stdout=subprocess.PIPE, text=True, preexec_fn=take_interrupts
        ) as run:
            while not (self.folder / "cut" / "many.jsonl").exists():
                time.sleep(0.1)
            run.send_signal(signal.SIGINT)
            said, _ = run.communicate()  # (until its processes have ended too)
        self.assertEqual((run.returncode, said.splitlines()[0]), (0, "stopped; the same command goes on"))
        count = len(self.outcomes("cut"))
        self.count("many", str(count + 2), "--jobs", "2", under="cut")
        self.count("many", str(count + 2), under="whole")
        self.assertEqual(self.outcomes("cut"), self.outcomes("whole"))

    def test_a_number_of_processes(self) -> None:
        self.refused("many", "--jobs", "0", why="argument --jobs: invalid choice: 0")

    @with_program
    def test_few_winners(self) -> None:
        said, status = self.count("few", "3", program=os.path.abspath(PROGRAM or ""))
        self.assertEqual((status, said[-1].startswith("3 books, 0 with a fault")), (0, True), said)
        self.assertEqual(sum(int(line.split(" ")[-2]) for line in said if line.startswith("certificate: ")), 3)
        self.assertIn("| cca | 3 | 3 |", said)

    def refused(self, *words: str, why: str) -> None:
        """The program refuses these arguments, without a program of cca."""
        run = subprocess.run(
            [sys.executable, ROOT / "checks" / "priced", *words, "--folder", self.folder],
            env={name: value for name, value in os.environ.items() if name != "CCA_PROGRAM"},
            capture_output=True,
            text=True,
        )
        self.assertEqual((run.returncode, run.stdout), (2, ""))
        self.assertIn(why, run.stderr)

    def test_few_winners_need_the_program(self) -> None:
        self.refused("few", why="few compares with cca: CCA_PROGRAM has to name it")

    def test_weights(self) -> None:
        said, status = self.count("weighed", "3")
        self.assertEqual((status, said[-1].startswith("3 books, 0 with a fault")), (0, True), said)
        self.assertTrue(any(line.startswith("plain search: same, ") for line in said))

    def test_more_than_64_bits(self) -> None:
        said, status = self.count("wide", "2")
        self.assertEqual((status, said[-1].startswith("2 books, 0 with a fault")), (0, True), said)
        self.assertIn("| Python's integers | yes | 2 | 2 | 0 | 0 | 0 |", said)

    def test_a_longer_search(self) -> None:
        """A search for a book with more than ten found rows; here a record has such a count."""
        self.count("many", "1")
        kept = self.records("many")[0] | {"line": "cca: limit rows 11", "status": 7, "rows": 11, "judged": {}}
        (self.folder / "many.jsonl").write_text(json.dumps(kept) + "\n")
        said, status = self.count("search", "1", "--seconds", "1")
        self.assertEqual((status, said[2].startswith("| 11 | 1 | 1 | ")), (0, True), said)


if __name__ == "__main__":
    unittest.main()
