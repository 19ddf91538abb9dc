"""Ties: the choices that are shown are the same as by enumeration, and each tool that names winners shows them."""
import itertools
import os
import random
import unittest
import unittest.mock

from checks.cases.drawn import drawn
from checks.cases.samples import certificate_of, lines, said, sample, taking
from test_state import SMALL, TIE
from cca_tools.rules.auction import replay
from cca_tools.rules.award import read_award
from cca_tools.rules.book import Book, read_book
from cca_tools.rules.log import read_log
from cca_tools.rules.ties import tie_sentences, ties_of
from cca_tools.rules.types import Choice, Gross
from cca_tools.rules.winners import winning_choice

report, what_if, why = map(taking, ("report", "what-if", "why"))
NBSP = "\N{NO-BREAK SPACE}"
DECIDES = "The order of the bidders, then that of their packages, decides."
# examples/tie.book: east bids 5 for one of two lots and 9 for both, west 4 for one
TIE_BIDS = [[((1,), 5), ((2,), 9)], [((1,), 4)]]
TIE_ROWS = [([1], 1, 0, (0, 1)), ([2], 1, 0, (2, 0))]
TIE_CERT = certificate_of((2,), TIE_BIDS, (1, 1), {1: (0, 1), 2: (2, 0)}, 1, (0, 4), TIE_ROWS, reserves=(0,))


def enumerated(book: Book) -> list[Choice]:
    """The choices of the greatest net value of all that fit, in the order of ties: a bid before none."""
    numbers = [[*range(1, len(bids) + 1), 0] for bids in book.bids]
    worth: dict[Choice, int] = {}
    for choice in itertools.product(*numbers):
        taken = [0] * len(book.supply)
        for j, number in enumerate(choice):
            for c, count in enumerate(book.bids[j][number - 1][0] if number else ()):
                taken[c] += count
        if all(count <= most for count, most in zip(taken, book.supply)):
            worth[choice] = sum(book.net[j][number - 1] for j, number in enumerate(choice) if number)
    return [choice for choice, net in worth.items() if net == max(worth.values())]


def drawn_book(number: int) -> Book:
    """A small book with few amounts, so that ties are frequent."""
    draw = random.Random(number)
    supply = tuple(draw.randint(1, 3) for _ in range(draw.randint(1, 2)))
    packages = [it for it in itertools.product(*(range(most + 1) for most in supply)) if any(it)]
    reserves = tuple(draw.randint(0, 1) for _ in supply)
    bids = []
    for _ in range(draw.randint(1, 5)):
        own = sorted(draw.sample(packages, min(len(packages), draw.randint(0, 4))))
        bids.append([(it, Gross(sum(it) + (draw.randint(0, sum(it) + 1) if number % 3 else 0))) for it in own])
    return Book(supply, reserves, [f"b{j}" for j, _ in enumerate(bids, 1)], bids)


def closed_book(award: bytes, log: bytes) -> Book:
    terms = read_award(award)
    return replay(terms, read_log(log, terms)).need_book()


class Enumeration(unittest.TestCase):
    def check(self, book: Book) -> int:
        """How many other choices there are."""
        best, ties = enumerated(book), ties_of(book)
        self.assertEqual(ties.winners, winning_choice(book)[0])
        self.assertEqual(ties.winners, best[0])
        self.assertEqual(list(ties.others), best[1:21])
        self.assertEqual(ties.has_more, len(best) > 21)
        rows = tie_sentences(book, ties)
        self.assertEqual(len(rows), 1 + len(best[1:21]) if len(best) > 1 else 0)
        return len(best) - 1

    def test_drawn_books(self) -> None:
        found = [self.check(drawn_book(number)) for number in range(300)]
        self.assertTrue(found.count(0) > 20 and found.count(1) > 20 and max(found) > 21, found)

    def test_drawn_auctions(self) -> None:
        found = [self.check(closed_book(*drawn(number, 1 + number % 2, above=3))) for number in range(60)]
        self.assertTrue(0 in found and 1 in found and max(found) > 3, found)

    def test_words(self) -> None:
        book = Book((1,), (0,), ["a", "b", "c"], [[((1,), Gross(5))]] * 3)
        head = f"There is a tie: 2 other choices have the same net value. {DECIDES}"
        rows = [head, "  b 1 instead of a 1", "  c 1 instead of a 1"]
        self.assertEqual(tie_sentences(book, ties_of(book)), rows)
        head = f"There is a tie: more than 1 other choices have the same net value. {DECIDES}"
        self.assertEqual(tie_sentences(book, ties_of(book, 1)), [head, rows[1]])
        nothing = Book((1,), (3,), ["a"], [[((1,), Gross(3))]])
        self.assertEqual(tie_sentences(nothing, ties_of(nothing))[1], "  nothing instead of a 1")


class Tools(unittest.TestCase):
    def setUp(self) -> None:
        environment = unittest.mock.patch.dict(os.environ, CCA_PROGRAM="/nowhere")
        environment.start()
        self.addCleanup(environment.stop)

    def test_why_and_report(self) -> None:
        data = sample("tie.book")
        best = enumerated(read_book(data))
        self.assertEqual(len(best), 2)
        text, status = said(why, data, TIE_CERT)
        self.assertEqual(status, 0, text)
        self.assertIn(
            f"There is a tie: one other choice has the same net value. {DECIDES} east 2 instead of east 1, west 1",
            " ".join(text.split()),
        )
        text, status = said(lambda names: report([*names, "--text"]), data, TIE_CERT)
        self.assertEqual(status, 0, text)
        shown = " ".join(text.split()).replace(NBSP, " ")
        self.assertIn(f"There is a tie: one other choice has the same net value. {DECIDES}", shown)
        self.assertIn("east 2 of category 1 instead of east 1 of category 1, west 1 of category 1", shown)

    def test_no_tie(self) -> None:
        award, log, cert = (sample(f"spectrum.{kind}") for kind in ("award", "log", "cert"))
        for text in (
            said(why, award, log, cert)[0],
            said(lambda names: report([*names, "--text"]), award, log, cert)[0],
        ):
            self.assertNotIn("tie", text.split())

    def test_what_if(self) -> None:
        log = lines(TIE + "close,,,")
        text, _ = said(what_if, SMALL.encode(), lines(TIE.replace("2,24", "2,23") + "close,,,"), log)
        self.assertEqual(text.count("There is a tie: one other choice"), 1)
        self.assertTrue(text.endswith("\n  west 2 instead of east 2\n" + text.splitlines()[-1]), text)
        text, _ = said(lambda names: what_if([*names, "--least", "east", "2"]), SMALL.encode(), log)
        self.assertIn("There is a tie: one other choice", text)


if __name__ == "__main__":
    unittest.main()
