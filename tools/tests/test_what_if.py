"""What tools/what-if --least promises comes: on drawn auctions each advice that it prints is followed."""
import itertools
import os
import re
import unittest
import unittest.mock
from collections.abc import Mapping, Sequence

from checks.cases.drawn import drawn
from checks.cases.samples import said, sample, taking
from cca_tools.commands.what_if import admission, least_amount, least_to_draft, with_bid
from cca_tools.rules.auction import Auction
from cca_tools.rules.auction import Reply, replay
from cca_tools.rules.award import read_award
from cca_tools.rules.book import Book
from cca_tools.rules.log import Line, read_log
from cca_tools.rules.types import Gross, Kind, Package
from cca_tools.rules.winners import winning_choice

what_if = taking("what-if")
ENTRY = re.compile(r"with ([\d ]+?) for (\d+)(?: instead of (\d+))?(?=, with|\. With)")


def auction_of(award: bytes, log: bytes) -> Auction:
    terms = read_award(award)
    return replay(terms, read_log(log, terms))


def submitted(award: bytes, log: bytes, j: int, listed: Mapping[Package, int]) -> tuple[Auction, Reply]:
    """The auction if bidder j drafts and submits just this list before the sealed round is closed, and the reply to the
    submission."""
    terms = read_award(award)
    whole = replay(terms, read_log(log, terms))
    closed = [reply.word for reply in whole.replies].index("closed")
    auction = replay(terms, whole.lines[:closed])
    name = terms.names[j - 1]
    sent: list[tuple[Kind, Package, int]] = []
    sent += [("drop", package, 0) for package, _ in auction.drafts(j) if package not in listed]
    sent += [("draft", package, amount) for package, amount in sorted(listed.items())]
    for kind, package, amount in sent:
        auction.take(Line(0, 0, kind, name, j, package, Gross(amount)))
        assert auction.replies[-1].is_ok, auction.replies[-1].text()
    auction.take(Line(0, 0, "submit", name, j))
    reply = auction.replies[-1]
    auction.take(Line(0, 0, "close", "", 0))
    return auction, reply


def won(book: Book, j: int) -> tuple[Package, int] | None:
    """The package and the amount of bidder j's winning bid, or None."""
    return book.won(winning_choice(book)[0], j)


def counts(text: str) -> Package:
    return tuple(map(int, text.split()))


class Advice(unittest.TestCase):
    """Auctions are drawn from their numbers; of each one bidder and each of its packages is asked."""

    def setUp(self) -> None:
        environment = unittest.mock.patch.dict(os.environ, CCA_PROGRAM="/nowhere")
        environment.start()
        self.addCleanup(environment.stop)
        self.seen = dict.fromkeys(("admitted", "refused", "mended", "instead", "none", "note"), 0)

    def check(self, award: bytes, log: bytes, j: int, package: Package) -> None:
        auction = auction_of(award, log)
        name, words = auction.award.names[j - 1], " ".join(map(str, package))
        text, status = said(lambda names: what_if([*names, "--least", name, words]), award, log)
        if status:
            self.check_none(auction, j, package, text)
            return
        rows = text.splitlines()
        amount = int(rows[0].split()[-1])
        self.assertEqual(rows[0], f"least {name} {words} {amount}")
        self.check_least(auction, j, package, amount)
        self.check_note(auction, j, package, amount, rows)
        listed = {**dict(auction.submitted(j)), package: amount}
        after, reply = submitted(award, log, j, listed)
        if f"The rules would admit it on the submitted list of {name}, with no other entry changed." in rows:
            self.seen["admitted"] += 1
            self.assertEqual(reply.text(), "ok")
            self.assertEqual(won(after.need_book(), j), (package, amount))
            self.check_winners(rows, "with it", after)
            return
        self.check_refusal(rows, name, listed, reply)
        self.assertEqual(after.submitted(j), auction.submitted(j))  # what was submitted before still counts
        if f"No list of {name} with its other packages admits it." in rows:
            self.seen["none"] += 1
            every = {it: Gross(10**9) for it in listed} | self.all_packages(auction, j) | {package: Gross(amount)}
            most = auction.caps(j).fitted(every)
            self.assertNotEqual(most.get(package), amount)
            return
        self.check_mended(award, log, j, package, rows, listed)

    def all_packages(self, auction: Auction, j: int) -> dict[Package, Gross]:
        """Each package that bidder j may draft, at a great amount."""
        asked = {package for package, _ in auction.bids(j)}
        asked |= {closed.packages[j - 1] for closed in auction.rounds}
        return {package: Gross(10**9) for package in asked if any(package)}

    def check_none(self, auction: Auction, j: int, package: Package, text: str) -> None:
        """No amount wins: the package can't be drafted."""
        draft = Line(0, 0, "draft", auction.award.names[j - 1], j, package, Gross(10**6))
        fault = auction.package_fault(draft, auction.award.eligibility(j))
        self.assertTrue(fault or not any(package), text)

    def check_least(self, auction: Auction, j: int, package: Package, amount: int) -> None:
        """With the amount the bidder wins the package, and with one less it doesn't, or may not bid that."""
        book, low = auction.book(), least_to_draft(auction, j, package)
        self.assertEqual(won(with_bid(book, j, package, Gross(amount)), j), (package, amount))
        self.assertGreaterEqual(amount, low)
        if amount > low:
            less = won(with_bid(book, j, package, Gross(amount - 1)), j)
            self.assertNotEqual(less and less[0], package)

    def check_note(self, auction: Auction, j: int, package: Package, amount: int, rows: Sequence[str]) -> None:
        """The rows say that the amount may not be less if, and only if, one less can't be drafted."""
        name, desk = auction.award.names[j - 1], auction.desks[j - 1]
        fault = auction.amount_fault(Line(0, 0, "draft", name, j, package, Gross(amount - 1)), desk)
        is_least = fault is not None and fault.word in ("below-reserve", "below-clock")
        note = "A sealed amount for this package may not be less, by its reserve and the clock."
        self.assertEqual(note in rows, is_least)
        self.seen["note"] += is_least

    def check_refusal(self, rows: Sequence[str], name: str, listed: Mapping[Package, int], reply: Reply) -> None:
        """The reply to the submission is the one that was reported."""
        self.seen["refused"] += 1
        entry = sorted(listed)[reply.numbers[0] - 1]
        told = " ".join(map(str, entry))
        head = (
            f"The rules would refuse it on the submitted list of {name}: {told} for {listed[entry]} would be above its"
        )
        self.assertTrue(any(row.startswith(f"{head} cap, {reply.numbers[1]}. ") for row in rows), rows)

    def check_mended(
        self, award: bytes, log: bytes, j: int, package: Package, rows: Sequence[str], listed: Mapping[Package, int]
    ) -> None:
        """The list that is advised is admitted, and wins what the rows say."""
        row = next(row for row in rows if row.startswith("They would admit it on that list "))
        mended = dict(listed)
        for words, amount, before in ENTRY.findall(row):
            self.assertEqual(before, str(listed.get(counts(words), "")))
            mended[counts(words)] = int(amount)
        self.seen["mended"] += 1
        after, reply = submitted(award, log, j, mended)
        self.assertEqual(reply.text(), "ok", row)
        self.assertEqual(dict(after.submitted(j))[package], listed[package])
        got = won(after.need_book(), j)
        if row.endswith(f" wins {' '.join(map(str, package))}."):
            self.assertEqual(got, (package, listed[package]))
        else:
            self.seen["instead"] += 1
            told = f"{' '.join(map(str, got[0]))} for {got[1]}" if got else "nothing"
            self.assertTrue(row.endswith(f" wins {told} instead."), (row, got))
        self.check_winners(rows, "with that list", after)

    def check_winners(self, rows: Sequence[str], head: str, after: Auction) -> None:
        """The winners below the head are the winners of the auction that follows the advice."""
        book = after.need_book()
        choice, value = winning_choice(book)
        lines = [
            " ".join(map(str, ["winner", book.names[j - 1], *book.winning(choice, j)[0], book.winning(choice, j)[1]]))
            for j, number in enumerate(choice, 1)
            if number
        ]
        at = rows.index(head) + 1
        self.assertEqual(rows[at : at + len(lines) + 1], [*lines, f"net {value}"])

    def package(self, award: bytes, log: bytes, j: int, number: int) -> Package:
        """A package that bidder j may draft, by a number; of ten numbers one leads to any package."""
        auction = auction_of(award, log)
        every = list(itertools.product(*(range(count + 1) for count in auction.award.supply)))
        name, most = auction.award.names[j - 1], auction.award.eligibility(j)
        right = [it for it in every[1:] if not auction.package_fault(Line(0, 0, "draft", name, j, it), most)]
        found = every if number % 10 == 0 or not right else right
        return found[7 * number % len(found)]

    def test_drawn_auctions(self) -> None:
        for number in range(150):
            for version in (1, 2):
                award, log = drawn(number, version)
                terms = read_award(award)
                j = 1 + number % len(terms.names)
                with self.subTest(number=number, version=version):
                    self.check(award, log, j, self.package(award, log, j, number))
        self.assertTrue(all(count > 5 for count in self.seen.values()), self.seen)

    def test_the_sample(self) -> None:
        """As docs/BIDDER.md has it, 700001 is above the cap, and what raises that wins in its place."""
        self.check(sample("spectrum.award"), sample("spectrum.log"), 1, (2, 0, 4, 0))
        self.assertEqual([self.seen[kind] for kind in ("refused", "mended", "instead")], [1, 1, 1])

    def test_an_entry_beside_it(self) -> None:
        """A list with another entry above its cap is refused for that one."""
        award, log = drawn(0)
        auction = auction_of(award, log)
        for number in range(40):
            award, log = drawn(number)
            auction = auction_of(award, log)
            for j in range(1, len(auction.award.names) + 1):
                for package, amount in auction.submitted(j):
                    low = least_to_draft(auction, j, package)
                    listed = {**dict(auction.submitted(j)), package: low}
                    told = admission(auction, j, package, low)
                    _, reply = submitted(award, log, j, listed)
                    is_said = told.words[0].startswith("The rules would admit it")
                    self.assertEqual(is_said, reply.is_ok, told.words)
                    self.seen["refused"] += not reply.is_ok
        self.assertGreater(self.seen["refused"], 0)

    def test_the_least_by_halving(self) -> None:
        """The least amount is the one that halving finds."""
        for number in range(30):
            auction = auction_of(*drawn(number))
            book, package = auction.book(), tuple(min(1, count) for count in auction.award.supply)
            for j in range(1, book.bidders + 1):
                low, high = book.reserve(package), 10**6
                while low < high:
                    middle = (low + high) // 2
                    got = won(with_bid(book, j, package, Gross(middle)), j)
                    low, high = (low, middle) if got and got[0] == package else (middle + 1, high)
                self.assertEqual(least_amount(book, j, package, Gross(book.reserve(package))), low)


if __name__ == "__main__":
    unittest.main()
