"""Bidders with values take part in whole auctions."""
import pathlib
import tempfile
import threading
import time
import unittest

from checks.cases import checked
from checks.cases import rehearsed
from checks.cases.program import with_program
from checks.cases.samples import called

from cca_tools.rules.auction import replay
from cca_tools.rules.award import read_award
from cca_tools.rules.book import book_text
from cca_tools.rules.log import read_log
from cca_tools.rules.types import Gross, Package
from cca_tools.studies.awarding import log_text
from cca_tools.studies.bidding import Straightforward, sealed_list
from cca_tools.studies.rehearsal import Rehearsal, held
from cca_tools.studies.strategies import Strategy
from cca_tools.studies.values import values_of_seed

ONE = b"""version = 2
tick = 1
[[category]]
name = "a"
supply = 2
points = 2
reserve = 10
[[category]]
name = "b"
supply = 2
points = 1
reserve = 5
[[bidder]]
name = "east"
eligibility = 6
[[bidder]]
name = "west"
eligibility = 6
[[step]]
excess = 1
permille = 100
"""
VALUES = b"""values = 1
[[bidder]]
names = "east"
model = "packages"
package = [{ lots = [2, 0], value = 60 }, { lots = [1, 1], value = 30 }, { lots = [0, 1], value = 4 }]
[[bidder]]
model = "additive"
lot = [20, 9]
decrease = 50
"""


class Bidders(unittest.TestCase):
    def test_the_package_of_greatest_profit(self) -> None:
        """At 10 and 5 the profits are 40, 15 and -1; a tie goes to the more points, then to the earlier package."""
        award = read_award(ONE)
        east = values_of_seed(award, VALUES, 1)[0]
        self.assertEqual(Straightforward(award, east).ask((10, 5), 6), (2, 0))
        self.assertEqual(Straightforward(award, east).ask((10, 5), 3), (1, 1))
        self.assertIsNone(Straightforward(award, east).ask((31, 5), 6))
        even: dict[Package, Gross] = {(0, 2): Gross(20), (1, 0): Gross(20)}
        self.assertEqual(Straightforward(award, {**even, (1, 1): Gross(25)}).ask((10, 5), 6), (1, 1))
        self.assertEqual(Straightforward(award, even).ask((10, 5), 6), (0, 2))
        self.assertEqual(Straightforward(award, {(0, 1): Gross(15), (1, 0): Gross(20)}).ask((10, 5), 6), (1, 0))
        self.assertEqual(Straightforward(award, {(0, 1): Gross(5)}).ask((10, 5), 6), (0, 1))

    def test_a_share_of_the_values(self) -> None:
        """Half of 60 is above the reserves of 20; half of 30 is 15, the reserves of 1 1; 4 is below its reserve."""
        award = read_award(ONE)
        values = values_of_seed(award, VALUES, 1)
        rehearsal = Rehearsal(award, values, [Strategy()] * 2)
        for line in rehearsal.right_lines():
            if rehearsal.auction.stage == "sealed":
                break
            rehearsal.auction.take(line)
        asked = rehearsal.auction.highest_in_clock(1)[2, 0]
        listed = sealed_list(rehearsal.auction, 1, values[0], Strategy(50, fit=False))
        self.assertEqual(listed, {(1, 1): 15, (2, 0): max(30, asked)})
        self.assertEqual(sealed_list(rehearsal.auction, 1, values[0], Strategy(fit=False)), {(1, 1): 30, (2, 0): 60})

    def test_lists_are_within_their_caps_where_nothing_else_is_said(self) -> None:
        """Three times its values are above a bidder's caps: such a list is refused, or lowered to them."""
        award = read_award(ONE)
        values = values_of_seed(award, VALUES, 1)
        lowered, whole = (held(award, values, [it] * 2) for it in (Strategy(300), Strategy(300, fit=False)))
        self.assertEqual({reply.word for reply in lowered.replies if not reply.is_ok}, set())
        self.assertEqual({reply.word for reply in whole.replies if not reply.is_ok}, {"relative-cap"})


class Command(unittest.TestCase):
    def setUp(self) -> None:
        folder = tempfile.TemporaryDirectory()
        self.addCleanup(folder.cleanup)
        self.folder = pathlib.Path(folder.name)
        (self.folder / "a").write_bytes(ONE)
        (self.folder / "v").write_bytes(VALUES)

    def path(self, name: str) -> str:
        return str(self.folder / name)

    def rehearse(self, *words: str) -> tuple[str, int, str]:
        return called("rehearse", self.path("a"), self.path("v"), *words)

    def test_a_log(self) -> None:
        printed, status, said = self.rehearse(self.path("log"))
        self.assertEqual((status, said), (0, ""))
        award = read_award(ONE)
        auction = replay(award, read_log((self.folder / "log").read_bytes(), award))
        self.assertEqual((auction.stage, all(reply.is_ok for reply in auction.replies)), ("closed", True))
        first = f"lines {len(auction.lines)} refused 0 rounds {len(auction.rounds)} packages with values 11"
        self.assertEqual(printed.splitlines()[0], first)
        self.assertEqual(self.rehearse(self.path("log"))[1], 5)
        self.rehearse(self.path("again"), "--pace", "0.001")
        self.assertEqual((self.folder / "log").read_bytes(), (self.folder / "again").read_bytes())

    def test_wrong_words(self) -> None:
        for words in (["--seed", "x"], ["--pace", "-1"], ["--share", "1001"], ["--slips", "1.5"]):
            self.assertEqual(self.rehearse(self.path("log"), *words)[1], 2, words)
        (self.folder / "v").write_bytes(b"values = 2\n")
        _, status, said = self.rehearse(self.path("log"))
        self.assertEqual(status, 3)
        self.assertIn("`values` is 2; it has to be a whole number from 1 to 1", said)

    def test_the_desk_closes(self) -> None:
        """The closes are written by another thread, which looks at the file as a desk does."""
        award, log = read_award(ONE), self.folder / "log"
        right = log_text(held(award, values_of_seed(award, VALUES, 1), [Strategy()] * 2))
        bids = [part.count(b"\n") for part in right.split(b"close,,,\n")[:-1]]

        def close() -> None:
            size = 0
            for count in bids:
                size += count
                end = time.monotonic() + 60
                while time.monotonic() < end and (not log.exists() or log.read_bytes().count(b"\n") < size):
                    time.sleep(0.01)
                with open(log, "ab") as file:
                    file.write(b"close,,,\n")
                size += 1

        desk = threading.Thread(target=close)
        desk.start()
        self.assertEqual(self.rehearse(str(log), "--desk", "--fit")[1], 0)
        desk.join()
        self.assertEqual(log.read_bytes(), right)

    def test_slips_change_no_result(self) -> None:
        kinds = set()
        for number in range(8):
            _, award_bytes, values_bytes = rehearsed.drawn(number)
            (self.folder / "a").write_bytes(award_bytes)
            (self.folder / "v").write_bytes(values_bytes)
            award, made = read_award(award_bytes), []
            for slips in ("0", "15"):
                name = self.path(f"{number}-{slips}")
                self.assertEqual(self.rehearse(name, "--seed", str(number), "--slips", slips)[1], 0)
                made.append(replay(award, read_log(pathlib.Path(name).read_bytes(), award)))
            right, slipped = made
            self.assertEqual(book_text(right.need_book()), book_text(slipped.need_book()))
            refused = [reply.word for reply in slipped.replies if not reply.is_ok]
            self.assertLessEqual(10, len(refused))
            kinds.update(refused)
        self.assertLessEqual({"unknown", "supply", "stage", "empty", "relative-cap"}, kinds)


class Theory(unittest.TestCase):
    @with_program
    def test_what_theory_says(self) -> None:
        """Auctions with all forms of values: each line is admitted, nobody pays more than its value, and where values
        are separable prices are Vickrey's."""
        forms = set()
        for number in range(10):
            form, found = checked.faults(number)
            self.assertEqual([it for it in found if it != "limit"], [], number)
            forms.add(form)
        self.assertEqual(forms, set(rehearsed.FORMS))

    @with_program
    def test_small_ones_against_all_allocations(self) -> None:
        for number in range(20):
            self.assertEqual(checked.faults(number, is_small=True)[1], [], number)


if __name__ == "__main__":
    unittest.main()
