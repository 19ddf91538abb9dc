"""The auctions that the program makes from numbers, compared with the generator of checks/ and by checksums."""
import unittest
from checks.cases.program import Ended, run, with_program

from checks.cases.made_auction import award_text, log_text

# For each number the bytes of the log, their sum, each weighed by its place, and how the log begins.
LOGS = [
    (0, 29152, 3963027320, b"bid,b1,1 0 4 2,\nbid,b2"),
    (7, 28996, 3747110376, b"bid,b1,1 0 4 4,\nbid,b2"),
    (4294967295, 28990, 3727091300, b"bid,b1,2 1 6 3,\nbid,b2"),
]

FRONT = b"""version = 1
tick = 1

[[category]]
name = "a"
supply = 4
points = 10
reserve = 1000

[[category]]
name = "b"
supply = 1
points = 10
reserve = 1500

[[category]]
name = "c"
supply = 14
points = 1
reserve = 100

[[category]]
name = "e"
supply = 9
points = 1
reserve = 10

[[bidder]]
name = "b1"
eligibility = 73

[[bidder]]
name = "b2"
eligibility = 73

"""

END = b"""

[[bidder]]
name = "b12"
eligibility = 73

[[step]]
excess = 1
permille = 100

[[step]]
excess = 5
permille = 200
"""


def weighed_sum(text: bytes) -> int:
    """The sum of the bytes, each times the rest of its place by 65,521 and one more, below 2^32."""
    return sum((place % 65_521 + 1) * byte for place, byte in enumerate(text)) % 2**32


def made(number: int) -> tuple[Ended, bytes, bytes]:
    """The award and the log of a number."""
    ended = run("make", str(number), "award", "log")
    return ended, ended.files["award"], ended.files["log"]


@with_program
class MadeAuctions(unittest.TestCase):
    def test_logs(self) -> None:
        for number, size, weighed, first in LOGS:
            with self.subTest(number=number):
                ended, award, log = made(number)
                self.assertEqual(
                    ended, Ended(f"made {number} bidders 12 lines 1339\n", 0, {"award": award, "log": log})
                )
                self.assertEqual((len(log), weighed_sum(log), log[: len(first)]), (size, weighed, first))
                self.assertTrue(log.endswith(b"\nsubmit,b12,,\nclose,,,\n"))
                self.assertEqual((award.decode(), log.decode()), (award_text(), log_text(number)))

    def test_award(self) -> None:
        award = made(7)[1]
        self.assertEqual((len(award), award[: len(FRONT)], award[-len(END) :]), (836, FRONT, END))

    def test_both_are_read(self) -> None:
        _, award, log = made(7)
        ended = run("auction", "award", "log", "book", award=award, log=log)
        self.assertEqual((ended.status, ended.printed.count("\n")), (0, 1339))


if __name__ == "__main__":
    unittest.main()
