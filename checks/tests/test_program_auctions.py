"""The program's `auction` compared with the second program, on drawn auctions and on a list of more than 300 drafts."""
import collections
import itertools
import os
import random
import tempfile
import unittest
from checks.cases.program import Ended, run, with_program
from checks.cases.samples import lines

from checks.cases.second_auctions import drawn, second_auction

NUMBER, SEED = 300, 1

# Text of the lines of all replies except `full`, of the books, and of the lines of all ends of an auction except the
# end after 300 rounds.
WORDS = [
    " ok\n",
    " round ",
    " sealed\n",
    " closed\n",
    " stage\n",
    " unknown\n",
    " supply 1\n",
    " supply 2\n",
    " spectrum-cap 1 ",
    " spectrum-cap 2 ",
    " points ",
    " empty\n",
    " below-reserve ",
    " below-clock ",
    " no-draft\n",
    " relative-cap 1 ",
    " relative-cap 2 ",
    " amount-top ",
    " price-top 1 ",
    " price-top 2 ",
    "book 1\n",
    "\ncca: refused log ",
    "\ncca: limit price ",
]

LONG = b"""version = 2
tick = 1
category = [{name = "a", supply = 17, points = 0, reserve = 10}, {name = "b", supply = 16, points = 0, reserve = 7}]
bidder = [{name = "b1", eligibility = 0}, {name = "b2", eligibility = 0}]
step = [{excess = 1, permille = 1}]
"""


def second(award: bytes, log: bytes) -> Ended:
    """How the second program wants a run of `auction` to end."""
    files: dict[str, bytes] = {"award": award, "log": log}
    with tempfile.TemporaryDirectory() as folder:
        for name, text in files.items():
            with open(os.path.join(folder, name), "wb") as file:
                file.write(text)
        printed, book, status = second_auction(*(os.path.join(folder, name) for name in files))
    return Ended(printed, status, files if book is None else {**files, "book": book})


def other_version(award: bytes) -> bytes:
    """The award with the final cap if it has none, and without it if it has one."""
    first, rest = award.split(b"\n", 1)
    return {b"version = 1": b"version = 2\n", b"version = 2": b"version = 1\n"}[first] + rest


@with_program
class BesideTheSecondProgram(unittest.TestCase):
    def agreed(self, award: bytes, log: bytes) -> Ended:
        """Runs both programs, and returns how both ended."""
        wanted = second(award, log)
        self.assertEqual(run("auction", "award", "log", "book", award=award, log=log), wanted)
        return wanted

    def test_drawn_auctions(self) -> None:
        rng, turned = random.Random(SEED), collections.Counter[bytes]()
        texts: list[str] = []
        for number in range(NUMBER):
            award, log = (text.encode() for text in drawn(rng)[:2])
            with self.subTest(number=number, award=award, log=log):
                ended, other = self.agreed(award, log), self.agreed(other_version(award), log)
                texts += [ended.printed, ended.files.get("book", b"").decode()]
                turned[award.split(b"\n")[0]] += ended.printed != other.printed
        for word in WORDS:
            with self.subTest(word=word):
                self.assertIn(word, "".join(texts))
        for version in b"version = 1", b"version = 2":
            with self.subTest(version=version):
                self.assertGreater(turned[version], 2, "too few logs in which the final cap turns a reply")

    def test_draft_list_of_300(self) -> None:
        drafts = [f"draft,b1,{a} {b},{10 * a + 7 * b}" for a, b in itertools.product(range(18), range(17))]
        ended = self.agreed(LONG, lines(" / ".join(["close,,,", *drafts, "submit,b1,,", "close,,,"])))
        self.assertIn("\n302 ok\n303 full 300\n", ended.printed)


if __name__ == "__main__":
    unittest.main()
