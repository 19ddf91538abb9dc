"""The program over certificates of books: the place where it stops in their texts, and what it writes for a book."""
import unittest
from collections.abc import Iterable
from checks.cases.program import run, with_program
from checks.cases.samples import sample

BOOK, CERT = sample("day-cramton.book").decode(), sample("day-cramton.cert").decode()
YES = "yes\nwinner b1 1 0 bid 28 vickrey 14 pays 17\nwinner b2 0 1 bid 20 vickrey 12 pays 15\nnet 48\nrevenue 32\n"

# Faulty heads of a certificate for nobody.
NOBODY = "book 1\nsupply 1\nreserve 0\nend\n"

FAULTY_HEADS = [
    ("", 0),
    ("cert 1", 0),
    ("cert 2\nden 1\n", 0),
    ("cert 1\nden 01\n", 7),
    ("cert 1\nden -0\n", 7),
    ("cert 1\nden  1\n", 7),
    ("cert 1\nden 1 \n", 7),
    ("cert 1\nden 1329227995784915872903807060280344576\n", 7),
    ("cert 1\nden -1329227995784915872903807060280344576\n", 7),
    ("cert 1\nden 1329227995784915872903807060280344576 1\n", 7),
    ("cert 1\nden -1329227995784915872903807060280344575\n", 50),
    ("cert 1\nden 1\nvalue 0\nchoice 0\n", 21),
]

# A certificate for nobody up to its rows, 44 bytes, and faulty lines after it.
NOBODY_PAYS = "cert 1\nden 1\nvalue 0\nchoice\ntable\nt 0 0\npay\n"

FAULTY_ENDS = [
    ("rows 1\n", 44),
    ("rows 11\n", 44),
    ("rows 0\nlowered\nt 0 0\nend", 65),
    ("rows 0\nlowered\nt 0 0\nend\n\n", 69),
    ("rows 0\nlowered\nt 0 0\nend\nx", 69),
]

# Two bidders, and the head of a certificate where the first wins: 56 bytes, then the part without the first: 101 bytes,
# and then all up to the count of one row: 116 bytes. Whether a choice names bids isn't a matter of form.
TWO = "book 1\nsupply 1\nreserve 0\nbidder a\nbidder b\nend\n"
HEAD = "cert 1\nden 1\nvalue 0\nchoice 1 0\ntable\nt 0 0\nt 0 0\nt 0 0\n"
PARTS = HEAD + "without 1\nchoice 0 0\ntable\nt 0 0\nt 0 0\nt 0 0\n"
COUNT = PARTS + "pay 0 0\nrows 1\n"

FAULTY_LINES = [
    (HEAD, "t 0 0\n", 56),
    (HEAD, "without 2\n", 56),
    (HEAD, "pay 0 0\n", 56),
    (PARTS, "without 2\n", 101),
    (PARTS, "pay 0\n", 101),
    (PARTS, "pay 0 0\nrows 11\n", 109),
    (PARTS, "pay 0 0\nrows 10\n", 117),
    (PARTS, "pay 0 0\nrows 1329227995784915872903807060280344576\n", 109),
    (COUNT, "row\n", 116),
    (COUNT, "row 0\n", 116),
    (COUNT, "row 3\n", 116),
    (COUNT, "row 1 1\n", 116),
    (COUNT, "row 2 1\n", 116),
    (COUNT, "row 1329227995784915872903807060280344576\n", 116),
    (COUNT, "row 1 2\nmult 1\n", 124),
    (COUNT, "row 1 2\nmult 1 1329227995784915872903807060280344576\n", 124),
    (COUNT, "row 1 2\nmult 1 3\nchoice 1329227995784915872903807060280344576 0\n", 133),
    (COUNT, "row 1 2\nmult 1 3\nchoice 65536 0\n", 133),
    (COUNT, "row 1 2\nmult 1 3\nchoice 65535 0\n", 148),
]

# Supplies of 4,096 states, of a few more, and of 16,384.
STATES_4096, STATES_4104, STATES_16384 = "3 3 3 3 3 3", "18 5 5 5", "3 3 3 3 7 7"
FIRST, SECOND = "cert 1\nden 1\nvalue 0\n", "cert 2\nlimits 16 16384\nden 1\nvalue 0\n"

# How many bidders there are and what is sold, and where the certificate stops: with the right version, at the choice
# that is missing.
VERSIONS = [
    (12, STATES_4096, FIRST, 21),
    (12, STATES_4096, SECOND, 0),
    (13, STATES_4096, SECOND, 37),
    (12, STATES_4104, SECOND, 37),
    (16, STATES_16384, SECOND, 37),
    (16, STATES_16384, FIRST, 0),
    (16, STATES_16384, "cert 2\nden 1\nvalue 0\n", 7),
    (16, STATES_16384, "cert 2\nlimits 16 16385\n", 7),
    (16, STATES_16384, "cert 2\nlimits 12 4096\n", 7),
    (16, STATES_16384, "cert 2\n", 7),
    (16, STATES_16384, "cert 3\nlimits 16 16384\n", 0),
]


def book_of(supply: str, names: Iterable[str], bid: str | None = None) -> str:
    """A book without reserves where each bidder has this bid or none."""
    bidders = "".join(f"bidder {name}\n" + (f"bid {bid}\n" if bid else "") for name in names)
    return f"book 1\nsupply {supply}\nreserve {' '.join('0' for _ in supply.split())}\n{bidders}end\n"


def weights_of(book: str, weights: Iterable[int]) -> str:
    """The weights of the bidders of a book."""
    names = [line.removeprefix("bidder ") for line in book.splitlines() if line.startswith("bidder ")]
    return "weights 1\n" + "".join(f"weight {name} {weight}\n" for name, weight in zip(names, weights)) + "end\n"


@with_program
class Checks(unittest.TestCase):
    def check(self, cert: str, book: str = BOOK) -> tuple[str, int]:
        """What `check` prints of a certificate, and its status."""
        ended = run("check", "book", "cert", book=book, cert=cert)
        return ended.printed, ended.status

    def stops(self, cert: str, place: int, book: str = BOOK) -> None:
        self.assertEqual(self.check(cert, book), (f"cca: refused cert {place}\n", 3))

    def test_right_certificate(self) -> None:
        self.assertEqual(len(CERT), 476)
        self.assertEqual(self.check(CERT), (YES, 0))

    def test_faulty_heads(self) -> None:
        for cert, place in FAULTY_HEADS:
            with self.subTest(cert=cert):
                self.stops(cert, place, NOBODY)

    def test_nobody(self) -> None:
        self.assertEqual(
            self.check(NOBODY_PAYS + "rows 0\nlowered\nt 0 0\nend\n", NOBODY), ("yes\nnet 0\nrevenue 0\n", 0)
        )
        for rest, place in FAULTY_ENDS:
            with self.subTest(rest=rest):
                self.stops(NOBODY_PAYS + rest, place, NOBODY)

    def test_faulty_lines_behind_the_head(self) -> None:
        for front, rest, place in FAULTY_LINES:
            with self.subTest(front=front, rest=rest):
                self.stops(front + rest, place, TWO)

    def test_versions(self) -> None:
        for bidders, supply, cert, place in VERSIONS:
            with self.subTest(bidders=bidders, supply=supply, cert=cert):
                self.stops(cert, place, book_of(supply, [f"b{j}" for j in range(bidders)]))


@with_program
class Prices(unittest.TestCase):
    def lines_of(self, words: str, starts: tuple[str, ...], **files: str) -> list[str]:
        """The lines of the certificate that a command writes, if their first word is in `starts`."""
        ended = run(*words.split(" "), **files)
        self.assertEqual(ended.status, 0, ended.printed)
        return [line for line in ended.files["cert"].decode().splitlines() if line.split(" ")[0] in starts]

    def stops(self, words: str, line: str, status: int, **files: str) -> None:
        left = {name: text.encode() for name, text in files.items()}
        self.assertEqual(run(*words.split(" "), **files), (line + "\n", status, left))

    def test_certificate_of_day_and_cramton(self) -> None:
        """After one turn nobody blocks."""
        ended = run("price", "book", "cert", "--rounds", book=BOOK)
        turns = "round 1 point 14 12 row 1 2 choice 0 0 1 0 0 excess 6\nround 2 point 17 15 end\n"
        self.assertEqual(ended, (turns + YES.removeprefix("yes\n"), 0, {"book": BOOK.encode(), "cert": CERT.encode()}))

    def test_weights_share_what_is_above(self) -> None:
        weights = weights_of(BOOK, (1, 3, 1, 1, 1))
        found = self.lines_of("weigh book weights cert", ("den", "pay", "rows", "mult"), book=BOOK, weights=weights)
        self.assertEqual(found, ["den 2", "pay 31 33 0 0 0", "rows 1", "mult 2 3"])

    def test_six_winners_weigh_alike(self) -> None:
        book = book_of("6", "abcdef", "1 5")
        self.stops(
            "weigh book weights cert",
            "cca: limit winners 6",
            7,
            book=book,
            weights=weights_of(book, (2, 1, 1, 1, 1, 1)),
        )
        found = self.lines_of("weigh book weights cert", ("pay",), book=book, weights=weights_of(book, (1,) * 6))
        self.assertEqual(found, ["pay 0 0 0 0 0 0"])

    def test_more_than_six_winners_are_counted(self) -> None:
        self.stops("price book cert", "cca: limit winners 7", 7, book=book_of("7", "abcdefg", "1 1"))


if __name__ == "__main__":
    unittest.main()
