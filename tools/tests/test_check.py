"""tools/check: worked examples, each test failed once, faults of form by the byte, and limits by the count."""
import re
import unittest
from checks.cases.samples import book_of, certificate_of, lines, said, sample, six_bidders
from checks.cases.voices import check
from cca_tools.rules.stops import LineSpot, Stop
from collections.abc import Sequence

BOOK, CERT, WEIGHTS = sample("day-cramton.book"), sample("day-cramton.cert"), sample("day-cramton.weights")
YES = "yes\nwinner b1 1 0 bid 28 vickrey 14 pays 17\nwinner b2 0 1 bid 20 vickrey 12 pays 15\nnet 48\nrevenue 32"

# What is changed in the certificate of Day and Cramton, at its first place, and the line that has to be printed for it.
EDITS = [
    ("den 1", "den 0", "no C1 1"),
    ("value 48", "value -1", "no C1 2"),
    ("value 48", f"value {2 ** 120 - 1}", "no C1 3"),
    ("den 1", f"den {2 ** 119}", "no C1 3"),
    ("den 1", f"den {(2 ** 120 - 1) // 49 + 1}", "no C1 3"),
    ("den 1", f"den {(2 ** 120 - 1) // 49}", "no C6 1"),
    ("choice 1 1 0 0 0", "choice 1 2 0 0 0", "no C2 2"),
    ("value 48", "value 47", "no C2 7"),
    ("t 0 20 14 34", "t 0 20 14 33", "no C3 7"),
    ("t 0 20 14 34", "t 0 20 13 34", "no C3 6"),
    ("t 0 0 0 0\nwithout", "t 0 -1 0 0\nwithout", "no C3 21"),
    ("t 0 20 28 48", "t 0 20 28 49", "no C3 24"),
    ("choice 0 1 0 1 0", "choice 0 1 0 0 0", "no C4 1"),
    ("choice 0 1 0 1 0", "choice 1 1 0 0 0", "no C4 1"),
    ("choice 0 1 0 1 0", "choice 0 9 0 1 0", "no C4 1"),
    ("choice 0 1 0 1 0", "choice 0 1 1 0 0", "no C4 1"),
    (
        "1 0\ntable\nt 0 20 14 34\nt 0 20 14 34\nt 0 12 14 32",
        "1 0\ntable\nt 0 20 14 34\nt 0 20 14 34\nt 0 12 14 31",
        "no C4 1",
    ),
    ("t 0 20 14 34\nt 0 20 14 34", "t 0 20 14 33\nt 0 20 14 34", "no C4 1"),
    ("t 0 20 14 34\nt 0 20 14 34", "t 0 20 14 35\nt 0 20 14 34", "no C4 1"),
    ("t 0 12 28 40\nt 0 12 14 32", "t 0 12 28 40\nt 0 11 14 32", "no C4 2"),
    ("pay 17 15 0 0 0", "pay 17 15 0 0 1", "no C5 5"),
    ("pay 17 15 0 0 0", "pay 29 3 0 0 0", "no C5 1"),
    ("pay 17 15 0 0 0", "pay 17 -1 0 0 0", "no C5 2"),
    ("choice 0 0 1 0 0", "choice 1 0 0 0 0", "no C6 1"),
    ("row 1 2", "row 1 3", "no C6 1"),
    ("pay 17 15 0 0 0", "pay 17 14 0 0 0", "no C6 1"),
    ("mult 1 3", "mult -1 3", "no C7 1"),
    ("mult 1 3", "mult 2 3", "no C7 2"),
    ("pay 17 15 0 0 0", "pay 16 16 0 0 0", "no C8 2"),
    ("mult 1 3", "mult 1 2", "no C8 2"),
    ("mult 1 3", f"mult 1 {1 - 2 ** 120}", "no C8 2"),
    ("mult 1 3", f"mult 1 {2 ** 120 - 1}", "no C8 2"),
    ("t 0 15 17 32", "t 0 15 17 33", "no C9 24"),
    ("t 0 15 17 32\nt 0 15 14 32", "t 0 15 17 32\nt 0 14 14 32", "no C9 5"),
    ("t 0 15 14 32\nt 0 12 14 32", "t 0 15 14 32\nt 0 12 14 31", "no C9 11"),
    ("choice 1 1 0 0 0", "choice 0 1 0 0 0", "cca: refused cert 119"),
    ("rows 1", "rows 11", "cca: refused cert 349"),
    ("row 1 2", "row 2 1", "cca: refused cert 356"),
    ("row 1 2", "row 1 1", "cca: refused cert 356"),
    ("row 1 2", "row 1 6", "cca: refused cert 356"),
    ("row 1 2", "row", "cca: refused cert 356"),
    ("mult 1 3", f"mult 1 {2 ** 120}", "cca: refused cert 364"),
    ("mult 1 3", f"mult 1 {-2 ** 120}", "cca: refused cert 364"),
    ("mult 1 3", "mult 1 -0", "cca: refused cert 364"),
    ("mult 1 3", "mult 1  3", "cca: refused cert 364"),
    ("cert 1", "cert 2", "cca: refused cert 0"),
    ("den 1", "dem 1", "cca: refused cert 7"),
    ("t 0 20 14 34", "x 0 20 14 34", "cca: refused cert 58"),
    ("mult 1 3", "malt 1 3", "cca: refused cert 364"),
    ("end\n", "end", "cca: refused cert 472"),
    ("end\n", "end\n\n", "cca: refused cert 476"),
    ("end\n", "end\ncert 1\n", "cca: refused cert 476"),
]


# Payments of the least sum that nobody blocks, with multipliers that would show that they are the nearest to the
# Vickrey prices if b2, which pays 6 more than its own, paid 6 less.
WRONG_SIGN = CERT[: CERT.index(b"pay")] + lines(
    "pay 14 18 0 0 0 / rows 2 / row 1 / mult 0 6 / choice 0 1 0 1 0 / row 1 2 / mult 1 -6 / choice 0 0 1 0 0 / "
    "lowered / t 0 18 14 32 / t 0 18 14 32 / t 0 12 14 32 / t 0 12 14 26 / t 0 12 0 12 / t 0 0 0 0 / end"
)


class Samples(unittest.TestCase):
    def test_the_sign_of_what_is_paid_above(self) -> None:
        self.assertEqual(said(check, BOOK, WRONG_SIGN), ("no C8 4", 1))

    def test_day_and_cramton(self) -> None:
        self.assertEqual(said(check, BOOK, CERT), (YES, 0))

    def test_nobody(self) -> None:
        cert = lines("cert 1 / den 1 / value 0 / choice / table / t 0 0 / pay / rows 0 / lowered / t 0 0 / end")
        self.assertEqual(said(check, lines("book 1 / supply 1 / reserve 0 / end"), cert), ("yes\nnet 0\nrevenue 0", 0))
        more = cert.replace(b"rows 0", b"rows 1")
        self.assertEqual(said(check, lines("book 1 / supply 1 / reserve 0 / end"), more), ("cca: refused cert 44", 3))

    def test_reserve(self) -> None:
        book = lines("book 1 / supply 1 / reserve 50 / bidder solo / bid 1 50 / end")
        cert = lines(
            "cert 1 / den 1 / value 0 / choice 1 / table / t 0 0 / t 0 0 / without 1 / choice 0 / table / t 0 0 / t 0 0"
            " / pay 0 / rows 1 / row 1 / mult 1 0 / choice 0 / lowered / t 0 0 / t 0 0 / end"
        )
        self.assertEqual(
            said(check, book, cert), ("yes\nwinner solo 1 bid 50 vickrey 50 pays 50\nnet 0\nrevenue 50", 0)
        )

    def test_thirds(self) -> None:
        locals_ = [[((1, 0, 0), 10)], [((0, 1, 0), 10)], [((0, 0, 1), 10)]]
        bids, without = [*locals_, [((1, 1, 1), 11)]], {1: (0, 1, 1, 0), 2: (1, 0, 1, 0), 3: (1, 1, 0, 0)}
        cert = certificate_of(
            (1, 1, 1), bids, (1, 1, 1, 0), without, 3, (11, 11, 11, 0), [((1, 2, 3), 3, 11, (0, 0, 0, 1))]
        )
        text, status = said(check, book_of((1, 1, 1), bids), cert)
        self.assertEqual(status, 0)
        self.assertEqual(text.splitlines()[1], "winner b1 1 0 0 bid 10 vickrey 0 pays 3+2/3")
        self.assertEqual(text.splitlines()[-2:], ["net 30", "revenue 11"])

    def test_negative_multipliers(self) -> None:
        locals_ = [[((1, 0, 0), 10)], [((0, 1, 0), 10)], [((0, 0, 1), 10)]]
        bids = [*locals_, [((1, 1, 0), 8)], [((0, 1, 1), 8)]]
        without = {1: (0, 1, 1, 0, 0), 2: (1, 0, 1, 0, 0), 3: (1, 1, 0, 0, 0)}
        first, last = (0, 0, 1, 1, 0), (1, 0, 0, 0, 1)
        alone = [((1, 2), 1, 0, first), ((2, 3), 0, 8, last), ((3,), 1, -8, (1, 1, 0, 0, 0))]
        other = [((1,), 1, -8, (0, 1, 1, 0, 0)), ((2, 3), 1, 0, last), ((1, 2), 0, 8, first)]
        for rows in alone, other, [*alone, ((1, 2), 0, 0, first)]:
            cert = certificate_of((1, 1, 1), bids, (1, 1, 1, 0, 0), without, 1, (0, 8, 0, 0, 0), rows)
            text, status = said(check, book_of((1, 1, 1), bids), cert)
            self.assertEqual((status, text.splitlines()[-1]), (0, "revenue 8"))
        needless = [
            ((1, 2), 1, 0, first),
            ((2, 3), 0, 8, last),
            ((3,), 0, -8, (1, 1, 0, 0, 0)),
            ((3,), 1, 0, (1, 1, 0, 0, 0)),
        ]
        cert = certificate_of((1, 1, 1), bids, (1, 1, 1, 0, 0), without, 1, (0, 8, 0, 0, 0), needless)
        self.assertEqual(said(check, book_of((1, 1, 1), bids), cert), ("no C8 3", 1))

    def test_ties(self) -> None:
        bids = [[((1,), 5), ((2,), 9)], [((1,), 4)]]
        cert = certificate_of((2,), bids, (2, 0), {1: (0, 1)}, 1, (4, 0), [((1,), 1, 0, (0, 1))])
        self.assertIn(b"table\nt 0 5 9\nt 0 4 4\nt 0 0 0\n", cert)
        self.assertEqual(said(check, sample("tie.book"), cert), ("no C3 10", 1))

    def test_ties_of_later_bidders(self) -> None:
        bids = [[((1,), 5)], [((1,), 5), ((2,), 9)], [((1,), 4)]]
        cert = certificate_of((3,), bids, (1, 2, 0), {1: (0, 2, 0), 2: (1, 0, 1)}, 1, (0, 0, 0), [])
        self.assertEqual(said(check, book_of((3,), bids), cert), ("no C3 18", 1))

    def test_ties_that_leave_nothing(self) -> None:
        bids = [[((1,), 9)], [((1,), 9)]]
        cert = certificate_of((1,), bids, (0, 1), {2: (1, 0)}, 1, (0, 9), [((2,), 1, 0, (1, 0))])
        self.assertEqual(said(check, book_of((1,), bids), cert), ("no C3 7", 1))
        cert = certificate_of((1,), bids, (1, 0), {1: (0, 1)}, 1, (9, 0), [((1,), 1, 0, (0, 1))])
        self.assertEqual(said(check, book_of((1,), bids), cert)[1], 0)

    def test_overfull_choice(self) -> None:
        bids = [[((1,), 5)], [((1,), 4)]]
        cert = certificate_of((1,), bids, (1, 1), {1: (0, 1), 2: (1, 0)}, 1, (0, 0), [])
        self.assertEqual(said(check, book_of((1,), bids), cert), ("no C2 3", 1))

    def test_several_bids(self) -> None:
        bids = [[((1,), 2), ((2,), 9)], [((1,), 1)], [((2,), 4)]]
        without = {1: (0, 1, 1), 2: (2, 0, 0)}
        cert = certificate_of(
            (3,), bids, (2, 1, 0), without, 1, (4, 0, 0), [((1,), 1, 0, without[1]), ((2,), 1, 0, without[2])]
        )
        prices = "winner b1 2 bid 9 vickrey 4 pays 4\nwinner b2 1 bid 1 vickrey 0 pays 0\nnet 10\nrevenue 4"
        self.assertEqual(said(check, book_of((3,), bids), cert), ("yes\n" + prices, 0))
        lower = stop_of(book_of((3,), bids), cert.replace(b"t 0 2 9 10", b"t 0 2 8 10", 1)).why
        self.assertIn("bid 2 of b1, for 2, counts 9, and with the 0 that line 1 says after it 9", lower)

    def test_versions(self) -> None:
        second = ("cert 2", "limits 16 16384")
        for supply, bidders, head in [
            ((1,), 12, ["cert 1"]),
            ((1,), 13, second),
            ((7, 7, 7, 7), 0, ["cert 1"]),
            ((7, 7, 7, 8), 0, second),
        ]:
            book, nobody = book_of(supply, [[]] * bidders), (0,) * bidders
            cert = certificate_of(supply, [[]] * bidders, nobody, {}, 1, nobody, [], head=head)
            self.assertEqual(said(check, book, cert), ("yes\nnet 0\nrevenue 0", 0))
            other = ["cert 1"] if len(head) == 2 else second
            wrong = certificate_of(supply, [[]] * bidders, nobody, {}, 1, nobody, [], head=other)
            self.assertEqual(said(check, book, wrong), ("cca: refused cert 0", 3))

    def test_second_version(self) -> None:
        bids = [[((1,), 5)]] * 16
        choice, others = (1,) * 4 + (0,) * 12, {
            j: tuple(1 if k != j and k < 6 else 0 for k in range(1, 17)) for j in range(1, 5)
        }
        rows = [((j,), 1, 0, others[j]) for j in others]
        parts = (4,), bids, choice, others, 1, (5,) * 4 + (0,) * 12, rows
        text, status = said(check, book_of((4,), bids), certificate_of(*parts, head=("cert 2", "limits 16 16384")))
        self.assertEqual(
            (status, text.splitlines()[4:]), (0, ["winner b4 1 bid 5 vickrey 5 pays 5", "net 20", "revenue 20"])
        )
        self.assertEqual(said(check, book_of((4,), bids), certificate_of(*parts)), ("cca: refused cert 0", 3))


class LargerBooks(unittest.TestCase):
    def test_six_bidders_of_spectrum(self) -> None:
        text, status = said(check, sample("six-bidders.book"), six_bidders())
        self.assertEqual((status, text.splitlines()[3]), (0, "winner p3 2 0 4 5 bid 710500 vickrey 630500 pays 700500"))
        pays = [line.split()[-1] for line in text.splitlines()[1:6]]
        self.assertEqual(
            (pays, text.splitlines()[6:]),
            (["540000", "250000", "700500", "105000", "45400"], ["net 680000", "revenue 1640900"]),
        )

    def test_eleven_winners(self) -> None:
        bids = [[((1,), 5)]] * 11
        without = {j: tuple(int(k != j) for k in range(1, 12)) for j in range(1, 12)}
        cert = certificate_of((11,), bids, (1,) * 11, without, 1, (0,) * 11, [(range(1, 12), 1, 0, (0,) * 11)])
        text, status = said(check, book_of((11,), bids), cert)
        self.assertEqual((status, text.splitlines()[-2:]), (0, ["net 55", "revenue 0"]))

    def test_greatest_amounts(self) -> None:
        most, share = 4398046511104, 2199023255552
        bids = [*[[((1,), most)]] * 6, [((6,), most)]]
        without = {j: tuple(int(k != j and k < 7) for k in range(1, 8)) for j in range(1, 7)}
        cert = certificate_of(
            (6,), bids, (1,) * 6 + (0,), without, 3, (share,) * 6 + (0,), [(range(1, 7), 3, share, (0,) * 6 + (1,))]
        )
        text, status = said(check, book_of((6,), bids, [f"u{j}" for j in range(1, 7)] + ["g"]), cert)
        self.assertEqual((status, text.splitlines()[1]), (0, f"winner u1 1 bid {most} vickrey 0 pays 733007751850+2/3"))
        self.assertEqual(text.splitlines()[-2:], ["net 26388279066624", "revenue 4398046511104"])

    def test_most_states(self) -> None:
        supply, bids = (3, 3, 3, 3, 7, 7), [[((1, 0, 0, 0, 0, 0), 5)]]
        parts = (1,), {1: (0,)}, 1, (0,), [((1,), 1, 0, (0,))]
        text, status = said(
            check,
            book_of(supply, bids, ["solo"]),
            certificate_of(supply, bids, *parts, head=("cert 2", "limits 16 16384")),
        )
        self.assertEqual((text, status), ("yes\nwinner solo 1 0 0 0 0 0 bid 5 vickrey 0 pays 0\nnet 5\nrevenue 0", 0))
        self.assertEqual(
            said(check, book_of(supply, bids), certificate_of(supply, bids, *parts)), ("cca: refused cert 0", 3)
        )


class Faults(unittest.TestCase):
    def test_edits(self) -> None:
        for was, put, line in EDITS:
            with self.subTest(put=put, line=line):
                cert = CERT.replace(was.encode(), put.encode(), 1)
                self.assertNotEqual(cert, CERT)
                self.assertEqual(said(check, BOOK, cert), (line, 1 if line.startswith("no") else 3))

    def test_the_first_word_of_each_line(self) -> None:
        rows = CERT.splitlines(keepends=True)
        for at, row in enumerate(rows):
            with self.subTest(row=row):
                cert = b"".join([*rows[:at], b"x" + row, *rows[at + 1 :]])
                self.assertEqual(said(check, BOOK, cert), (f"cca: refused cert {sum(map(len, rows[:at]))}", 3))

    def test_single_rows_only(self) -> None:
        rows = b"pay 14 12 0 0 0\nrows 2\nrow 1\nmult 1 0\nchoice 0 1 0 1 0\nrow 2\nmult 1 0\nchoice 1 0 0 0 1\nlowered"
        cert = re.sub(rb"pay .*lowered", rows, CERT, flags=re.DOTALL)
        self.assertEqual(said(check, BOOK, cert), ("no C9 24", 1))

    def test_fronts(self) -> None:
        for count in range(len(CERT)):
            start = CERT.rfind(b"\n", 0, count) + 1
            self.assertEqual(said(check, BOOK, CERT[:count]), (f"cca: refused cert {start}", 3))

    def test_words_and_files(self) -> None:
        cases: list[list[str]] = [[], ["one"], ["same", "same"], ["", "two"], ["-x", "two"], list("four")]
        for words in cases:
            self.assertEqual(stopped(words), ("cca: words", 2))
        self.assertEqual(stopped(["/no such file", "two"]), ("cca: read fault book", 4))
        self.assertEqual(stopped(["/", "two"]), ("cca: read fault book", 4))

    def test_every_fault_has_a_sentence(self) -> None:
        for was, put, line in EDITS:
            with self.subTest(put=put):
                self.assertGreater(len(stop_of(BOOK, CERT.replace(was.encode(), put.encode(), 1)).why), 20)

    def test_sentences(self) -> None:
        paid = stop_of(BOOK, CERT.replace(b"pay 17 15", b"pay 16 16")).why
        self.assertIn("b1 pays 2 more than its Vickrey price. The second multipliers of its rows come to 3", paid)
        table = stop_of(BOOK, CERT.replace(b"t 0 20 14 34", b"t 0 20 14 33", 1)).why
        below = stop_of(BOOK, CERT.replace(b"t 0 0 0 0\nwithout", b"t 0 -1 0 0\nwithout", 1)).why
        self.assertIn(
            (
                "line 5 (of the bidders after b5) says -1 where 0 1 is left, which is too low: the last line is nowhere"
                " below 0"
            ),
            below,
        )
        self.assertIn(
            (
                "line 1 (of the bidders after b1) says 33 where 1 1 is left, which is too low: bid 1 of b2, for 0 1,"
                " counts 20, and with the 14"
            ),
            table,
        )

    def test_sentences_of_each_test(self) -> None:
        """Who, what was found, and what has to be. The numbers are from the example in README."""
        rows = [
            ("den 1", "den 0", "the denominator is 0, and has to be at least 1"),
            ("value 48", "value -1", "the value is -1, and has to be at least 0"),
            ("den 1", f"den {2**119}", f"the denominator {2**119} times (48 + 1) isn't below 2^120"),
            ("choice 1 1", "choice 1 2", "the head's choice names bid 2 of b2, which has 1"),
            ("value 48", "value 47", "the head's choice is worth 48 net, and the certificate says 47"),
            (
                "t 0 20 14 34",
                "t 0 20 13 34",
                "(of the bidders after b1) says 13 where 1 0 is left, which is too low: line 2",
            ),
            ("t 0 20 28 48", "t 0 20 28 49", "the head's table says 49 for all that can be sold, above the value 48"),
            ("choice 0 1 0 1 0", "choice 0 9 0 1 0", "without b1 its choice names bid 9 of b2, which has 1"),
            ("choice 0 1 0 1 0", "choice 1 1 0 0 0", "without b1 its choice gives b1 a bid"),
            (
                "choice 0 1 0 1 0",
                "choice 0 1 0 0 0",
                "says 34 for all that can be sold, above the 20 that its choice is worth",
            ),
            (
                "pay 17 15",
                "pay 29 3",
                "b1 pays 29 net of reserve, and it wins with a bid of 28; a payment is at least 0",
            ),
            ("pay 17 15 0 0 0", "pay 17 15 0 0 1", "b5 pays 1 net of reserve, and it wins nothing, so it pays 0"),
            ("row 1 2", "row 1 3", "in row 1 b3 is a member, and it wins nothing"),
            (
                "pay 17 15",
                "pay 17 14",
                "in row 1 b1 and b2 pay 31 net of reserve, and have to pay 32: the row's choice is worth 32, and the"
                " other winners win with 0",
            ),
            ("mult 1 3", "mult -1 3", "the first multiplier of row 1 is -1, below 0"),
            ("mult 1 3", "mult 2 3", "rows of b1 come to 2, and have to come to the denominator 1"),
            (
                "mult 1 3",
                "mult 1 2",
                "b1 pays 3 more than its Vickrey price. The second multipliers of its rows come to 2, times its weight"
                " 1 to 2, and the two have to be the same",
            ),
            (
                "t 0 15 17 32",
                "t 0 15 17 33",
                "the lowered table says 33 for all that can be sold, above the 32 that is paid",
            ),
        ]
        for was, put, why in rows:
            with self.subTest(put=put):
                self.assertIn(why, stop_of(BOOK, CERT.replace(was.encode(), put.encode(), 1)).why)
        alone = CERT.replace(b"rows 1\n", b"rows 2\nrow 1\nmult 0 -1\nchoice 0 1 0 1 0\n")
        told = stop_of(BOOK, alone).why
        self.assertIn("b1 pay 17 net of reserve, and have to pay 14: the row's choice is worth 34, and the other", told)
        self.assertIn("winners win with 20", told)
        tie = [[((1,), 9)], [((1,), 9)]]
        cert = certificate_of((1,), tie, (0, 1), {2: (1, 0)}, 1, (0, 9), [((2,), 1, 0, (1, 0))])
        self.assertIn(
            "bid 1 of b1 comes earlier in the order of ties than what the head's choice gives it. It is worth 9 net,"
            " with the 0 that the head's table says after it 9, and that has to be less than 9, what the head's choice",
            stop_of(book_of((1,), tie), cert).why,
        )

    def test_sentences_by_weights(self) -> None:
        told = stop_of(BOOK, Weights.weighed).why
        self.assertIn(
            (
                "b2 pays 9 more than its Vickrey price (over the denominator 2). The second multipliers of its rows"
                " come to 3, times its weight 1 to 3"
            ),
            told,
        )
        self.assertIn(
            (
                "b2 pays 3 more than its Vickrey price. The second multipliers of its rows come to 3, times its weight"
                " 3 to 9"
            ),
            stop_of(BOOK, CERT, WEIGHTS).why,
        )

    def test_rows_in_an_editor(self) -> None:
        book = stop_of(BOOK.replace(b"bid 1 1 32", b"bid 1 1 3.2"), CERT)
        assert isinstance(book.spot, LineSpot)
        self.assertEqual((book.spot.row, book.spot.read), (9, "bid 1 1 3.2"))
        self.assertIn("`3.2` is read as the amount", book.why)
        for put, hint in [
            ("bid 1 1 32 ", "a space too many"),
            ("bid 1  1 32", "a space too many"),
            ("bid 1 1\t32", "a tab"),
            ("bid 1 1 32\r", "carriage"),
        ]:
            self.assertIn(hint, stop_of(BOOK.replace(b"bid 1 1 32", put.encode()), CERT).why)
        self.assertIn("another book", stop_of(sample("tie.book"), CERT).why)
        cert = stop_of(BOOK, CERT + CERT)
        assert isinstance(cert.spot, LineSpot)
        self.assertEqual((cert.spot.row, cert.spot.read), (CERT.count(b"\n") + 1, "cert 1"))


def stop_of(*texts: bytes) -> Stop:
    """The stop."""
    stops: list[Stop] = []

    def run(names: Sequence[str]) -> str:
        try:
            return check(names)
        except Stop as stop:
            stops.append(stop)
            raise

    said(run, *texts)
    return stops[0]


def stopped(words: Sequence[str]) -> tuple[str, int]:
    try:
        return check(words), 0
    except Stop as stop:
        return stop.line, stop.status


class Weights(unittest.TestCase):
    weighed = CERT.replace(b"den 1", b"den 2").replace(b"pay 17 15", b"pay 31 33").replace(b"mult 1 3", b"mult 2 3")
    weighed = (
        weighed[: weighed.index(b"lowered")]
        + b"lowered\nt 0 33 31 64\nt 0 33 28 64\nt 0 24 28 64\nt 0 24 28 52\nt 0 24 0 24\nt 0 0 0 0\nend\n"
    )

    def test_weighed(self) -> None:
        lines_ = [
            "winner b1 1 0 bid 28 vickrey 14 pays 15+1/2",
            "winner b2 0 1 bid 20 vickrey 12 pays 16+1/2",
            "net 48",
            "revenue 32",
        ]
        self.assertEqual(said(check, BOOK, self.weighed, WEIGHTS), ("\n".join(["yes", *lines_]), 0))
        self.assertEqual(said(check, BOOK, self.weighed), ("no C8 3", 1))
        self.assertEqual(said(check, BOOK, CERT, WEIGHTS), ("no C8 3", 1))
        self.assertEqual(said(check, BOOK, CERT, WEIGHTS.replace(b" 3\n", b" 1\n")), (YES, 0))

    def test_faults(self) -> None:
        for was, put, place in [
            ("weights 1", "weights 2", 0),
            ("b1 1", "b1 0", 10),
            ("b1 1", "b1 21", 10),
            ("b1 1", "b1 01", 10),
            ("b1 1", "b1", 10),
            ("weight b1 1\n", "", 10),
            ("b2 3", "b3 3", 22),
            ("end\n", "end", 70),
            ("end\n", "weight b6 1\nend\n", 70),
            ("end\n", "end\nend\n", 74),
        ]:
            with self.subTest(put=put):
                self.assertEqual(
                    said(check, BOOK, CERT, WEIGHTS.replace(was.encode(), put.encode(), 1)),
                    (f"cca: refused weights {place}", 3),
                )

    def test_order_of_reading(self) -> None:
        self.assertEqual(said(check, b"", b"", b""), ("cca: refused book 0", 3))
        self.assertEqual(said(check, BOOK, b"", b""), ("cca: refused weights 0", 3))
        self.assertEqual(said(check, BOOK, b"", b"x" * 65537), ("cca: limit bytes 65537", 7))
        self.assertEqual(said(check, BOOK, b"", WEIGHTS), ("cca: refused cert 0", 3))


if __name__ == "__main__":
    unittest.main()
