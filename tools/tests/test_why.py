"""tools/why: the prices of the samples as docs/BIDDER.md explains them, and prices by multipliers of both signs."""
import unittest
from fractions import Fraction
from checks.cases.samples import book_of, certificate_of, lines, said, sample, six_bidders, spectrum, taking
from cca_tools.rules.book import read_book
from cca_tools.rules.certificate import read_certificate
from cca_tools.rules.why import LEGEND, Reasons, asked_before, offer_of, vickrey_offer, why_lines
from collections.abc import Sequence

why = taking("why")
LOCALS = [[((1, 0, 0), 10)], [((0, 1, 0), 10)], [((0, 0, 1), 10)]]


def reasons_of(book: bytes, cert: bytes, weights: Sequence[int] | None = None) -> Reasons:
    return Reasons(read_certificate(cert, read_book(book)), weights)


class Spectrum(unittest.TestCase):
    book: bytes
    cert: bytes
    reasons: Reasons

    @classmethod
    def setUpClass(cls) -> None:
        cls.book, cls.cert = spectrum()
        cls.reasons = reasons_of(cls.book, cls.cert)

    def test_the_sample_is_this_certificate(self) -> None:
        self.assertEqual(self.cert, sample("spectrum.cert"))

    def test_sentences(self) -> None:
        self.assertEqual(
            list(self.reasons.sentences()),
            [
                "everest (292400), harbour (310400) and meridian (292500) pay their Vickrey prices, which is what their"
                " winning costs the others, and no coalition makes them pay more.",
                "niche pays 81200 and tarn 460200: their Vickrey prices of 81000 and 460000, and 200 more each, since"
                " everest, meridian and the seller with its reserve offer 541400 for what niche and tarn win, and that"
                " is 400 more than their Vickrey prices.",
            ],
        )

    def test_vickrey_of_tarn(self) -> None:
        offer = vickrey_offer(self.reasons.certificate, 5)
        self.assertEqual([(change.j, change.more) for change in offer.changes], [(1, 240000), (3, 220000)])
        self.assertEqual((offer.same, offer.kept, offer.gross, offer.net), ([2, 4], 0, 460000, 60000))

    def test_vickrey_of_niche(self) -> None:
        offer = vickrey_offer(self.reasons.certificate, 4)
        self.assertEqual(
            ([(change.j, change.more) for change in offer.changes], offer.kept, offer.gross),
            ([(5, 36000)], 45000, 81000),
        )

    def test_coalition(self) -> None:
        (offer,) = self.reasons.coalitions
        self.assertEqual(
            ([(change.j, change.more) for change in offer.changes], offer.kept), ([(1, 240000), (3, 256400)], 45000)
        )
        self.assertEqual(
            (offer.members, offer.same, offer.gross, self.reasons.excess(offer)), ([4, 5], [2], 541400, 400)
        )

    def test_gross_is_net_with_the_reserves(self) -> None:
        certificate = self.reasons.certificate
        for row in certificate.rows:
            offer = offer_of(certificate, row.members, row.choice)
            self.assertEqual(offer.gross, offer.net + sum(map(self.reasons.reserve, offer.members)))

    def test_of_the_three_files(self) -> None:
        text, status = said(why, sample("spectrum.award"), sample("spectrum.log"), self.cert)
        text = " ".join(text.split())
        self.assertEqual(status, 0)
        self.assertIn("A package is written as its counts of a800, b800, c2600 and e2600.", text)
        self.assertIn("Their Vickrey prices come to 81000 + 460000 = 541000 (66000 net of reserve): 400 less.", text)
        self.assertEqual(said(why, self.book, self.cert)[1], 0)

    def test_a_file_has_lines_of_80_columns(self) -> None:
        text, _ = said(why, sample("spectrum.award"), sample("spectrum.log"), self.cert)
        self.assertEqual([line for line in text.splitlines() if len(line) > 80], [])
        self.assertTrue(any(line.startswith("  200 more each, since everest, meridian") for line in text.splitlines()))


MORE = "c offers 40 for what a and b win, and that is 15 more than their Vickrey prices"
RESERVED = f"""\
a pays 22+1/2 and b 17+1/2: their Vickrey prices of 15 and 10, and 7+1/2 more each, since {MORE}.

a wins `1` with a bid of 30 (20 net of reserve), and pays 22+1/2 (12+1/2 net of reserve).
  Without a:
    c would win `3` for 50 instead of nothing: 50 more
    b would win nothing instead of `1` for 25: 25 less
    the seller would keep nothing instead of `1` at the reserve of 10: 10 less
  So the others would bring 50 - 25 - 10 = 15 (5 net of reserve) more. This is the Vickrey price of a.
  7+1/2 more because of coalition 1 (below).

b wins `1` with a bid of 25 (15 net of reserve), and pays 17+1/2 (7+1/2 net of reserve).
  Without b:
    the seller would keep `2` at the reserve of 20 instead of `1` at the reserve of 10: 10 more
    a would win as now
  So the others would bring 10 (0 net of reserve) more. This is the Vickrey price of b.
  7+1/2 more because of coalition 1 (below).

Coalition 1: c, for what a and b win.
    c would win `3` for 50 instead of nothing: 50 more
    the seller would keep nothing instead of `1` at the reserve of 10: 10 less
  That is 50 - 10 = 40 (20 net of reserve). a and b have to pay that much together.
  Their Vickrey prices come to 15 + 10 = 25 (5 net of reserve): 15 less.
  Because of it a pays 7+1/2 more and b pays 7+1/2 more, which is the same for each."""


class SixBidders(unittest.TestCase):
    def test_sentences(self) -> None:
        reasons = reasons_of(sample("six-bidders.book"), six_bidders())
        self.assertEqual(
            list(reasons.sentences()),
            [
                "p1 pays 540000 and p3 700500: their Vickrey prices of 470000 and 630500, and 70000 more each, since p6"
                " and the seller with its reserve (coalition 1) offer 1345500 for what p1, p3 and p4 win, and that is"
                " 140000 more than their Vickrey prices.",
                "p2 (250000) and p5 (45400) pay their Vickrey prices, which is what their winning costs the others, and"
                " no coalition makes them pay more.",
                "p4 pays 105000: its Vickrey price. It pays no more although coalition 1 asks for it: the sum of all"
                " payments is least where others bear that.",
            ],
        )
        for number, names in (1, "p1, p3 and p4"), (2, "p1, p3 and p5"):
            self.assertEqual(
                list(reasons.coalition_lines(number))[0],
                f"Coalition {number}: p6 and the seller with its reserve, for what {names} win.",
            )


class Small(unittest.TestCase):
    def test_whole_text_with_reserves(self) -> None:
        book = lines(
            "book 1 / supply 3 / reserve 10 / bidder a / bid 1 30 / bidder b / bid 1 25 / bidder c / bid 3 50 / end"
        )
        bids = [[((1,), 30)], [((1,), 25)], [((3,), 50)]]
        cert = certificate_of(
            (3,),
            bids,
            (1, 1, 0),
            {1: (0, 0, 1), 2: (1, 0, 0)},
            2,
            (25, 15, 0),
            [((1, 2), 2, 15, (0, 0, 1))],
            reserves=(10,),
        )
        text = list(why_lines(read_certificate(cert, read_book(book))))
        self.assertEqual(
            [line for line in text if line != LEGEND], RESERVED.replace("prices.\n\n", "prices.\n\n\n", 1).split("\n")
        )

    def test_all_that_it_bid(self) -> None:
        cert = certificate_of((1,), [[((1,), 9)]] * 2, (1, 0), {1: (0, 1)}, 1, (9, 0), [((1,), 1, 0, (0, 1))])
        reasons = reasons_of(book_of((1,), [[((1,), 9)]] * 2), cert)
        self.assertEqual(list(reasons.winner_lines(1))[0], "b1 wins `1` with a bid of 9, and pays 9, all that it bid.")

    def test_rows_that_take(self) -> None:
        bids = [*LOCALS, [((1, 1, 0), 8)], [((0, 1, 1), 8)]]
        without = {1: (0, 1, 1, 0, 0), 2: (1, 0, 1, 0, 0), 3: (1, 1, 0, 0, 0)}
        rows = [
            ((1, 2), 1, -4, (0, 0, 1, 1, 0)),
            ((2, 3), 0, 12, (1, 0, 0, 0, 1)),
            ((1,), 0, 4, without[1]),
            ((3,), 1, -12, without[3]),
        ]
        cert = certificate_of((1, 1, 1), bids, (1, 1, 1, 0, 0), without, 1, (0, 8, 0, 0, 0), rows)
        book = book_of((1, 1, 1), bids)
        self.assertEqual(said(why, book, cert)[1], 0)
        reasons = reasons_of(book, cert)
        self.assertEqual(
            reasons.sharing(1),
            (
                "They pay just that and no more, so it takes from what others ask of them: b1 pays 4 less and b2 pays 4"
                " less, which is the same for each."
            ),
        )
        self.assertEqual(
            reasons.sharing(2),
            (
                "It adds 12 to the price of b2 and 12 to the price of b3, which is the same for each. With all that is"
                " added and taken, b2 pays 8 more than its Vickrey price and b3 pays just its Vickrey price."
            ),
        )
        self.assertEqual(
            [reasons.share_text(1, share).split(",")[0] for share in reasons.shares(1)], ["4 less", "4 more"]
        )
        self.assertEqual(
            [reasons.share_text(2, share).split(",")[0] for share in reasons.shares(2)],
            ["4 less", "12 more because of coalition 2 (below)."],
        )

    def test_negative_multipliers(self) -> None:
        bids = [*LOCALS, [((1, 1, 0), 8)], [((0, 1, 1), 8)]]
        without = {1: (0, 1, 1, 0, 0), 2: (1, 0, 1, 0, 0), 3: (1, 1, 0, 0, 0)}
        rows = [((1, 2), 1, 0, (0, 0, 1, 1, 0)), ((2, 3), 0, 8, (1, 0, 0, 0, 1)), ((3,), 1, -8, without[3])]
        reasons = reasons_of(
            book_of((1, 1, 1), bids),
            certificate_of((1, 1, 1), bids, (1, 1, 1, 0, 0), without, 1, (0, 8, 0, 0, 0), rows),
        )
        self.assertEqual([(share.amount, share.coalition) for share in reasons.shares(3)], [(8, 2), (-8, 0)])
        asked = "b5 (coalition 2) offers 8 for what b2 and b3 win, and that is 8 more than their Vickrey prices"
        self.assertEqual(
            list(reasons.sentences())[1:],
            [
                f"b2 pays 8: its Vickrey price of 0, and 8 more, since {asked}.",
                "b3 pays 0: its Vickrey price. It pays no more although coalition 2 asks for it: the sum of all"
                " payments is least where others bear that.",
            ],
        )
        self.assertEqual(reasons.sharing(1), "They pay just that, since other coalitions ask it of them already.")

    def test_shares_come_to_what_is_paid_above(self) -> None:
        bids = [*LOCALS, [((1, 1, 1), 11)]]
        without = {1: (0, 1, 1, 0), 2: (1, 0, 1, 0), 3: (1, 1, 0, 0)}
        cert = certificate_of(
            (1, 1, 1), bids, (1, 1, 1, 0), without, 3, (11, 11, 11, 0), [((1, 2, 3), 3, 11, (0, 0, 0, 1))]
        )
        reasons = reasons_of(book_of((1, 1, 1), bids), cert)
        for j in 1, 2, 3:
            self.assertEqual(
                (reasons.pays(j), sum(share.amount for share in reasons.shares(j))), (Fraction(11, 3), Fraction(11, 3))
            )

    def test_weights(self) -> None:
        cert = (
            sample("day-cramton.cert")
            .replace(b"den 1", b"den 2")
            .replace(b"pay 17 15", b"pay 31 33")
            .replace(b"mult 1 3", b"mult 2 3")
        )
        reasons = reasons_of(sample("day-cramton.book"), cert, [1, 3, 1, 1, 1])
        self.assertEqual([reasons.shares(j)[0].amount for j in (1, 2)], [Fraction(3, 2), Fraction(9, 2)])
        self.assertEqual(
            reasons.sharing(1), "Because of it b1 pays 1+1/2 more and b2 pays 4+1/2 more, by their weights of 1 and 3."
        )

    def test_coalitions_that_an_earlier_sentence_has(self) -> None:
        self.assertEqual(asked_before([]), [])
        self.assertEqual(asked_before([3]), ["coalition 3 asks for it"])
        self.assertEqual(asked_before([1, 2, 4]), ["coalitions 1, 2 and 4 ask for it"])

    def test_nobody(self) -> None:
        cert = lines("cert 1 / den 1 / value 0 / choice / table / t 0 0 / pay / rows 0 / lowered / t 0 0 / end")
        text, status = said(why, lines("book 1 / supply 1 / reserve 0 / end"), cert)
        self.assertEqual((text.splitlines()[0], status), ("Nobody wins, so nobody pays.", 0))

    def test_a_certificate_that_fails(self) -> None:
        wrong = sample("day-cramton.cert").replace(b"pay 17 15", b"pay 16 16")
        self.assertEqual(said(why, sample("day-cramton.book"), wrong), ("no C8 2", 1))
        self.assertEqual(
            said(why, sample("spectrum.award"), sample("spectrum.log")[:200], wrong)[0].split()[:3],
            ["cca:", "refused", "log"],
        )


if __name__ == "__main__":
    unittest.main()
