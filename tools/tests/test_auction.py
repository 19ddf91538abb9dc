"""The replies to worked logs, the rounds, the caps and the book."""
import unittest
from checks.cases.samples import lines, sample
from cca_tools.rules.auction import Auction
from cca_tools.rules.auction import replay
from cca_tools.rules.award import Award
from cca_tools.rules.award import read_award
from cca_tools.rules.book import book_text
from cca_tools.rules.log import Line
from cca_tools.rules.log import read_log
from cca_tools.rules.reasons import cap_words, reason
from cca_tools.rules.sealed import Cap
from cca_tools.rules.stops import Stop
from cca_tools.rules.types import Gross, Package

SMALL = sample("sample.award").decode()
ROW = (
    "bid,east,3, / bid,west,2, / close,,, / bid,east,1, / bid,west,2, / close,,, / draft,east,1,20 / draft,east,3,45 /"
    " submit,east,, / draft,east,3,44 / submit,east,, / close,,,"
)
REPLIES = "ok / ok / round 2 12 / ok / ok / sealed / ok / ok / relative-cap 2 44 / ok / ok / closed"
HEAD = " / ".join(ROW.split(" / ")[:6]) + " / "


def auction_of(text: str, award: str = SMALL) -> Auction:
    terms = read_award(award.encode())
    return replay(terms, read_log(lines(text), terms))


def replies(text: str, award: str = SMALL) -> str:
    return " / ".join(reply.text() for reply in auction_of(text, award).replies)


def book(text: str, award: str = SMALL) -> str:
    try:
        return book_text(auction_of(text, award).need_book()).decode().strip().replace("\n", " / ")
    except Stop as stop:
        return stop.line


class CapWords(unittest.TestCase):
    def test_a_package_that_costs_less(self) -> None:
        cap = Cap((1,), 1, (3,), Gross(40), (10,), Gross(20), Gross(20))
        self.assertEqual(
            cap_words(read_award(SMALL.encode()), "east", cap),
            "Round 1 is the last in which east was eligible for the 1 points of 1. There east asked for 3, and the"
            " highest amount that it named for that is 40. At the prices of that round, 10, the package costs 20 less:"
            " 40 - 20 = 20.",
        )
        same = Cap((3,), 1, (3,), Gross(40), (10,), Gross(40), Gross(40))
        self.assertIn("the package costs 0 more: 40 + 0 = 40.", cap_words(read_award(SMALL.encode()), "east", same))


class Silence(unittest.TestCase):
    def test_who_sends_no_line_asks_for_nothing(self) -> None:
        auction = auction_of("bid,east,3, / close,,,")
        self.assertEqual([reply.text() for reply in auction.replies], ["ok", "sealed"])
        self.assertEqual((auction.rounds[0].packages, auction.bids(2)), ([(3,), (0,)], []))
        auction = auction_of("bid,east,3, / bid,west,2, / close,,, / bid,west,1, / close,,,")
        self.assertEqual([reply.text() for reply in auction.replies], ["ok", "ok", "round 2 12", "ok", "sealed"])
        self.assertEqual((auction.rounds[1].packages, auction.rounds[1].eligibility), ([(0,), (1,)], [3, 2]))


class SmallAuctions(unittest.TestCase):
    def test_worked_log(self) -> None:
        self.assertEqual(replies(ROW), REPLIES)
        self.assertEqual(replies(ROW, SMALL.replace("version = 1", "version = 2")), REPLIES)
        self.assertEqual(
            book(ROW),
            "book 1 / supply 3 / reserve 10 / bidder east / bid 1 20 / bid 3 44 / bidder west / bid 2 24 / end",
        )

    def test_dropped_draft(self) -> None:
        text = ROW.replace("draft,east,3,44", "drop,east,3,")
        self.assertEqual(replies(text), REPLIES)
        self.assertEqual(
            book(text),
            "book 1 / supply 3 / reserve 10 / bidder east / bid 1 20 / bid 3 30 / bidder west / bid 2 24 / end",
        )

    def test_order_of_bidders(self) -> None:
        said = "book 1 / supply 3 / reserve 10 / bidder east / bid 1 20 / bid 3 30 / bidder west / bid 2 30 / end"
        for text in (
            "draft,east,1,20 / draft,west,2,30 / submit,east,, / submit,west,, / close,,,",
            "draft,east,1,20 / submit,east,, / draft,west,2,30 / submit,west,, / close,,,",
        ):
            self.assertEqual(
                replies(HEAD + text), "ok / ok / round 2 12 / ok / ok / sealed / ok / ok / ok / ok / closed"
            )
            self.assertEqual(book(HEAD + text), said)

    def test_line_before(self) -> None:
        self.assertEqual(replies("bid,east,2, / " + ROW), "ok / " + REPLIES)
        self.assertEqual(book("bid,east,2, / " + ROW), book(ROW))

    def test_first_lines(self) -> None:
        rows = [
            ("bid,north,1,", "unknown"),
            ("bid,east,4,", "supply 1"),
            ("bid,west,3,", "points 2"),
            ("draft,east,1,20", "stage"),
            ("drop,east,1,", "stage"),
            ("submit,east,,", "stage"),
            ("draft,north,1,20", "stage"),
            ("bid,east,0,", "ok"),
        ]
        for text, said in rows:
            self.assertEqual(replies(text), said)
        self.assertEqual(replies("bid,east,3,", SMALL + "[[cap]]\nweight = [1]\nlimit = 2\n"), "spectrum-cap 1 2")

    def test_sealed_lines(self) -> None:
        rows = [
            ("draft,east,0,5", "empty"),
            ("draft,east,1,9", "below-reserve 10"),
            ("draft,east,1,11", "below-clock 12"),
            ("drop,east,2,", "no-draft"),
            ("draft,east,1,4398046511105", "amount-top 4398046511104"),
            ("draft,east,1,4398046511104", "ok"),
            ("bid,east,1,", "stage"),
            ("draft,west,3,50", "points 2"),
            ("draft,east,4,50", "supply 1"),
            ("draft,north,1,50", "unknown"),
            ("submit,east,,", "ok"),
            ("drop,north,1,", "unknown"),
            ("submit,north,,", "unknown"),
        ]
        for text, said in rows:
            self.assertEqual(replies(HEAD + text).split(" / ")[6], said)

    def test_after_the_end(self) -> None:
        for text in ("bid,east,1,", "draft,east,1,20", "drop,east,1,", "submit,east,,", "close,,,", "bid,north,1,"):
            self.assertEqual(replies(ROW + " / " + text), REPLIES + " / stage")
        self.assertEqual(book(ROW + " / close,,,"), book(ROW))

    def test_not_complete(self) -> None:
        self.assertEqual(book("bid,east,3, / bid,west,2, / close,,,"), "cca: refused log 4")
        self.assertEqual(book(HEAD + "submit,east,,"), "cca: refused log 8")

    def test_greatest_price(self) -> None:
        text = "bid,east,3, / bid,west,2, / close,,,"
        dear = SMALL.replace("reserve = 10", "reserve = 68719476736")
        self.assertEqual(replies(text, dear), "ok / ok / price-top 1 82463372084")
        self.assertEqual(book(text, dear), "cca: limit price 82463372084")
        # a later close completes the log, and the run is stopped all the same
        later = text + " / bid,east,1, / close,,, / close,,,"
        self.assertEqual(replies(later, dear), "ok / ok / price-top 1 82463372084 / ok / sealed / closed")
        self.assertEqual(book(later, dear), "cca: limit price 82463372084")

    def test_greatest_round(self) -> None:
        text = " / ".join(["bid,east,3, / bid,west,2, / close,,,"] * 300)
        slow = SMALL.replace("permille = 200", "permille = 1")
        said = replies(text, slow).split(" / ")
        self.assertEqual(
            (said[896], said[899], book(text, slow)), ("round 300 309", "full 300", "cca: limit rounds 301")
        )

    def test_full_list(self) -> None:
        wide = (
            SMALL.replace("supply = 3", "supply = 19").replace("eligibility = 3", "eligibility = 999")
            + '[[category]]\nname = "other"\nsupply = 19\npoints = 1\nreserve = 10\n'
        )
        packages = [f"{a} {b}" for a in range(20) for b in range(20)][1:303]
        drafts = [f"draft,east,{package},999" for package in packages]
        said = replies("close,,, / " + " / ".join(drafts + [drafts[0], drafts[301]]), wide).split(" / ")
        self.assertEqual((said[1:301], said[301:]), (["ok"] * 300, ["full 300", "full 300", "ok", "full 300"]))


TWO = """version = {}
tick = 1
category = [{{name = "a", supply = 2, points = 1, reserve = 10}}, {{name = "c", supply = 3, points = 1, reserve = 10}}]
bidder = [{{name = "east", eligibility = 3}}, {{name = "west", eligibility = 1}}]
step = [{{excess = 1, permille = 1000}}]
"""
TWO_LOG = (
    "bid,east,2 0, / bid,west,1 0, / close,,, / bid,east,0 1, / bid,west,1 0, / close,,, / draft,east,0 1,12 /"
    " draft,east,2 0,42 / draft,east,0 3,33 / submit,east,,"
)


class Caps(unittest.TestCase):
    def test_both_versions(self) -> None:
        head = "ok / ok / round 2 20 10 / ok / ok / sealed / ok / ok / ok / "
        self.assertEqual(replies(TWO_LOG, TWO.format(1)), head + "ok")
        self.assertEqual(replies(TWO_LOG, TWO.format(2)), head + "relative-cap 2 32")

    def test_amounts(self) -> None:
        for version, package, amount in [
            (1, (0, 3), 52),
            (2, (0, 3), 32),
            (1, (2, 0), 42),
            (2, (2, 0), 42),
            (1, (0, 1), None),
            (2, (0, 1), None),
        ]:
            auction = auction_of(TWO_LOG, TWO.format(version))
            cap = auction.caps(1).cap(dict(auction.drafts(1)), package)
            assert cap is not None
            self.assertEqual(cap.amount, amount)

    def test_where_it_comes_from(self) -> None:
        auction = replay(*uk(33))
        listed: dict[Package, Gross] = {(1, 0, 3, 0): Gross(420000), (2, 0, 4, 0): Gross(760000)}
        cap = auction.caps(1).cap(listed, (2, 0, 4, 0))
        assert cap is not None
        self.assertEqual(
            (cap.constraining_round, cap.held, cap.standing, cap.amount), (3, (1, 0, 4, 0), 303800, 534800)
        )
        self.assertEqual(cap.prices[0], 231000)
        cap = auction.caps(1).cap({(1, 0, 4, 0): Gross(430000)}, (2, 0, 4, 0))
        assert cap is not None
        self.assertEqual((cap.standing, cap.amount, cap.final), (430000, 661000, None))


def uk(count: int | None) -> tuple[Award, list[Line]]:
    award = read_award(sample("spectrum.award"))
    return award, read_log(sample("spectrum.log"), award)[:count]


class Sample(unittest.TestCase):
    """The sample of examples/, with the replies that the guide computes by hand."""

    REFUSED = {
        5: "points 96",
        7: "unknown",
        8: "supply 2",
        9: "spectrum-cap 1 11",
        10: "stage",
        17: "points 68",
        33: "relative-cap 2 534800",
        37: "below-clock 315700",
        40: "empty",
        44: "below-reserve 505600",
        46: "relative-cap 3 636400",
        51: "points 22",
        59: "no-draft",
        63: "stage",
    }

    def test_replies(self) -> None:
        auction = replay(*uk(None))
        self.assertEqual({n: r.text() for n, r in enumerate(auction.replies, 1) if not r.is_ok}, self.REFUSED)
        self.assertEqual(
            [auction.replies[n - 1].text() for n in (11, 30, 62)],
            ["round 2 220000 262500 16500 200", "sealed", "closed"],
        )
        self.assertEqual(
            (auction.stage, auction.final, len(auction.rounds), auction.open_round, auction.limit_stop),
            ("closed", 4, 4, None, None),
        )

    def test_rounds(self) -> None:
        auction = replay(*uk(None))
        self.assertEqual([r.eligibility[0] for r in auction.rounds], [80, 48, 48, 28])
        self.assertEqual(
            [r.packages[0] for r in auction.rounds], [(2, 0, 4, 0), (2, 0, 4, 0), (1, 0, 4, 0), (1, 0, 3, 0)]
        )
        self.assertEqual(
            (auction.rounds[0].demand[0], auction.rounds[0].excess[0], auction.rounds[3].excess), (7, 3, (0, 0, 0, 0))
        )
        self.assertEqual(auction.clock_bids(2)[1], (2, (0, 1, 2, 4), 296300))

    def test_in_progress(self) -> None:
        auction = replay(*uk(11))
        assert auction.open_round is not None
        self.assertEqual(
            (auction.stage, auction.open_round.number, auction.open_round.prices),
            ("clock", 2, (220000, 262500, 16500, 200)),
        )
        self.assertEqual((auction.final, auction.open_round.eligibility), (None, [48, 68, 60, 19, 88]))
        with self.assertRaises(Stop) as caught:
            auction.need_book()
        self.assertEqual(caught.exception.line, "cca: refused log 12")

    def test_book(self) -> None:
        text = book_text(replay(*uk(None)).need_book()).decode().splitlines()
        self.assertEqual(
            text[:6],
            [
                "book 1",
                "supply 4 1 14 9",
                "reserve 200000 250000 15000 100",
                "bidder everest",
                "bid 1 0 3 0 420000",
                "bid 1 0 4 0 430000",
            ],
        )
        self.assertIn("bid 2 0 5 5 636400", text)

    def test_reasons(self) -> None:
        auction = replay(*uk(None))
        told = {n: reason(auction.award, auction.lines[n - 1], auction.replies[n - 1]) for n in self.REFUSED}
        for number, part in [
            (5, "3 x 20 + 1 x 40 = 100 points"),
            (8, "2 of category 2, b800, and 1 is sold"),
            (9, "6 x 2 = 12, and its limit is 11"),
            (17, "80 points, and harbour is eligible for 68"),
            (33, "303800 + 231000 = 534800"),
            (44, "505600, and 500000 is less"),
        ]:
            self.assertIn(part, told[number])


if __name__ == "__main__":
    unittest.main()
