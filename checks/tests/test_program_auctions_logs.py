"""Logs to the program: spellings, records that state no line, the line of each reply, the clock, and worked auctions
with their books."""
import unittest
from checks.cases.program import Ended, run, with_program
from checks.cases.samples import lines, sample

# One category of three lots at 10, for east with 3 points and west with 2.
SMALL = sample("sample.award").decode()
CAPPED = SMALL + "[[cap]]\nweight = [1]\nlimit = 2\n"

# Two categories for two bidders.
PAIR = """version = 1
tick = 1
category = [{name = "a", supply = 3, points = 1, reserve = 10}, {name = "b", supply = 1, points = 1, reserve = 1}]
bidder = [{name = "east", eligibility = 3}, {name = "west", eligibility = 2}]
step = [{excess = 1, permille = 100}]
"""

# That award with two caps and with north, which has no points and already owns a lot of b.
NORTH = PAIR.replace("eligibility = 2}]", 'eligibility = 2}, {name = "north", eligibility = 0, holding = [0, 1]}]')
NORTH += "cap = [{weight = [1, 1], limit = 9}, {weight = [0, 9], limit = 9}]\n"

# Two categories whose prices double, without the final cap and with it.
DOUBLING = """version = 1
tick = 1
category = [{name = "a", supply = 2, points = 1, reserve = 10}, {name = "c", supply = 3, points = 1, reserve = 10}]
bidder = [{name = "east", eligibility = 3}, {name = "west", eligibility = 1}]
step = [{excess = 1, permille = 1000}]
"""
FINAL = DOUBLING.replace("version = 1", "version = 2")

# Logs, and the replies to their records. None of them is complete.
SPELLINGS = [
    (b"", ""),
    (b"\n\r\n\n", ""),
    (b"bid,east,1 0,\n", "ok"),
    (b"\xef\xbb\xbfbid,east,1 0,", "ok"),
    (b'"bid","east","1 0",""\r\n\n\nclose,,,\rsubmit,west,,', "ok / sealed / ok"),
    (b"draft,west,65535 65535,1000000000000000000\n", "stage"),
    (b"draft,west,0 0,0\ndrop,west,0 0,\n", "stage / stage"),
    (b"bid,nobody,1 0,\n", "unknown"),
]

# Logs, and the number of the first record that states no line.
FAULTS = [
    (b"bid,east,65536 0,\n", 1),
    (b"bid,east,1,\n", 1),
    (b"bid,east,1 0 0,\n", 1),
    (b"bid,east,1  0,\n", 1),
    (b"bid,east, 1 0,\n", 1),
    (b"bid,east,1 0 ,\n", 1),
    (b"bid,east,01 0,\n", 1),
    (b"bid,East,1 0,\n", 1),
    (b"bid,,1 0,\n", 1),
    (b"bid,east,,\n", 1),
    (b"Bid,east,1 0,\n", 1),
    (b"bid,east,1 0\n", 1),
    (b"bid,east,1 0,5\n", 1),
    (b"close,,,\nbid,east,1 0,,\n", 2),
    (b"close,,,\nclose,east,,\n", 2),
    (b"close,,,\n\nsubmit,east,1 0,\n", 2),
    (b'"close,,,\nclose,,,\n', 1),
    (b" \n", 1),
    (b"draft,east,1 0,\n", 1),
    (b"draft,east,1 0,1000000000000000001\n", 1),
    (b"draft,east,1 0,-1\n", 1),
    (b"draft,east,1 0,007\n", 1),
    (b"draft,east,1 0,99999999999999999999999999999999999999999999\n", 1),
]

ROUND = "bid,east,3, / bid,west,2, / close,,,"
CLOCK = f"{ROUND} / bid,east,1, / bid,west,2, / close,,,"
CLOCK_REPLIES = "ok / ok / round 2 12 / ok / ok / sealed"
DOUBLED = "bid,east,2 0, / bid,west,1 0, / close,,, / bid,east,0 1, / bid,west,1 0, / close,,,"
DOUBLED_REPLIES = "ok / ok / round 2 20 10 / ok / ok / sealed"


def behind(count: int, text: str, rest: str) -> str:
    """This many times a text, and the rest after it."""
    return " / ".join([text] * count + [rest])


def in_clock(line: str, reply: str) -> tuple[str, str]:
    """A line of the clock as record 12, with the replies."""
    return behind(11, "drop,east,1 0,", line), behind(11, "stage", reply)


def in_sealed_round(line: str, reply: str) -> tuple[str, str]:
    """A line of the sealed round as record 12, with the replies."""
    return "close,,, / " + behind(10, "bid,east,1 0,", line), "sealed / " + behind(10, "stage", reply)


# Logs whose record 12 has each of the replies. None of them is complete.
TWELFTH = [
    (
        PAIR.replace("reserve = 10", "reserve = 9"),
        behind(9, "drop,east,1 0,", "bid,east,3 0, / bid,west,1 0, / close,,,"),
        behind(9, "stage", "ok / ok / round 2 10 1"),
    ),
    (PAIR, *in_clock("close,,,", "sealed")),
    (PAIR, *in_clock("bid,east,1 0,", "ok")),
    (PAIR, *in_clock("submit,east,,", "stage")),
    (PAIR, *in_clock("bid,north,1 0,", "unknown")),
    (PAIR, *in_sealed_round("draft,east,0 0,5", "empty")),
    (PAIR, *in_sealed_round("drop,east,1 0,", "no-draft")),
    (PAIR, *in_clock("bid,east,0 2,", "supply 2")),
    (NORTH, *in_clock("bid,north,1 0,", "points 0")),
    (PAIR, *in_sealed_round("draft,east,2 1,20", "below-reserve 21")),
    (
        PAIR,
        "bid,east,3 0, / bid,west,1 0, / close,,, / bid,east,2 0, / close,,, / "
        + behind(6, "bid,east,1 0,", "draft,east,2 0,21"),
        "ok / ok / round 2 11 1 / ok / sealed / " + behind(6, "stage", "below-clock 22"),
    ),
    (PAIR, *in_sealed_round("draft,east,1 0,4398046511105", "amount-top 4398046511104")),
    (NORTH, *in_clock("bid,north,0 1,", "spectrum-cap 2 9")),
    (
        SMALL.replace("reserve = 10", "reserve = 2"),
        behind(7, "bid,east,2,", "close,,, / draft,east,1,3 / draft,east,2,6 / draft,east,3,9 / submit,east,,"),
        behind(7, "ok", "sealed / ok / ok / ok / relative-cap 3 8"),
    ),
]

# The tick, the steps, the price and the excess demand of a round, and the price of the next one.
RAISES = [
    (1, [(1, 50)], 10, 3, 11),
    (1, [(1, 50)], 1000, 3, 1050),
    (7, [(1, 50), (5, 200)], 1000, 4, 1056),
    (7, [(1, 50), (5, 200)], 1000, 5, 1203),
]

# Complete logs, their replies, and the bids in the book.
BOOKS = {
    "a list above its cap, and then at it": (
        f"{CLOCK} / draft,east,1,20 / draft,east,3,45 / submit,east,, / draft,east,3,44 / submit,east,, / close,,, "
        "/ close,,,",
        f"{CLOCK_REPLIES} / ok / ok / relative-cap 2 44 / ok / ok / closed / stage",
        "bidder east / bid 1 20 / bid 3 44 / bidder west / bid 2 24",
    ),
    "the list without the entry that is above": (
        f"{CLOCK} / draft,east,1,20 / draft,east,3,45 / submit,east,, / drop,east,3, / submit,east,, / close,,,",
        f"{CLOCK_REPLIES} / ok / ok / relative-cap 2 44 / ok / ok / closed",
        "bidder east / bid 1 20 / bid 3 30 / bidder west / bid 2 24",
    ),
    "two bidders who draft first": (
        f"{CLOCK} / draft,east,1,20 / draft,west,2,30 / submit,east,, / submit,west,, / close,,,",
        f"{CLOCK_REPLIES} / ok / ok / ok / ok / closed",
        "bidder east / bid 1 20 / bid 3 30 / bidder west / bid 2 30",
    ),
    "two bidders one after the other": (
        f"{CLOCK} / draft,east,1,20 / submit,east,, / draft,west,2,30 / submit,west,, / close,,,",
        f"{CLOCK_REPLIES} / ok / ok / ok / ok / closed",
        "bidder east / bid 1 20 / bid 3 30 / bidder west / bid 2 30",
    ),
    "a bid that is replaced in its round": (
        f"bid,east,2, / {CLOCK} / draft,east,1,20 / draft,east,3,45 / submit,east,, / draft,east,3,44 / submit,east,, "
        "/ close,,,",
        f"ok / {CLOCK_REPLIES} / ok / ok / relative-cap 2 44 / ok / ok / closed",
        "bidder east / bid 1 20 / bid 3 44 / bidder west / bid 2 24",
    ),
}

# Logs that aren't complete, and their replies.
NO_BOOKS = {
    "lines that are refused in the first round": (
        SMALL,
        "bid,north,1, / bid,east,4, / bid,west,3, / bid,east,3,",
        "unknown / supply 1 / points 2 / ok",
    ),
    "a bid above a spectrum cap": (CAPPED, "bid,east,3,", "spectrum-cap 1 2"),
    "lines that are refused in the sealed round": (
        SMALL,
        f"{CLOCK} / bid,east,1, / draft,north,1,20 / drop,north,1, / submit,north,, / draft,east,4,20 "
        "/ draft,west,3,20 / draft,east,0,5 / "
        "draft,east,1,9 / draft,east,1,11 / drop,east,2, / draft,east,1,4398046511105 / draft,east,1,4398046511104",
        f"{CLOCK_REPLIES} / stage / unknown / unknown / unknown / supply 1 / points 2 / empty / below-reserve 10 "
        "/ below-clock 12 / "
        "no-draft / amount-top 4398046511104 / ok",
    ),
    "an entry below the cap of its constraining round and above the final cap, which doesn't hold": (
        DOUBLING,
        f"{DOUBLED} / draft,east,0 1,12 / draft,east,2 0,42 / draft,east,0 3,33 / submit,east,,",
        f"{DOUBLED_REPLIES} / ok / ok / ok / ok",
    ),
    "the same where the final cap holds": (
        FINAL,
        f"{DOUBLED} / draft,east,0 1,12 / draft,east,2 0,42 / draft,east,0 3,33 / submit,east,,",
        f"{DOUBLED_REPLIES} / ok / ok / ok / relative-cap 2 32",
    ),
}


def numbered(text: str) -> str:
    """These replies, each in a line with its number."""
    return "".join(f"{number} {reply}\n" for number, reply in enumerate(text.split(" / "), 1)) if text else ""


class Auctions(unittest.TestCase):
    def ends(self, award: str, log: str | bytes, printed: str, status: int, book: str | None = None) -> None:
        """These lines are printed for an award and a log, and only this book is written."""
        files = {"award": award.encode(), "log": log if isinstance(log, bytes) else lines(log)}
        ended = run("auction", "award", "log", "book", **files)
        with self.subTest(log=files["log"][:1000]):
            self.assertEqual(ended, Ended(printed, status, files if book is None else {**files, "book": lines(book)}))

    def has_replies(self, award: str, log: str | bytes, text: str) -> None:
        """The log is read, gets these replies and isn't complete."""
        printed = numbered(text)
        self.ends(award, log, f"{printed}cca: refused log {printed.count(chr(10)) + 1}\n", 3)


@with_program
class Records(Auctions):
    def test_spellings(self) -> None:
        for log, text in SPELLINGS:
            self.has_replies(PAIR, log, text)

    def test_faults(self) -> None:
        for log, number in FAULTS:
            for rest in b"", b"close,,,\nclose,,,\n":
                self.ends(PAIR, log + rest, f"cca: refused log {number}\n", 3)

    def test_100000_records(self) -> None:
        log, text = b"draft,aaaaaaaaaaaaaaaaaaaa,1 2,1000000000000000000\n" * 100_000, behind(99_999, "stage", "stage")
        self.has_replies(PAIR, log, text)
        self.has_replies(PAIR, log + b"\n\n", text)
        self.ends(PAIR, log + b"\n\nx", "cca: limit records 100001\n", 7)


@with_program
class Replies(Auctions):
    def test_twelfth_records(self) -> None:
        for award, log, text in TWELFTH:
            self.assertEqual(log.count(" / "), 11)
            self.has_replies(award, log, text)

    def test_twelfth_record_closes(self) -> None:
        log, text = in_sealed_round("close,,,", "closed")
        self.ends(PAIR, log, numbered(text), 0, "book 1 / supply 3 1 / reserve 10 1 / bidder east / bidder west / end")

    def test_twelfth_record_is_above_the_greatest_price(self) -> None:
        award = SMALL.replace("reserve = 10", "reserve = 68650825911").replace("permille = 200", "permille = 1")
        printed = numbered(behind(9, "stage", "ok / ok / price-top 1 68719476737")) + "cca: limit price 68719476737\n"
        self.ends(award, behind(9, "drop,east,1,", ROUND), printed, 7)


@with_program
class Clock(Auctions):
    def test_raises(self) -> None:
        for tick, steps, price, excess, raised in RAISES:
            award = (
                f'version = 1\ntick = {tick}\n[[category]]\nname = "lot"\nsupply = 5\npoints = 1\nreserve = {price}\n'
            )
            award += "".join(f'[[bidder]]\nname = "{name}"\neligibility = 5\n' for name in ("east", "west"))
            award += "".join(f"[[step]]\nexcess = {least}\npermille = {permille}\n" for least, permille in steps)
            self.has_replies(award, f"bid,east,5, / bid,west,{excess}, / close,,,", f"ok / ok / round 2 {raised}")

    def test_greatest_price(self) -> None:
        # the second close is refused by the same price: the first one left the prices unchanged
        printed = (
            numbered("ok / ok / price-top 1 82463372084 / price-top 1 82463372084") + "cca: limit price 82463372084\n"
        )
        self.ends(SMALL.replace("reserve = 10", "reserve = 68719476736"), f"{ROUND} / close,,,", printed, 7)

    def test_300_rounds(self) -> None:
        closes = [f"round {number} {number + 9}" for number in range(2, 301)] + ["full 300"]
        printed = numbered(" / ".join(f"ok / ok / {close}" for close in closes)) + "cca: limit rounds 301\n"
        self.assertTrue(printed.endswith("897 round 300 309\n898 ok\n899 ok\n900 full 300\ncca: limit rounds 301\n"))
        self.ends(SMALL.replace("permille = 200", "permille = 1"), behind(299, ROUND, ROUND), printed, 7)


@with_program
class Worked(Auctions):
    def test_books(self) -> None:
        for name, (log, text, bids) in BOOKS.items():
            with self.subTest(name):
                self.ends(SMALL, log, numbered(text), 0, f"book 1 / supply 3 / reserve 10 / {bids} / end")

    def test_no_books(self) -> None:
        for name, (award, log, text) in NO_BOOKS.items():
            with self.subTest(name):
                self.has_replies(award, log, text)


if __name__ == "__main__":
    unittest.main()
