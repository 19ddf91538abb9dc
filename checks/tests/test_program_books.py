"""The program over books, weights and edits: the place where it stops in their texts, and what it prints for reviews
and prices."""
import unittest
from checks.cases.program import run, with_program

# Of Day and Cramton (2012): one lot of each of two categories, and five bidders; b1 and b2 win.
DAY_CRAMTON = (
    "book 1\nsupply 1 1\nreserve 0 0\nbidder b1\nbid 1 0 28\nbidder b2\nbid 0 1 20\nbidder b3\nbid 1 1 32\n"
    "bidder b4\nbid 1 0 14\nbidder b5\nbid 0 1 12\nend\n"
)
# The first three lines of a book of two lots, and its first bidder: 42 bytes.
FRONT = "book 1\nsupply 1 1\nreserve 0 0\nbidder east\n"

# Books that break off or go wrong at their first three lines, and the byte where the faulty line begins. A line that
# lacks its line
# feed goes on to the next one, so only the last can lack it.
FAULTY_HEADS = [
    ("", 0),
    ("book 1", 0),
    ("book 1supply 1 1\nreserve 0 0\nend\n", 0),
    ("book 2\nsupply 1 1\nreserve 0 0\nend\n", 0),
    ("book 1\n", 7),
    ("book 1\nsupply\nreserve\nend\n", 7),
    ("book 1\nsupply \nreserve 0\nend\n", 7),
    ("book 1\nsupply,1 2\nreserve 0 0\nend\n", 7),
    ("book 1\nsupply 1 0\nreserve 0 0\nend\n", 7),
    ("book 1\nsupply 1000\nreserve 0\nend\n", 7),
    ("book 1\nsupply 41 0\nreserve 0 0\nend\n", 7),
    ("book 1\nsupply 9999999999999999999999999999999999999999\nreserve 0\nend\n", 7),
    ("book 1\nsupply 1 1\n", 18),
    ("book 1\nsupply 1 1\nreserve 0\nend\n", 18),
    ("book 1\nsupply 1 1\nreserve 0 0 0\nend\n", 18),
    ("book 1\nsupply 1 1\nreserve 0 68719476737\nend\n", 18),
]

# What comes after FRONT, and the byte of the book where the faulty line begins.
FAULTY_LINES = [
    ("", 42),
    ("bid 1 0 028\nend\n", 42),
    ("bid 1 0 -28\nend\n", 42),
    ("bid +1 0 28\nend\n", 42),
    ("bid  1 0 28\nend\n", 42),
    ("bid 1 0 28 \nend\n", 42),
    ("bid\nend\n", 42),
    ("bid 1 28\nend\n", 42),
    ("bid 0 0 28\nend\n", 42),
    ("bid 2 0 28\nend\n", 42),
    ("bid 1 0 4398046511105\nend\n", 42),
    ("bid 1 0 1000000000000000000000000000000000000000\nend\n", 42),
    ("bidder East\nend\n", 42),
    ("bidder 2east\nend\n", 42),
    ("bidder a_name_of_21_bytes___\nend\n", 42),
    ("bidder east\nend\n", 42),
    ("bid 1 0 28\n", 53),
    ("bid 1 0 28\nend", 53),
    ("bid 1 0 28\nend \n", 53),
    ("bid 1 0 28\nbid 1 0 29\nend\n", 53),
    ("bid 1 0 28\nbid 0 1 20\nend\n", 53),
    ("bid 1 0 28\nend\nx\n", 57),
    ("bid 1 0 28\nend\n\n", 57),
]

# Two bidders, and the first line of their weights with the first bidder's line: 24 bytes.
EAST_AND_WEST = "book 1\nsupply 2\nreserve 0\nbidder east\nbid 1 5\nbidder west_2\nend\n"
EAST_WEIGHS = "weights 1\nweight east 7\n"

FAULTY_WEIGHTS = [
    ("", 0),
    ("weights 2\nend\n", 0),
    ("weights 1", 0),
    ("weights 1\nend\n", 10),
    ("weights 1\nweight west_2 7\n", 10),
    ("weights 1\nweight eas 7\n", 10),
    ("weights 1\nweight east 0\n", 10),
    ("weights 1\nweight east 21\n", 10),
    ("weights 1\nweight east 07\n", 10),
    ("weights 1\nweight east 7 \n", 10),
    (EAST_WEIGHS + "weight west_2 20", 24),
    (EAST_WEIGHS + "end\n", 24),
    (EAST_WEIGHS + "weight west_2 20\n", 41),
    (EAST_WEIGHS + "weight west_2 20\nend\nend\n", 45),
]

# A book of one category without bidders, and faulty edits of it.
NO_BIDDERS = "book 1\nsupply 1\nreserve 0\nend\n"

FAULTY_EDITS = [
    ("", 0),
    ("edits 2\nend\n", 0),
    ("edits 1", 0),
    ("edits 1\n", 8),
    ("edits 1\nadd b1 0\nend\n", 8),
    ("edits 1\nadd b1 0 1 2\nend\n", 8),
    ("edits 1\nadd b1 0 05\nend\n", 8),
    ("edits 1\nadd b1 0 5 \nend\n", 8),
    ("edits 1\nadd B1 0 5\nend\n", 8),
    ("edits 1\nadd b1 0 1000000000000000001\nend\n", 8),
    ("edits 1\nraise b1 65536 5\nend\n", 8),
    ("edits 1\ndrop b1 0 5\nend\n", 8),
    ("edits 1\ndrop b1\nend\n", 8),
    ("edits 1\nput b1 0 5\nend\n", 8),
    ("edits 1\nadd b1 0 5\nend", 19),
    ("edits 1\nend\nend\n", 12),
]

# The third bidder would block the Vickrey prices of the first two, and half of what is missing isn't a whole number.
HALVES = "book 1\nsupply 1 1\nreserve 10 5\nbidder a\nbid 1 0 25\nbidder b\nbid 0 1 20\nbidder c\nbid 1 1 36\nend\n"
# As above, of three bidders for one lot each, and of three others for each two of the lots.
PAIRS = (
    "book 1\nsupply 1 1 1\nreserve 10 0 0\nbidder a\nbid 1 0 0 20\nbidder b\nbid 0 1 0 10\nbidder c\nbid 0 0 1 10\n"
    "bidder ab\nbid 1 1 0 17\nbidder bc\nbid 0 1 1 7\nbidder ac\nbid 1 0 1 17\nend\n"
)


class Stopping(unittest.TestCase):
    def stops(self, words: str, files: dict[str, str], line: str, status: int) -> None:
        """Asserts that these arguments stop with this line and status over these files, and leave no others."""
        left = {name: text.encode() for name, text in files.items()}
        self.assertEqual(run(*words.split(" "), **files), (line + "\n", status, left))


@with_program
class Books(Stopping):
    def test_greatest_numbers(self) -> None:
        rows = [
            (
                FRONT + "bid 1 0 4398046511104\nbidder a_name_of_20_bytes__\nend\n",
                "winner east 1 0 4398046511104\nnet 4398046511104\n",
            ),
            ("book 1\nsupply 40\nreserve 68719476736\nend\n", "net 0\n"),
            ("book 1\nsupply 3 3 3 3 7 7\nreserve 0 0 0 0 0 0\nend\n", "net 0\n"),
        ]
        for book, printed in rows:
            with self.subTest(book=book):
                self.assertEqual(run("win", "book", book=book)[:2], (printed, 0))

    def test_faulty_lines(self) -> None:
        rows = [
            *FAULTY_HEADS,
            *((FRONT + rest, place) for rest, place in FAULTY_LINES),
            ("book 1\nsupply 1 1\nreserve 0 0\nbid 1 0 28\nend\n", 30),
            ("book 1\nsupply 1 1\nreserve 10 0\nbidder east\nbid 1 0 9\nend\n", 43),
        ]
        for book, place in rows:
            with self.subTest(book=book):
                self.stops("win book", {"book": book}, f"cca: refused book {place}", 3)

    def test_limits_of_the_supply(self) -> None:
        """The second line has its line feed before it exceeds a limit."""
        for supply, limit in ("1 1 1 1 1 1 1", "categories 7"), ("41", "lots 41"), ("3 3 3 3 7 8", "states 18432"):
            with self.subTest(supply=supply):
                self.stops("win book", {"book": f"book 1\nsupply {supply}"}, "cca: refused book 7", 3)
                self.stops("win book", {"book": f"book 1\nsupply {supply}\nno line\n"}, f"cca: limit {limit}", 7)

    def test_seventeenth_bidder(self) -> None:
        """26 bytes, nine lines of 10 bytes and seven of 11 are before the line whose name is used."""
        sixteen = "book 1\nsupply 1\nreserve 0\n" + "".join(f"bidder b{j}\n" for j in range(1, 17))
        self.assertEqual(run("win", "book", book=sixteen + "end\n")[:2], ("net 0\n", 0))
        self.stops("win book", {"book": sixteen + "bidder b17\nend\n"}, "cca: limit bidders 17", 7)
        self.stops("win book", {"book": sixteen + "bidder b16\nend\n"}, "cca: refused book 193", 3)

    def test_bid_of_number_601(self) -> None:
        """All bids are worth 1, so the first wins."""
        bids = "".join(f"bid {number // 81} {number // 9 % 9} {number % 9} 1\n" for number in range(1, 601))
        book = "book 1\nsupply 8 8 8\nreserve 0 0 0\nbidder east\n" + bids
        self.assertEqual(run("win", "book", book=book + "end\n")[:2], ("winner east 0 0 1 1\nnet 1\n", 0))
        self.stops("win book", {"book": book + "bid 7 3 7 1\nend\n"}, "cca: limit bids 601", 7)


@with_program
class Weights(Stopping):
    def test_faulty_lines(self) -> None:
        for weights, place in FAULTY_WEIGHTS:
            with self.subTest(weights=weights):
                self.stops(
                    "weigh book weights cert",
                    {"book": EAST_AND_WEST, "weights": weights},
                    f"cca: refused weights {place}",
                    3,
                )

    def test_weights_of_no_bidders(self) -> None:
        ended = run(
            "weigh", "book", "weights", "cert", book="book 1\nsupply 2\nreserve 0\nend\n", weights="weights 1\nend\n"
        )
        self.assertEqual(ended[:2], ("net 0\nrevenue 0\n", 0))

    def test_least_and_greatest_weight(self) -> None:
        """The losing bid for both lots is 21, the Vickrey prices are 0, and the two winners share the 21 by their
        weights of 1 and 20."""
        book = (
            "book 1\nsupply 1 1\nreserve 0 0\nbidder east\nbid 1 0 30\nbidder west_2\nbid 0 1 30\nbidder both\n"
            "bid 1 1 21\nend\n"
        )
        weights = "weights 1\nweight east 1\nweight west_2 20\nweight both 1\nend\n"
        prices = (
            "winner east 1 0 bid 30 vickrey 0 pays 1\nwinner west_2 0 1 bid 30 vickrey 0 pays 20\nnet 60\nrevenue 21\n"
        )
        self.assertEqual(run("weigh", "book", "weights", "cert", book=book, weights=weights)[:2], (prices, 0))


@with_program
class Reviews(Stopping):
    def test_faulty_lines(self) -> None:
        for edits, place in FAULTY_EDITS:
            with self.subTest(edits=edits):
                self.stops("review book edits", {"book": NO_BIDDERS, "edits": edits}, f"cca: refused edits {place}", 3)

    def test_a_thousand_edits(self) -> None:
        def edits(count: int) -> str:
            return "edits 1\n" + "drop b1 1\n" * count + "end\n"

        printed = "0 net 0 choice\n" + "".join(f"{number} unknown\n" for number in range(1, 1001)) + "net 0\n"
        self.assertEqual(run("review", "book", "edits", book=NO_BIDDERS, edits=edits(1000))[:2], (printed, 0))
        self.stops("review book edits", {"book": NO_BIDDERS, "edits": edits(1001)}, "cca: limit records 1001", 7)

    def test_what_each_edit_makes_of_a_book(self) -> None:
        """In the third book b1 and b4 win with 28 + 23, and without the bid of b1 the 50 of b3 is more than 14 + 20 or
        23."""
        edits = "edits 1\nraise b3 1 1 50\nadd b4 0 1 23\ndrop b1 1 0\nraise b3 1 1 50\nadd north 1 0 5\nend\n"
        printed = (
            "0 net 48 choice 1 1 0 0 0\n1 net 50 choice 0 0 1 0 0\n2 net 51 choice 1 0 0 1 0\n"
            "3 net 50 choice 0 0 1 0 0\n"
            "4 not-higher 50\n5 unknown\nwinner b3 1 1 50\nnet 50\n"
        )
        self.assertEqual(run("review", "book", "edits", book=DAY_CRAMTON, edits=edits)[:2], (printed, 0))

    def test_each_refusal(self) -> None:
        book = "book 1\nsupply 2\nreserve 3\nbidder b1\nbid 1 5\nend\n"
        edits = "edits 1\nadd b1 3 9\ndrop b1 0\nadd b1 1 9\ndrop b1 2\nadd b1 2 5\nraise b1 1 4398046511105\nend\n"
        printed = (
            "0 net 2 choice 1\n1 supply 1\n2 empty\n3 present 5\n4 absent\n5 below-reserve 6\n"
            "6 amount-top 4398046511104\n"
            "winner b1 1 5\nnet 2\n"
        )
        self.assertEqual(run("review", "book", "edits", book=book, edits=edits)[:2], (printed, 0))

    def test_most_bids(self) -> None:
        """A bidder has no room for a bid past 600, and has it again once one is dropped. Bid `n` is for the lots that
        its three digits say."""

        def bid(number: int) -> str:
            return f"{' '.join(format(number, '03'))} {number}\n"

        book = (
            "book 1\nsupply 9 9 9\nreserve 0 0 0\nbidder b1\n"
            + "".join("bid " + bid(number) for number in range(1, 601))
            + "end\n"
        )
        edits = f"edits 1\nadd b1 {bid(601)}drop b1 0 0 1\nadd b1 {bid(601)}add b1 {bid(602)}end\n"
        printed = (
            "0 net 600 choice 600\n1 full 600\n2 net 600 choice 599\n3 net 601 choice 600\n4 full 600\n"
            "winner b1 6 0 1 601\nnet 601\n"
        )
        self.assertEqual(run("review", "book", "edits", book=book, edits=edits)[:2], (printed, 0))

    def test_book_without_bidders(self) -> None:
        self.assertEqual(
            run("review", "book", "edits", book=NO_BIDDERS, edits="edits 1\nend\n")[:2], ("0 net 0 choice\nnet 0\n", 0)
        )


@with_program
class Prices(unittest.TestCase):
    def prints(self, book: str, flags: list[str], printed: str) -> None:
        self.assertEqual(run("price", "book", "cert", *flags, book=book)[:2], (printed, 0))

    def test_json_of_day_and_cramton(self) -> None:
        self.prints(
            DAY_CRAMTON,
            ["--json"],
            '{"net":48,"revenue":"32","winners":[{"bid":28,"name":"b1","package":[1,0],"pays":"17","vickrey":14},'
            '{"bid":20,"name":"b2","package":[0,1],"pays":"15","vickrey":12}]}\n',
        )

    def test_fractions_and_reserves(self) -> None:
        """Net of reserve a and b bid 15 each and win with 30, and c bids 36 less 15, which is 21.

        Without a or without b the best is these 21, so both Vickrey prices are 21 - 30 + 15 = 6. c offers 9 more than
        both, and each pays half of that: 10+1/2 net. With the reserves of 10 and 5 that is 20+1/2 and 15+1/2, and the
        Vickrey prices are 16 and 11.
        """
        turns = ["round 1 point 6 6 row 1 2 choice 0 0 1 excess 9", "round 2 point 10+1/2 10+1/2 end"]
        prices = (
            "winner a 1 0 bid 25 vickrey 16 pays 20+1/2\nwinner b 0 1 bid 20 vickrey 11 pays 15+1/2\nnet 30\n"
            "revenue 36\n"
        )
        winners = (
            '"winners":[{"bid":25,"name":"a","package":[1,0],"pays":"20+1/2","vickrey":16},'
            '{"bid":20,"name":"b","package":[0,1],"pays":"15+1/2","vickrey":11}]}\n'
        )
        self.prints(HALVES, [], prices)
        self.prints(HALVES, ["--rounds"], "".join(turn + "\n" for turn in turns) + prices)
        self.prints(HALVES, ["--json"], '{"net":30,"revenue":"36",' + winners)
        rounds = f'{{"net":30,"revenue":"36","rounds":["{turns[0]}","{turns[1]}"],'
        self.prints(HALVES, ["--rounds", "--json"], rounds + winners)
        self.prints(HALVES, ["--json", "--rounds"], rounds + winners)

    def test_fraction_of_the_revenue(self) -> None:
        """Net of reserve a, b and c bid 10 each and win with 30, and each two of them have to pay the 7 of the bidder
        for both lots.

        Without one of them the other two still win with 20, more than the 7 + 10 of the others, so the Vickrey prices
        are 0 net. The three demands of 7 sum to twice what all pay: at least 10+1/2 net, and if it is exactly this,
        3+1/2 from each. The reserve is 10, of the lot of a.
        """
        prices = (
            "winner a 1 0 0 bid 20 vickrey 10 pays 13+1/2\nwinner b 0 1 0 bid 10 vickrey 0 pays 3+1/2\n"
            "winner c 0 0 1 bid 10 vickrey 0 pays 3+1/2\nnet 30\nrevenue 20+1/2\n"
        )
        self.prints(PAIRS, [], prices)
        self.prints(
            PAIRS,
            ["--json"],
            '{"net":30,"revenue":"20+1/2","winners":['
            '{"bid":20,"name":"a","package":[1,0,0],"pays":"13+1/2","vickrey":10},'
            '{"bid":10,"name":"b","package":[0,1,0],"pays":"3+1/2","vickrey":0},'
            '{"bid":10,"name":"c","package":[0,0,1],"pays":"3+1/2","vickrey":0}]}\n',
        )


if __name__ == "__main__":
    unittest.main()
