"""The program on right and on faulty books: `win`, `price`, `weigh` and `review`, and the arguments of each command."""
import unittest
from checks.cases.program import run, with_program
from checks.cases.samples import book_of, lines, sample

DAY_CRAMTON, CERT, TIE = sample("day-cramton.book"), sample("day-cramton.cert"), sample("tie.book")
PRICES = "winner b1 1 0 bid 28 vickrey 14 pays 17 / winner b2 0 1 bid 20 vickrey 12 pays 15 / net 48 / revenue 32"
NOBODY = lines("book 1 / supply 1 / reserve 0 / end")
NOBODY_CERT = lines("cert 1 / den 1 / value 0 / choice / table / t 0 0 / pay / rows 0 / lowered / t 0 0 / end")
AT_RESERVE = lines("book 1 / supply 1 / reserve 50 / bidder solo / bid 1 50 / end")
EACH = [[((1, 0, 0), 10)], [((0, 1, 0), 10)], [((0, 0, 1), 10)]]
LOCALS_BIDS, TWO_GLOBALS_BIDS = [*EACH, [((1, 1, 1), 11)]], [*EACH, [((1, 1, 0), 8)], [((0, 1, 1), 8)]]
LOCALS = book_of((1, 1, 1), LOCALS_BIDS, ["l1", "l2", "l3", "g"])
LOCALS_PRICES = (
    "winner l1 1 0 0 bid 10 vickrey 0 pays 3+2/3 / winner l2 0 1 0 bid 10 vickrey 0 pays 3+2/3 "
    "/ winner l3 0 0 1 bid 10 vickrey 0 pays 3+2/3 / net 30 / revenue 11"
)
TWO_GLOBALS = book_of((1, 1, 1), TWO_GLOBALS_BIDS, ["l1", "l2", "l3", "g1", "g2"])
TWO_GLOBALS_PRICES = (
    "winner l1 1 0 0 bid 10 vickrey 0 pays 0 / winner l2 0 1 0 bid 10 vickrey 0 pays 8 "
    "/ winner l3 0 0 1 bid 10 vickrey 0 pays 0 / net 30 / revenue 8"
)
ELEVEN = book_of((11,), [[((1,), 5)]] * 11, [f"c{j}" for j in range(1, 12)])
EQUALS = book_of((1,), [[((1,), 9)]] * 4, ["n1", "n2", "n3", "n4"])


class Case(unittest.TestCase):
    def ends(self, words: str, given: dict[str, bytes], told: str, status: int = 0, **made: bytes) -> None:
        """A run over only the given files prints these lines with this status, and changes only what it made or
        appended to."""
        ended = run(*words.split(), **given)
        self.assertEqual((ended.printed, ended.status), (lines(told).decode(), status))
        self.assertEqual(ended.files, given | made)


@with_program
class Words(Case):
    def test_others_are_refused(self) -> None:
        cases: list[list[str]] = [
            [],
            ["win"],
            ["win", ""],
            ["win", "-BOOK"],
            ["win", "BOOK", "CERT"],
            ["wins", "BOOK"],
            ["price"],
            ["price", "BOOK"],
            ["price", "BOOK", "BOOK"],
            ["price", "BOOK", "--rounds"],
            ["price", "--rounds", "BOOK", "CERT"],
            ["price", "BOOK", "--rounds", "CERT"],
            ["price", "BOOK", "CERT", "--json", "--json"],
            ["price", "BOOK", "CERT", "--rounds", "--rounds"],
            ["check", "BOOK"],
            ["check", "BOOK", "BOOK"],
            ["check", "BOOK", ""],
            ["check", "BOOK", "CERT", "--rounds"],
            ["check", "--rounds", "BOOK", "CERT"],
            ["auction", "AWARD", "LOG"],
            ["auction", "AWARD", "LOG", "LOG"],
            ["auction", "AWARD", "LOG", "-"],
            ["auction", "AWARD", "LOG", "BOOK", "CERT"],
        ]
        for words in cases:
            with self.subTest(words=words):
                given = {word: NOBODY for word in words[1:2] if word}
                self.assertEqual(run(*words, **given), ("cca: words\n", 2, given))


# A book, the numbers of its winning choice, and the winners.
WINNERS = [
    ("Day and Cramton", DAY_CRAMTON, "1 1 0 0 0", "winner b1 1 0 28 / winner b2 0 1 20 / net 48"),
    ("nobody", NOBODY, "", "net 0"),
    ("a bid of the reserve", AT_RESERVE, "1", "winner solo 1 50 / net 0"),
    (
        "three and one for all",
        LOCALS,
        "1 1 1 0",
        "winner l1 1 0 0 10 / winner l2 0 1 0 10 / winner l3 0 0 1 10 / net 30",
    ),
    (
        "three and two for two",
        TWO_GLOBALS,
        "1 1 1 0 0",
        "winner l1 1 0 0 10 / winner l2 0 1 0 10 / winner l3 0 0 1 10 / net 30",
    ),
    (
        "spectrum",
        sample("six-bidders.book"),
        "1 1 1 1 1 0",
        "winner p1 2 0 0 0 550000 / winner p2 0 1 0 0 350000 / winner p3 2 0 4 5 710500 / winner p4 0 0 7 0 225000 "
        "/ winner p5 0 0 3 4 105400 "
        "/ net 680000",
    ),
    ("two choices of a value", TIE, "1 1", "winner east 1 5 / winner west 1 4 / net 9"),
    (
        "eleven winners",
        ELEVEN,
        "1 1 1 1 1 1 1 1 1 1 1",
        " / ".join(f"winner c{j} 1 5" for j in range(1, 12)) + " / net 55",
    ),
    ("four bids of an amount", EQUALS, "1 0 0 0", "winner n1 1 9 / net 9"),
    ("the most states", book_of((3, 3, 3, 3, 7, 7), []), "", "net 0"),
    (
        "two bids of the reserve",
        lines("book 1 / supply 1 / reserve 5 / bidder a / bid 1 5 / bidder b / bid 1 5 / end"),
        "1 0",
        "winner a 1 5 / net 0",
    ),
    (
        "bidders without bids",
        book_of((1,), [[], [((1,), 9)], [((1,), 9)], []], ["none", "n1", "n2", "last"]),
        "0 1 0 0",
        "winner n1 1 9 / net 9",
    ),
    (
        "several bids",
        lines(
            "book 1 / supply 2 1 / reserve 3 2 / bidder a / bid 0 1 2 / bid 1 0 3 / bid 1 1 9 / bid 2 0 8 / bidder b "
            "/ bidder c / bid 0 1 6 / bid 1 0 5 / bid 2 1 12 / end"
        ),
        "3 0 2",
        "winner a 1 1 9 / winner c 1 0 5 / net 6",
    ),
    (
        "the last for all",
        lines(
            "book 1 / supply 3 / reserve 1 / bidder a / bid 1 2 / bid 2 3 / bid 3 5 / bidder b / bid 1 2 / bid 2 3 "
            "/ bidder c / bid 3 6 / end"
        ),
        "0 0 1",
        "winner c 3 6 / net 3",
    ),
]


@with_program
class Win(Case):
    def test_winners(self) -> None:
        for name, book, _, winners in WINNERS:
            with self.subTest(name):
                self.ends("win BOOK", {"BOOK": book}, winners)

    def test_numbers_of_the_choice(self) -> None:
        """`review` prints the numbers of the winning choice before any edit."""
        for name, book, numbers, winners in WINNERS:
            with self.subTest(name):
                before = " ".join(["0", winners.split(" / ")[-1], "choice", *numbers.split()])
                self.ends("review BOOK EDITS", {"BOOK": book, "EDITS": b"edits 1\nend\n"}, f"{before} / {winners}")

    def test_faulty_books(self) -> None:
        for name, book, line, status in [
            (
                "leading zero",
                lines("book 1 / supply 1 1 / reserve 0 0 / bidder east / bid 1 0 028 / end"),
                "cca: refused book 42",
                3,
            ),
            ("empty", b"", "cca: refused book 0", 3),
            ("last line not ended", NOBODY[:-1], "cca: refused book 26", 3),
            ("too many states", book_of((3, 3, 3, 3, 7, 8), []), "cca: limit states 18432", 7),
        ]:
            with self.subTest(name):
                self.ends("win BOOK", {"BOOK": book}, line, status)


MOST = 4398046511104
# A book, the lines of its turns of pricing, and the outcome.
PRICED = [
    (
        "Day and Cramton",
        DAY_CRAMTON,
        "round 1 point 14 12 row 1 2 choice 0 0 1 0 0 excess 6 / round 2 point 17 15 end",
        PRICES,
    ),
    (
        "Day and Cramton, losers between the winners",
        lines(
            "book 1 / supply 1 1 / reserve 0 0 / bidder b3 / bid 1 1 32 / bidder b1 / bid 1 0 28 / bidder b4 "
            "/ bid 1 0 14 "
            "/ bidder b2 / bid 0 1 20 / bidder b5 / bid 0 1 12 / end"
        ),
        "round 1 point 14 12 row 2 4 choice 1 0 0 0 0 excess 6 / round 2 point 17 15 end",
        PRICES,
    ),
    ("nobody", NOBODY, "round 1 point end", "net 0 / revenue 0"),
    (
        "a bid of the reserve",
        AT_RESERVE,
        "round 1 point 0 end",
        "winner solo 1 bid 50 vickrey 50 pays 50 / net 0 / revenue 50",
    ),
    (
        "thirds",
        LOCALS,
        "round 1 point 0 0 0 row 1 2 3 choice 0 0 0 1 excess 11 / round 2 point 3+2/3 3+2/3 3+2/3 end",
        LOCALS_PRICES,
    ),
    (
        "one of three pays",
        TWO_GLOBALS,
        "round 1 point 0 0 0 row 2 3 choice 1 0 0 0 1 excess 8 / round 2 point 0 4 4 row 1 2 choice 0 0 1 1 0 excess 4 "
        "/ round 3 point 0 8 0 end",
        TWO_GLOBALS_PRICES,
    ),
    (
        "above its bid on the way",
        lines(
            "book 1 / supply 1 1 1 / reserve 0 0 0 / bidder a / bid 1 0 0 10 / bidder b / bid 0 1 0 9 "
            "/ bidder c / bid 0 0 1 9 / bidder d / bid 1 1 1 20 / bidder e / bid 1 0 0 8 / end"
        ),
        "round 1 point 8 1 1 row 1 2 3 choice 0 0 0 1 0 excess 10 "
        "/ round 2 point 11+1/3 4+1/3 4+1/3 row 2 3 choice 0 0 0 1 0 excess 1+1/3 "
        "/ round 3 point 10 5 5 end",
        "winner a 1 0 0 bid 10 vickrey 8 pays 10 / winner b 0 1 0 bid 9 vickrey 1 pays 5 "
        "/ winner c 0 0 1 bid 9 vickrey 1 pays 5 "
        "/ net 28 / revenue 20",
    ),
    (
        "spectrum",
        sample("six-bidders.book"),
        "round 1 point 70000 0 170000 0 0 row 1 3 5 choice 0 1 0 1 0 1 excess 140000 "
        "/ round 2 point 116666+2/3 0 216666+2/3 0 46666+2/3 row 1 3 4 choice 0 1 0 0 1 1 excess 46666+2/3 "
        "/ round 3 point 140000 0 240000 0 0 end",
        "winner p1 2 0 0 0 bid 550000 vickrey 470000 pays 540000 "
        "/ winner p2 0 1 0 0 bid 350000 vickrey 250000 pays 250000 "
        "/ winner p3 2 0 4 5 bid 710500 vickrey 630500 pays 700500 "
        "/ winner p4 0 0 7 0 bid 225000 vickrey 105000 pays 105000 "
        "/ winner p5 0 0 3 4 bid 105400 vickrey 45400 pays 45400 / net 680000 / revenue 1640900",
    ),
    (
        "two choices of a value",
        TIE,
        "round 1 point 0 4 end",
        "winner east 1 bid 5 vickrey 0 pays 0 / winner west 1 bid 4 vickrey 4 pays 4 / net 9 / revenue 4",
    ),
    (
        "sixteen bidders",
        book_of((4,), [[((1,), 5)]] * 16, [f"m{j}" for j in range(1, 17)]),
        "round 1 point 5 5 5 5 end",
        "winner m1 1 bid 5 vickrey 5 pays 5 / winner m2 1 bid 5 vickrey 5 pays 5 / winner m3 1 bid 5 vickrey 5 pays 5 "
        "/ winner m4 1 bid 5 vickrey 5 pays 5 / net 20 / revenue 20",
    ),
    (
        "the most states",
        book_of((3, 3, 3, 3, 7, 7), [[((1, 0, 0, 0, 0, 0), 5)]], ["solo"]),
        "round 1 point 0 end",
        "winner solo 1 0 0 0 0 0 bid 5 vickrey 0 pays 0 / net 5 / revenue 0",
    ),
    ("four bids of an amount", EQUALS, "round 1 point 9 end", "winner n1 1 bid 9 vickrey 9 pays 9 / net 9 / revenue 9"),
    (
        "the greatest amounts",
        book_of((6,), [*[[((1,), MOST)]] * 6, [((6,), MOST)]], ["u1", "u2", "u3", "u4", "u5", "u6", "g"]),
        "round 1 point 0 0 0 0 0 0 row 1 2 3 4 5 6 choice 0 0 0 0 0 0 1 excess 4398046511104 "
        "/ round 2 point 733007751850+2/3 733007751850+2/3 733007751850+2/3 733007751850+2/3 733007751850+2/3 "
        "733007751850+2/3 end",
        "winner u1 1 bid 4398046511104 vickrey 0 pays 733007751850+2/3 "
        "/ winner u2 1 bid 4398046511104 vickrey 0 pays 733007751850+2/3 "
        "/ winner u3 1 bid 4398046511104 vickrey 0 pays 733007751850+2/3 "
        "/ winner u4 1 bid 4398046511104 vickrey 0 pays 733007751850+2/3 "
        "/ winner u5 1 bid 4398046511104 vickrey 0 pays 733007751850+2/3 "
        "/ winner u6 1 bid 4398046511104 vickrey 0 pays 733007751850+2/3 "
        "/ net 26388279066624 / revenue 4398046511104",
    ),
]
ROUNDS = '"rounds":["round 1 point 14 12 row 1 2 choice 0 0 1 0 0 excess 6","round 2 point 17 15 end"],'
OBJECT = (
    '{"net":48,"revenue":"32",%s"winners":[{"bid":28,"name":"b1","package":[1,0],"pays":"17","vickrey":14},'
    '{"bid":20,"name":"b2","package":[0,1],"pays":"15","vickrey":12}]}'
)


@with_program
class Price(Case):
    def test_priced_and_checked(self) -> None:
        """Without the lines of the turns and with them the certificate is the same, and it passes."""
        for name, book, rounds, outcome in PRICED:
            with self.subTest(name):
                cert = run("price", "BOOK", "CERT", BOOK=book).files["CERT"]
                self.ends("price BOOK CERT", {"BOOK": book}, outcome, CERT=cert)
                self.ends("price BOOK CERT --rounds", {"BOOK": book}, f"{rounds} / {outcome}", CERT=cert)
                self.ends("check BOOK CERT", {"BOOK": book, "CERT": cert}, f"yes / {outcome}")

    def test_object(self) -> None:
        for options, rounds in ("--json", ""), ("--json --rounds", ROUNDS), ("--rounds --json", ROUNDS):
            with self.subTest(options):
                self.ends(f"price BOOK CERT {options}", {"BOOK": DAY_CRAMTON}, OBJECT % rounds, CERT=CERT)

    def test_certificate_is_appended(self) -> None:
        for book, cert, outcome in (NOBODY, NOBODY_CERT, "net 0 / revenue 0"), (DAY_CRAMTON, CERT, PRICES):
            with self.subTest(outcome):
                self.ends("price BOOK CERT", {"BOOK": book}, outcome, CERT=cert)
                self.ends("price BOOK CERT", {"BOOK": book, "CERT": b"cert 1\n"}, outcome, CERT=b"cert 1\n" + cert)

    def test_limit_of_winners(self) -> None:
        self.ends("price BOOK CERT --rounds", {"BOOK": ELEVEN}, "cca: limit winners 11", 7)


def weights_of(**weights: int) -> bytes:
    """The text of the weights of bidders, by their names."""
    return lines(" / ".join(["weights 1", *(f"weight {name} {weight}" for name, weight in weights.items()), "end"]))


# The second of five bidders weighs 3.
ONE_HEAVY = sample("day-cramton.weights")
HEAVY_ROUNDS = "round 1 point 14 12 row 1 2 choice 0 0 1 0 0 excess 6 / round 2 point 15+1/2 16+1/2 end"
HEAVY_PRICES = (
    "winner b1 1 0 bid 28 vickrey 14 pays 15+1/2 / winner b2 0 1 bid 20 vickrey 12 pays 16+1/2 / net 48 / revenue 32"
)
HEAVY_OBJECT = (
    '{"net":48,"revenue":"32","winners":[{"bid":28,"name":"b1","package":[1,0],"pays":"15+1/2","vickrey":14},'
    '{"bid":20,"name":"b2","package":[0,1],"pays":"16+1/2","vickrey":12}]}'
)
SIX = book_of((6,), [[((1,), 5)]] * 6, list("abcdef"))
FIVE_OF_SIX = book_of((5,), [*[[((1,), 5)]] * 5, [((1,), 1)]], list("abcdef"))
SIX_ALIKE = weights_of(a=1, b=1, c=1, d=1, e=1, f=1)


@with_program
class Weigh(Case):
    def priced(self, given: dict[str, bytes], told: str) -> bytes:
        """The certificate of a book that is priced so by its weights. It passes."""
        cert = run("weigh", "BOOK", "WEIGHTS", "CERT", **given).files["CERT"]
        self.ends("weigh BOOK WEIGHTS CERT", given, told, CERT=cert)
        self.ends("weigh-check BOOK WEIGHTS CERT", given | {"CERT": cert}, f"yes / {told}")
        return cert

    def test_shares(self) -> None:
        given = {"BOOK": DAY_CRAMTON, "WEIGHTS": ONE_HEAVY}
        cert = self.priced(given, HEAVY_PRICES)
        self.ends("weigh BOOK WEIGHTS CERT --rounds", given, f"{HEAVY_ROUNDS} / {HEAVY_PRICES}", CERT=cert)
        self.ends("weigh BOOK WEIGHTS CERT --json", given, HEAVY_OBJECT, CERT=cert)

    def test_certificate_by_other_weights(self) -> None:
        given = {"BOOK": DAY_CRAMTON, "CERT": CERT}
        self.ends("weigh-check BOOK WEIGHTS CERT", given | {"WEIGHTS": ONE_HEAVY}, "no C8 3", 1)
        alike = weights_of(b1=1, b2=1, b3=1, b4=1, b5=1)
        self.ends("weigh-check BOOK WEIGHTS CERT", given | {"WEIGHTS": alike}, f"yes / {PRICES}")

    def test_six_winners_who_weigh_alike(self) -> None:
        """The six pay nothing: nobody else wants their lots."""
        told = " / ".join(f"winner {name} 1 bid 5 vickrey 0 pays 0" for name in "abcdef") + " / net 30 / revenue 0"
        self.priced({"BOOK": SIX, "WEIGHTS": SIX_ALIKE}, told)

    def test_five_winners_and_a_heavy_loser(self) -> None:
        """Each of the five pays the 1 that the sixth would have paid for its lot."""
        told = " / ".join(f"winner {name} 1 bid 5 vickrey 1 pays 1" for name in "abcde") + " / net 25 / revenue 5"
        self.priced({"BOOK": FIVE_OF_SIX, "WEIGHTS": weights_of(a=1, b=1, c=1, d=1, e=1, f=20)}, told)

    def test_limit_of_winners_of_other_weights(self) -> None:
        for book, weights, line in [
            (SIX, weights_of(a=2, b=1, c=1, d=1, e=1, f=1), "cca: limit winners 6"),
            (FIVE_OF_SIX, weights_of(a=2, b=2, c=2, d=2, e=2, f=2), "cca: limit winners 5"),
        ]:
            with self.subTest(line):
                self.ends("weigh BOOK WEIGHTS CERT", {"BOOK": book, "WEIGHTS": weights}, line, 7)

    def test_weights_are_read_before_the_certificate(self) -> None:
        self.ends(
            "weigh-check BOOK WEIGHTS CERT", {"BOOK": DAY_CRAMTON, "WEIGHTS": SIX_ALIKE}, "cca: refused weights 10", 3
        )


RESERVED = lines("book 1 / supply 2 / reserve 10 / bidder east / bid 1 15 / bidder west / end")


@with_program
class Review(Case):
    def test_edits(self) -> None:
        for name, book, edits, told in [
            (
                "Day and Cramton",
                DAY_CRAMTON,
                sample("day-cramton.edits"),
                "0 net 48 choice 1 1 0 0 0 / 1 net 50 choice 0 0 1 0 0 / 2 net 51 choice 1 0 0 1 0 "
                "/ 3 net 50 choice 0 0 1 0 0 "
                "/ 4 not-higher 50 / 5 unknown / winner b3 1 1 50 / net 50",
            ),
            (
                "refusals",
                DAY_CRAMTON,
                lines(
                    "edits 1 / add b1 2 0 5 / add b1 0 0 5 / add b1 1 0 5 / raise b1 0 1 5 / drop b2 1 0 "
                    "/ add b1 0 1 4398046511105 / end"
                ),
                "0 net 48 choice 1 1 0 0 0 / 1 supply 1 / 2 empty / 3 present 28 / 4 absent / 5 absent "
                "/ 6 amount-top 4398046511104 "
                "/ winner b1 1 0 28 / winner b2 0 1 20 / net 48",
            ),
            ("none", NOBODY, lines("edits 1 / end"), "0 net 0 choice / net 0"),
            (
                "below the reserve",
                RESERVED,
                lines("edits 1 / add west 1 9 / add west 1 12 / end"),
                "0 net 5 choice 1 0 / 1 below-reserve 10 / 2 net 7 choice 1 1 / winner east 1 15 / winner west 1 12 "
                "/ net 7",
            ),
        ]:
            with self.subTest(name):
                self.ends("review BOOK EDITS", {"BOOK": book, "EDITS": edits}, told)

    def test_faulty_edits(self) -> None:
        self.ends(
            "review BOOK EDITS", {"BOOK": NOBODY, "EDITS": lines("edits 1 / add b1 0 / end")}, "cca: refused edits 8", 3
        )

    def test_limit_of_edits(self) -> None:
        edits = b"edits 1\n" + b"drop b1 1\n" * 1001 + b"end\n"
        self.ends("review BOOK EDITS", {"BOOK": NOBODY, "EDITS": edits}, "cca: limit records 1001", 7)


if __name__ == "__main__":
    unittest.main()
