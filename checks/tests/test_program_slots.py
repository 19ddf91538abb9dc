"""The program over slots and certificates of placements: the place where it stops in their texts, the winners and
prices, and the first test that fails."""
import unittest
from checks.cases.program import run, with_program
from checks.cases.samples import sample

# The bids of x and y fit together; z's bid fits with neither.
THREE = sample("band.slots").decode()
# Several choices are worth as much.
TIES = (
    "slots 1\nband 5\nbidder a 1\nplace 1 6\nplace 2 6\nplace 4 6\nbidder b 2\nplace 1 3\nplace 3 3\nbidder c 1\n"
    "place 1 6\nplace 4 6\n"
    "end\n"
)
# A whole band where all bidders can win.
FOUR = (
    "slots 1\nband 7\nbidder p 2\nplace 2 9\nplace 4 9\nplace 6 4\nbidder q 1\nplace 1 5\nplace 3 7\nbidder r 3\n"
    "place 1 8\nplace 2 8\n"
    "place 5 8\nbidder s 1\nplace 4 6\nplace 7 2\nend\n"
)
# A bid of the greatest amount for a start that is impossible in every order.
LATE = (
    "slots 1\nband 9\nbidder m 2\nplace 3 4\nplace 8 4398046511104\nbidder n 1\nplace 2 1\nbidder o 1\nplace 1 1\nend\n"
)

# The first lines of slots, 15 bytes, and these with a bidder and a bid, 37 bytes.
BAND = "slots 1\nband 4\n"
ONE = BAND + "bidder x 2\nplace 2 10\n"

FAULTY_SLOTS = [
    ("", 0),
    ("slots 2\n", 0),
    ("slots 1", 0),
    ("slots 1\nband 0\n", 8),
    ("slots 1\nband 1000\n", 8),
    ("slots 1\nband 04\n", 8),
    ("slots 1\nbidder x 1\n", 8),
    (BAND, 15),
    (BAND + "place 1 5\n", 15),
    (BAND + "bidder x\n", 15),
    (BAND + "bidder x 0\n", 15),
    (BAND + "bidder x 5\n", 15),
    (BAND + "bidder X 1\n", 15),
    (BAND + "bidder x 1 \n", 15),
    (ONE + "bidder x 1\n", 37),
    (ONE + "bidder y 3\n", 37),
    (ONE + "place 2 10\n", 37),
    (ONE + "place 4 10\n", 37),
    (ONE + "place 3\n", 37),
    (ONE + "place 3 4398046511105\n", 37),
    (ONE + "place 03 1\n", 37),
    (ONE + "end", 37),
    (ONE + "end\nend\n", 41),
]

# A certificate for THREE. The first has two slots and 10 for slot 1, the second one slot and 8 for slot 4, the third
# one slot and 12 for
# slot 2; the first two win, and pay together what the third bids.
CERT = """pcert 1
den 1
value 18
order 1 3 2
choice 1 1 0
table
t 18 8 12 0 8 8 0 0
without 1
order 2 3 1
choice 0 0 1
table
t 12 8 12 0 8 8 0 0
without 2
order 2 3 1
choice 0 0 1
table
t 12 0 12 0 0 0 0 0
pay 7 5 0
rows 1
row 1 2
mult 1 3
order 2 3 1
choice 0 0 1
lowered
t 12 5 12 0 5 5 0 0
end
"""

PLACED = "placed x 1 2\nplaced z 3 1\nplaced y 4 1\n"
PRICES = PLACED + "winner x 1 bid 10 vickrey 4 pays 7\nwinner y 4 bid 8 vickrey 2 pays 5\nvalue 18\nrevenue 12\n"

# What is changed in this certificate, at its first place, and the test and place that fail first. These were found by
# testing the certificates with another program, made only from the tests' definitions.
FAILING = [
    ("den 1", "den 0", "P1 1"),
    ("value 18", "value -1", "P1 2"),
    ("choice 1 1 0", "choice 1 2 0", "P2 2"),
    ("order 1 3 2", "order 1 2 3", "P2 4"),
    ("order 1 3 2", "order 1 3 3", "P2 4"),
    ("order 1 3 2", "order 1 0 2", "P2 4"),
    ("order 1 3 2", "order 1 4 2", "P2 4"),
    ("value 18", "value 17", "P2 5"),
    ("t 18 8 12 0 8 8 0 0", "t 18 8 12 0 8 8 0 -1", "P3 7"),
    ("t 18 8 12 0 8 8 0 0", "t 18 7 12 0 8 8 0 0", "P3 1"),
    ("t 18 8 12 0 8 8 0 0", "t 19 8 12 0 8 8 0 0", "P3 8"),
    ("t 12 8 12 0 8 8 0 0", "t 13 8 12 0 8 8 0 0", "P4 1"),
    ("t 12 0 12 0 0 0 0 0", "t 12 0 11 0 0 0 0 0", "P4 2"),
    ("pay 7 5 0", "pay 7 9 0", "P5 2"),
    ("pay 7 5 0", "pay 7 5 1", "P5 3"),
    ("row 1 2", "row 1 3", "P6 1"),
    ("pay 7 5 0", "pay 7 4 0", "P6 1"),
    ("mult 1 3", "mult -1 3", "P7 1"),
    ("mult 1 3", "mult 2 3", "P7 2"),
    ("mult 1 3", "mult 1 2", "P8 2"),
    ("pay 7 5 0", "pay 8 4 0", "P8 2"),
    ("t 12 5 12 0 5 5 0 0", "t 12 4 12 0 5 5 0 0", "P9 1"),
    ("t 12 5 12 0 5 5 0 0", "t 13 5 12 0 5 5 0 0", "P9 8"),
]

# What is changed in this certificate, and the byte where the first faulty line begins.
FAULTY = [
    ("pcert 1\n", "cert 1\n", 0),
    ("pcert 1\n", "pcert 2\n", 0),
    ("order 1 3 2\n", "", 23),
    ("order 1 3 2\n", "order 1 3\n", 23),
    ("order 1 3 2\n", "order 1 3 2 4\n", 23),
    ("order 1 3 2\n", "order 1 3 65536\n", 23),
    ("order 1 3 2\n", "order 65535 0 0\nplace\n", 39),
    ("t 18 8 12 0 8 8 0 0\n", "t 18 8 12 0 8 8 0\n", 54),
    ("without 1\n", "t 18 8 12 0 8 8 0 0\nwithout 1\n", 74),
    ("without 1\norder 2 3 1\n", "without 1\n", 84),
    ("without 2\norder 2 3 1\n", "without 2\norder 2 3\n", 145),
    ("rows 1\n", "rows 2\n", 255),
    ("mult 1 3\norder 2 3 1\n", "mult 1 3\n", 230),
    ("end\n", "t 0 0 0 0 0 0 0 0\nend\n", 283),
    ("end\n", "end\nend\n", 287),
    ("end\n", "end", 283),
    ("value 18\n", "value 1329227995784915872903807060280344576\n", 14),
    ("t 18 8 12 0 8 8 0 0\n", "t 18 8 12 0 8 8 0 -1329227995784915872903807060280344576\n", 54),
    ("t 18 8 12 0 8 8 0 0\n", "t 18 8 12 0 8 8 1329227995784915872903807060280344576\n", 54),
    ("t 12 5 12 0 5 5 0 0\n", "t 12 5 12 0 5 5 0 1329227995784915872903807060280344576\n", 263),
]


def certificate_of(slots: str) -> tuple[str, list[str]]:
    """What `place` prints of these slots, and the lines of its certificate."""
    ended = run("place", "slots", "cert", slots=slots)
    if ended.status:
        raise AssertionError(ended.printed)
    return ended.printed, ended.files["cert"].decode().splitlines()


@with_program
class Slots(unittest.TestCase):
    def stops(self, slots: str, line: str, status: int) -> None:
        self.assertEqual(run("place", "slots", "cert", slots=slots), (line + "\n", status, {"slots": slots.encode()}))

    def test_faulty_lines(self) -> None:
        for slots, place in FAULTY_SLOTS:
            with self.subTest(slots=slots):
                self.stops(slots, f"cca: refused slots {place}", 3)

    def test_limits(self) -> None:
        six = "slots 1\nband 40\nbidder a 1\nbidder b 1\nbidder c 1\nbidder d 1\nbidder e 1\nbidder f 1\n"
        self.stops("slots 1\nband 41\nend\n", "cca: limit lots 41", 7)
        self.stops(six + "bidder g 1\n", "cca: limit bidders 7", 7)
        self.stops(six + "bidder g 0\n", "cca: refused slots 82", 3)
        printed, _ = certificate_of(six + "end\n")
        placed = "".join(f"placed {name} {start} 1\n" for start, name in enumerate("abcdef", 1))
        self.assertEqual(printed, placed + "value 0\nrevenue 0\n")

    def test_the_first_of_the_greatest_wins(self) -> None:
        """The choices and the orders were found by listing all choices with all orders."""
        rows = [
            (THREE, "choice 1 1 0", "order 1 3 2", PLACED),
            (TIES, "choice 2 2 1", "order 3 1 2", "placed c 1 1\nplaced a 2 1\nplaced b 3 2\n"),
            (FOUR, "choice 1 1 3 1", "order 2 1 4 3", "placed q 1 1\nplaced p 2 2\nplaced s 4 1\nplaced r 5 3\n"),
            (LATE, "choice 1 1 1", "order 3 2 1", "placed o 1 1\nplaced n 2 1\nplaced m 3 2\n"),
            ("slots 1\nband 2\nend\n", "choice", "order", ""),
        ]
        for slots, choice, order, placed in rows:
            with self.subTest(slots=slots):
                printed, cert = certificate_of(slots)
                self.assertEqual(cert[3:5], [order, choice])
                self.assertEqual(
                    "".join(line + "\n" for line in printed.splitlines() if line.startswith("placed ")), placed
                )

    def test_others_win_without_a_bidder(self) -> None:
        """The others are worth 12 each time, so the Vickrey prices are 12 - 18 + 10, 12 - 18 + 8 and 12 - 15 + 3."""
        rows = [
            (THREE, 1, "choice 0 0 1", "t 12 8 12 0 8 8 0 0", "winner x 1 bid 10 vickrey 4 "),
            (THREE, 2, "choice 0 0 1", "t 12 0 12 0 0 0 0 0", "winner y 4 bid 8 vickrey 2 "),
            (TIES, 2, "choice 1 0 2", "t 12 6 6 6 6 0 6 0", "winner b 3 bid 3 vickrey 0 "),
        ]
        for slots, bidder, choice, table, winner in rows:
            with self.subTest(slots=slots, bidder=bidder):
                printed, cert = certificate_of(slots)
                at = cert.index(f"without {bidder}")
                self.assertEqual(cert[at + 2 : at + 5], [choice, "table", table])
                self.assertIn(winner, printed)

    def test_winners_pay_together_what_the_third_bids(self) -> None:
        turns = "round 1 point 4 2 row 1 2 choice 0 0 1 excess 6\nround 2 point 7 5 end\n"
        ended = run("place", "slots", "cert", "--rounds", slots=THREE)
        self.assertEqual(ended, (turns + PRICES, 0, {"cert": CERT.encode(), "slots": THREE.encode()}))

    def test_greatest_choices_are_those_of_a_listing(self) -> None:
        """The values were found by another program that lists all orders and choices."""
        rows = [
            (
                "slots 1\nband 6\nbidder a 2\nplace 1 5\nplace 3 9\nbidder b 3\nplace 1 4\nplace 4 7\n"
                "bidder c 1\nplace 1 3\nplace 6 6\nend\n",
                ["den 1", "value 12", "order 1 3 2", "choice 1 2 0"],
                "pay 3 6 0",
            ),
            (
                "slots 1\nband 5\nbidder a 1\nplace 1 4\nplace 5 6\nbidder b 1\nplace 1 6\nplace 2 5\n"
                "bidder c 2\nplace 2 9\nplace 4 3\nend\n",
                ["den 1", "value 15", "order 2 3 1", "choice 0 1 1"],
                "pay 0 4 3",
            ),
            (
                "slots 1\nband 2\nbidder a 1\nplace 1 5\nbidder b 1\nplace 1 5\nend\n",
                ["den 1", "value 5", "order 1 2", "choice 1 0"],
                "pay 5 0",
            ),
            (
                "slots 1\nband 7\nbidder a 2\nplace 1 6\nplace 4 8\nbidder b 1\nplace 1 9\nplace 3 5\n"
                "bidder c 2\nplace 2 7\nplace 6 4\nbidder d 1\nplace 4 3\nplace 6 11\nend\n",
                ["den 1", "value 35", "order 2 3 1 4", "choice 2 1 1 2"],
                "pay 0 0 0 0",
            ),
        ]
        for slots, head, pay in rows:
            with self.subTest(slots=slots):
                printed, cert = certificate_of(slots)
                self.assertEqual((cert[1:5], [line for line in cert if line.startswith("pay")]), (head, [pay]))
                text = "".join(line + "\n" for line in cert)
                self.assertEqual(
                    run("place-check", "slots", "cert", slots=slots, cert=text)[:2], ("yes\n" + printed, 0)
                )


@with_program
class Certificates(unittest.TestCase):
    def check(self, cert: str) -> tuple[str, int]:
        """What `place-check` prints of a certificate for THREE, and its status."""
        ended = run("place-check", "slots", "cert", slots=THREE, cert=cert)
        return ended.printed, ended.status

    def edited(self, was: str, put: str) -> str:
        self.assertIn(was, CERT)
        return CERT.replace(was, put, 1)

    def test_right_certificate(self) -> None:
        self.assertEqual(len(CERT), 287)
        self.assertEqual(self.check(CERT), ("yes\n" + PRICES, 0))

    def test_first_test_that_fails(self) -> None:
        for was, put, told in FAILING:
            with self.subTest(was=was, put=put):
                self.assertEqual(self.check(self.edited(was, put)), (f"no {told}\n", 1))

    def test_first_faulty_line(self) -> None:
        for was, put, place in FAULTY:
            with self.subTest(was=was, put=put):
                self.assertEqual(self.check(self.edited(was, put)), (f"cca: refused cert {place}\n", 3))


if __name__ == "__main__":
    unittest.main()
