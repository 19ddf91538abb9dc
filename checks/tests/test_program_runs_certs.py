"""The program on right and on wrong certificates of books and of placements: `check`, `place` and `place-check`."""
import re
import unittest
from checks.cases.program import with_program
from checks.cases.samples import Row, certificate_of, lines, sample
from test_check import EDITS, WRONG_SIGN
from test_places import CERT as PLACE_CERT, EDITS as PLACE_EDITS
from test_program_runs import (
    CERT,
    DAY_CRAMTON,
    LOCALS,
    LOCALS_BIDS,
    LOCALS_PRICES,
    NOBODY,
    NOBODY_CERT,
    PRICES,
    TIE,
    TWO_GLOBALS,
    TWO_GLOBALS_BIDS,
    TWO_GLOBALS_PRICES,
    Case,
)

# Three winners that share their payment equally, over 3.
LOCALS_CERT = certificate_of(
    (1, 1, 1),
    LOCALS_BIDS,
    (1, 1, 1, 0),
    {1: (0, 1, 1, 0), 2: (1, 0, 1, 0), 3: (1, 1, 0, 0)},
    3,
    (11, 11, 11, 0),
    [((1, 2, 3), 3, 11, (0, 0, 0, 1))],
)
# The choice has the greatest value, but comes later than another of that value.
LATER_OF_TWO = certificate_of(
    (2,), [[((1,), 5), ((2,), 9)], [((1,), 4)]], (2, 0), {1: (0, 1)}, 1, (4, 0), [((1,), 1, 0, (0, 1))]
)


def two_globals_cert(*rows: Row) -> bytes:
    """A certificate for three winners of whom one pays."""
    without = {1: (0, 1, 1, 0, 0), 2: (1, 0, 1, 0, 0), 3: (1, 1, 0, 0, 0)}
    return certificate_of((1, 1, 1), TWO_GLOBALS_BIDS, (1, 1, 1, 0, 0), without, 1, (0, 8, 0, 0, 0), rows)


@with_program
class Books(Case):
    def judges(self, book: bytes, cert: bytes, told: str, status: int = 0) -> None:
        self.ends("check BOOK CERT", {"BOOK": book, "CERT": cert}, told, status)

    def test_yes(self) -> None:
        """In the last two, one row of a single winner has a negative second multiplier and a positive first one."""
        last = ((1, 2), 1, 0, (0, 0, 1, 1, 0)), ((2, 3), 0, 8, (1, 0, 0, 0, 1)), ((3,), 1, -8, (1, 1, 0, 0, 0))
        first = ((1,), 1, -8, (0, 1, 1, 0, 0)), ((2, 3), 1, 0, (1, 0, 0, 0, 1)), ((1, 2), 0, 8, (0, 0, 1, 1, 0))
        for name, book, cert, prices in [
            ("Day and Cramton", DAY_CRAMTON, CERT, PRICES),
            ("nobody", NOBODY, NOBODY_CERT, "net 0 / revenue 0"),
            ("thirds", LOCALS, LOCALS_CERT, LOCALS_PRICES),
            ("negative in the last row", TWO_GLOBALS, two_globals_cert(*last), TWO_GLOBALS_PRICES),
            ("negative in the first row", TWO_GLOBALS, two_globals_cert(*first), TWO_GLOBALS_PRICES),
        ]:
            with self.subTest(name):
                self.judges(book, cert, f"yes / {prices}")

    def test_places_of_faults(self) -> None:
        """The last three are certificates of other books, for other numbers of bidders or of states."""
        for name, book, cert, told, status in [
            ("equal payments", DAY_CRAMTON, CERT.replace(b"pay 17 15", b"pay 16 16"), "no C8 2", 1),
            ("payments of the other sign", DAY_CRAMTON, WRONG_SIGN, "no C8 4", 1),
            ("later of two choices", TIE, LATER_OF_TWO, "no C3 10", 1),
            ("cut in the last line", DAY_CRAMTON, CERT[:-2], "cca: refused cert 472", 3),
            ("empty", DAY_CRAMTON, b"", "cca: refused cert 0", 3),
            (
                "denominator of 2^120",
                DAY_CRAMTON,
                lines(f"cert 1 / den {2 ** 120} / value 48"),
                "cca: refused cert 7",
                3,
            ),
            ("of more bidders", NOBODY, CERT, "cca: refused cert 22", 3),
            ("of fewer states", TWO_GLOBALS, CERT, "cca: refused cert 45", 3),
            ("of nobody", TIE, NOBODY_CERT, "cca: refused cert 21", 3),
        ]:
            with self.subTest(name):
                self.judges(book, cert, told, status)

    def test_edits(self) -> None:
        """Each change of `test_check` ends as it does in tools/check."""
        for was, put, told in EDITS:
            with self.subTest(put=put, told=told):
                cert = CERT.replace(was.encode(), put.encode(), 1)
                self.assertNotEqual(cert, CERT)
                self.judges(DAY_CRAMTON, cert, told, 1 if told.startswith("no") else 3)

    def test_rows_of_one_winner_each(self) -> None:
        """Payments that are too small for the two together."""
        rows = b"pay 14 12 0 0 0\nrows 2\nrow 1\nmult 1 0\nchoice 0 1 0 1 0\nrow 2\nmult 1 0\nchoice 1 0 0 0 1\nlowered"
        self.judges(DAY_CRAMTON, re.sub(rb"pay .*lowered", rows, CERT, flags=re.DOTALL), "no C9 24", 1)

    def test_fronts(self) -> None:
        """A certificate that ends early is refused at the line of the first byte that is missing."""
        self.assertEqual(len(CERT), 476)
        for count in range(len(CERT)):
            with self.subTest(count):
                start = CERT.rfind(b"\n", 0, count) + 1
                self.judges(DAY_CRAMTON, CERT[:count], f"cca: refused cert {start}", 3)

    def test_most_bytes(self) -> None:
        """Within the limit of bytes the text is judged, and past it nothing else is, not even a text that is refused at
        its first line."""
        for count, told, status in (67_108_864, "cca: refused cert 0", 3), (67_108_865, "cca: limit bytes 67108865", 7):
            with self.subTest(count):
                self.judges(DAY_CRAMTON, b"\n" * count, told, status)


SLOTS = sample("band.slots")
ROUNDS = "round 1 point 4 2 row 1 2 choice 0 0 1 excess 6 / round 2 point 7 5 end"
PLACEMENT = (
    "placed x 1 2 / placed z 3 1 / placed y 4 1 / winner x 1 bid 10 vickrey 4 pays 7 "
    "/ winner y 4 bid 8 vickrey 2 pays 5 "
    "/ value 18 / revenue 12"
)


@with_program
class Placements(Case):
    def test_placed_and_checked(self) -> None:
        self.ends("place SLOTS CERT", {"SLOTS": SLOTS}, PLACEMENT, CERT=PLACE_CERT)
        self.ends("place SLOTS CERT --rounds", {"SLOTS": SLOTS}, f"{ROUNDS} / {PLACEMENT}", CERT=PLACE_CERT)
        self.ends("place-check SLOTS CERT", {"SLOTS": SLOTS, "CERT": PLACE_CERT}, f"yes / {PLACEMENT}")

    def test_nobody(self) -> None:
        cert = lines("pcert 1 / den 1 / value 0 / order / choice / table / t 0 / pay / rows 0 / lowered / t 0 / end")
        self.ends("place SLOTS CERT", {"SLOTS": lines("slots 1 / band 1 / end")}, "value 0 / revenue 0", CERT=cert)

    def test_faulty_slots(self) -> None:
        for slots, told, status in [
            ("slots 1 / band 4 / bidder x 5 / end", "cca: refused slots 15", 3),
            ("slots 1 / band 41 / end", "cca: limit lots 41", 7),
            (
                "slots 1 / band 9 / bidder a 1 / bidder b 1 / bidder c 1 / bidder d 1 / bidder e 1 / bidder f 1 "
                "/ bidder g 1 / end",
                "cca: limit bidders 7",
                7,
            ),
        ]:
            with self.subTest(told):
                self.ends("place SLOTS CERT", {"SLOTS": lines(slots)}, told, status)

    def test_no_certificate(self) -> None:
        self.ends("place-check SLOTS CERT", {"SLOTS": SLOTS}, "cca: read fault cert", 4)

    def test_edits(self) -> None:
        """Each change of `test_places` ends as it does in tools/check-places."""
        for was, put, told in [*PLACE_EDITS, ("order 1 3 2", "order 1 3 02", "cca: refused cert 23")]:
            with self.subTest(put=put, told=told):
                cert = PLACE_CERT.replace(was.encode(), put.encode(), 1)
                self.assertNotEqual(cert, PLACE_CERT)
                self.ends(
                    "place-check SLOTS CERT", {"SLOTS": SLOTS, "CERT": cert}, told, 1 if told.startswith("no") else 3
                )


if __name__ == "__main__":
    unittest.main()
