"""tools/check-places: the worked example, each test failed once, and the faults of slots and certificates."""
import unittest
from checks.cases.samples import lines, said, sample
from checks.cases.voices import check_places

SLOTS = sample("band.slots")
# The choice 1 1 0 is worth 18 by the order x, z, y. Entry M is what those outside the set M can still reach after it.
CERT = lines(
    "pcert 1 / den 1 / value 18 / order 1 3 2 / choice 1 1 0 / table / t 18 8 12 0 8 8 0 0 / without 1 / order 2 3 1 /"
    " choice 0 0 1 / table / t 12 8 12 0 8 8 0 0 / without 2 / order 2 3 1 / choice 0 0 1 / table / t 12 0 12 0 0 0 0 0"
    " / pay 7 5 0 / rows 1 / row 1 2 / mult 1 3 / order 2 3 1 / choice 0 0 1 / lowered / t 12 5 12 0 5 5 0 0 / end"
)
YES = (
    "yes\nplaced x 1 2\nplaced z 3 1\nplaced y 4 1\nwinner x 1 bid 10 vickrey 4 pays 7\nwinner y 4 bid 8 vickrey 2 pays"
    " 5\nvalue 18\nrevenue 12"
)

EDITS = [
    ("den 1", "den 0", "no P1 1"),
    ("choice 1 1 0", "choice 1 2 0", "no P2 2"),
    ("order 1 3 2", "order 1 2 3", "no P2 4"),
    ("order 1 3 2", "order 3 1 2", "no P2 4"),
    ("order 1 3 2", "order 1 3 3", "no P2 4"),
    ("order 1 3 2", "order 1 3 65535", "no P2 4"),
    ("order 1 3 2", "order 1 3 0", "no P2 4"),
    ("value 18", "value 17", "no P2 5"),
    ("t 18 8", "t 17 8", "no P3 0"),
    ("t 18 8 12 0 8 8 0 0", "t 18 8 12 0 8 8 0 -1", "no P3 7"),
    ("t 18 8 12 0 8 8 0 0", "t 19 8 12 0 8 8 0 0", "no P3 8"),
    ("t 18 8 12 0 8 8 0 0", "t 18 8 11 0 8 8 0 0", "no P3 2"),
    ("t 12 8 12", "t 13 8 12", "no P4 1"),
    ("pay 7 5 0", "pay 7 5 1", "no P5 3"),
    ("row 1 2", "row 1 3", "no P6 1"),
    ("mult 1 3", "mult 2 3", "no P7 2"),
    ("pay 7 5 0", "pay 8 4 0", "no P8 2"),
    ("t 12 5 12", "t 13 5 12", "no P9 8"),
    ("t 12 5 12", "t 12 4 12", "no P9 1"),
    ("pcert 1", "cert 1", "cca: refused cert 0"),
    ("order 1 3 2", "order 1 3", "cca: refused cert 23"),
    ("order 1 3 2", "order 1 3 65536", "cca: refused cert 23"),
    ("t 18 8 12 0 8 8 0 0", "t 18 8 12 0 8 8 0", "cca: refused cert 54"),
]


class Placements(unittest.TestCase):
    def test_worked_example(self) -> None:
        self.assertEqual(said(check_places, SLOTS, CERT), (YES, 0))

    def test_edits(self) -> None:
        for was, put, line in EDITS:
            with self.subTest(put=put, line=line):
                cert = CERT.replace(was.encode(), put.encode(), 1)
                self.assertEqual(said(check_places, SLOTS, cert), (line, 1 if line.startswith("no") else 3))

    def test_sentences(self) -> None:
        from cca_tools.rules.placement import read_places, read_slots
        from cca_tools.rules.placement_tests import first_fault

        slots = read_slots(SLOTS)

        def why(was: bytes, put: bytes) -> str:
            fault = first_fault(slots, read_places(CERT.replace(was, put, 1), slots))
            assert fault is not None
            return fault.why

        self.assertEqual(
            why(b"t 18 8", b"t 17 8"),
            (
                "in the head's table entry 0, with nobody placed, is 17, which is too low: x placed next counts "
                "10, and the entry after it is 8"
            ),
        )
        self.assertIn(
            "entry 5, with x and z placed, is 7, which is too low: y placed next counts 8",
            why(b"12 0 8 8", b"12 0 8 7"),
        )
        self.assertIn("y begins at slot 3, and its bid is for slot 4", why(b"order 1 3 2", b"order 1 2 3"))

    def test_nobody(self) -> None:
        cert = lines("pcert 1 / den 1 / value 0 / order / choice / table / t 0 / pay / rows 0 / lowered / t 0 / end")
        self.assertEqual(said(check_places, lines("slots 1 / band 4 / end"), cert), ("yes\nvalue 0\nrevenue 0", 0))

    def test_faults_of_slots(self) -> None:
        for was, put, place in [
            ("slots 1", "slots 2", 0),
            ("band 4", "band 0", 8),
            ("band 4", "band 1000", 8),
            ("bidder x 2", "bidder x 0", 15),
            ("bidder x 2", "bidder x", 15),
            ("bidder x 2", "bidder X 2", 15),
            ("bidder x 2\n", "", 15),
            ("place 1 10", "place 1 10 9", 26),
            ("place 1 10", "place 4 10", 26),
            ("place 1 10", "place 1 4398046511105", 26),
            ("place 1 10", "place 0 10", 26),
            ("place 1 10", "place 1 9\nplace 1 10", 36),
            ("bidder y 1", "bidder y 3", 37),
            ("bidder y 1", "bidder x 1", 37),
            ("end\n", "end", 80),
            ("end\n", "end\n\n", 84),
        ]:
            with self.subTest(put=put):
                self.assertEqual(
                    said(check_places, SLOTS.replace(was.encode(), put.encode(), 1), CERT),
                    (f"cca: refused slots {place}", 3),
                )

    def test_edges_that_stand(self) -> None:
        one = "slots 1 / band 40 / bidder x 1 / "
        for slots in (
            "slots 1 / band 1 / bidder x 1 / place 1 0 / end",
            one + "place 40 0 / end",
            one + "place 1 9 / place 2 5 / end",
        ):
            self.assertEqual(said(check_places, lines(slots), b""), ("cca: refused cert 0", 3))

    def test_limits_of_slots(self) -> None:
        self.assertEqual(said(check_places, lines("slots 1 / band 41 / end"), b""), ("cca: limit lots 41", 7))
        for count, answer in (6, ("cca: refused cert 0", 3)), (7, ("cca: limit bidders 7", 7)):
            many = "".join(f"bidder b{j} 1 / " for j in range(count))
            self.assertEqual(said(check_places, lines(f"slots 1 / band 40 / {many}end"), b""), answer)
        self.assertEqual(said(check_places, b"#" * 65537, b""), ("cca: limit bytes 65537", 7))
        self.assertEqual(
            said(check_places, lines("slots 1 / band 40 / bidder x 40 / place 1 4398046511104 / end"), b""),
            ("cca: refused cert 0", 3),
        )

    def test_words(self) -> None:
        for texts in [(SLOTS,), (SLOTS, CERT, CERT)]:
            self.assertEqual(said(check_places, *texts), ("cca: words", 2))


if __name__ == "__main__":
    unittest.main()
