"""The award: each rule broken once, with the number of its field and of its table; limits by the count, and what is
read over."""
import re
import unittest
from checks.cases.samples import sample
from cca_tools.rules.award import read_award
from cca_tools.rules.stops import Stop

UK = sample("spectrum.award").decode()


def answer(text: str | bytes) -> str:
    try:
        read_award(text if isinstance(text, bytes) else text.encode())
    except Stop as stop:
        return stop.line
    return "read"


def edited(old: str, new: str, count: int = 1) -> str:
    """The sample with its first few places of a text replaced."""
    assert old in UK, old
    return UK.replace(old, new, count)


BROKEN = [
    ("version = 1", "version = 3", "1 0"),
    ("version = 1", "version = 1.0", "1 0"),
    ("version = 1", "", "1 0"),
    ("version = 1", "version = true", "1 0"),
    ("tick = 100", "tick = 1979-05-27", "2 0"),
    ("tick = 100", "tick = 0", "2 0"),
    ("tick = 100", "tick = 68719476737", "2 0"),
    ("tick = 100", 'tick = "100"', "2 0"),
    ('name = "b800"', 'name = "a800"', "4 2"),
    ('name = "b800"', 'name = "B800"', "4 2"),
    ('name = "b800"', "", "4 2"),
    ('name = "b800"', 'name = "b23456789012345678901"', "4 2"),
    ('name = "b800"', 'name = "b800\\n"', "4 2"),
    ('name = "b800"', "name = 8", "4 2"),
    ("supply = 14", "supply = 0", "5 3"),
    ("supply = 14", "supply = 1000", "5 3"),
    ("supply = 14", "", "5 3"),
    ("points = 40", "points = -1", "6 2"),
    ("points = 40", "points = 10001", "6 2"),
    ("points = 40", "", "6 2"),
    ("reserve = 100\n", "reserve = 68719476737\n", "7 4"),
    ("reserve = 100\n", "reserve = -1\n", "7 4"),
    ("reserve = 100\n", "\n", "7 4"),
    ("reserve = 200000", 'reserve = 200000\nunit = "MHz"', "18 1"),
    ('name = "tarn"', 'name = "niche"', "9 5"),
    ('name = "tarn"', 'name = ""', "9 5"),
    ('name = "tarn"', 'name = "1tarn"', "9 5"),
    ("eligibility = 96", "eligibility = 1000001", "10 5"),
    ("eligibility = 96", "", "10 5"),
    ("eligibility = 96", "eligibility = [96]", "10 5"),
    ("holding = [2, 0, 0, 0]", "holding = [2, 0, 0]", "11 1"),
    ("holding = [2, 0, 0, 0]", "holding = [1000, 0, 0, 0]", "11 1"),
    ("holding = [2, 0, 0, 0]", "holding = 2", "11 1"),
    ("holding = [2, 0, 0, 0]", "holding = [2, 0, 0, false]", "11 1"),
    ("eligibility = 68", "eligibility = 68\nholdings = 1", "18 2"),
    ("excess = 1\n", "excess = 2\n", "13 1"),
    ("excess = 3", "excess = 1", "13 2"),
    ("excess = 3", "excess = 1001", "13 2"),
    ("excess = 3", "", "13 2"),
    ("permille = 50", "permille = 0", "14 1"),
    ("permille = 100", "permille = 1001", "14 2"),
    ("permille = 100", "permille = 100\nmost = 1", "18 2"),
    ("weight = [2, 4, 0, 0]", "weight = [2, 4, 0, 1001]", "16 1"),
    ("weight = [2, 4, 0, 0]", "weight = [2, 4, 0, 0, 0]", "16 1"),
    ("weight = [2, 4, 0, 0]", "", "16 1"),
    ("limit = 42", "limit = 1000001", "17 2"),
    ("limit = 42", "", "17 2"),
    ("limit = 42", "limit = 42\nx = 1", "18 2"),
    ("tick = 100", "tick = 100\nunit = 1000", "18 0"),
]


class Awards(unittest.TestCase):
    def test_sample(self) -> None:
        award = read_award(UK.encode())
        self.assertEqual(
            (award.version, award.tick, award.supply, award.points), (1, 100, (4, 1, 14, 9), (20, 40, 2, 1))
        )
        self.assertEqual(
            (award.reserves, award.names),
            ((200000, 250000, 15000, 100), ["everest", "harbour", "meridian", "niche", "tarn"]),
        )
        self.assertEqual([award.number_of(name) for name in ("everest", "tarn", "stranger")], [1, 5, 0])
        self.assertEqual(award.cap_fault(1, (4, 0, 0, 0)), (1, 11))
        self.assertIsNone(award.cap_fault(2, (4, 0, 0, 0)))

    def test_each_rule_broken(self) -> None:
        for old, new, numbers in BROKEN:
            with self.subTest(new=new):
                self.assertEqual(answer(edited(old, new)), f"cca: refused award {numbers}")

    def test_lists(self) -> None:
        head = "version = 1\ntick = 1\n"
        category = '[[category]]\nname = "lot"\nsupply = 3\npoints = 1\nreserve = 10\n'
        step = "[[step]]\nexcess = 1\npermille = 200\n"
        cap = "[[cap]]\nweight = [1]\nlimit = 2\n"
        rows = [
            (head + step, "3 0"),
            (head + "category = []\n" + step, "3 0"),
            (head + "category = [1]\n" + step, "3 0"),
            (head + "bidder = 1\n" + category + step, "8 0"),
            (head + "bidder = [{}, 1]\n" + category + step, "8 0"),
            (head + category, "12 0"),
            (head + "step = []\n" + category, "12 0"),
            (head + category + step * 21, "12 0"),
            (head + "cap = {}\n" + category + step, "15 0"),
            (head + category + step + cap * 21, "15 0"),
            (head + "[category]\n" + step, "3 0"),
        ]
        for text, numbers in rows:
            with self.subTest(text=text):
                self.assertEqual(answer(text), f"cca: refused award {numbers}")
        self.assertEqual(answer(head + category + step + cap * 20), "read")
        self.assertEqual(answer(head + "bidder = []\n" + category + step), "read")

    def test_first_rule_decides(self) -> None:
        self.assertEqual(
            answer(edited("tick = 100", "tick = 0\nunit = 1").replace("supply = 4", "supply = 0")),
            "cca: refused award 2 0",
        )
        self.assertEqual(
            answer(edited("reserve = 200000", "reserve = 200000\nx = 1").replace("supply = 1\n", "supply = 0\n")),
            "cca: refused award 18 1",
        )
        self.assertEqual(
            answer(edited("limit = 11", "limit = -1").replace("tick = 100", "tick = 100\nx = 1")),
            "cca: refused award 17 1",
        )

    def test_limits(self) -> None:
        category = '[[category]]\nname = "{}"\nsupply = {}\npoints = 1\nreserve = 10\n'
        bidder = '[[bidder]]\nname = "b{}"\neligibility = 3\n'
        rows = [
            ([1] * 7, 1, "categories 7"),
            ([20, 21], 1, "lots 41"),
            ([7, 7, 7, 7, 3], 1, "read"),
            ([7, 7, 7, 7, 4], 1, "states 20480"),
            ([999] * 7, 17, "categories 7"),
            ([999], 17, "lots 999"),
            ([3], 17, "bidders 17"),
            ([3], 16, "read"),
            ([40], 1, "read"),
            ([41], 1, "lots 41"),
        ]
        for supply, bidders, said in rows:
            text = "version = 2\ntick = 1\n" + "".join(category.format(f"c{c}", s) for c, s in enumerate(supply))
            text += "".join(bidder.format(j) for j in range(bidders)) + "[[step]]\nexcess = 1\npermille = 200\n"
            with self.subTest(supply=supply, bidders=bidders):
                self.assertEqual(answer(text), said if said == "read" else f"cca: limit {said}")
        self.assertEqual(
            answer(edited("supply = 9", "supply = 90").replace("limit = 42", "limit = -1")), "cca: refused award 17 2"
        )

    def test_no_toml(self) -> None:
        texts: list[str | bytes] = [
            "version =",
            "version = 1\nversion = 1",
            b"version = 1 # \xff",
            "version = 9223372036854775808",
            "a = [1, {b = -9223372036854775809}]",
            "\ufeff\ufeffversion = 1",
            "version = 01",
        ]
        for text in texts:
            with self.subTest(text=text):
                self.assertEqual(answer(text), "cca: refused award 0 0")
        self.assertEqual(answer("version = 9223372036854775807"), "cca: refused award 1 0")

    def test_spellings(self) -> None:
        self.assertEqual(answer("\ufeff" + UK), "read")
        self.assertEqual(answer(UK.replace("\n", "\r\n")), "read")
        self.assertEqual(answer(edited("tick = 100", "tick = 0x64").replace("supply = 14", "'supply' = 1_4")), "read")
        inline = re.sub(r"\[\[step\]\]\nexcess = (\d+)\npermille = (\d+)\n", "", UK)
        self.assertEqual(answer("step = [{excess = 1, permille = 50}]\n" + inline), "read")

    def test_raise(self) -> None:
        # the least multiple of the tick that is at least the tick and at least this many thousandths
        steps = "[[step]]\nexcess = 1\npermille = 50\n[[step]]\nexcess = 5\npermille = 200\n"
        for tick, price, excess, raised in [
            (1, 10, 3, 11),
            (1, 1000, 3, 1050),
            (7, 1000, 4, 1056),
            (7, 1000, 5, 1203),
            (7, 1000, 1000, 1203),
            (1, 0, 1, 1),
        ]:
            category = '[[category]]\nname = "a"\nsupply = 1\npoints = 1\nreserve = 0\n'
            award = read_award(f"version = 1\ntick = {tick}\n{category}{steps}".encode())
            self.assertEqual(award.raised(price, excess), raised)
        self.assertEqual(read_award(UK.encode()).raised(200000, 0), 200000)


HEAD = "version = 1\ntick = 1\n"
REST = "[[step]]\nexcess = 1\npermille = 50\n"
CATEGORY = '[[category]]\nname = "a"\nsupply = 9\npoints = 0\nreserve = 0\n'
HOLDER = '[[bidder]]\nname = "x"\neligibility = 0\nholding = [2]\n'


class Edges(unittest.TestCase):
    def stop(self, text: str) -> Stop:
        with self.assertRaises(Stop) as caught:
            read_award(text.encode())
        return caught.exception

    def test_a_cap_may_be_reached(self) -> None:
        award = read_award(f"{HEAD}{CATEGORY}{HOLDER}{REST}[[cap]]\nweight = [3]\nlimit = 15\n".encode())
        self.assertEqual((award.cap_fault(1, (3,)), award.cap_fault(1, (4,))), (None, (1, 15)))
        self.assertEqual(award.points_of((9,)), 0)

    def test_what_is_said_of_fields(self) -> None:
        missing = self.stop(f"version = 1\n{CATEGORY}{REST}")
        self.assertEqual(missing.line, "cca: refused award 2 0")
        self.assertEqual(
            missing.why, "`tick` is missing at the top of the award; it has to be a whole number from 1 to 68719476736"
        )
        wrong = self.stop(f"{HEAD}{CATEGORY}{REST}".replace("permille = 50", "permille = 0"))
        assert wrong.spot is not None
        self.assertEqual((wrong.line, wrong.spot.row), ("cca: refused award 14 1", 10))
        inline = self.stop(f"{HEAD}step = [{{excess = 1, permille = 0}}]\n{CATEGORY}")
        assert inline.spot is not None
        self.assertEqual((inline.line, inline.spot.row), ("cca: refused award 14 1", 0))
        other = self.stop(f"{HEAD}{CATEGORY}{REST}cost = 1\n")
        self.assertEqual(
            (other.line, other.why),
            ("cca: refused award 18 1", "the key `cost` is in table 1 of [[step]]; no other key is allowed"),
        )


if __name__ == "__main__":
    unittest.main()
