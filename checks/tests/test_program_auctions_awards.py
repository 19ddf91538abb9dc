"""Faulty awards to the program: the first broken rule by its number and the number of its table, texts that are no
TOML, and limits."""
import unittest
from checks.cases.program import Ended, run, with_program
from checks.cases.samples import lines

TOP = "version = 1\ntick = 1\n"
LOT = '[[category]]\nname = "lot"\nsupply = 3\npoints = 1\nreserve = 10\n'
STEP = "[[step]]\nexcess = 1\npermille = 200\n"
STEPS = "".join(f"[[step]]\nexcess = {excess}\npermille = 1000\n" for excess in range(1, 21))
CAPS = "[[cap]]\nweight = [1000]\nlimit = 1000000\n" * 20
BIDDERS = "".join(f'[[bidder]]\nname = "b{j}"\neligibility = 1\n' for j in range(1, 18))
LOG = lines("close,,, / close,,,")

# The first broken rule of these awards, each the whole text.
TOPS = [
    ("", "1 0"),
    ("version = 0\n", "1 0"),
    ("version = 3\ntick = 0\n", "1 0"),
    ("version = 1.0\n", "1 0"),
    ('version = "1"\n', "1 0"),
    ("version = 1\n", "2 0"),
    ("version = 1\ntick = 0\n", "2 0"),
    ("version = 2\ntick = 0\n", "2 0"),
    ("version = 1\ntick = -1\n", "2 0"),
    ("version = 1\ntick = 68719476737\n", "2 0"),
    ("version = 1\ntick = 9223372036854775807\n", "2 0"),
    ("version = 1\ntick = 1\nother = 1\n", "3 0"),
    ("version = 1\ntick = 1\ncategory = []\n", "3 0"),
    ('version = 1\ntick = 1\n[category]\nname = "lot"\n', "3 0"),
    ("version = 1\ntick = 1\ncategory = [{}, 1]\n", "3 0"),
]

# What comes before the category `lot` and after it.
LISTS = [
    ("bidder = 1\n", "", "8 0"),
    ("bidder = [{}, 1]\n", "", "8 0"),
    ("other = 1\n", "", "12 0"),
    ("step = []\n", "", "12 0"),
    ("step = [{excess = 2}, 1]\n", "", "12 0"),
    ("cap = {}\n", STEP, "15 0"),
    ("cap = [{}, []]\n", STEP, "15 0"),
    ("other = 1\n", STEP, "18 0"),
    ("", "[[step]]\nexcess = 1\npermille = 1\n[other]\n", "18 0"),
]

# What comes after the category `lot` and the head of another table.
CATEGORIES = [
    ("supply = 0\n", "4 2"),
    ('name = "lot"\nsupply = 0\n', "4 2"),
    ('name = "Lot"\n', "4 2"),
    ('name = "1st"\n', "4 2"),
    ('name = "a_name_of_21_bytes___"\n', "4 2"),
    ('name = "a"\nother = 1\n', "5 2"),
    ('name = "a"\nsupply = 0\n', "5 2"),
    ('name = "a"\nsupply = 1000\n', "5 2"),
    ('name = "a"\nsupply = 1\n', "6 2"),
    ('name = "a"\nsupply = 1\npoints = 10001\n', "6 2"),
    ('name = "a"\nsupply = 1\npoints = 0\n', "7 2"),
    ('name = "a"\nsupply = 1\npoints = 0\nreserve = 68719476737\n', "7 2"),
]

OTHER_KEYS = [("x.y = 1\n", "18 1"), ("[category.x]\n[[category]]\n", "18 1")]

TABLES = {
    "bidder": [
        ("eligibility = 1\n", "9 1"),
        ('name = "_"\n', "9 1"),
        ('name = "lot"\n', "10 1"),
        ('name = "a"\neligibility = 1000001\n', "10 1"),
        ('name = "a"\neligibility = 0\nholding = 1\n', "11 1"),
        ('name = "a"\neligibility = 0\nholding = []\n', "11 1"),
        ('name = "a"\neligibility = 0\nholding = [1, 1]\n', "11 1"),
        ('name = "a"\neligibility = 0\nholding = [1000]\n', "11 1"),
        ('name = "a"\neligibility = 0\nholding = [-1]\n', "11 1"),
        ('name = "a"\neligibility = 0\nweight = 1\n', "18 1"),
        ('name = "a"\neligibility = 0\n[[bidder]]\nname = "a"\n', "9 2"),
    ],
    "step": [
        ("excess = 2\npermille = 1\n", "13 1"),
        ("excess = 1\n", "14 1"),
        ("excess = 1\npermille = 0\n", "14 1"),
        ("excess = 1\npermille = 1001\n", "14 1"),
        ("excess = 1\npermille = 1\nother = 1\n", "18 1"),
        ("excess = 1\npermille = 1\n[[step]]\nexcess = 1\n", "13 2"),
        ("excess = 1\npermille = 1\n[[step]]\nexcess = 1001\n", "13 2"),
        ("excess = 1\npermille = 1\n[[step]]\nexcess = 2\n", "14 2"),
    ],
}

SPECTRUM_CAPS = [
    ("", "16 1"),
    ("weight = [1, 1]\nlimit = 1\n", "16 1"),
    ("weight = [1001]\nlimit = 1\n", "16 1"),
    ("weight = [1]\n", "17 1"),
    ("weight = [1]\nlimit = 1000001\n", "17 1"),
    ('weight = [1]\nlimit = 1\nname = "a"\n', "18 1"),
    ("weight = [1]\nlimit = 1\n[[cap]]\nlimit = 1\n", "16 2"),
]

NO_TOML = [
    b"version =",
    b"version = 1\nversion = 1\n",
    b"version = 01\n",
    b"version = 1 # \xff\n",
    b"version = 1\ntick = 9223372036854775808\n",
    b"[a]\n[a]\n",
]

# The supplies of the categories of awards with 17 bidders, and the first limit that is exceeded.
LIMITS = [
    ([999, 999, 999, 999, 999, 999, 999], "categories 7"),
    ([8, 8, 8, 8, 8, 1], "lots 41"),
    ([3, 3, 3, 3, 7, 8], "states 18432"),
    ([3, 3, 3, 3, 7, 7], "bidders 17"),
]


@with_program
class FaultyAwards(unittest.TestCase):
    def stopped(self, award: str | bytes, line: str, status: int) -> None:
        """Only this line is printed for the award, and no book is written."""
        award = award if isinstance(award, bytes) else award.encode()
        with self.subTest(award=award):
            self.assertEqual(
                run("auction", "award", "log", "book", award=award, log=LOG),
                Ended(f"cca: {line}\n", status, {"award": award, "log": LOG}),
            )

    def refused(self, award: str | bytes, numbers: str) -> None:
        self.stopped(award, f"refused award {numbers}", 3)

    def test_top(self) -> None:
        for text, numbers in TOPS:
            self.refused(text, numbers)

    def test_lists(self) -> None:
        for top, behind, numbers in LISTS:
            self.refused(TOP + top + LOT + behind, numbers)

    def test_categories(self) -> None:
        for text, numbers in CATEGORIES:
            self.refused(TOP + LOT + "[[category]]\n" + text, numbers)
        for text, numbers in OTHER_KEYS:
            self.refused(TOP + LOT + text, numbers)

    def test_bidders_and_steps(self) -> None:
        for name, rows in TABLES.items():
            for text, numbers in rows:
                self.refused(f"{TOP}{LOT}[[{name}]]\n{text}", numbers)

    def test_caps(self) -> None:
        for text, numbers in SPECTRUM_CAPS:
            self.refused(TOP + LOT + STEP + "[[cap]]\n" + text, numbers)

    def test_20_steps_and_20_caps(self) -> None:
        award = (TOP + LOT + STEPS + CAPS).encode()
        book = lines("book 1 / supply 3 / reserve 10 / end")
        self.assertEqual(
            run("auction", "award", "log", "book", award=award, log=LOG),
            Ended("1 sealed\n2 closed\n", 0, {"award": award, "book": book, "log": LOG}),
        )
        self.refused(TOP + LOT + STEPS + "[[step]]\nexcess = 21\npermille = 1\n", "12 0")
        self.refused(TOP + LOT + STEP + CAPS + "[[cap]]\nweight = [1]\nlimit = 1\n", "15 0")

    def test_no_toml(self) -> None:
        for text in NO_TOML:
            self.refused(text, "0 0")

    def test_limits(self) -> None:
        for supplies, limit in LIMITS:
            categories = [
                f'[[category]]\nname = "c{c}"\nsupply = {supply}\npoints = 0\nreserve = 0\n'
                for c, supply in enumerate(supplies)
            ]
            award = "".join([TOP, *categories, BIDDERS, STEP])
            self.stopped(award, f"limit {limit}", 7)
            self.refused(award + "other = 1\n", "18 1")


if __name__ == "__main__":
    unittest.main()
