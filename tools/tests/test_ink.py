"""The colours of winners: that the colour-blind distinguish them, and that letters on them are legible.

What the colour-blind see is computed with the matrices of Machado, Oliveira and Fernandes (2009), for a whole loss of
one kind of cone; how far two colours are apart, in CIE L*a*b* (1976).
"""
import itertools
import math
import unittest
from collections.abc import Sequence

from checks.cases import samples  # noqa: F401, finds cca_tools

from cca_tools.page.ink import PATTERNS, ROLES, WINNERS

SIGHT = {
    "all cones": ((1, 0, 0), (0, 1, 0), (0, 0, 1)),
    "protanopia": ((0.152286, 1.052583, -0.204868), (0.114503, 0.786281, 0.099216), (-0.003882, -0.048116, 1.051998)),
    "deuteranopia": ((0.367322, 0.860646, -0.227968), (0.280085, 0.672501, 0.047413), (-0.01182, 0.04294, 0.968881)),
    "tritanopia": ((1.255528, -0.076749, -0.178779), (-0.078411, 0.930809, 0.147602), (0.004733, 0.691367, 0.3039)),
}
XYZ = ((0.4124564, 0.3575761, 0.1804375), (0.2126729, 0.7151522, 0.072175), (0.0193339, 0.119192, 0.9503041))
WHITE = 0.95047, 1, 1.08883
NUMBERS = range(1, WINNERS + 1)


def times(matrix: Sequence[Sequence[float]], vector: Sequence[float]) -> list[float]:
    return [sum(a * b for a, b in zip(row, vector)) for row in matrix]


def light(colour: str) -> list[float]:
    """The linear parts of a colour."""
    parts = [int(colour[at : at + 2], 16) / 255 for at in (1, 3, 5)]
    return [part / 12.92 if part <= 0.04045 else ((part + 0.055) / 1.055) ** 2.4 for part in parts]


def lab(parts: Sequence[float]) -> tuple[float, float, float]:
    scaled = [value / white for value, white in zip(times(XYZ, parts), WHITE)]
    x, y, z = [value ** (1 / 3) if value > 0.008856 else 7.787 * value + 16 / 116 for value in scaled]
    return 116 * y - 16, 500 * (x - y), 200 * (y - z)


def apart(one: str, other: str, sight: Sequence[Sequence[float]]) -> float:
    """How far two colours are apart for somebody who sees so."""
    seen = [lab([min(1, max(0, part)) for part in times(sight, light(colour))]) for colour in (one, other)]
    return math.dist(*seen)


def contrast(one: str, other: str) -> float:
    low, high = sorted(times(XYZ, light(colour))[1] for colour in (one, other))
    return (high + 0.05) / (low + 0.05)


class Winners(unittest.TestCase):
    def test_a_known_distance(self) -> None:
        """Red and green of a screen are 170.6 apart."""
        self.assertAlmostEqual(apart("#ff0000", "#00ff00", SIGHT["all cones"]), 170.6, 1)

    def test_the_colour_blind_tell_them_apart(self) -> None:
        for ground, (name, sight) in itertools.product((0, 1), SIGHT.items()):
            for one, other in itertools.combinations(NUMBERS, 2):
                with self.subTest(ground=ground, sight=name, one=one, other=other):
                    self.assertGreater(apart(ROLES[f"w{one}"][ground], ROLES[f"w{other}"][ground], sight), 14)

    def test_a_winner_is_no_price(self) -> None:
        """What is paid has another colour than any winner."""
        for ground, number, role in itertools.product((0, 1), NUMBERS, ("blue", "bluish")):
            with self.subTest(ground=ground, number=number, role=role):
                winner, other = ROLES[f"w{number}"][ground], ROLES[role][ground]
                self.assertGreater(apart(winner, other, SIGHT["all cones"]), 20)

    def test_lots_are_seen_on_their_ground(self) -> None:
        """A lot isn't taken for an empty place: its edges have the contrast that WCAG 2.1 asks of graphics (1.4.11)."""
        for ground, number in itertools.product((0, 1), NUMBERS):
            with self.subTest(ground=ground, number=number):
                self.assertGreater(contrast(ROLES["ground"][ground], ROLES[f"w{number}"][ground]), 1.3)
                self.assertGreater(contrast(ROLES["ground"][ground], ROLES[f"l{number}"][ground]), 3)

    def test_letters_are_legible(self) -> None:
        for ground, number in itertools.product((0, 1), NUMBERS):
            with self.subTest(ground=ground, number=number):
                self.assertGreater(contrast(ROLES["letter"][ground], ROLES[f"w{number}"][ground]), 4.5)

    def test_patterns_differ(self) -> None:
        self.assertEqual(len(set(PATTERNS)), WINNERS)


if __name__ == "__main__":
    unittest.main()
