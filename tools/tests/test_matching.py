"""Which lines of two logs are the same lines."""
import random
import unittest
import unittest.mock
from collections.abc import Iterator, Sequence

from checks.cases.samples import TOOLS  # noqa: F401 (finds the package)

from cca_tools.rules import matching
from cca_tools.rules.matching import by_fewest_changes, longest_rise, matched


def longest(old: Sequence[str], new: Sequence[str]) -> int:
    """How many lines two texts can have in common, by all ways to choose them."""
    reach = [[0] * (len(new) + 1) for _ in range(len(old) + 1)]
    for i in reversed(range(len(old))):
        for j in reversed(range(len(new))):
            same = reach[i + 1][j + 1] + 1 if old[i] == new[j] else 0
            reach[i][j] = max(same, reach[i + 1][j], reach[i][j + 1])
    return reach[0][0]


def texts(count: int) -> Iterator[list[list[str]]]:
    """Drawn texts with many lines that are there several times."""
    rng = random.Random(7)
    for _ in range(count):
        letters = "abcdef"[: rng.randint(1, 6)]
        yield [[rng.choice(letters) for _ in range(rng.randint(0, 8))] for _ in range(2)]


class Matching(unittest.TestCase):
    def assert_matches(self, old: Sequence[str], new: Sequence[str], pairs: Sequence[tuple[int, int]]) -> None:
        self.assertTrue(all(old[i] == new[j] for i, j in pairs), (old, new, pairs))
        self.assertTrue(all(a < c and b < d for (a, b), (c, d) in zip(pairs, pairs[1:])), (old, new, pairs))

    def test_the_fewest_changes(self) -> None:
        for old, new in texts(400):
            pairs = sorted(by_fewest_changes(old, new, 10**6)[0])
            self.assert_matches(old, new, pairs)
            self.assertEqual(len(pairs), longest(old, new), (old, new))

    def test_all_ways_together(self) -> None:
        for old, new in texts(400):
            self.assert_matches(old, new, matched(old, new))
        self.assertEqual(matched("abc", "abc"), [(0, 0), (1, 1), (2, 2)])
        self.assertEqual(matched("", "abc"), [])
        self.assertEqual(matched("zpaac", "ypaad"), [(1, 1), (2, 2), (3, 3)])
        self.assertEqual(matched("zaapc", "yaapd"), [(1, 1), (2, 2), (3, 3)])
        self.assertEqual(matched("xaab", "aabx"), [(1, 0), (2, 1), (3, 2)])
        self.assertEqual(matched("paaq", "paaaq"), [(0, 0), (1, 1), (2, 2), (3, 4)])
        self.assertEqual(matched("apbbqc", "xpbbbqy"), [(1, 1), (2, 2), (3, 3), (4, 5)])

    def test_the_longest_rise(self) -> None:
        self.assertEqual(longest_rise([(0, 3), (1, 0), (2, 1), (3, 4), (4, 2)]), [(1, 0), (2, 1), (4, 2)])
        self.assertEqual(longest_rise([]), [])

    def test_a_few_changes_far_apart_are_found_in_few_steps(self) -> None:
        """Two lines differ among lines that occur many times."""
        old = ["a", "b", "c", "b"] * 5000
        new = list(old)
        new[3], new[-5] = "x", "x"
        self.assertEqual(len(matched(old, new)), len(old) - 2)

    def test_what_takes_too_many_steps_counts_as_gone_and_new(self) -> None:
        old, new = ["a", "b"] * 50, ["b", "b", "a"] * 40
        self.assertEqual(by_fewest_changes(old, new, 10)[0], [])
        with unittest.mock.patch.object(matching, "MOST_STEPS", 10):
            pairs = matched(["p", *old, "q"], ["p", *new, "q"])
        self.assertEqual(pairs, [(0, 0), (101, 121)])


if __name__ == "__main__":
    unittest.main()
