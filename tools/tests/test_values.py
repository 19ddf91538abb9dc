"""Models of values, and how they are drawn and read."""
import math
import unittest
from collections.abc import Mapping, Sequence

from checks.cases.samples import sample

from cca_tools.rules.award import read_award
from cca_tools.rules.stops import Stop
from cca_tools.rules.types import Package
from cca_tools.studies.draws import draws_of
from cca_tools.studies.models import local_factor
from cca_tools.studies.values import read_values, values_of_seed

AWARD = b"""version = 1
tick = 1
[[category]]
name = "low"
supply = 2
points = 1
reserve = 0
[[category]]
name = "high"
supply = 3
points = 1
reserve = 0
[[bidder]]
name = "north"
eligibility = 5
[[bidder]]
name = "south"
eligibility = 3
[[step]]
excess = 1
permille = 50
"""


def table(text: str) -> bytes:
    return f"values = 1\n[[bidder]]\n{text}\n".encode()


class Draws(unittest.TestCase):
    def test_a_draw_is_the_sha_256_of_its_name(self) -> None:
        """The checksums are the ones that sha256sum prints."""
        for name, found in {
            ("north", "lot", 1, 1): "3a7b5dac1275233191c17c1e70ebdbe055c1029d092f9cf038078874df6ea742",
            ("north", "lot", 1, 2): "e17480646e79fc386d141674d4deefd59fb6a0f2b6179273c9ecf03c9f201a72",
            ("south", "lot", 1): "044b3ae4763b1b39b98ac752dbe32bd258163ef1d3326f39a4d24a36351a7ece",
        }.items():
            self.assertEqual(draws_of(7).of(*name).whole(10, 1009), 10 + int(found, 16) % 1000)


class Values(unittest.TestCase):
    def values(self, text: str, seed: int = 7, award: bytes = AWARD) -> Sequence[Mapping[Package, int]]:
        return values_of_seed(read_award(award), table(text), seed)

    def test_additive(self) -> None:
        north, south = self.values('model = "additive"\nlot = [[10, 1009], 6]')
        lots = sorted(
            10 + int(it, 16) % 1000
            for it in (
                "3a7b5dac1275233191c17c1e70ebdbe055c1029d092f9cf038078874df6ea742",
                "e17480646e79fc386d141674d4deefd59fb6a0f2b6179273c9ecf03c9f201a72",
            )
        )
        self.assertEqual((north[1, 0], north[2, 0], north[2, 3]), (lots[1], sum(lots), sum(lots) + 18))
        self.assertEqual((len(north), len(south), max(sum(package) for package in south)), (11, 8, 3))

    def test_decrease_and_complement(self) -> None:
        text = 'model = "additive"\nlot = [100, 10]\ndecrease = 25\ncomplement = [{ lots = [1, 2], value = 1000 }]'
        north, _ = self.values(text)
        self.assertEqual((north[1, 0], north[2, 0], north[0, 3]), (100, 175, 10 + 7 + 5))
        self.assertEqual((north[1, 1], north[1, 2], north[2, 3]), (110, 1117, 1197))

    def test_global(self) -> None:
        """Each lot after the first raises the worth of all by 20 %."""
        north, _ = self.values('model = "global"\nlot = [100, 11]\nmost = 4')
        self.assertEqual((north[1, 0], north[2, 0], north[1, 1], north[2, 2]), (100, 240, 133, 355))
        self.assertNotIn((2, 3), north)

    def test_local(self) -> None:
        """The factor of b lots is 1 + a / 200, since e to the power of 0 is 1."""
        self.assertEqual(local_factor(320, 10, 10), 2_600_000)
        for lots in range(30):
            self.assertAlmostEqual(local_factor(160, 4, lots) / 1e6, 1 + 1.6 / (1 + math.exp(4 - lots)), 5)
        north, _ = self.values('model = "local"\nlot = [100, 10]\na = 200\nb = 2')
        self.assertEqual((north[2, 0], north[1, 1], north[0, 2]), (400, 220, 40))
        apart, _ = self.values('model = "local"\nlot = [100, 10]\na = 200\nb = 2\nneighbours = []')
        self.assertEqual((apart[2, 2], apart[2, 0] + apart[0, 2]), (440, 440))
        self.assertGreater(north[2, 2], 440)

    def test_packages(self) -> None:
        north, south = self.values(
            'model = "packages"\npackage = [{ lots = [2, 3], value = 9 }, { lots = [1, 0], value = [3, 3] }]'
        )
        self.assertEqual((north, south), ({(1, 0): 3, (2, 3): 9}, {(1, 0): 3}))

    def test_a_bidder_s_values_don_t_depend_on_others(self) -> None:
        text = 'model = "additive"\nlot = [[10, 1009], [0, 90]]'
        both = self.values(text)
        alone = self.values(text, award=AWARD.replace(b'[[bidder]]\nname = "north"\neligibility = 5\n', b""))
        self.assertEqual(both[1], alone[0])
        self.assertNotEqual(both, self.values(text, seed=8))

    def test_spectrum_caps(self) -> None:
        award = read_award(sample("spectrum.award"))
        text = b'values = 1\n[[bidder]]\nmodel = "additive"\nlot = [9, 9, 9, 9]\n'
        everest = values_of_seed(award, text, 1)[0]
        self.assertNotIn((4, 1, 0, 0), everest)
        self.assertTrue(all(2 * a + 4 * b <= 7 for a, b, _, _ in everest))

    def test_faults_name_the_table_and_the_field(self) -> None:
        ranges = "a list of 2, each a whole number from 0 to 1099511627776 or [least, greatest] of it"
        package, named = 'model = "global"\nlot = [1, 2]', 'names = "{}"\nmodel = "global"\nlot = [1, 2]'
        for text, why in {
            'model = "addtive"': "`model` is 'addtive'; it has to be one of packages, additive, global, local",
            'model = "global"\nlot = [1]': f"`lot` is [1]; it has to be {ranges}",
            'model = "global"\nlot = [1, [3, 2]]': f"`lot` is [1, [3, 2]]; it has to be {ranges}",
            f"{package}\nsinergy = 3": "the key `sinergy` isn't known here",
            'model = "packages"': "`package` is missing; it has to be a list of tables, each begun by"
            " [[bidder.package]]",
            named.format(
                "nort"
            ): "`names` is 'nort'; it has to be names of bidders of the award, which are north, south",
            'model = "local"\nlot = [1, 2]\nneighbours = [["low", "hi"]]': "`neighbours` is [['low', 'hi']]; it has to"
            " be a list of pairs of categories, which are low, high",
        }.items():
            self.fault(text, f"table 1 of [[bidder]]: {why}")
        self.fault(named.format("north"), "no table is for the bidder south")
        below = "`value` is -1; it has to be a whole number from 0 to 1099511627776, or [least, greatest] of it"
        text = 'model = "packages"\n[[bidder.package]]\nlots = [1, 0]\nvalue = -1'
        self.fault(text, f"table 1 of [[bidder]], table 1 of [[package]]: {below}")

    def fault(self, text: str, why: str) -> None:
        with self.subTest(text), self.assertRaises(Stop) as caught:
            read_values(table(text), read_award(AWARD))
        self.assertEqual((caught.exception.line, caught.exception.why), ("cca: refused values", why))


if __name__ == "__main__":
    unittest.main()
