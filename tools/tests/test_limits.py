"""The limits of the rules are those that the documents have."""
import re
import unittest

from checks.cases.limit_pages import FIELDS, FORMATS, LIMITS, SAID, field_numbers, said_number, table_rows
from checks.cases import samples  # noqa: F401  (it finds the package)

from cca_tools.rules.stops import LIMIT, MOST, WORDS, Stop, within


class Limits(unittest.TestCase):
    def test_the_table_of_limits(self) -> None:
        rows = table_rows()
        self.assertEqual(len(rows), len(LIMITS))
        for (counted, numbers), (what, names) in zip(rows, LIMITS.items()):
            self.assertEqual(counted[: len(what)], what)
            numbers *= len(names) if len(numbers) == 1 else 1
            self.assertEqual([MOST[name] for name in names], numbers, what)

    def test_the_fields_of_an_award(self) -> None:
        numbers = field_numbers()
        self.assertEqual(numbers, {number: MOST[name] for number, name in FIELDS.items()})

    def test_what_else_is_said(self) -> None:
        for name, said in SAID.items():
            self.assertEqual(MOST[name], said_number(*said), name)

    def test_statuses(self) -> None:
        """The first status of each line of the table of statuses."""
        rows = re.findall(r"^\| (\d) \| .* \| `?(.*?)`? \|$", FORMATS.split("## Statuses")[1].split("\n## ")[0], re.M)
        statuses = {line.split()[1]: int(status) for status, line in rows if line.startswith("cca: ")}
        self.assertEqual((statuses["words"], statuses["limit"]), (WORDS, LIMIT))
        with self.assertRaises(Stop) as caught:
            within("states", 16385, MOST["states"])
        self.assertEqual((caught.exception.line, caught.exception.status), ("cca: limit states 16385", 7))


if __name__ == "__main__":
    unittest.main()
