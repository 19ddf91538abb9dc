"""The reader of TOML compared with the one of Python's library, which knows TOML 1.0. Also what only TOML 1.1 has, and
what neither reads."""
import datetime
import unittest
from checks.cases.samples import sample
from cca_tools.rules.toml import Moment, NoToml, read_toml

try:
    import tomllib
except ImportError:
    raise unittest.SkipTest("Python's library has a reader of TOML from 3.11 on")

VALUES = [
    "1",
    "-0",
    "+3",
    "0x1F",
    "0o17",
    "0b101",
    "1_000",
    "9223372036854775807",
    "-9223372036854775808",
    "1.5",
    "-0.0",
    "1e5",
    "1E+2",
    "6.02e-2_3",
    "inf",
    "-inf",
    "true",
    "false",
    '"a"',
    "'a\\b'",
    '"\\u00e9\\U0001F600\\t\\"\\\\"',
    '""',
    '"""\na\n"b" ""\n"""',
    '""""a"""""',
    "'''\na'b\n'''",
    '"""a \\  \n\n  b"""',
    "[]",
    "[1, [2], 'x']",
    "[1,\n# no\n2 ,\n]",
    "{}",
    "{a = 1, b.c = 2, 'd e' = []}",
    "1979-05-27",
    "1979-05-27T07:32:00Z",
    "2000-02-29",
    "2004-02-29",
    "1979-04-30",
    "1979-12-31",
    "1979-01-01T00:00:00+23:59",
    "1979-05-27 07:32:00.5",
    "07:32:00",
    "1979-05-27t07:32:00-07:00",
]
TEXTS = [
    "",
    "# only\n",
    "a.b = 1\na.c = 2\n",
    "[a]\nb = 1\n[a.c]\nd = 1\n[[e]]\nf = 1\n[[e]]\n[e.g]\nh = 2\n",
    "[a.b]\n[a]\nc = 1",
    "[ a . 'b' ]\r\nc = 1\r\n",
    "'' = 1",
    '"a b" = 1\n1-_ = 2',
    "[[a.b]]\n[[a.b]]\nc = 1\n[a.b.d]\ne = 1",
    "a = {b = 1}\n[c]\nd.e = 1\n[c.f]\n",
]
NONE = [
    "01",
    "+-1",
    "1_",
    "_1",
    "1__0",
    "0x",
    "0b2",
    "1.",
    ".5",
    "1e",
    "tru",
    "1 2",
    '"a',
    "'a",
    '"\\q"',
    '"\\ud800"',
    '"\\U00110000"',
    '"\n"',
    "[1",
    "[1 2]",
    "[,]",
    "{a = 1",
    "{a = 1, a = 2}",
    "{,}",
    "1979-02-29",
    "1979-13-01",
    "24:00:00",
    "07:60:00",
    "1979-05-27T",
    '""""""a""""""',
    "'\x01'",
    "1 y = 2",
    "1 # \x01",
    "1\rb = 2",
]
MOMENTS_THAT_AREN_T = [
    "1979-02-29",
    "1900-02-29",
    "1979-04-31",
    "1979-12-32",
    "1979-01-00",
    "1979-00-01",
    "1979-13-01",
    "1979-05-27T24:00:00",
    "1979-05-27T07:60:00",
    "1979-05-27T07:32:61",
    "1979-05-27T07:32:00+24:00",
    "1979-05-27T07:32:00+07:60",
    "24:00:00",
    "07:60:00",
]
NO_TEXTS = [
    "a = 1\na = 2",
    "a.b = 1\na.b = 2",
    "a",
    "a =",
    "= 1",
    "[a",
    "[a]]",
    "[]",
    "[a]\n[a]",
    "a = 1\na.b = 1",
    "a.b = 1\n[a]",
    "[a]\n[[a]]",
    "[[a]]\n[a]",
    "a = [{}]\n[[a]]",
    "a = {}\n[a.b]",
    "a. = 1",
    "\x00",
    "a\n= 1",
    "[a.b.c]\nz = 9\n[a]\nb.c.t = 1",
]
# Each with the text that has its meaning in TOML 1.0.
NEWER = [
    ("{a = 1,\n}", "{a = 1}"),
    ("{ # no\n a = 1 # no\n ,\n b = 2,\n}", "{a = 1, b = 2}"),
    ('"\\x41\\e"', '"A\\u001b"'),
    ('"""\\xe9"""', '"\u00e9"'),
]


def plain(value: object) -> object:
    """A value with all dates made alike, as the reader keeps them."""
    if isinstance(value, dict):
        return {key: plain(one) for key, one in value.items()}
    if isinstance(value, list):
        return [plain(one) for one in value]
    return "a moment" if isinstance(value, (Moment, datetime.date, datetime.time)) else value


class Toml(unittest.TestCase):
    def same(self, text: str) -> None:
        with self.subTest(text=text):
            self.assertEqual(plain(read_toml(text.encode())), plain(tomllib.loads(text)))

    def refused(self, text: str) -> None:
        with self.subTest(text=text):
            self.assertRaises(NoToml, read_toml, text.encode())

    def test_as_the_library(self) -> None:
        for value in VALUES:
            self.same(f"x = {value}\ny = [{value}]\n")
        for text in TEXTS + [sample(name).decode() for name in ("sample.award", "spectrum.award")]:
            self.same(text)

    def test_none(self) -> None:
        for text in [f"x = {value}" for value in NONE + MOMENTS_THAT_AREN_T] + NO_TEXTS:
            self.refused(text)
            self.assertRaises(tomllib.TOMLDecodeError, tomllib.loads, text)

    def test_where_a_fault_is(self) -> None:
        with self.assertRaisesRegex(NoToml, r"`b` is there twice \(line 3, column 6\)"):
            read_toml(b"[a]\nb = 1\nb = 2")

    def test_newer(self) -> None:
        for text, older in NEWER:
            with self.subTest(text=text):
                self.assertEqual(read_toml(f"x = {text}".encode()), tomllib.loads(f"x = {older}"))
                self.assertRaises(tomllib.TOMLDecodeError, tomllib.loads, f"x = {text}")
        self.assertEqual(
            read_toml(b"x = 07:32\ny = 1979-05-27T07:32Z\nz = 23:59:60\n")["y"], Moment("1979-05-27T07:32Z")
        )
        for text in ("{a\n= 1}", "{a =\n1}", "07:32.5", "7:32", "{a = 1,,}"):
            self.refused(f"x = {text}")

    def test_bounds(self) -> None:
        for text in (
            "9223372036854775808",
            "-9223372036854775809",
            "0x8000000000000000",
            "9" * 5000,
            "1e400",
            "[" * 81 + "]" * 81,
        ):
            self.refused(f"x = {text}")
        self.refused(".".join("a" * 81) + " = 1")
        self.same("x = " + "[" * 80 + "]" * 80)
        self.same(".".join("a" * 80) + " = 1")

    def test_bytes(self) -> None:
        self.assertEqual(read_toml(b"\xef\xbb\xbfx = 1"), {"x": 1})
        self.assertRaises(UnicodeDecodeError, read_toml, b"x = '\xff'")
        self.refused("\ufeff\ufeffx = 1")


if __name__ == "__main__":
    unittest.main()
