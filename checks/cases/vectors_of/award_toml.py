"""Cases of awards as texts of TOML."""

from __future__ import annotations

from checks.cases.vectors_of.cases import Cases, audits, edited
from checks.cases.vectors_of.sales import ROW, SALE, SALE_CERT


TOML = [
    ("version = 1", "# of the first version\nversion=0x1", "a comment and a hexadecimal number"),
    ("supply = 3", "'supply' = +3", "a quoted key and a sign"),
    ("reserve = 10", "reserve = 1_0 # each", "an underscore and a comment"),
    ('name = "lot"', "name = 'lot'", "a literal string"),
    ('name = "lot"', 'name = """\nlot"""', "a string of several lines"),
    ('name = "lot"', 'name = "l\\u006ft"', "an escape"),
    ("tick = 1", "tick = 0b1", "a binary number"),
    ("[[step]]\nexcess = 1\npermille = 200\n", "", "an inline table"),
    ("version = 1", "\ufeffversion = 1", "a byte order mark"),
    ("[[bidder]]", "[[ 'bidder' ]]", "a quoted header with spaces"),
    (
        "eligibility = 3",
        "eligibility = 3\nholding = [\n  0, # none\n]",
        "a list over lines, with a comment and a last comma",
    ),
]


def toml_spellings(v: Cases) -> None:
    """Spellings of the small sale, and texts that aren't TOML."""
    audits(v, "toml-line-ends", "line ends CR LF", SALE.replace(b"\n", b"\r\n"), ROW, SALE_CERT, "yes")
    for number, (was, put, why) in enumerate(TOML, 1):
        text = edited(SALE, was, put)
        text = (
            text.replace(b"tick = 1", b"tick = 1\nstep = [{excess = 1, permille = 200}]")
            if why == "an inline table"
            else text
        )
        audits(v, f"toml-{number}", why, text, ROW, SALE_CERT, "yes")
    for number, (put, why) in enumerate(
        [
            ("version =", "no value"),
            ("version = 1\nversion = 1", "a key twice"),
            ("version = 01", "a leading zero"),
            ("version = 9223372036854775808", "2^63"),
            ("version = 1 # \x01", "a control character"),
            ("version = 1\nx = [1, 2", "a list that isn't closed"),
            ("version = 1 tick = 2", "two pairs in a line"),
            ("x = 1e400", "a float that is greater than floats are"),
            ("version = 1\ntwo words = 1", "a space in a key"),
        ],
        1,
    ):
        audits(v, f"no-toml-{number}", why, edited(SALE, "version = 1", put), "", b"", "cca: refused award 0 0")


def toml_depths(v: Cases) -> None:
    """Deep and long values of keys that no award has, and bytes that aren't text."""
    audits(
        v,
        "toml-greatest-number",
        "2^63 - 1 is a whole number of TOML, and breaks the rule of its field",
        edited(SALE, "tick = 1", "tick = 9223372036854775807"),
        "",
        b"",
        "cca: refused award 2 0",
    )
    for name, value, answer in (
        ("80-lists", "x = " + "[" * 80 + "]" * 80, "18 0"),
        ("81-lists", "x = " + "[" * 81 + "]" * 81, "0 0"),
        ("81-tables", "x = " + "{a = " * 81 + "1" + "}" * 81, "0 0"),
        ("80-parts", ".".join(["x"] * 80) + " = 1", "18 0"),
        ("81-parts", ".".join(["x"] * 81) + " = 1", "0 0"),
        ("81-parts-of-a-header", "[" + " . ".join(["x"] * 81) + "]", "0 0"),
        ("80-parts-in-80-tables", "x = " + ("{" + ".".join(["x"] * 80) + " = ") * 80 + "1" + "}" * 80, "18 0"),
        ("brackets-in-texts", "x = '" + "[" * 81 + "' # " + "[" * 81 + '\ny = """' + "[\n" * 81 + '"""', "18 0"),
        ("infinite", "x = [inf, -inf, nan]", "18 0"),
        ("a-great-float-beside-inf", "inf = [inf, 1e400]", "0 0"),
        ("a-long-key", "x" * 60_000 + " = 1", "18 0"),
        ("many-digits", "x = 1" + "0" * 60_000 + ".0", "0 0"),
    ):
        why = f"{name.replace('-', ' ')}: {'TOML, with a key that no award has' if answer == '18 0' else 'no TOML'}"
        award = edited(SALE, "version = 1", f"version = 1\n{value}") if value[0] != "[" else SALE + value.encode()
        audits(v, f"toml-{name}", why, award, "", b"", f"cca: refused award {answer}")
    audits(v, "no-toml-bytes", "bytes that aren't UTF-8", SALE + b"# \xff\n", "", b"", "cca: refused award 0 0")


def toml_least_number(v: Cases) -> None:
    """The least whole number of TOML."""
    least = edited(SALE, "version = 1", "version = 1\nx = -9223372036854775808")
    audits(v, "toml-least-number", "-2^63 is a whole number of TOML", least, "", b"", "cca: refused award 18 0")
    audits(
        v,
        "no-toml-below",
        "a whole number below -2^63",
        edited(least, "775808", "775809"),
        "",
        b"",
        "cca: refused award 0 0",
    )
