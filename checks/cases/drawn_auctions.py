"""Random small auctions, and faulty ones: awards with a rule broken or of other TOML, logs with lines that aren't or of
other CSV."""

from __future__ import annotations

import random
import re
from collections.abc import Collection, Sequence
from typing import Protocol, TypeAlias

# A table of an award, and an award: of each key its value as TOML spells it, or a list of tables.
Table: TypeAlias = dict[str, str]
Terms: TypeAlias = dict[str, str | list[Table]]

TABLES = {
    "category": ["name", "supply", "points", "reserve"],
    "bidder": ["name", "eligibility", "holding"],
    "step": ["excess", "permille"],
    "cap": ["weight", "limit"],
}
TOP = ["version", "tick"]
# Values that are wrong for most fields, as TOML spells them.
WRONG = [
    "-1",
    "0",
    "1.0",
    "1.5",
    '"1"',
    "'a'",
    "true",
    "[]",
    "[1]",
    "[[1]]",
    "{}",
    "{a = 1}",
    "1979-05-27",
    "07:32:00",
    "inf",
    "nan",
    "99999999999",
    "68719476736",
    "68719476737",
    "1001",
    "1000",
    "10001",
    "1000001",
    "0x10",
    "0b1",
    "+3",
    "-0",
    "1_0",
    "'aB'",
    '"a b"',
    "''",
    '"a\\n"',
    '"\\u0061"',
    "'a23456789012345678901'",
    "[1, 2, 3, 4]",
    "[0, true]",
    "[-1]",
    "[1000]",
    "[1001]",
    "9223372036854775807",
    "-9223372036854775808",
]
# What may come after `x =`: TOML, or none.
FRAGMENTS = WRONG + [
    "9223372036854775808",
    "-9223372036854775809",
    "0x8000000000000000",
    "0x7fffffffffffffff",
    "0o777777777777777777777",
    "[9223372036854775808]",
    "{a = {b = 18446744073709551616}}",
    "01",
    "00",
    "+0",
    "1__0",
    "_1",
    "1_",
    "0x",
    "0xG",
    "0b2",
    "0o8",
    "1.",
    ".1",
    "1e5",
    "1e",
    "1E+2",
    "1e1_0",
    "1e400",
    "-1e400",
    "1.0e-999",
    "+inf",
    "-nan",
    "Inf",
    "1979-02-29",
    "1980-02-29",
    "1979-13-01",
    "1979-00-10",
    "1979-05-32",
    "1979-04-31",
    "0000-01-01",
    "1979-05-27T07:32:00Z",
    "1979-05-27t07:32:00z",
    "1979-05-27 07:32:00",
    "1979-05-27T07:32:00.999999999999",
    "1979-05-27T24:00:00",
    "07:60:00",
    "23:59:60",
    "07:32",
    "1979-05-27T07:32:00+24:00",
    "1979-05-27T07:32:00-23:59",
    "1979-05-27T07:32:00+00:60",
    "1979-05-27T07:32",
    "07:32:00.",
    "79-05-27",
    "1979-05-27T",
    '"""a\nb"""',
    "'''a\nb'''",
    '"a\nb"',
    '"\\x41"',
    '"\\e"',
    '"\\q"',
    '"\\ud800"',
    '"\\U0010ffff"',
    '"\\U00110000"',
    '"\\u12"',
    '"\t"',
    '"\x7f"',
    '"\x01"',
    "'\x01'",
    '"""\\\n   a"""',
    '"""a\\ b"""',
    '""""a""""',
    '"""""a"""""',
    '""""""a""""""',
    "''''a''''",
    '"',
    "'",
    "[1,]",
    "[,1]",
    "[1,,2]",
    "[1 2]",
    "[1, # no\n2]",
    "[\n1\n,\n2\n]",
    "[",
    "]",
    "{a = 1,}",
    "{,}",
    "{a = 1, a = 2}",
    "{a = 1\n}",
    "{a = 1 # no\n}",
    "{a.b = 1, a.c = 2}",
    "{a.b = 1, a = 2}",
    "tru",
    "truefalse",
    "1 2",
    "1 # yes",
    "1 ; no",
    "",
    "\n1",
    "\\",
    "\ufeff1",
    "'\u00e9'",
    "\u00e9",
    "[" * 60 + "]" * 60,
    "[" * 127 + "]" * 127,
    "{a = " * 60 + "1" + "}" * 60,
]
# Other lines of TOML at the top, right or wrong.
LINES = [
    "x.y = 1\nx.z = 2",
    "x = 1\nx.y = 2",
    "x.y = 1\n[x]\nz = 1",
    "[x]\ny = 1\n[x]\nz = 1",
    "[x]\n[x.y]\n[x]",
    "[[x]]\n[x]",
    "[x]\n[[x]]",
    "[x.y]\n[x]\nz = 1",
    "x = [{}]\n[[x]]",
    "x = {}\n[x.y]",
    "x = {}\nx.y = 1",
    "[[x.y]]\n[x.y.z]",
    "[x]]",
    "[[x]",
    "[ x ]",
    "[[ x ]]",
    "[ [x] ]",
    "[]",
    "[[]]",
    "[x.]",
    "[.x]",
    "[x..y]",
    "x",
    "x =",
    "= 1",
    "'' = 1",
    '"" = 1',
    "'a b' = 1",
    '"a\\nb" = 1',
    "a b = 1",
    "a.'b'.\"c\" = 1",
    "a . b = 1",
    "1 = 1",
    "-_ = 1",
    "3.14 = 1",
    "\u00e9 = 1",
    "x = 1 y = 2",
    "x = 1\ry = 2",
    "x = 1\r\ny = 2",
    "# \x01",
    "# \x7f",
    "# \t",
    "# \u00e9",
    "\x00",
    "\x0b",
    "\x0c",
    "\t \t",
    "x\n= 1",
    "x =\n1",
    '"""x""" = 1',
    "'''x''' = 1",
    "[x]\ny = 1\n[x.y.z]",
    "[x.y]\n[x]\ny = 1",
    "x.y.z = 1\nx.y = 2",
    "[a]\nb.c = 1\n[a.b]",
    "[a.b.c]\n[a]\nb.c.d = 1",
    "[[a]]\nb.c = 1\n[a.b.d]",
    "true = 1",
    "inf = 1",
]


def quoted(name: str) -> str:
    """A name as a text of TOML."""
    return f'"{name}"'


def terms_of(rng: random.Random) -> tuple[Terms, list[int], int]:
    """A right award as tables of spelled values."""
    categories, bidders, top = (
        rng.randint(1, 3),
        rng.choice([1, 2, 3, 3, 4, 4]) * (rng.random() > 0.02),
        rng.random() < 0.05,
    )
    supply, points = ([rng.randint(low, low + 3) for _ in range(categories)] for low in (1, 0))
    most = sum(s * p for s, p in zip(supply, points))
    reserves = [2**36 - rng.randint(0, 20) if top else rng.randint(0, 20) for _ in range(categories)]
    version, tick = str(rng.randint(1, 2)), str(rng.choice([1, 1, 2, 7]))
    values = enumerate(zip(supply, points, reserves))
    sold = [dict(zip(TABLES["category"], [quoted(f"c{c}"), *map(str, numbers)])) for c, numbers in values]
    of_bidders = [
        {"name": quoted(f"b{j}"), "eligibility": str(rng.choice([most, most, rng.randint(most // 2, most)]))}
        for j in range(bidders)
    ]
    for bidder in of_bidders:
        if rng.random() < 0.3:
            bidder["holding"] = str([rng.randint(0, 1) for _ in range(categories)])
    steps = [
        {"excess": str(excess), "permille": str(rng.choice([1, 50, 200, 1000]))}
        for excess in sorted({1, rng.randint(2, 4)})
    ]
    weights = [[rng.randint(0, 2) for _ in range(categories)] for _ in range(rng.choice([0, 0, 1, 2]))]
    caps = [{"weight": str(weight), "limit": str(rng.randint(6, 16))} for weight in weights]
    terms: Terms = {"version": version, "tick": tick}
    terms |= {"category": sold, "bidder": of_bidders, "step": steps, "cap": caps}
    return terms, supply, bidders


def text_of(terms: Terms, inline: Collection[str] = ()) -> str:
    """The text of an award; the lists named inline are written in one line."""
    lists = {key: value for key, value in terms.items() if isinstance(value, list)}
    lines = [f"{key} = {value}" for key, value in terms.items() if key not in lists]
    for key in inline:
        tables = ("{" + ", ".join(f"{k} = {v}" for k, v in table.items()) + "}" for table in lists[key])
        lines.append(f"{key} = [{', '.join(tables)}]")
    for key, of_key in lists.items():
        for table in of_key if key not in inline else []:
            lines += [f"[[{key}]]", *(f"{k} = {v}" for k, v in table.items())]
    return "\n".join(lines) + "\n"


def broken_award(rng: random.Random) -> str:
    """An award with one rule or two of its fields broken, or perhaps none."""
    terms, _, _ = terms_of(rng)
    for _ in range(rng.choice([1, 1, 2])):
        break_field(rng, terms)
    return text_of(terms, [key for key in TABLES if isinstance(terms.get(key), list) and rng.random() < 0.15])


def break_field(rng: random.Random, terms: Terms) -> None:
    """Breaks a drawn field of an award, or leaves it out."""
    key = rng.choice([key for key in ["version", "tick", *TABLES] if key in terms])
    tables = terms[key]
    one = rng.choice(tables) if isinstance(tables, list) and tables else None
    table: Table | Terms = terms if one is None else one
    field = key if one is None else rng.choice(TABLES[key])
    kind = rng.random()
    if kind < 0.2:
        table.pop(field, None)
    elif kind < 0.3:
        table[rng.choice(["x", "names", "Supply", "'points '", "limit", "weight", "step"])] = rng.choice(
            ["1", "[]", "{}"]
        )
    elif kind < 0.4 and one is not None and isinstance(tables, list):
        others: list[str | list[Table]] = [[*tables, dict(one)], tables * 8, "[]", "1", "{}", "[1]"]
        terms[key] = rng.choice([*others, f"[{{}}, {rng.choice(WRONG)}]"])
    else:
        table[field] = rng.choice(WRONG + [quoted("c0"), quoted("b0"), "1", "2"])


def odd_award(rng: random.Random) -> str:
    """Text that is or isn't TOML, around a right award or on its own."""
    terms, kind = text_of(terms_of(rng)[0]), rng.random()
    if kind < 0.4:
        return f"x = {rng.choice(FRAGMENTS)}\n" + rng.choice(["", terms])
    if kind < 0.65:
        return rng.choice(["", terms]) + rng.choice(LINES) + rng.choice(["\n", ""])
    return damaged(rng, terms, "\"'[]{}=,.#\n\r\t \\-+_0123456789abxeT:Z\x00\ufeff\u00e9")


def damaged(rng: random.Random, text: str, signs: str) -> str:
    """A text with some signs taken out, put in or replaced, or cut."""
    for _ in range(rng.choice([1, 1, 2, 5])):
        at, kind = rng.randrange(len(text) + 1), rng.random()
        if kind < 0.3:
            text = text[:at] + rng.choice(signs) + text[at:]
        elif kind < 0.6:
            text = text[:at] + rng.choice(signs) + text[at + 1 :]
        elif kind < 0.9:
            text = text[:at] + text[at + rng.choice([1, 1, 3]) :]
        else:
            text = text[:at]
    return text


class Desk(Protocol):
    """What takes the lines of a log that is drawn."""

    @property
    def stage(self) -> str:
        """The stage that the log has reached."""

    def take(self, line: str) -> None:
        """Takes a line."""

    def turns(self, j: int, package: tuple[int, ...]) -> Sequence[int]:
        """The amounts of a package where a reply to bidder j may change."""


class Lines:
    """Draws the lines of a log. `desk` takes them, and reports the stage and the amounts where a reply may change."""

    def __init__(self, rng: random.Random, desk: Desk, supply: Sequence[int], bidders: int) -> None:
        self.rng, self.desk, self.supply, self.bidders = rng, desk, supply, bidders
        self.asked: dict[int, list[int]] = {}
        self.since_close, self.patience = 0, rng.choice([0.1, 0.2, 0.5])

    def package(self, j: int) -> list[int]:
        """Often what the bidder asked for before, or one lot less, or a lot of another category instead. Otherwise any
        package, often nearly all lots."""
        before, kind = self.asked.get(j), self.rng.random()
        if before and kind < 0.7:
            less, more = (self.rng.randrange(len(before)) for _ in range(2))
            return [
                max(0, n - (at == less and kind < 0.5)) + (at == more and kind < 0.3) for at, n in enumerate(before)
            ]
        low = [max(0, s - 1) if self.desk.stage == "clock" and kind < 0.9 else 0 for s in self.supply]
        return [self.rng.randint(least, s) + (self.rng.random() < 0.02) for least, s in zip(low, self.supply)]

    def amount(self, j: int, package: Sequence[int]) -> int:
        """Often an amount where a reply may change, or one more or less."""
        turns = self.desk.turns(j + 1, tuple(package))
        if turns and self.rng.random() < 0.7:
            return max(0, self.rng.choice(turns) + self.rng.choice([-1, 0, 0, 0, 1]))
        return self.rng.choice([self.rng.randint(0, 60), self.rng.randint(20, 200), 2**42, 2**42 + 1])

    def line(self) -> str:
        """The next line."""
        if self.closes():
            self.since_close = 0
            return "close,,,"
        rng, self.since_close = self.rng, self.since_close + 1
        j = self.bidders if not self.bidders or rng.random() < 0.02 else rng.randrange(self.bidders)
        kinds = {
            "clock": ["bid"] * 20 + ["draft", "submit"],
            "sealed": ["draft"] * 6 + ["drop", "submit", "submit", "bid"],
        }
        kind = rng.choice(kinds.get(self.desk.stage, ["bid", "draft", "drop", "submit"]))
        if kind == "submit":
            return f"submit,b{j},,"
        package = self.package(j)
        if self.desk.stage == "clock":
            self.asked[j] = package
        return f"{kind},b{j},{' '.join(map(str, package))},{self.amount(j, package) if kind == 'draft' else ''}"

    def closes(self) -> bool:
        """Whether the next line is a close."""
        if self.desk.stage == "sealed":
            return self.rng.random() < 0.03
        return self.rng.random() < (self.patience if self.since_close >= self.bidders else 0.03)


def log_of(rng: random.Random, desk: Desk, supply: Sequence[int], bidders: int) -> str:
    """Lines that mostly belong to the stage that the log has reached."""
    lines: list[str] = []
    drawn = Lines(rng, desk, supply, bidders)
    while len(lines) < 120 and not (desk.stage == "closed" and rng.random() < 0.7 or rng.random() < 0.003):
        lines.append(drawn.line())
        desk.take(lines[-1])
    return "\n".join(lines) + "\n"


NUMBERS = [
    "",
    " ",
    "-1",
    "01",
    "1.5",
    "65535",
    "65536",
    "1000000000000000000",
    "1000000000000000001",
    "9" * 30,
    "+1",
    "0x1",
    "1 ",
    " 1",
    "1\u00a0",
    "\u0661",
    "1,0",
    "1e3",
]


def broken_record(rng: random.Random, categories: int) -> str:
    """A record with some field that isn't of its form, or perhaps a right record."""
    fields = [
        rng.choice(["bid", "draft", "drop", "submit", "close", "Bid", "bids", "", " bid"]),
        rng.choice(["b0", "B0", "b 0", "", "_b", "b" * 20, "b" * 21, "0b", "b\u00e9"]),
        rng.choice(
            [
                "",
                " ".join(["1"] * categories),
                " ".join(["0"] * (categories + 1)),
                "  ".join(["1"] * categories),
                *NUMBERS,
            ]
        ),
        rng.choice(["", "5", *NUMBERS]),
    ]
    return ",".join(fields[:4] if rng.random() < 0.9 else fields * 2)


def broken_log(rng: random.Random, log: str, categories: int) -> str:
    lines = log.splitlines(True)
    lines.insert(rng.randrange(len(lines) + 1), broken_record(rng, categories) + "\n")
    return "".join(lines)


def odd_log(rng: random.Random, log: str) -> str:
    """A log of other CSV: other ends of lines, quotes, blank lines, marks, and damage."""
    ends = rng.choice(["\n", "\r\n", "\r", "\n\n", "\n\r", "\r\r\n"])
    log = "".join(line + (ends if rng.random() < 0.9 else rng.choice(["\n", "\r"])) for line in log.splitlines())
    log = re.sub(r"[^,\r\n]*", lambda field: with_quotes(rng, field[0]), log)
    log = rng.choice(["", "", "\ufeff", "\n", "\r\n\ufeff", '""\n'])[: rng.choice([4, 4, 1])] + log
    return damaged(rng, log, '",\r\n 01b') if rng.random() < 0.4 else log


def with_quotes(rng: random.Random, field: str) -> str:
    kind = rng.random()
    if kind < 0.9:
        return field
    at = rng.randrange(len(field) + 1)
    return (
        f'"{field}"'
        if kind < 0.97
        else rng.choice(
            [
                f'"{field[:at]}"{field[at:]}',
                f'{field[:at]}"{field[at:]}',
                f'"{field[:at]}""{field[at:]}"',
                f'"{field}" ',
            ]
        )
    )


def bytes_of(rng: random.Random, text: str) -> bytes:
    """The bytes of a text, now and then with some that aren't UTF-8."""
    data = text.encode("utf-8", "surrogatepass")
    if rng.random() < 0.1:
        at = rng.randrange(len(data) + 1)
        data = data[:at] + bytes([rng.randrange(256)]) + data[at:]
    return data
