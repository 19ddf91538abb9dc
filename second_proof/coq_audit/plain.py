"""The plain spelling of an award and of a log: the one that Texts.v prints.

Nothing here has to be believed: Coq reads the plain text, and its verdict is on the bytes of that text. Where the file
isn't spelled so, both have to be compared by the person who relies on the verdict.
"""

import csv
import io
import tomllib
from collections.abc import Mapping, Sequence

#: The keys of an award and of its tables, by docs/FORMATS.md.
TOP = ("version", "tick", "category", "bidder", "step", "cap")
TABLES = {
    "category": ("name", "supply", "points", "reserve"),
    "bidder": ("name", "eligibility", "holding"),
    "step": ("excess", "permille"),
    "cap": ("weight", "limit"),
}


class NotPlain(Exception):
    """A text that has no plain spelling; the argument explains why."""


class NotToml(NotPlain):
    """An award that isn't TOML 1.0; it may be TOML 1.1."""


def spelled(value: object) -> str:
    """A value of an award in its plain spelling."""
    if isinstance(value, str):
        if not (value.isascii() and value.replace("_", "").isalnum()):
            raise NotPlain(f"{value!r} is no name")
        return f'"{value}"'
    if isinstance(value, int) and not isinstance(value, bool):
        return str(value)
    if isinstance(value, list):
        return "[" + ", ".join(spelled(entry) for entry in value) + "]"
    raise NotPlain(f"{value!r} is neither a name nor a whole number nor a list of these")


def known(table: Mapping[str, object], keys: Sequence[str], where: str) -> None:
    """Refuses a key that the form doesn't have."""
    for key in table:
        if key not in keys:
            raise NotPlain(f"{where} has no key {key!r}")


def table_lines(word: str, table: object) -> list[str]:
    """The lines of a table of an award; a holding of nothing isn't written."""
    if not isinstance(table, dict):
        raise NotPlain(f"{word!r} isn't a list of tables")
    known(table, TABLES[word], f"a {word}")
    written = {key: table[key] for key in TABLES[word] if key in table}
    holding = written.get("holding")
    if isinstance(holding, list) and not any(holding):
        del written["holding"]
    return ["", f"[[{word}]]", *(f"{key} = {spelled(value)}" for key, value in written.items())]


def plain_award(file: bytes) -> bytes:
    """The plain spelling of an award, which is read by Python's own reader of TOML 1.0.

    Raises NotPlain if the text isn't TOML 1.0, or has what no award has. An award that only TOML 1.1 can spell has
    to be written as TOML 1.0 first.
    """
    try:
        award = tomllib.loads(file.decode().removeprefix("\ufeff"))
    except UnicodeDecodeError as fault:
        raise NotPlain("the award isn't UTF-8") from fault
    except (ValueError, RecursionError) as fault:
        raise NotToml(f"the award isn't TOML 1.0, and may be TOML 1.1: {fault}") from fault
    known(award, TOP, "an award")
    lines = [f"{key} = {spelled(award[key])}" for key in ("version", "tick") if key in award]
    for word in TABLES:
        tables = award.get(word, [])
        if not isinstance(tables, list):
            raise NotPlain(f"{word!r} isn't a list of tables")
        lines += [line for table in tables for line in table_lines(word, table)]
    return "".join(f"{line}\n" for line in lines).encode()


def without_comments(file: bytes) -> bytes:
    """An award without its comments, by the rules of Comments.v; unchanged if it has a control character."""
    text, kept = file.decode(), []
    if any(sign < " " and sign != "\n" or sign == "\x7f" for sign in text):
        return file
    for line in text.split("\n"):
        before, mark, _ = f" {line}".partition(" #")
        bare = before[1:].rstrip(" ") if mark else line
        if bare or not mark:
            kept.append(bare)
    return "\n".join(kept).encode()


def plain_log(file: bytes) -> bytes:
    """The plain spelling of a log: without a byte order mark, quotes, blank lines and other line ends."""
    rows = csv.reader(io.StringIO(file.removeprefix(b"\xef\xbb\xbf").decode("latin-1"), newline=""))
    limit = csv.field_size_limit(len(file) + 1)
    try:
        records = [row for row in rows if row]
    except csv.Error as fault:
        raise NotPlain(f"the log isn't CSV: {fault}") from fault
    finally:
        # (the limit is one for all readers of the process)
        csv.field_size_limit(limit)
    for number, record in enumerate(records, 1):
        if any(mark in field for field in record for mark in ',"\r\n'):
            raise NotPlain(f"record {number} has a comma, a quote or a line end in a field")
    return "".join(",".join(record) + "\n" for record in records).encode("latin-1")
