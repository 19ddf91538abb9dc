"""What `./cca` and `./trial` answer at once: the help, made from docs/FORMATS.md, and the version."""

from __future__ import annotations

import re
import subprocess
import sys
import textwrap
from collections.abc import Iterator, Sequence

from build.building import ROOT, Program, plain_variables, say

PAGE = ROOT / "docs" / "FORMATS.md"
WIDTH = 100
HELP, VERSION = ("-h", "--help"), "--version"
WORDS, WRITE_FAULT = 2, 5


def section(text: str, name: str) -> str:
    """The section of a document with this heading."""
    found = re.search(rf"^## {name}\n(.*?)(?=^## |\Z)", text, re.M | re.S)
    return found[1] if found else ""


def plain(text: str) -> str:
    """A text without the marks of a document."""
    text = re.sub(r"\[(.*?)\]\(.*?\)", r"\1", text)
    return re.sub(r"\*\*(.*?)\*\*", r"\1", text).replace("`", "")


def rows(lines: Sequence[str]) -> Iterator[list[str]]:
    """The cells of a table's rows, without its head."""
    table = [line for line in lines if not re.fullmatch(r"[|\s-]+", line)]
    for line in table[1:]:
        yield [plain(cell.strip()) for cell in line.strip("|").split("|")]


def hanging(tag: str, text: str, indent: int) -> str:
    """A tag, with its text next to it."""
    return textwrap.fill(text, WIDTH, initial_indent=f"  {tag:<{indent - 2}}", subsequent_indent=" " * indent)


def commands(table: Sequence[str], name: str) -> Iterator[str]:
    """A row for each command: its arguments, what it appends to and what it prints."""
    for words, appends, prints in rows(table):
        yield hanging(
            words.replace("cca ", f"./{name} ", 1), f"{f'appends to {appends}; ' * bool(appends)}{prints}", 42
        )


def statuses(table: Sequence[str]) -> Iterator[str]:
    """A row for each status: its number, when it comes, and the line that is printed then."""
    for code, when, line in rows(table):
        yield hanging(code, f"{when}: {line}", 6)


def blocks(text: str) -> Iterator[list[str]]:
    """The tables and paragraphs of a section in order, as lines. Blocks of code are left out."""
    for piece in re.split(r"\n\s*\n", re.sub(r"^```.*?^```$", "", text, flags=re.M | re.S)):
        if piece.strip():
            yield piece.strip().splitlines()


def help_text(page: str, name: str) -> str:
    """The help of the script of this name, from the text of docs/FORMATS.md."""
    parts = [f"usage: ./{name} COMMAND FILES..", f"       ./{name} --help | --version"]
    for head in ("Commands", "Statuses"):
        parts.append(f"\n{head}\n")
        for lines in blocks(section(page, head)):
            if lines[0].startswith("|"):
                parts += commands(lines, name) if head == "Commands" else statuses(lines)
                parts.append("")
            else:
                parts.append(textwrap.fill(plain(" ".join(lines)), WIDTH) + "\n")
    return (
        re.sub(r"\n{3,}", "\n\n", "\n".join(parts)).rstrip()
        + "\n\ndocs/FORMATS.md has the files, docs/AUCTIONEER.md an auction.\n"
    )


def commit() -> str:
    """The commit that is checked out, or nothing if git doesn't know."""
    words = ["git", "-C", str(ROOT), "describe", "--always", "--abbrev=40", "--dirty=-changed", "--exclude=*"]
    try:
        return subprocess.run(words, capture_output=True, text=True, env=plain_variables()).stdout.strip()
    except OSError:
        return ""


def version_text(name: str, program: Program) -> str:
    """The version and the commit, and which kit has built the program that is here."""
    known = commit() if (ROOT / ".git").exists() else ""
    kept = program.read_sums()
    built = f"built by {kept[1]}, sha256 {kept[2]}" if kept else "not built yet"
    version = (ROOT / "VERSION").read_text(encoding="utf-8").strip()
    return f"{name} {version}{f' (commit {known})' * bool(known)}\n{built}\n"


def put(text: str) -> int:
    """Prints the text; returns the status, which is `WRITE_FAULT` if the output can't be written."""
    if sys.stdout is None:
        return WRITE_FAULT
    try:
        print(text, end="", flush=True)
    except OSError:
        sys.stdout = None  # type: ignore[assignment]  # (else Python tries once more as it ends)
        return WRITE_FAULT
    return 0


def answer(words: Sequence[str], name: str, program: Program, about: str = "") -> None:
    """Ends this call if its arguments ask for help or the version, or if there are none.

    A call without arguments prints what the program prints then, with the help on standard error.
    """
    if not words:
        say(help_text(PAGE.read_text(encoding="utf-8"), name), "")
        sys.exit(put("cca: words\n") or WORDS)
    if len(words) == 1 and words[0] in HELP:
        sys.exit(put(about + help_text(PAGE.read_text(encoding="utf-8"), name)))
    if list(words) == [VERSION]:
        sys.exit(put(version_text(name, program)))
