"""Prints the protocol of an auction's day from the desk's journal (LOG.desk): each line with its reply and the time of
the reply, what was posted, each cut and each repair with its reason and the file that keeps what was taken away, who
approved it, and how often the clock of the machine was set back. It ends with lines for signatures.

    tools/journal JOURNAL
    tools/journal JOURNAL --check AWARD LOG KEY POSTED

--check tests instead that the journal is one chain that begins with this award and this key and leads to LOG, that each
reply is right, that it posted exactly the lines of POSTED, each when it was due, with its seal, that each close was
posted, and that the files of what was cut are next to the journal, or in `kept` there. It prints `yes`, or `no` and the
first fault, with status 1.

Each line of the journal has the checksum of the line before it, and each posted line covers it with its seal. So
nothing that the journal says about the time before a posted line can be changed once somebody has noted that line. It
doesn't test what came after the last line that somebody noted, and whether the clock of the machine was right.
"""

from __future__ import annotations

import argparse
import datetime
from collections.abc import Iterator, Sequence
from pathlib import Path
from typing import cast

from cca_tools.command_line import Parser, run_command
from cca_tools.desk.disk import Missing, Refused, read_file
from cca_tools.desk.journal import Entry, LogOfEntries, chained, line_sum, replayed
from cca_tools.desk.record import Record, Tester, need_kept, posted_of, stop_of
from cca_tools.rules.printable import printable
from cca_tools.rules.publication import KEPT
from cca_tools.rules.seals import grouped
from cca_tools.rules.stops import load

WORDS = {
    "begun": "The auction begins.",
    "cut": "The log is cut.",
    "cut ended": "The cut is done.",
    "changed": "The auctioneer goes on with a log that somebody has changed.",
    "put back": "The log is put back as it was answered.",
    "taken back": "A torn line is taken out of the log. Nobody had its reply.",
    "ended": "The last line gets its line feed.",
    "found": "The log has lines that no desk has answered:",
    "restored": "The log wasn't there, and is written again from this journal.",
    "started again": "The desk is started again.",
    "other tools": "The desk is started with other tools.",
}
# Members that the protocol shows in another form, or that aren't facts for people.
SILENT = {"replies", "line", "upto", "kept_sums", "whole", "version", "stay"}
NAMES = {"why": "reason", "key": "SHA-256 of the key", "by": "asked for by", "approved": "approved by"}
SIGNATURES = "Auctioneer", "Second person", "Witness"


def parser() -> Parser:
    """The arguments of the command."""
    words = Parser("journal", __doc__, "JOURNAL [--check AWARD LOG KEY POSTED]")
    words.add_file("JOURNAL", "the journal of the desk")
    words.add_argument("--check", nargs=4, metavar=("AWARD", "LOG", "KEY", "POSTED"), help="test it by these files")
    return words


def time_of(at: str) -> str:
    """A time with its date and its zone."""
    try:
        return datetime.datetime.fromisoformat(at).isoformat(" ", "milliseconds")
    except ValueError:
        return printable(at)


def facts(entry: Entry) -> Iterator[str]:
    """What an entry says in addition to its lines."""
    for name, value in entry.more.items():
        if name == "back":
            yield f"! THE CLOCK WAS SET BACK by {value} seconds since the entry before this one"
        elif name == "pins" and isinstance(value, dict):
            yield from (f"SHA-256 of the {printable(str(it))}: {printable(str(text))}" for it, text in value.items())
        elif name == "about" and isinstance(value, dict):
            yield from (f"{printable(str(it))}: {printable(str(text))}" for it, text in value.items())
        elif name not in SILENT:
            text = ", ".join(map(str, value)) if isinstance(value, list) else str(value)
            yield f"{NAMES.get(name, printable(name))}: {printable(text)}"


def rows(entry: Entry, first: int) -> Iterator[str]:
    """The lines that an entry adds to the log, with their replies, by the number of the first."""
    replies = entry.names("replies")
    for place, line in enumerate(entry.text.decode("latin-1").splitlines()):
        reply = f"  -> {printable(replies[place])}" if place < len(replies) else "  (no reply was given)"
        yield f"{first + place:>6}  {printable(line)}{reply}"


def head_words(entry: Entry) -> str:
    """What an entry is, in a sentence; empty for lines with replies."""
    if entry.what == "posted":
        return f"Posted: {printable(posted_of(entry)[0].text())}"
    if entry.what == "cut" and entry.more.get("stay") is True:
        return "The last close is taken back. The lines before it stay."
    return "" if entry.what == "line" else WORDS.get(entry.what, printable(entry.what))


def block(entry: Entry, log: LogOfEntries) -> list[str]:
    """What is printed of an entry, by the log before it, which takes the entry."""
    away = [f"    taken away: {printable(it)}" for it in log.take(entry).decode("latin-1").splitlines()]
    below = [*(f"    {it}" for it in facts(entry)), *away]
    added, head = list(rows(entry, log.first(entry))), head_words(entry)
    if not head and len(added) == 1:
        return [f"{time_of(entry.at)}  {added[0].strip()}", *below]
    return [f"{time_of(entry.at)}  {head}".rstrip(), *below, *(f"    {it}" for it in added)]


def protocol(data: bytes) -> str:
    """The whole protocol of a journal. Raises `Refused`."""
    entries, log, found = chained(data), LogOfEntries(), ["PROTOCOL OF THE AUCTION", ""]
    if not entries:
        raise Refused("The journal has no entry.")
    replayed(entries)
    for entry in entries:
        found += block(entry, log)
    return "\n".join([*found, "", *ending(entries, data)])


def ending(entries: Sequence[Entry], data: bytes) -> Iterator[str]:
    """What a protocol ends with: its extent, what can't be read, and lines for signatures."""
    backs = sum("back" in it.more for it in entries)
    lines = data.removesuffix(b"\n").split(b"\n")
    torn = len(lines) - len(entries)
    yield f"{len(entries)} entries, from {time_of(entries[0].at)} to {time_of(entries[-1].at)}."
    yield f"The clock of the machine was set back {backs} time{'' if backs == 1 else 's'}."
    if torn:
        yield f"Torn lines of the journal, which nobody has seen: {torn}."
    yield "The SHA-256 of the journal's last line binds all of it:"
    yield f"    {grouped(line_sum(lines[-1]))}"
    line = "_" * 30
    for name in SIGNATURES:
        yield f"\n{name + ':':<15}{line}  Date: {line[:12]}  Signature: {line}"


def tested(journal: str, award: str, log: str, key: str, posted: str) -> Record:
    """The record of these files. Raises `Refused` if they don't agree."""
    data, key_data, award_data = load(journal, "journal"), load(key, "key"), load(award, "award")
    record = Tester(award_data, key_data).record(data)
    if record.log != load(log, "log"):
        raise Refused("The journal leads to another log.")
    if record.posted != load(posted, "posted"):
        raise Refused("The posted lines aren't those of the journal.")
    need_kept(record.entries, lambda name: kept_file(Path(journal).parent, name))
    return record


def kept_file(folder: Path, name: str) -> bytes:
    """A file that keeps what was taken away: next to the journal, or in `kept` of a published set."""
    try:
        return read_file(folder / name)
    except Missing:
        return read_file(folder / KEPT / name)


def journal(options: argparse.Namespace) -> str:
    """The protocol, or whether the journal agrees with the other files."""
    try:
        if not options.check:
            return protocol(load(options.journal, "journal"))
        record = tested(options.journal, *cast(list[str], options.check))
    except Refused as fault:
        raise stop_of(fault) from None
    return (
        f"yes\n{len(record.entries)} entries, {len(record.public.rows)} posted lines, {len(record.public.voids)} of"
        f" them void; the clock was set back {record.times_back} times"
    )


def main(argv: Sequence[str]) -> int:
    """Runs the command with these arguments, and returns its status."""
    return run_command(parser(), journal, argv)
