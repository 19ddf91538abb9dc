"""Posts a sealed line at each public event of an auction, and tests afterwards the lines that somebody noted.

    tools/seal new KEY AWARD                     before the first line: makes a key, and prints what to post
    tools/seal sum KEY AWARD LOG POSTED          after each close: adds to POSTED what is due, and prints it
    tools/seal check KEY AWARD LOG NOTED         after publication: tests lines that somebody noted, in any order

The desk does the first two itself, and its POSTED is LOG.posted. POSTED begins with the checksums of key and award.
Then it has a numbered line for each public event, with its time and a seal: `close C`, `end`, and if a round was
repeated `back to close C` or `close C taken back`. No line is ever removed. If LOG lacks a close that was posted, `sum`
asks for --why, and posts that the close is void. Keep KEY secret until the end. Then run `sum --publish`, which seals
late lines too, and publish KEY with POSTED.

`check` prints `yes`, or `no` with status 1, and then whether each noted line agrees, is void and since which line, or
is NOT of these files. A note may have other text between its lines, and leave out number, time and reason, but no digit
of a seal: two logs with the same eight digits are found within seconds. With --journal (of the desk) the whole record
is tested first. Without it, --posted names the published lines (NOTED itself if it is that file), and --cut each log
that was kept when a round was repeated.

With other tools: a file's checksum is what `sha256sum` prints, and a seal is what `openssl dgst -sha256 -mac HMAC
-macopt hexkey:$(cat KEY)` prints for these lines, each with a line feed:

    cca seal 1
    award CHECKSUM    sha256sum AWARD
    log CHECKSUM      head -n L LOG | sha256sum, if line L of the log is the close
    journal CHECKSUM  head -n J JOURNAL | tail -n 1 | head -c -1 | sha256sum, if line J + 1 posts this line; or -
                      (torn lines before it are taken together with the last entry)
    posted CHECKSUM   head -n P POSTED | sha256sum, if line P + 1 of POSTED is this one
    N TIME EVENT      the line without its seal; `N TIME EVENT: REASON` if it has a reason

Statuses are as in docs/FORMATS.md. What it doesn't test: who noted a line, and when. Once the key is published anybody
can make lines for other files, so `NOT of these files` doesn't say which side is wrong.
"""

from __future__ import annotations

import argparse
import contextlib
import datetime
import os
from collections.abc import Sequence
from pathlib import Path
from typing import NoReturn

from cca_tools.command_line import Parser, run_command
from cca_tools.desk.disk import Refused, Unsure, append_once, new_file
from cca_tools.desk.record import ByHand, Tester, stop_of
from cca_tools.rules.award import read_award
from cca_tools.rules.noted import Judge, Noted, Verdict, read_noted
from cca_tools.rules.printable import printable
from cca_tools.rules.seals import Public, head_rows, key_of, new_key, read_posted, sum_of
from cca_tools.rules.stops import NO, WRITE_FAULT, Stop, load, refused

FORMS = {"new": ("key", "award"), "sum": ("key", "award", "log", "posted"), "check": ("key", "award", "log", "noted")}
LACKS = "without a journal all posted lines are needed: name the file that was published with --posted"


def parser() -> Parser:
    """The arguments of the command."""
    forms = (
        "new KEY AWARD",
        "sum [--why REASON] [--publish] KEY AWARD LOG POSTED",
        "check [--journal JOURNAL | --posted POSTED [--cut FILE]..] KEY AWARD LOG NOTED",
    )
    words = Parser("seal", __doc__, *forms)
    words.add_argument("command", metavar="COMMAND", choices=sorted(FORMS), help="new, sum or check")
    words.add_file("FILES", "the key; the award and the log; the posted or the noted lines", nargs="+")
    words.add_argument("--why", metavar="REASON", default="", help="why a round is held again; everybody reads it")
    words.add_argument("--publish", action="store_true", help="post as the last line that the set is made")
    words.add_argument("--journal", metavar="JOURNAL", help="the journal of the desk")
    words.add_argument("--posted", metavar="POSTED", help="all posted lines")
    words.add_argument("--cut", metavar="FILE", action="append", default=[], help="a log that was kept")
    return words


def make_key(file: str, award: bytes) -> str:
    """Makes a key in a new file that only its owner may read, and returns the two lines to post before the first line
    of the log."""
    key = new_key()
    try:
        is_new = new_file(Path(file), key)
    except (Refused, Unsure) as fault:
        if isinstance(fault, Unsure):
            with contextlib.suppress(OSError):
                os.unlink(file)
        raise Stop("cca: write fault key", WRITE_FAULT, why=str(fault).rstrip(".")) from None
    if not is_new:
        unwritten("key", file, "is there already, and a key is never overwritten")
    return "\n".join(head_rows(sum_of(key), sum_of(award)))


def unwritten(kind: str, file: str, why: str) -> NoReturn:
    """Stops for a file that can't be written."""
    raise Stop(f"cca: write fault {kind}", WRITE_FAULT, why=f"`{printable(file)}` {why}") from None


def add_due(options: argparse.Namespace, key: bytes, award: bytes, log: bytes) -> str:
    """Adds to POSTED the lines that are due, and returns what is new."""
    file = options.files[3]
    data = load(file, "posted") if os.path.lexists(file) else b""
    hand = ByHand(award, key, [log])
    if data:
        rows = read_posted(data)
        if not data.startswith(hand.head):
            raise refused("posted", 2, why="its checksums of key and award aren't those of these files")
        hand.take(rows)
    events = hand.due(options.why, options.publish)
    if events and events[0].kind in ("back", "reopened") and not options.why:
        why = f"the log lacks close {events[0].close + 1} as it was posted; say with --why why it is void"
        raise Stop("no line is posted", NO, why=why)
    if options.publish and not hand.logs[0].is_over:
        raise Stop("no line is posted", NO, why="the auction isn't over, so no set can be published yet")
    time = datetime.datetime.now().astimezone().isoformat(timespec="seconds")
    for event in events:
        hand.next_row(event, time)
    return add_to(file, hand.posted[len(data) :], hand.head)


def add_to(file: str, new: bytes, head: bytes) -> str:
    """Adds new lines to POSTED, synced, and returns them, without the first line of a new file."""
    try:
        handle = os.open(file, os.O_WRONLY | os.O_CREAT | os.O_APPEND, 0o600)
        try:
            append_once(handle, new, f"`{printable(file)}`")
        finally:
            os.close(handle)
    except OSError as fault:
        unwritten("posted", file, f"can't be written: {fault.strerror}")
    except (Refused, Unsure) as fault:
        raise Stop("cca: write fault posted", WRITE_FAULT, why=str(fault).rstrip(".")) from None
    form = head[: head.index(b"\n") + 1]
    return new.removeprefix(form).decode().rstrip("\n") or "nothing is due"


def posted_by(
    options: argparse.Namespace, key: bytes, award: bytes, log: bytes, noted: bytes
) -> tuple[Public, set[int]]:
    """What these files have posted, and the lines of it whose log isn't there. Raises `Stop`."""
    posted = load(options.posted, "posted") if options.posted else None
    if options.journal:
        try:
            record = Tester(award, key).record(load(options.journal, "journal"))
        except Refused as fault:
            raise stop_of(fault) from None
        if record.log != log:
            raise Stop("no\nThe journal leads to another log.", NO)
        if posted is not None and record.posted != posted:
            raise Stop("no\nThe posted lines aren't those of the journal.", NO)
        return record.public, set()
    if posted is None:
        try:
            read_posted(noted)
        except Stop:
            parser().error(LACKS)
    hand = ByHand(award, key, [log, *(load(file, "log") for file in options.cut)])
    hand.take(read_posted(noted if posted is None else posted))
    return hand.public, hand.foreign


def check(options: argparse.Namespace, key: bytes, award: bytes, log: bytes) -> str:
    """What is found about each line that was noted."""
    data = load(options.files[3], "noted")
    noted = read_noted(data)
    if not noted:
        raise refused("noted", 1, why="no posted line is in it")
    public, foreign = posted_by(options, key, award, log, data)
    judge = Judge(public, {"key": sum_of(key), "award": sum_of(award)})
    found = [verdict(it, judge, foreign) for it in noted]
    text = "\n".join(f"{line.name()}: {printable(it.text)}" for line, it in zip(noted, found))
    if not all(it.is_posted for it in found):
        raise Stop(f"no\n{text}", NO)
    return f"yes\n{text}"


def verdict(noted: Noted, judge: Judge, foreign: set[int]) -> Verdict:
    """What is found about a noted line; `foreign` has the posted lines whose seal fits no log."""
    found = judge.verdict(noted)
    if not found.is_posted or found.row not in foreign:
        return found
    if found.row in judge.public.voids:
        return Verdict(False, f"{found.text}. NOT TESTED: its log isn't here; name the log that was kept with --cut")
    return Verdict(
        False,
        "NOT of these files: its seal isn't made of this award, key and log and the posted lines before it (a line of"
        " the desk needs --journal)",
    )


def seal(options: argparse.Namespace) -> str:
    """The lines to post, or whether what was noted agrees with the files."""
    command, files = options.command, options.files
    if len(files) != len(FORMS[command]):
        takes = " ".join(kind.upper() for kind in FORMS[command])
        parser().error(f"`{command}` takes {takes}, and {len(files)} files are given")
    award = load(files[1], "award")
    read_award(award)
    if command == "new":
        return make_key(files[0], award)
    key, log = load(files[0], "key"), load(files[2], "log")
    key_of(key)
    return add_due(options, key, award, log) if command == "sum" else check(options, key, award, log)


def main(argv: Sequence[str]) -> int:
    """Runs the command with these arguments, and returns its status."""
    return run_command(parser(), seal, argv)
