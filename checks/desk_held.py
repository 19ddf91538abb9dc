"""An auction that is held at the desk in a browser: each of its lines is typed, gets a reply, is written, and is looked
for on the disk. The expected texts of each page come from the expected log, and from the program's replies to all of it
at once.
"""

from __future__ import annotations

import os
import pathlib
import re
import shutil
import subprocess
import sys
import tempfile
from collections.abc import Callable, Iterable

from checks.desk_browser import TOOLS, Desk, Screen

PROGRAM = os.environ.get("CCA_PROGRAM", "")
WRITTEN = "Written and synced"
REPLY = "What would be the reply?"
CLOSE = "close,,,"
STEPS = {"award": "Award and audit", "report": "Make the report", "publish": "Make the published set"}


def check(what: str, found: object, wanted: object) -> None:
    """Stops if something isn't as it has to be."""
    if found != wanted:
        raise AssertionError(f"{what}: {found!r}, where {wanted!r} is expected")


def replies_of(award: pathlib.Path, log: bytes) -> list[str]:
    """The program's reply to each line of a log."""
    with tempfile.NamedTemporaryFile() as whole:
        whole.write(log)
        whole.flush()
        words = [PROGRAM, "auction", str(award), whole.name, "/dev/null"]
        printed = subprocess.run(words, capture_output=True, text=True).stdout
    rows = [row.partition(" ") for row in printed.splitlines()]
    return [reply for number, _, reply in rows if number.isdecimal()]


def printed_by(*words: str | pathlib.Path) -> tuple[int, str]:
    """The status of a tool, and the first line that it prints."""
    done = subprocess.run([sys.executable, *map(str, words)], capture_output=True, text=True, stdin=subprocess.DEVNULL)
    return done.returncode, (done.stdout + done.stderr).partition("\n")[0]


def seal_of(line: str) -> str:
    """The seal of a posted line, in groups of four."""
    found = re.search(r"(?:[0-9a-f]{4} ){15}[0-9a-f]{4}", line)
    return found[0] if found else ""


class Auction:
    """An auction with its expected log. `see` is called with the name of each screen that it reaches."""

    def __init__(
        self,
        screen: Screen,
        award: bytes,
        log: bytes,
        *words: str | pathlib.Path,
        see: Callable[[str], None] = lambda name: None,
    ) -> None:
        self.screen, self.see, self.words = screen, see, words
        self.folder = pathlib.Path(tempfile.mkdtemp())
        self.award_path, self.log_path = self.folder / "day.award", self.folder / "day.log"
        self.award_path.write_bytes(award)
        self.noted: list[str] = []  # posted lines, as pages have shown them
        self.know(log)

    def know(self, log: bytes) -> None:
        """Takes the expected log of the auction."""
        self.records = log.decode().splitlines()
        self.replies = replies_of(self.award_path, log) if log else []
        check("replies", len(self.replies), len(self.records))

    # The process.

    def start(self, by_keys: bool = False) -> None:
        """Starts the desk, and enters it."""
        self.desk = Desk(self.award_path, self.log_path, *self.words)
        self.screen.load(self.desk.address)
        check("the focus at the door", self.screen.focus(), "key")
        self.enter(by_keys)

    def start_at_door(self) -> None:
        """Starts the desk, and enters it by the second key that is typed."""
        self.desk = Desk(self.award_path, self.log_path, *self.words)
        self.screen.load(self.desk.address)
        self.see("door")
        self.screen.fill("key", "another")
        self.screen.push("Enter")
        check("another key", self.screen.texts("[role=alert]"), ["That isn't the key."])
        self.see("door-wrong")
        self.enter()

    def enter(self, by_keys: bool = False) -> None:
        """Types the key at the door."""
        if by_keys:
            self.screen.type(self.desk.key)
            self.screen.changes(lambda: self.screen.press("Enter"))
        else:
            self.screen.fill("key", self.desk.key)
            self.screen.push("Enter")
        self.inside = self.screen.ask("location.href")

    def close_files(self) -> None:
        """Ends the desk, and takes the files away."""
        check("the desk's last words", self.desk.end(), "The desk is closed.\n")
        shutil.rmtree(self.folder)

    # What is on the disk.

    def log(self) -> bytes:
        """The bytes of the log."""
        return self.log_path.read_bytes()

    def need_log(self, count: int) -> None:
        """Stops if the log isn't exactly this many lines of the expected log."""
        check(f"the log after {count} lines", self.log(), self.prefix(count))

    def prefix(self, count: int) -> bytes:
        """The first lines of the expected log."""
        return "".join(f"{record}\n" for record in self.records[:count]).encode()

    def begin_with(self, count: int) -> None:
        """Writes the first lines before the desk is started."""
        self.log_path.touch(0o600)
        self.log_path.write_bytes(self.prefix(count))

    # Lines.

    def home(self) -> None:
        """Goes to the first page of the desk."""
        self.screen.load(self.inside)

    def offers(self, field: str, value: str) -> bool:
        """Whether a field of the form of a line has a value."""
        script = f"[...document.querySelectorAll('#{field} option')].some(it => it.value === {value!r})"
        return bool(self.screen.evaluate(script))

    def preview(self, records: list[str]) -> list[str]:
        """Asks for the replies to lines: one by the form if that offers it, others as text. Returns the replies."""
        kind, bidder, package, amount = records[0].split(",")
        if len(records) == 1 and self.offers("kind", kind) and self.offers("bidder", bidder):
            self.fill_form(kind, bidder, package, amount)
            self.screen.push(REPLY, "form:has(#package)")
        else:
            self.screen.fill("raw", "\n".join(records))
            self.screen.push(REPLY, "form:has(#raw)")
        return self.replied()

    def fill_form(self, kind: str, bidder: str, package: str, amount: str) -> None:
        """Types a line into the fields of its form."""
        self.screen.choose("kind", kind)
        self.screen.choose("bidder", bidder)
        self.screen.fill("package", package)
        if amount:
            self.screen.fill("amount", amount)

    def replied(self) -> list[str]:
        """The replies on the page, as the program prints them."""
        return [{"admitted": "ok"}.get(it, it) for it in self.screen.texts("main .lines b")]

    def write(self, first: int, last: int) -> None:
        """Takes lines through preview and write, several at once as text."""
        records, replies = self.records[first - 1 : last], self.replies[first - 1 : last]
        check(f"replies to {first} to {last}", self.preview(records), replies)
        self.see(f"preview-{'many' if last > first else 'ok' if replies == ['ok'] else 'refused'}")
        self.need_log(first - 1)
        self.screen.push(self.button(replies))
        self.need_written(first, last)

    def button(self, replies: list[str]) -> str:
        """The label of the button that writes lines with these replies."""
        many = len(replies) > 1
        if any(reply != "ok" for reply in replies):
            return "The bidders sent these: write them" if many else "The bidder sent this: write it"
        return f"Write {len(replies)} lines" if many else "Write it"

    def need_written(self, first: int, last: int) -> None:
        """Stops if the page doesn't say that these lines are written, or the disk hasn't them."""
        check(f"the page of {first} to {last}", self.screen.heading(), WRITTEN)
        check(f"the focus after {first} to {last}", self.screen.focus(), WRITTEN)
        check(f"replies as written {first} to {last}", self.replied(), self.replies[first - 1 : last])
        self.need_log(last)
        self.see("written")
        self.screen.push("Go on")

    # Closes.

    def words_of(self, number: int) -> tuple[str, str, str]:
        """The question of the close with this line, what is typed for it, and its button."""
        reply = self.replies[number - 1]
        if reply == "sealed":
            return "End the clock?", "end the clock", "End the clock"
        if reply == "closed":
            return "End the auction?", "end the auction", "End the auction"
        open_round = int(reply.split()[1]) - 1
        return f"Close round {open_round}?", str(open_round), "Close the round"

    def ask_close(self, number: int) -> None:
        """Goes to the page of a close, and types what it asks for."""
        title, words, _ = self.words_of(number)
        self.screen.push("What would a close do?")
        check("the question", self.screen.heading(), title)
        check("the focus at a close", self.screen.focus(), "typed")
        self.see(f"close-{self.replies[number - 1].split()[0]}")
        self.screen.fill("typed", words)

    def close(self, number: int) -> None:
        """Closes."""
        self.close_only(number)
        self.screen.push("Go on")

    def close_only(self, number: int) -> None:
        """Closes, and stays on the page that reports the close."""
        self.ask_close(number)
        self.need_log(number - 1)
        self.screen.push(self.words_of(number)[2])
        self.need_closed(number)

    def need_closed(self, number: int, heading: str = WRITTEN) -> None:
        """Stops if the page doesn't say that this close is written, or the disk hasn't it. Notes its line."""
        check(f"the page of close {number}", self.screen.heading(), heading)
        check(f"the reply to close {number}", self.replied(), [self.replies[number - 1]])
        self.need_log(number)
        (line,) = self.screen.texts("main .box p code")
        check("the seal of a close", self.screen.texts("main .seal"), [seal_of(line)])
        self.note(line)
        self.see("written-close")

    def note(self, line: str) -> None:
        """Notes a posted line, as a witness does."""
        self.noted += [line] if line not in self.noted else []

    def is_close(self, number: int) -> bool:
        """Whether a line is an admitted close."""
        return self.records[number - 1] == CLOSE and self.replies[number - 1].split()[0] in (
            "round",
            "sealed",
            "closed",
        )

    def hold(self, numbers: Iterable[int]) -> None:
        """Takes lines and closes one by one."""
        for number in numbers:
            self.close(number) if self.is_close(number) else self.write(number, number)

    # Posted lines, and the end.

    def note_first(self) -> None:
        """Notes the lines of key and award, as the room's screen has them before the first close."""
        self.screen.load(self.desk.room)
        latest = self.screen.texts(".latest .seal")
        check("what is posted first", [line.split(" ")[0] for line in latest], ["award", "key"])
        self.noted += latest
        self.see("posted-first")
        self.home()

    def note_all(self) -> None:
        """Notes all lines of the room's screen, which were posted before or as this desk was opened."""
        self.screen.load(self.desk.room)
        for line in self.screen.texts(".latest .seal, .given code"):
            self.note(line)
        self.home()

    def end(self) -> None:
        """Awards, makes the report and the set by their buttons, and tests the result."""
        for step, button in STEPS.items():
            self.see(f"closed-{step}")
            self.screen.push(button)
            check(f"after {button}", self.screen.texts("main .box.bad:not(.alarm)"), [])
        self.see("closed")
        check("what is well at the end", len(self.screen.texts("main .box.good")), len(STEPS))
        self.need_right()

    def need_right(self) -> None:
        """Stops if log, certificate, record or set aren't as they have to be."""
        self.need_log(len(self.records))
        kinds = "cert", "key", "desk", "posted"
        cert, key, journal, posted = (self.log_path.with_name(f"day.log.{kind}") for kind in kinds)
        check("tools/audit", printed_by(TOOLS / "audit", self.award_path, self.log_path, cert), (0, "yes"))
        note = self.folder / "noted"
        note.write_text("".join(f"{line}\n" for line in self.noted))
        words: list[str | pathlib.Path] = [
            TOOLS / "seal",
            "check",
            "--journal",
            journal,
            key,
            self.award_path,
            self.log_path,
            note,
        ]
        check("tools/seal check", printed_by(*words), (0, "yes"))
        words = [TOOLS / "journal", journal, "--check", self.award_path, self.log_path, key, posted]
        check("tools/journal --check", printed_by(*words), (0, "yes"))
        done = subprocess.run(["sha256sum", "--check", "--strict", "--quiet", "SHA256SUMS"], cwd=self.set(), text=True)
        check("the sums of the set", done.returncode, 0)
        kept = sorted(path.read_bytes() for path in self.set().iterdir() if path.is_file())
        for path in (self.award_path, self.log_path, cert, key, journal, posted):
            check(f"{path.name} in the set", path.read_bytes() in kept, True)

    def set(self) -> pathlib.Path:
        """The folder of the published set."""
        return self.log_path.with_name("day.log.set")
