"""The desk's log on the disk: what is written, refused, cut and mended, after kills and by two processes at once."""

from __future__ import annotations

import contextlib
import fcntl
import hashlib
import json
import os
import pathlib
import random
import resource
import sys
import tempfile
import unittest
import unittest.mock
from collections.abc import Callable, Iterable, Iterator
from typing import Any, ParamSpec

from checks.cases import desk_kills
from checks.cases.desk_kills import FIRST, PINS, SECOND, THIRD, Ended, Scene, kept_beside, ok

from cca_tools.desk import disk
from cca_tools.desk.faults import Mend, Stop
from cca_tools.desk.journal import Journal, replayed
from cca_tools.desk.logfile import Base, Busy, Grown, LogFile, Refused, Unsure, warnings_of

MENDS: set[Mend] = {"take back", "end line", "cut again", "keep changed log", "restart", "none"}
Given = ParamSpec("Given")
TRACES = desk_kills.can_trace()
if not TRACES:
    print(desk_kills.UNTRACED, file=sys.stderr)
with_strace = unittest.skipUnless(TRACES, desk_kills.UNTRACED)


def never(wanted: bytes) -> list[str]:
    """A check that nothing may reach."""
    raise AssertionError("nothing may be checked, and so written")


class Case(unittest.TestCase):
    def setUp(self) -> None:
        folder = tempfile.TemporaryDirectory()
        self.addCleanup(folder.cleanup)
        self.folder = pathlib.Path(folder.name)
        self.path = self.folder / "a.log"

    def beside(self, kind: str) -> pathlib.Path:
        """A file in the log's folder."""
        return self.folder / f"a.log.{kind}"

    def open(self, copies: pathlib.Path | None = None, **pins: str) -> LogFile:
        """A desk's log at the path of the test."""
        return LogFile(self.path, {**PINS, **pins}, copies)

    def write(self, log: LogFile, *lines: bytes) -> None:
        """Writes lines one by one."""
        for line in lines:
            log.append(log.base(log.read()), line, ok)

    def add(self, data: bytes) -> None:
        """Writes onto the log by hand."""
        with self.path.open("ab") as file:
            file.write(data)

    def entries(self) -> list[dict[str, Any]]:
        """The lines of the journal, as JSON has them."""
        return [json.loads(line) for line in self.beside("desk").read_bytes().splitlines()]

    def refused(
        self,
        fault: type[Exception],
        words: str,
        run: Callable[Given, object],
        *given: Given.args,
        **named: Given.kwargs,
    ) -> None:
        """A call is refused with this message, and changes no file."""
        before = self.files()
        with self.assertRaisesRegex(fault, words):
            run(*given, **named)
        self.assertEqual(self.files(), before)

    def files(self) -> dict[str, bytes]:
        """The files of the folder, and what is in them."""
        return {file.name: file.read_bytes() for file in self.folder.iterdir() if file.is_file()}

    def stopped(self, log: LogFile) -> Stop:
        """Why the log can't be written; the test fails if it can."""
        stop = log.stop()
        assert stop, "the log can be written"
        return stop

    def is_whole(self, log: LogFile, wanted: bytes) -> None:
        """The log is the one that is wanted, and its journal leads to it."""
        self.assertIsNone(log.stop())
        self.assertEqual(log.read(), wanted)
        self.assertEqual(replayed(Journal(self.beside("desk")).entries()), wanted)


class Lines(Case):
    def test_a_line(self) -> None:
        """The log has it, and the journal its time, length, sum, text and replies."""
        log, check = self.open(), unittest.mock.Mock(return_value=["1 ok"])
        written = log.append(log.base(b""), FIRST, check)
        self.assertEqual((written.log, written.was_there), (FIRST, False))
        check.assert_called_once_with(FIRST)
        self.is_whole(log, FIRST)
        last = self.entries()[-1]
        self.assertEqual((last["bytes"], last["sum"]), (len(FIRST), hashlib.sha256(FIRST).hexdigest()))
        self.assertEqual((last["text"], last["replies"]), (FIRST.decode(), ["1 ok"]))
        self.assertEqual(
            [(what, length) for _, what, length in log.answered_at()], [("begun", 0), ("line", len(FIRST))]
        )

    def test_sent_twice(self) -> None:
        """A double click: written once, also by another desk, also after other lines."""
        log, other = self.open(), self.open()
        base = log.base(b"")
        log.append(base, FIRST, ok)
        for desk in (log, other):
            written = desk.append(base, FIRST, never)
            self.assertEqual((written.was_there, written.log), (True, FIRST))
        self.write(log, SECOND)
        self.assertTrue(log.append(base, FIRST, never).was_there)
        self.is_whole(log, FIRST + SECOND)
        self.write(log, SECOND)  # (on a new page the same line is another one)
        self.is_whole(log, FIRST + SECOND + SECOND)

    def test_grown(self) -> None:
        log = self.open()
        base = log.base(b"")
        self.write(log, FIRST)
        self.refused(Grown, "has grown", log.append, base, SECOND, never)

    def test_a_check_that_refuses(self) -> None:
        log = self.open()

        def check(wanted: bytes) -> list[str]:
            raise Refused("The words don't fit.")

        self.refused(Refused, "The words", log.append, log.base(b""), FIRST, check)
        self.write(log, SECOND)

    def test_bases(self) -> None:
        log = self.open()
        base = log.base(b"")
        self.assertEqual(Base.of(base.text()), base)
        for text in ("", "x", base.text() + "0", base.text().upper() + "\n", base.text().replace(".0.", ".-1.")):
            with self.assertRaisesRegex(Refused, "Load|load"):
                Base.of(text)
        for other in (Base(base.epoch, 1, base.sum), Base(base.epoch, 0, "0" * 64), Base("0" * 16, 0, base.sum)):
            self.refused(Refused, "Nothing was written", log.append, other, FIRST, never)
        self.refused(Refused, "line feed", log.append, base, FIRST[:-1], never)

    def test_the_lock(self) -> None:
        log = self.open()
        self.write(log, FIRST)
        with open(self.path, "rb") as file, unittest.mock.patch.object(disk, "WAIT", 0.05):
            fcntl.flock(file, fcntl.LOCK_EX)
            self.refused(Busy, "Another program holds", log.append, log.base(FIRST), SECOND, never)
            self.assertIsNone(log.stop())
            self.assertEqual(log.read(), FIRST)
        self.write(log, SECOND)

    def test_an_editor_renames_before_a_write(self) -> None:
        """A new file with the noted lines and one more: it is the log, and its line is found."""
        log = self.open()
        self.write(log, FIRST)
        base = log.base(FIRST)
        (self.folder / "new").write_bytes(FIRST + THIRD)
        os.rename(self.folder / "new", self.path)
        self.refused(Grown, "has grown", log.append, base, SECOND, never)
        self.assertEqual((log.note_found(), log.note_found()), (1, 0))
        self.is_whole(log, FIRST + THIRD)

    def test_an_editor_renames_within_a_write(self) -> None:
        log = self.open()
        self.write(log, FIRST)

        def check(wanted: bytes) -> list[str]:
            (self.folder / "new").write_bytes(FIRST)
            os.rename(self.folder / "new", self.path)
            return ["ok"]

        with self.assertRaisesRegex(Unsure, "Another|another file"):
            log.append(log.base(FIRST), SECOND, check)
        self.assertEqual(self.stopped(log).mend, "restart")
        self.refused(Refused, "Nothing was written", log.append, log.base(FIRST), SECOND, never)
        log.mend("restart", "an editor")
        self.write(log, SECOND)
        self.is_whole(log, FIRST + SECOND)

    def test_a_writer_without_the_lock(self) -> None:
        log = self.open()

        def check(wanted: bytes) -> list[str]:
            self.add(THIRD)
            return ["ok"]

        with self.assertRaisesRegex(Unsure, "without asking for the lock"):
            log.append(log.base(b""), FIRST, check)
        log.mend("restart", "another program")
        self.is_whole(log, THIRD + FIRST)


class Starts(Case):
    def test_files(self) -> None:
        log = self.open()
        self.assertEqual(set(self.files()), {"a.log", "a.log.desk", "a.log.key", "a.log.posted"})
        for file in self.folder.iterdir():
            self.assertEqual(file.stat().st_mode & 0o777, 0o600)
        self.assertRegex(log.key, rb"\A[0-9a-f]{64}\n\Z")
        first = self.entries()[0]
        self.assertEqual((first["pins"], first["key"]), (PINS, hashlib.sha256(log.key).hexdigest()))
        self.assertEqual(self.open().key, log.key)

    def test_pins(self) -> None:
        self.write(self.open(), FIRST)
        self.refused(Refused, "The award isn't the one", lambda: self.open(award="c" * 64))
        self.refused(Refused, "The program isn't the one", lambda: self.open(program="c" * 64))
        self.is_whole(self.open(), FIRST)

    def test_found(self) -> None:
        """Lines of before the first start, and of another hand while it runs."""
        self.path.write_bytes(FIRST + SECOND)
        log = self.open()
        self.assertEqual((log.note_found(), log.note_found()), (2, 0))
        self.add(THIRD)
        self.assertEqual(log.note_found(), 1)
        self.is_whole(log, FIRST + SECOND + THIRD)
        self.assertEqual([what for _, what, _ in log.answered_at()], ["begun", "found", "found"])

    def test_what_the_disk_may_not_have_is_written_again(self) -> None:
        """A start writes the newest entry and the lines that never had a reply again, over themselves."""
        self.write(self.open(), FIRST)
        self.add(SECOND)
        entry = self.beside("desk").read_bytes().splitlines(True)[-1]
        for torn in (b"", b"{"):
            with open(self.beside("desk"), "ab") as file:
                file.write(torn)
            with unittest.mock.patch.object(os, "pwrite", wraps=os.pwrite) as pwrite:
                self.is_whole(self.open(), FIRST + SECOND)
            written = [call.args[1] for call in pwrite.call_args_list if not call.args[1].startswith(b"cca posted")]
            self.assertEqual(written, [entry + torn, SECOND] if not torn else [entry + torn])
            entry = self.beside("desk").read_bytes().splitlines(True)[-1]

    def test_no_locks(self) -> None:
        with unittest.mock.patch.object(fcntl, "flock"):
            with self.assertRaisesRegex(Refused, "Locks don't work"):
                self.open()
        with unittest.mock.patch.object(fcntl, "flock", side_effect=OSError(37, "No locks available")):
            with self.assertRaisesRegex(Refused, "No locks available"):
                self.open()

    def test_links(self) -> None:
        """Nothing is read or written through a link that is in the place of a file."""
        self.write(self.open(), FIRST)
        for name in ("a.log", "a.log.desk", "a.log.key"):
            with self.subTest(name=name):
                file, target = self.folder / name, self.folder / "elsewhere"
                log = self.open()
                os.rename(file, target)
                os.symlink(target, file)
                self.refused(Refused, "is a link", self.open)
                self.assertEqual(self.stopped(log).mend, "none")
                self.refused(Refused, "is a link", log.append, Base("0" * 16, 0, "0" * 64), SECOND, never)
                os.rename(target, file)
        os.remove(self.path)
        os.mkfifo(self.path)
        with self.assertRaisesRegex(Refused, "no regular file"):
            self.open()

    def test_the_key(self) -> None:
        log = self.open()
        self.write(log, FIRST)
        key = self.beside("key")
        for left in (None, b"", log.key[:40], b"0" * 64 + b"\n"):
            with self.subTest(left=left):
                key.unlink()
                if left is not None:
                    key.write_bytes(left)
                self.refused(Refused, "Put its copy back", self.open)
                # the desk that runs has it, and writes it again
                self.assertEqual(self.stopped(log).mend, "restart")
                self.refused(Refused, "Nothing was written", log.append, log.base(FIRST), SECOND, never)
                log.mend("restart", "the key was lost")
                self.assertEqual(key.read_bytes(), log.key)
                self.is_whole(log, FIRST)
        kept = kept_beside(self.path)
        self.assertLessEqual({b"", log.key[:40], b"0" * 64 + b"\n"}, set(kept.values()))

    def test_a_short_key_before_the_first_start(self) -> None:
        self.beside("key").write_bytes(b"12\n")
        with self.assertRaisesRegex(Refused, "is no key"):
            self.open()

    def test_another_file_in_the_place_of_the_journal(self) -> None:
        self.beside("desk").write_bytes(b"something else\n")
        with self.assertRaisesRegex(Refused, "no journal"):
            self.open()
        self.assertEqual(self.beside("desk").read_bytes(), b"something else\n")
        self.beside("desk").write_bytes(b"")
        self.is_whole(self.open(), b"")

    def test_a_journal_that_was_changed(self) -> None:
        log = self.open()
        self.write(log, FIRST, SECOND)
        text = self.beside("desk").read_bytes()
        self.beside("desk").write_bytes(text.replace(b"east,1 0", b"east,2 0"))
        self.refused(Refused, "journal was changed by hand: its line 3", self.open)
        self.beside("desk").write_bytes(text)
        self.is_whole(self.open(), FIRST + SECOND)

    def test_a_journal_that_is_lost(self) -> None:
        log = self.open()
        self.write(log, FIRST)
        base = log.base(FIRST)
        self.beside("desk").unlink()
        self.assertEqual(self.stopped(log).mend, "restart")
        log.mend("restart", "the journal was lost")
        self.assertEqual(log.note_found(), 1)
        self.refused(Refused, "held again", log.append, base, SECOND, never)
        self.is_whole(log, FIRST)

    def test_a_log_that_is_lost(self) -> None:
        """It is written from the journal, by the desk that runs and by a new one."""
        log = self.open()
        self.write(log, FIRST, SECOND)
        log.cut(log.base(log.read()), len(FIRST), "a slip")
        self.write(log, THIRD)
        self.path.unlink()
        self.assertEqual(self.stopped(log).mend, "restart")
        log.mend("restart", "lost")
        self.is_whole(log, FIRST + THIRD)
        self.path.unlink()
        self.assertEqual(self.stopped(log).mend, "restart")
        self.open()
        self.is_whole(log, FIRST + THIRD)

    def test_warnings(self) -> None:
        self.open()
        self.folder.chmod(0o700)
        self.assertEqual(warnings_of(self.path), [])
        self.folder.chmod(0o770)
        self.path.chmod(0o644)
        found = warnings_of(self.path, self.folder)
        self.assertEqual(len(found), 3)
        self.assertIn("Others may put files into", found[0])
        self.assertIn("Others may read or change a.log.", found[2])


class Mends(Case):
    """Each stop with its repair."""

    def mended(self, log: LogFile, mend: Mend, wanted: bytes) -> Stop:
        """The stop names this repair, nothing is written before it, and it works; the journal names what is kept."""
        stop = self.stopped(log)
        self.assertTrue(stop.allows(mend), stop)
        self.assertTrue(stop.why and stop.safe and stop.todo)
        self.refused(Refused, "Nothing was written", log.append, log.base(b""), SECOND, never)
        self.refused(Refused, "Nothing was written", log.cut, log.base(b""), 0, "why")
        for other in MENDS - {mend}:
            if not stop.allows(other):
                self.refused(Refused, "this fault", log.mend, other, "why")
        before = kept_beside(self.path)
        log.mend(mend, "the reason")
        self.is_whole(log, wanted)
        new = set(kept_beside(self.path)) - set(before)
        last = [it for it in self.entries() if it.get("why") == "the reason"][-1]
        self.assertEqual(new, set(last.get("kept", [])))
        self.refused(Refused, "this fault", log.mend, mend, "again")
        self.write(log, SECOND)
        self.is_whole(log, wanted + SECOND)
        return stop

    def torn(self, tail: bytes) -> LogFile:
        """A log that ends with something without a line feed."""
        log = self.open()
        self.write(log, FIRST)
        self.add(tail)
        self.assertEqual(log.note_found(), 0)
        return log

    def test_a_torn_line_is_taken_back(self) -> None:
        stop = self.mended(self.torn(b"bid,we"), "take back", FIRST)
        self.assertIn("`bid,we`", stop.why)
        self.assertEqual(kept_beside(self.path), {"a.log.torn-1": b"bid,we"})

    def test_a_torn_line_after_found_ones(self) -> None:
        self.mended(self.torn(SECOND + b"clo"), "take back", FIRST + SECOND)

    def test_a_torn_line_is_ended(self) -> None:
        self.mended(self.torn(b"bid,west,0 2,"), "end line", FIRST + b"bid,west,0 2,\n")

    def test_a_line_feed_that_is_gone(self) -> None:
        log = self.open()
        self.write(log, FIRST)
        self.path.write_bytes(FIRST[:-1])
        self.assertEqual(self.stopped(log).mend, "end line")
        self.mended(log, "end line", FIRST)

    def test_a_changed_log(self) -> None:
        log = self.open()
        self.write(log, FIRST, SECOND, THIRD)
        old, changed = log.base(FIRST), FIRST + SECOND.replace(b"1", b"2") + THIRD
        self.path.write_bytes(changed)
        stop = self.mended(log, "keep changed log", changed)
        self.assertIn(f"from byte {len(FIRST) + 11} on, in line 2", stop.why)
        self.assertIn([at for at, _, length in log.answered_at() if length == len(FIRST + SECOND)][0], stop.why)
        self.assertEqual(set(kept_beside(self.path).values()), {changed, FIRST + SECOND + THIRD})
        self.refused(Refused, "held again", log.append, old, SECOND, never)

    def test_lines_taken_away_by_hand(self) -> None:
        log = self.open()
        self.write(log, FIRST, SECOND)
        self.path.write_bytes(FIRST)
        self.mended(log, "keep changed log", FIRST)

    def test_a_change_that_is_put_back(self) -> None:
        log = self.open()
        self.write(log, FIRST)
        self.path.write_bytes(SECOND)
        self.assertIn("from byte 4 on, in line 1", self.stopped(log).why)
        self.path.write_bytes(FIRST)
        self.is_whole(log, FIRST)

    def test_a_changed_log_with_a_torn_line(self) -> None:
        log = self.open()
        self.write(log, FIRST)
        self.path.write_bytes(SECOND + b"clo")
        log.mend("keep changed log", "first")
        self.mended(log, "take back", SECOND)

    def test_a_cut_that_was_begun(self) -> None:
        log = self.open()
        self.write(log, FIRST, THIRD)
        with unittest.mock.patch.object(disk, "shorten", side_effect=KeyboardInterrupt):
            with self.assertRaises(KeyboardInterrupt):
                log.cut(log.base(log.read()), len(FIRST), "doubled")
        stop = self.mended(self.open(), "cut again", FIRST)
        self.assertIn("a.log.cut-1 has a copy", stop.safe)
        self.assertEqual(set(kept_beside(self.path).values()), {FIRST + THIRD})

    def test_a_torn_line_of_the_journal(self) -> None:
        """It is ignored, and stays, even if only its line feed is missing."""
        log = self.open()
        self.write(log, FIRST)
        before = self.beside("desk").read_bytes()
        for entry in (before.splitlines()[-1], before.splitlines()[-1][:40], b"{"):
            self.beside("desk").write_bytes(before + entry)
            self.is_whole(log, FIRST)
            self.write(log, SECOND)
            self.is_whole(self.open(), FIRST + SECOND)
            self.assertIn(entry, self.beside("desk").read_bytes()[len(before) :])
            self.beside("desk").write_bytes(before)
            self.path.write_bytes(FIRST)


class Cuts(Case):
    def test_a_cut(self) -> None:
        log = self.open()
        self.write(log, FIRST, THIRD)
        page, base = log.base(FIRST), log.base(FIRST + THIRD)
        self.write(log, THIRD)
        self.refused(Grown, "Nothing was cut", log.cut, base, len(FIRST), "doubled")
        base = log.base(log.read())
        for length in (-1, 3, len(FIRST) - 1, base.length, base.length + 1):
            self.refused(Refused, "no line to cut", log.cut, base, length, "doubled")
        kept = log.cut(base, len(FIRST + THIRD), "doubled")
        self.assertEqual((kept.name, kept.read_bytes()), ("a.log.cut-1", FIRST + THIRD + THIRD))
        self.is_whole(log, FIRST + THIRD)
        # a page of before the cut fits the log to the byte, and its epoch doesn't
        for old in (page, base, Base(base.epoch, len(FIRST + THIRD), log.base(FIRST + THIRD).sum)):
            self.refused(Refused, "held again", log.append, old, THIRD, never)
        [noted] = [it for it in self.entries() if it["what"] == "cut"]
        self.assertEqual(
            (noted["why"], noted["kept"], noted["bytes"]), ("doubled", ["a.log.cut-1"], len(FIRST + THIRD))
        )
        self.assertEqual(log.cut(log.base(log.read()), 0, "all").name, "a.log.cut-2")
        self.is_whole(log, b"")

    def test_the_cut_lines_come_again(self) -> None:
        """The log then is as it was before the cut, which was ended all the same."""
        log = self.open()
        self.write(log, FIRST, THIRD)
        log.cut(log.base(log.read()), len(FIRST), "doubled")
        self.add(THIRD)
        self.assertEqual(log.note_found(), 1)
        self.is_whole(log, FIRST + THIRD)

    def test_copies(self) -> None:
        copies = self.folder / "copies"
        self.refused(Refused, "is no folder", self.open, copies)
        copies.mkdir()
        log = self.open(copies)
        self.write(log, FIRST)
        log.copy_out()
        self.assertEqual({it.name: it.read_bytes() for it in copies.iterdir()}, self.files())
        self.write(log, SECOND)
        log.copy_out()
        self.assertEqual({it.name: it.read_bytes() for it in copies.iterdir()}, self.files())
        # a changed log is never copied over a whole one
        self.path.write_bytes(SECOND)
        with self.assertRaisesRegex(Refused, "changed by hand"):
            log.copy_out()
        self.assertEqual((copies / "a.log").read_bytes(), FIRST + SECOND)
        self.path.write_bytes(FIRST + SECOND)
        self.beside("desk").rename(self.folder / "moved")
        self.refused(Refused, "has a copy of it", self.open, copies)

    def test_copies_of_another_auction(self) -> None:
        copies = self.folder / "copies"
        copies.mkdir()
        self.open(copies).copy_out()
        for name in self.files():
            (self.folder / name).unlink()
        LogFile(self.path, PINS)
        self.refused(Refused, "another auction", self.open, copies)
        self.refused(Refused, "folder of the log itself", self.open, self.folder)


@contextlib.contextmanager
def most_bytes(count: int) -> Iterator[None]:
    """No file gets longer than this."""
    before = resource.getrlimit(resource.RLIMIT_FSIZE)
    resource.setrlimit(resource.RLIMIT_FSIZE, (count, before[1]))
    try:
        yield
    finally:
        resource.setrlimit(resource.RLIMIT_FSIZE, before)


class FullDisk(Case):
    def test_a_part_of_a_line(self) -> None:
        """What the disk took is cut off again, and nothing was written."""
        log = self.open()
        self.write(log, FIRST)
        for room in (0, 1, len(SECOND) - 1):
            with most_bytes(len(FIRST) + room):
                self.refused(Refused, "Nothing was written", log.append, log.base(FIRST), SECOND, ok)
            self.is_whole(log, FIRST)
        self.write(log, SECOND)

    def test_the_journal(self) -> None:
        log = self.open()
        self.write(log, FIRST)
        with most_bytes(self.beside("desk").stat().st_size + 20):
            with self.assertRaisesRegex(Unsure, "What was sent is in the log, but the journal"):
                log.append(log.base(FIRST), SECOND, ok)
        self.assertEqual(self.stopped(log).mend, "restart")
        log.mend("restart", "there is room again")
        self.assertEqual(log.note_found(), 1)
        self.is_whole(log, FIRST + SECOND)

    def test_a_copy_of_a_cut(self) -> None:
        log = self.open()
        self.write(log, FIRST, THIRD)
        with most_bytes(len(FIRST)):
            self.refused(Refused, "Nothing was written", log.cut, log.base(log.read()), len(FIRST), "doubled")
        self.is_whole(log, FIRST + THIRD)


@with_strace
class Faults(Case):
    """System calls that fail: of the log, the journal and the folder."""

    @contextlib.contextmanager
    def failing(self, scene: type[Scene], fault: str) -> Iterator[tuple[Scene, Ended]]:
        """A scene whose child met a fault, and what came of the child. What is left is tested afterwards."""
        with desk_kills.staged(scene) as it:
            yield it, desk_kills.traced(it.act, fault)
            it.check()

    def test_a_sync_that_fails_is_unsure_and_not_tried_again(self) -> None:
        cases: list[tuple[type[Scene], int, int]] = [
            (desk_kills.Write, 1, 0),
            (desk_kills.Write, 2, 1),
            (desk_kills.Cut, 3, 1),
            (desk_kills.Cut, 4, 1),
        ]
        for scene, number, entries in cases:
            fault = f"fsync:error=EIO:when={number}"
            with self.subTest(scene=scene.name, number=number), self.failing(scene, fault) as (_, ended):
                self.assertRegex(ended.said, "^Unsure: The disk doesn't say that it keeps")
                self.assertEqual([name for name, _ in ended.calls].count("fsync"), number)
                noted = [words for name, words in ended.calls if name == "write" and r"{\"prev\"" in words]
                self.assertEqual(len(noted), entries)

    def test_a_copy_that_can_t_be_synced(self) -> None:
        """Neither the copy nor its name in the folder: nothing is cut."""
        for number in (1, 2):
            with self.failing(desk_kills.Cut, f"fsync:error=EIO:when={number}") as (it, ended):
                self.assertRegex(ended.said, "^Refused: ")
                self.assertEqual(it.outcome(), "not begun")

    def test_a_first_start_that_can_t_be_synced(self) -> None:
        count = [name for name, _ in desk_kills.calls_of(desk_kills.Start)].count("fsync")
        self.assertEqual(count, 9)
        for number in range(1, count + 1):
            with self.failing(desk_kills.Start, f"fsync:error=EIO:when={number}") as (_, ended):
                self.assertRegex(ended.said, "^(Refused|Unsure): ")

    def test_the_line_that_is_unsure_is_found_at_the_next_start(self) -> None:
        with self.failing(desk_kills.Write, "fsync:error=EIO:when=1") as (it, _):
            log = it.open()
            self.assertEqual((log.note_found(), log.read()), (1, FIRST + SECOND))


@with_strace
class Kills(unittest.TestCase):
    def killed(self, scene: type[Scene], calls: Iterable[tuple[str, int]]) -> set[str]:
        """What is left after a kill at each of these calls."""
        seen: set[str] = set()
        for call, number in calls:
            with self.subTest(scene=scene.name, call=call, number=number):
                seen.add(desk_kills.kill(scene, call, number))
        return seen

    def test_a_write_at_each_call(self) -> None:
        seen = self.killed(desk_kills.Write, desk_kills.numbered(desk_kills.calls_of(desk_kills.Write)))
        self.assertEqual(seen, {"not there", "there, not answered", "answered"})

    def test_a_cut_at_each_call(self) -> None:
        seen = self.killed(desk_kills.Cut, desk_kills.numbered(desk_kills.calls_of(desk_kills.Cut)))
        self.assertEqual(seen, {"not begun", "begun, not ended", "cut"})

    def test_within_a_write(self) -> None:
        """The disk took a part of the line, which isn't cut off any more."""
        self.assertEqual(self.killed(desk_kills.ShortWrite, [("ftruncate", 1)]), {"torn"})

    def test_drawn_calls_of_all_else(self) -> None:
        draw = random.Random(7)
        for scene in desk_kills.SCENES[3:]:
            self.killed(scene, draw.sample(list(desk_kills.numbered(desk_kills.calls_of(scene))), 4))


class Races(unittest.TestCase):
    def test_two_processes(self) -> None:
        racers = desk_kills.Racers()
        self.addCleanup(racers.end)
        for number in range(20):
            desk_kills.race(racers, number % 2 == 0)


if __name__ == "__main__":
    unittest.main()
