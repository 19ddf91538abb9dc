"""Runs of the tools with drawn faults: some of them, and what their judge finds wrong."""

from __future__ import annotations

import concurrent.futures
import pathlib
import subprocess
import sys
import tempfile
import unittest

from checks import edge_tool_runs, traced
from checks.cases.program import PROGRAM, with_program
from checks.edge_tool_runs import NONE, Ended, Room, deviations
from checks.edge_tools import USES, Setting, Use, right_files
from checks.tasks import ROOT
from checks.traced import FOR_EVER, Call, Fault

BEFORE = {"day.book": b"book 1\n"}
WHOLE = Ended(0, b"yes\n", b"", {**BEFORE, "new.cert": b"cert 1\nend\n"}, [], NONE, 1.0)
FAILS = Setting("a call fails once")


def use_of(tool: str) -> Use:
    """The first use of a tool."""
    return next(use for use in USES if use.tool == tool)


def found(setting: Setting, end: Ended, tool: str = "price") -> list[str]:
    """What the judge finds wrong of a run, without numbers and texts."""
    return [line.partition(":")[0] for line in deviations(use_of(tool), setting, WHOLE, end, BEFORE)]


class Judge(unittest.TestCase):
    """Each promise that isn't kept is found, and nothing else is."""

    def test_right_runs(self) -> None:
        """The run as without a fault, one with a sentence, one after Ctrl-C and one that is killed."""
        nothing = WHOLE._replace(printed=b"", files=BEFORE)
        for setting, end in (
            (FAILS, WHOLE),
            (FAILS, nothing._replace(status=5, errors=b"tools/price: cca: write fault cert\n")),
            (Setting("Ctrl-C"), nothing._replace(status=130)),
            (Setting("SIGTERM"), nothing._replace(status=-15, files={**BEFORE, ".new": b""}, scratch=["tmp"])),
            (Setting("full output"), WHOLE._replace(status=5, printed=b"")),
        ):
            with self.subTest(setting=setting, status=end.status):
                self.assertEqual(found(setting, end), [])

    def test_statuses(self) -> None:
        """A rejection without its line, a status that the fault can't lead to, and one without a sentence."""
        files = WHOLE._replace(files=BEFORE, printed=b"")
        for setting, end, told in (
            (FAILS, files._replace(status=1), "status 1, and not one of [0, 4, 5, 6, 70]"),
            (FAILS, files._replace(status=1), "status 1 without a line `no ..`"),
            (FAILS, files._replace(status=3, errors=b"why"), "status 3, and not one of [0, 4, 5, 6, 70]"),
            (FAILS, files._replace(status=70), "status 70 without a word"),
            (Setting("Ctrl-C"), files._replace(status=70, errors=b"why"), "status 70, and not one of [-2, 0, 130]"),
            (Setting("full errors"), files._replace(status=70), "status 70, and not one of [0]"),
            (FAILS, WHOLE._replace(traced=NONE._replace(is_late=True)), "it doesn't end"),
        ):
            with self.subTest(setting=setting, status=end.status):
                self.assertIn(told, found(setting, end))

    def test_words(self) -> None:
        """A traceback, words after Ctrl-C, and another output with status 0."""
        for setting, end, told in (
            (FAILS, WHOLE._replace(status=70, errors=b"x\nTraceback (most recent"), "words of Python"),
            (FAILS, WHOLE._replace(errors=b"Exception ignored in"), "words of Python"),
            (Setting("Ctrl-C"), WHOLE._replace(status=130, errors=b"KeyboardInterrupt\n"), "words after Ctrl-C"),
            (FAILS, WHOLE._replace(printed=b"yes"), "status 0, and another output"),
        ):
            with self.subTest(told=told):
                self.assertIn(told, found(setting, end))

    def test_files(self) -> None:
        """A file that changed or is gone, one that isn't whole, and one that is left."""
        fault = WHOLE._replace(status=5, errors=b"why")
        for files, told in (
            ({"day.book": b"", "new.cert": b"cert 1\nend\n"}, "day.book has changed"),
            ({"new.cert": b"cert 1\nend\n"}, "day.book has changed"),
            ({**BEFORE, "new.cert": b"cert 1\n"}, "new.cert isn't whole"),
            ({**BEFORE, ".new.cert.1": b""}, "left"),
        ):
            with self.subTest(told=told):
                self.assertIn(told, found(FAILS, fault._replace(files=files)))
        self.assertIn("status 0, and not all files", found(FAILS, WHOLE._replace(files=BEFORE)))
        self.assertIn("left in TMPDIR", found(FAILS, WHOLE._replace(scratch=["tmp"])))
        failed = NONE._replace(calls=[Call("unlink", 1, 0, "EIO", -5)])
        self.assertEqual(found(FAILS, WHOLE._replace(scratch=["tmp"], traced=failed)), [])

    def test_files_that_grow(self) -> None:
        """A log that isn't a prefix of the whole one."""
        whole = WHOLE._replace(files={**BEFORE, "new.log": b"close,,,\n"})
        use = use_of("rehearse")
        for text, told in ((b"close", []), (b"clone", ["new.log has no prefix of its text"])):
            end = whole._replace(status=5, errors=b"why", files={**BEFORE, "new.log": text})
            self.assertEqual(list(deviations(use, FAILS, whole, end, BEFORE)), told)


def desks_without_memory(folder: str) -> dict[str, list[str]]:
    """What the judge finds wrong of desks that can return no memory, or get none once their last thread starts."""
    room = Room(pathlib.Path(folder), traced.compiled(pathlib.Path(folder)), right_files(PROGRAM), 60)
    use, wrong = use_of("desk"), {}
    room.fill("")
    whole = edge_tool_runs.ended(room, use, Setting(), ["mmap"])
    for call, first in (("munmap", 1), ("mmap", whole.traced.counts["mmap"])):
        room.fill("")
        setting = Setting("a call fails for ever", (Fault(call, first, FOR_EVER, "ENOMEM"),))
        end = edge_tool_runs.ended(room, use, setting)
        wrong[setting.shown()] = list(deviations(use, setting, whole, end, room.files))
    return wrong


class Runs(unittest.TestCase):
    """Some runs of each gate."""

    @with_program
    def test_a_desk_without_memory_ends_by_itself(self) -> None:
        """No desk ends with SIGABRT, as glibc would end it."""
        with tempfile.TemporaryDirectory() as folder, concurrent.futures.ProcessPoolExecutor(1) as pool:
            for setting, wrong in pool.submit(desks_without_memory, folder).result().items():
                with self.subTest(setting=setting):
                    self.assertEqual(wrong, [])

    @with_program
    def test_runs(self) -> None:
        """None deviates, and the tables count them."""
        words = [sys.executable, str(ROOT / "checks" / "edge_runs"), "--tools", "24", "500"]
        done = subprocess.run(words, capture_output=True, text=True)
        self.assertEqual(done.returncode, 0, done.stdout)
        self.assertRegex(done.stdout, r"(?m)^\| all \| 24 \|.* - \|$")
        self.assertIn("24 runs from seed 500, 0 with a deviation", done.stdout)
        self.assertIn(f"program {PROGRAM}", done.stdout)


if __name__ == "__main__":
    unittest.main()
