"""What tools do where the system fails: their status, their sentence, and their files."""

from __future__ import annotations

import contextlib
import os
import pathlib
import resource
import shutil
import subprocess
import sys
import tempfile
import unittest
import unittest.mock
from collections.abc import Callable

from checks.cases import attacks
from checks.cases.program import with_program
from checks.cases.samples import EXAMPLES, TOOLS, called, taking
from cca_tools.interrupts import reason
from cca_tools.rules.publication import write_set
from cca_tools.rules.stops import Stop
from cca_tools.studies.store import replace

AWARD, LOG, CERT = (os.path.join(EXAMPLES, f"spectrum.{kind}") for kind in ("award", "log", "cert"))
BOOK = os.path.join(EXAMPLES, "day-cramton.book")
EIO = OSError(5, "Input/output error", "a.file")


def limited(count: int) -> Callable[[], None]:
    """Keeps a process from writing a file of more than this many bytes."""
    return lambda: resource.setrlimit(resource.RLIMIT_FSIZE, (count, count))


class Folder(unittest.TestCase):
    """A folder of its own for each test."""

    def setUp(self) -> None:
        """Makes it."""
        self.folder = pathlib.Path(tempfile.mkdtemp())
        self.addCleanup(shutil.rmtree, self.folder)

    def script(self, name: str) -> pathlib.Path:
        """A script with a package of its own, without compiled modules of Python."""
        shutil.copytree(
            os.path.join(TOOLS, "cca_tools"),
            self.folder / "cca_tools",
            ignore=shutil.ignore_patterns("__pycache__"),
            dirs_exist_ok=True,
        )
        return pathlib.Path(shutil.copy(os.path.join(TOOLS, name), self.folder))

    def names(self) -> list[str]:
        """The names in the folder."""
        return sorted(os.listdir(self.folder))


class Modules(Folder):
    """What Python keeps of the package, and modules that can't be had."""

    def test_a_limit_of_file_size(self) -> None:
        """No run leaves a part of a module, which later runs would read."""
        why = self.script("why")
        for limit in (4096, resource.RLIM_INFINITY):
            done = subprocess.run(
                [sys.executable, "-E", why, BOOK, BOOK.replace(".book", ".cert")],
                stdout=subprocess.PIPE,
                stderr=subprocess.PIPE,
                preexec_fn=limited(limit),
            )
            self.assertEqual((done.returncode, done.stderr), (0, b""))
        self.assertEqual(list(self.folder.rglob("*.pyc")), [])

    def test_a_part_of_a_module(self) -> None:
        """A module that another Python has kept in part is named with its remedy."""
        why = self.script("why")
        subprocess.run([sys.executable, "-m", "compileall", "-q", self.folder / "cca_tools"], check=True)
        for kept in self.folder.rglob("stops.*.pyc"):
            os.truncate(kept, 100)
        done = subprocess.run([sys.executable, "-E", why, BOOK], capture_output=True, text=True)
        told = "can't start, so this is no answer: a module isn't whole: remove the folders __pycache__ of cca_tools\n"
        self.assertEqual((done.returncode, done.stdout, done.stderr), (70, "", f"{why} {told}"))

    def test_a_missing_module(self) -> None:
        """It is named in a sentence, however the package is called."""
        why = self.script("why")
        (self.folder / "cca_tools" / "terminal.py").unlink()
        for words in ([str(why)], [sys.executable, "-m", "cca_tools", "why"]):
            done = subprocess.run([*words, BOOK], cwd=self.folder, capture_output=True, text=True)
            self.assertEqual((done.returncode, done.stdout), (70, ""))
            told = "can't start, so this is no answer: No module named 'cca_tools.terminal'\n"
            self.assertEqual(done.stderr.partition(" ")[2], told)


class Sentences(Folder):
    """A fault of the system is a sentence and status 70, and no traceback."""

    def test_reasons(self) -> None:
        """Faults of the system have a reason, and all others none."""
        self.assertEqual(reason(EIO), "a.file: Input/output error")
        self.assertEqual(reason(OSError(24, "Too many open files")), "the system: Too many open files")
        self.assertEqual(reason(RuntimeError("can't start new thread")), "can't start new thread")
        self.assertEqual(reason(MemoryError()), "too little memory")
        for fault in (ValueError("x"), RuntimeError("x"), KeyError("x")):
            self.assertEqual(reason(fault), "")

    def test_a_fault_of_the_system(self) -> None:
        """It is distinguished from a fault of the tool."""
        for fault, line in (
            (
                EIO,
                f"tools/why: cca: stopped\nThis can't be had: {reason(EIO)}. Without it there is no answer.\n",
            ),
            (ValueError("x"), None),
        ):
            with unittest.mock.patch("cca_tools.commands.why.load", side_effect=fault):
                printed, status, said = called("why", BOOK, BOOK.replace(".book", ".cert"))
            self.assertEqual((printed, status), ("", 70))
            self.assertEqual(said, line or said)
            self.assertEqual("Traceback" in said, line is None)

    def test_an_output_that_is_full(self) -> None:
        """It is named, unless the reader is gone."""
        line = '"$0" "$1" "$2" > /dev/full'
        words = [os.path.join(TOOLS, "why"), BOOK, BOOK.replace(".book", ".cert")]
        done = subprocess.run(["sh", "-c", line, *words], capture_output=True, text=True)
        told = "tools/why: the output isn't whole, since it can't be written: No space left on device.\n"
        self.assertEqual((done.returncode, done.stderr), (5, told))
        with subprocess.Popen(words, stdout=subprocess.PIPE, stderr=subprocess.PIPE) as process:
            assert process.stdout and process.stderr
            process.stdout.close()
            self.assertEqual((process.stderr.read(), process.wait()), (b"", 5))


class NoVerdict(Folder):
    """Status 1 is only for verdicts."""

    def test_a_program_that_says_nothing(self) -> None:
        """A program that ends with 1 and says nothing isn't cca, and says no to nothing."""
        folder = str(self.folder / "set")
        for name, words in (
            ("prices", [BOOK]),
            ("price", [BOOK, str(self.folder / "cert")]),
            ("publish", [AWARD, LOG, CERT, folder]),
        ):
            with self.subTest(name=name):
                printed, status, said = called(name, *words, CCA_PROGRAM="/bin/false")
                self.assertEqual(status, 70)
                self.assertIn("status 1", said)
        self.assertEqual(self.names(), [])

    @with_program
    def test_a_report_says_no(self) -> None:
        """The line `no ..` of a report is on standard error, since its page is on standard output."""
        cert = self.folder / "cert"
        cert.write_text(pathlib.Path(BOOK.replace(".book", ".cert")).read_text().replace("pay 17 15", "pay 16 16"))
        printed, status, said = called("report", BOOK, str(cert))
        self.assertEqual((status, said), (1, "no C8 2\n"))
        self.assertIn("no C8 2", printed)

    def test_a_kept_file_that_cannot_be_read(self) -> None:
        """It says nothing about the record."""
        files = attacks.told(attacks.honest())
        names = attacks.write(str(self.folder), files)
        four = [names[kind] for kind in ("award", "log", "key", "posted")]
        with unittest.mock.patch("cca_tools.desk.disk.os.pread", side_effect=EIO), self.assertRaises(Stop) as caught:
            taking("journal")([names["journal"], "--check", *four])
        self.assertEqual((caught.exception.line, caught.exception.status), ("cca: read fault kept", 4))
        self.assertRegex(caught.exception.why, r"day.log.cut-\d can't be read: Input/output error$")


class Files(Folder):
    """New files are whole or not there."""

    def test_a_key(self) -> None:
        """A key that can't be written or synced isn't there, so that the next call makes one."""
        key = self.folder / "key"
        for call in ("os.write", "os.fsync"):
            with unittest.mock.patch(f"cca_tools.desk.disk.{call}", side_effect=EIO), self.assertRaises(Stop) as caught:
                taking("seal")(["new", str(key), AWARD])
            self.assertEqual((caught.exception.line, caught.exception.status), ("cca: write fault key", 5))
            self.assertEqual(self.names(), [])
        taking("seal")(["new", str(key), AWARD])
        self.assertEqual((key.stat().st_size, key.stat().st_mode & 0o777), (65, 0o600))

    def test_posted_lines(self) -> None:
        """A part of new lines that a full disk took is cut off again, so that the next call adds them all."""
        key, posted = self.folder / "key", self.folder / "posted"
        taking("seal")(["new", str(key), AWARD])
        words = [os.path.join(TOOLS, "seal"), "sum", str(key), AWARD, LOG, str(posted)]
        done = subprocess.run(words, capture_output=True, text=True, preexec_fn=limited(300))
        self.assertEqual((done.returncode, done.stdout, posted.read_bytes()), (5, "", b""))
        self.assertIn(f"Nothing was written to `{posted}`: ", done.stderr)
        self.assertEqual(subprocess.run(words, capture_output=True).returncode, 0)
        self.assertEqual(subprocess.run(words, capture_output=True).stdout, b"nothing is due\n")

    def test_a_set(self) -> None:
        """Ctrl-C and a full disk leave nothing of a set."""
        for fault in (KeyboardInterrupt(), OSError(28, "No space left on device")):
            with contextlib.ExitStack() as block:
                block.enter_context(self.assertRaises((KeyboardInterrupt, Stop)))
                block.enter_context(unittest.mock.patch("os.rename", side_effect=fault))
                write_set(str(self.folder / "set"), {"a": b"1", "tables/b": b"2"})
            self.assertEqual(self.names(), [])
        write_set(str(self.folder / "set"), {"a": b"1", "tables/b": b"2"})
        self.assertEqual(self.names(), ["set"])

    def test_a_table_of_a_study(self) -> None:
        """The old one stays until the new one is whole."""
        path = self.folder / "table.csv"
        replace(path, b"old\n")
        for call in ("pathlib.Path.write_bytes", "os.replace"):
            with unittest.mock.patch(call, side_effect=EIO), self.assertRaises(OSError):
                replace(path, b"new\n")
            self.assertEqual((self.names(), path.read_bytes()), (["table.csv"], b"old\n"))
        replace(path, b"new\n")
        self.assertEqual((self.names(), path.read_bytes()), (["table.csv"], b"new\n"))


if __name__ == "__main__":
    unittest.main()
