"""How the scripts may be called and what ends them: their streams, Ctrl-C, variables, links and broken packages.

No script ends with 1, which means `no`, unless it prints a line `no ..`.
"""

from __future__ import annotations

import contextlib
import os
import pathlib
import shutil
import signal
import subprocess
import sys
import tempfile
import time
import unittest
import unittest.mock

from checks.cases.interrupts import take_interrupts
from checks.cases.samples import EXAMPLES, TOOLS
from cca_tools.__main__ import COMMANDS
from cca_tools.rules.scratch import scratch_folder
from cca_tools.rules.stops import Stop

ROOT = pathlib.Path(TOOLS).resolve().parent
COURT = ["tools/audit", "tools/check", "tools/check-places", "second_proof/audit"]
SCRIPTS = [*COURT, *(f"tools/{name}" for name in COMMANDS), "cca", "trial"]
BOOK, CERT = (os.path.join(EXAMPLES, f"day-cramton.{kind}") for kind in ("book", "cert"))
WHY = [BOOK, CERT]


def script(name: str) -> str:
    """The path of a script."""
    return os.path.realpath(os.path.join(TOOLS, name))


def in_shell(name: str, words: list[str], more: str) -> int:
    """The status of a script that a shell starts with this redirection."""
    line = f'"$0" -E "$@" {more}'
    done = subprocess.run(
        ["sh", "-c", line, sys.executable, script(name), *words],
        stdout=subprocess.DEVNULL,
        stderr=subprocess.DEVNULL,
    )
    return done.returncode


def interrupt_early() -> None:
    """Has Ctrl-C come before the first instruction of a process, which it waits for there."""
    take_interrupts()
    signal.pthread_sigmask(signal.SIG_BLOCK, {signal.SIGINT})
    os.kill(os.getpid(), signal.SIGINT)


def until_it_reads(process: int) -> None:
    """Waits until a process waits for its standard input, by the system call that it is in."""
    end = time.monotonic() + 60
    while not pathlib.Path(f"/proc/{process}/syscall").read_text().startswith("0 0x0 "):
        assert time.monotonic() < end
        time.sleep(0.02)


class Scripts(unittest.TestCase):
    def test_one_text(self) -> None:
        """There is one for each command, and all have one text."""
        texts = {pathlib.Path(script(name)).read_text() for name in COMMANDS}
        self.assertEqual(len(texts), 1)

    def test_standard_error_that_takes_nothing(self) -> None:
        """It changes no status: a fault isn't a verdict."""
        for more in ("2>&-", "2>/dev/full"):
            with self.subTest(more=more):
                self.assertEqual(in_shell("state", ["--help"], more), 0)
                self.assertEqual(in_shell("state", [], more), 2)
            self.assertEqual(in_shell("why", WHY, more), 0)
            self.assertEqual(in_shell("why", [BOOK, "nothing"], more), 4)

    def test_an_output_that_takes_nothing(self) -> None:
        for more in (">&-", ">/dev/full", ">&- 2>&-"):
            self.assertEqual(in_shell("state", ["--version"], more), 5)
            self.assertEqual(in_shell("why", WHY, more), 5)

    def test_an_import_that_fails(self) -> None:
        """Without its package a script ends with 70, also if nobody reads why."""
        with tempfile.TemporaryDirectory() as folder:
            shutil.copy(script("why"), folder)
            for more in ("2>/dev/null", "2>&-", "2>/dev/full"):
                line = f'"$0" -E "$1" {more}'
                done = subprocess.run(["sh", "-c", line, sys.executable, os.path.join(folder, "why")])
                self.assertEqual(done.returncode, 70, more)

    def test_variables(self) -> None:
        """Neither Python's variables nor COLUMNS lead to other files or to a crash."""
        with tempfile.TemporaryDirectory() as folder:
            for name in ("csv", "argparse", "cca_tools", "textwrap"):
                pathlib.Path(folder, f"{name}.py").write_text("raise SystemExit(1)\n")
            for more in (
                {"PYTHONHOME": "/x"},
                {"PYTHONPATH": f":{folder}"},
                {"PYTHONPATH": ""},
                {"COLUMNS": "9" * 5000, "FORCE_COLOR": "1"},
            ):
                with self.subTest(more=more):
                    variables = {**os.environ, **more}
                    done = subprocess.run(
                        [script("why"), *WHY],
                        cwd=folder,
                        env=variables,
                        capture_output=True,
                        text=True,
                    )
                    self.assertEqual((done.returncode, done.stderr), (0, ""))

    def test_another_repository_s_commit(self) -> None:
        """GIT_DIR, which git sets for hooks, names no commit of these tools."""
        said = subprocess.run([script("why"), "--version"], capture_output=True, text=True).stdout
        with tempfile.TemporaryDirectory() as folder:
            who = ["-c", "user.name=Tests", "-c", "user.email=tests@example.org"]
            for words in (
                ["init", "-q"],
                [*who, "commit", "-q", "--allow-empty", "-m", "Other."],
            ):
                subprocess.run(["git", *words], cwd=folder, check=True)
            variables = {**os.environ, "GIT_DIR": os.path.join(folder, ".git")}
            done = subprocess.run(
                [script("why"), "--version"],
                env=variables,
                capture_output=True,
                text=True,
            )
            self.assertEqual(done.stdout, said)

    def test_links(self) -> None:
        """A link to a script, or to such a link, of any name and in any folder."""
        with tempfile.TemporaryDirectory(prefix="fol der 'ü' ") as folder:
            first, second = (os.path.join(folder, name) for name in ("first", "se cond"))
            os.symlink(script("why"), first)
            os.symlink("first", second)
            whole = [os.path.abspath(it) for it in WHY]
            said = subprocess.run([script("why"), *whole], capture_output=True).stdout
            for link in (first, second):
                done = subprocess.run([link, *whole], cwd=folder, capture_output=True)
                self.assertEqual((done.returncode, done.stdout, done.stderr), (0, said, b""))
            os.symlink(script("check-places"), os.path.join(folder, "places"))
            slots, placed = os.path.join(EXAMPLES, "band.slots"), str(ROOT / "second_proof" / "band.cert")
            done = subprocess.run(["./places", slots, placed], cwd=folder, capture_output=True)
            self.assertEqual((done.returncode, done.stdout[:4], done.stderr), (0, b"yes\n", b""))

    def test_every_script_whose_streams_take_nothing(self) -> None:
        for name in SCRIPTS:
            for words, more, status in (
                ("", "2>&-", 2),
                ("", ">/dev/full 2>/dev/full", None),
                ("--help", ">/dev/full", 5),
            ):
                with self.subTest(name=name, more=more):
                    shell = ["sh", "-c", f'"$0" {words} {more}', str(ROOT / name)]
                    done = subprocess.run(shell, stdout=subprocess.DEVNULL, stderr=subprocess.DEVNULL)
                    self.assertIn(done.returncode, (2, 5) if status is None else (status,))

    def test_ctrl_c_before_a_script_begins(self) -> None:
        """Python has it wait, as the first line of the script asks. Then it ends the run with 130, without a word."""
        for name in SCRIPTS:
            with self.subTest(name=name):
                done = subprocess.run(
                    [sys.executable, "-E", ROOT / name, "a", "b", "c"],
                    env={**os.environ, "CCA_PROGRAM": "/bin/false"},
                    capture_output=True,
                    preexec_fn=interrupt_early,
                )
                # (trial says that it is stopped)
                said = done.stderr if name != "trial" else b""
                self.assertEqual((done.returncode, done.stdout, said), (130, b"", b""))

    def test_ctrl_c_at_some_moments(self) -> None:
        """While Python starts too: 130, or the status of a run that had ended."""
        for number, name in enumerate(SCRIPTS):
            with self.subTest(name=name):
                process = subprocess.Popen(
                    [ROOT / name, "--help"],
                    stdout=subprocess.DEVNULL,
                    stderr=subprocess.PIPE,
                    preexec_fn=take_interrupts,
                )
                time.sleep(0.02 * (number % 10))
                process.send_signal(signal.SIGINT)
                said = process.communicate(timeout=60)[1]
                self.assertIn(process.returncode, (0, 130, -signal.SIGINT))
                self.assertEqual(said, b"")

    def test_python_starts_with_ctrl_c_blocked(self) -> None:
        """Where env can't block it Python starts all the same."""
        with tempfile.TemporaryDirectory() as folder:
            python, env = (pathlib.Path(folder, name) for name in ("python3", "env"))
            python.write_text("#!/bin/sh\nexec grep SigBlk /proc/self/status\n")
            python.chmod(0o755)
            variables = {"PATH": f"{folder}:/usr/bin:/bin"}
            for is_old in (False, True):
                if is_old:
                    env.write_text('#!/bin/sh\ncase "$1" in --*) exit 125;; esac\nexec /usr/bin/env "$@"\n')
                    env.chmod(0o755)
                for name in SCRIPTS:
                    with self.subTest(name=name, is_old=is_old):
                        done = subprocess.run([ROOT / name], env=variables, capture_output=True, text=True)
                        is_blocked = int(done.stdout.split()[1], 16) >> signal.SIGINT - 1 & 1
                        self.assertEqual(is_blocked, 0 if is_old else 1)

    def test_a_broken_package(self) -> None:
        """A module that isn't there or is wrong ends a run with 70, however the package is called."""
        with tempfile.TemporaryDirectory() as name:
            folder = pathlib.Path(name)
            shutil.copytree(os.path.join(TOOLS, "cca_tools"), folder / "cca_tools")
            shutil.copy(script("why"), folder)
            for broken, text in (
                ("rules/stops.py", None),
                ("terminal.py", "raise SystemError\n"),
                ("rules/book.py", "("),
            ):
                path = folder / "cca_tools" / broken
                whole = path.read_text()
                path.unlink() if text is None else path.write_text(text)
                for words in ([sys.executable, "-m", "cca_tools", "why"], [str(folder / "why")]):
                    for more in ("2>/dev/null", "2>&-", "2>/dev/full"):
                        with self.subTest(broken=broken, words=words, more=more):
                            done = subprocess.run(["sh", "-c", f'"$0" "$@" {more}', *words, *WHY], cwd=folder)
                            self.assertEqual(done.returncode, 70)
                path.write_text(whole)

    def test_scripts_without_their_modules(self) -> None:
        """`cca`, `trial` and `second_proof/audit`, each in a folder without other files."""
        with tempfile.TemporaryDirectory() as folder:
            for name in ("cca", "trial", "second_proof/audit"):
                shutil.copy(ROOT / name, folder)
                path = os.path.join(folder, os.path.basename(name))
                for more in ("2>/dev/null", "2>&-", "2>/dev/full"):
                    with self.subTest(name=name, more=more):
                        done = subprocess.run(["sh", "-c", f'"$0" win x {more}', path])
                        self.assertEqual(done.returncode, 70)

    def test_ctrl_c(self) -> None:
        """It ends a run with 130 and without a word, here one that waits for its file."""
        for name, words in (
            ("why", ["-", CERT]),
            ("state", ["-", os.path.join(EXAMPLES, "spectrum.log")]),
        ):
            with self.subTest(name=name):
                pipe = subprocess.PIPE
                process = subprocess.Popen(
                    [sys.executable, script(name), *words],
                    stdin=pipe,
                    stdout=pipe,
                    stderr=pipe,
                    preexec_fn=take_interrupts,
                )
                until_it_reads(process.pid)
                process.send_signal(signal.SIGINT)
                out, said = process.communicate(timeout=60)
                self.assertEqual((process.returncode, out, said), (130, b"", b""))


# A program that writes two pages into its last file, and fails as cca does if these have no room.
WRITES = """#!/bin/sh
for file; do :; done
[ "$1" = price ] || exit 3
head -c 8192 /dev/zero 2> /dev/null >> "$2.cert" || { echo "cca: write fault cert"; exit 5; }
"""
# Runs a tool whose TMPDIR has this many pages left.
FULL = """
mount -t tmpfs -o size=64k none "$TMPDIR" || exit 99
head -c $((65536 - 4096 * $1)) /dev/zero > "$TMPDIR/full"
shift
exec "$@"
"""
NAMESPACE = ["unshare", "--mount"] if os.geteuid() == 0 else ["unshare", "--mount", "--map-root-user"]


class TemporaryFiles(unittest.TestCase):
    def ended(self, pages: int, *words: str) -> "subprocess.CompletedProcess[str]":
        """How a tool ends if this many pages are left for its temporary files. Skips a test if nothing can be
        mounted."""
        with tempfile.TemporaryDirectory() as name:
            folder = pathlib.Path(name)
            program, room = folder / "program", folder / "room"
            program.write_text(WRITES)
            program.chmod(0o755)
            room.mkdir()
            variables = {**os.environ, "CCA_PROGRAM": str(program), "TMPDIR": str(room)}
            done = subprocess.run(
                [*NAMESPACE, "sh", "-c", FULL, "sh", str(pages), *words], env=variables, capture_output=True, text=True
            )
        if done.returncode in (1, 99):
            self.skipTest("this machine allows no mount in a namespace")
        return done

    def test_a_full_disk(self) -> None:
        """The disk is full when the book is written, or when the program writes its certificate."""
        for pages in (1, 2):
            with self.subTest(pages=pages):
                done = self.ended(pages, script("report"), BOOK)
                self.assertEqual((done.returncode, done.stdout), (70, ""))
                self.assertEqual(done.stderr.splitlines()[0], "tools/report: cca: stopped")
                self.assertRegex(
                    done.stderr, r"Temporary files can't be written: .*; make room there, or set TMPDIR to a "
                )
                self.assertNotIn("Traceback", done.stderr)
        self.assertEqual(self.ended(8, script("report"), BOOK).returncode, 0)

    def test_no_place_at_all(self) -> None:
        with unittest.mock.patch("tempfile.gettempdir", side_effect=FileNotFoundError(2, "No usable folder")):
            with self.assertRaises(Stop) as caught, scratch_folder():
                self.fail()
        self.assertEqual(caught.exception.status, 70)
        self.assertIn("No usable folder; make room there, or set TMPDIR", caught.exception.why)

    def test_an_interrupt_as_the_folder_is_made(self) -> None:
        """Ctrl-C comes before the call that makes the folder returns: nothing is left."""
        make = os.mkdir

        def interrupted(*words: object, **more: object) -> None:
            make(*words, **more)  # type: ignore[arg-type]
            raise KeyboardInterrupt

        with tempfile.TemporaryDirectory() as room, unittest.mock.patch("tempfile.tempdir", room):
            with unittest.mock.patch("os.mkdir", interrupted):
                with self.assertRaises(KeyboardInterrupt), scratch_folder():
                    self.fail()
            self.assertEqual(os.listdir(room), [])

    def test_a_folder_that_cannot_be_read_again(self) -> None:
        """A folder that can't be opened, read or removed stays, and no error is raised."""
        for call in ("open", "lstat", "scandir", "unlink", "rmdir"):
            with self.subTest(call=call), tempfile.TemporaryDirectory() as room:
                with contextlib.ExitStack() as refusing, unittest.mock.patch("tempfile.tempdir", room):
                    with scratch_folder() as folder:
                        (folder / "book").write_bytes(b"book 1\n")
                        refused = PermissionError(13, "Permission denied")
                        refusing.enter_context(unittest.mock.patch(f"os.{call}", side_effect=refused))
                self.assertEqual(os.listdir(room), [folder.name])


if __name__ == "__main__":
    unittest.main()
