"""The script `cca`, over a stand-in for the kit's tool and six small crates: what it builds, its calls of the tool, and
its messages."""

from __future__ import annotations

import hashlib
import os
import pathlib
import re
import shutil
import signal
import subprocess
import sys
import tempfile
import time
import unittest

from checks.cases.interrupts import take_interrupts

ROOT = pathlib.Path(__file__).resolve().parents[2]
USES = {"low": "", "left": "low", "right": "low", "top": "left right", "cca": "top", "more_tests": "top"}
PROGRAM = ["low", "left", "right", "top", "cca"]
KIT = "rattle-kit-0a logic 0123456789abcdef"

# `rt ci`, over crates of one file. One that says `fault` is not proved, one that says `slow` takes a minute, and one
# that says `waits` as long unless there is a file `go`; `dies` makes a program that a signal ends, and `odd` one that
# prints something else than it should. What is proved is kept in the folder `kept`, as the kit does.
TOOL = """#!%s
import hashlib
import pathlib
import sys
import time
kit, root = pathlib.Path(__file__).resolve().parents[1], pathlib.Path.cwd()
def note(file, *words):
    with open(kit / file, "a") as notes:
        print(*words, file=notes)
note("calls", *sys.argv[1:])
lines = [line.split("#")[0].split(":") for line in (root / "crates.txt").read_text().splitlines()]
uses = dict(line for line in lines if len(line) == 2)
text = {name: (root / "crates" / name / "src" / "lib.rt").read_text() for name in uses}
below = lambda name: {name}.union(*map(below, uses[name].split()))
failed = []
def prove(name):
    kept = kit / "kept" / hashlib.sha256(repr(sorted((it, text[it]) for it in below(name))).encode()).hexdigest()
    if kept.exists():
        return print(f"rt: {name} is kept: by an earlier run", flush=True)
    print(f"== {name}", flush=True)
    if "fault" in text[name]:
        print(f"fn {name}::one: proved\\n{root}/crates/{name}/src/lib.rt: error: it is wrong", flush=True)
        print(f"rt: {name} NOT PROVED\\nrt: more", flush=True)
        return failed.append(name)
    note("proved", name)
    for _ in range(600 if text[name] in ("slow", "waits") else 1):
        if text[name] != "waits" or not (kit / "go").exists():
            time.sleep(0.1)
    kept.parent.mkdir(parents=True, exist_ok=True)
    kept.touch()
    print(f"rt: {name} proved", flush=True)
def link():
    made = root / "crates" / "cca" / "out" / "cca"
    made.parent.mkdir(exist_ok=True)
    end = "kill -9 $$" if "dies" in text["cca"] else "exit 3"
    made_of = " ".join(text[it] for it in sorted(below("cca")))
    made.write_text("#!/bin/sh\\necho made of " + made_of + ', with "$@"\\n' + end + "\\n")
    made.chmod(0o755)
found = sorted(str(it.relative_to(root)) for it in root.rglob("*") if not it.is_dir())
(kit / "tree").write_text("\\n".join(found) + "\\n" + str(root))
for name in sorted(uses, key=lambda name: len(below(name))):
    if failed and "slow" not in text[name]:
        print(f"rt: {name} NOT PROVED: its library {failed[0]} failed", flush=True)
    else:
        prove(name)
if not failed:
    link()
if "odd" in text["cca"]:
    failed.append(print("rt: FAILED: cca (run)"))
sys.exit(bool(failed))
""" % (
    sys.executable,
)


class Case(unittest.TestCase):
    def setUp(self) -> None:
        room = tempfile.TemporaryDirectory()
        self.addCleanup(room.cleanup)
        self.root, self.kit = pathlib.Path(room.name) / "ro ot 'ü' $(x)", pathlib.Path(room.name) / "opt" / "kit"
        self.temporary = pathlib.Path(room.name) / "temporary"
        for folder in (self.root / "build", self.root / "docs", self.temporary, self.kit / "bin"):
            folder.mkdir(parents=True)
        for name in ("cca", "VERSION", "build/building.py", "build/usage.py", "docs/FORMATS.md"):
            shutil.copy2(ROOT / name, self.root / name)
        (self.root / "HANDLES").write_text("Handles allowed: none.\n")
        crates = "".join(f"{name}: {low} # .\n" for name, low in USES.items())
        (self.root / "crates.txt").write_text(f"# Crates.\n{crates}")
        for name in USES:
            for part in ("src", "must-fail", "wrong", "data", "out"):
                (self.root / "crates" / name / part).mkdir(parents=True)
            self.write(name, name)
            for part in ("must-fail", "wrong"):
                (self.root / "crates" / name / part / "one.edit").write_text("file: src/lib.rt\n")
        (self.kit / "KIT-ID").write_text(f"{KIT}\n")
        tool = self.kit / "bin" / "rt"
        tool.write_text(TOOL)
        tool.chmod(0o755)
        self.out = self.root / "crates" / "cca" / "out"

    def write(self, name: str, text: str) -> None:
        """Writes this text as the source of a crate."""
        (self.root / "crates" / name / "src" / "lib.rt").write_text(text)

    def begin(self, *words: str, path: str = "", by: str = "cca", **more: str) -> subprocess.Popen[str]:
        """A call of the script, by this path from the folder above."""
        variables = {"PATH": path or f"{self.kit / 'bin'}:/usr/bin:/bin", "TMPDIR": str(self.temporary), **more}
        return subprocess.Popen(
            [sys.executable, "-E", self.root / by, *words],
            env=variables,
            cwd=self.root.parent,
            stdin=subprocess.DEVNULL,
            stdout=subprocess.PIPE,
            stderr=subprocess.PIPE,
            text=True,
            preexec_fn=take_interrupts,
        )

    def call(self, *words: str, path: str = "", by: str = "cca", **more: str) -> tuple[int, str, str]:
        """The status, the standard output and the standard error."""
        process = self.begin(*words, path=path, by=by, **more)
        out, told = process.communicate(timeout=40)
        return process.returncode, out, told

    def noted(self, name: str) -> list[str]:
        """The lines that the tool noted about its calls, or about its proofs, since the last call of this."""
        file = self.kit / name
        lines = file.read_text().splitlines() if file.exists() else []
        file.unlink(missing_ok=True)
        return lines

    def until(self, name: str, line: str) -> None:
        """Waits until the tool has noted the line."""
        end = time.monotonic() + 20
        while not (self.kit / name).exists() or line not in (self.kit / name).read_text().splitlines():
            self.assertLess(time.monotonic(), end, f"no {line} in {name}")
            time.sleep(0.05)

    def named(self, told: str) -> list[str]:
        """The crates that were named, each as often as it was."""
        return re.findall(r"^cca: .* crates, .* s: (\w+)$", told, re.M)

    def built(self, **other: str) -> str:
        """What the program prints, if each crate's text is its name or another."""
        return "made of " + " ".join(other.get(it, it) for it in sorted(PROGRAM)) + ", with a b\n"


class Builds(Case):
    def test_builds_once(self) -> None:
        status, out, told = self.call("a", "b")
        self.assertEqual((status, out), (3, self.built()))
        self.assertRegex(
            told,
            r"\Acca isn't built yet: 5 of its 5 crates are now .*\nMeanwhile ./trial .*\n",
        )
        self.assertEqual(sorted(self.named(told)), sorted(PROGRAM))
        self.assertIn(", 5 of 5 crates, ", told)
        self.assertTrue(told.endswith("cca is built.\n"))
        self.assertEqual(self.noted("calls"), ["ci"])
        self.assertEqual(self.call("a", "b"), (3, self.built(), ""))
        self.assertEqual(self.noted("calls"), [])

    def test_builds_what_changed(self) -> None:
        self.call("a")
        self.noted("proved")
        self.write("left", "other")
        status, out, told = self.call("a", "b")
        self.assertEqual((status, out), (3, self.built(left="other")))
        self.assertRegex(told, r"\Acca is of other sources: 3 of its 5 crates are now ")
        self.assertNotIn("./trial", told)
        self.assertEqual(sorted(self.named(told)), ["cca", "left", "top"])
        self.assertEqual(sorted(set(self.noted("proved"))), ["cca", "left", "top"])

    def test_a_fault_leaves_the_old_program(self) -> None:
        self.call("a")
        self.write("right", "fault")
        status, out, told = self.call("a", "b")
        self.assertEqual((status, out), (70, ""))
        self.assertRegex(told, r"(?m)^== right\n.*crates/right/src/lib\.rt: error: it is wrong$")
        self.assertNotIn("low::one", told)
        self.assertTrue(told.endswith("\ncca was not built; the old program stays as it was.\n"))
        built = self.root / "crates" / "cca" / "out" / "cca.built"
        self.assertEqual(subprocess.run([built, "a", "b"], stdout=subprocess.PIPE, text=True).stdout, self.built())
        self.write("right", "right again")
        self.assertEqual(self.call("a", "b")[:2], (3, self.built(right="right again")))

    def test_a_first_build_with_a_fault_leaves_none(self) -> None:
        self.write("low", "fault")
        status, out, told = self.call("a")
        self.assertEqual((status, out), (70, ""))
        self.assertTrue(told.endswith("\ncca was not built.\n"))
        self.assertFalse((self.root / "crates" / "cca" / "out" / "cca.built").exists())

    def test_a_program_that_does_not_run_is_not_taken(self) -> None:
        self.call("a")
        self.write("cca", "dies")
        status, out, told = self.call("a", "b")
        self.assertEqual((status, out), (70, ""))
        self.assertTrue(
            told.endswith("the new program doesn't run\ncca was not built; the old program stays as it was.\n")
        )

    def test_a_stopped_build_keeps_what_was_proved(self) -> None:
        self.write("top", "slow")
        process = self.begin("a")
        self.until("proved", "top")
        process.send_signal(signal.SIGTERM)
        out, told = process.communicate(timeout=40)
        self.assertEqual((process.returncode, out), (143, ""))
        self.assertTrue(told.endswith("stopped: what is proved so far is kept\ncca was not built.\n"))
        self.noted("proved")
        self.write("top", "top")
        self.assertEqual(self.call("a", "b")[:2], (3, self.built()))
        self.assertEqual(sorted(set(self.noted("proved"))), ["cca", "top"])

    def test_a_second_call_waits(self) -> None:
        self.write("right", "waits")
        first = self.begin("a", "b")
        self.until("proved", "right")
        second = self.begin("a", "b")
        assert second.stderr
        told = second.stderr.readline() + second.stderr.readline()
        self.assertRegex(
            told, r"\AAnother call is building cca, and this one waits for it, which takes .*\ncca: waiting, "
        )
        while "left" not in self.named(told):
            told += second.stderr.readline()
        self.assertNotIn("top", told)
        (self.kit / "go").touch()
        for process in (first, second):
            self.assertEqual(process.communicate(timeout=40)[0], self.built(right="waits"))
        self.assertEqual(self.noted("calls"), ["ci"])

    def change_meanwhile(self) -> None:
        """A build during which a source changes."""
        self.write("right", "waits")
        process = self.begin("a", "b")
        self.until("proved", "right")
        self.write("right", "later")
        (self.kit / "go").touch()
        self.assertEqual(process.communicate(timeout=40)[0], self.built(right="waits"))

    def test_a_source_that_changes_meanwhile(self) -> None:
        self.change_meanwhile()
        self.assertEqual(self.call("a", "b")[:2], (3, self.built(right="later")))

    def test_a_source_that_changes_and_changes_back(self) -> None:
        self.change_meanwhile()
        self.write("right", "waits")
        self.assertEqual(self.call("a", "b")[:2], (3, self.built(right="waits")))

    def test_no_tool(self) -> None:
        status, out, told = self.call("a", path="/usr/bin:/bin")
        self.assertEqual((status, out), (70, ""))
        self.assertEqual(
            told, "cca isn't built yet, and rt, the tool of the Rattle kit, is not on the PATH.\ncca was not built.\n"
        )

    def test_another_program(self) -> None:
        other = self.root / "other"
        other.write_text('#!/bin/sh\necho other "$@"\nexit 5\n')
        other.chmod(0o755)
        self.assertEqual(self.call("a", "b", CCA_PROGRAM=str(other)), (5, "other a b\n", ""))
        status, out, told = self.call("a", CCA_PROGRAM="/nowhere/cca")
        self.assertEqual(
            (status, out, told), (70, "", "The program /nowhere/cca can't be run: No such file or directory.\n")
        )
        self.assertEqual(self.noted("calls"), [])

    def test_the_copy(self) -> None:
        self.call("a")
        *files, root = self.noted("tree")
        self.assertEqual(files, sorted(["HANDLES", "crates.txt", *[f"crates/{name}/src/lib.rt" for name in PROGRAM]]))
        self.assertFalse(os.path.exists(root))
        self.assertEqual(os.listdir(self.temporary), [])
        self.assertEqual([it for it in PROGRAM if os.listdir(self.root / "crates" / it / "out") and it != "cca"], [])

    def test_a_fault_is_told_at_once(self) -> None:
        self.write("low", "fault")
        self.write("right", "slow")
        status, out, told = self.call("a")
        self.assertEqual((status, out), (70, ""))
        self.assertRegex(told, r"(?m)^== low\ncrates/low/src/lib\.rt: error: it is wrong\ncca was not built\.\n\Z")
        self.assertEqual(os.listdir(self.temporary), [])

    def test_a_gate_that_fails_gives_no_program(self) -> None:
        self.write("cca", "odd")
        status, out, told = self.call("a")
        self.assertEqual((status, out), (70, ""))
        self.assertTrue(told.endswith("rt: FAILED: cca (run)\ncca was not built.\n"))

    def test_what_a_gate_has_proved_is_not_proved_again(self) -> None:
        self.call("a")
        shutil.rmtree(self.root / "crates" / "cca" / "out")
        self.noted("proved")
        status, out, told = self.call("a", "b")
        self.assertEqual((status, out), (3, self.built()))
        self.assertEqual(sorted(self.named(told)), sorted(PROGRAM))
        self.assertEqual(self.noted("proved"), [])

    def test_an_edit_of_a_wrong_body_is_no_source(self) -> None:
        self.call("a")
        self.noted("calls")
        (self.root / "crates" / "low" / "wrong" / "two.edit").write_text("file: src/lib.rt\n")
        self.assertEqual(self.call("a", "b"), (3, self.built(), ""))
        self.assertEqual(self.noted("calls"), [])


class TheProgramThatWasProved(Case):
    """Which program runs: the one that was built here, of these sources, by this kit."""

    def setUp(self) -> None:
        super().setUp()
        self.assertEqual(self.call("a", "b")[:2], (3, self.built()))
        self.noted("calls")
        self.program, self.sums = self.out / "cca.built", self.out / "cca.sum"

    def test_what_is_kept(self) -> None:
        *made_of, kit, program = self.sums.read_text().splitlines()
        self.assertEqual([line.split()[0] for line in made_of], sorted(PROGRAM))
        self.assertEqual(kit, f"kit {KIT}")
        self.assertEqual(program, f"program {hashlib.sha256(self.program.read_bytes()).hexdigest()}")

    def test_another_program_in_its_place(self) -> None:
        """Cut, empty, with one other byte, or foreign: it never runs, and the one that was proved is built again."""
        whole = self.program.read_bytes()
        for data in (b"", whole[:-1], whole.replace(b"made", b"mode"), b"#!/bin/sh\necho yes\n"):
            with self.subTest(data=data[:30]):
                self.program.write_bytes(data)
                status, out, told = self.call("a", "b")
                self.assertEqual((status, out), (3, self.built()))
                self.assertRegex(told, r"\Acca isn't the program that was built here: 1 of its 5 crates are now ")
                self.assertEqual(self.noted("calls"), ["ci"])
                self.assertEqual(self.program.read_bytes(), whole)

    def test_without_a_kit_another_program_is_refused(self) -> None:
        self.program.write_text("#!/bin/sh\necho yes\n")
        status, out, told = self.call("a", "b", path="/usr/bin:/bin")
        self.assertEqual((status, out), (70, ""))
        self.assertRegex(told, r"\Acca isn't the program that was built here, and rt, .* is not on the PATH\.\n")

    def test_sums_that_are_cut(self) -> None:
        whole = self.sums.read_text()
        for text in ("", whole[:-70], whole.replace("kit ", ""), "\n".join(whole.splitlines()[:-1])):
            with self.subTest(text=text[-30:]):
                self.sums.write_text(text)
                self.assertEqual(self.call("a", "b")[:2], (3, self.built()))
                self.assertEqual((self.noted("calls"), self.sums.read_text()), (["ci"], whole))

    def test_another_kit(self) -> None:
        (self.kit / "KIT-ID").write_text("rattle-kit-0b logic fedcba9876543210\n")
        status, out, told = self.call("a", "b")
        self.assertEqual((status, out), (3, self.built()))
        self.assertRegex(told, rf"\Acca is of another kit, {KIT}: 5 of its 5 crates are now ")
        self.assertEqual(self.call("a", "b"), (3, self.built(), ""))

    def test_no_kit(self) -> None:
        self.assertEqual(self.call("a", "b", path="/usr/bin:/bin"), (3, self.built(), ""))


class Doors(Case):
    """The calls that get an answer at once, and the ways to call the script."""

    def test_help(self) -> None:
        """It has each command and each status of docs/FORMATS.md, and needs no kit."""
        page = (ROOT / "docs" / "FORMATS.md").read_text()
        rows = re.findall(r"^\| `cca (.*?)` \|", page, re.M)
        self.assertGreater(len(rows), 10)
        for word in ("-h", "--help"):
            status, out, told = self.call(word, path="/usr/bin:/bin")
            self.assertEqual((status, told), (0, ""))
            for row in rows:
                self.assertIn(f"\n  ./cca {row} ", out)
            for code in range(9):
                self.assertRegex(out, rf"\n  {code}   \w")
            self.assertIn("--json", out)
            self.assertNotIn("`", out)
        self.assertEqual(os.listdir(self.out), [])

    def test_no_arguments(self) -> None:
        status, out, told = self.call(path="/usr/bin:/bin")
        self.assertEqual((status, out, told), (2, "cca: words\n", self.call("--help")[1]))

    def test_version(self) -> None:
        version = (ROOT / "VERSION").read_text().strip()
        self.assertEqual(self.call("--version"), (0, f"cca {version}\nnot built yet\n", ""))
        self.call("a")
        sum = hashlib.sha256((self.out / "cca.built").read_bytes()).hexdigest()
        self.assertEqual(self.call("--version"), (0, f"cca {version}\nbuilt by {KIT}, sha256 {sum}\n", ""))

    def test_by_a_link(self) -> None:
        (self.root.parent / "link").symlink_to(self.root / "cca")
        self.assertEqual(self.call("a", "b", by="../link")[:2], (3, self.built()))

    def test_an_environment_that_misleads(self) -> None:
        """Variables of Python, of git and of the shell that could lead to other files."""
        for name in ("building.py", "subprocess.py", "build.py"):
            (self.root.parent / name).write_text("raise SystemExit(9)\n")
        for name, value in {
            "PYTHONHOME": "/x",
            "PYTHONPATH": ":/x",
            "GIT_DIR": "/x",
            "CDPATH": "/x",
            "COLUMNS": "9" * 5000,
        }.items():
            with self.subTest(name=name):
                self.write("left", name)
                self.assertEqual(self.call("a", "b", **{name: value})[:2], (3, self.built(left=name)))

    def test_streams(self) -> None:
        """Standard error closed or full changes nothing; a text that can't be printed is status 5."""
        for words, more, status in (
            ("a b", "2>&-", 3),
            ("a b", "2>/dev/full", 3),
            ("--help", "2>&-", 0),
            ("--help", ">&-", 5),
            ("--help", ">/dev/full", 5),
            ("", ">/dev/full 2>&-", 5),
            ("", "2>&-", 2),
        ):
            with self.subTest(words=words, more=more):
                shutil.rmtree(self.out)
                self.out.mkdir()
                variables = {"PATH": f"{self.kit / 'bin'}:/usr/bin:/bin", "TMPDIR": str(self.temporary)}
                line = f'"$0" -E "$1" {words} {more}'
                call = ["sh", "-c", line, sys.executable, str(self.root / "cca")]
                ran = subprocess.run(call, env=variables, stdin=subprocess.DEVNULL, stdout=subprocess.PIPE, timeout=40)
                self.assertEqual(ran.returncode, status)

    def test_a_folder_that_cannot_be_written(self) -> None:
        """Another user runs what is built, and sees why nothing can be built."""
        if os.geteuid():
            self.skipTest("only root can call as another user")
        for folder in (self.root.parent, self.temporary):
            folder.chmod(0o777)
        nobody = {"user": 65534, "group": 65534, "extra_groups": []}
        words = [sys.executable, "-E", str(self.root / "cca"), "a", "b"]
        variables = {"PATH": f"{self.kit / 'bin'}:/usr/bin:/bin", "TMPDIR": str(self.temporary)}
        how = {"env": variables, "capture_output": True, "text": True, "cwd": "/", **nobody}
        if subprocess.run([sys.executable, "-c", ""], cwd="/", **nobody).returncode:  # type: ignore[call-overload]
            self.skipTest("this Python is root's alone")
        ran = subprocess.run(words, **how)  # type: ignore[call-overload]
        self.assertEqual((ran.returncode, ran.stdout), (70, ""))
        self.assertRegex(
            ran.stderr, r"crates/cca/out can't be written \(Permission denied\), so nothing is built there: a "
        )
        self.assertEqual(self.call("a", "b")[:2], (3, self.built()))
        ran = subprocess.run(words, **how)  # type: ignore[call-overload]
        self.assertEqual((ran.returncode, ran.stdout, ran.stderr), (3, self.built(), ""))

    def test_a_call_that_is_killed(self) -> None:
        """Its build ends with it, and the next call builds."""
        self.write("top", "slow")
        process = self.begin("a", "b")
        self.until("proved", "top")
        process.kill()
        process.communicate(timeout=40)
        end = time.monotonic() + 20
        while self.works():
            self.assertLess(time.monotonic(), end)
            time.sleep(0.05)
        self.write("top", "top")
        self.assertEqual(self.call("a", "b")[:2], (3, self.built()))

    def works(self) -> bool:
        """Whether a process of the kit still runs."""
        for folder in pathlib.Path("/proc").glob("[0-9]*"):
            try:
                if str(self.kit).encode() in (folder / "cmdline").read_bytes():
                    return True
            except OSError:
                continue
        return False

    def test_temporary_files_that_cannot_run(self) -> None:
        """TMPDIR on a file system without exec: the script reports it before anything is proved."""
        mount = f'mount -t tmpfs -o noexec none "{self.temporary}" && exec "$0" -E "$1" a b'
        words = ["unshare", "--mount", "--map-root-user", "sh", "-c", mount, sys.executable, str(self.root / "cca")]
        if (
            not shutil.which("unshare")
            or subprocess.run(["unshare", "-m", "-r", "true"], capture_output=True).returncode
        ):
            self.skipTest("no file system can be mounted here")
        variables = {"PATH": f"{self.kit / 'bin'}:/usr/bin:/bin:/usr/sbin:/sbin", "TMPDIR": str(self.temporary)}
        ran = subprocess.run(words, env=variables, capture_output=True, text=True, timeout=40)
        self.assertEqual((ran.returncode, ran.stdout), (70, ""), ran.stderr)
        self.assertIn(f"no program may run in {self.temporary} (noexec): set TMPDIR to a folder ", ran.stderr)
        self.assertEqual(self.noted("calls"), [])

    def test_temporary_files_without_room(self) -> None:
        """TMPDIR on a disk that is full as the crates are copied there."""
        mount = (
            'mount -t tmpfs -o size=64k none "$TMPDIR" && head -c 57344 /dev/zero > "$TMPDIR/full" && "$0" -E "$1" a'
        )
        words = ["unshare", "--mount", "--map-root-user", "sh", "-c", mount, sys.executable, str(self.root / "cca")]
        if (
            not shutil.which("unshare")
            or subprocess.run(["unshare", "-m", "-r", "true"], capture_output=True).returncode
        ):
            self.skipTest("no file system can be mounted here")
        variables = {"PATH": f"{self.kit / 'bin'}:/usr/bin:/bin:/usr/sbin:/sbin", "TMPDIR": str(self.temporary)}
        ran = subprocess.run(words, env=variables, capture_output=True, text=True, timeout=40)
        self.assertEqual((ran.returncode, ran.stdout), (70, ""), ran.stderr)
        fault, last = ran.stderr.splitlines()[-2:]
        self.assertRegex(
            fault, rf"Temporary files have no room in {self.temporary}: make room there, or set TMPDIR to "
        )
        self.assertEqual(last, "cca was not built.")


if __name__ == "__main__":
    unittest.main()
