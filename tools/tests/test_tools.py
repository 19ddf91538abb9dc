"""Each tool with right, wrong, empty, huge, piped and misspelt input, on a terminal, and where it fails."""
import contextlib
import importlib.util
import io
import os
import pathlib
import pty
import re
import shutil
import subprocess
import sys
import tempfile
import time
import argparse
import unittest
import unittest.mock
from collections.abc import Mapping

from checks.cases.samples import EXAMPLES, TOOLS, called, lines, sample

from cca_tools import command_line, terminal
from cca_tools.__main__ import COMMANDS, main as main_of_all
from cca_tools.rules.stops import NO, Stop
from cca_tools.terminal import Progress, broken

# Right arguments of each tool, the files among them with a dot, and the beginning of what it prints.
RIGHT = {
    "explain": ("check day-cramton.book day-cramton.cert", "The certificate passes all tests.\n"),
    "caps": ("spectrum.award spectrum.log everest", "everest final round 4 held 1 0 3 0 list 3\n"),
    "what-if": ("spectrum.award spectrum.log copy.log", "lines\nnothing changes\n"),
    "why": ("day-cramton.book day-cramton.cert", "b1 pays 17 and b2 15: their Vickrey prices of 14 "),
    "report": ("day-cramton.book day-cramton.cert --text", "Auction report: day-cramton\n"),
    "state": ("spectrum.award spectrum.log", "= The clock ended after round 4. The auction is closed.\n"),
}
# The right arguments of the court's own files, which aren't of the package; test_court has more of them.
COURT = {
    "audit": ("spectrum.award spectrum.log spectrum.cert", "yes\nwinner everest "),
    "check": ("day-cramton.book day-cramton.cert", "yes\nwinner b1 1 0 bid 28 vickrey 14 pays 17\n"),
    "check-places": ("band.slots place.cert", "yes\nplaced x 1 2\n"),
}
# The tools whose output has to agree with cca's.
AGREE = ("explain",)
PLACE_CERT = lines(
    "pcert 1 / den 1 / value 18 / order 1 3 2 / choice 1 1 0 / table / t 18 8 12 0 8 8 0 0 / without 1 / order 2 3 1 / "
    "choice 0 0 1 / table / t 12 8 12 0 8 8 0 0 / without 2 / order 2 3 1 / choice 0 0 1 / table / "
    "t 12 0 12 0 0 0 0 0 / pay 7 5 0 / rows 1 / row 1 2 / mult 1 3 / order 2 3 1 / choice 0 0 1 / lowered / "
    "t 12 5 12 0 5 5 0 0 / end"
)
HOSTILE = b"\x1b[2J\x1b[31mred\x07\x9b\xc2\x9b\xe2\x80\xae\r\x00\x7f"


def run(name: str, *words: str, stdin: bytes = b"", env: Mapping[str, str] | None = None) -> tuple[str, int, str]:
    """What a tool prints as a program, its status, and what it says on its standard error."""
    made = subprocess.run(
        [sys.executable, os.path.join(TOOLS, name), *words], input=stdin, capture_output=True, env=env
    )
    return made.stdout.decode(), made.returncode, made.stderr.decode()


class WithFiles(unittest.TestCase):
    """A folder with the samples and what a test writes into it."""

    def setUp(self) -> None:
        folder = tempfile.TemporaryDirectory()
        self.addCleanup(folder.cleanup)
        self.folder = pathlib.Path(folder.name)
        self.write("place.cert", PLACE_CERT)
        self.write("copy.log", sample("spectrum.log"))
        environment = unittest.mock.patch.dict(os.environ, CCA_PROGRAM="/nowhere")
        environment.start()
        self.addCleanup(environment.stop)

    def write(self, name: str, data: bytes) -> str:
        (self.folder / name).write_bytes(data)
        return str(self.folder / name)

    def path(self, word: str) -> str:
        if "." not in word:
            return word
        kept = self.folder / word
        return str(kept if kept.exists() else os.path.join(EXAMPLES, word))

    def right(self, name: str) -> list[str]:
        return [self.path(word) for word in {**RIGHT, **COURT}[name][0].split()]

    def files(self, name: str) -> list[int]:
        """The places of files among the right arguments."""
        return [place for place, word in enumerate({**RIGHT, **COURT}[name][0].split()) if "." in word]


class AsPrograms(WithFiles):
    def test_right_words(self) -> None:
        for name, (_, first) in {**RIGHT, **COURT}.items():
            with self.subTest(name):
                text, status, said = run(name, *self.right(name))
                self.assertEqual((text[: len(first)], status, said), (first, 0, ""))

    def test_one_file_from_a_pipe(self) -> None:
        for name, (_, first) in {**RIGHT, **COURT}.items():
            with self.subTest(name):
                words = self.right(name)
                place = self.files(name)[-1]
                data = pathlib.Path(words[place]).read_bytes()
                words[place] = "-"
                text, status, _ = run(name, *words, stdin=data)
                self.assertEqual((text[: len(first)], status), (first, 0))

    def test_a_module_of_all(self) -> None:
        words = self.right("caps")
        made = subprocess.run(
            [sys.executable, "-m", "cca_tools", "caps", *words], cwd=TOOLS, capture_output=True, text=True
        )
        self.assertEqual((made.stdout, made.returncode), called("caps", *words)[:2])

    def test_no_words(self) -> None:
        for name in RIGHT:
            with self.subTest(name):
                text, status, said = called(name)
                self.assertEqual((text, status), ("cca: words\n" if name in AGREE else "", 2))
                self.assertEqual(said.splitlines()[0][: len(f"usage: tools/{name} ")], f"usage: tools/{name} ")

    def test_a_script_without_its_package_is_a_crash(self) -> None:
        shutil.copy(os.path.join(TOOLS, "caps"), self.folder)
        made = subprocess.run([sys.executable, self.folder / "caps"], capture_output=True, text=True)
        self.assertEqual((made.returncode, "No module named 'cca_tools'" in made.stderr), (70, True))

    def test_a_reader_that_goes_away(self) -> None:
        """The text has more than a pipe takes, and its reader reads one byte."""
        book = lines("book 1 / supply 1 / reserve 0 / bidder a / bid 1 1 / end")
        with subprocess.Popen(
            [sys.executable, os.path.join(TOOLS, "report"), "--text", *self.right("audit")], stdout=subprocess.PIPE
        ) as made:
            assert made.stdout is not None
            made.stdout.read(1)
            made.stdout.close()
            self.assertIn(made.wait(), (0, 5))
        full = open("/dev/full", "wb") if os.path.exists("/dev/full") else None
        if full:
            ended = subprocess.run(
                [sys.executable, os.path.join(TOOLS, "why"), self.write("b.book", book), self.path("tie.book")],
                stdout=full,
                stderr=subprocess.PIPE,
            )
            self.assertEqual(ended.returncode, 3)
            words = [sys.executable, os.path.join(TOOLS, "check"), *self.right("check")]
            self.assertEqual(subprocess.run(words, stdout=full, stderr=subprocess.PIPE).returncode, 5)
            full.close()

    def test_words_that_are_no_text(self) -> None:
        for name in ("check", "check-places", "audit"):
            made = subprocess.run([sys.executable, os.path.join(TOOLS, name), b"\xff", "a", "b"], capture_output=True)
            self.assertEqual((made.stdout, made.returncode), (b"", 8))

    def test_completion(self) -> None:
        if not importlib.util.find_spec("argcomplete"):
            self.skipTest("the package python3-argcomplete isn't installed")
        with tempfile.NamedTemporaryFile("r") as found:
            command = f"{sys.executable} {os.path.join(TOOLS, 'caps')} 8> {found.name}"
            how = {"_ARGCOMPLETE": "1", "_ARGCOMPLETE_IFS": " ", "COMP_LINE": "caps --v", "COMP_POINT": "8"}
            subprocess.run(["sh", "-c", command], env={**os.environ, **how}, capture_output=True)
            self.assertEqual(found.read().split(), ["--version", "--view"])


class Words(WithFiles):
    def fault(self, name: str, *words: str) -> str:
        """The message for wrong arguments, whose status is 2."""
        text, status, said = called(name, *words)
        self.assertEqual((text, status), ("cca: words\n" if name in AGREE else "", 2), said)
        self.assertEqual(said.splitlines()[-1], f"`tools/{name} --help` says what it takes.")
        return said.splitlines()[-2]

    def test_a_wrong_option_is_named(self) -> None:
        for name in RIGHT:
            with self.subTest(name):
                self.assertEqual(self.fault(name, "--bogus"), f"tools/{name}: there is no option --bogus.")
                self.assertEqual(
                    self.fault(name, *self.right(name), "--hlep"),
                    f"tools/{name}: there is no option --hlep; did you mean --help?",
                )

    def test_help_and_version_are_the_only_word(self) -> None:
        for name in RIGHT:
            with self.subTest(name):
                for word in ("--help", "-h"):
                    text, status, said = called(name, word)
                    self.assertEqual(
                        (text[: len(f"usage: tools/{name} ")], status, said), (f"usage: tools/{name} ", 0, "")
                    )
                text, status, said = called(name, "--version")
                self.assertEqual((re.match(rf"tools/{name} \S", text) is not None, status, said), (True, 0, ""))
                for word in ("--help", "-h", "--version"):
                    self.assertIn(f"{word} must be the only argument", self.fault(name, *self.right(name), word))

    def test_files_are_named_once_and_not_empty(self) -> None:
        for name in RIGHT:
            first, *others = self.files(name)
            words = self.right(name)
            with self.subTest(name):
                again = [words[first] if place in others[:1] else word for place, word in enumerate(words)]
                self.assertIn(f"two of the files have the same name, {words[first]}", self.fault(name, *again))
                empty = ["" if place == first else word for place, word in enumerate(words)]
                self.assertIn("the name of a file is empty", self.fault(name, *empty))
                self.assertNotIn("has to", self.fault(name, *words, *["more"] * (4 if name != "caps" else 1)))

    def test_a_hundred_thousand_files(self) -> None:
        """A tool refuses them as it refuses four; `bench/inputs` has the time."""
        words = [str(number) for number in range(100_000)]
        for name, fault in (("report", "at most three files"), ("explain", "`0` is no command")):
            with self.subTest(name):
                self.assertIn(fault, self.fault(name, *words))

    def test_names_that_aren_t_there(self) -> None:
        award, log = self.path("spectrum.award"), self.path("spectrum.log")
        stranger = "the award has no bidder `evrest`; its bidders are everest, harbour, meridian, niche, tarn."
        self.assertEqual(self.fault("caps", award, log, "evrest"), f"tools/caps: {stranger}")
        self.assertEqual(self.fault("report", award, log, "--bidder", "evrest"), f"tools/report: {stranger}")
        self.assertEqual(
            self.fault("what-if", award, log, "--least", "evrest", "1 0 0 0"), f"tools/what-if: {stranger}"
        )
        self.assertEqual(
            self.fault("explain", "auction", award, log, "--bidder", "evrest"), f"tools/explain: {stranger}"
        )

    def test_packages(self) -> None:
        award, log = self.path("spectrum.award"), self.path("spectrum.log")
        told = "a package is one count for each category, here 4 (a800 b800 c2600 e2600), and `{}` isn't."
        for words in (["1 2"], ["1", "0", "0", "0", "0"], ["1 0 0 -"], ["1 0 0 65536"], ["1 0 0 01"], ["a b c d"]):
            self.assertEqual(
                self.fault("caps", award, log, "tarn", *words), "tools/caps: " + told.format(" ".join(words))
            )
        self.assertEqual(called("caps", award, log, "tarn", "1", "0", "0", "65535")[1], 0)
        self.assertIn("--view takes no package", self.fault("caps", award, log, "tarn", "1 0 0 0", "--view"))

    def test_explain(self) -> None:
        meant = "tools/explain: `aution` is no command that is explained here; did you mean `auction`?"
        self.assertEqual(self.fault("explain", "aution", "a", "b"), meant)
        self.assertIn("`check` takes BOOK CERT, and the names given are 1", self.fault("explain", "check", "a"))
        self.assertIn(
            "--bidder is for `auction`, and not for `award`", self.fault("explain", "award", "a", "b", "--bidder", "c")
        )

    def test_what_if(self) -> None:
        award, log, copy = self.right("what-if")
        either = "either an edited log or --least has to be given"
        self.assertIn(either, self.fault("what-if", award, log))
        self.assertIn(either, self.fault("what-if", award, log, copy, "--least", "tarn", "1 0 0 0"))
        self.assertIn("--least takes a bidder and a package", self.fault("what-if", award, log, "--least", "tarn"))

    def test_report(self) -> None:
        award, log, cert = self.right("audit")
        takes = "the first file is an award, so the files are AWARD LOG or AWARD LOG CERT"
        self.assertIn(takes, self.fault("report", "--text", award))
        takes = "the first file is a book, so the files are BOOK or BOOK CERT"
        self.assertIn(takes, self.fault("report", "--text", self.path("tie.book"), log, cert))
        self.assertIn("at most three files, and 4", self.fault("report", "--text", award, log, cert, "x"))
        sees = "a book has no lines, so a bidder sees nothing of it"
        self.assertIn(sees, self.fault("report", "--text", self.path("tie.book"), "--bidder", "x"))
        self.assertIn("expected one argument", self.fault("report", award, log, "--bidder"))

    def test_all(self) -> None:
        self.assertEqual(sorted(RIGHT), [name for name in COMMANDS if name in RIGHT])
        cases: list[tuple[list[str], str]] = [(["cap"], "did you mean caps?"), ([], "usage: "), (["--help"], "usage: ")]
        for words, named in cases:
            with tempfile.TemporaryFile("w+") as file:
                with contextlib.redirect_stderr(file), contextlib.redirect_stdout(file):
                    status = main_of_all(words)
                file.seek(0)
                self.assertIn(named, file.read())
            self.assertEqual(status, 0 if words == ["--help"] else 2)


class Files(WithFiles):
    def answer(self, name: str, place: int, path: str) -> tuple[str, int, list[str]]:
        """The line of a fault, the status and the rest of the message, with another file at one place."""
        words = self.right(name)
        words[place] = path
        text, status, said = called(name, *words)
        if name not in AGREE:
            self.assertEqual(text, "")
            first, *rest = said.splitlines()
            return first.removeprefix(f"tools/{name}: "), status, rest
        return text.splitlines()[0], status, text.splitlines()[1:] + said.splitlines()

    def test_empty_files(self) -> None:
        empty = self.write("empty", b"")
        for name in RIGHT:
            # (an empty log is a right one)
            for place in [place for place in self.files(name) if not self.right(name)[place].endswith(".log")]:
                with self.subTest(name=name, place=place):
                    line, status, told = self.answer(name, place, empty)
                    self.assertEqual((line.startswith("cca: refused "), status, len(told) > 1), (True, 3, True))

    def test_files_that_aren_t_there(self) -> None:
        for name in RIGHT:
            for place in self.files(name):
                with self.subTest(name=name, place=place):
                    missing = str(self.folder / "nOfile")
                    line, status, told = self.answer(name, place, missing)
                    self.assertEqual((line.startswith("cca: read fault "), status), (True, 4))
                    self.assertEqual(
                        told,
                        [
                            f"`{missing}` can't be read: No such file or directory.",
                            "See that the name is right, and that you may read the file.",
                        ],
                    )

    def test_huge_files(self) -> None:
        """70 million bytes, which take no room on the disk."""
        huge = self.folder / "huge"
        with open(huge, "wb") as file:
            file.truncate(70_000_000)
        for name in RIGHT:
            for place in self.files(name):
                with self.subTest(name=name, place=place):
                    line, status, told = self.answer(name, place, str(huge))
                    self.assertEqual((re.sub(r"\d+$", "N", line), status), ("cca: limit bytes N", 7))
                    self.assertEqual(told[-1], "The limits are in docs/FORMATS.md.")

    def test_files_of_another_kind(self) -> None:
        for name in RIGHT:
            for place in self.files(name):
                with self.subTest(name=name, place=place):
                    line, status, told = self.answer(name, place, self.path("day-cramton.weights"))
                    self.assertEqual((line.startswith("cca: refused "), status, len(told) > 1), (True, 3, True))

    def test_no_control_character_of_a_file_is_shown(self) -> None:
        shown = []
        award, log, cert = (sample(f"spectrum.{kind}") for kind in ("award", "log", "cert"))
        quoted = b'"\\u001b[2J\\u202e" = 1\n"\\u001b[2J\\u202e" = 2\n'
        for name in RIGHT:
            for place in self.files(name):
                kind = pathlib.Path(self.right(name)[place]).suffix
                for data in {
                    ".award": [HOSTILE, quoted, b'["\\u001b[2J"]\n' + award, award + b'"\\u001b[2J" = 1\n'],
                    ".log": [HOSTILE, log + b"bid," + HOSTILE + b",1 0 0 0,\n", log + b"bid,tarn," + HOSTILE + b",\n"],
                    ".cert": [HOSTILE, cert + HOSTILE, b"cert 1\nden " + HOSTILE],
                }.get(kind, [HOSTILE, sample("tie.book").replace(b"bid 1", b"bid " + HOSTILE, 1)]):
                    words = self.right(name)
                    words[place] = self.write("hostile", data)
                    text, _, said = called(name, *words)
                    shown += [text + said]
        for text in shown:
            self.assertEqual(re.findall(r"[\x00-\x09\x0b-\x1f\x7f-\x9f\u202e]", text), [])
        self.assertIn("\\x1b[2J", "".join(shown))

    def test_names_with_control_characters(self) -> None:
        for name in RIGHT:
            text, status, said = called(
                name, *["\x1b[31mno\x07" if "." in w else w for w in RIGHT[name][0].split()][:1], "b.x"
            )
            self.assertEqual(re.findall(r"[\x00-\x09\x0b-\x1f\x7f-\x9f]", text + said), [])

    def test_many_commas(self) -> None:
        """A record is refused at its fifth field, however long it is."""
        log = self.write("commas.log", b"," * 8_388_607)
        line, status, told = self.answer("caps", 1, log)
        self.assertEqual((line, status, told[0]), ("cca: refused log 1", 3, "Record 1, line 1 of the file: `,,,,`"))

    def test_folded_lines(self) -> None:
        """A string of an award that isn't closed: each fold doubled the time of its reading once."""
        start = time.process_time()
        for fold, end in (("\\\n\n\n\n\n\n" * 30, "\x01"), ("\\\n    " * 300, '""'), ("\\\n\n" * 300, "\x01")):
            award = self.write("folded.award", b'version = """' + (fold + end).encode())
            for name, place in (("caps", 0), ("what-if", 0)):
                self.assertEqual(self.answer(name, place, award)[:2], ("cca: refused award 0 0", 3))
        self.assertLess(time.process_time() - start, 30)


class Crashes(WithFiles):
    def test_what_isn_t_foreseen_is_no_answer(self) -> None:
        with unittest.mock.patch("cca_tools.commands.caps.read_award", side_effect=ZeroDivisionError):
            text, status, said = called("caps", *self.right("caps"))
        self.assertEqual((text, status), ("", 70))
        self.assertIn("ZeroDivisionError", said)
        self.assertIn("this is a fault of the tool, and no answer", said)

    def test_out_of_memory(self) -> None:
        with unittest.mock.patch("cca_tools.commands.caps.read_award", side_effect=MemoryError):
            text, status, said = called("caps", *self.right("caps"))
        self.assertEqual((text, status), ("", 6))
        self.assertIn("Run it again with more memory.", said)


class OnATerminal(WithFiles):
    def shown(self, name: str, *words: str, columns: int = 80, **how: str) -> tuple[str, int]:
        """What a terminal of this many columns gets of a tool, its standard error too, and the status."""
        ours, its = pty.openpty()
        import fcntl
        import struct
        import termios

        fcntl.ioctl(its, termios.TIOCSWINSZ, struct.pack("HHHH", 24, columns, 0, 0))
        environment = {key: value for key, value in os.environ.items() if key not in ("NO_COLOR", "COLUMNS", "TERM")}
        made = subprocess.Popen(
            [sys.executable, os.path.join(TOOLS, name), *words],
            stdin=subprocess.DEVNULL,
            stdout=its,
            stderr=its,
            env={**environment, "TERM": "xterm", **how},
        )
        os.close(its)
        text = b""
        with contextlib.suppress(OSError), open(ours, "rb", buffering=0) as read:
            while piece := read.read(65536):
                text += piece
        return text.decode().replace("\r\n", "\n"), made.wait()

    def test_colours(self) -> None:
        words = ("win", self.path("tie.cert"))
        text, status = self.shown("explain", *words)
        self.assertEqual((text.split("\n")[0], status), ("\x1b[31mcca: read fault book\x1b[0m", 4))
        for text, _ in (self.shown("explain", *words, NO_COLOR="1"), self.shown("explain", *words, TERM="dumb")):
            self.assertEqual(text.split("\n")[0], "cca: read fault book")
        edited = self.write("edited.log", sample("spectrum.log").replace(b"660000", b"660001"))
        text, _ = self.shown("what-if", *self.right("what-if")[:2], edited)
        self.assertIn("\x1b[31m- ", text)
        self.assertIn("\x1b[32m+ ", text)
        self.assertNotIn("\x1b", called("what-if", *self.right("what-if")[:2], edited)[0])

    def test_the_width(self) -> None:
        for name in ("caps", "why", "what-if"):
            text, _ = self.shown(name, *self.right(name), columns=60)
            self.assertLessEqual(max(map(len, text.split("\n"))), 60)
        self.assertGreater(max(map(len, called("caps", *self.right("caps"))[0].split("\n"))), 100)

    def test_a_report_is_text(self) -> None:
        text, status = self.shown("report", *self.right("report")[:-1], columns=60)
        text = re.sub(r"\Atools/report: .*\n", "", text)  # where it took long
        self.assertEqual((text.split("\n")[0], status), ("Auction report: day-cramton", 0))
        self.assertLessEqual(max(map(len, text.split("\n"))), 60)
        self.assertEqual(max(map(len, called("report", *self.right("report"))[0].split("\n"))) > 60, True)

    def test_a_long_run_says_what_it_does(self) -> None:
        for is_terminal in (True, False):
            with unittest.mock.patch.object(terminal, "SECONDS", 0.01), unittest.mock.patch.object(
                terminal, "is_terminal", return_value=is_terminal
            ), contextlib.redirect_stderr(io.StringIO()) as said:
                progress = Progress()
                with progress.of("tools/report"):
                    time.sleep(0.1)
                    progress.step("drawing the page")
                expected = "tools/report: reading the files ..\ntools/report: drawing the page ..\n"
                self.assertEqual(said.getvalue(), expected if is_terminal else "")
        with contextlib.redirect_stderr(io.StringIO()) as said:
            progress = Progress()
            with progress.of("tools/report"):
                progress.step("drawing the page")
            self.assertEqual((said.getvalue(), progress.is_late), ("", False))

    def test_broken_lines(self) -> None:
        self.assertEqual(broken("aaa bbb ccc", 7), ["aaa bbb", "  ccc"])
        self.assertEqual(broken("  aaa bbb", 7), ["  aaa", "    bbb"])
        self.assertEqual(broken("aaaa", 4), ["aaaa"])


class Stopped(unittest.TestCase):
    def test_a_no_goes_to_standard_output(self) -> None:
        """It is printed with its meaning, unless the output has to agree with cca."""

        def run(options: argparse.Namespace) -> str:
            raise Stop("no C8 2", NO, why="it fails")

        for agrees, text in ((True, "no C8 2\n"), (False, "no C8 2\nIt fails.\n")):
            parser = command_line.Parser("x", "about", agrees=agrees)
            with tempfile.TemporaryFile("w+") as out, contextlib.redirect_stdout(out):
                status = command_line.run_command(parser, run, [])
                out.seek(0)
                self.assertEqual((out.read(), status), (text, 1))


if __name__ == "__main__":
    unittest.main()
