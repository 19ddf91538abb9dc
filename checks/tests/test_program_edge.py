"""The program when its files, its output and the system's devices get in each other's way."""
import os
import resource
import shutil
import signal
import subprocess
import sys
import tempfile
import typing
import unittest
from checks.cases.program import PROGRAM, read, with_program
from checks.cases.samples import EXAMPLES

CCA = os.path.abspath(PROGRAM or "")
SECONDS = 60
GIVEN = {
    "a.award": "spectrum.award",
    "a.log": "spectrum.log",
    "b.book": "day-cramton.book",
    "b.cert": "day-cramton.cert",
    "b.edits": "day-cramton.edits",
    "b.weights": "day-cramton.weights",
    "b.slots": "band.slots",
}
# The arguments of each command: first the files to read and then, after a `>`, the file to append to.
COMMANDS = [
    "win b.book",
    "check b.book b.cert",
    "review b.book b.edits",
    "price b.book > cert",
    "weigh b.book b.weights > cert",
    "auction a.award a.log > book",
    "award a.award a.log > cert",
    "place b.slots > cert",
    "make 7 > award log",
]


class Case(unittest.TestCase):
    """Each test has a folder of its own with the samples."""

    def setUp(self) -> None:
        before = os.getcwd()
        self.addCleanup(os.chdir, before)
        folder = tempfile.TemporaryDirectory()
        self.addCleanup(folder.cleanup)
        os.chdir(folder.name)
        for name, example in GIVEN.items():
            shutil.copyfile(os.path.join(EXAMPLES, example), name)

    def ended(
        self, *words: str, out: typing.Any = subprocess.PIPE, **how: typing.Any
    ) -> tuple[int, typing.Optional[bytes]]:
        made = subprocess.run(
            [CCA, *words], stdin=subprocess.DEVNULL, stdout=out, stderr=subprocess.PIPE, timeout=SECONDS, **how
        )
        self.assertEqual(made.stderr, b"", words)
        return made.returncode, made.stdout

    def ends_into(self, path: str, mode: str, *words: str) -> int:
        """The status of a run whose output goes to this file."""
        with open(path, mode) as out:
            return self.ended(*words, out=out)[0]


def words_of(command: str) -> tuple[list[str], list[str]]:
    """The arguments of a command, and the names of its files."""
    words = [word for word in command.split() if word != ">"]
    return words, [word for word in words[1:] if word != "7"]


def texts() -> dict[str, bytes]:
    return {name: read(name) for name in sorted(os.listdir(".")) if os.path.isfile(name)}


@with_program
class Output(Case):
    def test_nothing_goes_into_a_file_of_the_command(self) -> None:
        for command in COMMANDS:
            words, files = words_of(command)
            for file in files:
                with self.subTest(command=command, file=file):
                    if not os.path.exists(file):
                        with open(file, "wb") as out:
                            out.write(b"kept\n")
                    before = texts()
                    self.assertEqual(self.ends_into(file, "ab", *words), 5)
                    after = texts()
                    self.assertEqual(
                        {name: after[name] for name in {file, *GIVEN}}, {name: before[name] for name in {file, *GIVEN}}
                    )
                    for name in set(after) - set(GIVEN):
                        os.remove(name)

    def test_another_name_is_the_same_file(self) -> None:
        os.symlink("b.cert", "link")
        os.link("b.cert", "hard")
        cert = read("b.cert")
        for name in ("link", "hard", "./b.cert", os.path.abspath("b.cert")):
            self.assertEqual(self.ends_into("b.cert", "ab", "price", "b.book", name), 5)
            self.assertEqual(read("b.cert"), cert)

    def test_a_line_of_a_fault_goes_there_neither(self) -> None:
        cert = read("b.cert")
        with open("bad.book", "wb") as file:
            file.write(b"book 2\n")
        for book in ("missing.book", "bad.book"):
            self.assertEqual(self.ends_into("b.cert", "ab", "price", book, "b.cert"), 5)
            self.assertEqual(read("b.cert"), cert)

    def test_what_the_shell_has_cut_stays_empty(self) -> None:
        self.assertEqual(self.ends_into("b.cert", "wb", "price", "b.book", "b.cert"), 5)
        self.assertEqual(read("b.cert"), b"")
        self.assertEqual(self.ends_into("new", "wb", "price", "b.book", "/dev/stdout"), 5)
        self.assertEqual(read("new"), b"")

    def test_other_files_take_what_is_printed(self) -> None:
        _, printed = self.ended("win", "b.book")
        for name in ("win", "new"):
            self.assertEqual(self.ends_into(name, "wb", "win", "b.book"), 0)
            self.assertEqual(read(name), printed)
        self.assertEqual(
            self.ended("price", "b.book", "/dev/stdout")[1],
            read("b.cert") + (self.ended("price", "b.book", "new.cert")[1] or b""),
        )

    @unittest.skipUnless(os.path.exists("/dev/full"), "there is no /dev/full")
    def test_a_full_device(self) -> None:
        """What can't be printed is reported only by the status, and the files have their texts."""
        for command in COMMANDS:
            words, files = words_of(command)
            whole = self.ended(*words)
            made = {name: read(name) for name in files if name not in GIVEN}
            self.assertEqual(whole[0], 0, command)
            for name in made:
                os.remove(name)
            self.assertEqual(self.ends_into("/dev/full", "wb", *words), 5, command)
            self.assertEqual({name: read(name) for name in made}, made, command)
            for name in made:
                os.remove(name)
        self.assertEqual(self.ends_into("/dev/full", "wb", "win"), 5)
        self.assertEqual(self.ends_into("/dev/full", "wb", "win", "missing"), 5)

    def test_a_reader_that_is_gone(self) -> None:
        reading, writing = os.pipe()
        os.close(reading)
        with open(writing, "wb") as out:
            self.assertEqual(self.ended("win", "b.book", out=out)[0], 5)

    def test_a_closed_output(self) -> None:
        _, whole = self.ended("price", "b.book", "whole")
        self.assertEqual(self.ended("price", "b.book", "new", preexec_fn=lambda: os.close(1)), (5, b""))
        self.assertEqual(read("new"), read("whole"))


def limit_of_size(size: int) -> typing.Callable[[], None]:
    def begin() -> None:
        signal.signal(signal.SIGXFSZ, signal.SIG_IGN)
        resource.setrlimit(resource.RLIMIT_FSIZE, (size, size))

    return begin


@with_program
class Devices(Case):
    def test_a_file_that_may_not_grow_holds_a_prefix(self) -> None:
        whole = read("b.cert")
        for size in (0, 1, 100, len(whole) - 1):
            ended = self.ended("price", "b.book", "new", preexec_fn=limit_of_size(size), restore_signals=False)
            self.assertEqual(ended, (5, b"cca: write fault cert\n"))
            self.assertEqual(read("new"), whole[:size])
            os.remove("new")

    def test_a_new_file_behind_a_link(self) -> None:
        os.mkdir("folder")
        os.symlink("folder/cert", "link")
        self.assertEqual(self.ended("price", "b.book", "link")[0], 0)
        self.assertEqual(read("folder/cert"), read("b.cert"))

    def test_the_same_number_on_two_devices_is_two_files(self) -> None:
        """Two file systems in memory give their first files the same number."""
        script = (
            "mkdir one two && mount -t tmpfs none one && mount -t tmpfs none two && : > one/award && : > two/log"
            " && stat -c '%i' one/award two/log && \"$0\" make 7 one/award two/log"
        )
        ended = subprocess.run(
            ["unshare", "-rm", "sh", "-c", script, CCA], capture_output=True, text=True, timeout=SECONDS
        )
        numbers = ended.stdout.split()[:2]
        if len(set(numbers)) != 1 or len(numbers) != 2:
            print(
                "no two file systems in memory could be mounted: the device beside the file's number wasn't tried",
                file=sys.stderr,
            )
            self.skipTest("no two file systems in memory could be mounted")
        self.assertEqual((ended.returncode, ended.stdout.splitlines()[2:]), (0, ["made 7 bidders 12 lines 1339"]))


@with_program
class Words(Case):
    def test_130_000_words_take_little_work(self) -> None:
        """Searching for each argument among the others would take about 30 seconds of the processor."""

        def begin() -> None:
            resource.setrlimit(resource.RLIMIT_CPU, (20, 20))

        words = [str(number) for number in range(130_000)]
        self.assertEqual(self.ended("win", *words, preexec_fn=begin), (2, b"cca: words\n"))


@with_program
class Commas(Case):
    def ends(self, log: bytes, **how: typing.Any) -> tuple[int, typing.Optional[bytes]]:
        with open("log", "wb") as file:
            file.write(log)
        return self.ended("auction", "a.award", "log", "book", **how)

    def test_a_record_of_8_million_commas_takes_little_memory(self) -> None:
        def begin() -> None:
            resource.setrlimit(resource.RLIMIT_AS, (80_000_000, 80_000_000))

        self.assertEqual(self.ends(b"," * 8_388_607, preexec_fn=begin), (3, b"cca: refused log 1\n"))
        self.assertEqual(self.ends(b'"",' * 2_796_202, preexec_fn=begin), (3, b"cca: refused log 1\n"))
        self.assertEqual(self.ends(b"close,,,\n" + b"," * 8_388_590, preexec_fn=begin), (3, b"cca: refused log 2\n"))

    def test_the_first_faulty_record_is_told(self) -> None:
        """The ends of fields decide; quotes and line ends don't mislead."""
        right = read("a.log").splitlines(keepends=True)[:3]
        for number, log in [
            (4, [*right, b"close,,,,\n"]),
            (4, [*right, b"close,,,,,,,,,,\n", b"close,,,\n"]),
            (4, [*right, b'"cl,ose",,,\n', b",,,,,\n"]),
            (4, [*right, b'close,"","",""\n' * 0, b'"close",,,"",\r\n']),
            (5, [*right, b'"close","","",""\r\n', b",,,,,"]),
            (1, [b"\xef\xbb\xbf,,,,,\n"]),
            (4, [b"\xef\xbb\xbf", *right, b",,,,,\n"]),
            (5, [*right, b"\n\r\n\n", b"close,,,\n", b'""",,,,",,,,\n']),
        ]:
            with self.subTest(log=log):
                self.assertEqual(self.ends(b"".join(log)), (3, b"cca: refused log %d\n" % number))
