"""The court's own files, tools/audit and tools/check: compared with the rules and the program on drawn cases, and
without the other files."""
import ast
import collections
import itertools
import os
import pathlib
import random
import shutil
import signal
import subprocess
import sys
import tempfile
import unittest
import unittest.mock
from checks.cases.court_cases import answers, cases
from checks.cases.interrupts import take_interrupts
from checks.cases.program import PROGRAM
from checks.cases.samples import EXAMPLES, TOOLS, lines, sample
from checks.cases.second_auctions import drawn
from checks.cases.voices import AUDIT, CHECK, NO_VERDICT, books, court_book, is_alike, rules_answer

NUMBER, BOOKS, SEED = 500, 600, 1
AWARD = sample("sample.award")
SPECTRUM = [os.path.join(EXAMPLES, f"spectrum.{kind}") for kind in ("award", "log", "cert")]

# Awards that TOML 1.1 has and TOML 1.0 doesn't.
NEWER = [
    AWARD.replace(b'name = "lot"', b'name = "\\x6cot"'),
    AWARD.replace(b"version = 1", b'version = 1 # no fault\nx = "\\e"'),
    AWARD.replace(b"version = 1", b"version = 1\nx = 07:32"),
    AWARD.replace(b"version = 1", b"version = 1\nx = {a = 07:32}"),
    AWARD.replace(b"[[step]]\nexcess = 1\npermille = 200\n", b"").replace(
        b"version = 1", b"version = 1\nstep = [{excess = 1, permille = 200,}]"
    ),
    AWARD.replace(b"[[step]]\nexcess = 1\npermille = 200\n", b"").replace(
        b"version = 1", b"version = 1\nstep = [{excess = 1,\n permille = 200}]"
    ),
    AWARD.replace(b"[[step]]\nexcess = 1\npermille = 200\n", b"").replace(
        b"version = 1", b"version = 1\nstep = [{ # the only one }\nexcess = 1, permille = 200}]"
    ),
    *(
        AWARD.replace(b"tick = 1", b"tick = " + value)
        for value in (
            b"1979-05-27T07:32Z",
            b"1979-05-27T07:32",
            b"1979-05-27 07:32-07:00",
            b"1979-05-27T07:32:60Z",
            b"23:59:60",
            b"0000-01-01",
            b"{a = {b = 1}, }",
            b"{a = {b = 1},\n c = 2}",
            b"[{a = 1}, {b = [2,\n3],\nc = 4}]",
        )
    ),
]
# Awards that no TOML has, and such as keep a rule of TOML that Python doesn't ask for.
REFUSED = [
    (AWARD.replace(b"tick = 1", b"tick = "), "0 0"),
    (AWARD + b"x = [1, 2", "0 0"),
    (AWARD.replace(b"version = 1", b"version = 1\nx = {a = 1} y"), "0 0"),
    (AWARD.replace(b"version = 1", b"version = 1\nx = " + b"[" * 80 + b"]" * 80), "18 0"),
    (AWARD.replace(b"version = 1", b"version = 1\nx = " + b"[" * 81 + b"]" * 81), "0 0"),
    (AWARD.replace(b"version = 1", b"version = 1\n" + b".".join([b"x"] * 80) + b" = 1"), "18 0"),
    (AWARD.replace(b"version = 1", b"version = 1\n" + b" . ".join([b"x"] * 81) + b" = 1"), "0 0"),
    (AWARD.replace(b"version = 1", b"version = 1 # " + b"[" * 90 + b'\nx = "' + b"[" * 90 + b'"'), "18 0"),
    (AWARD.replace(b"version = 1", b"version = 1\nx = 1e400"), "0 0"),
    (AWARD.replace(b"version = 1", b"version = 1\nx = inf"), "18 0"),
    (AWARD.replace(b"version = 1", b"version = 1\nx = inf\ny = 1e400"), "0 0"),
    (AWARD.replace(b"version = 1", b"version = 1\ninf = -1e400"), "0 0"),
    (AWARD.replace(b"version = 1", b"version = 1\nx = [-inf, +inf, nan, 1e308]"), "18 0"),
    (AWARD.replace(b"version = 1", b"version = 1\n" + b"x" * 60_000 + b" = 1"), "18 0"),
    (AWARD.replace(b"version = 1", b"version = 1\n" + b"x." * 30_000 + b"x = 1"), "0 0"),
    (AWARD.replace(b"version = 1", b"version = 1\nx = 1" + b"0" * 60_000 + b".0"), "0 0"),
    (AWARD.replace(b"version = 1", b"version = 1\n" + b'\\""" "' * 10_000 + b"\\"), "0 0"),
    (
        AWARD.replace(
            b"version = 1", b"version = 1\nx = " + (b"{" + b".".join([b"x"] * 80) + b" = ") * 80 + b"1" + b"}" * 80
        ),
        "18 0",
    ),
    (AWARD.replace(b"tick = 1", b"tick = 07:32:00+24:00"), "0 0"),
    (AWARD.replace(b"version = 1", b"version = 1\nx = [{y = 9223372036854775808}]"), "0 0"),
    (AWARD.replace(b"version = 1", b"version = 1\nx = [{y = 9223372036854775807}]"), "18 0"),
    (AWARD + b"# \xff", "0 0"),
]


def run(name: str, *words: str | bytes, input: bytes | None = None) -> subprocess.CompletedProcess[bytes]:
    """How a tool ends as a program."""
    return subprocess.run([sys.executable, os.path.join(TOOLS, name), *words], capture_output=True, input=input)


class BesideTheOthers(unittest.TestCase):
    def test_drawn_cases(self) -> None:
        """The court's files, the rules and the program answer alike, and each kind of answer comes."""
        said: collections.Counter[str] = collections.Counter()
        with tempfile.TemporaryDirectory() as folder:
            for command, texts in itertools.islice(cases(random.Random(SEED)), NUMBER):
                found = answers(folder, command, texts, os.path.abspath(PROGRAM) if PROGRAM else None)
                with self.subTest(command=command, texts=texts):
                    self.assertTrue(is_alike(*found), found)
                said[found[1][0].split("\n")[0].rstrip("0123456789 ")] += 1
        for answer in (
            "yes",
            *(f"no {letter}" for letter in "CP"),
            *(f"cca: refused {kind}" for kind in ("award", "log", "book", "weights", "slots", "cert")),
        ):
            self.assertGreater(said[answer], 5, answer)

    def test_drawn_books(self) -> None:
        """tools/audit and the rules make the same book of an auction, which needs no certificate to be seen."""
        rng, made = random.Random(SEED), 0
        with tempfile.TemporaryDirectory() as folder:
            names = [os.path.join(folder, kind) for kind in ("award", "log")]
            for _ in range(BOOKS):
                award, log, _ = drawn(rng)
                for name, text in zip(names, (award, log)):
                    pathlib.Path(name).write_text(text)
                court, rules = books(*names)
                with self.subTest(award=names[0], log=names[1]):
                    self.assertTrue(is_alike(court, rules), (court, rules))
                made += court[1] == 0
        self.assertGreater(made, BOOKS // 2)


class Awards(unittest.TestCase):
    def answer(self, award: bytes) -> tuple[tuple[str, int], tuple[str, int]]:
        with tempfile.TemporaryDirectory() as folder:
            names = [os.path.join(folder, kind) for kind in ("award", "log", "cert")]
            for name, text in zip(names, (award, b"", b"")):
                pathlib.Path(name).write_bytes(text)
            return AUDIT.answer(names), rules_answer("audit", names)

    def test_no_verdict(self) -> None:
        for award in NEWER:
            with self.subTest(award=award):
                (text, status), read = self.answer(award)
                self.assertEqual((text[:11], status), ("no verdict:", NO_VERDICT))
                self.assertNotEqual(read, ("cca: refused award 0 0", 3))

    def test_refused(self) -> None:
        for award, numbers in REFUSED:
            with self.subTest(award=award):
                self.assertEqual(self.answer(award), ((f"cca: refused award {numbers}", 3),) * 2)


class Files(unittest.TestCase):
    def test_one_file_of_the_standard_library(self) -> None:
        for name in ("audit", "check"):
            text = (pathlib.Path(TOOLS) / name).read_text()
            self.assertLessEqual(text.count("\n"), 500)
            for node in ast.walk(ast.parse(text)):
                modules = [one.name for one in node.names] if isinstance(node, ast.Import) else []
                modules += [node.module or ""] if isinstance(node, ast.ImportFrom) else []
                self.assertLessEqual({module.split(".")[0] for module in modules}, set(sys.stdlib_module_names))

    def test_alone_in_a_folder(self) -> None:
        """Each answers if there is nothing of the repository but itself."""
        with tempfile.TemporaryDirectory() as folder:
            for name in ("audit", "check", "check-places"):
                shutil.copy(os.path.join(TOOLS, name), folder)
            given = [os.path.join(EXAMPLES, f"spectrum.{kind}") for kind in ("award", "log", "cert")]
            ended = subprocess.run(
                [os.path.join(folder, "audit"), *given], capture_output=True, env={"PATH": os.environ["PATH"]}
            )
            self.assertEqual((ended.stdout[:4], ended.returncode, ended.stderr), (b"yes\n", 0, b""))
            ended = subprocess.run([os.path.join(folder, "check-places"), "a", "b"], capture_output=True)
            self.assertEqual((ended.stdout, ended.returncode), (b"cca: read fault slots\n", 4))

    def test_version(self) -> None:
        with tempfile.TemporaryDirectory() as folder:
            os.mkdir(os.path.join(folder, "tools"))
            for name in ("audit", "check"):
                path = shutil.copy(os.path.join(TOOLS, name), os.path.join(folder, "tools"))
                self.assertEqual(subprocess.run([path, "--version"], capture_output=True).stdout, b"unknown\n")
                pathlib.Path(folder, "VERSION").write_text("1.2\n")
                self.assertEqual(subprocess.run([path, "--version"], capture_output=True).stdout, b"1.2\n")
                os.remove(os.path.join(folder, "VERSION"))

    def test_help(self) -> None:
        for name in ("audit", "check", "check-places"):
            for word in ("-h", "--help"):
                ended = run(name, word)
                self.assertEqual((ended.returncode, ended.stderr), (0, b""))
                self.assertIn(f"tools/{name} ".encode(), ended.stdout)
                self.assertIn(b"70 this program failed", ended.stdout)
        self.assertRegex(run("audit", "--help").stdout, rb"9 no\s+verdict")

    def test_words(self) -> None:
        rows = [
            ("audit", ()),
            ("audit", ("a", "b")),
            ("audit", ("a", "b", "c", "d")),
            ("audit", ("a", "b", "--help")),
            ("audit", ("a", "b", "a")),
            ("audit", ("a", "", "c")),
            ("audit", ("a", "b", "-x")),
            ("audit", ("--help", "-h")),
            ("check", ("a",)),
            ("check", ("a", "b", "c", "d")),
            ("check", ("a", "b", "-h")),
            ("check", ("a", "a")),
            ("check-places", ("a", "b", "c")),
            ("check-places", ("a", "--version")),
            ("check-places", ("-", "-")),
        ]
        for name, words in rows:
            with self.subTest(name=name, words=words):
                ended = run(name, *words)
                self.assertEqual((ended.stdout, ended.returncode), (b"cca: words\n", 2))
                self.assertTrue(ended.stderr.startswith(b"usage: tools/"))
                for word in words:
                    self.assertIn(ascii(word).encode(), ended.stderr)

    def test_no_control_character(self) -> None:
        """A control character of a word or of a crash doesn't reach the terminal."""
        self.assertNotIn(b"\x1b", run("audit", "a\x1b[2J").stderr)
        with tempfile.TemporaryDirectory() as folder:
            path = os.path.join(folder, "audit")
            text = (
                pathlib.Path(TOOLS, "audit")
                .read_text()
                .replace("        return audit(*words), 0\n", '        raise ValueError("\\x1b[2J")\n')
            )
            pathlib.Path(path).write_text(text)
            ended = subprocess.run([sys.executable, path, "a", "b", "c"], capture_output=True)
            self.assertEqual((ended.stdout, ended.returncode, b"\x1b" in ended.stderr), (b"", 70, False))
            self.assertIn(rb"ValueError('\x1b[2J')", ended.stderr)

    def test_a_crash_of_an_import(self) -> None:
        """Python without a part of its library, or without memory for it, gives no answer: 1 would be `no`."""
        with tempfile.TemporaryDirectory() as folder:
            pathlib.Path(folder, "fractions.py").write_text("raise MemoryError\n")
            for name, words in (("audit", "abc"), ("check", "ab"), ("check-places", "ab")):
                path = os.path.join(TOOLS, name)
                ended = subprocess.run(
                    [sys.executable, path, *words], capture_output=True, env={**os.environ, "PYTHONPATH": folder}
                )
                self.assertEqual((ended.stdout, ended.returncode), (b"", 70))
                self.assertIn(b"MemoryError", ended.stderr)

    def test_word_that_is_no_text(self) -> None:
        for name in ("audit", "check", "check-places"):
            ended = run(name, b"\xff", "b", "c")
            self.assertEqual((ended.stdout, ended.returncode, ended.stderr), (b"", 8, b""))

    def test_standard_input_and_output(self) -> None:
        award, log, cert = (os.path.join(EXAMPLES, f"spectrum.{kind}") for kind in ("award", "log", "cert"))
        ended = run("audit", award, "-", cert, input=sample("spectrum.log"))
        self.assertEqual((ended.stdout[:4], ended.returncode), (b"yes\n", 0))
        with open("/dev/full", "wb") as full:
            self.assertEqual(
                subprocess.run([os.path.join(TOOLS, "audit"), award, log, cert], stdout=full).returncode, 5
            )
            self.assertEqual(subprocess.run([os.path.join(TOOLS, "check"), "a", "b"], stdout=full).returncode, 5)

    def test_out_of_memory(self) -> None:
        with unittest.mock.patch.object(AUDIT, "audit", side_effect=MemoryError):
            self.assertEqual(AUDIT.answer(["a", "b", "c"]), ("cca: memory", 6))
        with unittest.mock.patch.object(CHECK, "Book", side_effect=MemoryError):
            self.assertEqual(
                CHECK.answer([os.path.join(EXAMPLES, "tie.book"), "b"], CHECK.check, 2), ("cca: memory", 6)
            )

    def test_a_full_draft_list(self) -> None:
        """Beyond 300 drafts a draft of another package isn't admitted, and one that takes the place of another is."""
        award = (
            AWARD.replace(b"supply = 3", b"supply = 17").replace(b"eligibility = 3", b"eligibility = 999")
            + b'[[category]]\nname = "other"\nsupply = 17\npoints = 1\nreserve = 10\n'
        )
        packages = [f"{a} {b}" for a in range(18) for b in range(18)][1:303]
        drafts = [f"draft,east,{package},{10 * sum(map(int, package.split()))}" for package in packages]
        more = [
            drafts[0],
            drafts[301],
            "drop,east,0 1,",
            drafts[301],
            "drop,east,9 9,",
            drafts[300],
            "submit,east,,",
            "close,,,",
        ]
        with tempfile.TemporaryDirectory() as folder:
            names = [os.path.join(folder, kind) for kind in ("award", "log")]
            pathlib.Path(names[0]).write_bytes(award)
            pathlib.Path(names[1]).write_bytes(lines(" / ".join(["close,,,", *drafts, *more])))
            court, rules = books(*names)
        self.assertEqual(court, rules)
        self.assertEqual(len(court[0][0]), 300)

    def test_many_lines(self) -> None:
        """At the limits of a log it takes seconds: each line is read once, and each package's cap is found once."""
        award = AWARD.replace(b"supply = 3", b"supply = 39").replace(b"eligibility = 3", b"eligibility = 39")
        drafts = [f"draft,east,{n},{10 * n}" for n in range(1, 40)]
        low = ["draft,east,39,389", "draft,east,39,4398046511105", "drop,west,1,", "submit,east,,", "submit,west,,"]
        for more in (["submit,east,,"], drafts, low):
            text = ["close,,,", *drafts, *(more * (99_900 // len(more))), "close,,,"]
            with tempfile.TemporaryDirectory() as folder:
                names = [os.path.join(folder, kind) for kind in ("award", "log")]
                pathlib.Path(names[0]).write_bytes(award)
                pathlib.Path(names[1]).write_text("\n".join(text))
                found, status = court_book(*names)
            assert isinstance(found, list)
            bids, _ = found
            self.assertEqual((status, len(bids)), (0, 39 if more != drafts else 0))

    def test_streams_that_fail(self) -> None:
        """Status 1 means `no`: closed or full streams, and a Python that is set up wrongly, end otherwise."""
        wrong = [*SPECTRUM[:2], os.path.join(EXAMPLES, "tie.book")]
        book = [os.path.join(EXAMPLES, f"day-cramton.{kind}") for kind in ("book", "weights")]
        cases: list[tuple[str, list[str], int]] = [
            ("audit", wrong, 3),
            ("check", book, 3),
            ("check-places", book, 3),
            ("audit", [], 2),
        ]
        for name, words, status in cases:
            ends: list[tuple[str, int, dict[str, str]]] = [
                ("2>&-", status, {}),
                ("2>/dev/full", status, {"PYTHONHOME": "/nothing"}),
                ("<&- 2>&-", status, {"PYTHONPATH": "/nothing:"}),
                (">&-", 5, {}),
                (">/dev/full 2>/dev/full", 5, {}),
            ]
            for streams, wanted, how in ends:
                with self.subTest(name=name, streams=streams):
                    script = ["sh", "-c", f'"$0" "$@" {streams}', os.path.join(TOOLS, name), *words]
                    ended = subprocess.run(script, capture_output=True, env={**os.environ, **how})
                    self.assertEqual(ended.returncode, wanted, ended)

    def test_a_crash_without_a_stream(self) -> None:
        """A crash ends with 70 also if its message can't be written."""
        with tempfile.TemporaryDirectory() as folder:
            for name in ("audit", "check"):
                path = pathlib.Path(folder, name)
                text = pathlib.Path(TOOLS, name).read_text()
                path.write_text(text.replace("    try:\n        return ", "    try:\n        return 1 // 0, "))
                for streams in ("2>&-", "2>/dev/full", "2>/dev/null", ">&- 2>&-"):
                    script = ["sh", "-c", f'"$0" "$@" {streams}', sys.executable, str(path), "a", "b", "c"]
                    self.assertEqual(subprocess.run(script, capture_output=True).returncode, 70, streams)

    def test_interrupted(self) -> None:
        """Ctrl-C ends with 130 and without a word."""
        for name, count in (("audit", 3), ("check", 2), ("check-places", 2)):
            with tempfile.TemporaryDirectory() as folder:
                pipe = os.path.join(folder, "pipe")
                os.mkfifo(pipe)
                words = [os.path.join(TOOLS, name), pipe, *(os.path.join(folder, str(n)) for n in range(1, count))]
                # (a job in the background has Ctrl-C ignored)
                with subprocess.Popen(
                    words, preexec_fn=take_interrupts, stdout=subprocess.PIPE, stderr=subprocess.PIPE
                ) as child:
                    with open(pipe, "wb"):  # the tool has opened it too, and waits for its bytes
                        child.send_signal(signal.SIGINT)
                        self.assertEqual((*child.communicate(), child.returncode), (b"", b"", 130))


if __name__ == "__main__":
    unittest.main()
