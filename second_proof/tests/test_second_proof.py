"""The second proof: the definitions that docs/SECOND_PROOF.md names, and if Coq is installed, its build and audits of
the sample."""

import csv
import hashlib
import pathlib
import shutil
import subprocess
import sys
import tempfile
import unittest

from checks.cases.program import PROGRAM, with_program

ROOT = pathlib.Path(__file__).resolve().parents[2]
SECOND = ROOT / "second_proof"
EXAMPLES = ROOT / "examples"
AWARD, LOG, CERT = (EXAMPLES / f"spectrum.{name}" for name in ("award", "log", "cert"))
NEEDED = "the second proof is skipped: it needs Coq and OCaml, apt-get install coq ocaml"
HAS_COQ = all(shutil.which(program) for program in ("coqc", "ocamlopt"))

from second_proof import quotes  # noqa: E402
from second_proof.coq_audit.main import LIMITS, plain_files  # noqa: E402
from second_proof.coq_audit.plain import NotPlain, plain_award, plain_log, without_comments  # noqa: E402
from second_proof.coq_audit.terms import Terms  # noqa: E402


def ended(*words: object) -> tuple[int, str]:
    """The status of a run and what it prints."""
    done = subprocess.run([str(word) for word in words], capture_output=True, text=True, check=False)
    return done.returncode, done.stdout


def sum_of_sources() -> str:
    """What decides what the build prints: the proofs, the programs, the samples and Coq's version. (The quotes have a
    test of their own.)"""
    made = {".vo", ".vok", ".vos", ".glob", ".aux", ".cache"}
    folders = SECOND, SECOND / "coq_audit", EXAMPLES
    files = sorted(path for folder in folders for path in folder.iterdir() if path.is_file())
    sources = [path for path in files if path.suffix not in made and "Makefile.coq" not in path.name]
    parts = [b"%d %b" % (len(data), data) for data in map(pathlib.Path.read_bytes, sources)]
    return hashlib.sha256(b"".join([ended("coqc", "--version")[1].encode(), *parts])).hexdigest()


def built_once() -> str:
    """The output of the build of these sources. It is kept next to what was built, so that only a change is proved
    again."""
    kept, made_of = SECOND / "built" / "said", sum_of_sources()
    if kept.exists() and kept.read_text().startswith(made_of):
        return kept.read_text().removeprefix(made_of)
    built = subprocess.run([SECOND / "build"], capture_output=True, text=True, check=False)
    if built.returncode != 0:
        raise AssertionError(f"second_proof/build: {built.stdout[-2000:]}{built.stderr[-2000:]}")
    kept.write_text(f"{made_of}\n{built.stdout}")
    return built.stdout


def setUpModule() -> None:
    """Reports what is skipped: unittest names it only with -v."""
    if not HAS_COQ:
        print(NEEDED, file=sys.stderr)


class Quotes(unittest.TestCase):
    """The definitions that the page sets next to each other are in the files of both proofs."""

    def test_quotes(self) -> None:
        """The page names definitions of both proofs, and each is found."""
        ends = [pathlib.Path(it.file).suffix for it in quotes.quotes()]
        self.assertGreater(ends.count(".antt"), 15)
        self.assertGreater(ends.count(".v"), 15)
        self.assertEqual(quotes.missing(), [])

    def test_rows(self) -> None:
        """A row names files and definitions, and a name that isn't a definition of its file is missing."""
        row = "| core | `auction_model/Prices.antt`: `offer`, `none_such` | `Rules.v`: `same`; `Lines.v`: `sam` | `x` |"
        read = list(quotes.quotes_of(row))
        self.assertEqual([it.name for it in read], ["offer", "none_such", "same", "sam"])
        self.assertEqual([bool(quotes.definition(it)) for it in read], [True, False, True, False])
        self.assertEqual(read[0].file, "crates/auction_model/specs/Prices.antt")
        self.assertEqual(read[3].file, "second_proof/Lines.v")

    def test_extracts(self) -> None:
        """A definition ends with its paragraph in Rattle, and with its sentence in Coq."""
        text = "-- one\npub a : T\na = 1\n\nab = 2\n"
        self.assertEqual(quotes.rattle_definition("a", text), "-- one\npub a : T\na = 1")
        self.assertEqual(quotes.rattle_definition("b", text), "")
        self.assertEqual(quotes.coq_definition("f", "Definition f := 1.\nDefinition fg := 2.\n"), "Definition f := 1.")
        self.assertEqual(quotes.coq_definition("g", "Definition fg := 2.\n"), "")


class Plain(unittest.TestCase):
    """The plain spelling of an award and of a log."""

    def test_award(self) -> None:
        """Comments are removed, and plain text stays unchanged."""
        plain = plain_award(AWARD.read_bytes())
        self.assertNotIn(b"#", plain)
        self.assertIn(b'\n\n[[bidder]]\nname = "everest"\neligibility = 80\nholding = [2, 0, 0, 0]\n', plain)
        self.assertEqual(plain_award(plain), plain)
        sample = (EXAMPLES / "sample.award").read_bytes()
        self.assertEqual(plain_award(sample), sample)

    def test_comments(self) -> None:
        """What is left without comments is plain; a mark within a field, or a control character, isn't a comment."""
        self.assertEqual(without_comments(AWARD.read_bytes()), plain_award(AWARD.read_bytes()))
        for text, bare in (
            ("a = 1  # b # c\n", "a = 1\n"),
            ("# a\n  #b\n\n#\na = 1 \n", "\na = 1 \n"),
            ('a = "#" #"\n', 'a = "#"\n'),
            ("a = 1#b\n", "a = 1#b\n"),
            ("a = 1 # \t\n", "a = 1 # \t\n"),
            ("  a = 1 # \u00e9", "  a = 1"),
        ):
            self.assertEqual(without_comments(text.encode()), bare.encode())

    def test_no_award(self) -> None:
        """What no award has isn't left out in silence."""
        award = AWARD.read_text()
        for old, new in (
            ("tick", "tack"),
            ("points", "pints"),
            ("tick = 100", "tick = 1.5"),
            ('"niche"', '"ni che"'),
            ("tick", "'"),
            ("100", "1" * 5000),
            ("[2, 0, 0, 0]", "5.5"),
        ):
            with self.assertRaises(NotPlain):
                plain_award(award.replace(old, new).encode())

    def test_log(self) -> None:
        """Quotes, other line ends and a byte order mark go."""
        log = LOG.read_bytes()
        self.assertEqual(plain_log(log), log)
        other = b"\xef\xbb\xbf" + log.replace(b"\n", b"\r\n").replace(b"everest", b'"everest"') + b"\r\n"
        self.assertEqual(plain_log(other), log)
        for faulty in (b'bid,"a,b",1,\n', b'bid,"a\nb",1,\n'):
            with self.assertRaises(NotPlain):
                plain_log(faulty)

    def test_limit_of_bytes(self) -> None:
        """A log of as many bytes as the limit stays within it, also if it lacks its last line feed."""
        award, limit = AWARD.read_bytes(), LIMITS["log"]
        for log in ((b"close,,,\n" * limit)[:limit], b"a" * limit):
            self.assertEqual(plain_files([award, log, b""])[1], log)
        ended_log = b"a" * (limit - 1) + b"\n"
        self.assertEqual(plain_files([award, ended_log, b""])[1], ended_log)
        self.assertEqual(plain_files([award, b"a", b""])[1], b"a\n")

    def test_limit_of_fields(self) -> None:
        """Reading a log leaves csv's limit of a field unchanged."""
        limit = csv.field_size_limit()
        plain_log(LOG.read_bytes())
        with self.assertRaises(NotPlain):
            plain_log(b'bid,"a,b",1,\n')
        self.assertEqual(csv.field_size_limit(), limit)


class Fields(unittest.TestCase):
    """The bytes of a file as terms of Coq."""

    def test_lines(self) -> None:
        """Equal fields and equal lines are defined once."""
        terms = Terms()
        terms.text("file", b"t 1 1\nt 1 1\n\n", " ")
        self.assertEqual(str(terms).count("Definition f_1 "), 1)
        self.assertIn("Definition line_0 : list string := [f_t; f_1; f_1].\n", str(terms))
        self.assertIn("Definition file : text := [line_0; line_0; line_1].\n", str(terms))

    def test_unended(self) -> None:
        """A last line without its line feed isn't the line that has one."""
        ended, unended = Terms(), Terms()
        ended.text("file", b"end\n", " ")
        unended.text("file", b"end", " ")
        self.assertIn(':= "end".', str(ended))
        self.assertIn(':= "end\n".', str(unended))


@unittest.skipUnless(HAS_COQ, NEEDED)
class SecondProof(unittest.TestCase):
    """The proofs, and both ways to audit the sample."""

    built: str
    folder: tempfile.TemporaryDirectory[str]
    plain: pathlib.Path
    other: tuple[int, str]

    @classmethod
    def setUpClass(cls) -> None:
        """Proves all and builds the checker."""
        cls.built = built_once()
        cls.folder = tempfile.TemporaryDirectory()
        cls.plain = pathlib.Path(cls.folder.name) / "plain"
        other = pathlib.Path(cls.folder.name) / "other"
        other.write_bytes(b"\xef\xbb\xbf" + AWARD.read_bytes().replace(b"tick = 100", b"tick = 0x64"))
        cls.other = ended(SECOND / "audit", "--plain", cls.plain, other, LOG, CERT)

    @classmethod
    def tearDownClass(cls) -> None:
        """Removes the plain files."""
        cls.folder.cleanup()

    def test_no_assumptions(self) -> None:
        """The headline, and the theorems of an audit, have no assumptions."""
        said = self.built.splitlines()
        for theorem in (
            "headline",
            "audit_yes",
            "audit_no",
            "one_award",
            "one_log",
            "one_cert",
            "quick_verdict_is",
            "audit_answer_long_is",
            "check_answer_long_is",
        ):
            self.assertIn(f"{theorem}: Closed under the global context", said)

    def test_comments(self) -> None:
        """The sample has comments, which Coq itself takes away: the acceptance is about its bytes."""
        status, printed = ended(SECOND / "audit", AWARD, LOG, CERT)
        self.assertEqual((status, printed[:4]), (0, "yes\n"))
        self.assertIn(
            "The log is complete, and its book holds exactly the bids that the activity rules admit.", printed
        )
        self.assertNotIn("otherwise", printed)

    def test_another_spelling(self) -> None:
        """The audit reports an award in another spelling, and its advice leads to an acceptance of the bytes."""
        status, printed = self.other
        self.assertEqual((status, printed[:4]), (9, "yes\n"))
        self.assertIn("the plain spelling of the award, and your file is spelled otherwise", printed)
        status, printed = ended(SECOND / "audit", self.plain / "award", LOG, CERT)
        self.assertEqual((status, printed[:4]), (0, "yes\n"))

    def test_no_verdict(self) -> None:
        """A run without an acceptance or a rejection by the kernel never ends with their statuses."""
        folder = pathlib.Path(self.folder.name)
        newer, odd = folder / "newer.award", folder / "odd.award"
        newer.write_text(AWARD.read_text().replace("tick = 100", 'tick = 100\nx = "\\e"'))
        odd.write_text(AWARD.read_text().replace("holding = [2, 0, 0, 0]", "holding = 5"))
        long = folder / "long"
        long.write_bytes(b"#" * 65_537)
        records, field = folder / "records.log", folder / "field.log"
        records.write_bytes((b"close,,,\n" * 1_000_000)[: LIMITS["log"]])
        field.write_bytes(b"a" * LIMITS["log"])
        for words, status, line in (
            ((newer, LOG, CERT), 9, "no verdict: the award isn't TOML 1.0"),
            ((odd, LOG, CERT), 3, "cca: refused award"),
            ((folder / "nothing", LOG, CERT), 4, "cca: read fault award"),
            ((folder / "nothing", CERT), 4, "cca: read fault book"),
            ((AWARD, folder / "nothing", CERT), 4, "cca: read fault log"),
            ((long, LOG, CERT), 7, "cca: limit bytes 65537"),
            ((AWARD, records, CERT), 7, "cca: limit records 100001"),
            ((AWARD, field, CERT), 3, "cca: refused log"),
            ((AWARD, AWARD, AWARD, AWARD, AWARD), 2, "cca: words"),
            ((AWARD, LOG, LOG), 2, "cca: words"),
            ((), 2, "cca: words"),
            (("--plain", "/proc/nothing", AWARD, LOG, CERT), 70, ""),
        ):
            with self.subTest(words=words):
                got, printed = ended(SECOND / "audit", *words)
                self.assertEqual((got, printed[: len(line)]), (status, line))
        with open("/dev/full", "wb") as full:
            files = [SECOND / "audit", AWARD, "/dev/null", CERT]
            self.assertEqual(subprocess.run(list(map(str, files)), stdout=full, check=False).returncode, 5)

    def test_checker(self) -> None:
        """The checker prints the lines of the kernel's audit, and takes comments of an award, but no other spelling."""
        status, printed = ended(SECOND / "built" / "checker", "audit", self.plain / "award", LOG, CERT)
        self.assertEqual(status, 0)
        self.assertEqual(self.other[1].split("\n\n")[0] + "\n", printed)
        self.assertEqual(ended(SECOND / "built" / "checker", "audit", AWARD, LOG, CERT), (0, printed))
        other = pathlib.Path(self.folder.name) / "other"
        self.assertEqual(ended(SECOND / "built" / "checker", "audit", other, LOG, CERT), (3, "cca: refused award\n"))

    def test_refusals(self) -> None:
        """A test that fails is named, and so is a log that isn't complete."""
        cert, log = pathlib.Path(self.folder.name) / "cert", pathlib.Path(self.folder.name) / "log"
        cert.write_text(CERT.read_text().replace("pay 47400 30000", "pay 47401 29999"))
        status, printed = ended(SECOND / "audit", self.plain / "award", LOG, cert)
        self.assertEqual((status, printed.splitlines()[0][:4]), (1, "no C"))
        self.assertIn("is the first that fails", printed)
        log.write_text("".join(LOG.read_text().splitlines(keepends=True)[:40]))
        self.assertEqual(ended(SECOND / "audit", self.plain / "award", log, CERT), (3, "cca: refused log 41\n"))

    def test_order_of_files(self) -> None:
        """A log that isn't complete is reported before a certificate that isn't there or is too long."""
        folder = pathlib.Path(self.folder.name)
        cut, large, nowhere = folder / "cut.log", folder / "large.cert", folder / "nowhere"
        cut.write_text("".join(LOG.read_text().splitlines(keepends=True)[:40]))
        large.write_bytes(b"c" * (LIMITS["cert"] + 1))
        for log, cert, status, said in (
            (cut, nowhere, 3, "cca: refused log 41\n"),
            (cut, large, 3, "cca: refused log 41\n"),
            (LOG, nowhere, 4, "cca: read fault cert\n"),
            (LOG, large, 7, f"cca: limit bytes {LIMITS['cert'] + 1}\n"),
        ):
            with self.subTest(log=log.name, cert=cert.name):
                audited = ended(SECOND / "built" / "checker", "audit", self.plain / "award", log, cert)
                self.assertEqual(audited, (status, said))

    def test_long_logs(self) -> None:
        """The limit of records, after a fault of an earlier one, and numbers that are too long for any log."""
        log, bid = pathlib.Path(self.folder.name) / "long.log", "bid,everest,0 0 0 1,\n"
        for text, status, said in (
            (bid * 100_000, 3, "cca: refused log 100001\n"),
            (bid * 100_001, 7, "cca: limit records 100001\n"),
            (bid * 200_000, 7, "cca: limit records 100001\n"),
            (bid * 100_000 + "faulty\n", 7, "cca: limit records 100001\n"),
            ("faulty\n" + bid * 100_000, 3, "cca: refused log\n"),
            ("bid,everest,0 0 0 999999,\n", 3, "cca: refused log\n"),
            (f"bid,everest,0 0 0 {'9' * 1_000_000},\n", 3, "cca: refused log\n"),
        ):
            log.write_text(text)
            with self.subTest(text=text[:40], count=text.count("\n")):
                audited = ended(SECOND / "built" / "checker", "audit", self.plain / "award", log, CERT)
                self.assertEqual(audited, (status, said))

    def test_no_room(self) -> None:
        """A checker that runs out of stack has no verdict, and its status isn't the status of a rejection."""
        award = pathlib.Path(self.folder.name) / "many.award"
        head, step, rest = (self.plain / "award").read_text().partition("\n[[step]]")
        bidders = (f'\n[[bidder]]\nname = "b{number}"\neligibility = 8\n' for number in range(1500))
        award.write_text(f"{head}{''.join(bidders)}{step}{rest}")
        command = f"ulimit -s 64; exec {SECOND}/built/checker audit {award} {LOG} {CERT}"
        done = subprocess.run(["sh", "-c", command], capture_output=True, text=True, check=False)
        self.assertEqual((done.returncode, done.stdout), (70, ""))
        self.assertEqual(done.stderr, "checker: there is not enough memory, so there is no answer\n")

    @with_program
    def test_program(self) -> None:
        """The program prints what the checker prints."""
        checker, program = (
            ended(*command, self.plain / "award", LOG, CERT)
            for command in ((SECOND / "built" / "checker", "audit"), (PROGRAM, "audit"))
        )
        self.assertEqual(checker, program)
