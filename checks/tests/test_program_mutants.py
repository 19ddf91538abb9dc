"""The program compared with the second one on a fixed corpus of mutants of each kind of file, made from their numbers.

Each mutant is a sample with a few changes, as a fuzzer makes them: flipped bits, numbers at a limit, lines and blocks
that are moved, cut or repeated. Statuses and lines have to be the same as the second program's.
"""
import hashlib
import os
import random
import re
import subprocess
import sys
import tempfile
import unittest
from checks.cases.program import PROGRAM, with_program
from checks.cases.samples import TOOLS, sample

CCA = os.path.abspath(PROGRAM or "")
SECONDS = 60
NUMBERS = [
    b"0",
    b"1",
    b"999",
    b"1000",
    b"65535",
    b"65536",
    b"4398046511105",
    b"18446744073709551616",
    b"-1",
    b"007",
    b"1e3",
    b"+5",
]
BYTES = [b"\0", b'"', b",", b" ", b"\r", b"\n", b"\xff", b"\xef\xbb\xbf", b"#", b"'''", b"\\"]
# For each kind of file: the arguments of `cca` and of the tool. A mutant takes the place of the file of its name.
KINDS = {
    "award": (("audit", "award", "log", "cert"), ("audit", "award", "log", "cert")),
    "log": (("audit", "award", "log", "cert"), ("audit", "award", "log", "cert")),
    "cert": (("check", "book", "cert"), ("check", "book", "cert")),
    "book": (("check", "book", "cert"), ("check", "book", "cert")),
    "weights": (("weigh-check", "book", "weights", "weighed"), ("check", "book", "weighed", "weights")),
    "slots": (("place-check", "slots", "placed"), ("check-places", "slots", "placed")),
    "placed": (("place-check", "slots", "placed"), ("check-places", "slots", "placed")),
    "edits": (("review", "book", "edits"), ("explain", "review", "book", "edits")),
}
EACH = 12
# The checksums of all mutants of a kind, so that the corpus stays unchanged.
SUMS = {
    "award": "427cb9ee8962117e",
    "log": "361a91356576a905",
    "cert": "7fffe304874a220e",
    "book": "bb10568747bb2351",
    "weights": "689cc17d7dc2c8d1",
    "slots": "f765c556856b714d",
    "placed": "3e90572dd4612600",
    "edits": "52c269f5a2bcba21",
}


def changed(rng: random.Random, text: bytes) -> bytes:
    """The text with one change."""
    i, j = sorted((rng.randrange(len(text) + 1), rng.randrange(len(text) + 1)))
    kind = rng.randrange(8)
    if kind == 0 and text:
        at = min(i, len(text) - 1)
        return text[:at] + bytes([text[at] ^ 1 << rng.randrange(8)]) + text[at + 1 :]
    if kind == 1:
        return text[:i] + rng.choice(BYTES) + text[i:]
    if kind == 2:
        return text[:i] + text[j:]
    if kind == 3:
        return text[:j] + text[i:]
    if kind == 4:
        lines = text.splitlines(keepends=True) or [b"\n"]
        a, b = rng.randrange(len(lines)), rng.randrange(len(lines))
        lines[a], lines[b] = lines[b], lines[a]
        return b"".join(lines)
    found = list(re.finditer(rb"\d+", text))
    if not found:
        return text + rng.choice(NUMBERS)
    number = rng.choice(found)
    near = str(max(0, int(number[0][:30]) + rng.randrange(-3, 4))).encode()
    return text[: number.start()] + (rng.choice(NUMBERS) if kind == 5 else near) + text[number.end() :]


def mutant(kind: str, number: int, text: bytes) -> bytes:
    """The mutant of this number, with one to three changes."""
    rng = random.Random(f"{kind} {number}")
    for _ in range(rng.choice((1, 1, 2, 3))):
        text = changed(rng, text)
    return text


@with_program
class Mutants(unittest.TestCase):
    folder: str
    texts: dict[str, bytes]

    @classmethod
    def setUpClass(cls) -> None:
        super().setUpClass()
        folder = tempfile.TemporaryDirectory()
        cls.addClassCleanup(folder.cleanup)
        cls.folder = folder.name
        cls.texts = {
            "award": sample("spectrum.award"),
            "log": sample("spectrum.log"),
            "book": sample("day-cramton.book"),
            "weights": sample("day-cramton.weights"),
            "slots": sample("band.slots"),
            "edits": sample("day-cramton.edits"),
        }
        cls.fill({})
        for words in (
            ("award", "award", "log", "cert_of_log"),
            ("price", "book", "cert"),
            ("weigh", "book", "weights", "weighed"),
            ("place", "slots", "placed"),
        ):
            cls.ended(CCA, *words)
        for name in ("cert_of_log", "cert", "weighed", "placed"):
            with open(os.path.join(cls.folder, name), "rb") as file:
                cls.texts[name] = file.read()

    @classmethod
    def fill(cls, others: dict[str, bytes]) -> None:
        for name, text in {**cls.texts, **others}.items():
            with open(os.path.join(cls.folder, name), "wb") as file:
                file.write(text)

    @classmethod
    def ended(cls, *words: str) -> tuple[int, bytes]:
        made = subprocess.run(words, cwd=cls.folder, stdin=subprocess.DEVNULL, capture_output=True, timeout=SECONDS)
        return made.returncode, made.stdout

    def told(self, kind: str, text: bytes) -> tuple[tuple[int, bytes], tuple[int, bytes]]:
        """What both programs answer to this mutant."""
        self.fill({kind: text})
        ours, theirs = (
            [("cert_of_log" if word == "cert" and "audit" in words else word) for word in words]
            for words in KINDS[kind]
        )
        tool = [sys.executable, os.path.join(TOOLS, theirs[0]), *theirs[1:]]
        return self.ended(CCA, *ours), self.ended(*tool)

    def test_the_corpus_is_the_same(self) -> None:
        for kind in KINDS:
            text = b"".join(mutant(kind, number, self.texts[kind]) for number in range(EACH))
            self.assertEqual(hashlib.sha256(text).hexdigest()[:16], SUMS.get(kind), kind)

    def test_both_programs_say_the_same(self) -> None:
        for kind in KINDS:
            lines = set()
            for number in range(EACH):
                with self.subTest(kind=kind, number=number):
                    text = mutant(kind, number, self.texts[kind])
                    ours, theirs = self.told(kind, text)
                    if kind == "edits":
                        # `explain` prints the reviews as sentences; the line of a fault is the same.
                        ours, theirs = (
                            (status, out if status else b"")
                            for status, out in (ours, (theirs[0], theirs[1].partition(b"\n")[0] + b"\n"))
                        )
                    self.assertEqual(ours, theirs, text[:2000])
                    lines.add(ours[1].partition(b"\n")[0])
            self.assertGreater(len(lines), 1 if kind == "edits" else 2, kind)
