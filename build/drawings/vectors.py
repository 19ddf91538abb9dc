"""Writes vectors/: the cases and their files.

The answers come from the court's own files and from the rules of cca_tools, which have to agree, and from the program
too if CCA_PROGRAM names it.

If a case has a written answer, it has to get this answer. It needs python3.
"""

from __future__ import annotations

import os
import pathlib
import shutil
import tempfile
from collections.abc import Collection, Sequence

from cca_tools.rules.book import Book
from cca_tools.rules.stops import Stop
from checks.cases.second_auctions import second_auction
from checks.cases.voices import FILES, books, court_answer, is_alike, program_answer, rules_answer, rules_book

PROGRAM = os.environ.get("CCA_PROGRAM") and os.path.abspath(os.environ["CCA_PROGRAM"])


class Vectors:
    """The cases so far, and the bytes of the files that they name."""

    def __init__(self, folder: str) -> None:
        self.folder = folder
        self.files: dict[str, bytes] = {}
        self.blocks: list[str] = []
        self.names: set[str] = set()
        self.auctions: list[
            tuple[str, str, bytes, bytes]
        ] = []  # of each case of `auction` its name, why, award and log

    def file(self, name: str, text: bytes, others: Collection[str]) -> str:
        """The name of a file with this text: the earlier file if the texts are the same, unless it is among others."""
        known = next((known for known, one in self.files.items() if one == text and known not in others), name)
        if self.files.setdefault(known, text) != text:
            raise ValueError(f"two files {name}")
        pathlib.Path(self.folder, known).write_bytes(text)
        return known

    def case(
        self,
        name: str,
        why: str,
        command: str,
        texts: Sequence[bytes | str],
        answer: str | None = None,
        made: Sequence[tuple[str, int, str]] = (),
    ) -> None:
        """A case of a command: its texts, or names of files as str that are there or missing, and the first line of its
        answer if it is known."""
        if name in self.names:
            raise ValueError(f"two cases {name}")
        self.names.add(name)
        if command == "auction":
            award, log = (text for text in texts[:2] if isinstance(text, bytes))
            self.auctions.append((name, why, award, log))
        kinds = FILES.get(command, ("award", "log", "book"))
        words: list[str] = []
        for kind, text in zip(kinds + ("more",) * 3, texts):
            words.append(text if isinstance(text, str) else self.file(f"{name}.{kind}", text, words))
        for file, count, text in made:
            pathlib.Path(self.folder, file).write_text(text * count)
        printed, status = self.answer(command, words)
        if (
            answer is not None
            and printed.split("\n")[0] != answer
            and not (answer[:2] == "* " and answer[2:] in printed.split("\n"))
        ):
            raise AssertionError(f"{name}: {printed!r} and not {answer!r}")
        block = [
            f"case {name}",
            f"why {why}",
            *(f"make {file} {count} " + text.replace("\n", "\\n") for file, count, text in made),
        ]
        block += [
            f"run {command} {' '.join(words)}".rstrip(),
            f"status {status}",
            *(f"| {line}" for line in printed.split("\n")),
        ]
        self.blocks.append("\n".join(block))

    def answer(self, command: str, words: Sequence[str]) -> tuple[str, int]:
        """What is printed, and the status; all voices have to agree on them."""
        paths = [
            word if word == "/dev/null" else os.path.join(self.folder, word) if word and word[0] != "-" else word
            for word in words
        ]
        said = [court_answer(command, paths) if command in FILES else auction_answer(paths)]
        if command not in FILES and not is_alike(*books(paths[0], paths[1])):
            raise AssertionError(f"{words}: the books are {books(paths[0], paths[1])}")
        if command in FILES and said[0] != ("cca: words", 2):
            said.append(rules_answer(command, paths))
        if PROGRAM:
            said.append(program_answer(PROGRAM, command, paths))
        if len(set(said)) > 1:
            raise AssertionError(f"{command} {words}: {said}")
        return said[0]

    def book(self, award: bytes, log: bytes) -> Book | None:
        """The book of an award and a log, or None if there is none; the voices have to agree on it."""
        paths = [os.path.join(self.folder, f"a-book.{kind}") for kind in ("award", "log")]
        for path, text in zip(paths, (award, log)):
            pathlib.Path(path).write_bytes(text)
        court, rules = books(*paths)
        if court != rules:
            raise AssertionError(f"the books are {court} and {rules}")
        try:
            return rules_book(dict(zip(("award", "log"), paths)))
        except Stop:
            return None


def auction_answer(paths: Sequence[str]) -> tuple[str, int]:
    """What `auction` prints of an award and a log, and the status."""
    printed, _, status = second_auction(paths[0], paths[1])
    return printed.removesuffix("\n"), status


def main(root: pathlib.Path) -> None:
    """Writes vectors/ below this folder."""
    from checks.cases.vectors_of.maker import add_all

    with tempfile.TemporaryDirectory() as folder:
        vectors = Vectors(folder)
        add_all(vectors)
        kept = root / "vectors"
        shutil.rmtree(kept / "files", ignore_errors=True)
        os.makedirs(kept / "files")
        for name in vectors.files:
            shutil.copy(os.path.join(folder, name), kept / "files" / name)
    (kept / "cases").write_text("\n\n".join(vectors.blocks) + "\n")
    length = sum(map(len, vectors.files.values()))
    print(f"{len(vectors.blocks)} cases, {len(vectors.files)} files, {length} bytes, {2 + bool(PROGRAM)} voices")
