"""The program that CCA_PROGRAM names, run over files in a folder of its own.

The merge gate names the program that it has just proved and built. If no program is named, its tests are skipped.
"""

from __future__ import annotations

import os
import subprocess
import tempfile
import typing
import unittest

PROGRAM = os.environ.get("CCA_PROGRAM", "")
with_program = unittest.skipUnless(PROGRAM, "CCA_PROGRAM names no program")


class Ended(typing.NamedTuple):
    """What a run printed, its status, and the bytes of each file that it left."""

    printed: str
    status: int
    files: dict[str, bytes]


def run(*words: str, **files: str | bytes) -> Ended:
    """Runs the program with these arguments in a folder with only these files, each by its name here."""
    with tempfile.TemporaryDirectory() as folder:
        for name, text in files.items():
            with open(os.path.join(folder, name), "wb") as file:
                file.write(text.encode() if isinstance(text, str) else text)
        ended = subprocess.run(
            [os.path.abspath(PROGRAM or ""), *words], cwd=folder, stdin=subprocess.DEVNULL, capture_output=True
        )
        left = {name: read(os.path.join(folder, name)) for name in sorted(os.listdir(folder))}
    if ended.returncode < 0 or ended.stderr:
        raise AssertionError(f"cca {' '.join(words)}: status {ended.returncode}, {ended.stderr!r}")
    return Ended(ended.stdout.decode(), ended.returncode, left)


def read(path: str | os.PathLike[str]) -> bytes:
    """The bytes of a file."""
    with open(path, "rb") as file:
        return file.read()
