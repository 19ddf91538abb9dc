"""What the program prints of the samples."""

from __future__ import annotations

import pathlib
import subprocess

from checks.cases.limit_books import CCA, OUT

EXAMPLES = pathlib.Path(__file__).resolve().parents[2] / "examples"


def printed(command: str, *names: str, out: str, flags: tuple[str, ...] = ()) -> str:
    """What a command prints of samples; it appends to a fresh file of this name."""
    path = pathlib.Path(OUT, out)
    path.unlink(missing_ok=True)
    words = [CCA, command, *(str(EXAMPLES / name) for name in names), str(path), *flags]
    return subprocess.run(words, capture_output=True, text=True, check=True).stdout
