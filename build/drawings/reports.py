"""Makes the reports of examples/.

They are reports about the UK's sample and about Day and Cramton's book, each as a page, and the first also as a text.
It needs the program.
"""

from __future__ import annotations

import os
import pathlib
import subprocess

from checks.cases.limit_books import CCA, HERE, OUT, build_cca

ROOT = pathlib.Path(HERE).parent
EXAMPLES = ROOT / "examples"
REPORTS = {"spectrum.html": (), "spectrum.txt": ("--text",), "day-cramton.html": ()}


def files_of(name: str) -> list[pathlib.Path]:
    """The files of a report. The certificate of the sample is made by the program."""
    if name.startswith("day-cramton"):
        return [EXAMPLES / "day-cramton.book", EXAMPLES / "day-cramton.cert"]
    cert = pathlib.Path(OUT, "spectrum.cert")
    cert.unlink(missing_ok=True)
    files = [EXAMPLES / "spectrum.award", EXAMPLES / "spectrum.log"]
    subprocess.run([CCA, "award", *files, cert], check=True, stdout=subprocess.DEVNULL)
    return [*files, cert]


def made(name: str) -> str:
    how = {**os.environ, "CCA_PROGRAM": CCA}
    return subprocess.run(
        [ROOT / "tools" / "report", *REPORTS[name], *files_of(name)], check=True, stdout=subprocess.PIPE, env=how
    ).stdout.decode()


def main(root: pathlib.Path) -> None:
    """Writes the reports of examples/ below this folder."""
    build_cca()
    (root / "examples").mkdir(parents=True, exist_ok=True)
    for name in REPORTS:
        (root / "examples" / name).write_text(made(name))
