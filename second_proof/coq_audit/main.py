"""From the files to the verdict of Coq's kernel."""

import argparse
import contextlib
import errno
import os
import pathlib
import subprocess
import sys
import tempfile
from collections.abc import Iterator

from second_proof.coq_audit.plain import NotPlain, NotToml, plain_award, plain_log, without_comments
from second_proof.coq_audit.theorems import AUDIT, Kind, in_words, kind_of, proof

PROOFS = pathlib.Path(__file__).resolve().parent.parent
CLOSED = "Closed under the global context"
LIMITS = {"award": 65_536, "log": 8_388_608, "book": 1_048_576, "weights": 65_536, "slots": 65_536, "cert": 67_108_864}
STATUS = """status: 0 yes; 1 no, with the test that fails, and without a line `no ..` no verdict; 2 other words;
3 a file isn't of its form; 4 a file can't be read; 5 the output can't be written; 7 a limit is exceeded; 9 yes or no,
but of the plain spelling of a file that is spelled otherwise, or no verdict, as the award isn't TOML 1.0 and may be
TOML 1.1; 70 Coq or the build is missing, the kernel doesn't accept the proof, or a program failed; 130 it was
interrupted."""


class Stop(Exception):
    """The end of an audit without a verdict of the kernel: what is printed, and the status."""

    def __init__(self, status: int, line: str) -> None:
        super().__init__(line)
        self.status = status


@contextlib.contextmanager
def temporary_folder() -> Iterator[pathlib.Path]:
    """A new folder for temporary files, which is removed with the block."""
    try:
        with tempfile.TemporaryDirectory() as folder:
            yield pathlib.Path(folder)
    except OSError as fault:
        if fault.filename is not None and fault.errno != errno.ENOSPC:
            raise
        why = f"temporary files can't be written: {fault}; make room there, or set TMPDIR to a folder that has some"
        raise Stop(70, f"second_proof/audit: {why}") from fault


def words() -> argparse.Namespace:
    """The arguments of the call."""
    parser = argparse.ArgumentParser(
        prog="second_proof/audit",
        usage="%(prog)s [--plain FOLDER] [--keep FILE.v] (AWARD LOG CERT | BOOK CERT | BOOK WEIGHTS CERT | SLOTS CERT)",
        description="Has Coq's kernel prove of the bytes of these files that the winners and prices are right.",
        epilog=STATUS,
    )
    parser.add_argument("files", nargs="*", type=pathlib.Path, metavar="FILE")
    parser.add_argument(
        "--plain", type=pathlib.Path, metavar="FOLDER", help="write the plain spellings of award and log there"
    )
    parser.add_argument("--keep", type=pathlib.Path, metavar="FILE.v", help="keep the proof that the kernel is given")
    return parser.parse_args()


def read(name: str, path: pathlib.Path) -> bytes:
    """The bytes of a file, which aren't more than its limit."""
    try:
        with path.open("rb") as file:
            data = file.read(LIMITS[name] + 1)
    except OSError as fault:
        raise Stop(4, f"cca: read fault {name}") from fault
    if len(data) > LIMITS[name]:
        raise Stop(7, f"cca: limit bytes {len(data)}")
    return data


def within_limit(log: bytes) -> bytes:
    """A plain log without its last line feed if only that is beyond the limit, since the file has none there. (So long
    a log has a fault, as 100,000 records are shorter.)"""
    return log.removesuffix(b"\n") if len(log) == LIMITS["log"] + 1 else log


def plain_files(files: list[bytes]) -> list[bytes]:
    """Award, log and certificate, the first two in their plain spelling."""
    try:
        award = plain_award(files[0])
    except NotToml as fault:
        raise Stop(9, f"no verdict: {fault}. Write the award as TOML 1.0") from fault
    except NotPlain as fault:
        raise Stop(3, f"cca: refused award: {fault}") from fault
    try:
        return [award, within_limit(plain_log(files[1])), files[2]]
    except NotPlain as fault:
        raise Stop(3, f"cca: refused log: {fault}") from fault


def checked(kind: Kind, files: list[bytes], folder: pathlib.Path) -> list[str]:
    """The answer of the checker, which the kernel is to prove."""
    checker = PROOFS / "built" / "checker"
    if not checker.exists() or not (PROOFS / "Audit.vo").exists():
        raise Stop(70, "second_proof/audit: run second_proof/build first")
    paths = [folder / name for name in kind.files]
    for path, file in zip(paths, files, strict=True):
        path.write_bytes(file)
    done = subprocess.run([checker, kind.command, *paths], capture_output=True, text=True, check=False)
    said = done.stdout.splitlines() or [""]
    if done.returncode not in (0, 1, 3, 7) or said[0].split(" ")[0] not in ("yes", "no", "cca:"):
        raise Stop(70, f"second_proof/audit: the checker failed with status {done.returncode}")
    if done.returncode not in (0, 1):
        raise Stop(done.returncode, said[-1])
    return said


def accepted(path: pathlib.Path) -> None:
    """Has the kernel accept a proof, and stops if it doesn't."""
    try:
        done = subprocess.run(["coqc", "-Q", PROOFS, "", path], capture_output=True, text=True, check=False)
    except FileNotFoundError as fault:
        raise Stop(70, "second_proof/audit: no coqc. Debian has it in the package coq.") from fault
    if done.returncode != 0 or not done.stdout.rstrip().endswith(CLOSED):
        raise Stop(70, f"second_proof/audit: the kernel doesn't accept the proof\n{done.stdout}{done.stderr}")


def kind_and_files(paths: list[pathlib.Path]) -> tuple[Kind, list[bytes]]:
    """The kind of audit, and the bytes of its files, which are read in order."""
    if len(paths) not in (2, 3) or len(set(paths)) < len(paths):
        raise Stop(2, "cca: words")
    try:
        with paths[0].open("rb") as file:
            kind = kind_of(file.read(6), len(paths))
    except OSError as fault:
        raise Stop(4, f"cca: read fault {'award' if len(paths) == 3 else 'book'}") from fault
    if kind is None:
        raise Stop(2, "cca: words")
    return kind, [read(name, path) for name, path in zip(kind.files, paths, strict=True)]


def audited(paths: list[pathlib.Path], plain: pathlib.Path | None, keep: pathlib.Path | None) -> tuple[list[str], int]:
    """The lines of the verdict and of the theorem, and the status."""
    kind, files = kind_and_files(paths)
    spelled = plain_files(files) if kind is AUDIT else files
    if plain is not None:
        plain.mkdir(parents=True, exist_ok=True)
        for name, file in zip(kind.files, spelled, strict=True):
            (plain / name).write_bytes(file)
    if kind is AUDIT and without_comments(files[0]) == spelled[0]:
        spelled = [files[0], *spelled[1:]]  # Coq takes the comments away itself
    with temporary_folder() as folder:
        said = checked(kind, spelled, folder)
        path = folder / "this_audit.v"
        path.write_text(proof(kind, spelled, said))
        if keep is not None:
            keep.write_text(path.read_text())
        accepted(path)
    lines = [*said, "", "Coq's kernel has accepted this theorem, which rests on no axiom:", "", in_words(kind, said)]
    other = [name for name, file, text in zip(kind.files, files, spelled, strict=True) if file != text]
    if other:
        lines += [
            "",
            f"But these bytes are those of the plain spelling of the {' and the '.join(other)}, and your file is "
            "spelled otherwise.",
            "Write the plain spelling with --plain FOLDER, and compare it with your file.",
        ]
        return lines, 9
    return lines, 0 if said[0] == "yes" else 1


def need_output() -> None:
    """Ends with 5 if what argparse has printed can't be written."""
    try:
        if sys.stdout is not None:
            sys.stdout.flush()
            return
    except OSError:
        pass
    os._exit(5)


def main() -> None:
    """Audits the files of the call. Any other end than by `sys.exit` is a fault of this program."""
    try:
        args = words()
    except SystemExit:
        need_output()
        raise
    try:
        lines, status = audited(args.files, args.plain, args.keep)
    except Stop as stop:
        lines, status = [str(stop)], stop.status
    try:
        with open(1, "w", closefd=False) as out:
            print(*lines, sep="\n", file=out)
    except OSError:
        status = 5
    sys.exit(status)
