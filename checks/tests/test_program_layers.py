"""The program on overlayfs: a file gets another inode once it is opened for writing.

Each run has a mount in a namespace of its own. If the machine allows no such mount, these tests are skipped, and a line
says so.
"""

import contextlib
import os
import subprocess
import sys
import tempfile
import typing
import unittest

from checks.cases.program import PROGRAM, read, with_program
from checks.cases.samples import sample

SECONDS = 60
CCA = os.path.abspath(PROGRAM or "")
NAMESPACE = ["unshare", "--mount"] if os.geteuid() == 0 else ["unshare", "--mount", "--map-root-user"]
# Runs the command in the merged folder, and then copies its files.
MOUNTED = """
mount -t overlay overlay -o lowerdir=lower,upperdir=upper,workdir=work merged || exit 99
cd merged && "$@"
status=$?
cp -- * ../left && exit "$status"
"""
KEPT = b"kept\n"
LOWER = {
    "award": sample("spectrum.award"),
    "log": sample("spectrum.log"),
    "book": sample("day-cramton.book"),
    "weights": sample("day-cramton.weights"),
    "slots": sample("band.slots"),
    "held": KEPT,
}
# Each command with the files that it reads.
COMMANDS = {
    "award": ("award", "log"),
    "price": ("book",),
    "auction": ("award", "log"),
    "weigh": ("book", "weights"),
    "place": ("slots",),
}


class Ended(typing.NamedTuple):
    status: int
    printed: bytes
    files: dict[str, bytes]


def run(*words: str) -> Ended:
    """Runs this command over a lower layer where each file has a second name, `NAME.link`."""
    with tempfile.TemporaryDirectory() as folder:
        for name in ("lower", "upper", "work", "merged", "left"):
            os.mkdir(os.path.join(folder, name))
        for name, text in LOWER.items():
            path = os.path.join(folder, "lower", name)
            with open(path, "wb") as file:
                file.write(text)
            os.link(path, path + ".link")
        ended = subprocess.run(
            [*NAMESPACE, "sh", "-c", MOUNTED, "sh", *words],
            cwd=folder,
            stdin=subprocess.DEVNULL,
            capture_output=True,
            timeout=SECONDS,
        )
        left = os.path.join(folder, "left")
        files = {name: read(os.path.join(left, name)) for name in os.listdir(left)}
        return Ended(ended.returncode, ended.stdout, files)


def can_mount() -> bool:
    """Whether this machine allows a mount of layers in a namespace, and a file there gets another inode."""
    with contextlib.suppress(OSError, subprocess.SubprocessError):
        ended = run("sh", "-c", "stat -c %d:%i held; : >> held; stat -c %d:%i held")
        return ended.status == 0 and len(set(ended.printed.split())) == 2
    return False


UNMOUNTED = "this machine allows no overlay mount in a namespace: nothing was run over layers of files"
MOUNTS = bool(PROGRAM) and can_mount()
if PROGRAM and not MOUNTS:
    print(UNMOUNTED, file=sys.stderr)
with_layers = unittest.skipUnless(MOUNTS, UNMOUNTED)


@with_program
@with_layers
class Layers(unittest.TestCase):
    def keeps_all(self, ended: Ended) -> None:
        for name, text in LOWER.items():
            self.assertEqual(ended.files[name], text, name)
            self.assertEqual(ended.files[name + ".link"], text, name)

    def test_nothing_is_appended_to_a_file_that_was_read(self) -> None:
        for command, names in COMMANDS.items():
            role = "book" if command == "auction" else "cert"
            for name in names:
                for other in (f"./{name}", f"{name}.link"):
                    with self.subTest(command=command, other=other):
                        ended = run(CCA, command, *names, other)
                        self.assertEqual((ended.status, ended.printed), (5, f"cca: write fault {role}\n".encode()))
                        self.keeps_all(ended)

    def test_one_file_takes_one_text(self) -> None:
        """The first text copies the file up, so the file has its second identity before the second text."""
        text = run(CCA, "make", "7", "new", "log.new").files["new"]
        for other in ("./held", "held.link"):
            ended = run(CCA, "make", "7", "held", other)
            self.assertEqual((ended.status, ended.printed), (5, b"cca: write fault log\n"))
            self.assertEqual((ended.files["held"], ended.files["held.link"]), (KEPT + text, KEPT))

    def test_a_file_that_was_not_read_takes_its_text(self) -> None:
        whole = run(CCA, "price", "book", "new")
        self.assertEqual(whole.status, 0)
        ended = run(CCA, "price", "book", "held")
        self.assertEqual((ended.status, ended.printed), (0, whole.printed))
        self.assertEqual((ended.files["held"], ended.files["held.link"]), (KEPT + whole.files["new"], KEPT))

    def test_nothing_goes_into_the_output(self) -> None:
        ended = run("sh", "-c", 'exec "$0" price book held >> held', CCA)
        self.assertEqual((ended.status, ended.printed), (5, b""))
        self.keeps_all(ended)
