"""Refuses each single request of memory of a command in turn, one in a run.

The commands are `award`, `audit` and `auction` on the sample in the form of the UK's award, `price` and `check` on
books of one and of several turns, `place` and `place-check` on a band, and `review` on edits of each kind. After a
refused request the run has to end with out of memory, only its line printed and every file unchanged, or with the
result of a run where nothing is refused, if the program can do without the memory. A request that comes before `main`
has its arguments may end it with 6 and no line. The desk is tested in the same way, by its replays of logs with each
kind of line: a line whose reply is out of memory is handed in again, and all replies have to be the same as those from
a desk that never saw it refused. It prints, for each command and for the desk, how many requests it makes and how the
runs ended. It needs a C compiler, python3 and a program that is linked to the system's library.
"""

from __future__ import annotations

import collections
import os
import subprocess
import sys
import tempfile
from collections.abc import Mapping, Sequence
from typing import TypeAlias

from checks.cases.limit_books import CCA, HERE, build_cca

EXAMPLES = os.path.join(HERE, "..", "examples")
TESTS = os.path.join(HERE, "..", "crates", "auction_tests")
REPLAYS = "desks::replays_are_as_worked_out"
NO_BOOK = "no memory\\n"
# The status of a run, what it printed, its errors, and the files that it left.
Ended: TypeAlias = tuple[int, bytes, bytes, dict[str, bytes]]
HELD = b"held before\n"
MEMORY = 6

# Refuses the request whose number is in REFUSED, and reports this by making the file TOLD.
REFUSER = r"""
#include <errno.h>
#include <fcntl.h>
#include <stdlib.h>
#include <unistd.h>
extern void *__libc_malloc(size_t), *__libc_calloc(size_t, size_t);
extern void *__libc_realloc(void *, size_t), *__libc_memalign(size_t, size_t);
static long refused = -1, seen;
static const char *told;
__attribute__((constructor)) static void begin(void) {
    const char *number = getenv("REFUSED");
    told = getenv("TOLD");
    refused = number ? atol(number) : -1;
    seen = 0;
}
static int is_refused(void) {
    if (refused < 0 || ++seen != refused) return 0;
    int file = open(told, O_CREAT | O_WRONLY, 0600);
    if (file >= 0) close(file);
    errno = ENOMEM;
    return 1;
}
void *malloc(size_t n) { return is_refused() ? 0 : __libc_malloc(n); }
void *calloc(size_t n, size_t m) { return is_refused() ? 0 : __libc_calloc(n, m); }
void *realloc(void *p, size_t n) { return is_refused() ? 0 : __libc_realloc(p, n); }
void *memalign(size_t a, size_t n) { return is_refused() ? 0 : __libc_memalign(a, n); }
void *aligned_alloc(size_t a, size_t n) { return memalign(a, n); }
int posix_memalign(void **p, size_t a, size_t n) {
    void *got = memalign(a, n);
    if (!got) return ENOMEM;
    *p = got;
    return 0;
}
"""


def build_refuser(folder: str) -> str:
    source, library = os.path.join(folder, "refuser.c"), os.path.join(folder, "refuser.so")
    with open(source, "w") as f:
        f.write(REFUSER)
    subprocess.run(["cc", "-shared", "-fPIC", "-O1", "-o", library, source], check=True)
    return library


def contents(folder: str) -> dict[str, bytes]:
    found = {}
    for name in sorted(os.listdir(folder)):
        with open(os.path.join(folder, name), "rb") as f:
            found[name] = f.read()
    return found


def run(library: str, words: Sequence[str], files: Mapping[str, bytes], refused: int) -> tuple[Ended, bool]:
    """One run in a folder with these files: its status, what it printed, the files that it left, and whether a request
    was refused."""
    with tempfile.TemporaryDirectory() as folder, tempfile.TemporaryDirectory() as aside:
        for name, text in files.items():
            with open(os.path.join(folder, name), "wb") as f:
                f.write(text)
        told = os.path.join(aside, "told")
        setting = {"PATH": os.environ["PATH"], "LD_PRELOAD": library, "REFUSED": str(refused), "TOLD": told}
        ended = subprocess.run(
            [CCA, *words], cwd=folder, env=setting, stdin=subprocess.DEVNULL, capture_output=True, timeout=60
        )
        return (ended.returncode, ended.stdout, ended.stderr, contents(folder)), os.path.exists(told)


def kind_of(ended: Ended, whole: Ended, files: Mapping[str, bytes]) -> str | None:
    """How a run ended, compared with one without a refusal, or None if it must not end so."""
    status, printed, errors, behind = ended
    if ended == whole:
        return "done all the same"
    if status == MEMORY and not errors and behind == files and printed in (b"cca: memory\n", b""):
        return "out of memory" if printed else "out of memory, no line"
    return None


def each_request(library: str, name: str, words: Sequence[str], files: Mapping[str, bytes]) -> tuple[int, Ended]:
    whole, _ = run(library, words, files, 0)
    if whole[0] != 0:
        sys.exit(f"{name}: ended with {whole[0]} where nothing was refused: {whole[1][:100]!r}")
    ends: collections.Counter[str] = collections.Counter()
    number = 0
    while True:
        number += 1
        ended, was_refused = run(library, words, files, number)
        if not was_refused:
            break
        kind = kind_of(ended, whole, files)
        if kind is None:
            print(
                f"{name}: request {number}: status {ended[0]}, printed {ended[1][:60]!r}, errors {ended[2][:200]!r}, "
                f"files changed {ended[3] != files}"
            )
        ends[kind or "wrong"] += 1
    print(
        f"{name:<12}{number - 1:>6} requests  " + ", ".join(f"{kind} {count}" for kind, count in sorted(ends.items())),
        flush=True,
    )
    return ends["wrong"], whole


def replays(library: str, program: str, refused: int) -> tuple[int, str, bool]:
    """One run of the replays of the desk's tests: its status and errors, and whether a request was refused."""
    with tempfile.TemporaryDirectory() as aside:
        told = os.path.join(aside, "told")
        setting = {"LD_PRELOAD": library, "REFUSED": str(refused), "TOLD": told}
        ended = subprocess.run(
            [program, REPLAYS], env=setting, stdin=subprocess.DEVNULL, capture_output=True, timeout=60
        )
        return ended.returncode, ended.stderr.decode(), os.path.exists(told)


def kind_of_replays(status: int, errors: str) -> str | None:
    """How the replays ended, or None if they must not end so: before the desk, in the test's own texts, in a book,
    or not at all."""
    if status == 0:
        return "all replies the same"
    if "this is an award\n" in errors or "this is a log\n" in errors:
        return "no award or log"
    if "error: AllocError\n" in errors:
        return "no text"
    left, _, right = errors.partition('left: "')[2].partition('right: "')
    front, found, _ = left.partition(NO_BOOK)
    return "no book" if found and right.startswith(front) else None


def each_request_of_replays(library: str) -> int:
    subprocess.run(["rt", "test"], cwd=TESTS, check=True, stdin=subprocess.DEVNULL, capture_output=True)
    program = os.path.join(TESTS, "out", "auction_tests_tests")
    ends: collections.Counter[str] = collections.Counter()
    number = 0
    while True:
        number += 1
        status, errors, was_refused = replays(library, program, number)
        if not was_refused:
            break
        kind = kind_of_replays(status, errors)
        if kind is None:
            print(f"desk: request {number}: status {status}, errors {errors[:400]}")
        ends[kind or "wrong"] += 1
    print(
        f"{'desk':<12}{number - 1:>6} requests  "
        + ", ".join(f"{kind} {count}" for kind, count in sorted(ends.items())),
        flush=True,
    )
    return ends["wrong"]


def main() -> int:
    build_cca()

    def read(name: str) -> bytes:
        with open(os.path.join(EXAMPLES, name), "rb") as f:
            return f.read()

    wrong = 0
    with tempfile.TemporaryDirectory() as folder:
        library = build_refuser(folder)
        auction = {"AWARD": read("spectrum.award"), "LOG": read("spectrum.log")}
        bad, whole = each_request(library, "award", ["award", "AWARD", "LOG", "CERT"], {**auction, "CERT": HELD})
        cert = whole[3]["CERT"][len(HELD) :]
        wrong += bad + each_request(library, "audit", ["audit", "AWARD", "LOG", "CERT"], {**auction, "CERT": cert})[0]
        wrong += each_request(library, "auction", ["auction", "AWARD", "LOG", "BOOK"], {**auction, "BOOK": HELD})[0]
        for book in ("day-cramton", "tie"):
            bad, whole = each_request(
                library, "price", ["price", "BOOK", "CERT", "--rounds"], {"BOOK": read(f"{book}.book"), "CERT": HELD}
            )
            cert = whole[3]["CERT"][len(HELD) :]
            wrong += (
                bad
                + each_request(
                    library, "check", ["check", "BOOK", "CERT"], {"BOOK": read(f"{book}.book"), "CERT": cert}
                )[0]
            )
        slots = {"SLOTS": read("band.slots")}
        bad, whole = each_request(library, "place", ["place", "SLOTS", "CERT", "--rounds"], {**slots, "CERT": HELD})
        cert = whole[3]["CERT"][len(HELD) :]
        wrong += (
            bad + each_request(library, "place-check", ["place-check", "SLOTS", "CERT"], {**slots, "CERT": cert})[0]
        )
        edited = {"BOOK": read("day-cramton.book"), "EDITS": read("day-cramton.edits")}
        wrong += each_request(library, "review", ["review", "BOOK", "EDITS"], edited)[0]
        wrong += each_request_of_replays(library)
    print(f"{wrong} runs ended as they must not")
    return 1 if wrong else 0
