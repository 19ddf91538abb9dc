"""The folder for temporary files, which the program reads its files from and writes them to."""

from __future__ import annotations

import contextlib
import errno
import secrets
import shutil
import tempfile
from collections.abc import Iterator
from pathlib import Path

from cca_tools.rules.stops import CRASH, WRITE_FAULT, Stop

NO_ROOM = (errno.ENOSPC, errno.EDQUOT, errno.EROFS, errno.EFBIG)
REMEDY = "make room there, or set TMPDIR to a folder with room"


def lacking(fault: OSError) -> Stop:
    """The stop of a run that can't write temporary files."""
    return Stop("cca: stopped", CRASH, why=f"temporary files can't be written: {fault.strerror or fault}; {REMEDY}")


@contextlib.contextmanager
def scratch_folder() -> Iterator[Path]:
    """A new folder for temporary files, which is removed with the block.

    Raises `Stop` if no place for one is found, or if its disk is full, even if only the program says so by status 5.
    """
    try:
        # (its name is known before it is made, so that Ctrl-C leaves none)
        folder = Path(tempfile.gettempdir(), f"cca-{secrets.token_hex(16)}")
    except OSError as fault:
        raise lacking(fault) from None
    try:
        try:
            folder.mkdir(mode=0o700)
        except OSError as fault:
            raise lacking(fault) from None
        try:
            yield folder
        except OSError as fault:
            if fault.errno not in NO_ROOM:
                raise
            raise lacking(fault) from None
    finally:
        shutil.rmtree(folder, ignore_errors=True)


def need_written(status: int) -> None:
    """Stops if the program ended with this status since it can't write into the folder."""
    if status == WRITE_FAULT:
        raise lacking(OSError(errno.ENOSPC, "the program has found no room for its certificate"))
