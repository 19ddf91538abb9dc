"""A new file that appears under its name only once it is whole, synced and judged.

Until then it has no name (O_TMPFILE), so a killed run leaves no file. On a file system without such files it is a
hidden file in the same folder, which stays after a killed run. Neither ever replaces a file.
"""

from __future__ import annotations

import errno
import os
import secrets
from collections.abc import Iterable, Iterator
from contextlib import contextmanager
from pathlib import Path

from cca_tools.rules.printable import printable
from cca_tools.rules.stops import WRITE_FAULT, Stop, limit

WITHOUT = (errno.EOPNOTSUPP, errno.EISDIR, errno.ENOENT, errno.EINVAL)  # of a system without nameless files


class NewFile:
    """A file that has no name yet, in the folder where it gets it."""

    def __init__(self, name: str) -> None:
        """Makes the file. An OSError if there is a file of this name, or the folder takes no new one."""
        path = Path(name)
        if os.path.lexists(path):
            raise FileExistsError(errno.EEXIST, os.strerror(errno.EEXIST))
        self.name, self.hidden = path.name, ""
        self.folder = os.open(path.parent, os.O_RDONLY | os.O_DIRECTORY)
        try:
            self.handle = self.opened(path.parent)
        except OSError:
            os.close(self.folder)
            raise

    def opened(self, folder: Path) -> int:
        """The descriptor of the file."""
        try:
            return os.open(folder, os.O_TMPFILE | os.O_RDWR, 0o666)
        except OSError as fault:
            if fault.errno not in WITHOUT:
                raise
        hidden = f".{self.name}.{secrets.token_hex(4)}"
        handle = os.open(hidden, os.O_CREAT | os.O_EXCL | os.O_RDWR, 0o666, dir_fd=self.folder)
        self.hidden = hidden
        return handle

    @property
    def path(self) -> str:
        """A path for reading the file in this process and in each process that inherits `handle`."""
        return f"/proc/self/fd/{self.handle}"

    def write(self, lines: Iterable[str], most: int) -> None:
        """Writes lines, each with a line feed, to the disk. A `Stop` if they have more than `most` bytes."""
        length = 0
        with open(os.dup(self.handle), "wb", buffering=1 << 20) as file:
            for line in lines:
                length += len(line) + 1
                if length > most:
                    raise limit("bytes", most + 1, f"the certificate has more than {most:,} bytes. Nothing is written")
                file.write(line.encode() + b"\n")
        os.fsync(self.handle)

    def appear(self) -> None:
        """Links the file to its name. Raises OSError if a file with that name exists by now."""
        if self.hidden:
            os.link(self.hidden, self.name, src_dir_fd=self.folder, dst_dir_fd=self.folder, follow_symlinks=False)
        else:
            os.link(self.path, self.name, dst_dir_fd=self.folder)
        os.fsync(self.folder)

    def close(self) -> None:
        """Closes the file. If it has no name by now, nothing is left of it."""
        if self.hidden:
            os.unlink(self.hidden, dir_fd=self.folder)
        os.close(self.handle)
        os.close(self.folder)


@contextmanager
def new_file(name: str) -> Iterator[NewFile]:
    """A new file of this name for a certificate. A fault of writing is a `Stop` of status 5."""
    try:
        file = NewFile(name)
        try:
            yield file
        finally:
            file.close()
    except OSError as fault:
        why = f"`{printable(name)}` can't be made: {fault.strerror}"
        raise Stop("cca: write fault cert", WRITE_FAULT, why=why) from None
