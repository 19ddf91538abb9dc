"""Files on the disk: opened through no link, locked, written whole or not at all, and synced.

A sync that failed is never tried again: a second one would succeed even if the disk has lost what was written.
"""

from __future__ import annotations

import contextlib
import errno
import fcntl
import hashlib
import itertools
import os
import secrets
import stat
import time
from collections.abc import Iterator
from pathlib import Path

WAIT = 2.0  # seconds for the lock
PAUSE = 0.02
MODE = 0o600
FULL = "the disk is full: make room on it, and try again"
# A pipe instead of a file mustn't block the desk, and no link is followed.
SAFELY = os.O_NOFOLLOW | os.O_CLOEXEC | os.O_NONBLOCK
APPEND = os.O_RDWR | os.O_APPEND


class Refused(Exception):
    """Nothing was written, or cut: why, in a sentence for the page."""


class Busy(Refused):
    """Another program kept the log locked for `WAIT` seconds."""


class Missing(Refused):
    """A file isn't there."""


class Unreadable(Refused):
    """The disk or the system refuses to read a file."""


class Unsure(Exception):
    """Nobody can say whether the disk has the line: the desk stops, and has to be started again."""


def why_of(fault: OSError) -> str:
    """Why the disk didn't do something. A full one is called that."""
    return FULL if fault.errno in (errno.ENOSPC, errno.EDQUOT) else fault.strerror or "a fault of the disk"


def sum_of(data: bytes) -> str:
    """The SHA-256 of bytes, in digits."""
    return hashlib.sha256(data).hexdigest()


def is_regular(path: Path) -> bool:
    """Whether a name is a regular file's, and not a link's."""
    return stat.S_ISREG(os.stat(path, follow_symlinks=False).st_mode)


@contextlib.contextmanager
def opened(path: Path, flags: int) -> Iterator[int]:
    """An open regular file. Raises `Missing` or `Refused` if it can't be opened, and never follows a link."""
    try:
        # (a device may do something already when it is opened)
        if not is_regular(path):
            raise Refused(f"{path.name} is a link or no regular file: put the file itself in its place.")
        handle = os.open(path, flags | SAFELY)
    except FileNotFoundError:
        raise Missing(f"{path.name} isn't there.") from None
    except OSError as fault:
        raise Unreadable(f"{path.name} can't be opened: {why_of(fault)}.") from None
    try:
        yield handle
    finally:
        os.close(handle)


def read_open(handle: int, name: str) -> bytes:
    """All bytes of an open file. Raises `Refused`."""
    parts, done = list[bytes](), 0
    try:
        while part := os.pread(handle, max(1, os.fstat(handle).st_size - done), done):
            parts.append(part)
            done += len(part)
    except OSError as fault:
        raise Unreadable(f"{name} can't be read: {why_of(fault)}.") from None
    return b"".join(parts)


def read_file(path: Path) -> bytes:
    """All bytes of a file. Raises `Missing` or `Refused`."""
    with opened(path, os.O_RDONLY) as handle:
        return read_open(handle, path.name)


def sync(handle: int, name: str) -> None:
    """Syncs an open file. Raises `Unsure`."""
    try:
        os.fsync(handle)
    except OSError as fault:
        raise Unsure(f"The disk doesn't say that it keeps {name}: {why_of(fault)}.") from None


def sync_folder(path: Path) -> None:
    """Syncs the folder of a file, and with it the file's name. Raises `Unsure`."""
    try:
        handle = os.open(path.absolute().parent, os.O_RDONLY | os.O_DIRECTORY | os.O_CLOEXEC)
    except OSError as fault:
        raise Unsure(f"The folder of {path.name} can't be opened: {why_of(fault)}.") from None
    try:
        sync(handle, f"the name {path.name}")
    finally:
        os.close(handle)


def is_named(handle: int, path: Path) -> bool:
    """Whether a name still means the open file: an editor that saves puts another file there."""
    try:
        named = os.stat(path, follow_symlinks=False)
    except OSError:
        return False
    return os.path.samestat(os.fstat(handle), named)


def lock(handle: int, name: str) -> None:
    """Locks an open file against every other one that asks for its lock. Raises `Busy` or `Refused`."""
    end = time.monotonic() + WAIT
    while True:
        try:
            return fcntl.flock(handle, fcntl.LOCK_EX | fcntl.LOCK_NB)
        except BlockingIOError:
            if time.monotonic() > end:
                raise Busy(f"Another program holds {name}. Nothing was written; try again.") from None
        except OSError as fault:
            raise Refused(f"{name} can't be locked here: {why_of(fault)}. Put it on a disk of this machine.") from None
        time.sleep(PAUSE)


@contextlib.contextmanager
def locked(path: Path) -> Iterator[int]:
    """A file under its lock, open for reading and for appending."""
    with opened(path, APPEND) as handle:
        lock(handle, path.name)
        if not is_named(handle, path):
            raise Refused(f"Another file has taken the place of {path.name} just now. Nothing was written; try again.")
        yield handle


def presence(path: Path) -> int:
    """A handle on a file, under a shared lock for as long as this process has it; -1 if there is none."""
    try:
        handle = os.open(path, os.O_RDONLY | SAFELY)
    except OSError:
        return -1
    with contextlib.suppress(OSError):
        fcntl.flock(handle, fcntl.LOCK_SH | fcntl.LOCK_NB)
    return handle


def is_shared(handle: int) -> bool:
    """Whether another process has such a handle on the file."""
    if handle < 0:
        return False
    try:
        fcntl.flock(handle, fcntl.LOCK_EX | fcntl.LOCK_NB)
        return False
    except OSError:
        return True
    finally:
        with contextlib.suppress(OSError):
            fcntl.flock(handle, fcntl.LOCK_SH | fcntl.LOCK_NB)


def need_locks(path: Path, handle: int) -> None:
    """Tests that a second lock is refused while `handle` has one. Raises `Refused`."""
    with opened(path, os.O_RDWR) as other:
        try:
            fcntl.flock(other, fcntl.LOCK_EX | fcntl.LOCK_NB)
        except BlockingIOError:
            return
        except OSError as fault:
            raise Refused(f"{path.name} can't be locked here: {why_of(fault)}.") from None
    raise Refused(
        f"Locks don't work where {path.name} is: two programs could write to it at once. Put it on a disk of this"
        " machine."
    )


def shorten(handle: int, length: int, name: str) -> None:
    """Cuts an open file to a length, synced. Raises `Unsure`."""
    try:
        os.ftruncate(handle, length)
    except OSError as fault:
        raise Unsure(f"{name} can't be cut to {length} bytes: {why_of(fault)}.") from None
    sync(handle, name)


def append_once(handle: int, text: bytes, name: str) -> None:
    """Appends a text by one write, and syncs it.

    A part of it that a full disk took is cut off again. Raises `Refused` if nothing was written, and `Unsure`.
    """
    start = os.fstat(handle).st_size
    try:
        done, why = os.write(handle, text), f"{FULL}; it took only a part"
    except OSError as fault:
        done, why = 0, why_of(fault)
    if done < len(text):
        if os.fstat(handle).st_size != start:
            shorten(handle, start, name)
        raise Refused(f"Nothing was written to {name}: {why}.")
    sync(handle, name)


def write_again(path: Path, start: int) -> None:
    """Writes the bytes of a file from `start` on again over themselves, and syncs them.

    If an earlier sync failed, or none was made, the system may take them as written while the disk doesn't have them.
    Then no later sync would write them. Raises `Refused` or `Unsure`.
    """
    with opened(path, os.O_RDWR) as handle:
        tail = read_open(handle, path.name)[start:]
        try:
            os.utime(handle)  # (so that the file's length is written too)
            while tail:
                done = os.pwrite(handle, tail, start)
                tail, start = tail[done:], start + done
        except OSError as fault:
            raise Unsure(f"{path.name} can't be written: {why_of(fault)}.") from None
        sync(handle, path.name)


def new_file(path: Path, data: bytes) -> bool:
    """Makes a file that only its owner may read. Returns whether it didn't exist. It appears whole or not at all.

    Raises `Refused` if it can't be made, and `Unsure` if its name can't be synced.
    """
    part = path.with_name(f"{path.name}.new-{secrets.token_hex(4)}")
    try:
        write_new(part, data)
        os.link(part, path, follow_symlinks=False)
    except FileExistsError:
        return False
    except OSError as fault:
        raise Refused(f"{path.name} can't be made: {why_of(fault)}.") from None
    finally:
        with contextlib.suppress(OSError):
            os.unlink(part)
    sync_folder(path)
    return True


def write_new(path: Path, data: bytes) -> None:
    """Writes and syncs a file that wasn't there. Raises `OSError` or `Refused`, and leaves no part of it then."""
    handle = os.open(path, APPEND | os.O_CREAT | os.O_EXCL | SAFELY, MODE)
    try:
        append_once(handle, data, path.name)
    except (Refused, Unsure) as fault:
        os.unlink(path)
        raise Refused(str(fault)) from None
    finally:
        os.close(handle)


def kept(path: Path, kind: str, data: bytes) -> Path:
    """Keeps bytes in the first free of `PATH.KIND-1`, `PATH.KIND-2`, .., synced with its name.

    A part that a kill left there keeps its name. Raises `Refused`.
    """
    for number in itertools.count(1):
        copy = path.with_name(f"{path.name}.{kind}-{number}")
        try:
            write_new(copy, data)
            sync_folder(copy)
            return copy
        except FileExistsError:
            continue
        except (OSError, Unsure) as fault:
            why = why_of(fault) if isinstance(fault, OSError) else str(fault)
            raise Refused(f"No copy can be kept in {copy.name}, so nothing was changed: {why}") from None
    raise AssertionError("there is always another number")


def replaced(path: Path, data: bytes) -> None:
    """Puts a file with these bytes in the place of a name, whole and synced. Raises `Refused`."""
    part = path.with_name(f"{path.name}.new")
    try:
        with contextlib.suppress(FileNotFoundError):
            os.unlink(part)
        write_new(part, data)
        os.replace(part, path)
        sync_folder(path)
    except (OSError, Unsure) as fault:
        why = why_of(fault) if isinstance(fault, OSError) else str(fault)
        raise Refused(f"{path} can't be written: {why}") from None
