"""File systems that a process mounts for itself and for what it starts; nobody else sees them."""

from __future__ import annotations

import ctypes
import pathlib

from checks.traced import LIBC

# Flags of mount, and of umount2.
READ_ONLY, NO_EXEC, REMOUNT, BIND, DETACH = 1, 8, 32, 4096, 2
NEW_MOUNTS, PRIVATE = 0x20000, 0x44000


def leave_the_others() -> bool:
    """Has the mounts of this process be its own from here on; whether that is allowed."""
    return bool(LIBC.unshare(NEW_MOUNTS) == 0 and mount("none", pathlib.Path("/"), "", PRIVATE))


def mount(source: object, path: pathlib.Path, kind: str, flags: int, options: str = "") -> bool:
    """Whether something could be mounted."""
    words = str(source).encode(), bytes(path), kind.encode(), ctypes.c_ulong(flags), options.encode()
    return bool(LIBC.mount(*words) == 0)


def mount_memory(path: pathlib.Path, size: int, flags: int = 0) -> bool:
    """Whether a file system of this many bytes, in memory, could be mounted."""
    return mount("none", path, "tmpfs", flags, f"size={size}")
