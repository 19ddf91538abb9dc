"""Which version of the package this is."""

from __future__ import annotations

import contextlib
import importlib.metadata
import os
import pathlib
import subprocess

ROOT = pathlib.Path(__file__).resolve().parents[2]  # of the repository or the release, where the package lies in one
BUILDINFO = ROOT / "BUILDINFO"  # what a release was made of
UNKNOWN = "0+unknown"


def version() -> str:
    """The version by the file VERSION of the repository, else the installed package's, else `UNKNOWN`."""
    if (ROOT / "tools" / "cca_tools").is_dir():
        with contextlib.suppress(OSError):
            return (ROOT / "VERSION").read_text(encoding="utf-8").strip() or UNKNOWN
    with contextlib.suppress(importlib.metadata.PackageNotFoundError):
        return importlib.metadata.version("cca-tools")
    return UNKNOWN


def released_facts() -> dict[str, str]:
    """What a release states about itself: `version`, `commit`, `kit`, `logic` and `program`; nothing if this isn't a
    release."""
    try:
        head = BUILDINFO.read_text(encoding="utf-8").partition("\n\n")[0]
    except OSError:
        return {}
    return {name: value for name, _, value in (line.partition(" ") for line in head.splitlines())}


def released() -> str | None:
    """The commit that this release was made from; None if this isn't a release."""
    return released_facts().get("commit")


def commit() -> str | None:
    """The commit of this release, or the short name of the one that is checked out, with `-changed` where files differ
    from it; None if none is known."""
    if is_of := released():
        return is_of
    if not (ROOT / ".git").exists():
        return None
    # (GIT_DIR, which git sets for its hooks, would name the commit of another repository)
    variables = {name: it for name, it in os.environ.items() if not name.startswith("GIT_")}
    try:
        found = subprocess.run(
            ["git", "-C", str(ROOT), "describe", "--always", "--abbrev=40", "--dirty=-changed", "--exclude=*"],
            env=variables,
            capture_output=True,
            text=True,
            check=True,
        )
    except (OSError, subprocess.CalledProcessError):
        return None
    return found.stdout.strip() or None


def version_line(name: str) -> str:
    """What `--version` prints of a tool."""
    known = commit()
    return f"{name} {version()}" + (f" (commit {known})" if known else "")
