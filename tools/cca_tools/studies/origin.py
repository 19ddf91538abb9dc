"""What a study was made with: the program and the tools, and the plan with its files, by their checksums."""

from __future__ import annotations

import functools
import hashlib
import os
from dataclasses import asdict, dataclass, field

from cca_tools.data.prices import need_program
from cca_tools.rules.mark import mark_of
from cca_tools.rules.stops import load
from cca_tools.studies.plan import Plan
from cca_tools.version import commit, version


@dataclass(frozen=True)
class Origin:
    """What made the rows of a study: SHA-256 of the program, what its mark says, the version and the commit of the
    tools, and the checksum of what the plan asks for."""

    program: str
    mark: str
    tools: str
    commit: str
    plan: str
    files: dict[str, str] = field(compare=False)  # the SHA-256 of each file by its name in the folder

    @property
    def maker(self) -> str:
        """The tools in words."""
        return f"cca_tools {self.tools}" + (f", commit {self.commit}" if self.commit else "")

    def members(self) -> dict[str, object]:
        """The first line of the rows of a study."""
        return asdict(self)


def origin_of(plan: Plan) -> Origin:
    """What makes the rows of a plan here and now."""
    path = need_program()
    mark = mark_of(load(path, "program")).text
    sums = {name: hashlib.sha256(data).hexdigest() for name, data in plan.files().items()}
    return Origin(program_sum(), mark, version(), commit() or "", plan.sum(), sums)


def program_sum() -> str:
    """The SHA-256 of the program."""
    path = need_program()
    state = os.stat(path)
    return sum_of(path, state.st_mtime_ns, state.st_size, state.st_ino)


@functools.lru_cache(maxsize=8)
def sum_of(path: str, changed: int, size: int, inode: int) -> str:
    """The SHA-256 of a file, computed again if the file was changed."""
    return hashlib.sha256(load(path, "program")).hexdigest()


def differences(was: dict[str, object], now: Origin) -> list[str]:
    """What differs between the first line of rows and what would make more of them, in words."""
    names = {
        "plan": "another plan",
        "program": "another program",
        "tools": "another version of the tools",
        "commit": "another commit of the tools",
    }
    return [words for name, words in names.items() if was.get(name) != getattr(now, name)]
