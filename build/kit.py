"""The kit's command `rt` as a module, for scripts that use its inside."""

from __future__ import annotations

import importlib.machinery
import importlib.util
import os
import shutil
import sys
from types import ModuleType


def path() -> str:
    """The path of the command; ends the run if there is none."""
    return os.path.realpath(shutil.which("rt") or sys.exit("rt, the tool of the Rattle kit, is not on the PATH"))


def tool() -> ModuleType:
    """The command as a module. It loads the kit's other modules by their paths."""
    sys.dont_write_bytecode = True
    loader = importlib.machinery.SourceFileLoader("rt", path())
    spec = importlib.util.spec_from_loader(loader.name, loader)
    assert spec
    module = importlib.util.module_from_spec(spec)
    loader.exec_module(module)
    return module
