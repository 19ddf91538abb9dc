"""`python3 -m cca_tools COMMAND ..`, and `cca-tools COMMAND ..` once it is installed: the commands of `tools/`."""

from __future__ import annotations

import difflib
import importlib
import pathlib
import sys
from collections.abc import Sequence

from cca_tools.command_line import HELP, VERSION, package_command, say, written
from cca_tools.interrupts import take_over
from cca_tools.rules.stops import DONE, WORDS, WRITE_FAULT
from cca_tools.version import version_line

FOLDER = pathlib.Path(__file__).parent / "commands"
COMMANDS = sorted(path.stem.replace("_", "-") for path in FOLDER.glob("[a-z]*.py"))
USAGE = (
    f"usage: {package_command() or 'python3 -m cca_tools'} COMMAND ..\n\n"
    f"A COMMAND is one of {', '.join(COMMANDS)}; COMMAND --help says more."
)


def main(argv: Sequence[str]) -> int:
    """Runs the command that the first argument names, with the arguments after it, and returns its status."""
    if list(argv) in (*HELP, VERSION):
        text = version_line("cca_tools") if list(argv) == VERSION else USAGE
        return DONE if written(sys.stdout, text) else WRITE_FAULT
    if not argv or argv[0] not in COMMANDS:
        near = difflib.get_close_matches(argv[0], COMMANDS, 1) if argv else []
        meant = f"\n`{argv[0]}` is no command; did you mean {near[0]}?" if near else ""
        say(f"{USAGE}{meant}")
        return WORDS
    command = importlib.import_module(f"cca_tools.commands.{argv[0].replace('-', '_')}")
    status: int = command.main(argv[1:])
    return status


def script() -> int:
    """The command `cca-tools` of an installed package."""
    take_over()
    return main(sys.argv[1:])


if __name__ == "__main__":
    sys.exit(script())
