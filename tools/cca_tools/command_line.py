"""What each command of the package does around its own work: its arguments, its help, what it prints and its status.

An answer, also "no" (status 1), goes to standard output. A fault goes to standard error with what it means and what to
do next. If a command has to print the same as `cca`, the line of the fault goes to standard output, as in `cca`.
"""

from __future__ import annotations

import argparse
import collections
import contextlib
import difflib
import errno
import os
import pathlib
import sys
import traceback
from collections.abc import Callable, Iterator, Sequence
from typing import IO, NoReturn, TypeAlias

from cca_tools.interrupts import INTERRUPTED, interruptible, reason
from cca_tools.rules.printable import printable
from cca_tools.rules.stops import CRASH, DONE, MEMORY, NO, NO_TEXT, WORDS, WRITE_FAULT, Stop
from cca_tools.rules.telling import meaning, told
from cca_tools.terminal import Colour, broken, painted, progress, screen
from cca_tools.version import version_line

Run: TypeAlias = Callable[[argparse.Namespace], str]
ColourOf: TypeAlias = Callable[[str], Colour | None]
HELP = (["-h"], ["--help"])
VERSION = ["--version"]


def package_command() -> str:
    """The command of the package that started this process, `cca-tools` or `python3 -m cca_tools`; empty if something
    else started it, such as a script of `tools/`."""
    started = pathlib.Path(sys.argv[0])
    if started == pathlib.Path(__file__).with_name("__main__.py"):
        return "python3 -m cca_tools"
    return "cca-tools" if started.stem == "cca-tools" else ""


def called_as(name: str) -> str:
    """A command as its user called it: `cca-tools what-if`, or `tools/what-if` for the script."""
    package = package_command()
    return f"{package} {name}" if package else f"tools/{name}"


class Alone(argparse.Action):
    """An option that acts before arguments are read, and so must be the only one."""

    def __call__(
        self,
        parser: argparse.ArgumentParser,
        namespace: argparse.Namespace,
        values: object,
        option_string: str | None = None,
    ) -> None:
        parser.error(f"{option_string} must be the only argument")


class Parser(argparse.ArgumentParser):
    """The arguments of a command: a fault is a `Stop` that names the wrong argument, and options are written in full.

    `-h` and `--help` are accepted only without other arguments, so that a status of 0 never hides an unread argument.
    """

    def __init__(
        self, name: str, about: str, *usage: str, agrees: bool = False, colour_of: ColourOf = lambda line: None
    ) -> None:
        """`name` is the name of the script in `tools/`, and `about` the docstring of the command's module.

        `usage` has the forms of the arguments if there are several, without the name. `agrees` is whether the command
        has to print the same as `cca`. `colour_of` returns the colour of a line that is printed on a terminal.
        """
        super().__init__(
            prog=called_as(name),
            usage="\n       ".join(f"%(prog)s {form}" for form in usage) or None,
            description=about.strip(),
            formatter_class=argparse.RawDescriptionHelpFormatter,
            add_help=False,
            allow_abbrev=False,
        )
        self.agrees, self.colour_of = agrees, colour_of
        self.files: list[str] = []
        self.add_argument("-h", "--help", action=Alone, nargs=0, help="print this help; no other argument is allowed")
        self.add_argument("--version", action=Alone, nargs=0, help="print the version; no other argument is allowed")

    def add_file(self, name: str, about: str, nargs: str = "") -> None:
        """A word that names a file, or several. The names of all files of a command differ."""
        dest = name.lower().replace("-", "_")
        self.files.append(dest)
        if nargs == "*":
            self.add_argument(dest, metavar=name, help=about, nargs=nargs, default=[])
        elif nargs:
            self.add_argument(dest, metavar=name, help=about, nargs=nargs)
        else:
            self.add_argument(dest, metavar=name, help=about)

    def words_of(self, argv: Sequence[str]) -> argparse.Namespace:
        """The arguments, tested."""
        self.need_options(argv)
        options = self.parse_args(argv)
        names = list(self.names_of_files(options))
        if "" in names:
            self.error("the name of a file is empty")
        known = set[str]()
        for name in names:
            if name in known:
                self.error(f"two of the files have the same name, {name}")
            known.add(name)
        return options

    def need_options(self, argv: Sequence[str]) -> None:
        """Stops at the first argument that looks like an option and is none."""
        known = [name for action in self._actions for name in action.option_strings]
        for word in argv:
            if word.startswith("-") and word != "-" and word.partition("=")[0] not in known:
                near = difflib.get_close_matches(word, known, 1)
                self.error(f"there is no option {word}" + (f"; did you mean {near[0]}?" if near else ""))

    def names_of_files(self, options: argparse.Namespace) -> Iterator[str]:
        """The names of files among the arguments."""
        for dest in self.files:
            value = getattr(options, dest)
            yield from value if isinstance(value, list) else [] if value is None else [value]

    def error(self, message: str) -> NoReturn:
        raise Stop("cca: words", WORDS, why=message, usage=self.format_usage())


def run_command(parser: Parser, run: Run, argv: Sequence[str]) -> int:
    """Runs a command with these arguments: prints what `run` returns, or the line of its stop. Returns the status."""
    if not all(map(is_text, argv)):
        return NO_TEXT
    sys.unraisablehook = unraised
    complete(parser)
    try:
        with interruptible(), progress.of(parser.prog):
            text = text_of(parser, run, argv)
        return status_of_output(parser, text, DONE)
    except Stop as stop:
        return stopped(parser, stop)
    except MemoryError:
        return stopped(parser, Stop("cca: memory", MEMORY, why="there isn't enough memory"))
    except KeyboardInterrupt:
        return INTERRUPTED
    except Exception as fault:
        return stopped(parser, lacking(why)) if (why := reason(fault)) else crashed(parser)


def unraised(fault: sys.UnraisableHookArgs) -> None:
    """Doesn't report a fault that Python ignores if it is the system's, such as a file that can't be closed at the
    end."""
    if not (isinstance(fault.exc_value, Exception) and reason(fault.exc_value)):
        sys.__unraisablehook__(fault)


@contextlib.contextmanager
def kept_until_the_end() -> Iterator[None]:
    """A block of threads. After it, `unraised` gets the faults that Python ignored in it: if a thread had no memory to
    call `unraised`, Python would print the fault."""
    faults: collections.deque[sys.UnraisableHookArgs] = collections.deque(maxlen=64)
    sys.unraisablehook = faults.append
    try:
        yield
    finally:
        sys.unraisablehook = unraised
        for fault in faults:
            unraised(fault)


def lacking(why: str) -> Stop:
    """The stop of a run that lacks something of the system or of Python."""
    return Stop("cca: stopped", CRASH, why=f"this can't be had: {why}. Without it there is no answer")


def text_of(parser: Parser, run: Run, argv: Sequence[str]) -> str:
    """What a command prints for these arguments."""
    if list(argv) in HELP:
        return parser.format_help().rstrip()
    return version_line(parser.prog) if list(argv) == VERSION else run(parser.words_of(argv))


def complete(parser: Parser) -> None:
    """Completes words for a shell that asks for it, where python3-argcomplete is there."""
    if "_ARGCOMPLETE" in os.environ:
        try:
            import argcomplete
        except ImportError:
            return
        argcomplete.autocomplete(parser)


def stopped(parser: Parser, stop: Stop) -> int:
    """Prints a stop, and returns its status."""
    if stop.status == NO:
        text = stop.line if parser.agrees else told(stop)
        return status_of_output(parser, text, NO)
    if parser.agrees and (status := status_of_output(parser, stop.line, DONE)):
        return status
    if stop.status != WORDS and not parser.agrees:
        say(f"{parser.prog}: {stop.line}", "red")
    for line in fault_lines(parser, stop):
        say(line)
    return stop.status


def fault_lines(parser: Parser, stop: Stop) -> Iterator[str]:
    """The lines that report a fault: the usage and the wrong argument, or what its line means and what to do next."""
    if stop.status == WORDS:
        if stop.usage:
            yield stop.usage.rstrip()
        yield f"{parser.prog}: {stop.why}{'' if stop.why.endswith('?') else '.'}"
        yield f"`{parser.prog} --help` says what it takes."
        return
    yield from meaning(stop)


def crashed(parser: Parser) -> int:
    """Reports that the command crashed, which says nothing about its files. Returns the status of a crash."""
    say(traceback.format_exc().rstrip())
    say(f"{parser.prog}: this is a fault of the tool, and no answer. Please report it with the lines above.")
    return CRASH


def status_of_output(parser: Parser, text: str, status: int) -> int:
    """Prints the text and a line feed, and returns the status; the one of a fault if the output doesn't take them."""
    fault = fault_of_writing(sys.stdout, "\n".join(dressed(text, sys.stdout, parser.colour_of)))
    if fault is None:
        return status
    # (a reader that has ended, such as `head`, wants no more)
    if fault.errno != errno.EPIPE:
        say(f"{parser.prog}: the output isn't whole, since it can't be written: {fault.strerror}.")
    return WRITE_FAULT


def say(text: str, colour: Colour | None = None) -> None:
    """Writes a line on standard error, as far as that takes it."""
    written(sys.stderr, "\n".join(dressed(text, sys.stderr, lambda line: colour)))


def dressed(text: str, stream: IO[str] | None, colour_of: ColourOf) -> Iterator[str]:
    """The lines of a text without control characters; on a screen they are broken at its width, and have their
    colours."""
    columns = screen(stream)
    for line in map(printable, text.split("\n")):
        parts = broken(line, columns) if columns else [line]
        colour = colour_of(line)
        yield from (painted(part, colour, stream) if colour else part for part in parts)


def written(stream: IO[str] | None, text: str) -> bool:
    """Whether the text and a line feed could be written."""
    return fault_of_writing(stream, text) is None


def fault_of_writing(stream: IO[str] | None, text: str) -> OSError | None:
    """Writes the text and a line feed, past the stream's own buffer. Returns the fault, if there is one. A closed
    stream is None."""
    if stream is None:
        return OSError(errno.EBADF, "it is closed")
    try:
        stream.flush()
        with open(stream.fileno(), "wb", closefd=False) as out:
            out.write((text + "\n").encode("utf-8", "replace"))
    except OSError as fault:
        return fault
    return None


def is_text(word: str) -> bool:
    """Whether the bytes of a word are UTF-8."""
    return not any("\ud800" <= sign <= "\udfff" for sign in word)
