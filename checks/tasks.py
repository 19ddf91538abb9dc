"""The arguments of the programs of build/, checks/ and bench/. Some of these do one of several tasks, with a module for
each."""

from __future__ import annotations

import argparse
import ast
import importlib
import os
import pathlib
from collections.abc import Callable, Sequence
from typing import NamedTuple

ROOT = pathlib.Path(__file__).resolve().parents[1]


class Number(NamedTuple):
    """A number that a task takes, with its default."""

    name: str
    default: int
    help: str


class Task(NamedTuple):
    """A task: its argument, its module, the numbers that it takes, and about how long it takes with their defaults."""

    word: str
    module: str
    numbers: tuple[Number, ...]
    time: str


def about(task: Task, folder: str) -> str:
    """The docstring of a task's module, without loading the module."""
    text = (ROOT / folder.replace(".", "/") / f"{task.module}.py").read_text(encoding="utf-8")
    return ast.get_docstring(ast.parse(text)) or ""


def reader_of(name: str, what: str | None) -> argparse.ArgumentParser:
    """A parser of the arguments of the program of this name, such as `checks/wrong`; its help keeps the lines of the
    text."""
    form = argparse.RawDescriptionHelpFormatter
    return argparse.ArgumentParser(prog=name, description=what, formatter_class=form)


def whole(text: str) -> int:
    """A whole number that isn't negative, from an argument."""
    if not (text.isascii() and text.isdecimal()):
        raise argparse.ArgumentTypeError(f"{text} is no whole number")
    return int(text)


def take(reader: argparse.ArgumentParser, *numbers: Number) -> None:
    """Lets a parser take these numbers. A number may be left out together with all after it."""
    for it in numbers:
        more = f"{it.help} ({it.default})"
        reader.add_argument(it.name, type=whole, nargs="?", default=it.default, metavar=it.name.upper(), help=more)


def need_program(reader: argparse.ArgumentParser, is_needed: bool = False) -> None:
    """Ends the call with 2 if CCA_PROGRAM names no program that runs, or isn't set although a program `is_needed`."""
    path = os.environ.get("CCA_PROGRAM")
    if path and not (os.path.isfile(path) and os.access(path, os.X_OK)):
        reader.error(f"CCA_PROGRAM names {path}, which isn't a program that can be run")
    if is_needed and not path:
        reader.error("CCA_PROGRAM names no program")


def parser(name: str, what: str, folder: str, tasks: Sequence[Task]) -> argparse.ArgumentParser:
    """The parser for a program whose tasks are modules of this package."""
    form = argparse.RawDescriptionHelpFormatter
    reader = reader_of(name, what)
    words = reader.add_subparsers(dest="task", metavar="WHAT", required=True)
    for task in tasks:
        doc = about(task, folder)
        one = words.add_parser(
            task.word, help=f"{doc.splitlines()[0]} ({task.time})", description=doc, formatter_class=form
        )
        take(one, *task.numbers)
        one.set_defaults(module=task.module, names=[number.name for number in task.numbers])
    return reader


def main_of(folder: str, module: str) -> Callable[..., int | None]:
    """The function `main` of a task's module."""
    found: Callable[..., int | None] = importlib.import_module(f"{folder}.{module}").main
    return found


def run(name: str, what: str, folder: str, tasks: Sequence[Task]) -> int:
    """Does the task that the arguments name, and returns its status."""
    reader = parser(name, what, folder, tasks)
    asked = reader.parse_args()
    need_program(reader)
    return main_of(folder, asked.module)(*(getattr(asked, one) for one in asked.names)) or 0
