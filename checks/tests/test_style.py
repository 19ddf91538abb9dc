"""All Python of the repository is typed, formatted and linted, and no module changes where modules are found. What is
shell is checked.

A test is skipped if its program isn't installed.
"""

from __future__ import annotations

import ast
import pathlib
import shutil
import subprocess
import unittest

ROOT = pathlib.Path(__file__).resolve().parents[2]


def files(first: bytes, suffix: str) -> list[str]:
    """The files that git has of a language: those with its suffix, and scripts that begin with its name."""
    listed = subprocess.run(["git", "ls-files", "-co", "--exclude-standard"], cwd=ROOT, capture_output=True, text=True)
    found = []
    for name in listed.stdout.splitlines():
        path = ROOT / name
        if path.is_file() and (path.suffix == suffix or not path.suffix and first in head(path)):
            found.append(name)
    return found


def head(path: pathlib.Path) -> bytes:
    """The first line of a script, nothing of another file."""
    with open(path, "rb") as file:
        line = file.readline(200)
    return line if line.startswith(b"#!") else b""


PLACED = (ast.expr, ast.stmt)  # the nodes of a program that have a line
PYTHON, SHELL = files(b"python", ".py"), files(b"/sh", ".sh")
COURT = ["tools/audit", "tools/check"]
TYPED = [name for name in PYTHON if name not in COURT]


def is_path(node: ast.AST) -> bool:
    """Whether a node of a program is, patches or adds to `sys.path`, by that name."""
    match node:
        case ast.Attribute(value=ast.Name(id="sys"), attr="path") | ast.Attribute(
            attr="addsitedir" | "syspath_prepend"
        ):
            return True
        case ast.ImportFrom(module="sys", names=names):
            return any(it.name == "path" for it in names)
        case ast.Call(args=[ast.Name(id="sys"), ast.Constant(value="path"), *_]):
            return True
    return isinstance(node, ast.Constant) and str(node.value).split(".") == ["sys", "path"]


def path_lines(text: str) -> list[int]:
    """The lines of a program that have to do with `sys.path`."""
    return sorted({node.lineno for node in ast.walk(ast.parse(text)) if isinstance(node, PLACED) and is_path(node)})


class Paths(unittest.TestCase):
    """Only the scripts that start a tool set the path of modules, on one line each."""

    def test_no_module_has_to_do_with_it(self) -> None:
        for name in PYTHON:
            lines = path_lines((ROOT / name).read_text(encoding="utf-8"))
            with self.subTest(name):
                self.assertLessEqual(len(lines), 0 if name.endswith(".py") else 1, lines)

    def test_each_form_is_seen(self) -> None:
        for text in (
            "sys.path.insert(0, x)",
            "sys.path[:1] = [x]",
            "sys.path += [x]",
            "del sys.path[0]",
            "from sys import path",
            "site.addsitedir(x)",
            "setattr(sys, 'path', [x])",
            "mock.patch.object(sys, 'path', [x])",
            "mock.patch('sys.path', [x])",
        ):
            with self.subTest(text):
                self.assertEqual(path_lines(f"import sys\n{text}\n"), [2])
        self.assertEqual(path_lines("import sys\nsys.argv = os.path, path, 'path', x.sys\n"), [])


class Style(unittest.TestCase):
    def run_tool(self, name: str, *words: str) -> None:
        """Runs the tool of Debian's package of this name at the top of the repository."""
        if not shutil.which(name):
            self.skipTest(f"the package {name} isn't installed")
        done = subprocess.run([name, *words], cwd=ROOT, capture_output=True, text=True)
        self.assertEqual(done.returncode, 0, f"{name}\n{done.stdout}{done.stderr}")

    def test_all_files_are_seen(self) -> None:
        self.assertGreater(len(PYTHON), 200)
        self.assertIn("cca", PYTHON)
        self.assertIn(".ci/run", SHELL)

    def test_types(self) -> None:
        self.run_tool("mypy", "--no-error-summary", *TYPED)

    def test_types_of_the_court_s_files(self) -> None:
        """Without the settings of the repository, as a court has them."""
        for name in COURT:
            self.run_tool("mypy", "--no-error-summary", "--config-file=", "--strict", "--python-version=3.11", name)

    def test_formatting(self) -> None:
        self.run_tool("black", "--check", "--quiet", *PYTHON)

    def test_linter(self) -> None:
        self.run_tool("flake8", *PYTHON)

    def test_shell(self) -> None:
        self.run_tool("shellcheck", "--severity=warning", *SHELL)


if __name__ == "__main__":
    unittest.main()
