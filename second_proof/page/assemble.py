"""Assembles the page: one file, where a browser runs only the script and the style with these checksums.

usage: assemble.py CHECKER.js > audit.html
"""

import base64
import hashlib
import pathlib
import sys

HERE = pathlib.Path(__file__).resolve().parent
VERSION = HERE.parents[1] / "VERSION"


def checksum(text: str) -> str:
    """The checksum of a script or a style, as a content security policy names it."""
    return "sha256-" + base64.b64encode(hashlib.sha256(text.encode()).digest()).decode()


def need_script(name: str, text: str) -> None:
    """Stops if a browser would see the end of the script before its end."""
    if "</script" in text.lower() or "<!--" in text:
        sys.exit(f"assemble.py: {name} has a text that ends a script")


def assembled(page: str, parts: dict[str, str]) -> str:
    """The page with each @NAME@ replaced by its part. Each has to be there once."""
    pieces = page.split("@")
    names = pieces[1::2]
    if sorted(names) != sorted(parts):
        sys.exit(f"assemble.py: the page has the parts {names}, and not {sorted(parts)}")
    pieces[1::2] = [parts[name] for name in names]
    return "".join(pieces)


def main() -> None:
    """Writes the page to standard output."""
    checker = pathlib.Path(sys.argv[1]).read_text(encoding="utf-8")
    style = (HERE / "page.css").read_text(encoding="utf-8")
    script = "".join((HERE / name).read_text(encoding="utf-8") for name in ("words.js", "page.js"))
    need_script("the checker", checker)
    need_script("the script", script)
    parts = {
        "STYLE": style,
        "STYLE_CHECKSUM": checksum(style),
        "SCRIPT": script,
        "SCRIPT_CHECKSUM": checksum(script),
        "CHECKER": checker,
        "VERSION": VERSION.read_text(encoding="utf-8").strip(),
    }
    page = assembled((HERE / "page.html").read_text(encoding="utf-8"), parts)
    sys.stdout.buffer.write(page.encode())


if __name__ == "__main__":
    main()
