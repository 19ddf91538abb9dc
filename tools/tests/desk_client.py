"""A browser for the desk, by Flask's test client: it follows no redirection unasked, and keeps the cookie.

The desk's forms are read from its pages, so a page without a form, or without a field, can't be sent.
"""

from __future__ import annotations

import atexit
import dataclasses
import functools
import html
import html.parser
import importlib.util
import io
import pathlib
import re
import shutil
import tempfile
import typing
import unittest
from collections.abc import Mapping, Sequence

from checks.cases.program import PROGRAM
from checks.cases.samples import EXAMPLES

from cca_tools.desk.control import Desk, Files
from cca_tools.desk.ending import Ending
from cca_tools.rules.names import read_names

if typing.TYPE_CHECKING:
    from flask import Flask
    from jinja2 import FileSystemBytecodeCache
    from werkzeug.datastructures import Headers

    from cca_tools.desk.guard import Guard

HAS_ALL = all(map(importlib.util.find_spec, ("flask", "waitress"))) and bool(PROGRAM)
WHY = "flask and waitress aren't installed, or CCA_PROGRAM names no program"
PORT = 18400
# The fields that a form may have in addition to the required ones.
OPTIONAL = {"record", "mend", "count", "good", "says", "whole", "submit"}
Fields: typing.TypeAlias = dict[str, str]
File: typing.TypeAlias = tuple[io.BytesIO, str]  # its bytes and its name
Sent: typing.TypeAlias = str | File | Sequence[File]  # what a field of a form is sent with


class Reader(html.parser.HTMLParser):
    """The forms of a page, each with its action and its fields, and the tags with their attributes ("" for one without
    a value)."""

    def __init__(self, text: str) -> None:
        super().__init__(convert_charrefs=True)
        self.forms: list[tuple[str, Fields]] = []
        self.tags: list[tuple[str, Fields]] = []
        self.area = ""
        self.feed(text)

    def handle_starttag(self, tag: str, attrs: Sequence[tuple[str, str | None]]) -> None:
        """Takes a tag, a form or a field."""
        named = {name: value or "" for name, value in attrs}
        self.tags.append((tag, named))
        if tag == "form":
            self.forms.append((named.get("action", ""), {}))
        elif self.forms and "name" in named:
            self.take_field(tag, named)

    def take_field(self, tag: str, named: Fields) -> None:
        """Takes a field of the form that is open."""
        fields, name = self.forms[-1][1], named["name"]
        if tag == "input" and named.get("type") != "radio":
            fields[name] = named.get("value", "")
        elif tag in ("textarea", "select"):
            fields[name] = ""
            self.area = name if tag == "textarea" else self.area

    def handle_endtag(self, tag: str) -> None:
        """Takes the end of a text field."""
        if tag == "textarea":
            self.area = ""

    def handle_data(self, data: str) -> None:
        """Takes what is in a text field."""
        if self.area:
            self.forms[-1][1][self.area] += data


def words(text: str) -> str:
    """What a page says, without its markup."""
    return " ".join(html.unescape(re.sub(r"<[^>]+>", " ", text.partition("<body")[2].partition(">")[2])).split())


def matched(pattern: str, text: str) -> re.Match[str]:
    """The first place in a text that fits a pattern. Raises `AssertionError` if there is none."""
    found = re.search(pattern, text, re.S)
    assert found, f"{pattern} isn't in: {text}"
    return found


@dataclasses.dataclass(frozen=True)
class Answer:
    """What the desk answers to a request."""

    status_code: int
    headers: Headers
    data: bytes

    @property
    def text(self) -> str:
        """The page."""
        return self.data.decode(errors="replace")

    @property
    def location(self) -> str:
        """The page that the browser is redirected to."""
        place: str = self.headers["Location"]
        return place

    @property
    def cookie(self) -> str:
        """The cookie that the browser is given, as it sends it back."""
        given: str = self.headers["Set-Cookie"]
        return given.partition(";")[0]


class Client:
    """One browser that has entered."""

    answer: Answer  # to what was loaded last

    def __init__(self, app: Flask, guard: Guard) -> None:
        self.guard, self.client = guard, app.test_client(use_cookies=False)
        self.page = self.place = self.cookie = ""

    def ask(
        self, method: str, path: str, form: Mapping[str, Sent] | str | bytes | None = None, **more: str | None
    ) -> Answer:
        """A request with the headers that a browser sends, except for those that are given (None leaves one out)."""
        headers: dict[str, str | None] = {"Host": self.guard.host, "Cookie": self.cookie}
        if method == "POST":
            headers["Origin"] = self.guard.origin
        headers |= {name.replace("_", "-"): value for name, value in more.items()}
        kept = {name: value for name, value in headers.items() if value is not None}
        environ = {"HTTP_HOST": kept.pop("Host")} if "Host" in kept else {}
        response = self.client.open(path, method=method, data=form, headers=kept, environ_overrides=environ)
        return Answer(response.status_code, response.headers, response.get_data())

    def enter(self) -> Answer:
        """Types the key, and takes the cookie."""
        return self.let_in({"key": self.guard.key})

    def let_in(self, form: Fields) -> Answer:
        """Sends the form of the entrance, takes the cookie, and loads the desk."""
        answer = self.ask("POST", "/", form)
        assert answer.status_code == 303, answer.text
        self.cookie = answer.cookie
        return self.load(answer.location)

    def load(self, path: str) -> Answer:
        """Loads a page, by its address or by its place on the desk."""
        self.answer = self.ask("GET", path if path.startswith("/") else f"{self.guard.inside}/{path}")
        self.place = path.removeprefix(self.guard.inside)
        self.page = self.answer.text
        return self.answer

    def follow(self, said: str) -> Answer:
        """Loads the page of the link whose text begins with `said`."""
        return self.load(matched(f'href="([^"]+)">{re.escape(said)}', self.page)[1])

    def form(self, action: str, *names: str) -> Fields:
        """The fields of the form on the page that is sent to this place and has these fields."""
        found = [fields for fields in self.forms(action) if {*names} <= {*fields} | OPTIONAL]
        assert found, f"no form to {action} with {names} on the page: {words(self.page)}"
        return found[0]

    def forms(self, action: str) -> list[Fields]:
        """The fields of each form on the page that is sent to this place."""
        wanted = f"{self.guard.inside}/{action}"
        return [fields for place, fields in Reader(self.page).forms if place == wanted]

    def send(self, action: str, **typed: str) -> str:
        """Fills in the form on the page, sends it, and loads the page that it leads to. Returns that page's place."""
        answer = self.post(action, **{**self.form(action, *typed), **typed})
        assert answer.status_code == 303, (answer.status_code, words(answer.text))
        self.load(answer.location)
        return self.place

    def post(self, action: str, **fields: Sent) -> Answer:
        """Sends a form that need not be on any page."""
        return self.ask("POST", f"{self.guard.inside}/{action}", {"token": self.guard.token, **fields})

    def post_on(self, action: str, **fields: Sent) -> Answer:
        """Sends a form that need not be on any page, and loads the page that it leads to."""
        return self.load(self.post(action, **fields).location)

    def send_to(self, action: str, **typed: str) -> str:
        """Loads the desk's first page, and sends its form. Returns the place of the page that it leads to."""
        self.load("")
        return self.send(action, **typed)

    def text(self) -> str:
        """What the page says."""
        return words(self.page)

    def heading(self) -> str:
        """The heading of the page."""
        return words("<body>" + matched(r"<h1[^>]*>(.*?)</h1>", self.page)[1])

    def write(self, raw: str) -> str:
        """Takes lines as text through preview and write. Returns the place of the page of what was written."""
        self.load("")
        place = self.send("preview", raw=raw)
        assert place.startswith("/preview/"), f"{raw!r} leads to {place}: {self.text()}"
        return self.send("write")

    def close(self, typed: str) -> str:
        """Takes a close through its page. Returns the place of the page that it leads to."""
        self.load("close")
        return self.send("close", typed=typed)


@functools.cache
def compiled() -> FileSystemBytecodeCache:
    """The templates as they are compiled once for all tests."""
    import jinja2

    folder = tempfile.mkdtemp()
    atexit.register(shutil.rmtree, folder)
    return jinja2.FileSystemBytecodeCache(folder)


@functools.cache
def files_of(award: str) -> Files:
    """The award of a path and the program, read once for all tests."""
    return Files(pathlib.Path(EXAMPLES, award).resolve(), pathlib.Path(PROGRAM).resolve())


@unittest.skipUnless(HAS_ALL, WHY)
class DeskTest(unittest.TestCase):
    """A desk with a log in a folder of its own."""

    award = "spectrum.award"

    def setUp(self) -> None:
        self.folder = pathlib.Path(tempfile.mkdtemp())
        self.addCleanup(shutil.rmtree, self.folder)
        self.log_path = self.folder / "day.log"

    def open(
        self,
        log: bytes = b"",
        *,
        with_demand: bool = False,
        names: pathlib.Path | None = None,
        copies: pathlib.Path | None = None,
        feed: pathlib.Path | None = None,
    ) -> Client:
        """Opens the desk, and enters it."""
        from cca_tools.desk.guard import Guard

        if log:
            self.log_path.write_bytes(log)
        files = files_of(self.award)
        long_names = read_names(str(names) if names else None, files.answers.award)
        self.desk = Desk(files, self.log_path, names=long_names, copies=copies, feed=feed)
        self.guard = Guard(PORT)
        self.app = self.app_of(self.guard, names, with_demand)
        self.client = Client(self.app, self.guard)
        self.client.enter()
        return self.client

    def app_of(self, guard: Guard, names: pathlib.Path | None = None, with_demand: bool = False) -> Flask:
        """The application of the desk with these secrets."""
        from cca_tools.desk.web import make_app

        app = make_app(self.desk, guard, Ending(self.desk, names), with_demand)
        app.jinja_env.bytecode_cache = compiled()
        return app

    def log(self) -> bytes:
        """The bytes of the log."""
        return self.log_path.read_bytes()
