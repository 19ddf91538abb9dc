"""A form that is sent to the desk, as a browser sends it."""

from __future__ import annotations

import http.client
import re
import urllib.parse
from collections.abc import Mapping

FORM = "application/x-www-form-urlencoded"
BOUNDARY = "b" * 32


class Browser:
    """A browser that has entered the desk at this address with this key."""

    def __init__(self, address: str, key: str) -> None:
        self.origin, self.cookie = address.rstrip("/"), ""
        self.host = urllib.parse.urlsplit(address).netloc
        self.inside = self.post("/", urllib.parse.urlencode({"key": key}).encode(), FORM)
        found = re.search(r'name="token" value="([^"]+)"', self.get(self.inside))
        if not found:
            raise RuntimeError("the desk's page has no form")
        self.token = found[1]

    def ask(self, method: str, path: str, body: bytes = b"", **headers: str) -> http.client.HTTPResponse:
        """An answer of the desk."""
        wire = http.client.HTTPConnection(self.host, timeout=600)
        kept = {"Cookie": self.cookie, **{name.replace("_", "-"): value for name, value in headers.items()}}
        wire.request(method, path, body, kept)
        return wire.getresponse()

    def get(self, path: str) -> str:
        """A page."""
        return self.ask("GET", path).read().decode()

    def post(self, path: str, body: bytes, form: str) -> str:
        """Sends a form, and returns the address that the desk leads to; an empty one if it takes no form."""
        answer = self.ask("POST", path, body, Origin=self.origin, Content_Type=form)
        self.cookie = answer.headers.get("Set-Cookie", self.cookie).partition(";")[0]
        return urllib.parse.urlsplit(answer.headers.get("Location", "")).path

    def send_list(self, data: bytes) -> str:
        """Hands in a bidder's list as a file."""
        parts = [part("token", self.token.encode()), part("bidder", b"b1"), part("file", data, "list.csv")]
        body = b"".join(parts) + f"--{BOUNDARY}--\r\n".encode()
        return self.post(f"{self.inside}list", body, f"multipart/form-data; boundary={BOUNDARY}")

    def send_lines(self, data: bytes) -> str:
        """Pastes lines."""
        fields: Mapping[str, str | bytes] = {"token": self.token, "raw": data}
        return self.post(f"{self.inside}preview", urllib.parse.urlencode(fields).encode(), FORM)


def part(name: str, data: bytes, file: str = "") -> bytes:
    """A field of a form with a file."""
    about = f'; filename="{file}"' if file else ""
    return f'--{BOUNDARY}\r\nContent-Disposition: form-data; name="{name}"{about}\r\n\r\n'.encode() + data + b"\r\n"


def send(address: str, key: str, role: str, data: bytes) -> None:
    """Sends a list or lines to a desk, and loads the page that it leads to."""
    browser = Browser(address, key)
    place = browser.send_list(data) if role == "list" else browser.send_lines(data)
    if place:
        browser.get(place)
