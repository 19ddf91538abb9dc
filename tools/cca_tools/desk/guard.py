"""Who may request what from the desk. Other hosts, other origins, other users and other forms are refused, and each
response has the headers that make a browser enforce this.

The address of a request is exact, which stops names that are bound to another machine's address. What changes something
comes from a page of this very address and port, with the token of this start. Other users of the machine have no key,
so no cookie; its path can't be guessed, since a browser sends cookies to every port of a host.
"""

from __future__ import annotations

import hmac
import io
import re
import secrets
from dataclasses import dataclass, field

from flask import Request, Response

LETTERS = "abcdefghjkmnpqrstuvwxyz23456789"  # (without those that look like others)
KEY_LETTERS, GROUP = 24, 4
COOKIE = "desk"
MOST_BYTES = 1 << 20
FORM, FILE_FORM = "application/x-www-form-urlencoded", "multipart/form-data"
POLICY = "default-src 'none'; style-src 'self'; form-action 'self'; base-uri 'none'; frame-ancestors 'none'"
HEADERS = {
    "Content-Security-Policy": POLICY,
    # (not no-referrer: a browser then sends `Origin: null` with the desk's own forms)
    "Referrer-Policy": "same-origin",
    "X-Content-Type-Options": "nosniff",
    "X-Frame-Options": "DENY",
    "Cache-Control": "no-store",
    "Cross-Origin-Opener-Policy": "same-origin",
    "Cross-Origin-Resource-Policy": "same-origin",
}


class InMemory(Request):
    """A request whose files stay in memory: no list of a bidder reaches the disk next to the log."""

    def _get_file_stream(self, *args: object, **how: object) -> io.BytesIO:
        return io.BytesIO()


def new_key() -> str:
    """A key that is typed once: 24 letters of 31, which are 118 bits."""
    return "".join(secrets.choice(LETTERS) for _ in range(KEY_LETTERS))


def in_groups(key: str) -> str:
    """The key as the terminal shows it."""
    return "-".join(key[at : at + GROUP] for at in range(0, len(key), GROUP))


def same(given: str, wanted: str) -> bool:
    """Whether two texts are the same, in a time that doesn't say where they differ."""
    return hmac.compare_digest(given.encode("utf-8", "surrogateescape"), wanted.encode())


@dataclass(frozen=True)
class Guard:
    """The secrets of one start, and the desk's address."""

    port: int
    key: str = field(default_factory=new_key, repr=False)
    session: str = field(default_factory=lambda: secrets.token_urlsafe(32), repr=False)
    token: str = field(default_factory=lambda: secrets.token_urlsafe(32), repr=False)
    # of the second person, who approves; empty without one
    second_key: str = field(default="", repr=False)
    second_session: str = field(default_factory=lambda: secrets.token_urlsafe(32), repr=False)
    inside: str = field(default_factory=lambda: f"/desk-{secrets.token_hex(16)}", repr=False)

    @property
    def host(self) -> str:
        """The host of each request."""
        return f"127.0.0.1:{self.port}"

    @property
    def origin(self) -> str:
        """The origin of each form."""
        return f"http://{self.host}"

    def person_of(self, text: str) -> int:
        """Whose key a text is, with or without its hyphens: 1 for the auctioneer, 2 for the second person, else 0."""
        key = re.sub(r"[\s-]", "", text).lower()
        is_second = bool(self.second_key) and same(key, self.second_key)
        return 1 if same(key, self.key) else 2 if is_second else 0

    def is_second(self, request: Request) -> bool:
        """Whether a request is of the second person."""
        return bool(self.second_key) and same(request.cookies.get(COOKIE, ""), self.second_session)

    def fault(self, request: Request) -> int | None:
        """The status that refuses a request, or None."""
        if request.headers.get("Host") != self.host:
            return 421
        if request.method not in ("GET", "POST"):
            return 405
        if request.headers.get("Sec-Fetch-Site", "none") not in ("none", "same-origin"):
            return 403
        if request.method == "POST" and (fault := self.post_fault(request)):
            return fault
        return self.inside_fault(request) if self.is_inside(request) else None

    def post_fault(self, request: Request) -> int | None:
        """The status that refuses a form, or None."""
        if request.headers.get("Origin") != self.origin:
            return 403
        is_form = request.mimetype == FORM or request.mimetype == FILE_FORM and self.takes_file(request)
        return None if is_form else 415

    def takes_file(self, request: Request) -> bool:
        """Whether a request is for the one page that takes a file."""
        return bool(request.path == f"{self.inside}/list")

    def is_inside(self, request: Request) -> bool:
        """Whether a request is for a page of the desk; a wrong path of one is refused as without the cookie."""
        return request.path.startswith("/desk-")

    def inside_fault(self, request: Request) -> int | None:
        """The status that refuses a request for a page of the desk, or None."""
        if not same(request.cookies.get(COOKIE, ""), self.session) and not self.is_second(request):
            return 403
        if request.method == "POST" and not same(request.form.get("token", ""), self.token):
            return 403
        return None

    def let_in(self, response: Response, person: int = 1) -> None:
        """Sets the cookie in the browser of a person."""
        session = self.second_session if person == 2 else self.session
        response.set_cookie(COOKIE, session, path=f"{self.inside}/", httponly=True, samesite="Strict")

    def let_out(self, response: Response) -> None:
        """Takes the cookie from a browser."""
        response.delete_cookie(COOKIE, path=f"{self.inside}/", httponly=True, samesite="Strict")
