"""Who may ask the desk what: each measure against another host, origin, user or form has its test."""

from __future__ import annotations

import http.client
import os
import pathlib
import re
import shutil
import signal
import socket
import stat
import subprocess
import sys
import tempfile
import time
import unittest
import unittest.mock
import urllib.parse
from collections.abc import Mapping

from desk_client import HAS_ALL, PORT, WHY, Answer, DeskTest, Reader, matched, words
from checks.cases.interrupts import take_interrupts
from checks.cases.samples import EXAMPLES, TOOLS, taking

from cca_tools.commands.desk import listener_on
from cca_tools.page.source import given
from cca_tools.rules.stops import CRASH, WORDS, Stop

desk = taking("desk")

LINE = "bid,everest,1 0 0 0,"
NAMES = """title = "<script>alert(1)</script> & co"
[category.a800]
name = "<img src=x onerror=alert(2)>"
[bidder.everest]
name = "\\"><script>alert(3)</script>"
"""
HEADERS = {
    "Content-Security-Policy": (
        "default-src 'none'; style-src 'self'; form-action 'self'; base-uri 'none'; frame-ancestors 'none'"
    ),
    "Referrer-Policy": "same-origin",
    "X-Content-Type-Options": "nosniff",
    "X-Frame-Options": "DENY",
    "Cache-Control": "no-store",
    "Cross-Origin-Opener-Policy": "same-origin",
    "Cross-Origin-Resource-Policy": "same-origin",
}


class Requests(DeskTest):
    def setUp(self) -> None:
        super().setUp()
        self.open()
        self.inside = f"{self.guard.inside}/"

    def refuses(
        self, status: int, method: str, path: str, form: Mapping[str, str] | str | None = None, **headers: str | None
    ) -> None:
        """A request is refused with this status, by a page without an address of the desk, and writes nothing."""
        answer = self.client.ask(method, path, form, **headers)
        self.assertEqual(answer.status_code, status, (method, path, headers))
        self.assertNotIn("/desk-", answer.text)
        self.assertNotIn("Set-Cookie", answer.headers)
        self.assertEqual(self.log(), b"")

    def test_a_fault_of_the_system(self) -> None:
        """A page that lacks something of the system is refused, and the terminal says why, in one sentence."""
        fault = OSError(24, "Too many open files")
        with unittest.mock.patch.object(self.desk, "now", side_effect=fault):
            with unittest.mock.patch("cca_tools.desk.web.say") as say:
                self.refuses(500, "GET", self.inside)
        told = "! A page wasn't shown, since this can't be had: the system: Too many open files."
        say.assert_called_once_with(told, "red")

    def test_the_desk_answers_at_its_own_address_alone(self) -> None:
        for host in (
            "evil.example",
            f"localhost:{PORT}",
            "127.0.0.1",
            "127.0.0.1:1",
            f"[::1]:{PORT}",
            f"127.1:{PORT}",
            "",
        ):
            for path in (self.inside, "/", "/posted", "/desk.css"):
                with self.subTest(host=host, path=path):
                    self.refuses(421, "GET", path, Host=host)
        self.assertEqual(self.client.ask("GET", self.inside).status_code, 200)

    def test_nothing_but_pages_and_forms_is_answered(self) -> None:
        for method in ("PUT", "DELETE", "OPTIONS", "HEAD", "TRACE", "PATCH", "CONNECT"):
            with self.subTest(method):
                self.assertEqual(self.client.ask(method, self.inside).status_code, 405)

    def test_forms_come_from_the_desk_s_own_pages(self) -> None:
        form = {"token": self.guard.token, "raw": LINE}
        own = f"http://127.0.0.1:{PORT}"
        for origin in (
            "http://evil.example",
            "null",
            "http://127.0.0.1:1",
            f"https://127.0.0.1:{PORT}",
            own + "/",
            None,
        ):
            for path in (
                self.inside + "preview",
                self.inside + "write",
                self.inside + "close",
                "/",
            ):
                with self.subTest(origin=origin, path=path):
                    self.refuses(403, "POST", path, form, Origin=origin)

    def test_other_sites_and_other_ports_of_the_machine_are_refused(self) -> None:
        for site in ("cross-site", "same-site"):
            for method, path in (
                ("GET", self.inside),
                ("GET", "/posted"),
                ("POST", self.inside + "preview"),
                ("POST", "/"),
            ):
                with self.subTest(site=site, path=path):
                    self.refuses(
                        403,
                        method,
                        path,
                        {"token": self.guard.token},
                        Sec_Fetch_Site=site,
                    )
        for site in ("none", "same-origin"):
            self.assertEqual(
                self.client.ask("GET", self.inside, Sec_Fetch_Site=site).status_code,
                200,
            )

    def test_each_form_has_the_token_of_this_start(self) -> None:
        tokens: list[dict[str, str]] = [
            {},
            {"token": ""},
            {"token": "x"},
            {"token": "\u00e9"},
            {"token": self.guard.token[:-1]},
        ]
        for token in tokens:
            for action in (
                "preview",
                "write",
                "close",
                "again",
                "mend",
                "waiting",
                "end/award",
            ):
                with self.subTest(token=token, action=action):
                    self.refuses(403, "POST", self.inside + action, {"raw": LINE, **token})
        for place in ("", "close", "again"):
            page = self.client.load(place).text
            for action, fields in Reader(page).forms:
                self.assertEqual(fields.get("token"), self.guard.token, action)

    def test_nobody_comes_in_without_the_cookie(self) -> None:
        for cookie in (
            None,
            "",
            "desk=",
            "desk=x",
            "desk=\u00e9",
            f"other={self.guard.session}",
            f"desk={self.guard.token}",
        ):
            for place in (
                "",
                "close",
                "again",
                "bidder/everest",
                "bidder/everest/view",
                "lines/1-1",
                "nowhere",
            ):
                with self.subTest(cookie=cookie, place=place):
                    self.refuses(403, "GET", self.inside + place, Cookie=cookie)
            self.refuses(
                403,
                "POST",
                self.inside + "preview",
                {"token": self.guard.token, "raw": LINE},
                Cookie=cookie,
            )
        self.refuses(403, "GET", "/desk-0000/", Cookie=None)

    def test_the_key_is_typed_and_nothing_else_opens(self) -> None:
        self.assertRegex(self.guard.key, r"^[a-hjkmnp-z2-9]{24}$")
        for key in (
            "",
            "x",
            "\u00e9",
            self.guard.key[:-1],
            self.guard.key + "a",
            self.guard.token,
            self.guard.session,
        ):
            answer = self.client.ask("POST", "/", {"key": key}, Cookie=None)
            self.assertEqual((answer.status_code, answer.location), (303, "/?wrong"))
            self.assertNotIn("Set-Cookie", answer.headers)
        grouped = "-".join(re.findall("....", self.guard.key))
        for key in (self.guard.key, grouped, grouped.upper(), f" {grouped} "):
            self.assertIn(
                "Set-Cookie",
                self.client.ask("POST", "/", {"key": key}, Cookie=None).headers,
            )

    def test_the_cookie_goes_to_the_desk_s_own_path_alone(self) -> None:
        cookie = self.client.ask("POST", "/", {"key": self.guard.key}).headers["Set-Cookie"]
        parts = {part.strip() for part in cookie.split(";")}
        self.assertEqual(
            parts,
            {
                f"desk={self.guard.session}",
                "HttpOnly",
                "SameSite=Strict",
                f"Path={self.inside}",
            },
        )
        self.assertRegex(self.inside, r"^/desk-[0-9a-f]{32}/$")

    def test_each_start_has_its_own_secrets(self) -> None:
        from cca_tools.desk.guard import Guard

        one, other = Guard(PORT), Guard(PORT)
        for name in ("key", "session", "token", "inside"):
            self.assertNotEqual(getattr(one, name), getattr(other, name))
            self.assertNotIn(getattr(one, name), repr(one))

    def test_every_answer_has_the_headers(self) -> None:
        answers = [
            self.client.ask("GET", self.inside),
            self.client.ask("GET", self.inside + "nowhere"),
            self.client.ask("GET", "/posted"),
            self.client.ask("GET", "/desk.css"),
            self.client.ask("GET", "/", Host="evil.example"),
            self.client.ask("PUT", "/"),
            self.client.post("preview", raw=LINE),
            self.client.post("preview", raw="x" * (1 << 21)),
            self.client.ask("GET", self.inside + "bidder/everest/view"),
        ]
        self.assertEqual(
            [it.status_code for it in answers],
            [200, 404, 200, 200, 421, 405, 303, 413, 200],
        )
        for answer in answers:
            self.assertEqual({name: answer.headers.get(name) for name in HEADERS}, HEADERS)

    def test_large_and_other_forms_are_refused(self) -> None:
        self.refuses(
            413,
            "POST",
            self.inside + "preview",
            {"token": self.guard.token, "raw": "x" * (1 << 20)},
        )
        for kind in (
            "text/plain",
            "application/json",
            "multipart/form-data; boundary=x",
            "",
        ):
            with self.subTest(kind):
                self.refuses(
                    415,
                    "POST",
                    self.inside + "preview",
                    f"token={self.guard.token}",
                    Content_Type=kind,
                )

    def test_paths_lead_to_no_other_file(self) -> None:
        for path in (
            "/static/desk.css",
            "/static/../web.py",
            "/desk.css/../web.py",
            "/static/%2e%2e/web.py",
            "/day.log",
        ):
            with self.subTest(path):
                self.refuses(404, "GET", path)
        for name in ("<script>", "..", "nobody", "%2e%2e%2fday.log"):
            self.assertEqual(self.client.ask("GET", f"{self.inside}bidder/{name}").status_code, 404)


class Texts(DeskTest):
    def named(self, text: str) -> pathlib.Path:
        """The file of names with this text."""
        path = self.folder / "names.toml"
        path.write_text(text, encoding="utf-8")
        return path

    def test_names_are_never_markup(self) -> None:
        self.open(names=self.named(NAMES))
        self.client.write(LINE)
        seen = ""
        for place in ("", "close", "bidder/everest", "again", "/posted"):
            page = self.client.load(place).text
            self.assertEqual(self.client.answer.status_code, 200, words(page))
            tags = Reader(page).tags
            self.assertFalse({"script", "img", "svg", "iframe"} & {tag for tag, _ in tags}, place)
            seen += page
        for escaped in (
            "&lt;script&gt;alert(1)",
            "&lt;img src=x onerror=alert(2)&gt;",
            "&#34;&gt;&lt;script&gt;alert(3)",
        ):
            self.assertIn(escaped, seen)

    def test_names_that_turn_the_direction_of_text_are_refused(self) -> None:
        for sign in "\u202e\u2066\u200f\u061c":
            with self.subTest(hex(ord(sign))), self.assertRaisesRegex(Stop, f"U.{ord(sign):04X}"):
                self.open(names=self.named(f'[bidder.everest]\nname = "a{sign}b"\n'))

    def test_what_is_pasted_is_never_markup(self) -> None:
        client = self.open()
        self.assertIn(
            "/entry/",
            client.send("preview", raw="bid,<script>alert(1)</script>,1 0 0 0,"),
        )
        self.assertNotIn("<script", client.page)
        self.assertIn("&lt;script&gt;", client.page)
        self.assertEqual(self.log(), b"")

    def test_no_page_has_a_script_or_a_style_of_its_own(self) -> None:
        client = self.open(b"bid,everest,1 0 0 0,\nbid,tarn,9 0 0 0,\n")
        for place in (
            "",
            "close",
            "again",
            "bidder/tarn",
            "lines/1-2",
            "/",
            "/posted",
            "nowhere",
        ):
            for tag, attrs in Reader(client.load(place).text).tags:
                self.assertNotIn(tag, ("script", "style", "iframe", "object", "base"), place)
                self.assertFalse(
                    [name for name in attrs if name.startswith("on") or name == "style"],
                    (place, tag),
                )


class Room(DeskTest):
    def page(self) -> Answer:
        """The room's screen, as a browser without key and cookie has it."""
        answer = self.client.ask("GET", "/posted", Cookie=None)
        self.assertEqual(answer.status_code, 200)
        return answer

    def test_nothing_changes_between_closes(self) -> None:
        client = self.open(with_demand=True)
        first = self.page()
        self.assertIn("Round 1 is open", first.text)
        self.assertIn('http-equiv="refresh"', first.text)
        client.write("bid,everest,2 0 4 0,\nbid,tarn,2 1 4 0,\nbid,tarn,4 1 0 0,")
        self.assertEqual(
            (self.page().data, dict(self.page().headers)),
            (first.data, dict(first.headers)),
        )
        client.write("bid,meridian,2 0 7 6,")
        client.close("1")
        second = self.page()
        self.assertIn("Round 2 is open", second.text)
        self.assertIn("6 of 4", second.text)
        client.write("bid,everest,2 0 4 0,")
        self.assertEqual(self.page().data, second.data)

    def test_it_leads_nowhere_and_names_nobody(self) -> None:
        client = self.open()
        client.write("bid,everest,4 1 0 0,\nbid,everest,3 0 0 0,\nbid,tarn,2 1 4 0,")
        client.load("close")
        client.send("close", typed=self.words())
        page = self.page()
        self.assertIn("Posted price", page.text)
        self.assertNotIn("<a ", page.text)
        self.assertNotIn("<form", page.text)
        self.assertNotIn(self.guard.inside, page.text)
        for name in self.desk.award.names:
            self.assertNotIn(name, page.text)
        self.assertNotIn(" of 4", page.text)

    def words(self) -> str:
        """What the close on the page asks for."""
        found = re.search(r"Type: ([a-z ]+)<", self.client.page)
        return found[1] if found else "1"


@unittest.skipUnless(HAS_ALL, WHY)
class AsProgram(unittest.TestCase):
    def setUp(self) -> None:
        folder = tempfile.TemporaryDirectory()
        self.addCleanup(folder.cleanup)
        self.folder = pathlib.Path(folder.name)
        self.words = [
            sys.executable,
            os.path.join(TOOLS, "desk"),
            os.path.join(EXAMPLES, "spectrum.award"),
            "day.log",
        ]

    def start(self, *words: str) -> tuple[subprocess.Popen[str], str]:
        """Starts the desk, and returns its process with the first three lines that it says."""
        made = subprocess.Popen(
            [*self.words, *words],
            cwd=self.folder,
            stdout=subprocess.PIPE,
            stderr=subprocess.PIPE,
            text=True,
            preexec_fn=take_interrupts,
        )
        self.addCleanup(made.communicate)
        self.addCleanup(made.kill)
        return made, "".join(given(made.stdout).readline() for _ in range(3))

    def test_a_start_and_an_end(self) -> None:
        made, said = self.start()
        form = r"\Adesk  (http://127\.0\.0\.1:(\d+))/\nkey   ((?:\w{4}-){5}\w{4})\nroom  \1/posted\n\Z"
        origin, port, key = matched(form, said).groups()
        if shutil.which("ss"):
            self.assertEqual(listening(int(port)), ["127.0.0.1"])
        self.assertFalse(in_processes(key) or in_processes(key.replace("-", "")))
        self.assertIn("Round 1 is open", self.entered(origin, int(port), key))
        for kind in ("", ".desk", ".key"):
            self.assertEqual(stat.S_IMODE(os.stat(self.folder / f"day.log{kind}").st_mode), 0o600)
        made.send_signal(signal.SIGINT)
        self.assertEqual(made.wait(20), 0)
        self.assertEqual(given(made.stdout).read(), "The desk is closed.\n")

    def entered(self, origin: str, port: int, key: str) -> str:
        """The page that the key leads to, by HTTP."""
        asked = http.client.HTTPConnection("127.0.0.1", port, timeout=20)
        headers = {"Origin": origin, "Content-Type": "application/x-www-form-urlencoded"}
        asked.request("POST", "/", urllib.parse.urlencode({"key": key}), headers)
        answer = asked.getresponse()
        answer.read()
        self.assertEqual(answer.status, 303)
        self.assertIsNone(answer.headers["Server"])
        cookie = answer.headers["Set-Cookie"].split(";")[0]
        asked.request("GET", answer.headers["Location"], headers={"Cookie": cookie})
        page = asked.getresponse().read().decode()
        asked.close()
        return page

    def test_idle_connections_hold_nobody(self) -> None:
        """More of them than a server takes by default; the room's screen is served as well."""
        _, said = self.start()
        port = int(matched(r":(\d+)/posted", said)[1])
        for it in self.connections(port, 150)[:75]:
            it.send(b"POST / HTTP/1.1\r\nHost: ")
        asked = http.client.HTTPConnection("127.0.0.1", port, timeout=60)
        asked.request("GET", "/posted")
        self.assertIn("Round 1 is open", asked.getresponse().read().decode())
        asked.close()

    def connections(self, port: int, count: int) -> list[socket.socket]:
        """Connections to a port, which are closed after the test."""
        made = [socket.create_connection(("127.0.0.1", port), timeout=20) for _ in range(count)]
        for it in made:
            self.addCleanup(it.close)
        return made

    def test_two_people_have_two_keys(self) -> None:
        made, said = self.start("--second")
        said += given(made.stdout).readline()
        keys = re.findall(r"(?:key|second) +((?:\w{4}-){5}\w{4})\n", said)
        self.assertEqual((len(keys), len(set(keys))), (2, 2))

    def test_a_log_has_one_address(self) -> None:
        addresses: set[str] = set()
        for _ in range(2):
            made, said = self.start()
            addresses.add(matched(r"room  (\S+)", said)[1])
            made.kill()
            made.wait(20)
        self.assertEqual(len(addresses), 1)

    def refused(self, *words_: str) -> tuple[int, str]:
        """Why a start fails, with its status. Nothing is made."""
        log = self.folder / "other.log"
        with self.assertRaises(Stop) as caught:
            desk([os.path.join(EXAMPLES, "spectrum.award"), str(log), *words_])
        self.assertFalse(log.exists())
        return caught.exception.status, caught.exception.why

    def test_without_the_program_it_does_not_start(self) -> None:
        with unittest.mock.patch.dict(os.environ, CCA_PROGRAM="/nowhere"):
            status, why = self.refused()
        self.assertEqual(status, CRASH)
        self.assertIn("Build it once with ./cca, or say where it is with CCA_PROGRAM=PATH", why)

    def test_without_its_libraries_it_says_what_to_install(self) -> None:
        for module in ("flask", "waitress"):
            with unittest.mock.patch.dict(sys.modules, {module: None}):
                status, why = self.refused()
            self.assertEqual(status, CRASH)
            self.assertIn(
                f"apt-get install python3-{module}, then /usr/bin/python3 tools/desk",
                why,
            )

    def test_wrong_words(self) -> None:
        for words_, why in (
            (("--port", "x"), "--port takes a number from 0 to 65535"),
            (("--port", "65536"), "--port takes a number"),
            (("--feed", "-"), "none is standard input"),
            (
                ("--feed", str(self.folder / "." / "other.log")),
                "--feed names LOG itself",
            ),
            (("--key", "x"), "there is no option --key"),
        ):
            status, said = self.refused(*words_)
            self.assertEqual(status, WORDS)
            self.assertIn(why, said)

    def test_a_port_that_is_taken(self) -> None:
        with socket.create_server(("127.0.0.1", 0)) as taken:
            port = taken.getsockname()[1]
            with self.assertRaises(Stop) as caught:
                listener_on(port)
        self.assertIn(f"port {port} of 127.0.0.1 can't be had", caught.exception.why)


def listening(port: int) -> list[str]:
    """The addresses where somebody listens on a port."""
    said = subprocess.run(["ss", "-ltnH"], capture_output=True, text=True, check=True).stdout
    places = [row.split()[3].rpartition(":") for row in said.splitlines()]
    return [address for address, _, place in places if place == str(port)]


def in_processes(text: str) -> bool:
    """Whether a text is in the arguments or the environment of any process that can be seen."""
    found = False
    for name in ("cmdline", "environ"):
        for path in pathlib.Path("/proc").glob(f"[0-9]*/{name}"):
            try:
                found |= text.encode() in path.read_bytes()
            except OSError:
                time.sleep(0)  # (it has ended, or is another user's)
    return found


if __name__ == "__main__":
    unittest.main()
