"""The desk as its users have it: the program `tools/desk` in a process of its own, and a real browser that has hands.

Links and buttons are found by their labels and hit at their position, so one that is covered or can't be seen is a
fault. With only keys, nothing but the focus shows where the user is. Nothing of the desk's code is used here.
"""

from __future__ import annotations

import atexit
import pathlib
import re
import signal
import subprocess
import sys
import time
from collections.abc import Callable

from checks import browser
from checks.cases.interrupts import take_interrupts

TOOLS = pathlib.Path(__file__).resolve().parents[1] / "tools"

SECONDS = 300  # (on a machine that does other work too)
WIDTH, HEIGHT = 1280, 820
CODES = {"Tab": 9, "Enter": 13, " ": 32}
REPLY_FORM = "form:has(#package)"
STARTED = re.compile(r"desk  (\S+)\nkey   (\S+)\n(?:second  (\S+)\n)?room  (\S+)\n")


def can_hold() -> bool:
    """Whether a browser is here."""
    return browser.program() is not None


def until(is_done: Callable[[], bool], what: str) -> None:
    """Waits for something, but not forever."""
    end = time.monotonic() + SECONDS
    while not is_done():
        if time.monotonic() > end:
            raise AssertionError(f"{what}: not within {SECONDS} s")
        time.sleep(0.01)


class Desk:
    """One start of `tools/desk`."""

    def __init__(self, *words: str | pathlib.Path) -> None:
        command = [sys.executable, str(TOOLS / "desk"), *map(str, words)]
        pipe = subprocess.PIPE
        self.process = subprocess.Popen(command, stdout=pipe, stderr=pipe, text=True, preexec_fn=take_interrupts)
        atexit.register(self.process.kill)
        assert self.process.stdout
        said = "".join(self.process.stdout.readline() for _ in range(4 if "--second" in words else 3))
        found = STARTED.fullmatch(said)
        if not found:
            self.kill()
            raise AssertionError(f"the desk doesn't start: {said}")
        self.address, self.key, self.second, self.room = found.groups()

    def kill(self) -> None:
        """Ends it as a power cut would, except for what the system still writes."""
        self.process.kill()
        self.process.communicate()

    def end(self) -> str:
        """Ends it by Ctrl-C, and returns what it printed at last, without the line about its program's proof."""
        self.process.send_signal(signal.SIGINT)
        said, faults = self.process.communicate(timeout=SECONDS)
        about = "The program: ", "! NOT PROVED: ", "! Up to "
        return said + "".join(line for line in faults.splitlines(True) if not line.startswith(about))


class Screen(browser.Browser):
    """A browser with one tab, and hands."""

    def __init__(self) -> None:
        super().__init__()
        self.left = 0
        self.size(WIDTH, HEIGHT)

    def close(self) -> None:
        """Ends the browser, also if it takes too long to end on its own."""
        try:
            super().close()
        except subprocess.TimeoutExpired:
            self.process.kill()

    # What is seen.

    def ask(self, script: str) -> str:
        """What a script makes of the page, as text."""
        return str(self.evaluate(script))

    def heading(self) -> str:
        """The heading of the page."""
        return self.ask("document.querySelector('h1').innerText.trim()")

    def text(self) -> str:
        """The text of the page."""
        return self.ask("document.querySelector('main').innerText")

    def texts(self, places: str) -> list[str]:
        """What the parts of the page say that a selector of CSS finds."""
        found: list[str] = self.evaluate(f"[...document.querySelectorAll({places!r})].map(it => it.innerText.trim())")
        return found

    def value(self, field: str) -> str:
        """What a field has, by its name in the page."""
        return self.ask(f"document.getElementById({field!r}).value")

    def focus(self) -> str:
        """The place of the focus: the name of a field, or the label of a link, a button or a heading. The focus reaches
        a page a moment after the page is there."""
        end = time.monotonic() + 5
        while (place := self.focus_now()) == "nothing" and time.monotonic() < end:
            time.sleep(0.01)
        return place

    def focus_now(self) -> str:
        """The place of the focus now."""
        return self.ask(
            "(it => it.id && it.labels ? it.id : it === document.body ? 'nothing' : it.innerText.trim())"
            "(document.activeElement)"
        )

    # Pages.

    def load(self, address: str) -> None:
        """Loads an address."""
        self.changes(lambda: self.call("Page.navigate", url=address))

    def changes(self, act: Callable[[], object]) -> None:
        """Does what leads to another page, and waits until that is there."""
        self.left += 1
        self.evaluate(f"window.left = {self.left}")
        act()
        until(self.is_there, "another page")

    def is_there(self) -> bool:
        """Whether another page is there whole. By Back it may be one that was left before."""
        try:
            return bool(self.evaluate(f"window.left !== {self.left} && document.readyState === 'complete'"))
        except (RuntimeError, KeyError):  # (between two pages)
            return False

    def new_tab(self) -> str:
        """Opens another tab, and goes there. Returns the tab that it leaves."""
        left = str(self.session)
        self.session = None
        target = self.call("Target.createTarget", url="about:blank")["targetId"]
        self.session = self.call("Target.attachToTarget", targetId=target, flatten=True)["sessionId"]
        self.call("Page.enable")
        self.size(WIDTH, HEIGHT)
        return left

    def go_to_tab(self, tab: str) -> str:
        """Goes to another tab. Returns the one that it leaves."""
        left, self.session = str(self.session), tab
        self.call("Page.bringToFront")
        return left

    # The mouse.

    def at(self, finder: str) -> tuple[float, float]:
        """The middle of a part of the page, once it is in sight and nothing covers it."""
        found = self.evaluate(
            f"(it => {{ if (!it) return null; it.scrollIntoView({{block: 'center'}});"
            " const box = it.getClientRects()[0], x = box.x + box.width / 2, y = box.y + box.height / 2;"
            " const top = document.elementFromPoint(x, y);"
            f" return it.contains(top) || top?.contains(it) ? [x, y] : null }})({finder})"
        )
        if not found:
            raise AssertionError(f"{finder} can't be hit on {self.heading()!r}: {self.text()[:300]}")
        return found[0], found[1]

    def hit(self, finder: str, times: int = 1) -> None:
        """Clicks a part of the page, once or as a double click."""
        x, y = self.at(finder)
        for count in range(1, times + 1):
            for kind in ("mousePressed", "mouseReleased"):
                self.call("Input.dispatchMouseEvent", type=kind, x=x, y=y, button="left", clickCount=count)

    def push(self, words: str, within: str = "body", times: int = 1) -> None:
        """Clicks the link or button with this label, which leads to another page."""
        finder = (
            f"[...document.querySelector({within!r}).querySelectorAll('a, button')]"
            f".find(it => it.innerText.trim() === {words!r})"
        )
        self.changes(lambda: self.hit(finder, times))

    def choose(self, field: str, value: str) -> None:
        """Chooses a value of a field that has a list."""
        is_there = self.evaluate(
            f"(it => {{ it.value = {value!r}; return it.value === {value!r} }})(document.getElementById({field!r}))"
        )
        if not is_there:
            raise AssertionError(f"{field} has no {value!r}")

    def fill(self, field: str, text: str) -> None:
        """Types a text into a field, instead of what is there."""
        details = f"document.getElementById({field!r}).closest('details')"
        if self.evaluate(f"{details}?.open === false"):
            self.hit(f"{details}.querySelector('summary')")
        self.hit(f"document.getElementById({field!r})")
        self.replace(text)

    def replace(self, text: str) -> None:
        """Types a text instead of the present text of the field with the focus."""
        self.press("a", modifiers=2, commands=["selectAll"])
        self.press("Delete") if not text else self.call("Input.insertText", text=text)

    # The keys.

    def press(self, key: str, **how: object) -> None:
        """Presses a key, and lets it go."""
        self.down(key, **how)
        self.call("Input.dispatchKeyEvent", type="keyUp", key=key, windowsVirtualKeyCode=code_of(key))

    def down(self, key: str, **how: object) -> None:
        """Presses a key. While a key is down, it is repeated with `autoRepeat`."""
        is_sign = len(key) == 1 and not how.get("commands")
        text = {"text": "\r" if key == "Enter" else key} if is_sign or key == "Enter" else {}
        kind = "keyDown" if text else "rawKeyDown"
        self.call("Input.dispatchKeyEvent", type=kind, key=key, windowsVirtualKeyCode=code_of(key), **text, **how)

    def type(self, text: str) -> None:
        """Types a text key by key."""
        for sign in text:
            self.press(sign)

    def tab_to(self, place: str) -> int:
        """Presses Tab until the focus is at a field, or at a link or button with this label. Returns how often."""
        for count in range(80):
            if self.focus() == place:
                return count
            self.press("Tab")
        raise AssertionError(f"no Tab leads to {place!r} on {self.heading()!r}")

    def enter(self, place: str) -> int:
        """Goes to a link or a button by Tab, and presses Enter, which leads to another page. Returns the number of
        Tabs."""
        count = self.tab_to(place)
        self.changes(lambda: self.press("Enter"))
        return count

    def hold_enter(self, heading: str) -> None:
        """Holds Enter until a page with this heading is there, and a second more: the key is repeated."""
        end = time.monotonic() + SECONDS
        self.down("Enter")
        while not self.has_heading(heading):
            self.down("Enter", autoRepeat=True)
            if time.monotonic() > end:
                raise AssertionError(f"a held Enter doesn't lead to {heading!r}")
        for _ in range(30):
            self.down("Enter", autoRepeat=True)
            time.sleep(0.03)
        self.call("Input.dispatchKeyEvent", type="keyUp", key="Enter", windowsVirtualKeyCode=13)
        until(lambda: self.has_heading(heading), f"the page {heading!r} after a held key")

    def has_heading(self, *headings: str) -> bool:
        """Whether a page with one of these headings is there whole."""
        try:
            return bool(self.evaluate("document.readyState === 'complete'")) and self.heading() in headings
        except (RuntimeError, KeyError):  # (between two pages)
            return False


def code_of(key: str) -> int:
    """The number of a key."""
    return CODES.get(key, ord(key.upper()) if len(key) == 1 else 0)
