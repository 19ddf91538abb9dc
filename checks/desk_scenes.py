"""Whole auctions that are held at the desk in a browser, each with something that goes wrong on such a day.

The expected log of each one is written down before it is held: the sample's, the drill's, or one of this file. A scene
raises `AssertionError` if anything differs.
"""

from __future__ import annotations

import pathlib
import random
import subprocess
import sys
import tempfile
import time
from collections.abc import Callable
from typing import TypeAlias

ROOT = pathlib.Path(__file__).resolve().parents[1]
from checks.desk_browser import Screen, until  # noqa: E402
from checks.desk_held import PROGRAM, REPLY, STEPS, WRITTEN, Auction, check  # noqa: E402

See: TypeAlias = Callable[[str], None]
Scene: TypeAlias = Callable[[Screen, See], str]
EXAMPLES = ROOT / "examples"
AWARD, LOG = (EXAMPLES / "spectrum.award").read_bytes(), (EXAMPLES / "spectrum.log").read_bytes()
CLOSES, LAST = (11, 18, 24, 30, 62), 63  # of the sample
CORRECT, DROP = "Correct it", "Drop it"
SMALL = b"""version = 1
tick = 1
[[category]]
name = "band"
supply = 2
points = 2
reserve = 10
[[category]]
name = "tail"
supply = 3
points = 1
reserve = 4
[[bidder]]
name = "east"
eligibility = 6
[[bidder]]
name = "north"
eligibility = 5
[[bidder]]
name = "west"
eligibility = 4
[[step]]
excess = 1
permille = 100
[[step]]
excess = 2
permille = 200
"""
ONE_LOT = b"""version = 1
tick = 1
[[category]]
name = "lot"
supply = 1
points = 1
reserve = 1
[[bidder]]
name = "east"
eligibility = 1
[[bidder]]
name = "west"
eligibility = 1
[[step]]
excess = 1
permille = 1000
"""
NAMES = """title = "The northern auction"
currency = "EUR"
unit = 1000
[category.band]
name = "2 x 10 MHz of the lower band"
[category.tail]
name = "5 MHz of the upper band, unpaired"
[bidder.east]
name = "East & Daughters Telecommunications plc"
[bidder.west]
name = "West <of the river> Networks"
"""


def lines(text: str) -> bytes:
    """The log of lines with ` / ` between them."""
    return "".join(f"{line}\n" for line in text.split(" / ")).encode()


# One more line corrects each mistake of the writer: of west in rounds 1 and 2, of east's amount, of west's whole list.
SLIPS = lines(
    "bid,east,2 1, / bid,north,3 0, / bid,north,1 1, / bid,west,2 0, / bid,west,1 1, / close,,, / bid,east,1 2, / "
    "bid,west,0 1, / bid,west,0 0, / bid,north,1 1, / bid,west,0 1, / close,,, / bid,east,1 1, / bid,north,1 1, / "
    "bid,west,0 1, / close,,, / draft,east,1 1,40 / draft,east,2 1,82 / submit,east,, / draft,east,2 1,28 / "
    "draft,east,0 1,9 / drop,east,0 1, / submit,east,, / draft,north,1 1,33 / draft,north,1 0,20 / submit,north,, / "
    "draft,west,0 1,8 / submit,west,, / drop,west,0 1, / submit,west,, / draft,west,0 1,7 / submit,west,, / close,,,"
)
TIE = lines(
    "bid,east,1, / bid,west,1, / close,,, / bid,east,1, / bid,west,0, / close,,, / draft,east,1,2 / submit,east,, / "
    "draft,west,1,2 / submit,west,, / close,,,"
)
KEYS = lines(
    "bid,east,2 1, / bid,north,1 1, / bid,west,1 1, / close,,, / bid,east,1 1, / bid,north,1 1, / bid,west,0 1, / "
    "close,,, / draft,east,1 1,40 / submit,east,, / draft,north,1 1,33 / submit,north,, / draft,west,0 1,7 / "
    "submit,west,, / close,,,"
)
# West's line in round 1 is a mistake that the next one corrects, and its first draft is below the reserve.
SHORT = lines(
    "bid,east,2 1, / bid,north,1 1, / bid,west,0 1, / bid,west,1 1, / close,,, / bid,east,1 1, / bid,north,1 1, / "
    "bid,west,0 1, / close,,, / draft,east,1 1,40 / submit,east,, / draft,north,1 1,33 / submit,north,, / "
    "draft,west,0 1,3 / draft,west,0 1,7 / submit,west,, / close,,,"
)


# The sample.


def sample(screen: Screen, see: See) -> str:
    """The sample, line by line: each refused line first comes back by Correct it, and is written then."""
    held = Auction(screen, AWARD, LOG, see=see)
    held.start_at_door()
    held.note_first()
    see("clock-first")
    fault_of_form(held)
    corrected = 0
    for number in range(1, len(held.records) + 1):
        if held.is_close(number):
            see_before_close(held, number)
            wrong_words(held, number)
            held.close(number)
            continue
        if held.replies[number - 1] != "ok":
            correct(held, number)
            corrected += 1
        held.write(number, number)
        see_after(held, number)
    held.end()
    held.close_files()
    return f"63 lines, {corrected} of them refused, typed and corrected first"


def fault_of_form(held: Auction) -> None:
    """A form that states no line comes back with the reason and what was typed."""
    held.fill_form("bid", "tarn", "2,1,4,0", "")
    held.screen.push(REPLY, "form:has(#package)")
    (why,) = held.screen.texts("[role=alert]")
    check("the reason", "`2,1,4,0` is typed" in why, True)
    check("what was typed", held.screen.value("package"), "2,1,4,0")
    held.see("clock-fault")
    held.home()


def wrong_words(held: Auction, number: int) -> None:
    """A close isn't written if the typed words are wrong."""
    held.ask_close(number)
    held.screen.fill("typed", "99")
    held.screen.push(held.words_of(number)[2])
    check("a close with wrong words", len(held.screen.texts("[role=alert]")), 1)
    held.need_log(number - 1)
    held.see("close-wrong")
    held.home()


def correct(held: Auction, number: int) -> None:
    """A refused line comes back as it was typed, and isn't in the log."""
    record = held.records[number - 1]
    check("the reply", held.preview([record]), [held.replies[number - 1]])
    check("the focus of a preview", held.screen.focus(), held.screen.heading())
    held.screen.push(CORRECT)
    kind, bidder, package, _ = record.split(",")
    if held.screen.value("raw"):
        check("what was typed", held.screen.value("raw"), record)
    else:
        found = tuple(map(held.screen.value, ("kind", "bidder", "package")))
        check("what was typed", found, (kind, bidder, package))
    held.see("corrected")
    held.need_log(number - 1)
    held.home()


def see_before_close(held: Auction, number: int) -> None:
    """The screens before a close."""
    if number == CLOSES[2]:
        see_page(held, "tarn", "bidder-clock")
    if number == CLOSES[-1]:
        see_page(held, "meridian", "bidder-lists")
        held.screen.push("A round held again")
        held.see("again")
        held.home()
        held.screen.load(held.desk.room)
        held.see("posted")
        held.home()


def see_page(held: Auction, bidder: str, name: str) -> None:
    """The page of a bidder: it has only its own lines."""
    held.screen.push(bidder)
    check("the heading", held.screen.heading(), bidder)
    own = [it for it in held.screen.texts(".lines code") if it != "close,,,"]
    count = sum(it.split(",")[1] == bidder for it in held.log().decode().splitlines())
    check("whose lines", ({it.split(",")[1] for it in own}, len(own)), ({bidder}, count))
    held.see(name)
    held.screen.push("Desk")


def see_after(held: Auction, number: int) -> None:
    """The first page after some lines."""
    names = {16: "clock", 45: "lists-above", 61: "lists"}
    if number in names:
        held.see(names[number])


# The drill.


def drill(screen: Screen, see: See) -> str:
    """The drill of the guide: a made auction, opened before its last close, closed and awarded."""
    with tempfile.TemporaryDirectory() as folder:
        files = [pathlib.Path(folder, name) for name in ("award", "log")]
        subprocess.run([PROGRAM, "make", "7", *files], check=True, stdout=subprocess.DEVNULL)
        award, log = (path.read_bytes() for path in files)
    held = Auction(screen, award, log, see=see)
    last = len(held.records)
    held.begin_with(last - 1)
    held.start()
    held.note_all()
    check("what is said of the log", f"{last - 1:,} lines in the log." in screen.text(), True)
    see("lists-drill")
    held.close(last)
    held.end()
    held.close_files()
    return f"{last:,} lines"


# What goes wrong.


def slips(screen: Screen, see: See) -> str:
    """Mistakes of the writer: corrected before they are written, dropped, and corrected by one more line. With
    names."""
    with tempfile.NamedTemporaryFile("w", suffix=".toml") as names:
        names.write(NAMES)
        names.flush()
        held = Auction(screen, SMALL, SLIPS, "--names", names.name, "--demand")
        held.start()
        held.note_first()
        see("clock-names")
        slip_of_the_keys(held)
        held.hold(range(1, 9))
        drop(held, "bid,north,1 0,")
        held.hold(range(9, 20))
        see("lists-names")
        screen.load(held.desk.room)
        see("posted-names")
        held.home()
        held.hold(range(20, len(held.records) + 1))
        held.end()
        held.close_files()
    return f"{len(held.records)} lines"


def slip_of_the_keys(held: Auction) -> None:
    """A wrong package is corrected in the form that comes back, so that just the right line is written."""
    held.preview(["bid,east,3 1,"])
    check("a slip", held.screen.heading(), "It would be refused")
    held.screen.push(CORRECT)
    held.screen.fill("package", "2 1")
    held.screen.push(REPLY, "form:has(#package)")
    check("once corrected", held.replied(), ["ok"])
    held.need_log(0)
    held.screen.push(DROP)


def drop(held: Auction, record: str) -> None:
    """A line that is dropped is nowhere."""
    before = held.log()
    held.preview([record])
    held.screen.push(DROP)
    check("the log", held.log(), before)


def tie(screen: Screen, see: See) -> str:
    """Two bidders offer the same amount for the only lot, and the page names the tie."""
    held = Auction(screen, ONE_LOT, TIE, see=see)
    held.start()
    held.note_first()
    held.hold(range(1, len(held.records) + 1))
    screen.push(STEPS["award"])
    told = " ".join(screen.texts("main ul.box.warm"))
    check("the tie", ("There is a tie" in told, "west 1 instead of east 1" in told), (True, True))
    see("closed-tie")
    screen.push(STEPS["report"])
    screen.push(STEPS["publish"])
    check("what is well at the end", len(screen.texts("main .box.good")), len(STEPS))
    held.need_right()
    held.close_files()
    return f"{len(held.records)} lines"


def doubled(screen: Screen, see: See) -> str:
    """Each close comes twice: by a double click, a reload, Back, an old tab, and a second tab with the same page."""
    held = Auction(screen, AWARD, LOG, see=see)
    held.start()
    held.note_first()
    start = 1
    for number, twice in zip(CLOSES, (double_click, reload, back, old_tab, same_tab)):
        hold_lines(held, start, number - 1)
        twice(held, number)
        held.home()
        start = number + 1
    held.hold([LAST])
    held.end()
    held.close_files()
    return "5 closes, each twice"


def hold_lines(held: Auction, first: int, last: int) -> None:
    """Opens the page of the desk, and takes the lines before a close at once as text."""
    held.home()
    held.write(first, last)


def double_click(held: Auction, number: int) -> None:
    """The button is hit twice."""
    held.ask_close(number)
    held.screen.push(held.words_of(number)[2], times=2)
    time.sleep(1)
    headings = WRITTEN, "It is in the log already"
    until(lambda: held.screen.has_heading(*headings), "the page after a double click")
    held.need_closed(number, held.screen.heading())


def reload(held: Auction, number: int) -> None:
    """The page of what was written is loaded again."""
    held.close_only(number)
    held.screen.changes(lambda: held.screen.call("Page.reload"))
    held.need_closed(number)


def back(held: Auction, number: int) -> None:
    """Goes back to the page of the close, and sends it again without a change."""
    held.close_only(number)
    held.screen.changes(lambda: held.screen.evaluate("history.back()"))
    title, words, button = held.words_of(number)
    if held.screen.heading() == title:  # (as it was kept by the browser)
        held.screen.fill("typed", words)
        held.screen.push(button)
        held.need_closed(number, "It is in the log already")
        held.see("written-before")
    else:  # (asked for again, and so of what a close does then)
        held.need_log(number)


def old_tab(held: Auction, number: int) -> None:
    """A tab with the page of the close was left open, and is sent after the close was written by another one."""
    held.ask_close(number)
    first = held.screen.new_tab()
    held.home()
    held.close_only(number)
    held.screen.go_to_tab(first)
    held.screen.push(held.words_of(number)[2])
    held.need_closed(number, "It is in the log already")


def same_tab(held: Auction, number: int) -> None:
    """A second tab has the page of the close, and is sent after the first one has closed and awarded."""
    held.ask_close(number)
    first = held.screen.new_tab()
    held.home()
    held.close_only(number)
    held.screen.push("Go on")
    held.screen.push("Award and audit")
    held.screen.go_to_tab(first)
    held.screen.push(held.words_of(number)[2])
    held.need_closed(number, "It is in the log already")


def killed(screen: Screen, see: See) -> str:
    """The desk is killed at a preview, while lines and closes are written, and at the end, and is started again."""
    held, draw, counts = Auction(screen, AWARD, LOG, see=see), random.Random(1), [0, 0]
    held.start()
    held.note_first()
    start = 1
    for number in CLOSES:
        if number - start > 1:
            hold_lines(held, start, number - 2)
        for one in (number - 1, number):
            kill_at_preview(held, one)
            counts[kill_at_write(held, one, draw.uniform(0, 0.04))] += 1
        start = number + 1
    held.hold([LAST])
    screen.hit("document.querySelector('form[action$=\"end/award\"] button')")
    restart(held)
    held.end()
    held.close_files()
    return f"killed 16 times; of 10 writes {counts[1]} were on the disk"


def restart(held: Auction) -> None:
    """Kills the desk, and starts it again."""
    held.desk.kill()
    held.start()


def kill_at_preview(held: Auction, number: int) -> None:
    """A kill while the reply is looked at."""
    held.home()
    if held.is_close(number):
        held.ask_close(number)
    else:
        held.preview([held.records[number - 1]])
    restart(held)
    held.need_log(number - 1)


def kill_at_write(held: Auction, number: int, after: float) -> bool:
    """A kill while a line or a close is written; it is sent again if it isn't in the log. Returns whether it was in the
    log."""
    is_close = held.is_close(number)
    if is_close:
        held.ask_close(number)
    else:
        held.preview([held.records[number - 1]])
    held.screen.hit(f"document.querySelector('form[action$=\"{'close' if is_close else 'write'}\"] button')")
    time.sleep(after)
    restart(held)
    was_written = held.log() == held.prefix(number)
    if not was_written:
        held.need_log(number - 1)
        held.hold([number])
    elif is_close:
        held.note(held.screen.evaluate("document.querySelector('.given code').textContent"))
    held.need_log(number)
    held.see("started-again")
    return was_written


def cut(screen: Screen, see: See) -> str:
    """Two wrong closes are cut off, one with lines after it. An old tab with the first one writes nothing then."""
    held = Auction(screen, AWARD, LOG, see=see)
    held.start()
    held.note_first()
    hold_lines(held, 1, 10)
    held.hold([11])
    wrong_close(held, 11)
    first = screen.new_tab()
    held.home()
    cut_after(held, 11)
    other = screen.go_to_tab(first)
    screen.push("End the clock")
    check("the old tab", len(screen.texts("[role=alert]")), 1)
    held.need_log(11)
    screen.go_to_tab(other)
    screen.push("Go on")
    hold_lines(held, 12, 17)
    held.hold([18])
    hold_lines(held, 19, 23)
    held.hold([24])
    write_wrong(held, "bid,tarn,1 0 0 0,")
    wrong_close(held, 25)
    held.home()
    cut_after(held, 24)
    screen.push("Go on")
    hold_lines(held, 25, 29)
    held.hold([30])
    hold_lines(held, 31, 61)
    held.hold([62, 63])
    held.end()
    check("the cut logs", [(held.folder / f"day.log.cut-{it}").exists() for it in (1, 2)], [True, True])
    held.close_files()
    return "2 cuts"


def short(screen: Screen, see: See) -> str:
    """The auction of the merge gate: a mistake, a refused line, and a round that is held again."""
    held = Auction(screen, SMALL, SHORT, see=see)
    check("a refused line", held.replies[13] == "ok", False)
    held.start()
    held.note_first()
    held.hold(range(1, 6))
    write_wrong(held, "bid,east,0 1,")
    held.home()
    cut_after(held, 5)
    screen.push("Go on")
    held.hold(range(6, len(held.records) + 1))
    held.end()
    held.close_files()
    return f"{len(held.records)} lines, 1 cut"


def write_wrong(held: Auction, record: str) -> None:
    """Writes a line that a cut takes away."""
    check("the reply", held.preview([record]), ["ok"])
    held.screen.push("Write it")
    held.screen.push("Go on")


def wrong_close(held: Auction, count: int) -> None:
    """Ends the clock one round too soon, and goes back to the page of that close with the typed words."""
    before = held.log()
    held.screen.push("What would a close do?")
    held.screen.fill("typed", "end the clock")
    held.screen.push("End the clock")
    check("the wrong close", (held.screen.heading(), held.log()), (WRITTEN, before + b"close,,,\n"))
    held.screen.changes(lambda: held.screen.evaluate("history.back()"))
    held.screen.evaluate(
        "document.getElementById('typed') && (document.getElementById('typed').value = 'end the clock')"
    )


def cut_after(held: Auction, number: int) -> None:
    """Cuts the log after a close, first with the typed words for another close."""
    screen, long = held.screen, held.log()
    screen.push("A round held again")
    held.see("again")
    screen.hit(f"document.getElementById('record-{number}')")
    screen.fill("why", "the close came before tarn's line")
    screen.fill("typed", "cut after 1")
    screen.push("Cut the log")
    check("a cut with wrong words", (len(screen.texts("[role=alert]")), held.log()), (1, long))
    held.see("again-wrong")
    screen.fill("typed", f"cut after {number}")
    screen.push("Cut the log")
    check("the page of a cut", screen.heading(), "The log is cut")
    held.need_log(number)
    kept = sorted(held.folder.glob("day.log.cut-*"))
    check("the longer log", kept[-1].read_bytes(), long)
    held.see("cut")


def stopped(screen: Screen, see: See) -> str:
    """Others change the files: a torn line, a changed line, another award. Each stop ends by the steps of its page."""
    held = Auction(screen, AWARD, LOG, see=see)
    held.start()
    held.note_first()
    hold_lines(held, 1, 10)
    held.log_path.write_bytes(held.prefix(10) + b"bid,tarn,2 1")
    held.home()
    need_stop(held, "stopped-torn")
    screen.fill("why", "an editor was killed")
    screen.push("Take that line back")
    held.need_log(10)
    changed = held.prefix(10).replace(b"everest", b"harbour", 1)
    held.log_path.write_bytes(changed)
    held.home()
    need_stop(held, "stopped-changed")
    screen.load(held.desk.room)
    check("the room's screen", screen.heading(), "Please wait")
    see("posted-wait")
    held.home()
    screen.fill("why", "an editor")
    screen.push("Put the answered log back")
    check("once it is put back", (screen.heading(), held.log()), ("Round 1 is open", held.prefix(10)))
    check("the changed log", (held.folder / "day.log.changed-1").read_bytes(), changed)
    held.award_path.write_bytes(AWARD.replace(b"200000", b"200001"))
    held.home()
    need_stop(held, "stopped-award")
    held.award_path.write_bytes(AWARD)
    held.home()
    held.hold([11])
    for first, last in zip(CLOSES, CLOSES[1:]):
        hold_lines(held, first + 1, last - 1)
        held.hold([last])
    held.hold([LAST])
    held.end()
    held.close_files()
    return "3 stops"


def changed(screen: Screen, see: See) -> str:
    """Somebody changes the log after a close, and the auctioneer goes on with it. That needs the typed words, and the
    room's page shows it."""
    wrong = SLIPS.replace(b"bid,west,1 1,", b"bid,west,0 1,", 1)
    held = Auction(screen, SMALL, SLIPS, see=see)
    held.log_path.touch(0o600)
    held.log_path.write_bytes(wrong[: wrong.index(b"close,,,") + 9])
    held.start()
    held.note_all()
    held.log_path.write_bytes(held.prefix(6))
    held.home()
    need_stop(held, "stopped-changed-close")
    screen.fill("why-all", "the first line was written for another auction")
    screen.fill("typed", "go on")
    screen.push("Go on with the log as it is")
    check("without the words", screen.heading(), "The desk has stopped")
    screen.fill("why-all", "the first line was written for another auction")
    screen.fill("typed", "go on with the changed log")
    see("stopped-changed-words")
    screen.push("Go on with the log as it is")
    check("the log that is kept", held.log(), held.prefix(6))
    held.note_all()
    screen.load(held.desk.room)
    see("posted-changed")
    (void,) = screen.texts(".given .void b")
    check(
        "what is void", void.startswith("void since line 2: the log was changed after the start: the first line"), True
    )
    held.home()
    held.hold(range(7, len(held.records) + 1))
    held.end()
    held.close_files()
    return f"{len(held.records)} lines, {len(held.noted)} posted lines noted"


def early(screen: Screen, see: See) -> str:
    """A round is closed too early. Only the close is taken back, and the lines of its round stay."""
    held = Auction(screen, SMALL, SLIPS, see=see)
    held.start()
    held.note_first()
    held.write(1, 3)
    screen.push("What would a close do?")
    screen.fill("typed", "1")
    screen.push("Close the round")
    held.note(screen.texts("main .box p code")[0])
    screen.push("Go on")
    screen.push("A round held again")
    screen.hit("document.getElementById('record-3')")
    screen.fill("why", "the bids of north and west weren't in yet")
    screen.fill("typed", "cut after 3")
    see("again-early")
    screen.push("Cut the log")
    held.need_log(3)
    see("cut-early")
    held.note_all()
    held.home()
    held.hold(range(4, len(held.records) + 1))
    held.end()
    held.close_files()
    return f"{len(held.noted)} posted lines noted"


def witness(screen: Screen, see: See) -> str:
    """A witness notes the room's screen with two gaps and one void line, and tests the notes with the published
    folder."""
    held = Auction(screen, SMALL, KEYS)
    held.start()
    notes = room_of(held)
    held.hold(range(1, 5))
    notes += room_of(held)[:1]
    screen.push("A round held again")
    screen.hit("document.getElementById('record-0')")
    screen.fill("why", "the bids of another room")
    screen.fill("typed", "cut after 0")
    screen.push("Cut the log")
    screen.push("Go on")
    held.hold(range(1, 9))
    notes += room_of(held)[:1]
    held.hold(range(9, len(held.records) + 1))
    for button in STEPS.values():
        screen.push(button)
    screen.load(f"file://{held.set()}/index.html")
    see("set")
    said = tested_by_page(held, notes)
    see("set-tested")
    command = next(it for it in screen.texts("dd code") if it.startswith("tools/seal"))
    (held.set() / "NOTED").write_text("\n".join(notes))
    printed = subprocess.run(
        [sys.executable, *command.replace("tools/", f"{ROOT}/tools/", 1).split()],
        cwd=held.set(),
        capture_output=True,
        text=True,
    )
    wanted = [
        "award: agrees",
        "key: agrees",
        "line 1 (close 1): posted as line 1, void since line 2",
        "line 4 (close 2): agrees",
    ]
    for lines_of in (printed.stdout.splitlines(), said):
        check(
            "what a witness is told",
            [it.startswith(words) for it, words in zip(lines_of[1:], wanted, strict=True)],
            [True] * 4,
        )
        check("all of it", lines_of[0], "yes")
    wrong = notes[-1][:-1] + ("0" if notes[-1][-1] != "0" else "1")
    check("a misread digit", ["NOT of these files" in it for it in tested_by_page(held, [wrong])], [False, True])
    other = held.log().replace(b"bid,west,0 1,", b"bid,west,1 0,", 1)
    (held.set() / "auction.log").write_bytes(other)
    check("a changed log", tested_by_page(held, notes)[0], "no")
    held.home()
    held.close_files()
    return f"{len(notes)} lines noted of 7, with {len(said)} lines of answer"


def room_of(held: Auction) -> list[str]:
    """What the room's screen shows as the latest lines, and then the page of the desk again."""
    held.screen.load(held.desk.room)
    latest = held.screen.texts(".latest .seal")
    held.home()
    return latest


def tested_by_page(held: Auction, notes: list[str]) -> list[str]:
    """What the page of the set finds about notes, once the files of the folder are chosen."""
    screen = held.screen
    screen.load(f"file://{held.set()}/index.html")
    root = screen.call("DOM.getDocument")["root"]["nodeId"]
    field = screen.call("DOM.querySelector", nodeId=root, selector="#files")["nodeId"]
    files = [str(path) for path in sorted(held.set().rglob("*")) if path.is_file()]
    screen.call("DOM.setFileInputFiles", nodeId=field, files=files)
    screen.hit("document.getElementById('noted')")
    screen.replace("\n".join(notes))
    screen.hit("document.getElementById('test')")
    until(lambda: screen.ask("document.getElementById('found').textContent") != "", "an answer of the page")
    return screen.ask("document.getElementById('found').textContent").splitlines()


def need_stop(held: Auction, name: str) -> None:
    """Stops if the page isn't the page of a stopped desk."""
    check(name, held.screen.heading(), "The desk has stopped")
    held.see(name)


# Only by keyboard.


def keyboard(screen: Screen, see: See) -> str:
    """Only by keyboard, from the door to the published set: Tab, letters and Enter, which is also held down."""
    held = Auction(screen, SMALL, KEYS, see=see)
    held.start(by_keys=True)
    tabs = 0
    held_key(held)
    slip_by_keys(held)
    for number, record in enumerate(held.records, 1):
        tabs += close_by_keys(held, number) if held.is_close(number) else line_by_keys(held, number, record)
        if number == 8:
            bidder_by_keys(held)
    for button in STEPS.values():
        check("the focus of a closed auction", screen.focus(), "The auction is closed")
        screen.enter(button)
    check("what is well at the end", len(screen.texts("main .box.good")), len(STEPS))
    see("closed")
    for line in screen.evaluate("[...document.querySelectorAll('.given code')].map(it => it.textContent)"):
        held.note(line)
    held.need_right()
    held.close_files()
    return f"{len(held.records)} lines, {tabs} Tabs"


def held_key(held: Auction) -> None:
    """An Enter that is held down leads to a preview and writes nothing, also in the field of a close."""
    screen = held.screen
    type_line(held, "bid,east,2 1,")
    screen.hold_enter("It would be admitted")
    check("after a held Enter", held.log(), b"")
    screen.enter("Drop it")
    screen.enter("What would a close do?")
    screen.hold_enter("End the clock?")
    check("after a held Enter at a close", held.log(), b"")
    screen.enter("Don't close")


def slip_by_keys(held: Auction) -> None:
    """A refused line is corrected in the form that comes back."""
    screen = held.screen
    type_line(held, "bid,east,3 1,")
    screen.changes(lambda: screen.press("Enter"))
    screen.enter(CORRECT)
    check("what was typed", (screen.value("bidder"), screen.value("package")), ("east", "3 1"))
    check("the focus of a form that comes back", screen.focus(), "package")
    screen.hold_enter("It would be refused")  # (on from the link, as a key that is let go too late)
    check("after a held Enter on a form that comes back", held.log(), b"")
    screen.enter(CORRECT)
    check("the focus once more", screen.focus(), "package")
    screen.replace("2 1")
    screen.changes(lambda: screen.press("Enter"))
    check("once corrected", held.replied(), ["ok"])
    screen.enter(DROP)


def type_line(held: Auction, record: str) -> int:
    """Types a line into its form, from the first field on. Returns the number of Tabs."""
    screen, (kind, bidder, package, amount) = held.screen, record.split(",")
    check("the focus of the desk", screen.focus(), "kind")
    screen.type({"bid": "asks", "draft": "dra", "drop": "dro", "submit": "sub"}[kind])
    tabs = screen.tab_to("bidder")
    screen.type(bidder)
    tabs += screen.tab_to("package")
    screen.type(package)
    if amount:
        tabs += screen.tab_to("amount")
        screen.type(amount)
    return tabs


def line_by_keys(held: Auction, number: int, record: str) -> int:
    """Writes a line. Returns the number of Tabs."""
    screen, reply = held.screen, held.replies[number - 1]
    tabs = type_line(held, record)
    screen.changes(lambda: screen.press("Enter"))
    check("the reply", (held.replied(), screen.focus()), ([reply], screen.heading()))
    tabs += screen.enter(held.button([reply]))
    check("the page", (screen.heading(), screen.focus()), (WRITTEN, WRITTEN))
    held.need_log(number)
    return tabs + screen.enter("Go on")


def close_by_keys(held: Auction, number: int) -> int:
    """Closes. Returns the number of Tabs."""
    screen, (title, words, _) = held.screen, held.words_of(number)
    tabs = screen.enter("What would a close do?")
    check("the question", (screen.heading(), screen.focus()), (title, "typed"))
    screen.type(words)
    screen.changes(lambda: screen.press("Enter"))
    held.need_closed(number)
    check("the focus after a close", screen.focus(), WRITTEN)
    return tabs + screen.enter("Go on")


def bidder_by_keys(held: Auction) -> None:
    """Looks at what a bidder may see."""
    screen = held.screen
    screen.enter("east")
    check("the page of a bidder", (screen.heading(), screen.focus()), ("east", "east"))
    screen.enter("Desk")


# A rehearsal.


def rehearsal(screen: Screen, see: See) -> str:
    """A rehearsal that writes its lines to another file, and goes on after each close of the desk."""
    folder = pathlib.Path(tempfile.mkdtemp())
    award, values, feed = EXAMPLES / "final-cap.award", EXAMPLES / "final-cap.values", folder / "lines"
    words = [sys.executable, ROOT / "tools" / "rehearse", award, values, feed, "--desk", "--fit", "--slips", "3"]
    made = subprocess.Popen(list(map(str, words)), stdout=subprocess.PIPE, stderr=subprocess.PIPE, text=True)
    held = Auction(screen, award.read_bytes(), b"", "--feed", feed, see=see)
    try:
        held.start()
        held.note_first()
        count = hold_rehearsal(held)
        made.communicate(timeout=120)
        check("the rehearsal", (made.returncode, held.log()), (0, feed.read_bytes()))
        held.know(feed.read_bytes())
        held.end()
        held.close_files()
    finally:
        made.kill()
    return f"{len(held.records)} lines, {count} closes"


def hold_rehearsal(held: Auction) -> int:
    """Takes what waits, one line and then all, and closes. Returns the number of closes."""
    screen, closes = held.screen, 0
    while screen.heading() != "The auction is closed":
        until(lambda: is_waiting(held), "lines of the rehearsal")
        held.see("clock-waiting" if "is open" in screen.heading() else "lists-waiting")
        screen.push("Answer the next line")
        held.see("preview-waiting")
        push_write(held)
        while is_waiting(held):
            all_of_them = [it for it in screen.texts("button") if it.startswith("Answer ")][-1]
            screen.push(all_of_them)
            push_write(held)
        closes += 1
        screen.push("What would a close do?")
        title, label = screen.heading(), screen.texts("label[for=typed]")[0]
        number = title.removeprefix("Close round ").rstrip("?")
        screen.fill("typed", number if title.startswith("Close round") else label.removeprefix("Type: "))
        screen.push(screen.texts("button.main")[0])
        held.note(screen.texts("main .box p code")[0])
        screen.push("Go on")
    return closes


def is_waiting(held: Auction) -> bool:
    """Whether lines of the rehearsal wait; a moment later more may have come."""
    time.sleep(0.5)
    held.home()
    return "Rehearsal" in held.screen.text()


def push_write(held: Auction) -> None:
    """Writes what is shown, admitted or refused."""
    held.screen.push(held.button(held.replied()))
    check("the page", held.screen.heading(), WRITTEN)
    held.screen.push("Go on")


SCENES: dict[str, Scene] = {
    it.__name__: it
    for it in (
        *(short, sample, drill, slips, tie, doubled, killed, cut, stopped, changed, early, witness),
        *(keyboard, rehearsal),
    )
}
