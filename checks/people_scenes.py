"""Auctions at the desk in a browser where a person makes mistakes that people make: at 400 wide, by two people, with
more winners than `cca award` prices, closed too early, and with lists that come as files.
"""

from __future__ import annotations

import codecs
import pathlib
import re
import subprocess
import tempfile

from checks.desk_browser import HEIGHT, REPLY_FORM, WIDTH, Desk, Screen, until
from checks.desk_held import PROGRAM, REPLY, STEPS, Auction, check
from checks.desk_scenes import AWARD, EXAMPLES, KEYS, LOG, SMALL, See, lines

BIDDERS = 8
SEVEN_AWARD = (
    'version = 1\ntick = 1\n[[category]]\nname = "lot"\nsupply = 8\npoints = 1\nreserve = 1\n'
    + "".join(f'[[bidder]]\nname = "b{j}"\neligibility = 1\n' for j in range(1, BIDDERS + 1))
    + "[[step]]\nexcess = 1\npermille = 1000\n"
).encode()
SEVEN = "".join(f"bid,b{j},1,\n" for j in range(1, 8)).encode() + b"close,,,\nclose,,,\n"
SLIP, RIGHT = "21000000000", "2,100,000"
# Eight bidders win a lot each. b9's bid of 170 for a lot of both kinds is the one that binds: a winner of the north and
# one of the south pay at least 170 together, and their Vickrey prices are the reserves, 100 and 50. The nearest such
# point of least sum adds 10 to each: 110 and 60, together 4 times 170.
EIGHT_AWARD = (
    'version = 1\ntick = 10\n[[category]]\nname = "north"\nsupply = 4\npoints = 1\nreserve = 100\n'
    '[[category]]\nname = "south"\nsupply = 4\npoints = 1\nreserve = 50\n'
    + "".join(f'[[bidder]]\nname = "b{j}"\neligibility = 2\n' for j in range(1, 10))
    + "[[step]]\nexcess = 1\npermille = 100\n"
).encode()
LOTS = {f"b{j}": "1 0" if j < 5 else "0 1" for j in range(1, 9)}
EIGHT = lines(
    " / ".join(
        [
            *(f"bid,{name},{lots}," for name, lots in LOTS.items()),
            *("bid,b9,1 1,", "close,,,"),
            *(f"bid,{name},{lots}," for name, lots in LOTS.items()),
            *("bid,b9,0 0,", "close,,,"),
            *(
                f"draft,{name},{lots},{300 if lots == '1 0' else 200} / submit,{name},,"
                for name, lots in [*LOTS.items()]
            ),
            *("draft,b9,1 1,170", "submit,b9,,", "close,,,"),
        ]
    )
)
EIGHT_PRICES = [
    *([f"b{j}", "1 x north 1 0", "300", "100", "110"] for j in range(1, 5)),
    *([f"b{j}", "1 x south 0 1", "200", "50", "60"] for j in range(5, 9)),
    ["Revenue", "", "", "", "680"],
]
BEGUN = 30  # lines of the sample up to the end of the clock
FILE_LINES = lines("draft,tarn,2 0 2 0,510000 / draft,tarn,2 0 0 0,490000 / submit,tarn,,")
SMALL_LIST = lines(
    "bid,tarn,1 0 0 0, / close,,, / draft,tarn,1 0 0 0,2100000 / submit,tarn,, / draft,niche,0 0 1 0,20000 /"
    " submit,niche,, / close,,,"
)


def is_in_view(screen: Screen, place: str) -> bool:
    """Whether a part of the page is within the window."""
    script = (
        f"(it => {{ const box = it.getBoundingClientRect(); return box.top >= 0 && box.bottom <= innerHeight }})"
        f"(document.querySelector({place!r}))"
    )
    return bool(screen.evaluate(script))


def seven(screen: Screen, see: See) -> str:
    """Seven bidders win, which is foreseen before the last close and explained after it."""
    held = Auction(screen, SEVEN_AWARD, SEVEN, see=see)
    held.start()
    held.note_first()
    held.hold(range(1, 9))
    screen.push("What would a close do?")
    check("what is foreseen", "more than 6 bidders win" in screen.text(), True)
    see("close-seven")
    held.home()
    held.close(9)
    screen.push("Award and audit")
    check("why", "7 bidders win" in " ".join(screen.texts("main .step .box")), True)
    see("closed-seven")
    price_by_tools(held)
    held.close_files()
    return "7 winners"


def price_by_tools(held: Auction) -> list[list[str]]:
    """Prices by the step that the page offers once the award has met the limit, then makes report and set. Returns the
    rows of the prices on the page."""
    screen = held.screen
    screen.push("Price by tools/price")
    check(
        "after tools/price", screen.texts("main .box.good"), ["Both programs say yes, and print the same to the byte."]
    )
    held.see("closed-priced")
    rows: list[list[str]] = screen.evaluate(
        "[...document.querySelectorAll('.step tbody tr')].map(row => [...row.cells].map(it => it.innerText.trim()"
        ".replace(/\\s+/g, ' ')))"
    )
    for step in ("report", "publish"):
        screen.push(STEPS[step])
        check(f"after {STEPS[step]}", screen.texts("main .box.bad:not(.alarm)"), [])
    held.need_right()
    return rows


def eight(screen: Screen, see: See) -> str:
    """Eight bidders win: from the first line to the published set, whose page has the prices, who found and who judged
    them."""
    held = Auction(screen, EIGHT_AWARD, EIGHT, see=see)
    held.start()
    check("what is said at the start", "Up to 8 bidders could win." in screen.text(), True)
    held.note_first()
    held.hold(range(1, 11))
    held.write(11, 19)
    held.hold([20])
    held.write(21, 38)
    screen.push("What would a close do?")
    check("by what it can be priced", "`tools/price` is for that" in screen.text(), True)
    see("close-eight")
    held.home()
    held.close(39)
    screen.push(STEPS["award"])
    check("why", "8 bidders win" in " ".join(screen.texts("main .step .box")), True)
    check("what the page prints", price_by_tools(held), EIGHT_PRICES)
    published(held)
    held.home()
    held.close_files()
    return "39 lines, 8 winners, revenue 680"


def published(held: Auction) -> None:
    """The page of the set and the report show what each winner pays, who found the prices, and who judged them."""
    screen = held.screen
    screen.load(f"file://{held.set()}/index.html")
    screen.evaluate("document.querySelectorAll('details').forEach(it => it.open = true)")
    page = " ".join(screen.ask("document.body.innerText").split())
    for words in (
        "Eight winners pay 680 for all 8 lots",
        *(f"{name} {lots[:9]} {pays}" for name, lots, _, _, pays in EIGHT_PRICES[:-1]),
        "prices found not by cca, which prices at most 6 winners",
        "cca, whose audit says yes",
    ):
        check(f"{words} on the page of the set", words in page, True)
    held.see("set-eight")
    screen.load(f"file://{held.set()}/report.html")
    report = " ".join(screen.ask("document.body.innerText").split())
    for words in (
        "8 bidders win, and the program finds prices for at most 6: another program found these.",
        "The certificate was tested by two programs, which share no code.",
    ):
        check(f"{words} in the report", words in report, True)


def twelve(screen: Screen, see: See) -> str:
    """A drill where twelve bidders win: the page of the end names the tool that can price them, and it prices them."""
    with tempfile.TemporaryDirectory() as folder:
        files = [pathlib.Path(folder, name) for name in ("award", "log")]
        subprocess.run([PROGRAM, "make", "7", *files], check=True, stdout=subprocess.DEVNULL)
        award = files[0].read_bytes()
    names, supplies = (re.findall(rf"{key} = (.+)", award.decode()) for key in ("name", "supply"))
    bidders = [it.strip('"') for it in names[len(supplies) :]]
    places = [place for place, many in enumerate(supplies) for _ in range(int(many))]
    bids = [
        f"bid,{name},{' '.join('1' if it == place else '0' for it in range(len(supplies)))},"
        for name, place in zip(bidders, places)
    ]
    held = Auction(screen, award, lines(" / ".join([*bids, "close,,,", "close,,,"])), see=see)
    held.start()
    held.note_first()
    held.write(1, len(bids))
    held.hold([len(bids) + 1])
    screen.push("What would a close do?")
    check("by what it can be priced", "`tools/price` is for that" in screen.text(), True)
    held.home()
    held.close(len(bids) + 2)
    screen.push(STEPS["award"])
    check("why", f"{len(bids)} bidders win" in " ".join(screen.texts("main .step .box")), True)
    rows = price_by_tools(held)
    check("how many are priced", len(rows) - 1, len(bids))
    held.close_files()
    return f"{len(bids)} winners"


def choose_file(held: Auction, data: bytes) -> None:
    """Chooses a file in the form of a list."""
    path = held.folder / "a list, of tarn.csv"
    path.write_bytes(data)
    screen = held.screen
    root = screen.call("DOM.getDocument")["root"]["nodeId"]
    field = screen.call("DOM.querySelector", nodeId=root, selector="#file")["nodeId"]
    screen.call("DOM.setFileInputFiles", nodeId=field, files=[str(path)])
    screen.choose("bidder-list", "tarn")


def csv_file(screen: Screen, see: See) -> str:
    """A list comes as a CSV file: what isn't CSV is named, faults are shown by the lines of the file, rows without one
    are entered while the others are kept, and the list is read back."""
    held = Auction(screen, AWARD, b"".join(LOG.splitlines(True)[:BEGUN]) + FILE_LINES, see=see)
    held.begin_with(BEGUN)
    held.start()
    screen.push("Hand in a list")
    see("list")
    hand_in = "What would be the replies?"
    for data, part in (
        (b"PK\x03\x04 a workbook", "is a workbook (.xlsx or .ods), not CSV"),
        (b"1 0 0 0;5\n" * 150_000, "the file is larger than 262,144 bytes"),
    ):
        choose_file(held, data)
        screen.push(hand_in)
        check(part, part in " ".join(screen.texts("#fault")), True)
        check("the focus of a wrong file", screen.focus(), "file")
        check("the fault in view", is_in_view(screen, "#fault"), True)
    see("list-wrong-file")
    table = '"a800";"b800";"c2600";"d2600";"Amount; gross"\r\n2;0;2;0;"510,000"\r\n2;0;0;0;490000.00\r\n;;;;\r\n'
    names = [it.decode() for it in re.findall(rb'name = "(\w+)"', AWARD)[:4]]
    for old, new in zip(("a800", "b800", "c2600", "d2600"), names):
        table = table.replace(f'"{old}"', f'"{new}"')
    choose_file(held, codecs.BOM_UTF8 + table.encode())
    screen.push(hand_in)
    check("the fault", screen.texts("#fault")[0].startswith("Nothing was written. Line 3, `2;0;0;0;490000.00`"), True)
    check("the focus of a wrong list", screen.focus(), "list")
    see("list-faults")
    screen.push("Go on with the 1 without a fault, as drafts; keep the others")
    check("replies", held.replied(), ["ok"])
    check("what stays", "So nothing is dropped, and nothing is submitted." in screen.text(), True)
    see("preview-list")
    screen.push("Write it")
    held.need_log(BEGUN + 1)
    screen.push("Go on with the lines that the form keeps")
    check("what is kept", screen.value("list").splitlines()[1:], ["2;0;0;0;490000.00"])
    screen.fill("list", "2 0 0 0;490,000")
    screen.push(hand_in)
    check("replies", held.replied(), ["ok", "ok"])
    check("what is read back", "Read this back to tarn before you write it: 1 package," in screen.text(), True)
    screen.push("Write 2 lines")
    held.need_log(BEGUN + 3)
    screen.push("Read back to tarn")
    check("the sheet to sign", "The list: 2 submitted, together 1,000,000." in screen.text(), True)
    see("readback")
    held.home()
    held.close_files()
    return "2 files refused by name, 1 with a fault in line 3"


def restarted(screen: Screen, see: See) -> str:
    """The desk is killed after a close was taken back, and started again. Then it starts over a line that isn't a
    record."""
    held = Auction(screen, SMALL, KEYS, see=see)
    held.start()
    held.note_first()
    held.hold(range(1, 5))
    take_back(held, "3", "west's bid wasn't in yet")
    held.note_all()
    held.desk.kill()
    held.start()
    check("after the restart", screen.heading(), "Round 1 is open")
    check("what has an answer", "had no answer yet" in screen.text(), False)
    check("what can be entered again", "Enter the cut lines again" in screen.text(), False)
    see("restart-taken-back")
    for place in (held.desk.room, f"{held.inside}bidder/west"):
        screen.load(place)
        told = "Close 1 is taken back. Round 1 is open again, and all its lines stay. Reason: west's bid wasn't in yet"
        check(f"the news on {place}", told in screen.text(), True)
    held.need_log(3)
    held.log_path.write_bytes(held.prefix(3) + b"hello\n")
    held.desk.kill()
    held.start()
    check("over a line that is none", screen.heading(), "The desk has stopped")
    see("stopped-none")
    screen.fill("why", "an editor")
    screen.push("Take out what isn't answered")
    held.need_log(3)
    held.home()
    held.hold(range(4, len(held.records) + 1))
    held.end()
    held.close_files()
    return "a close taken back, 2 restarts"


def narrow_day(screen: Screen, see: See) -> str:
    """A whole auction on a telephone's width, from the door to the published set."""

    def at_400(name: str) -> None:
        see(f"{name}-at-400")
        screen.size(400, 800, is_phone=True)

    screen.size(400, 800, is_phone=True)
    held = Auction(screen, SMALL, KEYS, see=at_400)
    held.start()
    held.note_first()
    held.hold(range(1, len(held.records) + 1))
    held.end()
    held.close_files()
    screen.size(WIDTH, HEIGHT)
    return f"{len(held.records)} lines at 400"


def entered_again(screen: Screen, see: See) -> str:
    """Lists are closed one bidder too early: only the close is taken back, and a cut list is entered again."""
    held = Auction(screen, AWARD, SMALL_LIST, see=see)
    held.start()
    held.hold(range(1, 5))
    screen.push("What would a close do?")
    screen.fill("typed", "end the auction")
    screen.push("End the auction")
    take_back(held, "4", "closed before niche had sent")
    held.need_log(4)
    screen.push("Go on")
    take_back(held, "2", "the list was of another day")
    see("cut-lists")
    screen.push("Enter the cut lines again")
    check("the cut lines", screen.heading(), "All 2 would be admitted")
    screen.push("Write 2 lines")
    held.need_log(4)
    screen.push("Go on")
    held.hold(range(5, 8))
    held.close_files()
    return "a close taken back, a list entered again"


def take_back(held: Auction, record: str, why: str) -> None:
    """Cuts the log after a record."""
    screen = held.screen
    held.home()
    screen.push("A round held again")
    screen.hit(f"document.getElementById('record-{record}')")
    screen.fill("why", why)
    screen.fill("typed", f"cut after {record}")
    screen.push("Cut the log")
    check("the page of a cut", screen.heading(), "The log is cut")


def two(screen: Screen, see: See) -> str:
    """Two people in two browsers: a close waits for the second one."""
    held = Auction(screen, AWARD, SMALL_LIST, "--second", see=see)
    other = Screen()
    try:
        held.desk = Desk(held.award_path, held.log_path, "--second")
        enter(screen, held.desk, held.desk.key, "Anna First")
        held.inside = screen.ask("location.href")
        enter(other, held.desk, held.desk.second, "Bo Second")
        held.write(1, 1)
        screen.push("What would a close do?")
        screen.fill("typed", "end the clock")
        screen.push("End the clock")
        held.need_log(1)
        see("approve-first")
        until(lambda: waits(other), "what waits on the second person's page")
        other.push("look at it")
        check("what the second person sees", other.heading(), "End the clock?")
        other.push("Approve: End the clock")
        held.need_log(2)
        until(lambda: screen.has_heading("Written and synced"), "the page of the close in the first browser")
        journal = held.log_path.with_name("day.log.desk").read_text()
        check("both names", '"by": "Anna First", "approved": "Bo Second"' in journal, True)
    finally:
        other.close()
    held.close_files()
    return "a close, approved"


def waits(screen: Screen) -> bool:
    """Whether the page of the second person, which loads itself again, shows that something waits."""
    try:
        return "look at it" in screen.text()
    except (RuntimeError, KeyError):  # (between two pages)
        return False


def enter(screen: Screen, desk: Desk, key: str, name: str) -> None:
    """Types a key and a name at the door."""
    screen.load(desk.address)
    screen.fill("key", key)
    screen.fill("name", name)
    screen.push("Enter")


def narrow(screen: Screen, see: See) -> str:
    """A telephone's width, and 640 by 450: each fault is in view with the focus at its field. An amount that is out of
    proportion is named."""
    held = Auction(screen, AWARD, SMALL_LIST, see=see)
    held.begin_with(2)
    held.start()
    for width, height in ((400, 800), (640, 450)):
        screen.size(width, height, is_phone=width < 500)
        held.home()
        for package, amount, field in (
            ("1,0,0,0", "5", "package"),
            ("1 0 0 0", "1.5", "amount"),
        ):
            held.fill_form("draft", "tarn", package, amount)
            screen.push(REPLY, REPLY_FORM)
            check(f"the focus at {width}", screen.focus(), field)
            check(f"the fault in view at {width}", is_in_view(screen, "#fault"), True)
            check(f"the field in view at {width}", is_in_view(screen, f"#{field}"), True)
            see(f"fault-{field}")
            held.home()
    held.fill_form("draft", "tarn", "1 0 0 0", SLIP)
    screen.push(REPLY, REPLY_FORM)
    check("an amount out of proportion", "Is it a typing error?" in screen.text(), True)
    see("preview-slip")
    screen.size(WIDTH, HEIGHT)
    held.close_files()
    return "faults in view at 400 and 640"


def room(screen: Screen, see: See) -> str:
    """The room's screen at 1920 by 1080 after the rounds of the sample: the last posted line is in view."""
    held = Auction(screen, AWARD, SMALL_LIST, "--demand", see=see)
    held.log_path.touch(0o600)
    held.log_path.write_bytes((EXAMPLES / "spectrum.log").read_bytes())
    held.start()
    for width, height in ((1280, 720), (1920, 1080)):
        screen.size(width, height)
        screen.load(held.desk.room)
        check(f"the seal in view at {width}", is_in_view(screen, ".latest .seal"), True)
        check(f"the prices in view at {width}", is_in_view(screen, "table"), True)
    see("posted-1920")
    screen.size(WIDTH, HEIGHT)
    held.close_files()
    return "the seal in view"


PEOPLE = {
    "seven": seven,
    "eight": eight,
    "twelve": twelve,
    "csv_file": csv_file,
    "restarted": restarted,
    "narrow_day": narrow_day,
    "entered_again": entered_again,
    "two": two,
    "narrow": narrow,
    "room": room,
}
