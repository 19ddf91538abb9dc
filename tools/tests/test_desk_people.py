"""What the people at the desk see: previews in sentences, faults at their field, lists, searches, and two people."""

from __future__ import annotations

import html
import io
import pathlib
import re
import subprocess
import threading
import unittest
import unittest.mock
import zipfile

from desk_client import PORT, Client, DeskTest, Reader, files_of, matched
from checks.cases.program import PROGRAM
from checks.cases.samples import sample

from cca_tools.desk.disk import why_of
from cca_tools.desk.pasting import paste_of
from cca_tools.rules.award import read_award
from cca_tools.rules.pricing import most_winners, winners_warning

SAMPLE = sample("spectrum.log")
SEALED = b"".join(SAMPLE.splitlines(True)[:30])  # the log up to the end of the clock
NAMES = b"""title = "The northern auction"
currency = "NOK"
unit = 1000
[category.lot]
name = "2 x 10 MHz"
[bidder.b1]
name = "First Networks plc"
"""


def award_of(bidders: int, supply: int, eligibility: int = 1, reserve: int = 1) -> str:
    """The text of an award of one category."""
    head = f'version = 1\ntick = 1\n[[category]]\nname = "lot"\nsupply = {supply}\npoints = 1\nreserve = {reserve}\n'
    rows = "".join(f'[[bidder]]\nname = "b{j}"\neligibility = {eligibility}\n' for j in range(1, bidders + 1))
    return f"{head}{rows}[[step]]\nexcess = 1\npermille = 1000\n"


def rows_of(bidders: int) -> str:
    """A bid of one lot of each bidder."""
    return "".join(f"bid,b{j},1,\n" for j in range(1, bidders + 1))


class Small(DeskTest):
    """A desk with an award of one category."""

    def take(self, bidders: int, supply: int, eligibility: int = 1, reserve: int = 1) -> None:
        """Writes the award."""
        path = self.folder / "small.award"
        path.write_text(award_of(bidders, supply, eligibility, reserve))
        self.award = str(path)

    def named(self) -> pathlib.Path:
        """The file of names."""
        path = self.folder / "names.toml"
        path.write_bytes(NAMES)
        return path


class Winners(Small):
    def test_how_many_can_win(self) -> None:
        for bidders, supply, eligibility, most in ((8, 8, 1, 8), (8, 3, 1, 3), (5, 9, 1, 5), (8, 8, 0, 0)):
            award = read_award(award_of(bidders, supply, eligibility).encode())
            self.assertEqual(most_winners(award), most)
            self.assertEqual(len(winners_warning(award)), int(most > 6))

    def test_seven_winners_are_foreseen(self) -> None:
        self.take(8, 8)
        client = self.open()
        client.load("close")
        self.assertIn("Up to 8 bidders could win.", client.text())
        client.write(rows_of(7))
        client.close("end the clock")
        client.load("close")
        self.assertIn("By the bids as they are, more than 6 bidders win", client.text())
        self.assertNotRegex(client.text(), r"\b7 bidders")
        client.close("end the auction")
        client.load("")
        client.send("end/award")
        self.assertIn("7 bidders win (b1, b2, b3, b4, b5, b6, b7), and at most 6 can be priced.", client.text())
        self.assertNotIn("not yet", client.text())
        self.assertNotIn("no award yet", client.text())

    def test_six_winners_can_be_priced(self) -> None:
        self.take(8, 8)
        client = self.open(f"{rows_of(6)}close,,,\n".encode())
        client.load("close")
        self.assertIn("By the bids as they are, `cca award` can price the winners.", client.text())


class Previews(Small):
    def test_a_bid_in_sentences(self) -> None:
        self.take(2, 3, eligibility=3, reserve=10)
        client = self.open(names=self.named())
        client.write("bid,b1,3,")
        client.send_to("preview", kind="bid", bidder="b1", package="1")
        for part in (
            "First Networks plc (b1) asks for 1 lot of 2 x 10 MHz.",
            "Cost at the posted prices of round 1: 10 thousand NOK. Points: 1 of 3.",
            "It gives up 2 points of eligibility if the clock goes on after this round.",
            "It replaces line 1 of this bidder: 3 lots of 2 x 10 MHz.",
        ):
            self.assertIn(part, client.text())

    def test_no_line_breaks_an_item_of_a_package(self) -> None:
        """Between a count and its category are spaces at which no line ends."""
        client = self.open()
        client.send_to("preview", kind="bid", bidder="everest", package="1 0 3 0")
        gap = "\N{NO-BREAK SPACE}"
        self.assertIn(f"everest asks for 1{gap}x{gap}a800, 3{gap}x{gap}c2600.", html.unescape(client.page))

    def test_an_amount_out_of_proportion(self) -> None:
        client = self.open(SEALED)
        self.assertEqual(client.form("preview", "amount")["amount"], "")
        price = self.desk.now().auction.rounds[-1].prices[0]
        for amount, is_odd in ((10 * price, False), (10 * price + 1, True)):
            client.send_to("preview", kind="draft", bidder="tarn", package="1 0 0 0", amount=str(amount))
            self.assertEqual("is 10 times its price at the final clock prices" in client.text(), is_odd, amount)
        client.write(f"draft,tarn,1 0 0 0,{price}")
        client.send_to("preview", raw=f"draft,tarn,1 0 0 0,{9 * price}\ndraft,tarn,1 0 0 0,{price}")
        self.assertNotIn("times", client.text())

    def test_a_draft_shows_the_list(self) -> None:
        client = self.open(b"".join(SAMPLE.splitlines(True)[:45]))
        client.load("bidder/tarn")
        table = matched(r"<table.*?</table>", client.page)[0]
        auction = self.desk.now().auction
        packages = {*auction.desks[4].drafts, *(it for it in auction.desks[4].highest_in_clock if any(it))}
        self.assertEqual(table.count('<th scope="row"'), len(packages | {*auction.desks[4].submitted}))
        for head in ("Drafted", "Submitted", "Cap", "In the clock"):
            self.assertIn(head, table)

    def test_currency_and_unit(self) -> None:
        self.take(2, 3, eligibility=3, reserve=10)
        client = self.open(f"{rows_of(2)}close,,,\n".encode(), names=self.named())
        self.assertIn("Amount of a draft, in thousand NOK", client.text())
        client.load("/posted")
        self.assertIn("Posted price of a lot, in thousand NOK", client.text())


class Faults(DeskTest):
    def test_a_fault_is_at_its_field(self) -> None:
        client = self.open(SEALED)
        for field, typed in (
            ("package", {"kind": "draft", "bidder": "tarn", "package": "1,0,0,0", "amount": "5"}),
            ("amount", {"kind": "draft", "bidder": "tarn", "package": "1 0 0 0", "amount": "1.5"}),
            ("bidder", {"kind": "draft", "bidder": "", "package": "1 0 0 0", "amount": "5"}),
            ("raw", {"raw": "hello"}),
        ):
            with self.subTest(field):
                client.send_to("preview", **typed)
                (wrong,) = [attrs for _, attrs in Reader(client.page).tags if "aria-invalid" in attrs]
                self.assertEqual(wrong["id"], field)
                self.assertIn("autofocus", wrong)
                self.assertEqual(wrong["aria-describedby"].split()[0], "fault")
                focused = [attrs for _, attrs in Reader(client.page).tags if "autofocus" in attrs]
                self.assertEqual(len(focused), 1)
                card = client.page[: client.page.index('id="fault"')].rpartition("<form")[2]
                self.assertIn('class="card"', card.partition(">")[0])

    def test_all_faults_of_a_paste(self) -> None:
        client = self.open()
        raw = "bid,everest,2 0 4 0,\nhello\n\nbid,tarn,1 0 0,\nbid,tarn,1 0 0 0,\nbid,\u201cx\u201d,1 0 0 0,"
        client.send("preview", raw=raw)
        for row in (2, 3, 4, 6):
            self.assertRegex(client.text(), rf"Nothing was written\. Line {row}[ ,]")
        self.assertIn("4 faults", client.text())
        client.send("preview", raw=raw, good="1")
        self.assertEqual(client.heading(), "All 2 would be admitted")
        self.assertIn("3 more lines with faults of form stay in the form for later.", client.text())
        client.send("write")
        self.assertEqual(self.log(), b"bid,everest,2 0 4 0,\nbid,tarn,1 0 0 0,\n")
        client.follow("Go on with the lines that the form keeps")
        kept = "hello\nbid,tarn,1 0 0,\nbid,\u201cx\u201d,1 0 0 0,"
        self.assertEqual(client.form("preview", "raw")["raw"].strip(), kept)

    def test_admitted_lines_alone(self) -> None:
        client = self.open()
        client.send("preview", raw="bid,everest,2 0 4 0,\nbid,tarn,3 1 0 0,\nbid,niche,0 0 1 0,")
        self.assertEqual(client.heading(), "1 of 3 would be refused")
        forms = client.forms("write")
        self.assertEqual(len(forms), 2)
        client.post_on("write", **forms[1])
        self.assertEqual(self.log(), b"bid,everest,2 0 4 0,\nbid,niche,0 0 1 0,\n")
        client.follow("Go on with the lines that the form keeps")
        self.assertEqual(client.form("preview", "raw")["raw"].strip(), "bid,tarn,3 1 0 0,")
        self.assertIn("bid,tarn,3 1 0 0, would be refused: points 96.", client.text())

    def test_what_is_no_line_is_taken_out(self) -> None:
        client = self.open()
        client.write("bid,everest,2 0 4 0,")
        with self.log_path.open("ab") as file:
            file.write(b"hello\n")
        self.assertEqual(client.load("").status_code, 503)
        client.send("mend", mend="take out", why="an editor")
        self.assertEqual((client.answer.status_code, self.log()), (200, b"bid,everest,2 0 4 0,\n"))
        self.assertEqual((self.folder / "day.log.torn-1").read_bytes(), b"hello\n")

    def test_what_is_no_line_is_taken_out_after_a_restart(self) -> None:
        client = self.open()
        client.write("bid,everest,2 0 4 0,")
        with self.log_path.open("ab") as file:
            file.write(b"hello\nbid,tarn,1 0 0 0,\n")
        client = self.open()
        self.assertEqual(client.load("").status_code, 503)
        self.assertIn("The log has something that is no line.", client.text())
        client.send("mend", mend="take out", why="an editor")
        self.assertEqual((client.answer.status_code, self.log()), (200, b"bid,everest,2 0 4 0,\n"))
        self.assertEqual((self.folder / "day.log.torn-1").read_bytes(), b"hello\nbid,tarn,1 0 0 0,\n")
        client.write("bid,tarn,1 0 0 0,")
        self.assertIn("admitted", client.text())

    def test_a_full_disk_is_called_one(self) -> None:
        self.assertIn("the disk is full: make room", why_of(OSError(28, "No space left on device")))
        self.assertEqual(why_of(OSError(5, "Input/output error")), "Input/output error")


class Pastes(unittest.TestCase):
    def test_pastes(self) -> None:
        paste = paste_of("bid,b1,1,\r\nclose,,,\r\n \r\nbid,b1,1 0,", read_award(award_of(1, 3, 3).encode()))
        self.assertEqual((list(paste.good), [it.row for it in paste.faults]), (["bid,b1,1,"], [2, 3, 4]))
        self.assertEqual(paste.rest, "close,,,\nbid,b1,1 0,\n")


class Found(DeskTest):
    def test_searches(self) -> None:
        client = self.open(SAMPLE)
        rows = SAMPLE.decode().splitlines()
        for asked, wanted in (
            ("", len(rows)),
            ("?bidder=niche", sum(",niche," in it for it in rows)),
            ("?part=1", 11),
            ("?part=lists", len(rows) - 30),
            ("?text=submit", sum(it.startswith("submit") for it in rows)),
            ("?bidder=%3F", sum(",stranger," in it for it in rows)),
        ):
            client.load(f"all{asked}")
            self.assertIn(f"{wanted} line{'' if wanted == 1 else 's'} of {len(rows)}.", client.text(), asked)
        counts = []
        for reply in ("refused", "admitted"):
            client.load(f"all?reply={reply}")
            counts.append(int(matched(r"(\d+) lines? of", client.text())[1]))
        self.assertEqual(sum(counts), len(rows))
        self.assertTrue(all(counts), counts)

    def test_files_of_all_bidders(self) -> None:
        client = self.open(SAMPLE)
        answer = client.load("views.zip")
        with zipfile.ZipFile(io.BytesIO(answer.data)) as file:
            for name in self.desk.award.names:
                self.assertEqual(file.read(f"{name}.view").decode(), client.load(f"bidder/{name}/view").text)
            self.assertIn("The auction is closed.", file.read("announcement.txt").decode())

    def test_an_announcement(self) -> None:
        client = self.open(b"".join(SAMPLE.splitlines(True)[:10]))
        client.close("1")
        self.assertIn("Round 1 is closed. Round 2 is open.", client.text())
        text = client.load("announcement/11").text
        for price in self.desk.now().auction.running_round.prices:
            self.assertIn(f"{price:,}", text)
        self.assertNotIn("Lots asked for", text)
        self.assertIn((self.folder / "day.log.posted").read_text().splitlines()[-1], text)
        self.assertEqual(client.load("announcement/10").status_code, 404)

    def test_the_protocol_is_linked(self) -> None:
        client = self.open(SAMPLE)
        client.load("protocol")
        self.assertIn("PROTOCOL OF THE AUCTION", client.text())
        self.assertIn("Signature:", client.text())


class Cut(DeskTest):
    def test_cut_lines_are_entered_again(self) -> None:
        client = self.open(SEALED)
        lists = "".join(SAMPLE.decode().splitlines(True)[30:61])
        client.write(lists)
        client.close("end the auction")
        client.write("bid,tarn,1 0 0 0,")
        client.load("again")
        client.send("again", record="30", why="too early", typed="cut after 30")
        self.assertEqual(self.log(), SEALED)
        client.send("recut")
        self.assertEqual(client.form("write")["text"].strip(), lists.strip())
        client.send("write")
        self.assertEqual(self.log(), SEALED + lists.encode())
        client.load("")
        self.assertNotIn("Enter the cut lines again", client.text())


class TwoPeople(DeskTest):
    def two(self, log: bytes = b"") -> tuple[Client, Client]:
        """A desk with two people in two browsers."""
        from cca_tools.desk.guard import Guard

        self.open(log)
        self.guard = Guard(PORT, second_key="bcdf" * 6)
        app = self.app_of(self.guard)
        one, two = Client(app, self.guard), Client(app, self.guard)
        one.let_in({"key": self.guard.key, "name": "Anna First"})
        two.let_in({"key": self.guard.second_key, "name": "Bo Second"})
        return one, two

    def places(self, client: Client) -> list[str]:
        """The addresses that the forms of a page are sent to."""
        return [place.removeprefix(f"{self.guard.inside}/") for place, _ in Reader(client.page).forms]

    def goes_on(self, client: Client) -> str:
        """The heading of the page that the first person's browser reaches after the second person has decided."""
        client.load(client.load("approve").location)
        return client.heading()

    def test_a_close_waits_for_the_second_person(self) -> None:
        one, two = self.two(b"bid,tarn,1 0 0 0,\n")
        log = self.log()
        one.load("close")
        self.assertEqual(one.send("close", typed="end the clock"), "/approve")
        self.assertEqual(self.log(), log)
        one.post_on("approve", says="approve")
        self.assertEqual(self.log(), log)
        two.load("")
        self.assertIn("A close or a cut waits for the second person", two.text())
        self.assertEqual(self.places(two), ["leave"])
        self.assertIn('http-equiv="refresh"', two.page)
        two.load("approve")
        self.assertEqual(two.heading(), "End the clock?")
        self.assertIn("Anna First asks for it; Bo Second approves or declines.", two.text())
        self.assertNotIn('http-equiv="refresh"', two.page)
        one.load("approve")
        self.assertIn('http-equiv="refresh"', one.page)
        two.send("approve", says="approve")
        self.assertEqual(self.log(), log + b"close,,,\n")
        self.assertEqual(self.goes_on(one), "Written and synced")
        self.assertEqual(self.goes_on(one), "Lists are taken")
        journal = (self.folder / "day.log.desk").read_text()
        self.assertIn('"by": "Anna First", "approved": "Bo Second"', journal)
        one.load("protocol")
        self.assertIn("approved by: Bo Second", one.text())

    def test_a_cut_waits_and_is_declined(self) -> None:
        one, two = self.two(b"bid,tarn,1 0 0 0,\nclose,,,\n")
        log = self.log()
        one.load("again")
        self.assertEqual(one.send("again", record="1", why="too early", typed="cut after 1"), "/approve")
        two.load("approve")
        self.assertIn("too early", two.text())
        two.send("approve", says="decline")
        self.assertEqual(self.log(), log)
        self.goes_on(one)
        self.assertIn("Nothing was written: it was taken back or declined.", one.text())
        one.load("again")
        one.send("again", record="1", why="too early", typed="cut after 1")
        two.load("approve")
        two.send("approve", says="approve")
        self.assertEqual(self.log(), b"bid,tarn,1 0 0 0,\n")
        self.assertEqual(self.goes_on(one), "The log is cut")

    def test_what_waits_is_gone_with_another_log(self) -> None:
        one, two = self.two(b"bid,tarn,1 0 0 0,\n")
        one.load("close")
        one.send("close", typed="end the clock")
        one.write("bid,niche,0 0 1 0,")
        two.load("approve")
        self.assertEqual(two.answer.status_code, 303)
        self.assertNotIn(b"close", self.log())

    def test_a_changed_log_waits_for_the_second_person(self) -> None:
        one, two = self.two()
        one.write("bid,tarn,1 0 0 0,")
        changed = b"bid,tarn,2 0 0 0,\n"
        self.log_path.write_bytes(changed)
        two.load("")
        self.assertNotIn('name="mend"', two.page)
        self.assertEqual(two.post("mend", mend="keep changed log", why="x", typed="x").status_code, 403)
        one.load("")
        one.send("mend", mend="keep changed log", why="of paper", typed="go on with the changed log")
        self.assertEqual(one.heading(), "The desk has stopped")
        self.assertIn("It waits for the second person.", one.text())
        two.load("")
        two.send("mend", mend="keep changed log")
        self.assertEqual((two.heading(), self.log()), ("Round 1 is open", changed))
        self.assertIn('"approved": "Bo Second"', (self.folder / "day.log.desk").read_text())

    def test_the_second_person_writes_nothing(self) -> None:
        _, two = self.two()
        for action in ("preview", "write", "close", "again", "mend", "end/award", "list"):
            self.assertEqual(two.post(action, raw="bid,tarn,1 0 0 0,").status_code, 403, action)
        for key, name in ((self.guard.second_key, ""), (self.guard.second_key, "anna first"), ("x", "Eve")):
            self.assertEqual(two.ask("POST", "/", {"key": key, "name": name}).location, "/?wrong")
        self.assertEqual(self.log(), b"")


class Ends(DeskTest):
    def test_prices_as_a_table(self) -> None:
        client = self.open(SAMPLE)
        client.load("")
        client.send("end/award")
        table = matched(r"<table.*?</table>", client.page)[0]
        call = [PROGRAM, "award", *map(str, (files_of(self.award).award, self.log_path, self.folder / "again.cert"))]
        prices = subprocess.run(call, stdout=subprocess.PIPE, check=True).stdout.decode()
        winners = re.findall(r"winner (\w+) .* pays (\d+)", prices)
        self.assertEqual(table.count('<th scope="row"'), len(winners) + 1)
        for name, pays in winners:
            self.assertIn(f">{name}<", table)
            self.assertIn(f"{int(pays):,}", table)
        for name in ("certificate", "report"):
            self.assertEqual(client.load(f"made/{name}").status_code, 200 if name == "certificate" else 404)


class Doors(DeskTest):
    def test_the_page_of_the_entrance_is_linked(self) -> None:
        client = self.open()
        client.cookie = "desk=another"
        answer = client.load("")
        self.assertEqual(answer.status_code, 403)
        self.assertIn('href="/">To the entrance', client.page)

    def test_a_browser_is_locked_out(self) -> None:
        client = self.open()
        client.load("")
        answer = client.ask("POST", f"{self.guard.inside}/leave", {"token": self.guard.token})
        self.assertIn("desk=;", answer.headers["Set-Cookie"])

    def test_other_browsers_and_desks_are_named(self) -> None:
        client = self.open()
        other = Client(self.app, self.guard)
        other.enter()
        client.load("")
        self.assertIn("Browsers have entered 2 times", client.text())
        self.assertNotIn("Another desk has this log open", client.text())
        from cca_tools.desk.logfile import LogFile

        second = LogFile(self.log_path, self.desk.answers.pins)
        client.load("")
        self.assertIn("Another desk has this log open too.", client.text())
        self.assertTrue(second.is_shared())

    def test_the_room_s_screen_waits_for_nothing(self) -> None:
        """It is served while the desk is at work for another page."""
        client, answers = self.open(), self.desk.answers
        first, probe = client.load("/posted").text, answers.probe
        is_begun, goes_on = threading.Event(), threading.Event()
        went_on: list[bool] = []

        def slow(data: bytes) -> list[str]:
            """Compares the programs once the room's screen is there."""
            is_begun.set()
            went_on.append(goes_on.wait(20))
            return probe(data)

        with unittest.mock.patch.object(answers, "probe", slow):
            page = threading.Thread(target=client.load, args=["close"])
            page.start()
            self.assertTrue(is_begun.wait(20))
            seen = Client(self.app, self.guard).load("/posted").text
            goes_on.set()
            page.join(20)
        self.assertEqual((seen, went_on), (first, [True]))
        self.assertEqual(client.heading(), "End the clock?")

    def test_a_log_has_one_port(self) -> None:
        self.open()
        port = self.desk.log.usual_port()
        self.assertTrue(20_000 <= port < 30_000)
        self.open()
        self.assertEqual(self.desk.log.usual_port(), port)

    def test_a_set_that_is_out(self) -> None:
        client = self.open(SAMPLE)
        (self.folder / "day.log.set").mkdir()
        client.load("")
        self.assertIn("The set in day.log.set was made before the last lines of the log.", client.text())


if __name__ == "__main__":
    unittest.main()
