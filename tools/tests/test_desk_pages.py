"""The pages of the desk: typing, replies, writing, closes, rounds that are run again, stops and the end, through
HTTP."""

from __future__ import annotations

import pathlib
import re
import shutil
import subprocess
import unittest
import unittest.mock
from collections.abc import Callable, Sequence

from desk_client import DeskTest, Fields, Reader, files_of, matched
from checks.cases.program import PROGRAM
from checks.cases.samples import lines, sample, taking

from cca_tools.desk.feed import Feed, missing
from cca_tools.desk.lines import NotLines, Typed, agrees, need_alone, pasted, plain
from cca_tools.rules.auction import Auction

SAMPLE = sample("spectrum.log")
ROUND = "bid,everest,2 0 4 0,\nbid,harbour,1 1 2 4,\nbid,meridian,2 0 7 6,\nbid,niche,0 0 7 5,\nbid,tarn,2 1 4 0,"
ONE, OTHER = "bid,everest,2 0 4 0,", "bid,harbour,1 1 2 4,"
ABOVE = "bid,tarn,3 1 0 0,"  # of 100 points, and tarn has 96
ONE_LOT = """version = 1
tick = 1
[[category]]
name = "lot"
supply = 1
points = 1
reserve = {reserve}
[[bidder]]
name = "east"
eligibility = 1
[[bidder]]
name = "west"
eligibility = 1
[[step]]
excess = 1
permille = 1000
"""


class Lines(unittest.TestCase):
    def refused(self, call: Callable[[], object], part: str) -> None:
        """What was typed states no line, and the fault says this part of why."""
        with self.assertRaises(NotLines) as caught:
            call()
        self.assertIn(part, str(caught.exception))

    def test_a_form_becomes_a_line(self) -> None:
        for typed, text in (
            (Typed("bid", "everest", " 2  0 4\u00a00 "), b"bid,everest,2 0 4 0,\n"),
            (Typed("draft", "everest", "2 0 4 0", "760,000"), b"draft,everest,2 0 4 0,760000\n"),
            (Typed("draft", "everest", "2 0 4 0", "1\u202f760\u202f000"), b"draft,everest,2 0 4 0,1760000\n"),
            (Typed("drop", "everest", "2 0 4 0", "5"), b"drop,everest,2 0 4 0,\n"),
            (Typed("submit", "everest", "2 0 4 0", "5"), b"submit,everest,,\n"),
        ):
            self.assertEqual(typed.text(), text)

    def test_a_form_that_states_no_line(self) -> None:
        for typed, part in (
            (Typed("", "everest", "1 0 0 0"), "Choose what was sent"),
            (Typed("close", "", ""), "Choose what was sent"),
            (Typed("bid", "", "1 0 0 0"), "Choose the bidder"),
            (Typed("bid", "everest", ""), "It is empty"),
            (Typed("bid", "everest", "1,0,0,0"), "`1,0,0,0` is typed"),
            (Typed("draft", "everest", "1 0 0 0", ""), "It is empty"),
            (Typed("draft", "everest", "1 0 0 0", "1.5"), "`1.5` is typed"),
            (Typed("draft", "everest", "1 0 0 0", "12,34"), "`12,34` is typed"),
            (Typed("draft", "everest", "1 0 0 0", "\u0661\u0662"), "An amount is a whole number"),
            (Typed("draft", "everest", "1 0 0 0", "1 760\u202f000"), "An amount is a whole number"),
        ):
            with self.subTest(typed):
                self.refused(typed.text, part)

    def test_pasted_lines_are_plain(self) -> None:
        self.assertEqual(pasted("\r\na\r\nb\r\n\r\n"), b"a\nb\n")
        for text, part in (
            ("", "No line is typed"),
            ("a\n\nb", "Line 2 is blank"),
            ("a\n \nb", "Line 2 is blank"),
            ("a\rb", "U+000D"),
            ("\ufeffa", "U+FEFF, zero width no-break space, its character 1"),
            ("a\nb\u201cc", "Line 2 has a character that no line of the log may have: U+201C"),
            ('a,"b",,', "U+0022"),
            ("a\tb", "U+0009"),
            ("a\0", "U+0000"),
        ):
            with self.subTest(text):
                self.refused(lambda: pasted(text), part)
        self.refused(lambda: plain("a"), "no line feed")
        for data in (b"a\nclose,,,\n", b"close,,,\nclose,,,\n", b" close,,,\n", b"close\n"):
            self.refused(lambda: need_alone(data), "written alone")
        need_alone(b"close,,,\n")
        need_alone(b"bid,close,1,\n")

    def test_words_that_are_typed(self) -> None:
        self.assertTrue(agrees("  End the  CLOCK ", "end the clock"))
        self.assertFalse(agrees("end the clock.", "end the clock"))
        self.assertFalse(agrees("", "1"))


class Line(DeskTest):
    def test_a_line_is_answered_before_it_is_written(self) -> None:
        client = self.open()
        place = client.send("preview", kind="bid", bidder="everest", package="2 0 4 0")
        self.assertRegex(place, "^/preview/")
        self.assertEqual((client.heading(), self.log()), ("It would be admitted", b""))
        self.assertEqual(client.send("write"), "/lines/1-1")
        self.assertEqual((client.heading(), self.log()), ("Written and synced", b"bid,everest,2 0 4 0,\n"))

    def test_a_refused_line_comes_back_as_it_was_typed(self) -> None:
        client = self.open()
        client.send("preview", kind="bid", bidder="tarn", package="3  1 0 0")
        self.assertEqual(client.heading(), "It would be refused")
        self.assertIn("3 x 20 + 1 x 40 = 100 points, and tarn is eligible for 96 in this round.", client.text())
        gap = "\N{NO-BREAK SPACE}"
        self.assertIn(f"3{gap}x{gap}20 + 1{gap}x{gap}40 = 100 points", client.page)
        actions = re.findall(r'<a class="button main"[^>]*>(.*?)</a>|<button[^>]*>(.*?)</button>', client.page)
        self.assertEqual(actions, [("", "Lock"), ("Correct it", ""), ("", "The bidder sent this: write it")])
        client.follow("Correct it")
        self.assertRegex(client.place, "^/entry/")
        self.assertIn('<option value="tarn" selected>', client.page)
        self.assertIn('value="3  1 0 0"', client.page)
        self.assertIn("bid,tarn,3 1 0 0, would be refused: points 96.", client.text())
        self.assertIn("3 x 20 + 1 x 40 = 100 points, and tarn is eligible for 96 in this round.", client.text())
        self.assertEqual(self.log(), b"")

    def test_a_refused_line_that_was_sent_is_written(self) -> None:
        client = self.open()
        client.write("bid,tarn,3 1 0 0,")
        self.assertEqual(self.log(), b"bid,tarn,3 1 0 0,\n")
        self.assertIn("points 96", client.text())

    def test_what_states_no_line_comes_back_with_its_reason(self) -> None:
        client = self.open()
        for raw, part in (
            ("hello", "record has four fields"),
            ("bid,everest,1 0 0,", "a count for each category, here 4"),
            ("bid,everest,1 0 0 0,\n\nbid,tarn,1 0 0 0,", "Line 2 is blank"),
            ("bid,everest,1 0 0 0,\nclose,,,", "a close is written alone"),
            ("\u201cbid\u201d,everest,1 0 0 0,", "U+201C"),
        ):
            self.assertRegex(client.send("preview", raw=raw), "^/entry/")
            self.assertIn(part, client.text())
            self.assertIn('role="alert"', client.page)
            self.assertNotIn("No line of the log counts", client.text())
            self.assertEqual(client.form("preview", "raw")["raw"].removeprefix("\n"), raw)
        self.assertEqual(self.log(), b"")

    def test_many_lines_are_one_write(self) -> None:
        client = self.open()
        self.assertEqual(client.write(ROUND), "/lines/1-5")
        journal = (self.folder / "day.log.desk").read_text()
        self.assertEqual(self.log(), f"{ROUND}\n".encode())
        self.assertEqual(sum(what == "line" for _, what, _ in self.desk.log.answered_at()), 1, journal)

    def test_one_line_is_it_and_many_are_them(self) -> None:
        """The page of replies says "it" or "them" in its links, its buttons and its warning about a refused line."""
        self.open()
        for texts, links, buttons, warning in (
            ((ONE,), ["Correct it", "Drop it"], ["Write it"], ""),
            (
                (ABOVE,),
                ["Correct it", "Drop it"],
                ["The bidder sent this: write it"],
                "Write it only if the bidder sent",
            ),
            ((ONE, OTHER), ["Correct them", "Drop them"], ["Write 2 lines"], ""),
            (
                (ONE, ABOVE),
                ["Correct them", "Drop them"],
                [
                    "The bidders sent these: write them",
                    "Write only the 1 admitted line, keep the others in the form",
                ],
                "Write these 2 lines only if the bidders sent just these; correct slips of your own.",
            ),
        ):
            with self.subTest(texts=texts):
                self.client.send_to("preview", raw="\n".join(texts))
                row = self.client.page.partition('<div class="row">')[2]
                self.assertEqual(re.findall(r"<a[^>]*>(.*?)</a>", row.partition("</div>")[0]), links)
                self.assertEqual(re.findall(r"<button[^>]*>(.*?)</button>", row), buttons)
                self.assertIn(warning, self.client.text())
                self.assertEqual("stays in the log forever" in self.client.text(), bool(warning))

    def test_two_lines_that_are_sent_twice(self) -> None:
        """They are written once, and the page of the second time says so."""
        client = self.open()
        client.send_to("preview", raw=f"{ONE}\n{OTHER}")
        form = client.form("write")
        for heading, lead in (
            ("Written and synced", "Both programs reply:"),
            ("They are in the log already", "They were written before, and not a second time. Both programs reply:"),
        ):
            client.post_on("write", **form)
            self.assertEqual(client.heading(), heading)
            self.assertIn(lead, client.text())
            self.assertEqual(self.log(), f"{ONE}\n{OTHER}\n".encode())

    def test_the_same_form_twice_writes_once(self) -> None:
        client = self.open()
        client.send("preview", raw="bid,everest,2 0 4 0,")
        form = client.form("write")
        places = [client.post("write", **form).location for _ in range(3)]
        self.assertEqual([it.rpartition("/")[2] for it in places], ["1-1", "1-1?again", "1-1?again"])
        client.load(places[1])
        self.assertEqual((client.heading(), self.log()), ("It is in the log already", b"bid,everest,2 0 4 0,\n"))

    def test_a_page_of_a_log_that_has_grown_is_answered_anew(self) -> None:
        client = self.open()
        client.send("preview", raw="bid,everest,2 0 4 0,")
        old = client.form("write")
        client.write("bid,tarn,1 0 0 0,")
        client.post_on("write", **old)
        self.assertIn("The log has grown", client.text())
        self.assertEqual(self.log(), b"bid,tarn,1 0 0 0,\n")
        client.send("write")
        self.assertEqual(self.log(), b"bid,tarn,1 0 0 0,\nbid,everest,2 0 4 0,\n")

    def test_forms_written_by_hand(self) -> None:
        client = self.open()
        good, line = self.desk.log.base(b"").text(), "bid,everest,1 0 0 0,\n"
        texts = ("close,,,\n", line + "close,,,\n", "\n" + line, '"bid",tarn,1 0 0 0,\n', "x\n", "", line.strip())
        bases = ("", "x", "0.0.0", "0.-1.x", "..", f"{'0' * 16}.0.{'0' * 64}", good + "0")
        forms = [("write", {"base": good, "text": text}) for text in texts]
        forms += [("write", {"base": base, "text": text}) for base in bases for text in (line, "x\n")]
        forms += [("close", {"base": base, "typed": "end the clock"}) for base in bases]
        for action, fields in forms:
            with self.subTest(action, **fields):
                answer = client.post(action, **fields)
                self.assertEqual(answer.status_code, 303)
                self.assertEqual(client.load(answer.location).status_code, 200)
                self.assertTrue(client.place == "/close" or 'role="alert"' in client.page, client.text())
                self.assertEqual(self.log(), b"")

    def test_every_form_leads_to_an_address(self) -> None:
        client = self.open()
        for action in ("preview", "write", "close", "again", "mend", "waiting", "end/award", "end/x"):
            answer = client.post(action)
            self.assertEqual(answer.status_code, 303, action)
            self.assertEqual(client.load(answer.location).status_code, 200)

    def test_a_page_that_is_gone_writes_nothing(self) -> None:
        client = self.open()
        for place in ("preview/0000", "entry/0000", "close/0000", "again/0000"):
            client.load(place)
            self.assertIn("That page is gone, and nothing was written by it.", client.text())
        for place in ("lines/1-1", "lines/0-0", "cut/0000"):
            self.assertEqual(client.load(place).status_code, 404)

    def test_a_table_of_many_columns_has_each_head_in_its_cells_too(self) -> None:
        """If the cells are one below the other, the heads of columns can't be seen."""
        self.open().load("")
        categories, bidders = re.findall(r"<table.*?</table>", self.client.page, re.DOTALL)[:2]
        self.assertNotRegex(categories, "data-head|role=")
        heads = re.findall(r'<th scope="col" role="columnheader".*?>(.*?)</th>', bidders)
        heads = [it.replace("<small>", " ").replace("</small>", "") for it in heads]
        self.assertEqual((len(heads), heads[-1]), (8, "Room in cap 2 of 42"))
        rows = bidders.partition("<tbody")[2].split("<tr")[1:]
        self.assertEqual(len(rows), 5)
        for row in rows:
            self.assertEqual(re.findall(r'<td role="cell" data-head="(.*?)"', row), heads[1:])
            self.assertEqual((row.count('role="row"'), row.count('role="rowheader"')), (1, 1))

    def test_lines_that_another_hand_wrote_are_shown(self) -> None:
        client = self.open()
        client.write("bid,everest,2 0 4 0,")
        with self.log_path.open("ab") as file:
            file.write(b"bid,tarn,1 0 0 0,\nbid,tarn,9 0 0 0,\n")
        client.load("")
        client.load("")
        which, then = "Lines 2 to 3 of the log had no answer yet.", "Tell the bidders the replies below."
        self.assertIn(which, client.text())
        self.assertIn(then, client.text())
        self.assertRegex(client.page, '<p class="box warm" tabindex="-1" autofocus>Lines 2 to 3')
        self.assertEqual(client.text().count("not answered when written"), 2)
        client.write("bid,niche,0 0 1 0,")
        client.load("")
        self.assertNotIn("had no answer yet", client.text())
        with self.log_path.open("ab") as file:
            file.write(b"bid,niche,0 0 2 0,\n")
        client.load("")
        self.assertIn("Line 5 of the log had no answer yet.", client.text())
        self.assertIn("Tell the bidder the reply below.", client.text())


class Closes(DeskTest):
    def test_a_close_asks_for_its_words(self) -> None:
        client = self.open()
        client.write(ROUND)
        before = self.log()
        self.assertEqual(client.send_to("preview", raw="close,,,"), "/close")
        self.assertEqual(client.heading(), "Close round 1?")
        for part in (
            "220,000 262,500 16,500 200",
            "alike by both programs",
            "everest 80 48",
            "niche 22 19",
            "tarn 96 88",
        ):
            self.assertIn(part, client.text())
        for typed in ("", "2", "close", "end the clock", "1."):
            self.assertRegex(client.send("close", typed=typed), "^/close/")
            self.assertIn("what you typed isn't what this close asks for", client.text())
        self.assertEqual(self.log(), before)
        self.assertEqual(client.send("close", typed=" 1 "), "/lines/6-6")
        self.assertEqual(self.log(), before + b"close,,,\n")

    def test_a_second_close_asks_for_other_words(self) -> None:
        client = self.open()
        client.write(ROUND)
        client.close("1")
        client.load("close")
        self.assertEqual(client.heading(), "End the clock?")
        self.assertIn("Was it posted a moment ago? A second close ends the clock.", client.text())
        log = self.log()
        self.assertRegex(client.send("close", typed="2"), "^/close/")
        self.assertEqual(self.log(), log)

    def test_copies_after_a_close(self) -> None:
        copies = self.folder / "copies"
        copies.mkdir()
        client = self.open(copies=copies)
        client.write(ROUND)
        self.need_copies(copies)
        client.close("1")
        self.need_copies(copies)
        shutil.rmtree(copies)
        client.close("end the clock")
        self.assertIn("The log is written, and the copies aren't.", client.text())
        self.assertTrue(self.log().endswith(b"close,,,\nclose,,,\n"))
        for place in ("", "close"):
            client.load(place)
            self.assertIn("The log is written, and the copies aren't.", client.text(), place)
        copies.mkdir()
        client.write("draft,tarn,1 0 0 0,1000000")
        self.need_copies(copies)
        client.load("")
        self.assertNotIn("the copies aren't", client.text())

    def need_copies(self, copies: pathlib.Path) -> None:
        """The copies are the files."""
        for kind in ("", ".desk", ".key", ".posted"):
            self.assertEqual((copies / f"day.log{kind}").read_bytes(), (self.folder / f"day.log{kind}").read_bytes())

    def test_an_old_page_of_a_close_is_compared_with_what_it_does_now(self) -> None:
        client = self.open()
        client.write(ROUND)
        client.load("close")
        old = client.form("close")
        client.write("bid,everest,0 0 0 0,")
        log = self.log()
        client.post_on("close", **{**old, "typed": "1"})
        self.assertIn("The log has grown", client.text())
        self.assertEqual(self.log(), log)

    def test_an_old_page_from_before_a_cut_writes_nothing(self) -> None:
        client = self.open()
        client.write(ROUND)
        client.close("1")
        client.load("close")
        old = client.form("close")
        client.close("end the clock")
        client.load("again")
        client.send("again", record="6", why="closed twice", typed="cut after 6")
        log = self.log()
        self.assertEqual(log, f"{ROUND}\nclose,,,\n".encode())
        client.post_on("close", **{**old, "typed": "end the clock"})
        self.assertIn("A round was held again since this page was made", client.text())
        self.assertEqual(self.log(), log)

    def test_the_seal_is_given_out(self) -> None:
        client = self.open()
        client.write(ROUND)
        client.close("1")
        line = (self.folder / "day.log.posted").read_text().splitlines()[3]
        grouped = line.partition("close 1 ")[2]
        self.assertRegex(line, r"\A1 \d{4}-\d\d-\d\dT\S+ close 1 ([0-9a-f]{4} ?){16}\Z")
        self.assertIn(
            f"the seal of close 1, which is on the room's screen and on each bidder's page: {grouped}", client.text()
        )
        for place in ("", "bidder/everest", "/posted"):
            client.load(place)
            self.assertIn(line, client.text(), place)


class Limits(DeskTest):
    def test_a_close_that_a_limit_refuses_has_no_button(self) -> None:
        path = self.folder / "dear.award"
        path.write_text(ONE_LOT.format(reserve=2**36))
        self.award = str(path)
        client = self.open()
        client.write("bid,east,1,\nbid,west,1,")
        client.load("close")
        self.assertEqual(client.heading(), "No close now")
        self.assertIn("A close must not be written now: a limit refuses it", client.text())
        self.assertEqual([it for it, _ in Reader(client.page).forms if not it.endswith("/leave")], [])
        self.assertIn("Write no close.", client.text())
        log = self.log()
        client.post_on("close", base=self.desk.log.base(log).text(), typed="1")
        self.assertIn("This close isn't written.", client.text())
        self.assertEqual(self.log(), log)


class Again(DeskTest):
    def test_a_round_is_held_again(self) -> None:
        client = self.open()
        client.write(ROUND)
        client.close("1")
        client.close("end the clock")
        void = matched(r"(?:[0-9a-f]{4} ){15}[0-9a-f]{4}", client.text())[0]
        long = self.log()
        client.load("again")
        self.assertIn("Close 1, line 6: posted round 2 cuts 1 line: type cut after 6", client.text())
        for form, part in (
            ({"record": "6", "why": "", "typed": "cut after 6"}, "give the reason"),
            ({"record": "6", "why": "twice", "typed": "cut after 7"}, "type cut after 6"),
            ({"record": "3", "why": "twice", "typed": "cut after 3"}, "choose the close"),
            ({"why": "twice", "typed": "cut after 6"}, "choose the close"),
        ):
            client.send("again", **form)
            self.assertIn(part, client.text())
            self.assertIn(form["why"], client.form("again")["why"])
        self.assertEqual(self.log(), long)
        self.assertRegex(client.send("again", record="6", why="closed twice", typed="cut after 6"), "^/cut/")
        self.assertEqual(self.log(), f"{ROUND}\nclose,,,\n".encode())
        self.assertEqual((self.folder / "day.log.cut-1").read_bytes(), long)
        self.assertIn(f"The posted line close 2 is void, with its seal {void}", client.text())
        self.assertIn("closed twice", (self.folder / "day.log.desk").read_text())


class Bidders(DeskTest):
    def test_a_bidder_sees_its_own_and_nothing_of_others(self) -> None:
        client = self.open(SAMPLE)
        for place in ("bidder/niche", "bidder/niche/view"):
            client.load(place)
            self.assertEqual(client.answer.status_code, 200)
            text = client.page
            self.assertIn("bid,niche,0 0 7 5,", text)
            for name in ("everest", "harbour", "meridian", "tarn", "stranger"):
                self.assertNotIn(name, text)
        rows = re.findall(r'<span class="place">(\d*)</span>\s*<code>([^<]*)</code>', client.load("bidder/niche").text)
        own = [line for line in SAMPLE.decode().splitlines() if ",niche," in line]
        numbered = [(int(number), record) for number, record in rows if number]
        self.assertEqual(numbered, list(enumerate(own, 1))[::-1])
        expected = taking("caps")([str(files_of(self.award).award), str(self.log_path), "niche", "--view"])
        self.assertEqual(client.load("bidder/niche/view").text, expected + "\n")


class Stops(DeskTest):
    def test_a_torn_line_is_taken_back_or_ended(self) -> None:
        for mend, log in (
            ("take back", b"bid,everest,2 0 4 0,\n"),
            ("end line", b"bid,everest,2 0 4 0,\nbid,tarn,1 0 0 0,\n"),
        ):
            with self.subTest(mend):
                for path in self.folder.iterdir():
                    path.unlink()
                client = self.open()
                client.write("bid,everest,2 0 4 0,")
                with self.log_path.open("ab") as file:
                    file.write(b"bid,tarn,1 0 0 0,")
                self.assertEqual(client.load("").status_code, 503)
                self.assertEqual(client.heading(), "The desk has stopped")
                self.assertEqual(re.findall('name="mend" value="([^"]+)"', client.page), ["take back", "end line"])
                client.send("mend", mend=mend, why="")
                self.assertIn("give the reason", client.text())
                client.send("mend", mend=mend, why="an editor")
                self.assertEqual((client.answer.status_code, self.log()), (200, log))

    def test_half_a_line_is_taken_back_alone(self) -> None:
        client = self.open()
        with self.log_path.open("ab") as file:
            file.write(b"bid,tarn,1 0")
        client.load("")
        self.assertEqual(re.findall('name="mend" value="([^"]+)"', client.page), ["take back"])
        client.post("mend", mend="end line", why="no")
        self.assertEqual(self.log(), b"bid,tarn,1 0")

    def test_a_log_that_was_changed_stops_the_desk(self) -> None:
        client = self.open()
        client.write("bid,everest,2 0 4 0,")
        client.send_to("preview", raw="bid,tarn,1 0 0 0,")
        form = client.form("write")
        self.log_path.write_bytes(b"bid,everest,1 0 4 0,\n")
        client.post_on("write", **form)
        self.assertEqual((client.answer.status_code, client.heading()), (503, "The desk has stopped"))
        self.assertEqual(self.log(), b"bid,everest,1 0 4 0,\n")
        self.assertIn("Please wait", client.load("/posted").text)
        client.load("")
        self.assertIn("From line 1 on: answered lines that go away: 1; lines that are new: 1.", client.text())
        client.post("mend", mend="keep changed log", why="a mistake on paper")
        client.load("")
        self.assertEqual(client.heading(), "The desk has stopped")
        client.send("mend", mend="keep changed log", why="a mistake on paper", typed="Go on with the changed log")
        self.assertEqual(client.heading(), "Round 1 is open")
        client.load("/posted")
        self.assertIn("The log was changed after it was answered", client.text())
        self.assertRegex(
            client.text(), "1 [0-9T:+-]+ log changed after the start ([0-9a-f]{4} ){15}[0-9a-f]{4}: a mistake on paper"
        )

    def test_the_answered_log_is_put_back(self) -> None:
        client = self.open()
        client.write(ROUND)
        client.close("1")
        right = self.log()
        for wrong in (right.replace(b"everest,2 0 4 0", b"everest,1 0 4 0"), right[:40], right[5:] + b"bid"):
            self.log_path.write_bytes(wrong)
            client.load("")
            self.assertEqual(re.findall('name="mend" value="([^"]+)"', client.page)[0], "put back")
            client.send("mend", mend="put back", why="an editor")
            self.assertEqual((self.log(), client.heading()), (right, "Round 2 is open"))
        self.assertEqual((self.folder / "day.log.changed-2").read_bytes(), right[:40])
        posted = (self.folder / "day.log.posted").read_text().splitlines()
        self.assertEqual([len(posted), "close 1" in posted[-1]], [4, True])

    def test_the_last_close_is_taken_back_alone(self) -> None:
        client = self.open()
        client.write(ROUND)
        client.close("1")
        client.load("again")
        client.send("again", record="5", why="closed too early", typed="cut after 5")
        self.assertIn("Close 1 is taken back. Round 1 is open again, and all its lines stay.", client.text())
        self.assertEqual(self.log(), f"{ROUND}\n".encode())
        for place in ("/posted", "bidder/everest"):
            client.load(place)
            self.assertIn("Close 1 is taken back", client.text())
            self.assertRegex(client.text(), "close 1 [0-9a-f ]{79} void since line 2")
            self.assertRegex(client.text(), "2 [0-9T:+-]+ close 1 taken back [0-9a-f ]{79}: closed too early")
        client.close("1")
        client.load("/posted")
        self.assertNotIn("is open again", client.text())
        self.assertRegex(client.text(), "3 [0-9T:+-]+ close 1 ")

    def test_programs_that_differ_stop_the_desk(self) -> None:
        from cca_tools.desk.answers import Differ

        client = self.open()
        client.send_to("preview", raw="bid,tarn,1 0 0 0,")
        form, real = client.form("write"), self.desk.answers.auction

        def differing(data: bytes) -> Auction:
            """Another answer to a line of tarn."""
            if b"tarn" in data:
                raise Differ("In line 1 of the replies the program says `1 ok`, and the second program `1 stage`.")
            return real(data)

        with unittest.mock.patch.object(self.desk.answers, "auction", differing):
            client.post_on("write", **form)
            self.assertEqual((client.answer.status_code, self.log()), (503, b""))
            self.assertIn("The programs differ. In line 1 of the replies", client.text())
        self.assertEqual(client.load("").status_code, 503)

    def test_a_difference_that_probes_find_stops_a_close(self) -> None:
        client = self.open()
        client.write(ROUND)
        with unittest.mock.patch.object(self.desk.answers, "probe", lambda data: ["tarn, now: to `x` ..."]):
            client.load("close")
        self.assertEqual((client.answer.status_code, client.heading()), (503, "The desk has stopped"))
        self.assertEqual(client.post("close", base="x", typed="1").status_code, 303)
        self.assertEqual(self.log(), f"{ROUND}\n".encode())

    def test_an_award_that_was_changed_stops_the_desk(self) -> None:
        path = self.folder / "one.award"
        path.write_text(ONE_LOT.format(reserve=1))
        self.award = str(path)
        client = self.open()
        path.write_text(ONE_LOT.format(reserve=2))
        self.assertEqual(client.load("").status_code, 503)
        self.assertIn("The award isn't the one with which this desk was started", client.text())
        path.write_text(ONE_LOT.format(reserve=1))
        self.assertEqual(client.load("").status_code, 200)


class Auctions(DeskTest):
    def test_the_sample_with_each_close_doubled(self) -> None:
        client, number = self.open(), 0
        for part in re.findall(r"(?:(?!close).*\n)+|close,,,\n", SAMPLE.decode()):
            if part != "close,,,\n":
                client.write(part)
                continue
            number += 1
            client.load("close")
            form = client.form("close")
            words = {"Close": str(number), "End t": f"end the {'auction' if number == 5 else 'clock'}"}
            form["typed"] = words[client.heading()[:5]]
            places = [client.post("close", **form).location for _ in range(2)]
            self.assertEqual(places[1], f"{places[0]}?again")
        self.assertEqual(self.log(), SAMPLE)
        client.load("")
        client.send("end/award")
        call = [PROGRAM, "award", *map(str, (files_of(self.award).award, self.log_path, self.folder / "other.cert"))]
        prices = subprocess.run(call, stdout=subprocess.PIPE, check=True).stdout
        self.assertIn("Both programs say yes, and print the same to the byte.", client.text())
        self.assertEqual(client.page.count(prices.decode()), 3)
        cert = (self.folder / "day.log.cert").read_bytes()
        self.assertEqual(cert, (self.folder / "other.cert").read_bytes())
        client.send("end/award")
        self.assertEqual((client.page.count(prices.decode()), (self.folder / "day.log.cert").read_bytes()), (2, cert))

    def test_what_a_winner_pays_has_its_head_beside_it(self) -> None:
        """A phone has no room for packages and three amounts side by side."""
        client = self.open(SAMPLE)
        client.load("")
        client.send("end/award")
        heads = re.findall(r'<td role="cell" data-head="(.*?)"', matched(r"<table.*?</table>", client.page)[0])
        self.assertEqual(heads, ["Won", "Bid", "Vickrey price", "Pays"] * 6)

    def test_the_drill_is_closed(self) -> None:
        award, log = self.folder / "drill.award", self.folder / "drill.log"
        subprocess.run([PROGRAM, "make", "7", award, log], check=True, stdout=subprocess.DEVNULL)
        drill = log.read_bytes()
        self.assertTrue(drill.endswith(b"\nclose,,,\n"))
        self.award = str(award)
        client = self.open(drill.removesuffix(b"close,,,\n"))
        client.load("")
        self.assertIn("1,338 lines in the log", client.text())
        client.close("end the auction")
        self.assertEqual((client.heading(), self.log()), ("Written and synced", drill))
        client.load("")
        self.assertEqual(client.heading(), "The auction is closed")

    def test_a_tie_is_told(self) -> None:
        path = self.folder / "tie.award"
        path.write_text(ONE_LOT.format(reserve=1))
        self.award = str(path)
        client = self.open(
            lines(
                "bid,east,1, / bid,west,1, / close,,, / bid,east,1, / close,,, / "
                "draft,east,1,2 / submit,east,, / draft,west,1,2 / submit,west,,"
            )
        )
        client.load("")
        self.assertIn("Lists are taken", client.text())
        client.close("end the auction")
        client.load("")
        client.send("end/award")
        self.assertIn("There is a tie: one other choice has the same net value.", client.text())
        self.assertIn("west 1 instead of east 1", client.text())
        client.send("end/publish")
        self.assertIn("The set is in", client.text())
        done = subprocess.run(["sha256sum", "-c", "--quiet", "SHA256SUMS"], cwd=self.folder / "day.log.set")
        self.assertEqual(done.returncode, 0)
        self.assertTrue((self.folder / "day.log.set" / "auction.key").exists())
        client.send("end/publish")
        self.assertIn("already, next to the log, and all its checksums hold", client.text())
        client.send("end/report")
        self.assertTrue((self.folder / "day.log.html").read_bytes().startswith(b"<!DOCTYPE html>"))

    def test_a_certificate_that_is_there_and_wrong_is_not_appended_to(self) -> None:
        client = self.open(SAMPLE)
        cert = self.folder / "day.log.cert"
        cert.write_bytes(b"cert 1\n")
        client.load("")
        client.send("end/award")
        self.assertIn("Both programs refuse the certificate", client.text())
        self.assertEqual(cert.read_bytes(), b"cert 1\n")
        self.assertNotIn("Make the report", client.text())

    def test_lists_name_every_entry_above_its_cap(self) -> None:
        client = self.open(b"".join(SAMPLE.splitlines(True)[:32]))
        client.load("")
        text = client.text()
        self.assertIn("Entry 2, 2 0 4 0 for 760,000, is above its cap 534,800 by 225,200.", text)
        self.assertIn("A submission would be refused: relative-cap 2 534800.", text)


class Rehearsals(DeskTest):
    def test_lines_of_a_rehearsal_wait(self) -> None:
        feed = self.folder / "feed"
        feed.write_text("bid,everest,2 0 4 0,\nbid,tarn,3 1 0 0,\nbid,tarn,2 1 4 0,\nbid,nic")
        client = self.open(feed=feed)
        client.load("")
        self.assertIn("3 lines of the rehearsal wait. The next one: bid,everest,2 0 4 0,", client.text())
        self.assertRegex(client.send("waiting", count="1"), "^/preview/")
        client.send("write")
        client.load("")
        self.assertIn("2 lines of the rehearsal wait.", client.text())
        client.load("close")
        self.assertIn("2 lines of the rehearsal would come too late.", client.text())
        client.load("")
        client.send("waiting", count="2")
        self.assertEqual(client.heading(), "1 of 2 would be refused")
        client.send("write")
        self.assertEqual(self.log(), b"bid,everest,2 0 4 0,\nbid,tarn,3 1 0 0,\nbid,tarn,2 1 4 0,\n")
        client.write("bid,meridian,2 0 7 6,")
        feed.write_text("bid,everest,2 0 4 0,\nbid,tarn,3 1 0 0,\nbid,tarn,2 1 4 0,\n")
        client.close("1")
        self.assertTrue(feed.read_bytes().endswith(b"bid,tarn,2 1 4 0,\nclose,,,\n"))
        client.load("")
        self.assertEqual(feed.read_bytes().count(b"close"), 1)

    def test_lines_that_wait(self) -> None:
        self.assertEqual(missing([b"a", b"b", b"c"], [b"a", b"x", b"b"]), [b"c"])
        self.assertEqual(missing([b"a", b"a"], [b"a"]), [b"a"])
        self.assertEqual(Feed(pathlib.Path("/nowhere/none")).parts(), [[]])


class Accessible(DeskTest):
    def test_each_page(self) -> None:
        client = self.open(b"".join(SAMPLE.splitlines(True)[:32]))
        places = "", "close", "again", "bidder/tarn", "lines/30-32", "/", "/posted"
        pages = {place: client.load(place).text for place in places}
        client.send_to("preview", raw="draft,niche,0 0 7 9,180000")
        pages["preview"] = client.page
        for place, page in pages.items():
            with self.subTest(place):
                self.assertIn('<html lang="en">', page)
                self.need_parts(place, page)
                self.need_named(Reader(page).tags)
        self.assertIn('<h1 tabindex="-1" autofocus>', pages["preview"])
        self.assertIn('<input id="typed" name="typed" required autofocus', pages["close"])

    def need_parts(self, place: str, page: str) -> None:
        """A page has one of each part, and the focus is where its reader begins."""
        tags = Reader(page).tags
        names = [tag for tag, _ in tags]
        self.assertEqual((names.count("h1"), names.count("main"), names.count("title")), (1, 1, 1))
        focused = [tag for tag, attrs in tags if "autofocus" in attrs]
        self.assertEqual(len(focused), 0 if place == "/posted" else 1, focused)
        self.assertNotIn("button", focused)
        if place not in ("/", "/posted"):
            self.assertEqual((names.count("nav"), 'class="skip" href="#main"' in page), (1, True))

    def need_named(self, tags: Sequence[tuple[str, Fields]]) -> None:
        """Each field has its label, each head its scope, each link within the page its place."""
        ids = [attrs["id"] for _, attrs in tags if "id" in attrs]
        self.assertEqual(len(ids), len(set(ids)))
        labels = {attrs.get("for") for tag, attrs in tags if tag == "label"}
        for tag, attrs in tags:
            is_hidden = attrs.get("type") == "hidden" or "hidden" in attrs
            if tag in ("input", "select", "textarea") and not is_hidden:
                self.assertIn(attrs.get("id"), labels, attrs)
            if tag == "th":
                self.assertIn(attrs.get("scope"), ("col", "row"))
            if tag == "a" and attrs["href"].startswith("#"):
                self.assertIn(attrs["href"][1:], ids)

    def test_a_seal_agrees_with_the_tool(self) -> None:
        self.open(SAMPLE)
        key, journal, posted = (str(self.folder / f"day.log.{kind}") for kind in ("key", "desk", "posted"))
        files = [key, str(files_of(self.award).award), str(self.log_path)]
        text = taking("seal")(["check", "--journal", journal, *files, posted])
        self.assertEqual((text.splitlines()[0], text.count(": agrees"), "void" in text), ("yes", 7, False))
        self.client.load("")
        for line in pathlib.Path(posted).read_text().splitlines()[1:]:
            self.assertIn(line, self.client.text())


class Taken(DeskTest):
    def test_a_close_takes_points_only_where_the_clock_goes_on(self) -> None:
        client = self.open()
        self.assertIn("A close now ends the clock", client.text())
        self.assertNotIn("\N{MINUS SIGN}80", client.text())
        client.write(ROUND)
        client.load("")
        self.assertIn("A close now ends round 1 and posts round 2.", client.text())
        self.assertIn("\N{MINUS SIGN}32", client.text())


if __name__ == "__main__":
    unittest.main()
