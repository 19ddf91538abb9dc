"""tools/state in each stage, and what a close does, against the log with that close."""
import contextlib
import os
import pathlib
import pty
import re
import subprocess
import sys
import tempfile
import shutil
import unittest
import unittest.mock
from collections.abc import Iterator, Sequence

from checks.cases.drawn import Drawing
from checks.cases.program import PROGRAM, with_program
from checks.cases.samples import EXAMPLES, TOOLS, called, lines, sample
from cca_tools.desk.answers import Answers
from cca_tools.rules.auction import replay
from cca_tools.rules.award import read_award
from cca_tools.rules.log import read_log
from cca_tools.rules.state import (
    CLOSE,
    clock_states,
    close_effect,
    entries_above,
    list_states,
)

SMALL = sample("sample.award").decode()
# east asks for two of three lots at 12, and west offers as much for two: both cost 24, and one of them wins
TIE = "bid,east,2, / bid,west,2, / close,,, / bid,east,2, / close,,, / draft,west,2,24 / submit,west,, / "
FULL = "bid,east,3, / bid,west,2, / close,,, / " * 299 + "bid,east,3, / bid,west,2, / "
FATAL = "! A close must not be written now: a limit refuses it, and no later line mends the log"


def shown(award: str | bytes, log: str | bytes, *words: str, **environment: str) -> tuple[str, int, str]:
    """What tools/state prints of these bytes, its status, and its standard error, with only these of the variables that
    say how wide a screen is and whether it has colours."""
    with tempfile.TemporaryDirectory() as folder:
        names = [os.path.join(folder, name) for name in ("an.award", "a.log")]
        for name, data in zip(names, (award, log)):
            with open(name, "wb") as file:
                file.write(data.encode() if isinstance(data, str) else data)
        with unittest.mock.patch.dict(os.environ):
            for name in ("COLUMNS", "FORCE_COLOR", "NO_COLOR"):
                os.environ.pop(name, None)
            return called("state", *names, *words, **environment)


def spectrum(records: int) -> list[str]:
    """The screen after this many records of the sample."""
    text, status, fault = shown(
        sample("spectrum.award"),
        b"".join(sample("spectrum.log").splitlines(True)[:records]),
    )
    assert (status, fault) == (0, ""), fault
    return text.splitlines()


def cells(rows: Sequence[str], name: str) -> list[str]:
    """The cells of the row that begins with this."""
    row = next(row for row in rows if row.startswith(name))
    return re.split(r"  +", row)[1:]


class Clock(unittest.TestCase):
    def test_an_open_round(self) -> None:
        """The prices after a close are those that docs/AUCTIONEER.md shows."""
        rows = spectrum(9)
        self.assertEqual(rows[:2], ["= Round 1 is open.", "last line 9: spectrum-cap 1 11"])
        self.assertEqual(cells(rows, "price  "), ["200,000", "250,000", "15,000", "100"])
        self.assertEqual(cells(rows, "asked, of supply"), ["7 of 4", "2 of 1", "24 of 14", "15 of 9"])
        self.assertEqual(cells(rows, "excess"), ["3", "1", "10", "6"])
        self.assertEqual(cells(rows, "price after a close"), ["220,000", "262,500", "16,500", "200"])
        self.assertEqual(
            cells(rows, "everest"),
            ["2 0 4 0", "48", "80", "32", "460,000", "3 of 11", "26 of 42"],
        )
        self.assertIn("A close now ends round 1 and posts round 2.", rows)
        rows = spectrum(5)
        self.assertEqual(
            cells(rows, "tarn"),
            ["no line yet", "0", "96", "96", "0", "11 of 11", "42 of 42"],
        )
        missing = "! tarn has no line in this round yet: a close now leaves it without eligibility for the rest of the"
        self.assertIn(f"{missing} clock.", rows)

    def test_no_line_yet_and_nothing_and_out(self) -> None:
        head = "bid,east,3, / bid,west,2, / close,,, / "
        for log, words in (
            (head, ("no line yet", "no line yet")),
            (head + "bid,east,0, / ", ("nothing", "no line yet")),
            (head + "bid,east,3, / bid,east,0, / bid,west,1, / ", ("nothing", "1")),
            (head + "bid,east,3, / bid,west,0, / bid,west,4, / ", ("3", "nothing")),
            (
                "bid,east,4, / " + head + "bid,east,3, / bid,west,0, / ",
                ("3", "nothing"),
            ),
        ):
            with self.subTest(log=log):
                rows = shown(SMALL, lines(log[:-3]))[0].splitlines()
                self.assertEqual((cells(rows, "east")[0], cells(rows, "west")[0]), words)
        three = SMALL + '\n[[bidder]]\nname = "north"\neligibility = 3\n'
        rows = shown(
            three,
            lines("bid,east,3, / bid,west,2, / close,,, / bid,east,3, / bid,west,2,"),
        )[0].splitlines()
        self.assertEqual(cells(rows, "north")[0], "out")
        self.assertFalse(any("no line in this round" in row for row in rows))

    def test_who_asks_for_nothing_is_named(self) -> None:
        """Also a bidder whose mistake was corrected by an empty package."""
        five = b"".join(sample("spectrum.log").splitlines(True)[:5])
        rows = shown(sample("spectrum.award"), five + b"bid,tarn,2 1 4 0,\nbid,tarn,0 0 0 0,\n")[0].splitlines()
        self.assertIn(
            "! tarn asks for nothing in this round: a close now leaves it without eligibility for the rest of the"
            " clock.",
            rows,
        )
        log = "bid,east,3, / bid,west,2, / close,,, / bid,east,3, / bid,west,1, / bid,west,0,"
        rows = shown(SMALL, lines(log))[0].splitlines()
        self.assertIn(
            "! west asks for nothing in this round, which is the final one after a close now.",
            rows,
        )

    def test_a_close_that_ends_the_clock(self) -> None:
        rows = shown(SMALL, lines("bid,east,1,"))[0].splitlines()
        self.assertIn("A close now ends the clock: nothing is asked for above the supply.", rows)
        words = "! west has no line in this round yet: by a close now it asks for nothing in the final round."
        self.assertIn(words, rows)
        self.assertFalse(any("a close takes" in row or "price after" in row for row in rows))

    def test_a_round_that_was_posted_a_moment_ago(self) -> None:
        rows = spectrum(11)
        self.assertIn(
            "! Nobody asks for anything in this round. Was it posted a moment ago? A second close ends the clock.",
            rows,
        )
        self.assertFalse(any("Was it posted" in row for row in spectrum(12)))

    def test_no_line_at_all(self) -> None:
        rows = spectrum(0)
        self.assertEqual(rows[:2], ["= Round 1 is open.", "no line yet"])

    def test_no_bidder(self) -> None:
        text, status, fault = shown(SMALL.split("[[bidder]]")[0] + "[[step]]\nexcess = 1\npermille = 50\n", b"")
        self.assertEqual((status, fault), (0, ""))
        self.assertIn("A close now ends the clock", text)


class Fatal(unittest.TestCase):
    """Closes that a limit refuses: each is named before it is written, and the log that has it says what happened."""

    def test_a_price_that_is_too_high(self) -> None:
        dear = SMALL.replace("reserve = 10", "reserve = 68719476736")
        before = "bid,east,3, / bid,west,2,"
        text, status, _ = shown(dear, lines(before))
        self.assertEqual(status, 0)
        self.assertIn(FATAL, text)
        self.assertIn("The price of category 1", text)
        self.assertNotIn("price after a close", text)
        written, _, _ = shown(dear, lines(before + " / close,,,"))
        self.assertIn("! cca: limit price 82463372084: ", written)
        self.assertIn("No later line mends this log.", written)

    def test_a_round_too_many(self) -> None:
        text, status, _ = shown(SMALL.replace("permille = 200", "permille = 1"), lines(FULL[:-3]))
        self.assertEqual(status, 0)
        self.assertIn("= Round 300 is open.", text)
        self.assertIn(FATAL, text)
        self.assertIn("there is no round after round 300", text)
        written, _, _ = shown(SMALL.replace("permille = 200", "permille = 1"), lines(FULL + "close,,,"))
        self.assertIn("! cca: limit rounds 301: ", written)

    def test_few_rounds_left(self) -> None:
        log = lines("bid,east,3, / bid,west,2, / close,,, / " * 292 + "bid,east,3, / bid,west,2,")
        self.assertIn(
            "! 6 more rounds can be posted after that.",
            shown(SMALL.replace("200", "1"), log)[0],
        )

    def test_what_it_says_of_a_close_comes(self) -> None:
        """On drawn auctions the close that is written next does what was said about it."""
        seen = set()
        for number in range(40):
            drawing = Drawing(number)
            drawing.clock()
            drawing.lists()
            drawing.take("close")
            auction = replay(drawing.award, [])
            for line in drawing.auction.lines:
                if line.kind == "close":
                    effect = close_effect(auction)
                    if auction.stage == "clock":
                        states = clock_states(auction)
                    else:
                        list_states(auction)
                auction.take(line)
                if line.kind != "close":
                    continue
                seen.add(effect.reply.word)
                self.assertEqual(effect.reply.text(), auction.replies[-1].text())
                if effect.reply.word == "round":
                    lost = [it.eligibility - now for it, now in zip(states, auction.running_round.eligibility)]
                    self.assertEqual([it.lost for it in states], lost)
        self.assertEqual(seen, {"round", "sealed", "closed"})


class Lists(unittest.TestCase):
    def test_drafts_and_refusals(self) -> None:
        rows = spectrum(34)
        self.assertEqual(rows[0], "= The clock ended after round 4. Lists are taken.")
        self.assertEqual(
            cells(rows, "everest"),
            ["3", "0", "a submission is refused: relative-cap 3 661000"],
        )
        self.assertIn(
            "! everest: entry 3, 2 0 4 0 for 760,000, is above its cap 661,000 by 99,000",
            rows,
        )
        self.assertIn("A close now ends the auction.", rows)
        self.assertEqual(cells(spectrum(36), "everest"), ["3", "3", "as submitted"])
        rows = spectrum(36)
        words = "harbour, meridian, niche and tarn have submitted no list: only their clock bids count."
        self.assertIn(f"! {words}", rows)

    def test_each_entry_above_its_cap(self) -> None:
        """The entries of a drawn list that are above their caps are the ones that its submission refuses, each lowered
        to its cap in turn."""
        many = 0
        for number in range(60):
            drawing = Drawing(number, 1 + number % 2)
            drawing.clock()
            for j in drawing.bidders():
                for package in drawing.draw.sample(drawing.packages, 5):
                    drawing.take(
                        "draft",
                        j,
                        package,
                        drawing.award.reserve_of(package) + drawing.draw.randint(0, 99),
                    )
                above = entries_above(drawing.auction, j)
                many += len(above) > 1
                reply = drawing.take("submit", j)
                self.assertEqual(reply.is_ok, not above)
                if above:
                    self.assertEqual(reply.numbers, (above[0].entry, above[0].cap))
                    self.assertTrue(all(it.by > 0 for it in above))
        self.assertGreater(many, 5)

    def test_drafts_that_differ(self) -> None:
        head = "bid,east,1, / bid,west,1, / close,,, / draft,east,1,20 / submit,east,, / "
        rows = shown(SMALL, lines(head + "draft,east,1,25 / draft,east,2,30"))[0].splitlines()
        self.assertEqual(cells(rows, "east"), ["2", "1", "2 not submitted"])
        self.assertIn(
            "! The drafts of east differ from what was submitted: the submitted list counts.",
            rows,
        )
        rows = shown(SMALL, lines(head + "drop,east,1,"))[0].splitlines()
        self.assertEqual(cells(rows, "east"), ["0", "1", "1 not submitted"])


class Closed(unittest.TestCase):
    def test_an_end(self) -> None:
        rows = spectrum(63)
        self.assertEqual(rows[0], "= The clock ended after round 4. The auction is closed.")
        self.assertIn("The book has 16 bids of 5 bidders.", rows)
        self.assertIn("The auction is closed. No line is taken any more.", rows)
        self.assertFalse(any(row.startswith("!") for row in rows))

    def test_a_tie(self) -> None:
        rows = shown(SMALL, lines(TIE + "close,,,"))[0].splitlines()
        head = "! There is a tie: one other choice has the same net value. The order of the bidders, then that of their"
        at = rows.index(f"{head} packages, decides.")
        self.assertEqual(rows[at + 1], "!   west 2 instead of east 2")


class ManyWinners(unittest.TestCase):
    """Eight bidders ask for two of eight lots each, and four of them ask no more. Then each lists one lot at the last
    price, one bidder after the other. All lots are worth alike by then, and of choices with the greatest value that
    with the smaller package of the first bidder comes first. So four win, until the fifth list makes room for five."""

    award = "version = 1 / tick = 1 / [[step]] / excess = 1 / permille = 100 / [[category]] / name = 'c' / supply = 8"
    award += " / points = 1 / reserve = 10" + "".join(
        f" / [[bidder]] / name = 'b{j}' / eligibility = 2" for j in range(1, 9)
    )
    log = [f"bid,b{j},2," for j in range(1, 9)] + ["close,,,"] + [f"bid,b{j},2," for j in range(1, 5)] + ["close,,,"]
    log += [line for j in range(1, 9) for line in (f"draft,b{j},1,11", f"submit,b{j},,")] + ["close,,,"]

    def prefixes(self) -> Iterator[tuple[str, int]]:
        """The log up to each line, with how many win by the bids that count by then."""
        for count in range(len(self.log) + 1):
            text = "".join(f"{line}\n" for line in self.log[:count])
            yield text, max(4, text.count("submit")) if "close" in text else 0

    def test_the_winners_that_are_foretold(self) -> None:
        for text, winners in self.prefixes():
            rows = shown(lines(self.award), text)[0].splitlines()
            foretold = [row for row in rows if re.search(r"\d bidders (could )?win", row)]
            if text.count("close") < 3:
                self.assertEqual(len(foretold), 1, rows)
                self.assertTrue(foretold[0].startswith("! Up to 8 bidders could win. `cca award` prices at most 6"))
                self.assertLessEqual(winners, 8)
            else:
                self.assertEqual(winners, 8)
                self.assertEqual(
                    foretold, ["8 bidders win. `cca award` prices at most 6: use `tools/price AWARD LOG CERT`."]
                )

    @with_program
    def test_the_desk_counts_the_winners_of_the_bids_as_they_are(self) -> None:
        with tempfile.TemporaryDirectory() as folder:
            path = pathlib.Path(folder, "an.award")
            path.write_bytes(lines(self.award))
            answers = Answers(path, pathlib.Path(PROGRAM))
            for text, winners in self.prefixes():
                self.assertEqual(answers.winners(text.encode()), winners, text)


class Words(unittest.TestCase):
    def test_faults(self) -> None:
        for award, log, words, status in (
            (SMALL, b"bid,east,1.5,\n", "cca: refused log 1", 3),
            (SMALL, b"bid,east,1,\nbid;east;1;\n", "cca: refused log 2", 3),
            (SMALL.replace("tick", "tack"), b"", "cca: refused award 2 0", 3),
            (SMALL, b"\n" * 8388609, "cca: limit bytes 8388609", 7),
        ):
            text, ended, fault = shown(award, log)
            with self.subTest(words=words):
                self.assertEqual(
                    (text, ended, fault.splitlines()[0]),
                    ("", status, f"tools/state: {words}"),
                )
        award = os.path.join(EXAMPLES, "sample.award")
        made = subprocess.run(
            [sys.executable, os.path.join(TOOLS, "state"), award, "nothing.log"],
            capture_output=True,
        )
        self.assertEqual((made.returncode, made.stdout), (4, b""))
        self.assertIn(b"`nothing.log` can't be read: No such file or directory.", made.stderr)

    def test_a_narrow_screen(self) -> None:
        """Nothing is wider than the screen but the sentences, and nothing of the tables is lost."""
        log = b"".join(sample("spectrum.log").splitlines(True)[:9])
        wide, _, _ = shown(sample("spectrum.award"), log)
        narrow, _, _ = shown(sample("spectrum.award"), log, COLUMNS="50")
        tables = narrow.split("A close now")[0].splitlines()
        self.assertLessEqual(max(map(len, tables)), 50)
        for word in wide.split("A close now")[0].split():
            self.assertIn(word, narrow)
        self.assertEqual(narrow.split("A close now")[1:], wide.split("A close now")[1:])

    def test_a_terminal(self) -> None:
        """On a terminal of 60 columns no line is wider, and warnings are red."""
        folder = tempfile.mkdtemp()
        self.addCleanup(shutil.rmtree, folder)
        log = os.path.join(folder, "a.log")
        with open(log, "wb") as file:
            file.write(b"".join(sample("spectrum.log").splitlines(True)[:5]))
        text = on_terminal(60, os.path.join(EXAMPLES, "spectrum.award"), log)
        self.assertIn("\x1b[1m= Round 1 is open.\x1b[0m", text)
        self.assertIn("\x1b[31m! tarn has no line", text)
        plain = re.sub(r"\x1b\[\d*m", "", text)
        self.assertLessEqual(max(map(len, plain.splitlines())), 60)

    def test_watch(self) -> None:
        """Colours go through a pipe if they are asked for, and NO_COLOR overrides that."""
        log = lines("bid,east,1,")
        self.assertIn("\x1b[31m! west", shown(SMALL, log, FORCE_COLOR="1")[0])
        self.assertNotIn("\x1b", shown(SMALL, log, FORCE_COLOR="1", NO_COLOR="1")[0])
        narrow = shown(SMALL, log, FORCE_COLOR="1", COLUMNS="50")[0]
        self.assertLessEqual(max(len(re.sub(r"\x1b\[\d*m", "", row)) for row in narrow.splitlines()), 50)
        self.assertEqual(narrow.count("\x1b[31m"), 2)
        self.assertNotIn("\x1b", shown(SMALL, log)[0])

    def test_nothing_is_written(self) -> None:
        drawing = Drawing(5)
        drawing.clock()
        records, drafts = len(drawing.auction.lines), [drawing.auction.drafts(j) for j in drawing.bidders()]
        close_effect(drawing.auction)
        list_states(drawing.auction)
        self.assertEqual((len(drawing.auction.lines), drawing.auction.stage), (records, "sealed"))
        self.assertEqual([drawing.auction.drafts(j) for j in drawing.bidders()], drafts)
        self.assertEqual(drawing.auction.answer(CLOSE).word, "closed")


def on_terminal(columns: int, *files: str) -> str:
    """What tools/state prints on a terminal of this many columns."""
    import fcntl
    import struct
    import termios

    leader, follower = pty.openpty()
    fcntl.ioctl(follower, termios.TIOCSWINSZ, struct.pack("HHHH", 50, columns, 0, 0))
    kept = {name: text for name, text in os.environ.items() if name not in ("COLUMNS", "LINES", "NO_COLOR")}
    made = subprocess.Popen(
        [sys.executable, os.path.join(TOOLS, "state"), *files],
        stdout=follower,
        env={**kept, "TERM": "xterm"},
    )
    os.close(follower)
    text = b""
    with contextlib.suppress(OSError):  # the end of a terminal is a fault of reading
        while part := os.read(leader, 65536):
            text += part
    os.close(leader)
    assert made.wait() == 0
    return text.decode().replace("\r\n", "\n")


class Drawn(unittest.TestCase):
    def test_the_log_and_its_copy_agree(self) -> None:
        """A drawn log, written and read again, leads to the same auction."""
        drawing = Drawing(3)
        drawing.clock()
        copy = replay(read_award(drawing.text.encode()), read_log(drawing.log(), drawing.award))
        self.assertEqual(copy.replies, drawing.auction.replies)


if __name__ == "__main__":
    unittest.main()
