"""Attacks on the record of an auction's day: each is refused by a tool, or found by lines that somebody noted."""
import dataclasses
import pathlib
import re
import tempfile
import unittest

from checks.cases import attacks
from checks.cases.attacks import AWARD, KEY, LOG, Files, Step, found, honest, note_of, told, with_bid

from cca_tools.desk.journal import chained
from cca_tools.rules.seals import Event, Row, Sealer, grouped, read_posted, sum_of


class Attacks(unittest.TestCase):
    day: Files

    @classmethod
    def setUpClass(cls) -> None:
        cls.day = told(honest())

    def test_the_day(self) -> None:
        """Nothing is found in the unchanged files, and the day has the events of its description."""
        self.assertEqual(found(self.day, self.day), attacks.Found("yes", "yes", ()))
        self.assertEqual(
            [it.event for it in read_posted(self.day.posted)],
            [
                *("close 1", "close 1 taken back", "close 1", "close 2", "back to close 1"),
                *("close 2", "close 3", "close 4", "end", "publish"),
            ],
        )

    def test_attacks_of_the_auctioneer(self) -> None:
        for it in attacks.ATTACKS:
            with self.subTest(attack=it.name):
                made = it.make(self.day)
                self.assertNotEqual(made.but(), self.day.but())
                self.assertEqual(it.differs(found(self.day, made)), [])

    def test_a_day_that_nobody_noted(self) -> None:
        """Who has the key makes another day whose files agree; nothing but a note of somebody else finds it."""
        other = told(honest(with_bid(LOG)))
        self.assertEqual(found(other, other).check, "yes")
        self.assertIn("NOT of these files", note_of(other, self.day.posted.decode()))

    def test_another_program(self) -> None:
        """What the journal said about the program on the day is in the set, and can't be changed afterwards."""
        unproved = told(honest(), about={**attacks.PROGRAM, "program": "NOT PROVED: it has no mark"})
        proved = told(honest())
        self.assertEqual(attacks.foreign_of(unproved, proved), attacks.LINES)

    def test_a_clock_that_was_set_back(self) -> None:
        """An hour back before the fourth step: the journal says so, the protocol shows it, and the set's page too."""
        late = told(attacks.with_time(honest(), 3, -3600))
        (back,) = (it.more["back"] for it in chained(late.journal) if "back" in it.more)
        self.assertEqual(back, 3541.0)  # (from 09:03:02 to 08:04:01)
        with tempfile.TemporaryDirectory() as folder:
            names = attacks.write(folder, late.but())
            printed = attacks.journal([names["journal"]])
            self.assertIn("! THE CLOCK WAS SET BACK by 3541.0 seconds", printed)
            self.assertIn("The clock of the machine was set back 1 time.", printed)
            four = [names[kind] for kind in ("award", "log", "key", "posted")]
            self.assertIn("the clock was set back 1 times", attacks.journal([names["journal"], "--check", *four]))
            words = ["--key", names["key"], "--posted", names["posted"], "--journal", names["journal"]]
            made = pathlib.Path(folder, "set")
            said = attacks.said(attacks.publish, *words, *(names[it] for it in ("award", "log", "cert")), str(made))
            self.assertEqual(said, "yes")
            self.assertIn("WAS SET BACK 1 times: see the journal", (made / "index.html").read_text())

    def test_few_digits(self) -> None:
        """Four digits of another award's checksum are found at once, so that less than all digits aren't taken."""
        wanted = sum_of(AWARD)[:4]
        other = next(
            text
            for text in (attacks.swapped(AWARD) + b"# %d\n" % at for at in range(10**6))
            if sum_of(text)[:4] == wanted
        )
        self.assertEqual(grouped(sum_of(other))[:4], wanted)
        for digits in (8, 16, 63):
            said = note_of(self.day, "award " + grouped(sum_of(AWARD)[:digits]))
            self.assertIn("cca: refused noted 1", said)


class OfABidder(unittest.TestCase):
    """Lines that a bidder shows."""

    day: Files
    rows: list[Row]

    @classmethod
    def setUpClass(cls) -> None:
        cls.day = told(honest())
        cls.rows = read_posted(cls.day.posted)

    def test_a_void_line(self) -> None:
        said = note_of(self.day, self.rows[3].text())
        self.assertEqual(
            said,
            "yes\nline 4 (close 2): posted as line 4, void since line 5: the auction went back to close 1: the line of"
            " another bidder",
        )

    def test_a_void_seal_under_other_words(self) -> None:
        """The seal of a void line under the name, the number, the time or the reason of another one."""
        void, right = self.rows[3], self.rows[5]
        for other in (
            dataclasses.replace(void, number=right.number),
            dataclasses.replace(void, event="close 3"),
            dataclasses.replace(void, time=right.time),
            dataclasses.replace(self.rows[4], why="no reason"),
            dataclasses.replace(right, seal=void.seal),
        ):
            self.assertRegex(note_of(self.day, other.text()), r"\Ano\n.*NOT of these files: the seal is the one of")

    def test_a_foreign_line(self) -> None:
        """The line of another day, and one that is made by the published key, aren't in these files."""
        other = told(honest(), key=KEY.replace(b"0", b"f"))
        made = Sealer(KEY, sum_of(AWARD)).row(
            Event("close", 3, len(LOG)), self.rows[6].time, LOG, "0" * 64, self.day.posted
        )
        for text in (read_posted(other.posted)[0].text(), dataclasses.replace(made, number=7).text()):
            self.assertRegex(note_of(self.day, text), r"\Ano\n.*NOT of these files: no posted line has this seal")

    def test_what_is_posted_before_the_end_tells_no_bid(self) -> None:
        """Days that differ only in bids, or in how many lines came, have the same posted lines except for seals."""
        days = [told(it[:4]) for it in (honest(), honest(with_bid(LOG)))]
        extra = honest()[:4]
        extra[2] = Step(b"bid,tarn,1 0 0 0,\n" + extra[2].text, minute=3)
        texts = [re.sub(r"(?: [0-9a-f]{4}){16}", "", it.posted.decode()) for it in (*days, told(extra))]
        self.assertEqual([texts[0]] * 3, texts)
        self.assertEqual(len({it.posted for it in days}), 2)


if __name__ == "__main__":
    unittest.main()
