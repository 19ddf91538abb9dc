"""Both programs' replies to a log, compared: alike, different and missing."""

from __future__ import annotations

import hashlib
import pathlib
import tempfile
import unittest
import unittest.mock
from collections.abc import Sequence

from checks.cases.drawn import Drawing
from checks.cases.program import PROGRAM, with_program
from checks.cases.samples import lines, sample

from cca_tools.desk import sealed_program
from cca_tools.desk.answers import Answers, Differ, NoLine, NoProgram
from cca_tools.page.source import given
from cca_tools.rules.auction import Auction, replay
from cca_tools.rules.award import Award, read_award
from cca_tools.rules.log import read_log
from cca_tools.rules.stops import MOST, Stop
from cca_tools.rules.view import record_text

SMALL = b"""version = 1
tick = 1
category = [{ name = "a", supply = 3, points = 2, reserve = 10 }, { name = "b", supply = 2, points = 1, reserve = 5 }]
bidder = [{ name = "east", eligibility = 5 }, { name = "west", eligibility = 7, holding = [1, 0] }]
step = [{ excess = 1, permille = 200 }]
cap = [{ weight = [1, 1], limit = 4 }]
"""
CLOCK = lines("bid,east,2 1, / bid,west,2 1, / close,,, / bid,east,2 0, / bid,west,1 1,")
SEALED = CLOCK + lines("close,,, / draft,east,2 0,40 / draft,east,1 0,30 / draft,west,1 1,30")


def state_of(auction: Auction) -> tuple[object, ...]:
    """The whole state of an auction."""
    rounds = [*auction.rounds, *([auction.open_round] if auction.open_round else [])]
    desks = [(desk.drafts, desk.submitted, desk.highest_in_clock) for desk in auction.desks]
    return auction.stage, auction.final, auction.lines, auction.replies, rounds, desks


def by_rules(award: Award, data: bytes) -> Auction:
    """The auction of a log, replayed from nothing."""
    return replay(award, read_log(data, award))


class Case(unittest.TestCase):
    def setUp(self) -> None:
        folder = tempfile.TemporaryDirectory()
        self.addCleanup(folder.cleanup)
        self.folder = pathlib.Path(folder.name)

    def answers(self, award: bytes = SMALL, script: str = "") -> Answers:
        """Both programs. A script of the shell may stand for cca: it has the real one as $CCA."""
        file, program = self.folder / "award", self.folder / "cca"
        file.write_bytes(award)
        program.write_bytes(
            f"#!/bin/sh\nCCA={pathlib.Path(PROGRAM).absolute()}\n{script}\n".encode()
            if script
            else pathlib.Path(PROGRAM).read_bytes()
        )
        return Answers(file, program)

    def changed(self, edit: str) -> Answers:
        """Both programs. Sed edits what cca prints."""
        return self.answers(script=f'out=$($CCA "$@"); status=$?; echo "$out" | sed -E "{edit}"; exit $status')


@with_program
class Alike(Case):
    def test_the_sample(self) -> None:
        both, rows = self.answers(sample("spectrum.award")), sample("spectrum.log").splitlines(True)
        for count in (0, 1, 17, 34, 62, 63):
            data = b"".join(rows[:count])
            self.assertEqual(state_of(both.auction(data)), state_of(by_rules(both.award, data)))

    def test_drawn_auctions_line_by_line(self) -> None:
        """Each line gets its reply from the log before it, and the result is the same as from the whole log."""
        drawing = Drawing(4)
        drawing.clock()
        both, data = self.answers(drawing.text.encode()), b""
        for line in drawing.auction.lines[:20]:
            data += record_text(line).encode() + b"\n"
            self.assertEqual(state_of(both.auction(data)), state_of(by_rules(both.award, data)))

    def test_previews_don_t_mix(self) -> None:
        both = self.answers()
        before = state_of(by_rules(both.award, CLOCK))
        for line in (b"bid,east,1 0,\n", b"close,,,\n", b"bid,west,0 1,\n"):
            data = CLOCK + line
            both.auction(CLOCK)
            self.assertEqual(state_of(both.auction(data)), state_of(by_rules(both.award, data)))
            self.assertEqual(state_of(both.auction(CLOCK)), before)

    def test_blank_lines_and_line_ends(self) -> None:
        both = self.answers()
        for data in (b"\xef\xbb\xbf" + CLOCK, CLOCK.replace(b"\n", b"\r\n"), b"\n\n" + CLOCK + b"\r\n\n", CLOCK[:-1]):
            self.assertEqual(state_of(both.auction(data)), state_of(by_rules(both.award, data)))
            data += b"\n\nbid,east,1 0,\n"
            self.assertEqual(state_of(both.auction(data)), state_of(by_rules(both.award, data)))

    def test_a_preview_takes_one_line(self) -> None:
        both, data = self.answers(), CLOCK + b"bid,east,1 0,\n" * 500
        both.auction(data)
        with unittest.mock.patch.object(Auction, "take", autospec=True, side_effect=Auction.take) as take:
            both.auction(data + b"bid,east,0 1,\n")
            both.auction(data + b"bid,west,0 1,\n")
            both.auction(data)
        self.assertEqual(take.call_count, 2)

    def test_one_log_is_answered_once(self) -> None:
        both = self.answers()
        both.auction(CLOCK)
        with unittest.mock.patch.object(both._program, "auction", side_effect=AssertionError("answered already")):
            self.assertEqual(both.auction(CLOCK).stage, "clock")

    def test_limits(self) -> None:
        """A close that a limit refuses has a reply, and both programs say that the log ends there."""
        both = self.answers(SMALL.replace(b"reserve = 10", b"reserve = 68719476736"))
        self.assertEqual(given(both.auction(CLOCK).limit_stop).line, "cca: limit price 82463372084")

    def test_pinned(self) -> None:
        """What happens to the files afterwards changes nothing."""
        both = self.answers()
        program = pathlib.Path(PROGRAM).read_bytes()
        wanted = {"award": hashlib.sha256(SMALL).hexdigest(), "program": hashlib.sha256(program).hexdigest()}
        self.assertEqual((both.pins, both.award_data), (wanted, SMALL))
        (self.folder / "award").write_bytes(SMALL.replace(b"reserve = 10", b"reserve = 11"))
        (self.folder / "cca").unlink()
        self.assertEqual(state_of(both.auction(CLOCK)), state_of(by_rules(both.award, CLOCK)))

    def test_a_copy_goes_on_apart(self) -> None:
        award = read_award(SMALL)
        rows = read_log(SEALED, award)
        for count in range(len(rows) + 1):
            auction = replay(award, rows[:count])
            before = state_of(by_rules(award, b"".join(SEALED.splitlines(True)[:count])))
            copy = auction.copied()
            for line in rows[count:]:
                copy.take(line)
            self.assertEqual(state_of(auction), before)
            self.assertEqual(state_of(copy), state_of(by_rules(award, SEALED)))


@with_program
class NoAnswers(Case):
    def test_records_that_are_no_lines(self) -> None:
        both = self.answers()
        both.auction(CLOCK)
        for line, words in (
            (b"bid;east;1 0;\n", "cca: refused log 6\n"),
            (b'bid,east,"1 0\n', "cca: refused log 6\n"),
            (b"\xef\xbb\xbfclose,,,\n", "cca: refused log 6\n"),
            (b"close,,,\nclose,,\n", "cca: refused log 7\n"),
            (b"\n" * 8_388_608, f"cca: limit bytes {8_388_608 + 1}"),
        ):
            with self.assertRaisesRegex(NoLine, words):
                both.auction((CLOCK + line)[:8_388_609])
        self.assertEqual(both.auction(CLOCK).stage, "clock")

    def test_too_many_records(self) -> None:
        """One record more than the limit takes the replies of all away, however the log grew to it."""
        both, data = self.answers(), CLOCK + b"bid,east,1 0,\n" * 5
        both.auction(data)
        ended = sealed_program.Ended(["cca: limit records 11"], 7, b"")
        with unittest.mock.patch.dict(MOST, records=10), unittest.mock.patch.object(
            both._program, "auction", return_value=ended
        ):
            self.assertEqual(len(both.auction(data).lines), 10)
            for text in (data + b"close,,,\n", CLOCK + b"bid,east,0 0,\n" * 6):
                with self.assertRaisesRegex(NoLine, "cca: limit records 11\n"):
                    both.auction(text)

    def test_an_award_that_is_none(self) -> None:
        with self.assertRaises(Stop):
            self.answers(b"version = 3\n")

    def test_differences(self) -> None:
        for edit, words in (
            ("s/^2 ok/2 points 7/", "In line 2 of the replies the program says `2 points 7`, and the .* `2 ok`"),
            ("/^5 ok/d", "In line 5 of the replies the program says `cca: refused log 6`"),
            ("s/refused log 6/refused log 7/", "In line 6"),
            (r"\$a more", "In line 7 of the replies the program says `more`, and the second program `nothing`"),
        ):
            with self.subTest(edit=edit), self.assertRaisesRegex(Differ, words):
                self.changed(edit).auction(CLOCK)
        with self.assertRaisesRegex(Differ, "status 7, and by the second program it is 3"):
            self.answers(script='$CCA "$@"; exit 7').auction(CLOCK)
        whole = SEALED + lines("submit,east,, / close,,,")
        self.assertEqual(self.answers().auction(whole).stage, "closed")
        with self.assertRaisesRegex(Differ, "another book"):
            self.answers(script='$CCA "$@"; status=$?; echo >> $4; exit $status').auction(whole)
        with self.assertRaisesRegex(Differ, "In line 1"):
            self.answers(script="echo 1 ok; exit 3").auction(b"bid;east\n")

    def test_a_program_that_fails(self) -> None:
        both = self.answers()
        with self.assertRaisesRegex(NoProgram, "can't be read"):
            Answers(self.folder / "award", self.folder / "none")
        for script, words in (
            ("echo cca: memory; exit 6", "status 6, which no log leads to, and its last line is `cca: memory`"),
            ("exit 5", "status 5, which no log leads to."),
            ("kill -9 $$", "status -9"),
        ):
            with self.subTest(script=script), self.assertRaisesRegex(NoProgram, words):
                self.answers(script=script).auction(CLOCK)
        with unittest.mock.patch.object(sealed_program, "SECONDS", 0.2):
            with self.assertRaisesRegex(NoProgram, "doesn't answer within 0.2 s"):
                self.answers(script="exec sleep 60").auction(CLOCK)
        (self.folder / "cca").write_bytes(b"no program\n" * 10)
        none = Answers(self.folder / "award", self.folder / "cca")
        with self.assertRaisesRegex(NoProgram, "can't be started"):
            none.auction(CLOCK)
        self.assertEqual(both.auction(CLOCK).stage, "clock")


@with_program
class Probing(Case):
    def test_alike(self) -> None:
        rows = sample("spectrum.log").splitlines(True)
        cases: list[tuple[bytes, Sequence[bytes]]] = [
            (SMALL, (b"", CLOCK, SEALED, SEALED + lines("submit,east,, / close,,,"))),
            (sample("spectrum.award"), [b"".join(rows[:count]) for count in (16, 33)]),
        ]
        for award, logs in cases:
            both = self.answers(award)
            for log in logs:
                self.assertEqual(both.probe(log), [])

    def test_other_points(self) -> None:
        """Both have 5 points in round 2, and east has 5 for its list."""
        self.assertEqual(self.changed("s/points 3$/points 4/").probe(CLOCK), [])
        found = self.changed("s/points 5$/points 6/").probe(CLOCK)
        self.assertEqual([it.split(": to")[0] for it in found], ["east, now", "west, now", "east, after a close"])
        self.assertIn("says `", found[0])
        self.assertRegex(
            found[0], r"`6 points 6`, and the second program `6 points 5`|`7 points 6`, and .* `7 points 5`"
        )

    def test_points_after_a_close(self) -> None:
        data = lines("bid,east,2 0, / bid,west,2 1,")
        found = self.changed("s/points 4$/points 5/").probe(data)
        self.assertEqual([it.split(": to")[0] for it in found], ["east, after a close"])

    def test_other_caps(self) -> None:
        found = self.changed("s/spectrum-cap 1 4/spectrum-cap 1 5/").probe(CLOCK)
        self.assertLessEqual({"east, now", "west, now"}, {it.split(": to")[0] for it in found})
        found = self.changed("s/(relative-cap [0-9]+) ([0-9]+)/\\\\1 1\\\\2/").probe(SEALED)
        self.assertEqual([it.split(": to")[0] for it in found], ["east, now", "west, now"])

    def test_a_log_without_room(self) -> None:
        both = self.answers()
        with unittest.mock.patch.dict(MOST, records=len(CLOCK.splitlines()) + 1):
            found = both.probe(CLOCK)
        self.assertEqual(len(found), 4)
        self.assertTrue(all("no room for probing lines" in sentence for sentence in found))

    def test_nothing_is_kept_of_it(self) -> None:
        both = self.answers()
        both.probe(SEALED)
        self.assertEqual(state_of(both.auction(SEALED)), state_of(by_rules(both.award, SEALED)))
        with self.assertRaisesRegex(NoLine, "no line feed"):
            both.probe(SEALED[:-1])


if __name__ == "__main__":
    unittest.main()
