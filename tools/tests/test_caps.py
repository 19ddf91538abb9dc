"""tools/caps while the clock runs, and the greatest list that is admitted."""
import unittest

from checks.cases.drawn import Drawing
from checks.cases.samples import lines, said, sample, taking
from cca_tools.rules.auction import replay
from cca_tools.rules.log import Line, read_log
from cca_tools.rules.sealed import caps_if_ended
from cca_tools.rules.types import Gross, Package
from cca_tools.rules.view import record_text, view_line_of, view_text

caps = taking("caps")
SMALL = sample("sample.award").decode()
HEAD = "bid,east,3, / bid,west,2, / close,,, / "


def asked(award: bytes, log: bytes, *words: str) -> tuple[str, int]:
    """What tools/caps prints of these bytes, and its status."""
    return said(lambda names: caps([*names, *words]), award, log)


def spectrum(records: int, *words: str) -> str:
    return asked(sample("spectrum.award"), b"".join(sample("spectrum.log").splitlines(True)[:records]), *words)[0]


class Clock(unittest.TestCase):
    def test_points_and_room(self) -> None:
        """In round 1 everest has 80 points, owns 2 lots of a800 and asks for 48 points."""
        rows = spectrum(5, "everest").splitlines()
        self.assertEqual(rows[0], "everest round 1 open asks for 2 0 4 0 eligible 80 points 48 left 32")
        self.assertEqual(rows[1:3], ["spectrum cap 1 room 3 of 11", "spectrum cap 2 room 26 of 42"])
        self.assertEqual(rows[3], "package 2 0 4 0 points 48 costs 460000 left 32")
        self.assertEqual(rows[4], "  if the clock ended now: no cap")
        rows = spectrum(5, "tarn", "3 1 0 0").splitlines()
        self.assertEqual(rows[0], "tarn round 1 open asks for no line yet eligible 96 points 0 left 96")
        self.assertEqual(rows[3], "package 3 1 0 0 points 100 costs 850000 refused points 96")

    def test_a_package_beside_what_is_asked_for(self) -> None:
        """east asks for one lot at 12 in round 2, where it is eligible for three: three would cost 24 more."""
        rows = asked(SMALL.encode(), lines(HEAD + "bid,east,1,"), "east", "3")[0].splitlines()
        self.assertEqual(rows[1], "package 3 points 3 costs 36 left 0")
        self.assertEqual(rows[2], "  if the clock ended now: round 2 held 1 stands 12 prices 12 cap 36")
        rows = asked(SMALL.encode(), lines(HEAD + "bid,east,1,"), "east", "4")[0].splitlines()
        self.assertEqual(rows[1], "package 4 points 4 costs 48 refused supply 1")
        self.assertEqual(
            asked(SMALL.encode(), lines(HEAD), "east", "0")[0].splitlines()[1:], ["package 0 points 0 costs 0 left 3"]
        )

    def test_a_bidders_own_view(self) -> None:
        for records in (5, 9, 15, 20, 28):
            for name in ("everest", "tarn"):
                view = spectrum(records, name, "--view")
                self.assertEqual(
                    asked(sample("spectrum.award"), view.encode(), name)[0], spectrum(records, name), (records, name)
                )

    def test_the_cap_that_comes(self) -> None:
        """On drawn auctions the cap as if the clock ended now is the cap by the log that ends it now."""
        many = 0
        for number in range(40):
            drawing = Drawing(number, 1 + number % 2)
            drawing.clock()
            for last in range(1, len(drawing.auction.lines), 4):
                auction = replay(drawing.award, drawing.auction.lines[:last])
                j = 1 + last % len(drawing.award.names)
                view = view_text(auction, j).encode()
                if auction.stage != "clock":
                    continue
                ended = replay(drawing.award, read_log(view + b"close,,sealed,\n", drawing.award, view_line_of))
                for package in drawing.packages:
                    cap, then = caps_if_ended(auction, j).cap({}, package), ended.caps(j).cap({}, package)
                    self.assertEqual(cap, then)
                    many += cap is not None and cap.amount is not None
        self.assertGreater(many, 1000)


class Fit(unittest.TestCase):
    def test_the_sample(self) -> None:
        """BIDDER computes the cap of 534800 for this list."""
        self.assertIn("package 2 0 4 0 listed 760000 above by 225200 least 506000 round 3", spectrum(32, "everest"))
        self.assertEqual(
            spectrum(32, "everest", "--fit").splitlines(),
            [
                "everest list 2 lowered 1",
                "package 1 0 3 0 wanted 420000 fits 420000",
                "package 2 0 4 0 wanted 760000 fits 534800 lowered by 225200",
                "the lines that lead to it:",
                "draft,everest,2 0 4 0,534800",
                "submit,everest,,",
            ],
        )
        view = spectrum(32, "everest", "--view")
        self.assertEqual(
            asked(sample("spectrum.award"), view.encode(), "everest", "--fit")[0].splitlines()[-1], "submit,everest,,"
        )

    def test_drawn_lists(self) -> None:
        """The list that is printed is admitted, and raising any entry of it by 1 towards the wanted amount isn't."""
        seen = {"lowered": 0, "whole": 0}
        for number in range(24):
            drawing = Drawing(number, 1 + number % 2)
            drawing.clock()
            for j in drawing.bidders():
                for package in drawing.draw.sample(drawing.packages, min(len(drawing.packages), 6)):
                    least = max(drawing.award.reserve_of(package), drawing.auction.highest_in_clock(j).get(package, 0))
                    drawing.take("draft", j, package, least + drawing.draw.randint(0, 60))
            for j in drawing.bidders():
                self.check(drawing, j, seen)
        self.assertTrue(all(count > 10 for count in seen.values()), seen)

    def check(self, drawing: Drawing, j: int, seen: dict[str, int]) -> None:
        """Follows the lines that are printed, then tests each entry that was lowered."""
        name, wanted = drawing.award.names[j - 1], dict(drawing.auction.drafts(j))
        text, status = asked(drawing.text.encode(), drawing.log(), name, "--fit")
        self.assertEqual(status, 0)
        self.assertEqual(asked(drawing.text.encode(), view_text(drawing.auction, j).encode(), name, "--fit")[0], text)
        rows = text.splitlines()
        sent = rows[rows.index("the lines that lead to it:") + 1 :]
        log = drawing.log() + "".join(row + "\n" for row in sent).encode()
        fitted = replay(drawing.award, read_log(log, drawing.award))
        self.assertTrue(all(reply.is_ok for reply in fitted.replies[-len(sent) :]), text)
        listed = dict(fitted.submitted(j))
        self.assertEqual(listed.keys(), wanted.keys())
        for package, amount in wanted.items():
            self.assertLessEqual(listed[package], amount)
            seen["whole" if listed[package] == amount else "lowered"] += 1
            if listed[package] < amount:
                self.refused(drawing, log, j, package, listed[package] + 1)

    def refused(self, drawing: Drawing, log: bytes, j: int, package: Package, amount: int) -> None:
        """The list with this entry is above a cap."""
        name = drawing.award.names[j - 1]
        tried = [Line(0, 0, "draft", name, j, package, Gross(amount)), Line(0, 0, "submit", name, j)]
        more = "".join(record_text(line) + "\n" for line in tried).encode()
        replies = replay(drawing.award, read_log(log + more, drawing.award)).replies[-2:]
        self.assertEqual([reply.word for reply in replies], ["ok", "relative-cap"])

    def test_no_list_to_fit(self) -> None:
        for log, why in ((HEAD, "the clock is running"), ("close,,, / close,,, / ", "the auction is closed")):
            text, status = asked(SMALL.encode(), lines(log[:-3]), "east", "--fit")
            self.assertEqual((text, status), (f"no list is fitted: {why}", 1))
        self.assertEqual(
            asked(SMALL.encode(), lines("close,,,"), "east", "--fit")[0].splitlines()[0], "east list 0 lowered 0"
        )
        for words in (("east", "--fit", "1"), ("east", "--fit", "--view")):
            self.assertEqual(asked(SMALL.encode(), lines("close,,,"), *words)[1], 2)


if __name__ == "__main__":
    unittest.main()
