"""The report: what is in it, as text and as a page."""
import hashlib
import os
import re
import subprocess
import sys
import tempfile
import unicodedata
import unittest
from typing import TypeAlias, TypeVar
from fractions import Fraction
from html.parser import HTMLParser
from collections.abc import Callable, Sequence

from checks.cases.samples import EXAMPLES, TOOLS, called, certificate_of, book_of, sample, spectrum
from cca_tools.page import core, html, plain, source, words
from cca_tools.page.document import Block, Cards, Cell, Fold, Page, Picture, Section, Table
from cca_tools.page.report import page
from cca_tools.page.source import given as present
from cca_tools.rules.names import written
from cca_tools.rules.stops import Stop
from cca_tools.rules.view import view_text

AWARD, LOG = sample("spectrum.award"), sample("spectrum.log")
BIDDERS = "everest", "harbour", "meridian", "niche", "tarn"
# The refused lines of the sample, as docs/BIDDER.md has them.
REFUSED = {
    5: "points 96",
    7: "unknown",
    8: "supply 2",
    9: "spectrum-cap 1 11",
    10: "stage",
    17: "points 68",
    33: "relative-cap 2 534800",
    37: "below-clock 315700",
    40: "empty",
    44: "below-reserve 505600",
    46: "relative-cap 3 636400",
    51: "points 22",
    59: "no-draft",
    63: "stage",
}
# What `cca price .. --rounds` prints of Day and Cramton's book, as README.md has it.
TURNS = "round 1 point 14 12 row 1 2 choice 0 0 1 0 0 excess 6\nround 2 point 17 15 end\n"
PROGRAM = f"#!/bin/sh\nif [ $1 = price ]; then cat <<TURNS\n{TURNS}TURNS\nelse echo yes; fi\n"

Made = TypeVar("Made")
Attributes: TypeAlias = list[tuple[str, str | None]]


def facts_of(*texts: bytes, program: str = "", bidder: str = "") -> source.Source:
    """The facts of files with these bytes, together with a program of these bytes or none."""
    with tempfile.TemporaryDirectory() as folder:
        names = [os.path.join(folder, f"file{at}") for at, _ in enumerate(texts)]
        for name, text in zip(names, texts):
            with open(name, "wb") as file:
                file.write(text)
        made = os.path.join(folder, "program")
        if program:
            with open(made, "w") as file:
                file.write(program)
            os.chmod(made, 0o755)
        return with_program(made if program else "/nowhere", lambda: source.of_files(names, bidder))


def with_program(path: str, run: Callable[[], Made]) -> Made:
    before = os.environ.get("CCA_PROGRAM")
    os.environ["CCA_PROGRAM"] = path
    try:
        return run()
    finally:
        del os.environ["CCA_PROGRAM"]
        if before is not None:
            os.environ["CCA_PROGRAM"] = before


def text_of(*texts: bytes, name: str = "", program: str = "") -> str:
    return plain.text(page(facts_of(*texts, program=program, bidder=name), name))


def flat(text: str) -> str:
    """A text with one space between words, so that its breaks don't matter."""
    return " ".join(text.split())


def log_of(*lines: str) -> bytes:
    return "".join(line + "\n" for line in lines).encode()


def tables(made: Page, title: str) -> list[list[list[str]]]:
    """The rows of the tables of this title, in words."""
    found: list[list[list[str]]] = []

    def walk(blocks: Sequence[Block]) -> None:
        for block in blocks:
            if isinstance(block, Cards):
                for card in block.cards:
                    walk(card.blocks)
            if isinstance(block, Fold):
                walk(block.blocks)
            table = block if isinstance(block, Table) else block.table if isinstance(block, Picture) else None
            if table and table.title == title:
                found.append([[html.parts(cell)[0] for cell in row] for row in table.rows])

    for section in made.sections:
        walk(section.blocks)
    return found


def replies(made: Page) -> dict[int, Cell]:
    """Of each line its reply, in words and in the program's form."""
    (section,) = [it for it in made.sections if it.key == "lines"]
    found = {}
    for line, _, reply in (row for table in tables_of_lines(section) for row in table.rows):
        assert isinstance(reply, Cell)
        found[int(html.parts(line)[0])] = reply
    return found


def tables_of_lines(section: Section) -> list[Table]:
    """The tables that the last block of a section folds away."""
    fold = section.blocks[-1]
    assert isinstance(fold, Fold)
    (cards,) = fold.blocks
    assert isinstance(cards, Cards)
    found = [block for card in cards.cards for block in card.blocks]
    tables = [block for block in found if isinstance(block, Table)]
    assert len(tables) == len(found)
    return tables


def details_of(cell: Cell) -> dict[str, str]:
    """The details of a cell, by their heads."""
    return {head: text for head, text in cell.details}


class Told(unittest.TestCase):
    def assert_told(self, sentence: str, text: str) -> None:
        """(without the whole report in the message)"""
        if sentence not in text:
            self.fail(f"{sentence!r} isn't told")


class Numbers(unittest.TestCase):
    def test_a_price_stands_as_the_program_prints_it(self) -> None:
        self.assertEqual(words.exact(Fraction(46, 3)), "15+1/3")
        self.assertEqual(words.exact(292400), "292,400")
        self.assertEqual(words.exact(Fraction(4398046511104 * 2 + 1, 2)), "4,398,046,511,104+1/2")

    def test_a_price_as_people_write_it(self) -> None:
        self.assertEqual(words.price(Fraction(41, 2)), "20\N{VULGAR FRACTION ONE HALF}")
        self.assertEqual(words.price(Fraction(2, 3)), "\N{VULGAR FRACTION TWO THIRDS}")
        self.assertEqual(words.price(Fraction(46, 7)), "6+4/7")
        self.assertEqual(words.price_cell(Fraction(41, 2)).code, "20+1/2")
        self.assertEqual(
            (words.price_cell(Fraction(46, 7)).words, words.price_cell(Fraction(46, 7)).code),
            ("\N{ALMOST EQUAL TO} 6.57", "6+4/7"),
        )
        self.assertEqual((words.price_cell(292400).words, words.price_cell(292400).code), ("292,400", ""))

    def test_letters_of_fractions(self) -> None:
        """Each letter has its value by Unicode."""
        for part, letter in words.VULGAR.items():
            self.assertEqual(Fraction(unicodedata.numeric(letter)).limit_denominator(100), part)
            self.assertEqual(words.price(7 + part), f"7{letter}")

    def test_per_cent(self) -> None:
        self.assertEqual(words.per_cent(310400, 400000), "77.6 %")
        self.assertEqual(words.per_cent(Fraction(1, 3), 1), "33.3 %")
        self.assertEqual(words.per_cent(1, 16), "6.3 %")
        self.assertEqual(words.per_cent(0, 0), "\N{EN DASH}")

    def test_commas_leave_names_and_short_numbers_alone(self) -> None:
        self.assertEqual(words.commas("a800 and c2600 at 534800, 6 of 999"), "a800 and c2600 at 534,800, 6 of 999")
        self.assertEqual(words.commas("81200+1/3"), "81,200\N{VULGAR FRACTION ONE THIRD}")
        self.assertEqual(words.commas("81200+1/7, 303800 + 231000"), "81,200+1/7, 303,800 + 231,000")

    def test_lists(self) -> None:
        self.assertEqual(words.listed([]), "nobody")
        self.assertEqual(words.listed(["a"]), "a")
        self.assertEqual(words.listed(["a", "b", "c"]), "a, b and c")

    def test_turns_as_the_program_prints_them(self) -> None:
        first, second = source.turns_of(
            "round 1 point 14 12 row 1 2 choice 0 0 1 0 0 excess 6\nround 2 point 15+1/2 16+1/2 end\nwinner b1 1 0 bid"
            " 28 vickrey 14 pays 17\n"
        )
        self.assertEqual(
            (first.number, first.point, first.row, first.choice, first.excess),
            (1, (14, 12), (1, 2), (0, 0, 1, 0, 0), 6),
        )
        self.assertEqual((second.number, second.point, second.row), (2, (Fraction(31, 2), Fraction(33, 2)), ()))


class Core(unittest.TestCase):
    def test_what_each_group_has_to_pay(self) -> None:
        facts = facts_of(sample("day-cramton.book"), sample("day-cramton.cert"))
        expected = {(1,): 14, (2,): 12, (1, 2): 32}
        self.assertEqual(core.bounds(present(facts.book), present(facts.certificate).choice, [1, 2]), expected)
        self.assertEqual(core.best_plainly(present(facts.book), (1, 2)), 32)

    def test_the_core_of_two_has_five_corners(self) -> None:
        corners = core.clipped(core.corner((14, 12), (28, 20)), 1, 1, 32)
        self.assertEqual(set(corners), {(14, 18), (14, 20), (28, 20), (28, 12), (20, 12)})

    def test_nothing_is_left_of_a_polygon_outside(self) -> None:
        self.assertEqual(core.clipped(core.corner((0, 0), (1, 1)), 1, 1, 3), [])


class OfABook(Told):
    def setUp(self) -> None:
        self.files = sample("day-cramton.book"), sample("day-cramton.cert")

    def test_winners(self) -> None:
        made = page(facts_of(*self.files))
        self.assertEqual(
            tables(made, "Winners and prices, reserves included"),
            [
                [
                    ["b1", "1\N{NO-BREAK SPACE}of category 1", "28", "14", "17", "60.7 %"],
                    ["b2", "1\N{NO-BREAK SPACE}of category 2", "20", "12", "15", "75.0 %"],
                ]
            ],
        )

    def test_a_coalition_has_one_sentence(self) -> None:
        told = flat(text_of(*self.files))
        self.assert_told(
            "b1 pays 17 and b2 15: their Vickrey prices of 14 and 12, and 3 more each, since b3 offers 32 for what b1"
            " and b2 win, and that is 6 more than their Vickrey prices.",
            told,
        )
        self.assertEqual(told.count("b3 offers 32"), 1)

    def test_without_a_program_it_says_so(self) -> None:
        told = flat(text_of(*self.files))
        self.assert_told("The certificate was tested by the second program.", told)
        self.assertNotIn("Turn 1", told)

    def test_turns_of_a_program(self) -> None:
        told = flat(text_of(*self.files, program=PROGRAM))
        self.assert_told("Turn 1 Each winner is asked for its Vickrey price: b1 14 and b2 12; together 26.", told)
        self.assert_told("b3 offers 32 for what b1 and b2 win, and that is 6 more than is paid for it.", told)
        self.assert_told("b1 17 and b2 15; together 32. No coalition blocks these prices", told)

    def test_a_wrong_certificate_shows_no_prices(self) -> None:
        wrong = re.sub(rb"(?m)^pay .*", b"pay 16 16 0 0 0", self.files[1])
        facts = facts_of(self.files[0], wrong)
        told = flat(plain.text(page(facts)))
        self.assertEqual(present(facts.fault).line, "no C8 2")
        self.assert_told("The certificate fails a test, so it shows no winners and no prices.", told)
        self.assertNotIn("pays 16", told)

    def test_what_it_rests_on(self) -> None:
        made = page(facts_of(*self.files))
        (files,) = tables(made, "The files, by their checksums (SHA-256)")
        self.assertEqual([row[:2] for row in files], [["book of bids", "file0"], ["certificate", "file1"]])
        self.assert_told("The program isn't here, so nothing is known about its proof.", flat(plain.text(made)))

    def test_a_book_alone(self) -> None:
        told = flat(text_of(self.files[0]))
        self.assert_told("No certificate was given, so no winners and no prices are shown.", told)
        self.assert_told("b3: 1 bid", told)

    def test_a_book_without_bidders(self) -> None:
        told = flat(text_of(b"book 1\nsupply 1\nreserve 5\nend\n"))
        self.assert_told("A book of bids, with 0 bidders.", told)

    def test_three_winners(self) -> None:
        # Least are 12 for b1 and b2, and 7 for b2 and b3, and b3 pays no more than its 1. So b2 pays 6, and b1 the
        # other 6.
        supply, bids = (1, 1, 1), [
            [((1, 0, 0), 9)],
            [((0, 1, 0), 9)],
            [((0, 0, 1), 5)],
            [((1, 1, 0), 12)],
            [((0, 1, 1), 7)],
            [((0, 0, 1), 1)],
            [((1, 0, 0), 5)],
        ]
        pair, chain, small = (0, 0, 1, 1, 0, 0, 0), (1, 0, 0, 0, 1, 0, 0), (1, 1, 0, 0, 0, 1, 0)
        rows = [((1, 2), 1, 1, pair), ((3,), 1, -2, small), ((2, 3), 0, 2, chain)]
        cert = certificate_of(
            supply,
            bids,
            (1, 1, 1, 0, 0, 0, 0),
            {1: (0, 1, 1, 0, 0, 0, 1), 2: pair, 3: small},
            1,
            (6, 6, 1, 0, 0, 0, 0),
            rows,
        )
        facts = facts_of(book_of(supply, bids), cert)
        self.assertIsNone(facts.fault)
        (groups,) = tables(page(facts), "What each group of winners has to pay")
        self.assertEqual(
            groups,
            [
                ["b1", "5", "6", "1"],
                ["b2", "3", "6", "3"],
                ["b3", "1", "1", "0"],
                ["b1 and b2", "12", "12", "0"],
                ["b1 and b3", "6", "7", "1"],
                ["b2 and b3", "7", "7", "0"],
                ["b1, b2 and b3", "13", "13", "0"],
            ],
        )


class OfALog(Told):
    cert: bytes
    made: Page
    told: str

    @classmethod
    def setUpClass(cls) -> None:
        cls.cert = spectrum()[1]
        cls.made = page(facts_of(AWARD, LOG, cls.cert))
        cls.told = flat(plain.text(cls.made))

    def test_rounds(self) -> None:
        found = [tables(self.made, f"{name} by round")[0] for name in ("a800", "b800", "c2600", "e2600")]
        self.assertEqual(
            found[0],
            [
                ["1", "200,000", "7 of 4", "3"],
                ["2", "220,000", "6 of 4", "2"],
                ["3", "231,000", "5 of 4", "1"],
                ["4", "242,600", "4 of 4", "0"],
            ],
        )
        self.assertEqual([row[2] for row in found[3]], ["15 of 9", "14 of 9", "14 of 9", "9 of 9"])

    def test_eligibility(self) -> None:
        (every,) = tables(self.made, "Points asked for and eligibility by round")
        self.assertEqual(
            [(row[1], row[3]) for row in every if row[0] == "harbour"],
            [("1", "68 of 68"), ("2", "48 of 68"), ("3 to 4", "48 of 48")],
        )

    def test_heads_of_lines(self) -> None:
        """A line is one of the log, and its reply one that docs/FORMATS.md has."""
        (section,) = [it for it in self.made.sections if it.key == "lines"]
        (table, *_) = tables_of_lines(section)
        first = dict(zip([it.head for it in table.columns], [html.parts(cell)[0] for cell in table.rows[0]]))
        self.assertEqual((first["Line"], list(first)), ("1", ["Line", "What was sent", "Reply"]))
        self.assert_told("everest asks for", first["What was sent"])

    def test_each_line_has_its_reply(self) -> None:
        codes = {line: reply.code for line, reply in replies(self.made).items()}
        self.assertEqual(len(codes), 63)
        self.assertEqual(
            {line: code for line, code in codes.items() if not re.match(r"ok$|round |sealed$|closed$", code)}, REFUSED
        )

    def test_a_refusal_is_worked_out(self) -> None:
        told = replies(self.made)
        plain_words = told[5].words.replace("\N{NO-BREAK SPACE}", " ")
        self.assert_told("3 x 20 + 1 x 40 = 100 points, and tarn is eligible for 96", plain_words)
        self.assert_told("315,700", told[37].words)

    def test_a_refused_list_has_its_arithmetic_in_a_table(self) -> None:
        cell = replies(self.made)[33]
        self.assert_told("Refused. Entry 2 of the list, ", cell.words)
        self.assert_told("is above its cap of 534,800.", cell.words)
        self.assertEqual(details_of(cell)["cap"], "303,800 + 231,000 = 534,800")
        self.assertEqual(details_of(cell)["highest amount named for that"], "303,800")
        self.assertEqual(details_of(cell)["what the package costs more there"], "+231,000")

    def test_the_table_of_a_package_that_costs_less(self) -> None:
        """By the rules: three lots were asked for at 10 each, and one of them costs 20 less."""
        log = log_of("bid,east,3,", "close,,,", "draft,east,1,50", "submit,east,,")
        cell = replies(page(facts_of(sample("sample.award"), log)))[4]
        self.assertEqual(cell.code, "relative-cap 1 10")
        self.assertEqual(details_of(cell)["cap"], "30 - 20 = 10")
        self.assertEqual(details_of(cell)["what the package costs more there"], "-20")

    def test_net_of_reserve(self) -> None:
        (net,) = tables(self.made, "The same net of reserve")
        self.assertEqual([row[4] for row in net], ["47,400", "30,000", "32,000", "6,200", "60,200", "175,800"])
        self.assertEqual(net[3], ["niche", "75,000", "45,000", "6,000", "6,200"])

    def test_where_bids_come_from(self) -> None:
        """By the log: tarn asked for 2 1 4 0 in round 1 at the reserves, and has the others on its list."""
        (bids,) = tables(self.made, "Bids of tarn")
        self.assertEqual(
            [(row[2], row[4]) for row in bids],
            [("500,000", "list"), ("536,000", "list"), ("810,000", "list"), ("710,000", "round 1")],
        )

    def test_winners_and_sums(self) -> None:
        winners = tables(self.made, "Winners and prices, reserves included")[0]
        self.assertEqual(
            [(row[0], *row[3:6]) for row in winners],
            [
                ("everest", "420,000", "292,400", "292,400"),
                ("harbour", "400,000", "310,400", "310,400"),
                ("meridian", "380,000", "292,500", "292,500"),
                ("niche", "120,000", "81,000", "81,200"),
                ("tarn", "500,000", "460,000", "460,200"),
            ],
        )
        self.assert_told("Winners pay 78.9 % of what they bid: 1,436,700 of 1,820,000", html.page(self.made))
        (net,) = tables(self.made, "The same net of reserve")
        self.assertEqual(net[-1][2], "559,100")

    def test_the_result_comes_first(self) -> None:
        """Who won what and pays what, by the lines of the award (README.md), before any other table."""
        cards = self.made.sections[0].blocks[0]
        assert isinstance(cards, Cards)
        first = cards.cards[0].blocks[0]
        assert isinstance(first, Table)
        self.assertEqual([it.head for it in first.columns], ["Winner", "Won", "Pays"])
        self.assertEqual(
            [[html.parts(cell)[0].replace("\N{NO-BREAK SPACE}", " ") for cell in row] for row in first.rows],
            [
                ["everest", "1 x a800, 3 x c2600", "292,400"],
                ["harbour", "1 x b800, 2 x c2600, 4 x e2600", "310,400"],
                ["meridian", "1 x a800, 4 x c2600, 5 x e2600", "292,500"],
                ["niche", "5 x c2600", "81,200"],
                ["tarn", "2 x a800", "460,200"],
            ],
        )

    def test_the_final_clock_price_of_each_package(self) -> None:
        """By the prices of round 4 of the sample: 242600 275700 19200 400."""
        winners = tables(self.made, "Winners and prices, reserves included")[0]
        self.assertEqual([row[2] for row in winners], ["300,200", "315,700", "321,400", "96,000", "485,200"])

    def test_titles_say_the_finding(self) -> None:
        titles = {section.key: section.finding for section in self.made.sections}
        told = "Three of five winners pay their Vickrey price; a coalition raises niche and tarn by 200 each"
        self.assertEqual((titles["winners"], titles["why"]), ("Five winners pay 1,436,700 for all 28 lots", told))
        self.assertEqual(titles["rounds"], "The clock took four rounds, and prices rose in all four categories")

    def test_the_vickrey_price_is_worked_out(self) -> None:
        (tarn,) = tables(self.made, "Without tarn")
        self.assertEqual(
            [(row[0], row[-1]) for row in tarn],
            [
                ("everest", "+240,000"),
                ("meridian", "+220,000"),
                ("harbour and niche", "0"),
                ("its Vickrey price", "460,000"),
            ],
        )
        (niche,) = tables(self.made, "Without niche")
        self.assertEqual(
            [(row[0], row[-1]) for row in niche],
            [
                ("tarn", "+36,000"),
                ("the seller", "+45,000"),
                ("everest, harbour and meridian", "0"),
                ("its Vickrey price", "81,000"),
            ],
        )

    def test_files_by_their_sums(self) -> None:
        for data in (AWARD, LOG, self.cert):
            self.assertIn(hashlib.sha256(data).hexdigest(), self.told)

    def test_who_may_bid(self) -> None:
        """As examples/spectrum.award has it."""
        (bidders,) = tables(self.made, "Who may bid")
        self.assertEqual(bidders[0], ["everest", "80", "2\N{NO-BREAK SPACE}x\N{NO-BREAK SPACE}a800"])
        self.assertEqual([row[1:] for row in bidders[1:]], [[points, "nothing"] for points in ("68", "60", "22", "96")])
        self.assertEqual(tables(page(facts_of(AWARD, LOG), "tarn"), "Who may bid"), [])

    def test_lots(self) -> None:
        (lots,) = tables(self.made, "Where the lots went")
        self.assertEqual(
            lots[2],
            ["c2600", "14", "everest~3, harbour~2, meridian~4, niche~5".replace("~", "\N{NO-BREAK SPACE}")],
        )

    def test_a_log_in_progress(self) -> None:
        told = flat(text_of(AWARD, b"".join(LOG.splitlines(True)[:15])))
        self.assert_told("The auction is in round 2.", told)
        self.assert_told("The auction isn't over: the clock runs. So there are no winners and no prices yet.", told)
        self.assert_told("2 220,000 4 of 4 so far 0", told)
        self.assert_told("WHERE THE AUCTION IS ==================== Round 2 is open.", told)
        self.assert_told("a800 220,000 4 of 4 0", told)

    def test_an_open_sealed_round(self) -> None:
        told = flat(text_of(AWARD, b"".join(LOG.splitlines(True)[:50])))
        self.assert_told("Lists are taken. A close now ends the auction.", told)

    def test_a_log_that_a_limit_stops(self) -> None:
        award = AWARD.replace(b"reserve = 250000", b"reserve = 68719476736")
        told = flat(text_of(award, log_of("bid,everest,0 1 0 0,", "bid,harbour,0 1 0 0,", "close,,,")))
        self.assert_told("The auction was stopped by a limit: cca: limit price 72155450636. It has no book", told)

    def test_without_bids(self) -> None:
        told = flat(text_of(AWARD, log_of("close,,,", "close,,,")))
        self.assertEqual(told.count("Nobody has a bid."), 1)
        self.assert_told("The clock ended with round 1", told)
        self.assert_told("The log has 2 lines, and none of them were refused.", told)

    def test_who_has_no_bid(self) -> None:
        """Only tarn asks for lots: the four others share a sentence, and have no table."""
        log = log_of("bid,tarn,1 0 0 0,", "close,,,", "close,,,")
        self.assert_told("everest, harbour, meridian and niche have no bid.", flat(text_of(AWARD, log)))
        self.assertEqual(tables(page(facts_of(AWARD, log)), "Bids of niche"), [])

    def test_without_bidders(self) -> None:
        award = AWARD[: AWARD.index(b"[[bidder]]")] + AWARD[AWARD.index(b"[[step]]") :]
        self.assert_told("The auction is over.", text_of(award, log_of("close,,,", "close,,,")))

    def test_no_line_of_a_text_is_too_wide(self) -> None:
        for name in ("", "tarn"):
            made = plain.text(page(facts_of(AWARD, LOG, self.cert), name))
            self.assertLessEqual(max(map(len, made.splitlines())), 100)


class OfABidder(Told):
    def view(self, *texts: bytes, name: str = "tarn") -> str:
        return text_of(*texts, name=name)

    def test_no_other_name_before_the_award(self) -> None:
        told = self.view(AWARD, LOG)
        for name in BIDDERS[:-1]:
            self.assertNotIn(name, told)
        self.assert_told("Winners and prices aren't published yet.", flat(told))

    def test_nothing_depends_on_lines_of_others_before_the_award(self) -> None:
        lines = LOG.decode().splitlines()
        others = [line for line in lines if ",tarn," not in line and not line.startswith(("bid,", "close"))]
        without = log_of(*(line for line in lines if line not in others))
        doubled = log_of(*(again for line in lines for again in ([line, line] if line in others else [line])))
        self.assertGreater(len(others), 20)
        self.assertEqual(self.view(AWARD, LOG), self.view(AWARD, without))
        self.assertEqual(self.view(AWARD, LOG), self.view(AWARD, doubled))

    def test_a_bidder_that_has_only_its_own_view_sees_the_same(self) -> None:
        lines = LOG.splitlines(True)
        for count in (0, 11, 15, 30, 47, 62):
            log = b"".join(lines[:count])
            auction = present(facts_of(AWARD, log).auction)
            for j, name in enumerate(BIDDERS, 1):
                with self.subTest(count=count, name=name):
                    self.assertEqual(
                        self.view(AWARD, log, name=name), self.view(AWARD, view_text(auction, j).encode(), name=name)
                    )

    def test_a_refused_close_is_in_no_view(self) -> None:
        self.assertEqual(self.view(AWARD, LOG), self.view(AWARD, LOG + b"close,,,\n"))

    def test_a_limit_of_the_auction_is_in_no_view(self) -> None:
        award = AWARD.replace(b"reserve = 250000", b"reserve = 68719476736")
        stopped = "bid,everest,0 1 0 0,", "bid,tarn,0 1 0 0,", "close,,,"
        later = "bid,everest,0 0 0 0,", "close,,,", "draft,tarn,0 1 1 0,68719500000", "submit,tarn,,", "close,,,"
        for log in (stopped, stopped + later):
            auction = present(facts_of(award, log_of(*log)).auction)
            self.assertEqual(present(auction.limit_stop).line, "cca: limit price 72155450636")
            self.assertEqual(self.view(award, log_of(*log)), self.view(award, view_text(auction, 5).encode()))

    def test_lists_that_are_empty(self) -> None:
        nothing, draft = log_of("close,,,"), log_of("close,,,", "draft,tarn,1 0 0 0,200000")
        self.assert_told("You have drafted and submitted nothing.", self.view(AWARD, nothing))
        made = page(facts_of(AWARD, draft), "tarn")
        (drafts,) = tables(made, "Your drafts")
        self.assertEqual([row[1] for row in drafts], ["1\N{NO-BREAK SPACE}x\N{NO-BREAK SPACE}a800"])
        self.assertEqual(tables(made, "Your list as submitted last"), [])
        self.assertNotIn("nothing.", flat(plain.text(made)).split("YOUR LISTS")[1].split("WHAT IS")[0])

    def test_a_view_takes_no_certificate(self) -> None:
        auction = present(facts_of(AWARD, LOG).auction)
        with self.assertRaisesRegex(Stop, "a bidder's own view has no certificate"):
            facts_of(AWARD, view_text(auction, 1).encode(), spectrum()[1], bidder="everest")

    def test_nothing_depends_on_terms_of_others(self) -> None:
        award = AWARD.replace(b"eligibility = 60", b"eligibility = 61").replace(
            b"holding = [2, 0, 0, 0]", b"holding = [1, 0, 0, 0]"
        )
        begun = b"".join(LOG.splitlines(True)[:8])
        self.assertEqual(self.view(AWARD, begun), self.view(award, begun))

    def test_own_lines_with_their_replies(self) -> None:
        made = page(facts_of(AWARD, LOG), "tarn")
        self.assert_told("You sent 13 lines; 2 of them were refused.", flat(plain.text(made)))
        told = replies(made)
        self.assertEqual(
            [(line, reply.code) for line, reply in told.items() if reply.tone == "bad"],
            [(1, "points 96"), (15, "no-draft")],
        )
        self.assertEqual(len(told), 13 + 5)

    def test_winners_behind_the_award(self) -> None:
        told = self.view(AWARD, LOG, spectrum()[1])
        self.assert_told("You win 2 x a800 with your bid of 500,000, and pay 460,200, 92.0 % of it.", flat(told))
        self.assert_told(
            "Your Vickrey price, what the others would offer more if you hadn't bid, is 460,000. You pay 200 more.",
            flat(told),
        )
        for name, pays in zip(BIDDERS, ("292,400", "310,400", "292,500", "81,200", "460,200")):
            self.assertRegex(told, rf"{name} .* {pays}\n")
        for bid in ("420,000", "400,000", "380,000", "120,000", "81,000"):
            self.assertNotIn(bid, told)

    def test_a_certificate_that_fails_shows_no_winner(self) -> None:
        wrong = spectrum()[1].replace(b"pay 47400", b"pay 47401")
        told = self.view(AWARD, LOG, wrong)
        self.assert_told("The certificate fails a test, so no winners and no prices are shown.", flat(told))
        for name in BIDDERS[:-1]:
            self.assertNotIn(name, told)


class Form(HTMLParser):
    """What a page is made of: its tags in balance, the names of its parts and its texts."""

    def __init__(self, text: str) -> None:
        super().__init__()
        self.open: list[str] = []
        self.ids: list[str | None] = []
        self.tags: dict[str, int] = {}
        self.figures: list[str | None] = []
        self.texts: list[str] = []
        self.links: list[str] = []
        self.feed(text)

    def handle_starttag(self, tag: str, attributes: Attributes) -> None:
        named = dict(attributes)
        self.tags[tag] = self.tags.get(tag, 0) + 1
        self.ids += [named["id"]] if "id" in named else []
        self.links += [
            value
            for name, value in attributes
            if value and re.match(r"(https?:)?//", value) and not name.startswith("xmlns")
        ]
        if tag == "figure":
            self.figures.append(named.get("aria-describedby"))
        if tag not in ("meta", "br"):
            self.open.append(tag)

    def handle_startendtag(self, tag: str, attributes: Attributes) -> None:
        self.handle_starttag(tag, attributes)
        self.open.pop()

    def handle_endtag(self, tag: str) -> None:
        if self.open.pop() != tag:
            raise AssertionError(f"</{tag}> closes another")

    def handle_data(self, text: str) -> None:
        self.texts.append(text)


class OfAPage(Told):
    text: str
    form: Form

    @classmethod
    def setUpClass(cls) -> None:
        cls.text = html.page(page(facts_of(AWARD, LOG, spectrum()[1])))
        cls.form = Form(cls.text)

    def test_it_is_whole_and_needs_nothing_else(self) -> None:
        self.assertEqual(self.form.open, [])
        self.assertEqual(self.form.links, [])
        for tag in ("script", "link", "img", "iframe", "object"):
            self.assertNotIn(tag, self.form.tags)
        self.assertNotRegex(self.text, r"@import|url\((?!#)")

    def test_a_size_is_on_one_line(self) -> None:
        text = written("<2.6 GHz> at 800 MHz, 2 x 5; 3 lots in round 1").replace("\N{NO-BREAK SPACE}", "~")
        self.assertEqual(text, "&lt;2.6~GHz&gt; at 800~MHz, 2~x~5; 3 lots in round~1")

    def test_names_of_parts_differ(self) -> None:
        self.assertEqual(len(self.form.ids), len(set(self.form.ids)))

    def test_each_picture_has_a_title_words_and_a_table(self) -> None:
        self.assertEqual(len(self.form.figures), 1 + 1 + 4 + 1)
        for name in self.form.figures:
            self.assertIn(name, self.form.ids)
        self.assertEqual(self.form.tags["svg"], len(self.form.figures))
        self.assertEqual(self.form.tags["desc"], len(self.form.figures))

    def test_each_mark_says_its_number(self) -> None:
        for words_ in (
            "tarn wins 2 of 4 lots of a800",
            "tarn pays 460,200, 92.0 % of its bid",
            "what tarn wins cost 485,200 at the final prices of the clock",
            "round 1: 7 asked for, of 4, 3 too many",
            "round 4: 242,600, 121.3 % of the reserve",
            "harbour, rounds 1 to 2: eligible for 68 points",
        ):
            self.assert_told(f"<title>{words_}</title>", self.text)

    def test_a_printed_page_has_the_sums_of_the_files(self) -> None:
        self.assertIn(f'content: "award {hashlib.sha256(AWARD).hexdigest()[:12]}, log ', self.text)
        self.assertIn('counter(page) " of " counter(pages)', self.text)

    def test_no_library_is_loaded(self) -> None:
        script = "import sys; import cca_tools.page.html, cca_tools.commands.report; print(*sys.modules)"
        how = {**os.environ, "PYTHONPATH": TOOLS}
        loaded = subprocess.run([sys.executable, "-c", script], capture_output=True, text=True, env=how).stdout.split()
        self.assertIn("cca_tools.page.charts", loaded)
        self.assertEqual({"matplotlib", "numpy", "jinja2"} & set(loaded), set())

    def test_pictures_have_letters(self) -> None:
        self.assertRegex(self.text, r"<text[^>]*>\s*242,600, \+21.3 %\s*</text>")

    def test_the_same_files_give_the_same_page(self) -> None:
        self.assertEqual(self.text, html.page(page(facts_of(AWARD, LOG, spectrum()[1]))))

    def test_what_the_text_says_the_page_says(self) -> None:
        told = flat(" ".join(self.form.texts))
        for sentence in (
            "niche pays 81,200 and tarn 460,200: their Vickrey prices of 81,000 and 460,000, and 200 more each",
            "303,800 + 231,000 = 534,800",
            "Three of five winners pay their Vickrey price",
            "below-clock 315700",
        ):
            self.assert_told(sentence, told)

    def test_a_picture_of_the_core_for_two(self) -> None:
        made = html.page(page(facts_of(sample("day-cramton.book"), sample("day-cramton.cert"))))
        self.assertIn("What b1 and b2 could pay that nobody blocks", made)
        self.assertEqual(Form(made).open, [])

    def test_a_name_of_a_file_is_no_markup(self) -> None:
        with tempfile.TemporaryDirectory() as folder:
            name = os.path.join(folder, "<script>alert(1)<`b`&.book")
            name = name.replace("/b`", "b`")
            with open(name, "wb") as file:
                file.write(sample("day-cramton.book"))
            made = html.page(page(with_program("/nowhere", lambda: source.of_files([name]))))
        self.assertNotIn("script", Form(made).tags)


class OfTheTool(Told):
    def run_tool(self, *words: str, program: str = "/nowhere") -> tuple[str, int]:
        told, status, self.said = called("report", *words, CCA_PROGRAM=program)
        return told, status

    def path(self, name: str) -> str:
        return os.path.join(EXAMPLES, name)

    def test_statuses(self) -> None:
        award, log, book, cert = map(
            self.path, ("spectrum.award", "spectrum.log", "day-cramton.book", "day-cramton.cert")
        )
        for given, line, status in (
            ((), "`tools/report --help` says what it takes.", 2),
            ((award,), "`tools/report --help` says what it takes.", 2),
            (("--text", award, log, cert, book), "`tools/report --help` says what it takes.", 2),
            (("--text", log, award), "tools/report: cca: refused award 0 0", 3),
            (("--text", book, book + "x"), "tools/report: cca: read fault cert", 4),
            (("--text", book, award), "tools/report: cca: refused cert 0", 3),
        ):
            with self.subTest(words=given):
                self.assertEqual(self.run_tool(*given), ("", status))
                told = self.said.splitlines()
                self.assertEqual(told[-1] if status == 2 else told[0], line)

    def test_done(self) -> None:
        told, status = self.run_tool("--text", self.path("day-cramton.book"), self.path("day-cramton.cert"))
        self.assertEqual(status, 0)
        self.assert_told("b1 pays 17", told)

    def test_a_certificate_that_fails_is_status_1(self) -> None:
        with tempfile.TemporaryDirectory() as folder:
            name = os.path.join(folder, "wrong.cert")
            with open(name, "wb") as file:
                file.write(sample("day-cramton.cert").replace(b"pay 17 15", b"pay 16 16"))
            told, status = self.run_tool("--text", self.path("day-cramton.book"), name)
        self.assertEqual(status, 1)
        self.assert_told("no C8 2", told)

    def test_the_sum_of_the_program_where_it_is_asked_for(self) -> None:
        with tempfile.TemporaryDirectory() as folder:
            name = os.path.join(folder, "program")
            with open(name, "w") as file:
                file.write(PROGRAM)
            os.chmod(name, 0o755)
            files = self.path("day-cramton.book"), self.path("day-cramton.cert")
            told, other = (self.run_tool("--text", *more, *files, program=name)[0] for more in (("--program-sum",), ()))
        self.assert_told(hashlib.sha256(PROGRAM.encode()).hexdigest(), told)
        self.assertNotIn(hashlib.sha256(PROGRAM.encode()).hexdigest(), other)

    def test_one_file_may_be_standard_input(self) -> None:
        for at in (0, 1):
            files = [self.path("day-cramton.book"), self.path("day-cramton.cert")]
            with open(files[at], "rb") as file:
                files[at] = "-"
                made = subprocess.run(
                    [sys.executable, os.path.join(TOOLS, "report"), "--text", *files],
                    stdin=file,
                    capture_output=True,
                    text=True,
                    env={**os.environ, "CCA_PROGRAM": "/nowhere"},
                )
            self.assertEqual(made.returncode, 0)
            self.assert_told("b1 pays 17", made.stdout)
            self.assert_told(f"{('book of bids', 'certificate')[at]} standard input", flat(made.stdout))

    def test_a_stranger_sees_nothing(self) -> None:
        told, status = self.run_tool(
            "--text", "--bidder", "stranger", self.path("spectrum.award"), self.path("spectrum.log")
        )
        self.assertEqual((told, status), ("", 2))
        self.assertIn("the award has no bidder `stranger`; its bidders are everest, ", self.said)


if __name__ == "__main__":
    unittest.main()
