"""The titles of reports, each tested against the numbers of 500 drawn auctions.

An auction is drawn as its award and log. Its winners and Vickrey prices are the right ones; what coalitions ask for
above these is drawn too, since a title has to be true whatever that is. The claims of a title are read from its text,
and compared with numbers that are computed here.
"""
import dataclasses
import re
import random
import unittest
from fractions import Fraction
from collections.abc import Iterator, Mapping

from checks.cases.drawn import Drawing
from cca_tools.rules.types import Choice, Table
from cca_tools.page import findings, rounds, winners
from cca_tools.page.document import Words
from cca_tools.page.source import Source, given
from cca_tools.page.words import VULGAR, Names
from cca_tools.rules.book import Book
from cca_tools.rules.certificate import BookCertificate, Certificate, Row, winners_of
from cca_tools.rules.clock import Round
from cca_tools.rules.winners import winning_choice

MANY = 500
WORDS = "no one two three four five six seven eight nine ten eleven twelve".split()
LETTERS = {letter: part for part, letter in VULGAR.items()}
COUNT = "|".join(WORDS) + r"|\d+"
AMOUNT = r"[\d,]*(?:[^\W\d_a-z ]|\+\d+/\d+)?"


def counted(word: str) -> int:
    """A number as a word or in digits."""
    return WORDS.index(word.lower()) if word.lower() in WORDS else int(word.replace(",", ""))


def amount(text: str) -> Fraction:
    """An amount as people write it."""
    whole, _, rest = text.replace(",", "").partition("+")
    if whole[-1:] in LETTERS:
        return int(whole[:-1] or 0) + LETTERS[whole[-1]]
    return int(whole) + Fraction(rest or 0)


def bids_less(book: Book, j: int) -> Book:
    """The book without the bids of a bidder."""
    return dataclasses.replace(book, bids=[[] if k == j else bids for k, bids in enumerate(book.bids, 1)])


def drawn_certificate(draw: random.Random, book: Book) -> BookCertificate:
    """The winners and what each pays: its Vickrey price, and shares of up to three rows of drawn winners."""
    choice, value = winning_choice(book)
    won = winners_of(choice)
    without: dict[int, tuple[Choice, Table]] = {j: (winning_choice(bids_less(book, j))[0], []) for j in won}
    rows = [Row([j], 1, 0, without[j][0]) for j in won]
    for _ in range(draw.choice((0, 0, 1, 1, 2, 3))):
        if len(won) > 1:
            members = sorted(draw.sample(won, draw.randint(2, len(won))))
            row = Row(members, 1, draw.choice((0, 1, 2, 200)), without[members[0]][0])
            rows += [row] if all(members != other.members for other in rows) else []
    den = draw.choice((1, 1, 2, 3, 7))
    made: BookCertificate = Certificate(book, 1, value, choice, [], without, [], rows, [])
    above = [sum(row.second for row in rows if j in row.members) for j in range(1, book.bidders + 1)]
    pay = [den * made.vickrey(j) + above[j - 1] if choice[j - 1] else 0 for j in range(1, book.bidders + 1)]
    return dataclasses.replace(made, den=den, pay=pay)


def drawn_source(number: int) -> Source:
    """The facts of a drawn auction; some have few bids, and some none."""
    drawing = Drawing(number)
    drawing.clock()
    drawing.lists()
    drawing.take("close")
    auction, award = drawing.auction, drawing.award
    book = auction.book()
    book = dataclasses.replace(book, bids=[bids if drawing.draw.random() < 0.9 else [] for bids in book.bids])
    names = Names(award.names, [category.name for category in award.categories])
    return Source([], names, award, auction, book=book, certificate=drawn_certificate(drawing.draw, book))


class Findings(unittest.TestCase):
    sources: list[Source]
    drawing: str | int  # what a fault names

    @classmethod
    def setUpClass(cls) -> None:
        cls.sources = [drawn_source(number) for number in range(MANY)]

    def each(self) -> Iterator[Source]:
        """Each source; a fault names the auction that is drawn from its number."""
        for self.drawing, source in enumerate(self.sources):
            yield source

    def _formatMessage(self, msg: str | None, standard_message: str) -> str:
        return f"auction {self.drawing}: {super()._formatMessage(msg, standard_message)}"

    def above(self, source: Source) -> dict[str, Fraction]:
        """How far each winner pays above its Vickrey price, by the numbers of the certificate."""
        it = given(source.certificate)
        return {given(source.book).names[j - 1]: Fraction(it.pay[j - 1], it.den) - it.vickrey(j) for j in it.winners}

    def test_prices(self) -> None:
        forms = set()
        for source in self.each():
            title, above = findings.of_prices(source), self.above(source)
            raised = {name: more for name, more in above.items() if more}
            if not above:
                self.assertEqual(title, "Nobody wins")
                continue
            forms.add(re.sub(rf"{AMOUNT}|east|west|north|south", "", title))
            head, _, tail = title.rpartition("; ") if raised else (title, "", "")
            self.check_head(head, len(above) - len(raised), len(above))
            if raised:
                self.check_raised(tail, raised, source)
        self.assertGreater(len(forms), 12)

    def check_head(self, head: str, at: int, whole: int) -> None:
        """The part of a title about winners that pay their Vickrey prices."""
        if not head:
            self.assertEqual(at, 0)
        elif found := re.fullmatch(rf"({COUNT}) of ({COUNT}) winners pays? (?:its|their) Vickrey price", head, re.I):
            self.assertEqual((counted(found[1]), counted(found[2])), (at, whole))
        else:
            said = {"The only winner pays its": 1, "Both winners pay their": 2}
            found = given(re.fullmatch(rf"(?:All ({COUNT}) winners pay their|(.*)) Vickrey prices?", head))
            many = counted(found[1]) if found[1] else said[found[2]]
            self.assertEqual((many, at), (whole, whole))

    def check_raised(self, tail: str, raised: Mapping[str, Fraction], source: Source) -> None:
        """The part of a title about winners that pay more."""
        form = rf"(?:(a) coalition raises|({COUNT}) coalitions raise) (.*?)(?:, above (?:its|their) Vickrey prices?)?"
        found = given(re.fullmatch(form, tail, re.I))
        rows = [row for row in given(source.certificate).rows if len(row.members) > 1 and row.second]
        self.assertEqual(1 if found[1] else counted(found[2]), len(rows))
        if every := re.fullmatch(rf"(?:all|the other) ({COUNT}) by ({AMOUNT})(?: (together|each))?", found[3]):
            whole = sum(raised.values())
            expected = whole if every[3] == "together" else whole / len(raised)
            self.assertEqual((counted(every[1]), amount(every[2])), (len(raised), expected))
            return
        said: dict[str, Fraction] = {}
        names: list[str] = []
        for part in re.split(r", | and ", found[3]):
            name, _, by = part.partition(" by ")
            names.append(name)
            if by:
                is_each = by.endswith(" each")
                said.update({it: amount(by.removesuffix(" each")) for it in (names if is_each else [name])})
        self.assertEqual(said, raised)

    def test_payments(self) -> None:
        for source in self.each():
            if source.winners:
                title = findings.of_payments(source)
                form = rf"(?:The winner pays|Winners pay) (.*) % of what (?:it|they) bid: ({AMOUNT}) of (.*)"
                found = given(re.fullmatch(form, title))
                it, book = given(source.certificate), given(source.book)
                reserves = sum(book.reserve(book.winning(it.choice, j)[0]) for j in it.winners)
                bid = it.value + reserves
                pays = Fraction(sum(it.pay), it.den) + reserves
                self.assertEqual((amount(found[2]), amount(found[3])), (pays, bid))
                self.assertLessEqual(abs(Fraction(found[1].replace(",", "")) - 100 * pays / bid), Fraction(1, 20))

    def test_lots(self) -> None:
        for source in self.each():
            title, book = findings.of_lots(source), given(source.book)
            supply = book.supply
            won = [book.winning(given(source.certificate).choice, j)[0] for j in source.winners]
            left = [have - sum(package[c] for package in won) for c, have in enumerate(supply)]
            if not any(map(sum, won)):
                self.assertRegex(title, rf"^None of {sum(supply)} lots is sold$")
                continue
            form = (
                rf"(?:(\d+) of|All) (\d+) lots (?:is|are) sold, to (?:({COUNT}) winners|(\w+))(?:; (.*) stays? unsold)?"
            )
            found = given(re.fullmatch(form, title))
            self.assertEqual(int(found[2]), sum(supply))
            self.assertEqual(int(found[1] or found[2]), sum(supply) - sum(left))
            if found[3]:
                self.assertEqual(counted(found[3]), len(won))
            else:
                self.assertEqual([book.names[j - 1] for j in source.winners], [found[4]])
            parts = (part.partition(" of ") for part in re.split(r", | and ", found[5] or "") if part)
            said = {category: lots for lots, _, category in parts}
            self.assertEqual(said, {f"c{c}": str(lots) for c, lots in enumerate(left, 1) if lots})

    def test_award(self) -> None:
        """How many win, what they pay together and for how many lots."""
        for source in self.each():
            title, it, book = findings.of_award(source), given(source.certificate), given(source.book)
            whole, left = sum(book.supply), sum(book.left(it.choice))
            form = rf"(?:((?i:{COUNT})) winners pay|\w+ pays) ({AMOUNT}) for (?:(\d+) of|all) (\d+) lots"
            found = given(re.fullmatch(form, title))
            reserves = sum(book.reserve(book.winning(it.choice, j)[0]) for j in it.winners)
            self.assertEqual(counted(found[1] or "one"), len(it.winners))
            self.assertEqual(amount(found[2]), Fraction(sum(it.pay), it.den) + reserves)
            self.assertEqual((int(found[3] or found[4]), int(found[4])), (whole - left, whole))

    def test_nobody_wins(self) -> None:
        """A title and a sentence say all of it."""
        self.drawing, first = 0, self.sources[0]
        book = dataclasses.replace(given(first.book), bids=[[] for _ in given(first.book).bids])
        certificate = drawn_certificate(random.Random(1), book)
        source = Source([], first.names, first.award, first.auction, book=book, certificate=certificate)
        self.assertEqual(findings.of_award(source), f"Nobody wins, and all {sum(book.supply)} lots stay unsold")
        reserves = sum(lots * reserve for lots, reserve in zip(book.supply, book.reserves))
        told = f"There is no bid, so the seller gets nothing. The reserves of the lots come to {reserves:,}."
        self.assertEqual(winners.result(source), [Words(told)])

    def test_lots_that_stay_have_columns(self) -> None:
        """If any lots stay, the table has the lots of each category that stay and their reserves. Otherwise it has no
        such columns."""
        kinds = set()
        for source in self.each():
            table, book = winners.lots_table(source), given(source.book)
            left = book.left(given(source.certificate).choice)
            kinds.add(any(left))
            shown = [[str(cell) for cell in row[3:]] for row in table.rows]
            wanted = [[f"{lots:,}", f"{lots * reserve:,}"] for lots, reserve in zip(left, book.reserves)]
            self.assertEqual(shown, wanted if any(left) else [[]] * len(left))
        self.assertEqual(kinds, {False, True})

    def test_lots_of_many_categories(self) -> None:
        """A title names three categories, and of more it has their number."""
        self.drawing, source = "of four categories", Source([], Names(["a"], ["c1", "c2", "c3", "c4"]))
        for left, words in (
            ((0, 1, 0, 0), "1 of c2 stays unsold"),
            ((1, 2, 0, 1), "1 of c1, 2 of c2 and 1 of c4 stay unsold"),
            ((1, 2, 1, 1), "5 lots of four categories stay unsold"),
        ):
            self.assertEqual(findings.left_words(source, left), words)

    def test_bands_have_a_cell_for_each_lot(self) -> None:
        for source in self.each():
            book = given(source.book)
            won = [book.winning(given(source.certificate).choice, j)[0] for j in source.winners]
            for c, band in enumerate(winners.bands_of(source)):
                self.assertEqual(band.supply, book.supply[c])
                for place, package in enumerate(won, 1):
                    self.assertEqual(dict(band.parts).get(place, 0), package[c])

    def test_categories(self) -> None:
        for source in self.each():
            closed = given(source.auction).rounds
            for c, supply in enumerate(given(source.book).supply):
                title, prices = findings.of_category(closed, c, False), [it.prices[c] for it in closed]
                form = (
                    rf"The price (?:stayed at|rose by ([\d.,]+) % to) ([\d,]+); demand was (?:(never) above the supply"
                    rf"|above the supply in (?:the (only) round|({COUNT}) of ({COUNT}) rounds))"
                )
                found = given(re.fullmatch(form, title))
                above = sum(sum(package[c] for package in it.packages) > supply for it in closed)
                self.assertEqual(amount(found[2]), prices[-1])
                rose = Fraction((found[1] or "0").replace(",", ""))
                self.assertLessEqual(abs(rose - Fraction(100 * (prices[-1] - prices[0]), prices[0])), Fraction(1, 20))
                self.assertEqual((found[1] is None), prices[0] == prices[-1])
                told = (0, len(closed)) if found[3] else (1, 1) if found[4] else (counted(found[5]), counted(found[6]))
                self.assertEqual(told, (above, len(closed)))

    def test_a_category_of_one_closed_round(self) -> None:
        closed, after = Round(1, (100,), [5], [(3,)], (1,)), Round(2, (110,), [5], [(0,)], (1,))
        self.assertEqual(
            findings.of_category([closed, after], 0, True),
            "The price rose by 10.0 % to 110; demand was above the supply in the closed round",
        )

    def test_the_clock(self) -> None:
        for source in self.each():
            closed = given(source.auction).rounds
            form = (
                rf"The clock took ({COUNT}) rounds?, and"
                rf" (no price rose|prices rose in (both|({COUNT}) of two) categories)"
            )
            found = given(re.fullmatch(form, findings.of_clock(closed, False)))
            rose = sum(closed[0].prices[c] != closed[-1].prices[c] for c in range(2))
            self.assertEqual(counted(found[1]), len(closed))
            self.assertEqual(0 if found[2].startswith("no") else 2 if found[3] == "both" else counted(found[4]), rose)

    def test_activity(self) -> None:
        for source in self.each():
            closed, award = given(source.auction).rounds, given(source.award)
            every = [rounds.activity_of(source, closed, j) for j in range(1, len(award.names) + 1)]
            title = findings.of_activity([it.points for it in every], [it.eligibility for it in every], False).lower()
            weights = [category.points for category in award.categories]
            sums = [sum(count * weight for one in it.packages for count, weight in zip(one, weights)) for it in closed]
            losers = sum(closed[-1].eligibility[j] < closed[0].eligibility[j] for j in range(len(award.names)))
            who = rf"(?:(no) bidder|all ({COUNT}) bidders|({COUNT}) of ({COUNT}) bidders)"
            found = re.search(f"{who} lost eligibility from round 1 to round {len(closed)}$", title)
            self.assertEqual(found is None, len(closed) == 1)
            if found:
                said = 0 if found[1] else counted(found[2] or found[3])
                self.assertEqual(said, losers)
                went = "fell" if sums[-1] < sums[0] else "rose"
                same = f"as many points are asked for in round {len(closed)} as in round 1, {sums[0]};"
                moved = f"points asked for {went} from {sums[0]} to {sums[-1]} in {WORDS[len(closed)]} rounds;"
                self.assertTrue(title.startswith(same if sums[0] == sums[-1] else moved), title)

    def test_the_core(self) -> None:
        for source in self.each():
            above = sum(self.above(source).values())
            title = findings.of_core(source) if source.winners else ""
            found = re.search(rf" pay ({AMOUNT}) more than their Vickrey prices", title)
            self.assertEqual(amount(found[1]) if found else 0, above)


if __name__ == "__main__":
    unittest.main()
