"""Books: the faults of their form by the byte, their limits by the count, and what is printed again."""
import itertools
import unittest
from checks.cases.samples import lines, said, sample
from checks.cases.voices import check
from cca_tools.rules.book import book_text, read_book
from cca_tools.rules.stops import Stop

HEAD = "book 1 / supply 1 1 / reserve 0 0 / bidder east / "


def stopped(data: bytes) -> tuple[str, int] | None:
    try:
        read_book(data)
    except Stop as stop:
        return stop.line, stop.status
    return None


class Books(unittest.TestCase):
    def test_texts_come_back(self) -> None:
        for name in "day-cramton.book", "six-bidders.book", "tie.book":
            self.assertEqual(book_text(read_book(sample(name))), sample(name))

    def test_places(self) -> None:
        book = read_book(sample("six-bidders.book"))
        self.assertEqual((book.states, book.place((0, 0, 0, 1)), book.place((4, 1, 14, 9))), (1500, 1, 1499))
        self.assertEqual([book.place(book.counts(place)) for place in range(1500)], list(range(1500)))

    def test_values(self) -> None:
        book = read_book(sample("six-bidders.book"))
        self.assertEqual(
            (book.value((1, 1, 1, 1, 1, 0)), book.fits((1, 1, 1, 1, 1, 0)), book.fits((1, 0, 0, 0, 0, 1))),
            (680000, True, False),
        )
        self.assertEqual((book.reserve((2, 0, 4, 5)), book.left((1, 0, 0, 0, 0, 1))), (460500, (-2, 1, 7, 9)))

    def test_faults(self) -> None:
        rows = [
            ("book 1 / supply 1 1 / reserve 0 0 / bidder east / bid 1 0 028 / end", 42),
            ("book 2", 0),
            ("", 0),
            ("book 1", 7),
            ("book 1 / supply", 7),
            ("book 1 / supply 0 / reserve 0 / end", 7),
            ("book 1 / supply 1000 / reserve 0 / end", 7),
            ("book 1 / supply 1 1 / reserve 0", 18),
            ("book 1 / supply 1 / reserve 68719476737 / end", 16),
            ("book 1 / supply 1 / reserve 0 / bid 1 0 / end", 26),
            (HEAD + "bidder east / end", 42),
            (HEAD + "bidder East / end", 42),
            (HEAD + "bidder a2345678901234567890_ / end", 42),
            (HEAD + "bid 0 0 0 / end", 42),
            (HEAD + "bid 1 2 0 / end", 42),
            (HEAD + "bid 1 0 / end", 42),
            (HEAD + "bid 1 0 4398046511105 / end", 42),
            (HEAD + "bid 1 0 5 / bid 1 0 6 / end", 52),
            (HEAD + "bidder west 2 / end", 42),
            (HEAD + "seller west / end", 42),
            (HEAD + "bid 1 0 5 / bid 0 1 6 / end", 52),
            (HEAD + "end / end", 46),
            (HEAD + "bid 1 0 +5 / end", 42),
        ]
        for text, place in rows:
            with self.subTest(text=text):
                self.assertEqual(stopped(lines(text) if text else b""), (f"cca: refused book {place}", 3))

    def test_edges_that_stand(self) -> None:
        for text in (
            HEAD + "bid 1 0 4398046511104 / end",
            HEAD + "bid 0 1 0 / bid 1 0 0 / end",
            HEAD + "bidder a234567890123456789_ / end",
        ):
            self.assertIsNone(stopped(lines(text)))
        self.assertIsNone(stopped(lines("book 1 / supply 3 3 3 3 7 7 / reserve 0 0 0 0 0 68719476736 / end")))

    def test_limits(self) -> None:
        for supply, line in [
            ("1 1 1 1 1 1 1", "categories 7"),
            ("41", "lots 41"),
            ("3 3 3 3 7 8", "states 18432"),
            ("999 1", "lots 1000"),
            ("9 9 9 9 9 9 9", "categories 7"),
        ]:
            text = f"book 1 / supply {supply} / reserve {' '.join('0' * len(supply.split()))} / end"
            self.assertEqual(stopped(lines(text)), (f"cca: limit {line}", 7))
        many = "".join(f"bidder b{j} / " for j in range(17))
        self.assertEqual(stopped(lines(f"book 1 / supply 1 / reserve 0 / {many}end")), ("cca: limit bidders 17", 7))
        packages = ((a, b, c) for a in range(20) for b in range(11) for c in range(9) if a + b + c)
        bids = [f"bid {a} {b} {c} 1 / " for a, b, c in itertools.islice(packages, 601)]
        for count, answer in (600, None), (601, ("cca: limit bids 601", 7)):
            self.assertEqual(
                stopped(lines(f"book 1 / supply 20 11 9 / reserve 0 0 0 / bidder x / {''.join(bids[:count])}end")),
                answer,
            )

    def test_form_comes_before_a_limit(self) -> None:
        self.assertEqual(stopped(lines("book 1 / supply 1 1 1 1 1 1 01 / end")), ("cca: refused book 7", 3))
        many = "".join(f"bidder b{j} / " for j in range(16))
        stop = stopped(lines(f"book 1 / supply 1 / reserve 0 / {many}bidder b3 / end"))
        self.assertEqual(stop and stop[1], 3)

    def test_bytes(self) -> None:
        for data, line in [(b"#" * 1048577, "cca: limit bytes 1048577"), (b"#" * 1048576, "cca: refused book 0")]:
            self.assertEqual(said(check, data, b"")[0], line)
        self.assertEqual(said(check, sample("tie.book"), b"#" * 67108865), ("cca: limit bytes 67108865", 7))


if __name__ == "__main__":
    unittest.main()
