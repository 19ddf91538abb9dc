"""The log: records as they are read of any bytes, and the first record that states no line."""
import unittest
import unittest.mock
from checks.cases.samples import sample
from cca_tools.rules.award import Award
from cca_tools.rules.award import read_award
from cca_tools.rules.log import read_log, records
from cca_tools.rules.stops import MOST, Stop

AWARD = read_award(sample("sample.award"))
UK = read_award(sample("spectrum.award"))


def fields(data: bytes) -> list[list[bytes]]:
    return [read for row, text, read in records(data)]


def answer(text: str, award: Award = AWARD) -> list[tuple[object, ...]] | str:
    try:
        return [
            (line.number, line.row, line.kind, line.name, line.bidder, line.package, line.amount)
            for line in read_log(text.encode(), award)
        ]
    except Stop as stop:
        return stop.line


class Records(unittest.TestCase):
    def test_ends(self) -> None:
        self.assertEqual(fields(b"a,b\nc,d\r\ne,f\rg"), [[b"a", b"b"], [b"c", b"d"], [b"e", b"f"], [b"g"]])
        self.assertEqual(fields(b"\n\r\n\r\ra\n\n\nb\n\n"), [[b"a"], [b"b"]])
        self.assertEqual(fields(b""), [])
        self.assertEqual(fields(b",\n,"), [[b"", b""], [b"", b""]])

    def test_quotes(self) -> None:
        self.assertEqual(fields(b'"a,b"\n'), [[b"a,b"]])
        self.assertEqual(fields(b'"a""b",c\n'), [[b'a"b', b"c"]])
        self.assertEqual(fields(b'"a"b,"c\nd"\ne'), [[b"ab", b"c\nd"], [b"e"]])
        self.assertEqual(fields(b'a"b,"c'), [[b'a"b', b"c"]])
        self.assertEqual(fields(b'a,"b,c\nd,e\n'), [[b"a", b"b,c\nd,e\n"]])
        self.assertEqual(fields(b'"a"""'), [[b'a"']])
        self.assertEqual(fields(b'"a""'), [[b'a"']])
        self.assertEqual(fields(b'""\n'), [[b""]])
        self.assertEqual(fields(b'"a"b"c",d\n'), [[b'ab"c"', b"d"]])
        self.assertEqual(fields(b' "a",b'), [[b' "a"', b"b"]])

    def test_bytes(self) -> None:
        self.assertEqual(fields(b"\xef\xbb\xbfa,b"), [[b"a", b"b"]])
        self.assertEqual(fields(b"\xef\xbb\xbf\xef\xbb\xbfa"), [[b"\xef\xbb\xbfa"]])
        self.assertEqual(fields(b"\x00\xff,\x1a"), [[b"\x00\xff", b"\x1a"]])
        self.assertEqual(fields(b'\xef\xbb\xbf"a,b"'), [[b"a,b"]])

    def test_rows(self) -> None:
        self.assertEqual([row for row, text, read in records(b'\n\na,"x\r\ny"\n\rb\rc')], [3, 6, 7])


class Lines(unittest.TestCase):
    def test_kinds(self) -> None:
        text = "bid,east,3,\n\ndraft,west,2,45\ndrop,north,0,\nsubmit,east,,\nclose,,,\n"
        self.assertEqual(
            answer(text),
            [
                (1, 1, "bid", "east", 1, (3,), 0),
                (2, 3, "draft", "west", 2, (2,), 45),
                (3, 4, "drop", "north", 0, (0,), 0),
                (4, 5, "submit", "east", 1, (), 0),
                (5, 6, "close", "", 0, (), 0),
            ],
        )
        self.assertEqual(answer('"bid","east","1 0 65535 4",', UK), [(1, 1, "bid", "east", 0, (1, 0, 65535, 4), 0)])
        self.assertEqual(answer("draft,east,3,1000000000000000000"), [(1, 1, "draft", "east", 1, (3,), 10**18)])

    def test_faults(self) -> None:
        for text in (
            "bid,west,2",
            "bid,west,2,,",
            "bid,west",
            "x",
            "bids,west,2,",
            "BID,west,2,",
            "bid,West,2,",
            "bid,,2,",
            "bid,2west,2,",
            "bid,west,,",
            "bid,west,2 0,",
            "bid,west, 2,",
            "bid,west,2 ,",
            "bid,west,02,",
            "bid,west,-2,",
            "bid,west,2.5,",
            "bid,west,65536,",
            "bid,west,2,0",
            "draft,west,2,",
            "draft,west,2,-1",
            "draft,west,2,01",
            "draft,west,2,1.5",
            "draft,west,2,1000000000000000001",
            "draft,west,,5",
            "drop,west,2,5",
            "submit,west,2,",
            "submit,west,,0",
            "submit,,,",
            "close,west,,",
            "close,,2,",
            "close,,,0",
            " bid,west,2,",
            "bid,west,2, ",
            "bid,west,\u0662,",
            "bid,w\u00e9st,2,",
            "draft,west,2," + "9" * 5000,
            "bid,a23456789012345678901,2,",
        ):
            with self.subTest(text=text):
                self.assertEqual(answer("close,,,\n\n" + text + "\nx\n"), "cca: refused log 2")

    def test_counts_of_categories(self) -> None:
        self.assertEqual(answer("bid,east,1 0 3,", UK), "cca: refused log 1")
        self.assertEqual(answer("bid,east,1 0 3  0,", UK), "cca: refused log 1")
        self.assertEqual(answer("bid,east,1\t0 3 0,", UK), "cca: refused log 1")

    def test_limit(self) -> None:
        self.assertEqual(MOST["records"], 100_000)
        with unittest.mock.patch.dict(MOST, records=10):
            self.assertEqual(len(answer("close,,,\n" * 10)), 10)
            self.assertEqual(answer("close,,,\n" * 10 + "x"), "cca: limit records 11")
            self.assertEqual(answer("close,,,\n" * 9 + "x\n" * 2), "cca: refused log 10")

    def test_empty(self) -> None:
        self.assertEqual(answer("\n\n"), [])


if __name__ == "__main__":
    unittest.main()
