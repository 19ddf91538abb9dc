"""Cases of logs: their records and their texts."""

from __future__ import annotations

from checks.cases.samples import lines
from checks.cases.vectors_of.cases import Cases, audits
from checks.cases.vectors_of.sales import ROW, SALE, SALE_CERT


LOGS = [
    "bid,west,2",
    "bid,west,2,,",
    "x",
    "bids,west,2,",
    "BID,west,2,",
    "bid,West,2,",
    "bid,,2,",
    "bid,2west,2,",
    "bid,west,,",
    "bid,west,2 0,",
    "bid,west, 2,",
    "bid,west,2 ,",
    "bid,west,02,",
    "bid,west,-2,",
    "bid,west,2.5,",
    "bid,west,65536,",
    "bid,west,2,0",
    "draft,west,2,",
    "draft,west,2,-1",
    "draft,west,2,01",
    "draft,west,2,1.5",
    "draft,west,2,1000000000000000001",
    "draft,west,,5",
    "drop,west,2,5",
    "submit,west,2,",
    "submit,west,,0",
    "submit,,,",
    "close,west,,",
    "close,,2,",
    "close,,,0",
    " bid,west,2,",
    "bid,west,2, ",
    "bid;west;2;",
    "bid,a23456789012345678901,2,",
    'draft,west,2,"420,000"',
    "kind,bidder,package,amount",
]


def log_forms(v: Cases) -> None:
    """Each of `LOGS`, and records without a fault of form."""
    for number, text in enumerate(LOGS, 1):
        audits(
            v,
            f"log-form-{number}",
            f"record 2 states no line: {text}",
            SALE,
            b"close,,,\n\n" + text.encode() + b"\nx\n",
            b"",
            "cca: refused log 2",
        )
    audits(v, "log-bytes", "bytes that are no text", SALE, b"close,,,\nbid,w\xe9st,2,\n", b"", "cca: refused log 2")
    audits(
        v,
        "log-stranger",
        "a name that the award doesn't have is no fault of form",
        SALE,
        "bid,north,2,",
        b"",
        "cca: refused log 2",
    )
    audits(
        v,
        "log-greatest-numbers",
        "the greatest count and the greatest amount are no fault of form",
        SALE,
        "bid,east,65535, / draft,east,65535,1000000000000000000",
        b"",
        "cca: refused log 3",
    )


def log_ends(v: Cases) -> None:
    """Logs that aren't complete, and the order of reading files."""
    audits(v, "log-empty", "an empty log isn't complete", SALE, b"", b"", "cca: refused log 1")
    audits(v, "log-of-blank-lines", "blank lines are no records", SALE, b"\n\r\n\r\r\n", b"", "cca: refused log 1")
    audits(
        v,
        "log-clock-alone",
        "the clock has ended, and the sealed round hasn't",
        SALE,
        "close,,,",
        b"",
        "cca: refused log 2",
    )
    audits(
        v, "log-before-the-certificate", "the log is read before the certificate", SALE, "x", b"x", "cca: refused log 1"
    )
    audits(
        v, "award-before-the-log", "the award is read before the log", b"version =", "x", b"x", "cca: refused award 0 0"
    )


def log_limits(v: Cases) -> None:
    """The greatest numbers of records and bytes, and one more."""
    v.case(
        "log-100001-records",
        "more records than the limit",
        "audit",
        [SALE, "log-100001-records", b""],
        "cca: limit records 100001",
        made=[("log-100001-records", 100_001, "close,,,\n")],
    )
    v.case(
        "log-100000-records",
        "as many records as the limit",
        "audit",
        [SALE, "log-100000-records", b""],
        "cca: refused cert 0",
        made=[("log-100000-records", 100_000, "close,,,\n")],
    )
    v.case(
        "log-8388609-bytes",
        "a log with more bytes than the limit",
        "audit",
        [SALE, "log-8388609-bytes", b""],
        "cca: limit bytes 8388609",
        made=[("log-8388609-bytes", 8_388_609, "\n")],
    )


def csv_texts(v: Cases) -> None:
    """Spellings of one log, which have the same book."""
    text = lines(ROW)
    rows = [
        ("crlf", "line ends CR LF", text.replace(b"\n", b"\r\n")),
        ("cr", "line ends CR", text.replace(b"\n", b"\r")),
        ("no-last-feed", "no line end at the last record", text[:-1]),
        ("blank-lines", "blank lines", b"\n\n" + text.replace(b"\n", b"\n\r\n")),
        ("mark", "a byte order mark", b"\xef\xbb\xbf" + text),
        ("quotes", "fields in quotes", text.replace(b"bid,east,3,", b'"bid","east","3",""')),
        ("quote-inside", "a quote that closes within a field", text.replace(b"bid,east", b'"bi"d,east')),
        (
            "open-quote",
            "an open quote takes the rest of the file, which isn't empty here",
            text.replace(b"close,,,\nbid,east,1", b'close,,"\nbid,east,1'),
        ),
    ]
    for name, why, other in rows:
        answer = "cca: refused log 3" if name == "open-quote" else "yes"
        audits(v, f"csv-{name}", why, SALE, other, SALE_CERT, answer)
    audits(
        v,
        "csv-two-marks",
        "a second byte order mark is a part of the first field",
        SALE,
        b"\xef\xbb\xbf\xef\xbb\xbf" + text,
        SALE_CERT,
        "cca: refused log 1",
    )
    audits(
        v,
        "csv-quoted-feed",
        "a line feed within quotes",
        SALE,
        text.replace(b"bid,east", b'"bid\n",east'),
        SALE_CERT,
        "cca: refused log 1",
    )
