"""Lists of a bidder as CSV, as a file of a spreadsheet or pasted: what is read, what is refused by name, and what the
desk does with the rows that have faults."""

from __future__ import annotations

import codecs
import io
import os
import re
import tempfile
import unittest
import unittest.mock

from desk_client import DeskTest, File, Reader, Sent
from checks.cases.samples import sample

from cca_tools.desk.lines import NotLines
from cca_tools.desk.sheets import MOST_FILE, MOST_ROW, sheet_of, text_of
from cca_tools.rules.award import read_award
from cca_tools.rules.names import NO_NAMES, names_of

SEALED = b"".join(sample("spectrum.log").splitlines(True)[:30])  # the log up to the end of the clock
AWARD = b"""version = 1
tick = 1
[[category]]
name = "lot"
supply = 3
points = 1
reserve = 1
[[category]]
name = "tail"
supply = 5
points = 1
reserve = 1
[[bidder]]
name = "b1"
eligibility = 3
[[step]]
excess = 1
permille = 1000
"""
BIDS = {(1, 0): 10, (2, 3): 2100}
OPEN = os.open
ROWS = "2 0 0 0;490,000\n2 0 2 0;510,000\n"
DRAFTS = "draft,tarn,2 0 0 0,490000\ndraft,tarn,2 0 2 0,510000\n"


def rows_file(name: str = "list.csv") -> File:
    """The rows as a file that is chosen."""
    return io.BytesIO(ROWS.encode()), name


class Sheets(unittest.TestCase):
    """What is read of a list."""

    def setUp(self) -> None:
        self.award = read_award(AWARD)

    def test_forms_of_a_list(self) -> None:
        names = names_of(b'[category.tail]\nname = "The tail"\n', self.award)
        for text in (
            "1 0,10\n2 3,2100\n",
            "1 0;10\r\n2 3;2,100\r\n",
            "1 0;10\r2 3;2100",
            "1\t0\t10\n2\t3\t2 100\n",
            "1 0;10\n2 3;2\u202f100\n",
            "package;amount\n1 0;10\n2 3;2'100\n",
            'lot,tail,amount\n1,0,10\n\n2,3,"2,100"\n',
            "The tail;LOT;Amount\n0;1;10\n3;2;2100\n;;\n",
            "\ufeffsep=;\r\nlot;tail;amount\r\n1;0;10\r\n2;3;2100\r\n",
            '"sep=|"\n1 0|10\n2 3|2,100\n',
            '"lot","tail","amount; gross"\n"1","0","10"\n"2","3","2,100"\n',
        ):
            with self.subTest(text):
                sheet = sheet_of(text, self.award, names)
                self.assertEqual((sheet.bids, sheet.faults), (BIDS, []))

    def test_a_list_that_is_none(self) -> None:
        for text, part in (
            ("", "no row"),
            (";;\n\n", "no row"),
            ("lot,head,amount\n1,0,10", "`head`"),
            ("lot,lot,amount\n1,0,10", "each category once"),
            ("The list of b1\n1,0,10", "each category once"),
        ):
            with self.subTest(text), self.assertRaisesRegex(NotLines, re.escape(part)):
                sheet_of(text, self.award, NO_NAMES)

    def test_each_fault_is_at_its_line(self) -> None:
        for row, part in (
            ("1 0,11", "is in line 2 already"),
            ("0 1,1.5", "`1.5` is typed"),
            ("0 1,-5", "`-5` is typed"),
            ("0 1,", "1 column"),
            ("0 1 0,15", "has 3 counts, and the award has 2 categories"),
            ("0 1,2,15", "has 3 counts"),
            ("1,2,3,4", "4 columns"),
            ("70000 1,5", "too great"),
            (f"0 1,{10**18 + 1}", "too great"),
            ('"0 1,5', "a quote isn't closed in this line"),
            ('"0 1"x,5', "more follows after a closing one"),
            ("x" * (MOST_ROW + 1), "at most 1,000 characters, and this one has 1,001"),
            (f"0 1,{'9' * 900}", "too great"),
        ):
            with self.subTest(row):
                sheet = sheet_of(f"package,amount\n1 0,10\n{row}\n2 3,2100\n", self.award, NO_NAMES)
                self.assertEqual((sheet.bids, [it.row for it in sheet.faults]), (BIDS, [3]))
                self.assertIn(part, sheet.faults[0].words())

    def test_what_is_left_of_a_list(self) -> None:
        sheet = sheet_of("sep=;\ntail;lot;amount\n\n0;1;10\nx;2;5\n3;2;2100\n", self.award, NO_NAMES)
        self.assertEqual(sheet.rest("b1", ["draft,b1,1 0,10"]), "sep=;\ntail;lot;amount\nx;2;5\n3;2;2100\n")
        whole = sheet_of("1 0;10", self.award, NO_NAMES)
        self.assertEqual(whole.rest("b1", ["draft,b1,1 0,10"]), "")


class Files(unittest.TestCase):
    """What is read of a file."""

    def test_texts(self) -> None:
        text = "The tail;amount\r\n1 0;2\u00a0100\r\n"
        for data in (
            text.encode(),
            codecs.BOM_UTF8 + text.encode(),
            text.encode("cp1252"),
            codecs.BOM_UTF16_LE + text.encode("utf-16-le"),
            codecs.BOM_UTF16_BE + text.encode("utf-16-be"),
        ):
            with self.subTest(data[:4]):
                self.assertEqual(text_of(data), text)

    def test_what_is_no_text(self) -> None:
        for data, part in (
            (b"", "The file is empty."),
            (b"PK\x03\x04" + b"x" * MOST_FILE, "is a workbook (.xlsx or .ods), not CSV. Save the list as CSV"),
            (b"\xd0\xcf\x11\xe0\xa1", "is a workbook (.xls), not CSV."),
            (b"%PDF-1.7", "is a PDF, not CSV."),
            (b"1 0;5\n" + b"x" * MOST_FILE, f"has {MOST_FILE + 6:,} bytes, and a list has at most {MOST_FILE:,}."),
            (b"1 0;\x005\n", "isn't plain text: its character 5 is U+0000."),
            ("1 0;5".encode("utf-16-le"), "isn't plain text: its character 2 is U+0000."),
            (b"1 0;\x81\n", "isn't text in UTF-8, UTF-16 or Windows-1252."),
            (codecs.BOM_UTF16_LE + b"1", "isn't text in UTF-8, UTF-16 or Windows-1252."),
        ):
            with self.subTest(data[:4]), self.assertRaisesRegex(NotLines, re.escape(part)) as caught:
                text_of(data)
            self.assertEqual(caught.exception.field, "file")


class Handing(DeskTest):
    """A list that is handed in at the desk."""

    def hand_in(self, file: bytes | None = None, name: str = "list.csv", **fields: str) -> None:
        """Sends the form of a list, with a file if its bytes are given, and loads the page that it leads to."""
        sent: dict[str, Sent] = {"bidder": "tarn", "list": "", **fields}
        if file is not None:
            sent["file"] = io.BytesIO(file), name
        answer = self.client.post("list", **sent)
        self.assertEqual(answer.status_code, 303, answer.text)
        self.client.load(answer.location)

    def kept(self) -> str:
        """The list in the form that the page of what was written leads to."""
        self.client.follow("Go on with the lines that the form keeps")
        return self.client.form("list")["list"].strip()

    def test_a_pasted_list(self) -> None:
        client = self.open(SEALED)
        client.write("draft,tarn,1 0 0 0,1000000")
        client.load("list")
        client.send("list", bidder="tarn", list=ROWS, whole="on", submit="on")
        self.assertRegex(client.place, "^/preview/")
        text = client.form("write")["text"]
        self.assertEqual(text, f"drop,tarn,1 0 0 0,\n{DRAFTS}submit,tarn,,\n")
        self.assertIn(
            "Read this back to tarn before you write it: 2 packages, together 1,000,000; the highest amount is"
            " 510,000 for",
            client.text(),
        )
        client.send("write")
        self.assertTrue(self.log().endswith(text.encode()))
        self.assertIn("Read back to tarn", client.text())
        client.load("bidder/tarn/readback")
        self.assertIn("The list: 2 submitted, together 1,000,000.", client.text())
        self.assertIn("The bidder confirms that this is what it sent.", client.text())

    def test_a_file(self) -> None:
        client = self.open(SEALED)
        for name in ("list.csv", "..%2f..%2fday.log", "<script>.csv", 'a"b;c.csv', "x" * 300):
            with self.subTest(name):
                self.hand_in(codecs.BOM_UTF8 + ROWS.replace("\n", "\r\n").encode(), name, list="1 2 3", submit="on")
                self.assertEqual(client.heading(), "All 3 would be admitted")
                self.assertEqual(client.form("write")["text"], f"{DRAFTS}submit,tarn,,\n")
                self.assertNotIn("script", client.page)
        client.send("write")
        self.assertTrue(self.log().endswith(f"{DRAFTS}submit,tarn,,\n".encode()))
        self.assertEqual(
            sorted(it.name for it in self.folder.iterdir() if "list" in it.name or "script" in it.name), []
        )

    def test_no_file_is_written(self) -> None:
        """Not even for a body that is large enough for the library to make one. (The test client would make one, so the
        body is made here.)"""
        client = self.open(SEALED)
        fields = {"token": self.guard.token, "bidder": "tarn", 'file"; filename="list.csv': "\n" * 700_000}
        parts = "".join(
            f'--x\r\nContent-Disposition: form-data; name="{name}"\r\n\r\n{text}\r\n' for name, text in fields.items()
        )
        opened: list[str] = []

        def opening(path: str, flags: int, mode: int = 0o777, *, dir_fd: int | None = None) -> int:
            """Opens a file as the system does, and notes its path."""
            opened.append(path)
            return OPEN(path, flags, mode, dir_fd=dir_fd)

        with unittest.mock.patch("os.open", opening):
            kind = "multipart/form-data; boundary=x"
            answer = client.ask("POST", f"{self.guard.inside}/list", f"{parts}--x--\r\n".encode(), Content_Type=kind)
            self.assertEqual(opened.count(tempfile.gettempdir()), 0)
            tempfile.TemporaryFile().close()
            self.assertEqual(opened.count(tempfile.gettempdir()), 1)
        client.load(answer.location)
        self.assertIn("The file has 700,000 bytes, and a list has at most 262,144.", client.text())

    def test_files_that_are_refused(self) -> None:
        client = self.open(SEALED)
        cases: list[tuple[bytes | None, str]] = [
            (b"PK\x03\x04\x14", "Nothing was written. The file is a workbook (.xlsx or .ods), not CSV."),
            (b"x" * (MOST_FILE + 1), "Nothing was written. The file has 262,145 bytes"),
            (b"x" * (1 << 20), "Nothing was read: the file is larger than 262,144 bytes"),
            (None, "Choose the bidder's file, or paste its rows."),
        ]
        for file, part in cases:
            with self.subTest(part):
                self.hand_in(file)
                self.assertIn(part, client.text())
                (wrong,) = [attrs for _, attrs in Reader(client.page).tags if "aria-invalid" in attrs]
                self.assertEqual(wrong["id"], "file")
        answer = client.post_on("list", bidder="tarn", file=[rows_file("a.csv"), rows_file("b.csv")])
        self.assertIn("Choose one file.", answer.text)
        self.assertEqual(self.log(), SEALED)

    def test_faults_by_the_lines_of_the_file(self) -> None:
        client = self.open(SEALED)
        file = "package;amount\n2 0 2 0;510,000\n1;2;3\n2 0 0 0;4.5\n"
        self.hand_in(file.encode(), whole="on", submit="on")
        self.assertIn("2 faults", client.text())
        for row in (3, 4):
            self.assertIn(f"Nothing was written. Line {row}, `", client.text())
        self.assertEqual(client.form("list")["list"].strip(), file.strip())
        self.assertIn("Go on with the 1 without a fault, as drafts; keep the others", client.text())
        self.hand_in(list=file, whole="on", submit="on", good="1")
        self.assertIn("2 more lines with faults of form stay in the form for later.", client.text())
        self.assertEqual(client.form("write")["text"], "draft,tarn,2 0 2 0,510000\n")
        client.send("write")
        self.assertEqual(self.kept(), "package;amount\n1;2;3\n2 0 0 0;4.5")
        self.assertIn("No draft was dropped", client.text())

    def test_rows_that_would_be_refused(self) -> None:
        client = self.open(SEALED)
        file = "package;amount\n2 0 2 0;510,000\n1 0 0 0;1\n"
        self.hand_in(file.encode(), submit="on")
        self.assertEqual(client.heading(), "1 of 3 would be refused")
        place = client.place
        client.follow("Correct the list")
        self.assertRegex(client.text(), r"Line 3, `1 0 0 0;1`, would be refused: \w+")
        self.assertEqual(client.form("list")["list"].strip(), file.strip())
        client.load(place.lstrip("/"))
        forms = client.forms("write")
        self.assertEqual(forms[1]["text"], "draft,tarn,2 0 2 0,510000\n")
        client.post_on("write", **forms[1])
        self.assertTrue(self.log().endswith(b"\ndraft,tarn,2 0 2 0,510000\n"))
        self.assertEqual(self.kept(), "package;amount\n1 0 0 0;1")

    def test_a_log_that_has_grown_keeps_the_list(self) -> None:
        client = self.open(SEALED)
        self.hand_in(b"2 0 2 0;510,000\n1 0 0 0;1\n")
        fields = client.form("write")
        with self.log_path.open("ab") as file:
            file.write(b"draft,niche,0 0 1 0,20000\n")
        client.post_on("write", **fields)
        self.assertIn("Correct the list", client.text())
        self.assertNotIn(b"tarn,2 0 2 0,510000", self.log())

    def test_one_route_takes_files(self) -> None:
        client = self.open(SEALED)
        for place in ("preview", "write", "close", "again", "lists", "list/x"):
            answer = client.post(place, bidder="tarn", list=ROWS, raw="bid,tarn,1 0 0 0,", file=rows_file())
            self.assertEqual(answer.status_code, 415, place)
        hows: list[dict[str, str | None]] = [
            {"Cookie": None},
            {"Origin": "http://evil.example"},
            {"Sec_Fetch_Site": "cross-site"},
        ]
        for how in hows:
            fields: dict[str, Sent] = {"token": self.guard.token, "bidder": "tarn", "file": rows_file()}
            self.assertEqual(client.ask("POST", f"{self.guard.inside}/list", fields, **how).status_code, 403)
        self.assertEqual(client.ask("POST", f"{self.guard.inside}/list", {"file": rows_file()}).status_code, 403)
        self.assertEqual(self.log(), SEALED)


if __name__ == "__main__":
    unittest.main()
