"""Cases of certificates whose text is refused."""

from __future__ import annotations

from checks.cases.samples import book_of, certificate_of
from checks.cases.vectors_of.cases import HEADS, WIDE, Cases, auction_of, edited
from checks.cases.vectors_of.day_cramton import CERT, both


# For the certificate of Day and Cramton: what is changed, the byte where the faulty line begins, and why.
FORMS = [
    ("cert 1", "cert 2", 0, "the other version"),
    ("cert 1", "cert 1 ", 0, "a space at the end of a line"),
    ("cert 1", " cert 1", 0, "a space at the beginning"),
    ("cert 1\n", "", 0, "the first line is missing"),
    ("cert 1\n", "\ncert 1\n", 0, "a blank line"),
    ("cert 1\n", "cert 1\r\n", 0, "a carriage return"),
    ("den 1", "den  1", 7, "two spaces"),
    ("den 1", "den 01", 7, "a leading zero"),
    ("den 1", "den +1", 7, "a plus sign"),
    ("den 1", "den -0", 7, "minus zero"),
    ("den 1", "den", 7, "no number"),
    ("den 1", "den 1 1", 7, "a number too many"),
    ("den 1", f"den {WIDE}", 7, "2^120"),
    ("den 1", f"den -{WIDE}", 7, "-2^120"),
    ("den 1", "den " + "9" * 500, 7, "a number of 500 digits"),
    ("den 1", "den 1.0", 7, "a point"),
    ("den 1", "dem 1", 7, "another word"),
    ("den 1", "den\t1", 7, "a tab"),
    ("den 1", "den --1", 7, "two minus signs"),
    ("value 48", "value 4 8", 13, "a number too many"),
    ("value 48", f"value {WIDE}", 13, "2^120"),
    ("choice 1 1 0 0 0", "choice 1 1 0 0", 22, "a number too few"),
    ("choice 1 1 0 0 0", "choice 1 1 0 0 0 0", 22, "a number too many"),
    ("choice 1 1 0 0 0", "choice 1 1 0 0 -1", 22, "a number below 0"),
    ("choice 1 1 0 0 0", "choice 1 1 0 0 65536", 22, "a number above 65,535"),
    ("choice 1 1 0 0 0", "choice 1 1 0 0 0 ", 22, "a space at the end"),
    ("table\n", "table \n", 39, "a space behind a word that stands alone"),
    ("table\n", "", 39, "the word is missing"),
    ("table\nt 0 20 28 48", "lowered\nt 0 20 28 48", 39, "the word of the last table"),
    ("t 0 20 28 48", "t 0 20 28", 45, "an entry too few"),
    ("t 0 20 28 48", "t 0 20 28 48 48", 45, "an entry too many"),
    ("t 0 20 28 48", "x 0 20 28 48", 45, "another word"),
    ("t 0 20 28 48", f"t 0 20 28 {WIDE}", 45, "an entry of 2^120"),
    ("t 0 20 28 48", "t 0 20 28 4e1", 45, "a letter"),
    ("t 0 20 28 48", "t 0 20 28 \u0664", 45, "a digit of another script"),
    ("without 1", "without 2", 119, "another winner"),
    ("without 1", "without", 119, "no number"),
    ("choice 1 1 0 0 0", "choice 0 1 0 0 0", 119, "the parts follow the head's choice"),
    ("pay 17 15 0 0 0", "pay 17 15 0 0", 333, "a number too few"),
    ("pay 17 15 0 0 0", "pays 17 15 0 0 0", 333, "another word"),
    ("rows 1", "rows 11", 349, "more than ten rows"),
    ("rows 1", "rows 01", 349, "a leading zero"),
    ("rows 1", "rows -1", 349, "a sign"),
    ("rows 1", "rows 2", 390, "a row is missing"),
    ("rows 1", "rows 0", 356, "a row too many"),
    ("row 1 2", "row 2 1", 356, "members that don't rise"),
    ("row 1 2", "row 1 1", 356, "a member twice"),
    ("row 1 2", "row 0 1", 356, "there is no bidder 0"),
    ("row 1 2", "row 1 6", 356, "there is no bidder 6"),
    ("row 1 2", "row", 356, "no member"),
    ("row 1 2", "row 1 2 3 4 5 5", 356, "more members than bidders"),
    ("mult 1 3", "mult 1", 364, "a number too few"),
    ("mult 1 3", "mult 1 3 3", 364, "a number too many"),
    ("mult 1 3", f"mult 1 {WIDE}", 364, "2^120"),
    ("mult 1 3", "mult 1 -0", 364, "minus zero"),
    ("lowered", "table", 390, "the word of another table"),
    ("end\n", "end", 472, "no line feed at the end"),
    ("end\n", "", 472, "the last line is missing"),
    ("end\n", "ends", 472, "a letter in place of the last line feed"),
    ("end\n", "end \n", 472, "a space behind the last word"),
    ("end\n", "end\n\n", 476, "a blank line behind the end"),
    ("end\n", "end\ncert 1\n", 476, "another text behind the end"),
    ("end\n", "end\nx", 476, "a byte behind the end"),
    ("end\n", "END\n", 472, "capitals"),
]


def certificate_forms(v: Cases) -> None:
    """Each of `FORMS`, and texts that are cut, repeated or no text."""
    for number, (was, put, place, why) in enumerate((row for row in FORMS if row[3]), 1):
        both(v, f"cert-form-{number}", why, edited(CERT, was, put), f"cca: refused cert {place}")
    for count in (0, 1, 6, 100, 475):
        begin = CERT[:count].rfind(b"\n") + 1
        both(v, f"cert-cut-{count}", f"the text ends after {count} bytes", CERT[:count], f"cca: refused cert {begin}")
    both(v, "cert-twice", "a second certificate in the same file", CERT + CERT, "cca: refused cert 476")
    both(v, "cert-no-text", "bytes that are no text", b"\xff\x00\n", "cca: refused cert 0")
    both(v, "cert-mark", "a byte order mark", b"\xef\xbb\xbf" + CERT, "cca: refused cert 0")


def certificate_versions(v: Cases) -> None:
    """The two versions of a certificate, at the sizes between them."""
    for name, supply, bidders, head in (
        ("12-bidders", (1,), 12, 1),
        ("13-bidders", (1,), 13, 2),
        ("16-bidders", (1,), 16, 2),
        ("4096-states", (7, 7, 7, 7), 0, 1),
        ("4608-states", (7, 7, 7, 8), 0, 2),
    ):
        book, nobody = book_of(supply, [[]] * bidders), (0,) * bidders
        for form in (1, 2):
            cert = certificate_of(supply, [[]] * bidders, nobody, {}, 1, nobody, [], head=HEADS[form])
            why = f"version {form}, {'as it has to be' if form == head else 'and it has to be the other one'}"
            answer = "yes" if form == head else "cca: refused cert 0"
            v.case(f"version-{form}-{name}", why, "check", (book, cert), answer)
            v.case(f"version-{form}-{name}-audited", why, "audit", (*auction_of(supply, [[]] * bidders), cert), answer)
    second = certificate_of((1,), [[]] * 13, (0,) * 13, {}, 1, (0,) * 13, [], head=HEADS[2])
    for number, (was, put) in enumerate(
        [("limits 16 16384", "limits 12 4096"), ("limits 16 16384\n", ""), ("limits 16 16384", "limits 16")], 1
    ):
        v.case(
            f"version-limits-{number}",
            "the second line of version 2 is another one",
            "check",
            (book_of((1,), [[]] * 13), edited(second, was, put)),
            "cca: refused cert 7",
        )
