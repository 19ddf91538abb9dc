"""Cases of the texts of slots, and of their limits."""

from __future__ import annotations

from checks.cases.samples import lines
from checks.cases.vectors_of.cases import Cases, edited
from checks.cases.vectors_of.placements import PLACED, SLOTS


SLOT_FORMS = [
    ("slots 1", "slots 2", 0, "another version"),
    ("end\n", "put\n", len(SLOTS) - 4, "a last line as long as `end`"),
    ("end\n", "ends", len(SLOTS) - 4, "a letter in place of the last line feed"),
    ("end\n", "ends\n", len(SLOTS) - 4, "a last line that begins as `end`"),
    ("band 4", "band 0", 8, "a band of 0"),
    ("band 4", "band 1000", 8, "a band of 1000"),
    ("band 4", "band 4 4", 8, "a field too many"),
    ("bidder x 2", "bidder x 0", 15, "a width of 0"),
    ("bidder x 2", "bidder x", 15, "no width"),
    ("bidder x 2", "bidder x 5", 15, "wider than the band"),
    ("bidder x 2", "bidder X 2", 15, "a capital"),
    ("bidder x 2\n", "", 15, "a place before the first bidder"),
    ("place 1 10", "place 4 10", 26, "the bidder would end behind the band"),
    ("place 1 10", "place 0 10", 26, "a start of 0"),
    ("place 1 10", "place 1 4398046511105", 26, "an amount above 2^42"),
    ("place 1 10", "place 1", 26, "no amount"),
    ("place 1 10", "place 1 10 9", 26, "a field too many"),
    ("place 1 10", "place 1 9\nplace 1 10", 36, "a start twice"),
    ("place 1 10", "place 2 9\nplace 1 10", 36, "starts that don't rise"),
    ("bidder y 1", "bidder y 3", 37, "the widths come to more than the band"),
    ("bidder y 1", "bidder x 1", 37, "a name twice"),
    ("end\n", "end", 80, "no line feed at the end"),
    ("end\n", "end\n\n", 84, "a blank line behind the end"),
    ("place 1 10", "bid 1 10", 26, "another word"),
]


def slot_forms(v: Cases) -> None:
    """Each of `SLOT_FORMS`, and slots at their limits."""
    for number, (was, put, place, why) in enumerate(SLOT_FORMS, 1):
        v.case(
            f"slots-form-{number}", why, "place-check", (edited(SLOTS, was, put), PLACED), f"cca: refused slots {place}"
        )
    v.case(
        "slots-41", "a band of 41 slots", "place-check", (lines("slots 1 / band 41 / end"), b""), "cca: limit lots 41"
    )
    v.case(
        "slots-40",
        "a band of 40 slots, at both ends of it",
        "place-check",
        (lines("slots 1 / band 40 / bidder x 1 / place 1 0 / place 40 4398046511104 / end"), b""),
        "cca: refused cert 0",
    )
    for count, answer in (6, "cca: refused cert 0"), (7, "cca: limit bidders 7"):
        v.case(
            f"slots-{count}-bidders",
            f"{count} bidders",
            "place-check",
            (lines("slots 1 / band 40 / " + "".join(f"bidder b{j} 1 / " for j in range(count)) + "end"), b""),
            answer,
        )
    v.case(
        "slots-faulty-seventh",
        "a fault in the line of the seventh bidder comes before the limit",
        "place-check",
        (lines("slots 1 / band 40 / " + "".join(f"bidder b{j} 1 / " for j in range(6)) + "bidder b0 1 / end"), b""),
        "cca: refused slots 88",
    )
