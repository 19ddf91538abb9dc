"""What a stop means for the files that were given: the place in an editor, what was read there, and what is allowed.
"""

from __future__ import annotations

import re

from cca_tools.rules.printable import clipped
from cca_tools.rules.stops import LIMIT, MEMORY, READ_FAULT, REFUSED, FieldSpot, LineSpot, RecordSpot, Stop

KIND = re.compile(r"cca: refused (\w+) ?(\d*)")
NAMES = {"cert": "certificate"}
HINTS = {
    # What a text that should be a number looks like, and what is wrong with it.
    r"": "nothing is there, or there is a space too many",
    r"\s.*|.*\s": "there is a space too many",
    r"[-+]\d+": "a number has no sign",
    r"\d{1,3}([., ']\d{3})+": "a number has nothing between its thousands, and no point or comma",
    r"\d+[.,]\d+": "a whole number has no point or comma",
    r"0\d+": "a number has no leading zero",
    r".*[^0-9].*": "a number is digits alone",
    r"\d+": "it is too great",
}


def number_hint(part: str) -> str:
    """What is wrong with a text that should be a number."""
    return next((hint for form, hint in HINTS.items() if re.fullmatch(form, part, re.S)), "")


def name_hint(part: str) -> str:
    """What is wrong with a text that should be a name."""
    if not part:
        return "nothing is there"
    if part != part.strip():
        return "there is a space too many"
    if re.fullmatch(r"[A-Za-z][A-Za-z0-9_]{0,19}", part):
        return "a name has no capitals"
    return "it is longer than 20" if len(part) > 20 else ""


def fields_hint(read: str) -> str:
    """Why a record may have another number of fields than four."""
    if read.count(";") >= 3:
        return "the fields seem to be between semicolons, and commas have to be there"
    if re.search(r"\d,\d{3}", read) and read.count(",") > 3:
        return "a number seems to have a comma between its thousands"
    return "the three commas are there also where fields are empty, as in `close,,,`" if read.count(",") < 3 else ""


def kind_hint(spot: RecordSpot, number: int) -> str:
    """What somebody may have meant by a kind that is none."""
    if number == 1 and re.search(r"kind|bidder|package|amount", spot.read.lower()):
        return "this seems to be a head, and a log has none"
    return "a kind is written in small letters and without spaces" if spot.part.strip().lower() != spot.part else ""


def log_hint(spot: RecordSpot, number: int) -> str:
    """What somebody may have meant, for the faults that are made most often."""
    if '"' in spot.read and re.search(r"[\r\n]", spot.read):
        return "a quote is open here, and takes the next lines into this record"
    if spot.field == "fields":
        return fields_hint(spot.read)
    if spot.field == "kind":
        return kind_hint(spot, number)
    return number_hint(spot.part) if spot.is_number else name_hint(spot.part) if spot.field == "bidder" else ""


def tell_log(stop: Stop) -> list[str]:
    """What the fault of a log means."""
    number, spot = int(stop.line.split()[-1]), stop.spot
    if not isinstance(spot, RecordSpot):
        return [stop.why + ".", f"The log has {number - 1} records, and what is to come would be record {number}."]
    head, hint = f"Record {number}, line {spot.row} of the file: `{clipped(spot.read)}`", log_hint(spot, number)
    what = "" if spot.field == "fields" else f"The {spot.field}, `{clipped(spot.part)}`: "
    return [head, f"{what}{stop.why}{'; ' if hint else ''}{hint}."]


def tell_award(stop: Stop) -> list[str]:
    """What the fault of an award means."""
    number, spot = stop.line.split()[-2], stop.spot
    if not isinstance(spot, FieldSpot):
        return [stop.why + "."]
    where = f"Line {spot.row} of the file. " if spot.row else ""
    return [f"{where}Field {number}: {stop.why}."]


# The first lines of texts that a second run appends to a file once more, and what they are.
AGAIN = {"cert 1": "certificate", "cert 2": "certificate", "pcert 1": "certificate", "book 1": "book"}


def text_hint(spot: LineSpot) -> str:
    """What may have happened where a text begins a second time."""
    if spot.read in AGAIN and spot.row > 1:
        return (
            f"A second {AGAIN[spot.read]} begins here: each run appends one. Remove the file before the command is run"
            " again."
        )
    return ""


def tell_text(stop: Stop, kind: str, at: str) -> list[str]:
    """What the fault of a text that is read by lines means."""
    spot = stop.spot
    assert isinstance(spot, LineSpot)
    name = NAMES.get(kind, kind)
    lines = [f"Line {spot.row} of the {name}, which begins at its byte {at}: `{clipped(spot.read)}`", f"{stop.why}."]
    return lines + [hint for hint in [text_hint(spot)] if hint]


def tell_refused(stop: Stop) -> list[str]:
    """What a file that isn't of its form means."""
    found = KIND.match(stop.line)
    assert found is not None
    kind, at = found.groups()
    if kind == "log":
        return tell_log(stop)
    if kind in ("names", "key", "seals"):
        return [stop.why + "."]
    if kind == "award":
        return tell_award(stop)
    return tell_text(stop, kind, at) if isinstance(stop.spot, LineSpot) else [stop.why + "."]


# What to do next, by the status.
NEXT = {
    READ_FAULT: "See that the name is right, and that you may read the file.",
    LIMIT: "The limits are in docs/FORMATS.md.",
    MEMORY: "Run it again with more memory.",
}
BEYOND = "They are priced by `tools/price BOOK CERT [--weights WEIGHTS]`, or `tools/price AWARD LOG CERT`."


def next_step(stop: Stop) -> str:
    """What to do next about a stop, or nothing."""
    if stop.line.startswith("cca: limit winners"):
        return BEYOND
    if stop.status != REFUSED:
        return NEXT.get(stop.status, "")
    if stop.line.startswith("cca: refused log"):
        return "No line of the log counts before that: correct how this record is written." if stop.spot else ""
    return "Correct this place of the file, and run the command again."


def meaning(stop: Stop) -> list[str]:
    """What a stop means and what to do next, in sentences; nothing if it says that itself."""
    if not stop.why:
        return []
    lines = tell_refused(stop) if stop.status == REFUSED else [stop.why + "."]
    return [sentence(line) for line in [*lines, next_step(stop)] if line]


def told(stop: Stop) -> str:
    """The line of a stop, and after it what it means."""
    return "\n".join([stop.line, *meaning(stop)])


def sentence(line: str) -> str:
    """A line as a sentence: it begins with a capital, unless it begins with what was read."""
    return line[:1].upper() + line[1:]
