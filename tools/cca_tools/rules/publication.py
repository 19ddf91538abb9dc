"""The set of files that is published about an auction: its files, their checksums, and a page that says what each one
is.

The files have the same names for each auction, so that the text about them is true for all.
"""

from __future__ import annotations

import dataclasses
import hashlib
import html
import os
import pathlib
import secrets
import shutil
from collections.abc import Mapping, Sequence

from cca_tools.rules.names import written
from cca_tools.rules.printable import printable
from cca_tools.rules.stops import WRITE_FAULT, Stop

SUMS, PAGE = "SHA256SUMS", "index.html"
SCRIPT = pathlib.Path(__file__).parents[1] / "page" / "templates" / "witness.js"  # tests noted lines in the page
AWARD, LOG, CERT = "auction.award", "auction.log", "auction.cert"
NAMES, KEY, POSTED, JOURNAL, KEPT = (
    "names.toml",
    "auction.key",
    "auction.posted",
    "auction.journal",
    "kept",
)
PLACED = "placed"
AUDIT = "audit.html"
# where the page that audits an auction in a browser is: in a release, and in a checkout that has built it
TOP = pathlib.Path(__file__).resolve().parents[3]
AUDIT_PLACES = TOP / AUDIT, TOP / "second_proof" / "built" / AUDIT
ABOUT = {
    AWARD: "the award: what was sold, to whom, and by which rules",
    LOG: "the log: each line of each bidder and of the auctioneer, in the order in which they came in",
    CERT: "the certificate: what shows that the winners and the prices are right",
    AUDIT: "a page that tests the auction in any browser, without a network",
    NAMES: "the names for people, which no rule reads",
    KEY: "the key of the seals, which was secret until the end",
    POSTED: "the lines as they were posted on the day: checksums of key and award, and a sealed line for each event",
    JOURNAL: "the journal of the day: what came in when, what was replied, what was cut and why, as one chain of lines",
    "report.html": "the report, for a browser without a network",
    "report.txt": "the report as plain text",
    "tables/winners.csv": "a table: who won what and pays what",
    "tables/rounds.csv": "a table: prices and demand by round",
    "tables/prices.csv": "a table: reserves and final clock prices by category",
    "tables/bids.csv": "a table: all bids of the book",
}
STYLE = (
    "body{font:16px/1.5 system-ui,sans-serif;max-width:60rem;margin:2rem auto;padding:0 1rem;color:#111;"
    "background:#fff}table{border-collapse:collapse}"
    "td,th{text-align:left;vertical-align:top;padding:.3rem .8rem .3rem 0;"
    "border-bottom:1px solid #ccc}code,pre{font:13px/1.5 ui-monospace,monospace;overflow-wrap:anywhere}"
    "pre{white-space:pre-wrap}.bad{color:#b00020;font-weight:bold}.told{font:13px/1.6 ui-monospace,monospace;padding:0;"
    "list-style:none;overflow-wrap:anywhere}.void,.void b{color:#b00020}"
    "code,pre{overflow-wrap:anywhere}code span{white-space:nowrap}.winners td,.winners th{padding-right:1.5rem}"
    "td.number,th.number{text-align:right;font-variant-numeric:tabular-nums}a.first{font-weight:bold;font-size:1.2rem}"
    "dd{margin:0 0 .6rem}summary{cursor:pointer}h1{font-size:1.6rem;line-height:1.25}h2{font-size:1.25rem}"
    "@media(max-width:34rem){.winners,.winners tbody{display:block}"
    "thead{position:absolute;width:1px;height:1px;overflow:hidden;clip-path:inset(50%)}"
    ".winners tr{display:grid;grid-template-columns:1fr auto;border-bottom:1px solid #ccc;padding:.3rem 0}"
    ".winners td,.winners th{border:0;padding:0}.winners td{grid-column:1}"
    ".winners td.number{grid-area:2/2}.winners td:last-child{grid-area:1/2}"
    ".winners td.number:not(:last-child)::after{content:' MHz'}"
    ".wide tr{display:block;border-bottom:1px solid #ccc;padding:.3rem 0}"
    ".wide th,.wide td{display:block;border:0;padding:0}}"
    "textarea{width:100%;font:13px/1.5 ui-monospace,monospace;box-sizing:border-box}"
    "button,textarea{color:inherit;background:transparent;border:1px solid #888;padding:.4rem .7rem}"
    ":focus-visible{outline:2px solid;outline-offset:2px}input{min-height:1.75rem}"
    "@media(prefers-color-scheme:dark){body{color:#eee;background:#111}a{color:#9cf}"
    "td,th,.winners tr,.wide tr{border-color:#444}.bad,.void,.void b{color:#ff8a9a}}"
    "@media print{body{margin:0;color:#000;background:#fff}h2,dt{break-after:avoid}tr,dd{break-inside:avoid}"
    "details:not([open]),h2:has(+details:not([open])){display:none}}"
)


@dataclasses.dataclass(frozen=True)
class Made:
    """What a set was made with. Each row has a name, what it is (such as the program's checksum), and whether that is
    as it should be. `told` has what was posted."""

    rows: Sequence[tuple[str, str, bool]]
    told: Told | None = None


@dataclasses.dataclass(frozen=True)
class Result:
    """The result for people: when and by whom the auction was run, the unit of amounts, the result in a sentence, and a
    table of winners."""

    occasion: str
    amounts: str
    sentence: str
    heads: Sequence[str]
    rows: Sequence[Sequence[str]]


@dataclasses.dataclass(frozen=True)
class Told:
    """The posted lines, each with a text why it is void (empty if it isn't), and whether there is a journal."""

    lines: Sequence[tuple[str, str]]
    has_journal: bool


def about(name: str) -> str:
    """What a file of the set is."""
    if name.startswith(f"{KEPT}/"):
        return "what was taken away from the log on the day, as the journal says"
    if name.startswith(f"{PLACED}/"):
        kind = "winners and bids for places" if name.endswith(".slots") else "the certificate of the places"
        return f"{kind} in the band of {pathlib.PurePath(name).stem}"
    return ABOUT[name] if name in ABOUT else f"what {pathlib.PurePath(name).stem} sees of the auction"


def sum_of(data: bytes) -> str:
    """The SHA-256 checksum of bytes."""
    return hashlib.sha256(data).hexdigest()


def sums_text(files: Mapping[str, bytes]) -> bytes:
    """The checksums of files, in the form that `sha256sum -c` reads."""
    return "".join(f"{sum_of(data)}  {name}\n" for name, data in sorted(files.items())).encode()


def audit_page() -> dict[str, bytes]:
    """The page that audits an auction in a browser, by its name in a set. Empty without a release and a build."""
    found = next((path for path in AUDIT_PLACES if path.is_file()), None)
    return {AUDIT: found.read_bytes()} if found else {}


def by_browser(files: Mapping[str, bytes]) -> list[str]:
    """How a reader tests the auction in a browser, as a row of the tests. Empty if the set has no page for that."""
    if AUDIT not in files:
        return []
    return [
        f'<dt>The whole auction, in any browser<dd>Open <a href="{AUDIT}">{AUDIT}</a> and drop <code>{AWARD}</code>, '
        f"<code>{LOG}</code>, <code>{CERT}</code> and <code>{SUMS}</code> on it. If you don't trust who made this "
        f"folder, take {AUDIT} from the release; its checksum is in <code>BUILDINFO</code> there."
    ]


def commands(files: Mapping[str, bytes]) -> list[tuple[str, str]]:
    """What a reader can test, with the command that does so."""
    audit = f"{AWARD} {LOG} {CERT}"
    found = [
        ("That no file was changed", f"sha256sum -c {SUMS}"),
        ("The whole auction, with the program of a release", f"cca audit {audit}"),
        ("The whole auction, with the second program", f"tools/audit {audit}"),
        ("Why each winner pays what it pays", f"tools/why {audit}"),
        (
            "A bidder, that its lines are in the log",
            f"tools/caps {AWARD} {LOG} NAME --view | diff - own.view",
        ),
    ]
    for name in sorted(files):
        if name.startswith(f"{PLACED}/") and name.endswith(".slots"):
            stem = name.removesuffix(".slots")
            what = f"The places in the band of {pathlib.PurePath(stem).name}"
            found.append((what, f"tools/check-places {name} {stem}.cert"))
    if POSTED not in files:
        return found
    if JOURNAL in files:
        found.append(
            (
                "That journal, log, key and posted lines agree with each other",
                f"tools/journal {JOURNAL} --check {AWARD} {LOG} {KEY} {POSTED}",
            )
        )
        how = f"--journal {JOURNAL}"
    else:
        kept = [f"--cut {name}" for name in sorted(files) if name.startswith(f"{KEPT}/")]
        how = " ".join([f"--posted {POSTED}", *kept])
    what = "A witness, whether the lines that were noted on the day are those of these files"
    return [*found, (what, f"tools/seal check {how} {KEY} {AWARD} {LOG} NOTED")]


def command_text(command: str) -> str:
    """A command as markup that doesn't let a line break after an option's hyphens."""
    words = html.escape(command).split(" ")
    return " ".join(f"<span>{word}</span>" if word.startswith("--") else word for word in words)


def told_text(told: Told) -> str:
    """The posted lines, and what a witness does with those that were noted, as a part of the page."""
    esc = html.escape
    rows = [
        f"<li class=void><s>{esc(text)}</s><br><b>{esc(void)}</b>" if void else f"<li>{esc(text)}"
        for text, void in told.lines
    ]
    return f"""<h2>What was posted on the day</h2>
<p>These lines were on the room's screen and on each bidder's page. The auctioneer, who has the key, can make another
set of files whose parts agree with each other. Only a line that somebody else noted on the day shows that it is another
one: one line that agrees binds the award, the log{", the journal" if told.has_journal else ""} and all posted lines
before it.
<p>If you noted or photographed lines, write them into a file NOTED: in any order, with all 64 digits of each seal. Then
run the last command above, with the tools of a release from a source that you trust. It says of each line whether it
agrees, is void and since when, or is not of these files.
<details><summary>{len(rows)} posted lines</summary>
<ol class=told>
{chr(10).join(rows)}
</ol>
</details>
<h2>Test your notes in this page</h2>
<p>The page makes the same test in your browser, and sends nothing. But the auctioneer made this page too, so in a
dispute use the command.
<p><label for=files>1. Choose all files of this folder whose names begin with <code>auction</code></label><br>
<input type=file id=files multiple>
<p><label for=noted>2. Type or paste the lines that you noted</label><br>
<textarea id=noted rows=6 spellcheck=false autocomplete=off></textarea>
<p><button type=button id=test>3. Test them</button>
<pre id=found role=status></pre>
<script>
{SCRIPT.read_text(encoding="utf-8")}</script>
"""


def result_text(result: Result, files: Mapping[str, bytes]) -> str:
    """Who won what and pays what, and where to read more, as the first part of the page."""
    esc = html.escape
    numbers = [" class=number" if head.startswith(("MHz", "Pays")) else "" for head in result.heads]
    heads = "".join(f"<th scope=col{of}>{written(head)}" for head, of in zip(result.heads, numbers))
    rows = [
        "<tr>"
        + "".join(
            f"<td{of}>{written(text)}" if at else f"<th scope=row>{written(text)}"
            for at, (text, of) in enumerate(zip(row, numbers))
        )
        for row in result.rows
    ]
    table = f"<table class=winners>\n<thead><tr>{heads}</thead>\n<tbody>\n{chr(10).join(rows)}\n</table>\n"
    sheets = [
        f'<a href="{esc(name)}">{esc(pathlib.PurePath(name).stem)}</a>' for name in files if name.endswith(".csv")
    ]
    bidders = [
        f'<a href="{esc(name)}">{esc(pathlib.PurePath(name).stem)}</a>'
        for name in files
        if name.startswith("bidders/") and name.endswith(".html")
    ]
    more = [f"<p>Tables for a spreadsheet (CSV): {', '.join(sheets)}.\n"] if sheets else []
    more += [f"<p>What each bidder sees: {', '.join(bidders)}.\n"] if bidders else []
    occasion = f"<p>{written(result.occasion)}\n" if result.occasion else ""
    return f"""{occasion}<h2>{written(result.sentence)}</h2>
{table if rows else ""}<p><small>{esc(result.amounts)}</small>
<p><a class=first href="report.html">Read the report</a>
{"".join(more)}"""


def page(title: str, result: Result, files: Mapping[str, bytes], made: Made) -> bytes:
    """The page of the set: the result, how to test it, and what each file is."""
    esc = html.escape
    rows = [
        f'<tr><td><a href="{esc(name)}">{esc(name)}</a><td>{esc(about(name))}<td><code>{sum_of(data)}</code>'
        for name, data in sorted(files.items(), key=lambda it: ("/" in it[0], it[0]))
    ]
    tests = by_browser(files)
    tests += [f"<dt>{esc(what)}<dd><code>{command_text(command)}</code>" for what, command in commands(files)]
    by = [
        f"<tr><th scope=row>{esc(name)}<td><code{'' if is_right else ' class=bad'}>{esc(text)}</code>"
        for name, text, is_right in made.rows
    ]
    text = f"""<!DOCTYPE html>
<html lang="en">
<meta charset="utf-8">
<meta name="viewport" content="width=device-width, initial-scale=1">
<title>{esc(title)}</title>
<style>{STYLE}</style>
<h1>{written(title)}</h1>
{result_text(result, files)}<h2>How to test it</h2>
<dl>
{chr(10).join(tests)}
</dl>
{told_text(made.told) if made.told else ""}<h2>The files</h2>
<p>The checksums are in <a href="{SUMS}">{SUMS}</a>.
<details><summary>{len(rows)} files with their checksums</summary>
<div class=wide>
<table><thead><tr><th scope=col>File<th scope=col>What it is<th scope=col>Checksum (SHA-256)</thead>
<tbody>
{chr(10).join(rows)}
</table>
</div>
</details>
<h2>Made with</h2>
<details{"" if all(is_right for *_, is_right in made.rows) else " open"}><summary>Programs and checksums</summary>
<div class=wide>
<table>
{chr(10).join(by)}
</table>
</div>
</details>
</html>
"""
    return text.encode()


def unwritten(folder: str, why: str | None) -> Stop:
    """The stop of a folder that can't be made."""
    return Stop(
        "cca: write fault folder",
        WRITE_FAULT,
        why=f"`{printable(folder)}` can't be written: {why}",
    )


def need_new(folder: str) -> None:
    """Stops if a file or a folder of this name is there."""
    if os.path.lexists(folder):
        raise unwritten(folder, "it is there already, and nothing is overwritten")


def write_set(folder: str, files: Mapping[str, bytes]) -> None:
    """Writes all files, or none: into a new folder next to it, which is renamed once it is whole."""
    need_new(folder)
    path = pathlib.Path(folder)
    beside = path.with_name(f".{path.name}.{secrets.token_hex(4)}")
    try:
        for name, data in files.items():
            place = beside / name
            place.parent.mkdir(parents=True, exist_ok=True)
            place.write_bytes(data)
        os.rename(beside, path)
    except OSError as fault:
        raise unwritten(folder, fault.strerror) from None
    finally:
        shutil.rmtree(beside, ignore_errors=True)
