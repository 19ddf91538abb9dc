"""Makes the set of files that is published after an auction, in a new folder:

    auction.award auction.log auction.cert   the three files that everybody can test
    report.html report.txt                   the report
    bidders/NAME.html bidders/NAME.txt       what each bidder sees of it
    tables/NAME.csv                          winners, rounds, prices and bids, for a spreadsheet
    audit.html                               the page that tests the auction in a browser, if it was built
    placed/CATEGORY.slots placed/CATEGORY.cert   where its lots are in its band, with --placed
    names.toml                               the names for people, with --names
    auction.key auction.posted               the key, and the lines as they were posted, with --key and --posted
    auction.journal kept/NAME                the journal of the desk with --journal, and each log that was cut or
                                             changed (without a journal --cut names each)
    SHA256SUMS                               the checksums of all of them, for `sha256sum -c SHA256SUMS`
    index.html                               the result, how to test it, and what each file is

Everything is tested first: the certificate by the second program, and by the program if it is there (CCA_PROGRAM, or
the one that ./cca has built); that the journal is one chain, leads to the log, and posted exactly the lines of POSTED;
that the last of them is `publish`, which seals all of the log. If a test fails, nothing is written; no posted line is
ever made again. Prints the winners and prices, and the checksum of SHA256SUMS. A program is called proved only if its
own mark and its checksum say so.

Statuses are as in docs/FORMATS.md; 1 if a test fails. What it doesn't test: that the log has what the bidders sent, and
that these are the lines that people saw posted. The page of the set says how those who noted some can test that.
"""

from __future__ import annotations

import argparse
import dataclasses
import pathlib
import subprocess
from collections.abc import Mapping, Sequence
from typing import cast

from cca_tools.command_line import Parser, run_command
from cca_tools.desk.disk import Refused, read_file
from cca_tools.desk.record import ByHand, Record, Tester, need_kept, need_published, stop_of
from cca_tools.page import findings, places, plain, sheets, source, winners
from cca_tools.page.document import Page
from cca_tools.page.html import parts
from cca_tools.page.report import page as report_page
from cca_tools.rules.auction import Auction, replay
from cca_tools.rules.award import Award, read_award
from cca_tools.rules.certificate import read_certificate
from cca_tools.rules.certificate_tests import first_fault
from cca_tools.rules.log import read_log
from cca_tools.rules.mark import mark_of
from cca_tools.rules.names import read_names
from cca_tools.rules.printing import price_lines
from cca_tools.rules.program import program
from cca_tools.rules.publication import (
    AWARD,
    CERT,
    JOURNAL,
    KEPT,
    KEY,
    LOG,
    NAMES,
    PAGE,
    PLACED,
    POSTED,
    SUMS,
    Made,
    Result,
    Told,
    audit_page,
    need_new,
    page,
    sum_of,
    sums_text,
    write_set,
)
from cca_tools.rules.seals import Public, head_rows, read_posted
from cca_tools.rules.stops import CRASH, MOST, NO, Stop, load
from cca_tools.terminal import progress
from cca_tools.version import commit, version


def parser() -> Parser:
    """The arguments of the command."""
    words = Parser(
        "publish",
        __doc__,
        "[--names FILE] [--placed CATEGORY SLOTS CERT].. [--key KEY --posted POSTED [--journal JOURNAL]]"
        " AWARD LOG CERT FOLDER",
    )
    words.add_file("AWARD", "the terms of the auction")
    words.add_file("LOG", "its lines")
    words.add_file("CERT", "its certificate")
    words.add_file("FOLDER", "the folder to make")
    words.add_argument("--names", metavar="FILE", help="a file of names for people; tools/state --help has its form")
    words.add_argument(
        "--placed",
        nargs=3,
        metavar=("CATEGORY", "SLOTS", "CERT"),
        action="append",
        default=[],
        help="where the lots of a category are in its band: its slots and the certificate of `cca place`",
    )
    words.add_argument("--key", metavar="KEY", help="the key of the seals, as `tools/seal new` made it")
    words.add_argument("--posted", metavar="POSTED", help="the lines as they were posted (LOG.posted of the desk)")
    words.add_argument("--journal", metavar="JOURNAL", help="the journal of the desk (LOG.desk)")
    words.add_argument(
        "--cut", metavar="FILE", action="append", default=[], help="without a journal: a log that was kept"
    )
    return words


def tested_rows(award: Award, auction: Auction, cert: bytes) -> list[str]:
    """The winners and prices of a certificate that passes."""
    book = auction.need_book()
    certificate = read_certificate(cert, book)
    if fault := first_fault(book, certificate):
        raise Stop(fault.line, NO, why=fault.text())
    return list(price_lines(certificate))


def program_rows(options: argparse.Namespace) -> list[tuple[str, str, bool]]:
    """The program by its checksum and its mark; its audit has to say yes."""
    path = program()
    if not path:
        return [("program", "not asked: it wasn't there when the set was made", False)]
    words = [path, "audit", options.award, options.log, options.cert]
    run = subprocess.run(words, stdin=subprocess.DEVNULL, capture_output=True, text=True)
    first = run.stdout.partition("\n")[0]
    if first.startswith("no "):
        raise Stop(first, NO, why="so says the program, and no set is made")
    if first != "yes":
        said = f"`{first}`" if first else f"nothing, with status {run.returncode}"
        raise Stop("cca: stopped", CRASH, why=f"no set is made, since the program answers {said}")
    data = pathlib.Path(path).read_bytes()
    mark = mark_of(data)
    return [
        ("program cca, whose audit says yes", f"SHA-256 {sum_of(data)}", True),
        ("its proof", mark.text, mark.is_proved),
    ]


def finder_rows(winners: int) -> list[tuple[str, str, bool]]:
    """That the program hasn't found the prices, if there are more winners than it prices."""
    beyond = f"not by cca, which prices at most {MOST['winners']} winners"
    return [("prices found", beyond, True)] if winners > MOST["winners"] else []


def made_with(options: argparse.Namespace, winners: int) -> Made:
    """By what the set is made."""
    rows = [*finder_rows(winners), *program_rows(options)]
    known = commit()
    tools = f"version {version()}" + (f", commit {known}" if known else "")
    return Made([*rows, ("the second program, in tools/", tools, True)])


@dataclasses.dataclass(frozen=True)
class Given:
    """The files of the record, and what they say about the day."""

    files: Mapping[str, bytes]
    made: Sequence[tuple[str, str, bool]]
    told: Told | None


def given_files(options: argparse.Namespace, data: Mapping[str, bytes]) -> Given:
    """The key, the posted lines, the journal and the kept logs, tested."""
    if bool(options.key) != bool(options.posted) or (options.journal and not options.key):
        parser().error("--key and --posted are given together, and --journal with them")
    if not options.key:
        return Given({}, [], None)
    key, posted = load(options.key, "key"), load(options.posted, "posted")
    rows = read_posted(posted)
    made: list[tuple[str, str, bool]] = []
    try:
        if options.journal:
            public, more, made = by_journal(options, data, key, posted)
        else:
            public, more = by_hand(options, data, key, posted)
    except Refused as fault:
        raise stop_of(fault) from None
    if not rows or rows[-1].kind != "publish":
        raise Stop("no\nThe posted lines don't end with `publish`, which seals the whole log.", NO)
    lines = [(text, "") for text in head_rows(sum_of(key), sum_of(data["award"]))]
    lines += [(row.text(), public.void_words(row.number)) for row in rows]
    return Given({KEY: key, POSTED: posted} | more, made, Told(lines, bool(options.journal)))


def by_journal(
    options: argparse.Namespace, data: Mapping[str, bytes], key: bytes, posted: bytes
) -> tuple[Public, dict[str, bytes], list[tuple[str, str, bool]]]:
    """What a journal posted, its files, and with what the auction was run. Raises `Refused`."""
    journal = load(options.journal, "journal")
    record = Tester(data["award"], key).record(journal)
    if record.log != data["log"]:
        raise Refused("The journal leads to another log.")
    if record.posted != posted:
        raise Refused("The posted lines aren't those of the journal.")
    need_published(record, journal)
    folder = pathlib.Path(options.journal).parent
    kept = need_kept(record.entries, lambda name: read_file(folder / name))
    return record.public, {JOURNAL: journal, **{f"{KEPT}/{name}": it for name, it in kept.items()}}, day_rows(record)


def day_rows(record: Record) -> list[tuple[str, str, bool]]:
    """With what the auction was run, by its journal; what isn't as it should be is marked."""
    pins = record.entries[0].more.get("pins")
    used = str(pins.get("program")) if isinstance(pins, dict) else ""
    path = program()
    is_same = not path or sum_of(pathlib.Path(path).read_bytes()) == used
    rows = [
        ("the program that replied on the day" + ("" if is_same else ", ANOTHER than the one above"), used, is_same),
    ]
    for about in (it.more["about"] for it in record.entries if isinstance(it.more.get("about"), dict)):
        facts = cast(dict[str, object], about)
        text = str(facts.get("program"))
        rows.append(("its proof, as the desk read it", text, not text.startswith("NOT PROVED")))
        rows.append(("the tools on the day", str(facts.get("tools")), True))
    if record.times_back:
        rows.append(("the clock of the machine", f"WAS SET BACK {record.times_back} times: see the journal", False))
    return rows


def by_hand(
    options: argparse.Namespace, data: Mapping[str, bytes], key: bytes, posted: bytes
) -> tuple[Public, dict[str, bytes]]:
    """What was posted without a journal, and the logs that were kept. Raises `Refused`."""
    cuts = {f"{KEPT}/{pathlib.Path(file).name}": load(file, "log") for file in options.cut}
    hand = ByHand(data["award"], key, [data["log"], *cuts.values()])
    if not posted.startswith(hand.head):
        raise Refused("The posted lines don't begin with the checksums of this key and this award.")
    hand.take(read_posted(posted))
    if hand.foreign:
        number = min(hand.foreign)
        how = "name the log that was kept with --cut" if number in hand.public.voids else "a line was changed after it"
        raise Refused(f"The posted line {number} has another seal than these files lead to: {how}.")
    if hand.due(""):
        raise Refused("A close of the log was never posted.")
    if not hand.is_published():
        raise Refused("The posted lines don't end with `publish` for this log: run `tools/seal sum --publish`.")
    return hand.public, cuts


def both_forms(made: Page, name: str) -> dict[str, bytes]:
    """A report as a page and as a text."""
    from cca_tools.page import html

    return {f"{name}.html": (html.page(made) + "\n").encode(), f"{name}.txt": (plain.text(made) + "\n").encode()}


def reports(options: argparse.Namespace, award: Award) -> tuple[dict[str, bytes], Result]:
    """The report for everybody with its tables, the one of each bidder, and the result; they name the files as the set
    has them."""
    progress.step("making the report")
    facts = source.of_files([options.award, options.log, options.cert], names=options.names)
    facts.long = dataclasses.replace(facts.long, title=facts.long.title or title_of(options))
    places.read_all(facts, options.placed)
    for file in facts.sums:
        file.name = {"award": AWARD, "log": LOG, "cert": CERT}[file.kind]
    tables = sheets.sheets(facts)
    found = both_forms(report_page(facts, with_program=True, sheets=list(tables)), "report") | tables
    for name in award.names:
        progress.step(f"making the report of {name}")
        found |= both_forms(report_page(facts, name), f"bidders/{name}")
    return found, result_of(facts)


def result_of(facts: source.Source) -> Result:
    """The result for people, as the report has it."""
    table = winners.result_table(facts)
    rows = [[parts(cell)[0] for cell in row] for row in table.rows]
    heads = [it.head for it in table.columns]
    amounts = " ".join([facts.amounts(), *places.paid_words(facts)])
    return Result(facts.long.occasion(), amounts, findings.of_award(facts), heads, rows)


def title_of(options: argparse.Namespace) -> str:
    """The title if the names have none: the award's own name."""
    return source.visible(options.award).rpartition(".")[0] or source.visible(options.award)


def publish(options: argparse.Namespace) -> str:
    """Tests all, then makes the set."""
    if "-" in (options.award, options.log, options.cert, options.names, options.key, options.posted, options.journal):
        parser().error("each file is read more than once, so none is standard input")
    data = {kind: load(getattr(options, kind), kind) for kind in ("award", "log", "cert")}
    award = read_award(data["award"])
    auction = replay(award, read_log(data["log"], award))
    names = read_names(options.names, award)
    prices = tested_rows(award, auction, data["cert"])
    given = given_files(options, data)
    need_new(options.folder)
    made = made_with(options, len([line for line in prices if line.startswith("winner ")]))
    made = Made([*made.rows, *given.made], given.told)
    made_reports, result = reports(options, award)
    files = {AWARD: data["award"], LOG: data["log"], CERT: data["cert"], **given.files, **made_reports}
    if options.names:
        files[NAMES] = load(options.names, "names")
    for category, slots, cert in options.placed:
        files[f"{PLACED}/{category}.slots"] = load(slots, "slots")
        files[f"{PLACED}/{category}.cert"] = load(cert, "cert")
    files |= audit_page()
    text = "\n".join(prices)
    index = page(names.title or title_of(options), result, files, made)
    sums = sums_text({**files, PAGE: index})
    write_set(options.folder, {**files, PAGE: index, SUMS: sums})
    unproved = [f"{name}: {words}" for name, words, is_right in made.rows if not is_right]
    text = "\n".join([text, *unproved])
    return f"{text}\nwritten {len(files) + 2} files\nsum of {SUMS} {sum_of(sums)}"


def main(argv: Sequence[str]) -> int:
    """Runs the command with these arguments, and returns its status."""
    return run_command(parser(), publish, argv)
