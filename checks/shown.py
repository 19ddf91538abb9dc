"""The reports that checks/looks looks at: of the samples, of a made auction, and of auctions that are hard to show."""

from __future__ import annotations

import pathlib
import random
import shutil
import subprocess
from collections.abc import Callable, Iterable
from typing import TypeAlias

from checks.cases.limit_books import CCA, HERE

# Each category with its supply, its points and its reserve. A word is an argument of tools/report.
Categories: TypeAlias = Iterable[tuple[str, int, int, int]]
Word: TypeAlias = str | pathlib.Path
EXAMPLES = pathlib.Path(HERE).parent / "examples"
LONGEST = 2**36, 2**42


def award_text(
    tick: int, categories: Categories, bidders: Iterable[tuple[str, int]], steps: Iterable[tuple[int, int]]
) -> str:
    lines = ["version = 2", f"tick = {tick}"]
    for name, supply, points, reserve in categories:
        lines += [
            "",
            "[[category]]",
            f'name = "{name}"',
            f"supply = {supply}",
            f"points = {points}",
            f"reserve = {reserve}",
        ]
    for name, eligibility in bidders:
        lines += ["", "[[bidder]]", f'name = "{name}"', f"eligibility = {eligibility}"]
    for excess, permille in steps:
        lines += ["", "[[step]]", f"excess = {excess}", f"permille = {permille}"]
    return "\n".join(lines) + "\n"


def long_names(count: int, stem: str) -> list[str]:
    """Names of 20 bytes."""
    return [f"{stem}{'_wide' * 4}"[: 20 - len(str(n))] + str(n) for n in range(1, count + 1)]


def hostile(folder: pathlib.Path) -> list[Word]:
    """The longest names, the greatest amounts, six categories and 16 bidders."""
    names, kinds = long_names(16, "bidder_mmmm"), long_names(6, "category_wwww")
    reserve = LONGEST[0] - 10**9
    award = award_text(
        10**8,
        [(kind, supply, 1000, reserve) for kind, supply in zip(kinds, (6, 4, 3, 3, 2, 2))],
        [(name, 30000) for name in names],
        [(1, 1)],
    )
    rng = random.Random(1)
    log: list[str] = []
    small = [tuple(rng.randrange(2) if c else 1 for c in range(6)) for _ in names]
    for name, package in zip(names, small):
        log.append(f"bid,{name},{' '.join(map(str, package))},")
    log.append("close,,,")
    for name, package in zip(names[:3], small):
        log.append(f"bid,{name},{' '.join(map(str, package))},")
    log.append("close,,,")
    for name, package in zip(names[:3], small):
        log += [
            f"draft,{name},{' '.join(map(str, package))},{LONGEST[1] - rng.randrange(1000)}",
            f"draft,{name},9999 9999 9999 9999 9999 9999,999999999999999999",
            f"submit,{name},,",
        ]
    return awarded(folder, *written(folder, "hostile", award, log + ["close,,,"]))


def three_hundred(folder: pathlib.Path) -> list[Word]:
    """The greatest number of rounds, with 16 bidders that ask for less and less."""
    names = [f"b{n}" for n in range(1, 17)]
    award = award_text(1, [("a", 4, 3, 1000), ("b", 6, 1, 10)], [(name, 30) for name in names], [(1, 5)])
    log: list[str] = []
    for number in range(1, 301):
        asking = 3 if number < 300 else 2
        for place, name in enumerate(names):
            lots = (2, 2) if place < asking else (0, 1 if place < 6 else 0)
            lots = lots if number < 300 else (2, 0) if place < 2 else (0, 1) if place < 6 else (0, 0)
            if any(lots):
                log.append(f"bid,{name},{lots[0]} {lots[1]},")
        log.append("close,,,")
    return awarded(folder, *written(folder, "rounds300", award, log + ["close,,,"]))


def written(folder: pathlib.Path, name: str, award: str, log: Iterable[str]) -> tuple[pathlib.Path, pathlib.Path]:
    paths = folder / f"{name}.award", folder / f"{name}.log"
    paths[0].write_text(award)
    paths[1].write_text("".join(line + "\n" for line in log))
    return paths


def awarded(folder: pathlib.Path, award: pathlib.Path, log: pathlib.Path) -> list[Word]:
    """The award, the log and a certificate of the program."""
    cert = folder / f"{pathlib.Path(log).stem}.cert"
    cert.unlink(missing_ok=True)
    subprocess.run([CCA, "award", award, log, cert], check=True, capture_output=True)
    return [award, log, cert]


def made(folder: pathlib.Path, number: str = "7") -> list[Word]:
    """The auction that the program makes of a number."""
    paths = folder / f"made{number}.award", folder / f"made{number}.log"
    for path in paths:
        path.unlink(missing_ok=True)
    subprocess.run([CCA, "make", number, *paths], check=True, capture_output=True)
    return awarded(folder, *paths)


def spectrum(folder: pathlib.Path) -> list[Word]:
    return awarded(folder, EXAMPLES / "spectrum.award", EXAMPLES / "spectrum.log")


def begun(folder: pathlib.Path) -> list[Word]:
    """The sample during its open second round."""
    lines = (EXAMPLES / "spectrum.log").read_text().splitlines()[:15]
    return list(written(folder, "begun", (EXAMPLES / "spectrum.award").read_text(), lines))


def three(folder: pathlib.Path) -> list[Word]:
    """A book where three win, and a third limits what two of them pay."""
    lines = ["book 1", "supply 1 1 1", "reserve 100 100 50"]
    bids = (
        ("north", "1 0 0", 900),
        ("south", "0 1 0", 800),
        ("west", "0 0 1", 500),
        ("pair", "1 1 0", 1200),
        ("chain", "0 1 1", 700),
        ("whole", "1 1 1", 1500),
        ("small", "0 0 1", 120),
    )
    for name, package, amount in bids:
        lines += [f"bidder {name}", f"bid {package} {amount}"]
    book, cert = folder / "three.book", folder / "three.cert"
    book.write_text("\n".join([*lines, "end"]) + "\n")
    cert.unlink(missing_ok=True)
    subprocess.run([CCA, "price", book, cert], check=True, capture_output=True)
    return [book, cert]


def no_bids(folder: pathlib.Path) -> list[Word]:
    return awarded(
        folder, *written(folder, "no_bids", (EXAMPLES / "spectrum.award").read_text(), ["close,,,", "close,,,"])
    )


SHOWN: dict[str, Callable[[pathlib.Path], list[Word]]] = {
    "spectrum": spectrum,
    "day-cramton": lambda folder: [EXAMPLES / "day-cramton.book", EXAMPLES / "day-cramton.cert"],
    "three": three,
    "bidder": lambda folder: [*spectrum(folder), "--bidder", "niche"],
    "begun": begun,
    "begun-bidder": lambda folder: [*begun(folder), "--bidder", "tarn"],
    "no_bids": no_bids,
    "hostile": hostile,
    "rounds300": three_hundred,
    "made": made,
}


DRAWN = [f"drawn{number}" for number in range(1, 11)]


def files_of(name: str, folder: pathlib.Path) -> list[Word]:
    """The arguments of the report of this name, or of the auction that the program makes from its number. The files
    made for it are in the folder."""
    return made(folder, name.removeprefix("drawn")) if name in DRAWN else SHOWN[name](folder)


NAMES = """title = "Northland award of 800 MHz and 2.6 GHz"
held = "3 to 14 March 2025"
seller = "Northland Communications Authority"
currency = "GBP"
unit = 1000
[category]
a800 = { name = "800 MHz, 2 x 5", mhz = 10 }
b800 = { name = "800 MHz, coverage", mhz = 20 }
c2600 = { name = "2.6 GHz paired", mhz = 10 }
e2600 = { name = "2.6 GHz unpaired", mhz = 5 }
[bidder]
everest = { name = "Everest Mobile plc" }
harbour = { name = "Harbour Networks Limited" }
"""
TOOLS = pathlib.Path(HERE).parent / "tools"
SETS = ("set", "named-set")
STUDIES = {"study": 6, "small-study": 2}  # how many auctions of each case
# The site's pages that are looked at: the first, the longest, and one of wide tables.
SITE = ("index.html", "docs/AUCTIONEER.html", "docs/FORMATS.html")


def made_set(name: str, folder: pathlib.Path) -> list[pathlib.Path]:
    """The page and the report of a published set, with names or without."""
    place = folder / name
    shutil.rmtree(place, ignore_errors=True)
    more: list[Word] = []
    if name != "set":
        (folder / "names.toml").write_text(NAMES)
        more = ["--names", folder / "names.toml"]
    subprocess.run([TOOLS / "publish", *more, *spectrum(folder), place], check=True, capture_output=True)
    return [place / "index.html", place / "report.html"]


def made_study(name: str, folder: pathlib.Path) -> list[pathlib.Path]:
    """The page of a study; `STUDIES` has the number of auctions of each case."""
    for kind in ("award", "values"):
        shutil.copy(EXAMPLES / f"final-cap.{kind}", folder)
    text = (EXAMPLES / "final-cap.plan").read_text().replace("auctions = 1000", f"auctions = {STUDIES[name]}")
    (folder / f"{name}.plan").write_text(text)
    shutil.rmtree(folder / name, ignore_errors=True)
    words: list[Word] = [TOOLS / "study", "--out", folder / name, folder / f"{name}.plan"]
    subprocess.run(words, check=True, capture_output=True)
    return [folder / name / "page.html"]


def made_site(folder: pathlib.Path) -> list[pathlib.Path]:
    """Pages of the site of the documents."""
    place = folder / "site"
    shutil.rmtree(place, ignore_errors=True)
    subprocess.run([TOOLS.parent / "build" / "site", place], check=True, capture_output=True)
    return [place / page for page in SITE]
