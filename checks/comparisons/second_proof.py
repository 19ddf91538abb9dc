"""Compares the programs that are extracted from the second proof with `cca`: their output and status
they end.

`check`, `weigh-check` and `place-check` are run on certificates that `cca` wrote for drawn books and slots: as they
were made, with another denominator, with other numbers (entries, payments, rows, choices, orders), with damaged lines
and bytes, on damaged books, weights and slots, about the limits, on the sample of the spectrum, on files that are
missing, and with other arguments. For drawn logs, what `cca auction` prints and writes has to be what `auction` of the
second proof prints, and both audit certificates of them, as made, altered and damaged. It prints how many runs of each
kind there were, how many differ, and how often each answer and reply came; Ctrl-C prints what there is so far.

It builds second_proof with `second_proof/build` if that isn't built yet. CCA_PROGRAM=path runs that program of cca. It
needs python3, coqc and ocamlopt.
"""

from __future__ import annotations

import collections
import itertools
import os
import random
import re
import subprocess
import tempfile
from collections.abc import Callable, Collection, Iterator, Mapping, Sequence
from typing import TypeAlias

from checks.cases.limit_books import CCA, HERE, build_cca

from second_proof.coq_audit.plain import plain_award
from cca_tools.rules.auction import replay
from cca_tools.rules.award import read_award
from cca_tools.rules.log import read_log

# A package with a net amount. For each bidder: what it asked for in the clock, with its prices.
NetBid: TypeAlias = tuple[list[int], int]
Asked: TypeAlias = Sequence[Sequence[tuple[Sequence[int], int]]]
SECOND = os.path.join(HERE, "..", "second_proof")
CHECKER = os.path.join(SECOND, "built", "checker")
WIDE = 2**120
NUMBER = re.compile(r"-?[0-9]+")


def prepared() -> str:
    """The path of cca's program; builds both programs if they aren't built."""
    if not os.path.exists(CHECKER):
        subprocess.run([os.path.join(SECOND, "build")], check=True, stdout=subprocess.DEVNULL)
    build_cca()
    return CCA


# ---- drawn books, weights and slots ----


def drawn_supply(rng: random.Random) -> list[int]:
    kind = rng.randrange(60)
    if kind == 0:
        return [7, 7, 7, 8]
    return [rng.randint(1, rng.choice([1, 2, 3, 5])) for _ in range(rng.choice([1, 2, 2, 3, 3, 4]))]


def drawn_bids(rng: random.Random, supply: Sequence[int], reserves: Sequence[int]) -> str:
    every: set[tuple[int, ...]] = set()
    for _ in range(rng.randint(0, 5)):
        every.add(tuple(rng.choice([0, rng.randint(0, s)]) for s in supply))
    top = rng.choice([1, 2, 9, 30, 1000])
    bids = [(p, sum(n * r for n, r in zip(p, reserves)) + rng.randint(0, top)) for p in sorted(every) if any(p)]
    return "".join(f"bid {' '.join(map(str, p))} {amount}\n" for p, amount in bids)


def drawn_book(rng: random.Random) -> str:
    supply = drawn_supply(rng)
    reserves = [rng.choice([0, 0, 1, 7]) for _ in supply]
    bidders = rng.choice([0, 1, 2, 3, 4, 5, 6, 7]) if rng.randrange(40) else rng.randint(13, 16)
    head = f"book 1\nsupply {' '.join(map(str, supply))}\nreserve {' '.join(map(str, reserves))}\n"
    return head + "".join(f"bidder b{j}\n{drawn_bids(rng, supply, reserves)}" for j in range(bidders)) + "end\n"


def drawn_weights(rng: random.Random, book: str) -> str:
    weights = rng.choice([(1, 1), (1, 3), (1, 20)])
    names = re.findall(r"^bidder (\w+)$", book, re.M)
    return "weights 1\n" + "".join(f"weight {name} {rng.randint(*weights)}\n" for name in names) + "end\n"


def drawn_slots(rng: random.Random) -> str:
    band = rng.randint(1, 9)
    left, text = band, f"slots 1\nband {band}\n"
    for j in range(rng.randint(0, 6)):
        if left == 0:
            break
        width = rng.randint(1, min(left, 3))
        left -= width
        starts = sorted(rng.sample(range(1, band - width + 2), rng.randint(0, min(4, band - width + 1))))
        text += f"bidder s{j} {width}\n" + "".join(f"place {start} {rng.randint(0, 20)}\n" for start in starts)
    return text + "end\n"


# ---- other certificates ----


def mapped(text: str, change: Callable[[str, list[str], bool], list[str]]) -> str:
    """The text with each line changed by its word and its fields; "lowered" is the state after the lowered table has
    begun."""
    lines, lowered = [], False
    for line in text.splitlines():
        word, *fields = line.split(" ")
        lowered = lowered or word == "lowered"
        lines.append(" ".join([word, *change(word, fields, lowered)]))
    return "\n".join(lines) + "\n"


def scaled(rng: random.Random, text: str) -> str:
    """These prices over a greater denominator."""
    k = rng.randint(2, 9)
    return mapped(
        text,
        lambda word, fields, lowered: [str(k * int(n)) for n in fields]
        if word in ("den", "pay", "mult") or (lowered and word == "t")
        else fields,
    )


def one_line(rng: random.Random, text: str, words: Collection[str]) -> tuple[list[str], int | None]:
    """The lines of a text, and the number of some line whose first word is among `words`, if there is one."""
    lines = text.splitlines()
    found = [n for n, line in enumerate(lines) if line.split(" ")[0] in words]
    return lines, rng.choice(found) if found else None


def with_line(rng: random.Random, text: str, words: Collection[str], change: Callable[[list[str]], list[str]]) -> str:
    lines, n = one_line(rng, text, words)
    if n is not None:
        word, *fields = lines[n].split(" ")
        lines[n] = " ".join([word, *change(fields)])
    return "\n".join(lines) + "\n"


def other_number(rng: random.Random, text: str) -> str:
    """Another number in a line of some kind."""
    words = [
        "den",
        "value",
        "choice",
        "order",
        "t",
        "t",
        "without",
        "pay",
        "pay",
        "rows",
        "row",
        "mult",
        "mult",
        "limits",
        "cert",
    ]

    def change(fields: list[str]) -> list[str]:
        if fields:
            i = rng.randrange(len(fields))
            n = int(fields[i])
            near = [n - 1, n + 1, n + 1, n + rng.randint(2, 9), rng.randint(0, 5)]
            fields[i] = str(rng.choice(near + [-n, 2 * n, 65535, 65536, 2**119, WIDE - 1, WIDE, -WIDE]))
        return fields

    return with_line(rng, text, [rng.choice(words)], change)


def raised_entry(rng: random.Random, text: str) -> str:
    """A greater entry of a table, which often changes nothing."""

    def change(fields: list[str]) -> list[str]:
        i = rng.randrange(len(fields))
        fields[i] = str(int(fields[i]) + rng.choice([1, 5, 2**60]))
        return fields

    return with_line(rng, text, ["t"], change)


def moved_payment(rng: random.Random, text: str) -> str:
    """Payments of the same sum."""

    def change(fields: list[str]) -> list[str]:
        if len(fields) > 1:
            i, j = rng.sample(range(len(fields)), 2)
            step = rng.choice([1, 1, 2, 5])
            fields[i], fields[j] = str(int(fields[i]) + step), str(int(fields[j]) - step)
        return fields

    return with_line(rng, text, ["pay"], change)


def shuffled(rng: random.Random, text: str) -> str:
    """Another choice or order of the same numbers, or other members."""
    return with_line(rng, text, ["choice", "order", "row"], lambda fields: rng.sample(fields, len(fields)))


def without_row(rng: random.Random, text: str) -> str:
    """One row fewer, or one twice."""
    lines, n = one_line(rng, text, ["row"])
    if n is None:
        return text
    size = 4 if lines[n + 2].startswith("order") else 3
    count = next(i for i, line in enumerate(lines) if line.startswith("rows "))
    twice = rng.random() < 0.5
    lines[count] = f"rows {int(lines[count].split()[1]) + (1 if twice else -1)}"
    return "\n".join(lines[:n] + (2 * lines[n : n + size] if twice else []) + lines[n + size :]) + "\n"


def other_second(rng: random.Random, text: str) -> str:
    """Another second multiplier."""
    return with_line(rng, text, ["mult"], lambda fields: [fields[0], str(int(fields[1]) + rng.choice([-3, -1, 1, 2]))])


def less_lowered(rng: random.Random, text: str) -> str:
    """A smaller entry of the lowered table."""
    head, lowered = text.split("\nlowered\n")

    def change(fields: list[str]) -> list[str]:
        i = rng.randrange(len(fields))
        fields[i] = str(int(fields[i]) - rng.choice([1, 1, 4]))
        return fields

    return head + "\nlowered\n" + with_line(rng, lowered, ["t"], change)


def copied_choice(rng: random.Random, text: str) -> str:
    """A choice, with the order before it if there is one, in the place of another."""
    lines, n = one_line(rng, text, ["choice"])
    _, m = one_line(rng, text, ["choice"])
    if n is None or m is None:
        raise ValueError("a certificate without a choice")
    lines[n] = lines[m]
    if lines[n - 1].startswith("order"):
        lines[n - 1] = lines[m - 1]
    return "\n".join(lines) + "\n"


ALTERED = (
    [copied_choice] * 2
    + [other_number] * 3
    + [other_second, less_lowered, raised_entry, moved_payment, shuffled, without_row]
)


def altered(rng: random.Random, text: str) -> str:
    for _ in range(rng.choice([1, 1, 1, 2, 3])):
        text = rng.choice(ALTERED)(rng, text)
    return text


def read_book(book: str) -> tuple[list[int], list[list[NetBid]]]:
    """The supply of a book, and the packages and net amounts of each bidder's bids."""
    lines = [line.split(" ") for line in book.splitlines()]
    supply, reserves = [int(s) for s in lines[1][1:]], [int(r) for r in lines[2][1:]]
    bidders: list[list[NetBid]] = []
    for word, *fields in lines[3:-1]:
        if word == "bidder":
            bidders.append([])
        else:
            *package, amount = map(int, fields)
            bidders[-1].append((package, amount - sum(n * r for n, r in zip(package, reserves))))
    return supply, bidders


def tied_choices(book: str, first: tuple[int, ...]) -> Iterator[tuple[int, ...]]:
    """The other choices with the winners and the value of this one that fit."""
    supply, bidders = read_book(book)

    def won(choice: Sequence[int]) -> list[NetBid]:
        return [bids[i - 1] for bids, i in zip(bidders, choice) if i]

    def value(choice: Sequence[int]) -> int:
        return sum(net for _, net in won(choice))

    for choice in itertools.product(*(range(1, len(bids) + 1) if i else [0] for bids, i in zip(bidders, first))):
        counts = zip(supply, *(package for package, _ in won(choice)))
        if choice != first and value(choice) == value(first) and all(sum(taken) <= most for most, *taken in counts):
            yield choice


def tied_certificates(book: str, cert: str) -> Iterator[str]:
    """The certificate with another choice in its head that has the same winners and the same value."""
    line = next(line for line in cert.splitlines() if line.startswith("choice"))
    first = tuple(map(int, line.split(" ")[1:]))
    for choice in itertools.islice(tied_choices(book, first), 3):
        yield cert.replace(line, " ".join(["choice", *map(str, choice)]), 1)


# ---- damaged texts ----


def damaged(rng: random.Random, text: str) -> str:
    """The text with something that isn't of its form, for the most part."""
    lines, at = text.splitlines(keepends=True), rng.randrange(len(text))
    n, m = rng.randrange(len(lines)), rng.randrange(len(lines))
    number = rng.choice(list(NUMBER.finditer(text)))
    spelt = rng.choice(
        ["-0", "+1", "00", "0" + number[0], number[0] + " ", "9" * 50, "-" + number[0], "x", "", "1e3", "65536", "1000"]
    )
    fields = lines[n].rstrip("\n").split(" ")
    cut = fields[:-1] if rng.random() < 0.5 else fields + [rng.choice(["0", "1", ""])]
    ways: list[Callable[[], str]] = [
        lambda: text[:at] + text[at + 1 :],
        lambda: text[:at] + rng.choice(" \n\r\t0-a\u00e9\0") + text[at:],
        lambda: text[:at],
        lambda: "".join(lines[:n] + lines[n + 1 :]),
        lambda: "".join(lines[: n + 1] + lines[n:]),
        lambda: "".join(lines[:n] + [lines[m]] + lines[n + 1 :]),
        lambda: text + rng.choice(["\n", " ", "end\n"]),
        lambda: text[: number.start()] + spelt + text[number.end() :],
        lambda: "".join(lines[:n] + [" ".join(cut) + "\n"] + lines[n + 1 :]),
    ]
    return rng.choice(ways)()


# ---- texts about the limits ----


def limit_books() -> Iterator[str]:
    supplies = [
        "2 2 2 2 2 2",
        "2 2 2 2 2 2 2",
        "40",
        "41",
        "39 1",
        "40 1",
        "15 7 7 3 3",
        "16 7 7 3 3",
        "999",
        "1000",
        "1 0",
        "01",
        "",
    ]
    for supply in supplies:
        yield f"book 1\nsupply {supply}\nreserve{' 0' * len(supply.split())}\nend\n"
    head = "book 1\nsupply 29 10 1\nreserve 1 1 0\n"
    packages = [(a, b, c) for a in range(30) for b in range(11) for c in range(2) if a + b + c]
    for bidders in (16, 17):
        yield head + "".join(f"bidder b{j}\n" for j in range(bidders)) + "end\n"
    for bids in (600, 601):
        yield head + "bidder b1\n" + "".join(f"bid {a} {b} {c} {a + b}\n" for a, b, c in packages[:bids]) + "end\n"
    for amount in (29, 30, 2**42, 2**42 + 1):
        yield head + f"bidder b1\nbid 20 10 1 {amount}\nend\n"
    for reserve in (2**36, 2**36 + 1):
        yield f"book 1\nsupply 1\nreserve {reserve}\nend\n"
    for more in (1048576, 1048577):
        yield head + "#" * (more - len(head))


def limit_slots() -> Iterator[str]:
    for band in ("0", "1", "40", "41", "999", "1000", "01"):
        yield f"slots 1\nband {band}\nend\n"
    for bidders in (6, 7):
        yield "slots 1\nband 9\n" + "".join(f"bidder s{j} 1\n" for j in range(bidders)) + "end\n"
    for width in (0, 9, 10):
        yield f"slots 1\nband 9\nbidder s {width}\nend\n"
    for start in (0, 8, 9):
        yield f"slots 1\nband 9\nbidder s 2\nplace {start} 1\nend\n"
    for amount in (2**42, 2**42 + 1):
        yield f"slots 1\nband 9\nbidder s 2\nplace 1 {amount}\nend\n"
    for more in (65536, 65537):
        yield "slots 1\n" + "#" * (more - 8)


# ---- drawn logs ----


def drawn_award(rng: random.Random) -> tuple[str, list[int], int]:
    categories, bidders = rng.randint(1, 3), rng.randint(1, 5)
    supply = [rng.randint(1, 4) for _ in range(categories)]
    points = [rng.randint(0, 3) for _ in range(categories)]
    reserve = (2**36 - 40, 2**36) if rng.random() < 0.05 else (0, 20)
    text = f"version = {rng.randint(1, 2)}\ntick = {rng.choice([1, 1, 2, 7])}\n"
    for k in range(categories):
        text += (
            f'[[category]]\nname = "k{k}"\nsupply = {supply[k]}\npoints = {points[k]}\n'
            f"reserve = {rng.randint(*reserve)}\n"
        )
    for j in range(bidders):
        text += (
            f'[[bidder]]\nname = "b{j}"\n'
            f"eligibility = {rng.choice([30, rng.randint(3, 3 + sum(s * p for s, p in zip(supply, points)))])}\n"
        )
        text += f"holding = {[rng.randint(0, 1) for _ in supply]}\n" if rng.random() < 0.3 else ""
    for excess in sorted({1, rng.randint(2, 4)}):
        text += f"[[step]]\nexcess = {excess}\npermille = {rng.choice([1, 50, 200, 1000])}\n"
    for _ in range(rng.choice([0, 0, 1, 2])):
        text += f"[[cap]]\nweight = {[rng.randint(0, 2) for _ in supply]}\nlimit = {rng.randint(4, 12)}\n"
    return text, supply, bidders


def drawn_line(rng: random.Random, supply: Sequence[int], bidders: int, kinds: Sequence[str]) -> str:
    kind, name = rng.choice(kinds), f"b{rng.randrange(bidders) if rng.random() < 0.98 else bidders}"
    counts = " ".join(str(rng.choice([0, rng.randint(0, s)]) + (rng.random() < 0.02)) for s in supply)
    amount = rng.choice([rng.randint(0, 60), rng.randint(20, 300), 2**42 + 1]) if kind == "draft" else ""
    return {"submit": f"submit,{name},,", "close": "close,,,"}.get(kind, f"{kind},{name},{counts},{amount}")


def drawn_round(rng: random.Random, supply: Sequence[int], bidders: int) -> list[str]:
    """A clock round where most bidders ask for much, with a few other lines, and its close."""
    eager = [j for j in range(bidders) if rng.random() < 0.9]
    lines = [f"bid,b{j},{' '.join(str(rng.choice([s, rng.randint(s // 2, s)])) for s in supply)}," for j in eager]
    lines += [
        drawn_line(rng, supply, bidders, ["bid", "bid", "draft", "submit", "drop"])
        for _ in range(rng.choice([0, 0, 1, 3]))
    ]
    return rng.sample(lines, len(lines)) + ["close,,,"]


def clock_bids(award_text: str, lines: Sequence[str]) -> list[list[tuple[tuple[int, ...], int]]]:
    """What each bidder asked for in the clock, each package with its price then."""
    award = read_award(award_text.encode())
    auction = replay(award, read_log("\n".join(lines).encode(), award))
    return [
        [(package, amount) for _, package, amount in auction.clock_bids(j)] for j in range(1, len(award.bidders) + 1)
    ]


def near_draft(rng: random.Random, supply: Sequence[int], asked: Asked) -> str:
    """A draft for a package that the bidder asked for, or one that differs in a category, at about its price then."""
    j = rng.randrange(len(asked))
    nothing: tuple[Sequence[int], int] = [0] * len(supply), 0
    counts, price = rng.choice(asked[j] or [nothing])
    package = list(counts)
    if rng.random() < 0.5:
        k = rng.randrange(len(supply))
        package[k] = rng.randint(0, supply[k])
    amount = max(0, price + rng.choice([-1, 0, 0, 0, 1, 2, 5, 20, 60]))
    return f"draft,b{j},{' '.join(map(str, package))},{amount}"


def drawn_log(rng: random.Random, award: str, supply: Sequence[int], bidders: int) -> str:
    """Rounds of bids, a round with one bid or none, which ends the clock, and then drafts, submissions and the last
    close."""
    sealed = ["draft", "drop", "submit", "submit", "submit", "bid"]
    lines = [line for _ in range(rng.randint(0, 5)) for line in drawn_round(rng, supply, bidders)]
    lines += [drawn_line(rng, supply, 1, ["bid"])] if rng.random() < 0.6 else []
    lines += ["close,,,"] if rng.random() < 0.9 else []
    asked = clock_bids(award, lines)
    near = rng.choice([0.3, 0.8])

    def drawn() -> str:
        is_near = rng.random() < near
        return near_draft(rng, supply, asked) if is_near else drawn_line(rng, supply, bidders, sealed)

    lines += [drawn() for _ in range(rng.choice([rng.randint(0, 12), rng.randint(20, 60)]))]
    lines += ["close,,,"] if rng.random() < 0.9 else []
    lines += [drawn_line(rng, supply, bidders, sealed + ["close"]) for _ in range(rng.randint(0, 2))]
    return "".join(line + "\n" for line in lines)


# ---- the runs ----


class Comparison:
    """Runs of both programs, and their results."""

    def __init__(self, cca: str, folder: str) -> None:
        self.cca, self.folder = cca, folder
        self.kinds: collections.Counter[str] = collections.Counter()
        self.answers: collections.Counter[str] = collections.Counter()
        self.replies: collections.Counter[str] = collections.Counter()
        self.differ: collections.Counter[str] = collections.Counter()

    def path(self, name: str, text: str | None = None) -> str:
        path = os.path.join(self.folder, name)
        if text is None:
            if os.path.exists(path):
                os.remove(path)
        else:
            with open(path, "w", newline="") as f:
                f.write(text)
        return path

    def count(self, kind: str, same: bool, answer: str, texts: Mapping[str, str]) -> None:
        self.kinds[kind] += 1
        self.answers[re.sub(r"^(no \w\d|cca: refused \w+) .*", r"\1", answer)] += 1
        if not same:
            self.differ[kind] += 1
            keep = tempfile.mkdtemp(prefix="second_proof_differs_")
            for name, text in texts.items():
                with open(os.path.join(keep, name), "w", newline="") as f:
                    f.write(text)
            print(f"{kind}: differs, see {keep}")

    def check(self, kind: str, command: str, texts: Mapping[str, str]) -> None:
        """Runs both programs on these files, in the order of the command's arguments."""
        self.both(kind, [command] + [self.path(name, text) for name, text in texts.items()], texts)

    def both(self, kind: str, words: Sequence[str], texts: Mapping[str, str]) -> None:
        """Runs both programs with these arguments."""
        ours, theirs = (
            subprocess.run([program, *words], capture_output=True, text=True) for program in (self.cca, CHECKER)
        )
        same = (ours.stdout, ours.returncode) == (theirs.stdout, theirs.returncode)
        self.count(
            kind, same, ours.stdout.split("\n")[0], {**texts, "cca.said": ours.stdout, "checker.said": theirs.stdout}
        )

    def certificate(self, command: str, texts: Mapping[str, str]) -> str | None:
        """What cca writes of these files, or None."""
        names = [self.path(name, text) for name, text in texts.items()]
        cert = self.path("cert")
        done = subprocess.run([self.cca, command, *names, cert], capture_output=True)
        if done.returncode != 0:
            return None
        with open(cert) as f:
            return f.read()

    def log(self, rng: random.Random) -> None:
        award, supply, bidders = drawn_award(rng)
        texts = {"award": plain_award(award.encode()).decode(), "log": drawn_log(rng, award, supply, bidders)}
        names = [self.path(name, text) for name, text in texts.items()]
        made = self.path("made.book")
        ours = subprocess.run([self.cca, "auction", *names, made], capture_output=True, text=True)
        book = open(made).read() if os.path.exists(made) else ""
        theirs = subprocess.run([CHECKER, "auction", *names], capture_output=True, text=True)
        same = (ours.stdout + book, ours.returncode) == (theirs.stdout, theirs.returncode)
        self.replies.update(line.split()[1] for line in ours.stdout.splitlines() if line[0].isdigit())
        last = "log, a book" if book else "log, " + re.sub(r"\d+$", "", ours.stdout.rstrip().split("\n")[-1])
        self.count("logs", same, last, {**texts, "cca.said": ours.stdout + book, "checker.said": theirs.stdout})
        self.audits(rng, texts)

    def audits(self, rng: random.Random, texts: Mapping[str, str]) -> None:
        """Audits of one log: of its certificate as made, altered and damaged, or of one of no form."""
        cert = self.certificate("award", texts)
        if cert is None:
            self.check("audit, no book", "audit", {**texts, "cert": "cert 1\n"})
            return
        self.check("audit, as made", "audit", {**texts, "cert": cert})
        for _ in range(3):
            self.check("audit, altered", "audit", {**texts, "cert": altered(rng, cert)})
        self.check("audit, damaged certificate", "audit", {**texts, "cert": damaged(rng, cert)})
        lines = texts["log"].splitlines(keepends=True)
        short = "".join(rng.sample(lines, len(lines) - 1)) if len(lines) > 1 else ""
        self.check("audit, another log", "audit", {**texts, "log": short, "cert": cert})


def drawn_subject(rng: random.Random) -> tuple[str, str, dict[str, str]]:
    """The commands that write and test a certificate, and the files that it is for."""
    kind = rng.randrange(10)
    if kind < 3:
        return "place", "place-check", {"slots": drawn_slots(rng)}
    book = drawn_book(rng)
    if kind < 6:
        return "weigh", "weigh-check", {"book": book, "weights": drawn_weights(rng, book)}
    return "price", "check", {"book": book}


def runs_of(rng: random.Random, comparison: Comparison) -> None:
    """The runs on one subject: certificates as made, altered and damaged, and damaged subjects."""
    write, test, files = drawn_subject(rng)
    cert = comparison.certificate(write, files)
    if cert is None:
        return
    comparison.check(f"{test}, as made", test, {**files, "cert": cert})
    comparison.check(f"{test}, scaled", test, {**files, "cert": scaled(rng, cert)})
    for _ in range(6):
        comparison.check(f"{test}, altered", test, {**files, "cert": altered(rng, cert)})
    comparison.check(f"{test}, scaled and altered", test, {**files, "cert": altered(rng, scaled(rng, cert))})
    for _ in range(4):
        comparison.check(f"{test}, damaged certificate", test, {**files, "cert": damaged(rng, cert)})
    for text in tied_certificates(files["book"], cert) if "book" in files else []:
        comparison.check(f"{test}, tied choice", test, {**files, "cert": text})
    runs_of_subject(rng, comparison, test, files, cert)


def runs_of_subject(rng: random.Random, comparison: Comparison, test: str, files: Mapping[str, str], cert: str) -> None:
    """The certificate with a damaged and with another book, weights or slots."""

    def another(fields: list[str]) -> list[str]:
        return fields[:-1] + [str(rng.randint(1, 20))] if fields else fields

    for name, text in files.items():
        comparison.check(f"{test}, damaged {name}", test, {**files, name: damaged(rng, text), "cert": cert})
        other = with_line(rng, text, ["bid", "place", "weight", "bidder"], another)
        comparison.check(f"{test}, another {name}", test, {**files, name: other, "cert": cert})


def run_limits(comparison: Comparison) -> None:
    for book in limit_books():
        comparison.check("check, limits", "check", {"book": book, "cert": "cert 1\n"})
    for slots in limit_slots():
        comparison.check("place-check, limits", "place-check", {"slots": slots, "cert": "pcert 1\n"})
    book = "book 1\nsupply 1\nreserve 0\nend\n"
    for more in (67108864, 67108865):
        comparison.check("check, limits", "check", {"book": book, "cert": "cert 1\n" + "#" * (more - 7)})
    for more in (65536, 65537):
        weights = "weights 1\n" + "#" * (more - 10)
        comparison.check("weigh-check, limits", "weigh-check", {"book": book, "weights": weights, "cert": "cert 1\n"})


def run_words(comparison: Comparison) -> None:
    """Words of no plain form, and files that are missing."""
    book, cert, missing = (
        comparison.path("book", "book 1\nsupply 1\nreserve 0\nend\n"),
        comparison.path("cert", "cert 1\n"),
        comparison.path("none"),
    )
    for words in [
        ["check"],
        ["check", book],
        ["check", book, book],
        ["check", "-book", cert],
        ["check", "", cert],
        ["check", book, cert, cert],
        ["weigh-check", book, cert],
        ["weigh-check", book, cert, book],
        ["place-check", cert],
        ["place-check", cert, cert],
        ["check", comparison.folder, cert],
        ["check", missing, cert],
        ["check", book, missing],
        ["weigh-check", book, missing, cert],
        ["place-check", missing, cert],
    ]:
        comparison.both("words and missing files", words, {})


def run_spectrum(rng: random.Random, comparison: Comparison) -> None:
    """The sample of the spectrum, whose certificate is some 300 kilobytes."""
    with open(os.path.join(HERE, "..", "examples", "six-bidders.book")) as f:
        book = f.read()
    cert = comparison.certificate("price", {"book": book})
    if cert is None:
        raise ValueError("the sample has no certificate")
    for text in (
        [cert, scaled(rng, cert)] + [altered(rng, cert) for _ in range(8)] + [damaged(rng, cert) for _ in range(4)]
    ):
        comparison.check("check, spectrum", "check", {"book": book, "cert": text})


def run_all(rng: random.Random, number: int, comparison: Comparison) -> None:
    """Drawn files, and then arguments, limits and the sample."""
    while sum(comparison.kinds.values()) < number:
        runs_of(rng, comparison)
        comparison.log(rng)
    run_words(comparison)
    run_limits(comparison)
    run_spectrum(rng, comparison)


def main(number: int, seed: int) -> int:
    rng = random.Random(seed)
    with tempfile.TemporaryDirectory() as folder:
        comparison = Comparison(prepared(), folder)
        try:
            run_all(rng, number, comparison)
        except KeyboardInterrupt:
            print("stopped; so far:")
    for kind, runs in sorted(comparison.kinds.items()):
        print(f"{runs:6} {kind}: {comparison.differ[kind]} differ")
    print(f"{sum(comparison.kinds.values())} runs, {sum(comparison.differ.values())} differ")
    for counts in comparison.answers, comparison.replies:
        print(", ".join(f"{count} {word}" for word, count in sorted(counts.items())))
    return 1 if comparison.differ else 0
