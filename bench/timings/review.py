"""Times an edit of `cca review` on books at the limits, next to `cca win` from scratch.

It uses the books of `price`. First it raises a bid of the first, a middle and the last bidder, which changes no winner
as long as the bid stays too low. Then it takes out the bid of each winner and puts it in again, so that each edit
changes the winners. It prints the CPU time of one edit in milliseconds: the time of many edits less the time of few,
divided by the difference of their numbers, each time the least of the runs. Next to it are the time of `cca win`, less
the time of a start on the smallest book, what part of it an edit takes, and whether the winners after the edits are the
same as `cca win` prints for the edited book.
"""

from __future__ import annotations

import os
from collections.abc import Callable, Iterable, Iterator, Sequence

from checks.cases.limit_books import BIDDERS, CCA, KINDS, OUT, Bid, build_cca, priced_book, timed

FEW, MANY = 10, 110


def least_cpu(words: Sequence[str], runs: int) -> tuple[float, str]:
    found = [timed(words) for _ in range(runs)]
    return min(spent for spent, _ in found), found[-1][1]


def written(name: str, lines: Iterable[str]) -> str:
    path = os.path.join(OUT, name)
    with open(path, "w") as f:
        f.write("\n".join(lines) + "\n")
    return path


def raises(j: int, bid: Bid, count: int) -> list[str]:
    """Edits. Each edit raises the bid of bidder j by 1."""
    counts, amount = " ".join(map(str, bid[0])), bid[1]
    return [f"raise b{j} {counts} {amount + more}" for more in range(1, count + 1)]


def swaps(j: int, bid: Bid, count: int) -> list[str]:
    """Edits that take the bid of bidder j out and put it in again."""
    counts, amount = " ".join(map(str, bid[0])), bid[1]
    return [f"drop b{j} {counts}", f"add b{j} {counts} {amount}"] * (count // 2)


def edits_file(edits: Sequence[str]) -> str:
    return written(f"review-{len(edits)}.edits", ["edits 1", *edits, "end"])


def raised_book(book: str, j: int, bid: Bid, count: int) -> str:
    """The book with this bid of bidder j raised by the count."""
    counts, amount = " ".join(map(str, bid[0])), bid[1]
    with open(book) as f:
        lines = f.read().splitlines()
    at = lines.index(f"bidder b{j}") + 1
    while lines[at] != f"bid {counts} {amount}":
        at += 1
    lines[at] = f"bid {counts} {amount + count}"
    return written("raised.book", lines)


def winning_bids(book: str, bids: Sequence[Sequence[Bid]]) -> Iterator[tuple[int, Bid]]:
    """The bidder and the bid of each winner."""
    rows = [line.split() for line in timed([CCA, "win", book])[1].splitlines() if line.startswith("winner ")]
    for row in rows:
        j = int(row[1][1:])
        yield j, next(bid for bid in bids[j - 1] if list(bid[0]) == [int(n) for n in row[2:-1]])


def row(
    kind: str,
    what: str,
    book: str,
    j: int,
    edits_of: Callable[[int, Bid, int], list[str]],
    bid: Bid,
    after: str,
    scratch: float,
    runs: int,
) -> None:
    few, _ = least_cpu([CCA, "review", book, edits_file(edits_of(j, bid, FEW))], runs)
    many, text = least_cpu([CCA, "review", book, edits_file(edits_of(j, bid, MANY))], runs)
    edit = max(many - few, 0) / (MANY - FEW)
    last = "".join(text.splitlines(keepends=True)[MANY + 1 :])
    same = last == timed([CCA, "win", after])[1]
    print(f"{kind:<8}{what:<7}{j:>7}{edit:>10.3f}ms{scratch:>9.2f}ms{edit / scratch:>8.3f}  {same}")


def main(runs: int) -> None:
    build_cca()
    tiny = written("tiny.book", ["book 1", "supply 1", "reserve 0", "end"])
    start = least_cpu([CCA, "win", tiny], runs)[0]
    print(f"{'book':<8}{'edits':<7}{'bidder':>7}{'edit':>12}{'win':>11}{'part':>8}  same")
    for kind in KINDS:
        book, bids = priced_book(kind)
        scratch = least_cpu([CCA, "win", book], runs)[0] - start
        for j in (1, BIDDERS // 2, BIDDERS):
            bid = bids[j - 1][0]
            row(kind, "raise", book, j, raises, bid, raised_book(book, j, bid, MANY), scratch, runs)
        for j, bid in winning_bids(book, bids):
            row(kind, "swap", book, j, swaps, bid, book, scratch, runs)
