"""Files that reach each limit of crates/limits, and files that are one beyond it, with what both programs answer.

A scene makes the run of a value: `is_over` is whether the value is beyond the limit. What is printed is written here
from the pages, never taken from a program.
"""

from __future__ import annotations

import functools
import itertools
import math
import typing
from collections.abc import Callable, Iterable, Iterator, Sequence

from checks.cases.limit_pages import page_limits
from checks.cases.samples import certificate_of

Files = dict[str, bytes]
MOST = page_limits()
# What a command prints of an empty certificate, and of an empty log: all before it was taken.
NO_CERT, NO_LOG = "cca: refused cert 0", "cca: refused log 1"
BOOK_HEAD = "book 1\nsupply 1\n"
SLOTS_HEAD = "slots 1\n"
STEP = "\n[[step]]\nexcess = 1\npermille = 1\n"
AWARD = (
    "version = 1\ntick = 1\n\n"
    '[[category]]\nname = "a"\nsupply = 1\npoints = 0\nreserve = 0\n\n'
    '[[bidder]]\nname = "x"\neligibility = 0\n\n[[bidder]]\nname = "y"\neligibility = 0\n' + STEP
)
# Both ask for the only lot, so that its price rises; only x does, so that the clock ends.
BOTH, ONE, CLOSE = "bid,x,1,\nbid,y,1,\n", "bid,x,1,\n", "close,,,\n"
# 320 packages of at most 34 lots; the drafts of one bidder are the greatest of them.
GRID = (19, 15)
WIDE_AWARD = (
    "version = 1\ntick = 1\n\n"
    '[[category]]\nname = "a"\nsupply = 19\npoints = 1\nreserve = 0\n\n'
    '[[category]]\nname = "b"\nsupply = 15\npoints = 1\nreserve = 0\n\n'
    '[[bidder]]\nname = "x"\neligibility = 34\n\n[[step]]\nexcess = 1\npermille = 1\n'
)


class Run(typing.NamedTuple):
    """A command with the names of its files, their bytes, and what is printed without the last line feed."""

    words: str
    files: Files
    printed: str

    @property
    def status(self) -> int:
        """The status that goes with the last line."""
        last, kinds = self.printed.rpartition("\n")[2], {"cca: refused": 3, "cca: limit": 7}
        return next((status for start, status in kinds.items() if last.startswith(start)), 0)


Scene = Callable[[int, bool], Run]


def of_book(text: str, fault: str = "") -> Run:
    """A run that reads a book, and then an empty certificate."""
    return Run("check BOOK CERT", {"BOOK": text.encode(), "CERT": b""}, fault or NO_CERT)


def of_weights(text: bytes, fault: str = "") -> Run:
    """A run that reads the weights of one bidder, and then an empty certificate."""
    book = b"book 1\nsupply 1\nreserve 0\nbidder east\nend\n"
    return Run("weigh-check BOOK WEIGHTS CERT", {"BOOK": book, "WEIGHTS": text, "CERT": b""}, fault or NO_CERT)


def of_slots(text: bytes, fault: str = "") -> Run:
    """A run that reads slots, and then an empty certificate."""
    return Run("place-check SLOTS CERT", {"SLOTS": text, "CERT": b""}, fault or NO_CERT)


def of_award(text: str, fault: str = "") -> Run:
    """A run that reads an award, and then an empty log."""
    return Run("audit AWARD LOG CERT", {"AWARD": text.encode(), "LOG": b"", "CERT": b""}, fault or NO_LOG)


def of_log(text: str, printed: str, award: str = AWARD) -> Run:
    """A run that reads a log, and then an empty certificate."""
    files = {"AWARD": award.encode(), "LOG": text.encode(), "CERT": b""}
    return Run("audit AWARD LOG CERT", files, printed)


def of_edits(edit: str, fault: str, reply: str) -> Run:
    """A run that reads an edit of a book of one lot with a bidder x."""
    files = {"BOOK": BOOK_HEAD.encode() + b"reserve 0\nbidder x\nend\n", "EDITS": f"edits 1\n{edit}\nend\n".encode()}
    return Run("review BOOK EDITS", files, fault or f"0 net 0 choice 0\n1 {reply}\nnet 0")


def of_cert(book: str, cert: str, place: int, kind: str = "BOOK") -> Run:
    """A run that reads a certificate whose first faulty line begins at this byte."""
    words = {"BOOK": "check BOOK CERT", "SLOTS": "place-check SLOTS CERT"}[kind]
    return Run(words, {kind: book.encode(), "CERT": cert.encode()}, f"cca: refused cert {place}")


def with_field(old: str, new: str, fault: str) -> Run:
    """A run of the award with another field."""
    return of_award(AWARD.replace(old, new), fault)


def book_of(supply: str, reserve: str = "", bidders: str = "") -> str:
    """A book; its reserves are 0 if none are given."""
    return f"book 1\nsupply {supply}\nreserve{reserve or ' 0' * len(supply.split())}\n{bidders}end\n"


def numbered(count: int, line: str) -> str:
    """This many lines; `#` stands for the number of the line."""
    return "".join(line.replace("#", str(number)) for number in range(1, count + 1))


def states_of(supply: Iterable[int]) -> int:
    """How many states a supply has."""
    return math.prod(count + 1 for count in supply)


def supplies(size: int, lots: int, least: int = 1) -> Iterator[tuple[int, ...]]:
    """All supplies of at most `size` categories and `lots` lots, each once in rising order."""
    if size:
        for count in range(least, lots + 1):
            yield (count,)
            yield from ((count, *rest) for rest in supplies(size - 1, lots - count, count))


@functools.cache
def supply_at(states: int, is_over: bool) -> tuple[int, ...]:
    """A supply with this many states, or with the fewest states that are at least as many."""
    every = supplies(MOST["categories"], MOST["lots"])
    found = min((it for it in every if states_of(it) >= states), key=states_of)
    if not is_over and states_of(found) != states:
        raise ValueError(f"no supply has {states} states")
    return found


def price_before(price: int) -> int:
    """A price that a raise by one thousandth, with tick 1, turns into this one."""
    near = range(price * 1000 // 1001 - 3, price * 1000 // 1001 + 4)
    return next(it for it in near if it + -(-it // 1000) == price)


def drafted(drafts: Sequence[tuple[tuple[int, ...], int]], listed: Sequence[tuple[tuple[int, ...], int]]) -> Run:
    """An audit of an auction where bidder x sends drafts, lists some of them, and wins with the first of the greatest
    amounts at a price of 0."""
    lines = [f"draft,x,{a} {b},{amount}\n" for (a, b), amount in drafts]
    log = f"bid,x,{GRID[0]} {GRID[1]},\nclose,,,\n{''.join(lines)}submit,x,,\nclose,,,\n"
    bids = sorted(listed)
    most = max(amount for _, amount in bids)
    number, package = next((i, it) for i, (it, amount) in enumerate(bids, 1) if amount == most)
    cert = certificate_of(GRID, [bids], (number,), {1: (0,)}, 1, (0,), [((1,), 1, 0, (0,))])
    printed = f"yes\nwinner x {package[0]} {package[1]} bid {most} vickrey 0 pays 0\nnet {most}\nrevenue 0"
    return Run("audit AWARD LOG CERT", {"AWARD": WIDE_AWARD.encode(), "LOG": log.encode(), "CERT": cert}, printed)


def drafts_of_a_list(n: int, is_over: bool) -> Run:
    """That many drafts of one amount, each of a smaller package than the one before. The last that is listed wins,
    since it comes first in the order of ties."""
    packages = sorted(itertools.product(range(GRID[0] + 1), range(GRID[1] + 1)), reverse=True)[:n]
    drafts = [(package, 5) for package in packages]
    return drafted(drafts, drafts[: n - is_over])


def amount_of_a_draft(n: int, is_over: bool) -> Run:
    """A draft for 7, and another amount for its package."""
    return drafted([(GRID, 7), (GRID, n)], [(GRID, 7 if is_over else n)])


def replies(n: int, is_over: bool) -> Run:
    """The replies to that many drafts."""
    packages = list(itertools.product(range(GRID[0] + 1), range(GRID[1] + 1)))[1 : n + 1]
    log = "bid,x,0 0,\nclose,,,\n" + "".join(f"draft,x,{a} {b},5\n" for a, b in packages)
    said = [f"{number} ok" for number in range(3, n + 3 - is_over)] + [f"{n + 2} full {n - 1}"] * is_over
    printed = "\n".join(["1 ok", "2 sealed", *said, f"cca: refused log {n + 3}"])
    return Run("auction AWARD LOG BOOK", {"AWARD": WIDE_AWARD.encode(), "LOG": log.encode()}, printed)


def bytes_of_an_award(n: int, is_over: bool) -> Run:
    """An award that ends with a comment."""
    text = AWARD + "#" * (n - len(AWARD) - 1) + "\n"
    return of_award(text, f"cca: limit bytes {n}" if is_over else "")


def bytes_of_a_log(n: int, is_over: bool) -> Run:
    """A record of a log, and blank lines, which aren't records."""
    text = CLOSE + "\n" * (n - len(CLOSE))
    return of_log(text, f"cca: limit bytes {n}" if is_over else "cca: refused log 2")


def junk(run: Callable[[bytes, str], Run], kind: str) -> Scene:
    """A file that is judged within its limit; beyond the limit only its length counts. No file of its form is this
    long."""

    def scene(n: int, is_over: bool) -> Run:
        return run(b"x" * n, f"cca: limit bytes {n}" if is_over else f"cca: refused {kind} 0")

    return scene


def junk_book(text: bytes, fault: str) -> Run:
    """A run over such a book."""
    return of_book(text.decode(), fault)


def junk_cert(text: bytes, fault: str) -> Run:
    """A run over such a certificate of a book."""
    return Run("check BOOK CERT", {"BOOK": book_of("1").encode(), "CERT": text}, fault)


def junk_place_cert(text: bytes, fault: str) -> Run:
    """A run over such a certificate of a placement."""
    return Run("place-check SLOTS CERT", {"SLOTS": b"slots 1\nband 1\nend\n", "CERT": text}, fault)


def junk_edits(text: bytes, fault: str) -> Run:
    """A run over such a file of edits."""
    return Run("review BOOK EDITS", {"BOOK": book_of("1").encode(), "EDITS": text}, fault)


def edits_of_a_file(n: int, is_over: bool) -> Run:
    """That many edits of a bidder that the book does not have."""
    edits, lines = numbered(n, "drop x 0\n"), numbered(n, "# unknown\n")
    files = {"BOOK": book_of("1").encode(), "EDITS": f"edits 1\n{edits}end\n".encode()}
    printed = f"0 net 0 choice\n{lines}net 0"
    return Run("review BOOK EDITS", files, f"cca: limit records {n}" if is_over else printed)


def categories_of_a_book(n: int, is_over: bool) -> Run:
    """One lot of each category."""
    return of_book(book_of(" ".join(["1"] * n)), f"cca: limit categories {n}" if is_over else "")


def categories_of_an_award(n: int, is_over: bool) -> Run:
    """One lot of each category."""
    head, rest = AWARD.split("[[category]]")
    category, rest = rest.split("[[bidder]]", 1)
    tables = [f"[[category]]{category}".replace('"a"', f'"c{c}"') for c in range(n)]
    return of_award(f"{head}{''.join(tables)}[[bidder]]{rest}", f"cca: limit categories {n}" if is_over else "")


def count_of_a_supply(n: int, is_over: bool) -> Run:
    """A supply of a book that is within its form, but not within the limit of lots."""
    return of_book(book_of(f"{n}"), "cca: refused book 7" if is_over else f"cca: limit lots {n}")


def count_of_an_award(n: int, is_over: bool) -> Run:
    """A supply of an award that is within its form, but not within the limit of lots."""
    return with_field("supply = 1", f"supply = {n}", "cca: refused award 5 1" if is_over else f"cca: limit lots {n}")


def count_of_a_holding(n: int, is_over: bool) -> Run:
    """The holding of the first bidder: lots that it already owns."""
    text = AWARD.replace("eligibility = 0", f"eligibility = 0\nholding = [{n}]", 1)
    return of_award(text, "cca: refused award 11 1" if is_over else "")


def count_of_a_band(n: int, is_over: bool) -> Run:
    """A band that is within its form, but not within the limit of its slots."""
    fault = f"cca: refused slots {len(SLOTS_HEAD)}" if is_over else f"cca: limit lots {n}"
    return of_slots(f"{SLOTS_HEAD}band {n}\nend\n".encode(), fault)


def lots_of_a_book(n: int, is_over: bool) -> Run:
    """All lots in two categories."""
    return of_book(book_of(f"{n - 20} 20"), f"cca: limit lots {n}" if is_over else "")


def lots_of_an_award(n: int, is_over: bool) -> Run:
    """All lots in one category."""
    return with_field("supply = 1", f"supply = {n}", f"cca: limit lots {n}" if is_over else "")


def slots_of_a_band(n: int, is_over: bool) -> Run:
    """A band of slots."""
    return of_slots(f"{SLOTS_HEAD}band {n}\nend\n".encode(), f"cca: limit lots {n}" if is_over else "")


def states_of_a_book(n: int, is_over: bool) -> Run:
    """A supply of as many states, or of the next number that a supply can have."""
    supply = supply_at(n, is_over)
    fault = f"cca: limit states {states_of(supply)}" if is_over else ""
    return of_book(book_of(" ".join(map(str, supply))), fault)


def bidders_of_a_book(n: int, is_over: bool) -> Run:
    """That many bidders."""
    return of_book(book_of("1", bidders=numbered(n, "bidder b#\n")), f"cca: limit bidders {n}" if is_over else "")


def bidders_of_an_award(n: int, is_over: bool) -> Run:
    """That many bidders."""
    tables = numbered(n - 2, '[[bidder]]\nname = "b#"\neligibility = 0\n\n')
    return of_award(AWARD.replace("[[step]]", f"{tables}[[step]]"), f"cca: limit bidders {n}" if is_over else "")


def bids_of_a_bidder(n: int, is_over: bool) -> Run:
    """That many packages of one bidder."""
    packages = itertools.islice(itertools.product(range(11), repeat=3), 1, n + 1)
    bids = "".join(f"bid {a} {b} {c} 1\n" for a, b, c in packages)
    return of_book(book_of("10 10 10", bidders=f"bidder x\n{bids}"), f"cca: limit bids {n}" if is_over else "")


def records_of_a_log(n: int, is_over: bool) -> Run:
    """This many closes; the second one ends the auction."""
    return of_log(CLOSE * n, f"cca: limit records {n}" if is_over else NO_CERT)


def rounds_of_a_clock(n: int, is_over: bool) -> Run:
    """A clock where the demand exceeds the supply in all rounds before round `n`, and not in round `n`."""
    last = f"{ONE}{CLOSE}{CLOSE}"
    return of_log((BOTH + CLOSE) * (n - 1) + last, f"cca: limit rounds {n}" if is_over else NO_CERT)


def price_of_a_clock(n: int, is_over: bool) -> Run:
    """A close that would post this price."""
    award = AWARD.replace("reserve = 0", f"reserve = {price_before(n)}")
    log = f"{BOTH}{CLOSE}{ONE}{CLOSE}{CLOSE}"
    return of_log(log, f"cca: limit price {n}" if is_over else NO_CERT, award)


def price_of_a_book(n: int, is_over: bool) -> Run:
    """A reserve of a book."""
    return of_book(book_of("1", f" {n}"), f"cca: refused book {len(BOOK_HEAD)}" if is_over else "")


def name_of_a_bidder(n: int, is_over: bool) -> Run:
    """A name of that many letters."""
    front = book_of("1").removesuffix("end\n")
    return of_book(f"{front}bidder {'x' * n}\nend\n", f"cca: refused book {len(front)}" if is_over else "")


def name_of_an_award(n: int, is_over: bool) -> Run:
    """A name of that many letters."""
    return with_field('"x"', f'"{"z" * n}"', "cca: refused award 9 1" if is_over else "")


def amount_of_a_bid(n: int, is_over: bool) -> Run:
    """A bid of this amount."""
    front = book_of("1", bidders="bidder x\n").removesuffix("end\n")
    return of_book(f"{front}bid 1 {n}\nend\n", f"cca: refused book {len(front)}" if is_over else "")


def amount_of_a_place(n: int, is_over: bool) -> Run:
    """A bid for a start of this amount."""
    front = f"{SLOTS_HEAD}band 1\nbidder x 1\n"
    fault = f"cca: refused slots {len(front)}" if is_over else ""
    return of_slots(f"{front}place 1 {n}\nend\n".encode(), fault)


def amount_of_an_edit(n: int, is_over: bool) -> Run:
    """An edit that adds a bid of this amount."""
    if is_over:
        return of_edits(f"add x 1 {n}", "", f"amount-top {n - 1}")
    run = of_edits(f"add x 1 {n}", "", f"net {n} choice 1")
    return run._replace(printed=f"0 net 0 choice 0\n1 net {n} choice 1\nwinner x 1 {n}\nnet {n}")


def weight_of_a_bidder(n: int, is_over: bool) -> Run:
    """A weight."""
    return of_weights(f"weights 1\nweight east {n}\nend\n".encode(), "cca: refused weights 10" if is_over else "")


def winning(n: int, words: str, weights: str, fault: str) -> Run:
    """This many bidders. Each wins a lot for the greatest amount, since there is a lot for each."""
    most = MOST["amount"]
    files = {"BOOK": book_of(f"{n}", bidders=numbered(n, f"bidder b#\nbid 1 {most}\n")).encode()}
    if weights:
        files["WEIGHTS"] = f"weights 1\n{numbered(n, weights)}end\n".encode()
    lines = numbered(n, f"winner b# 1 bid {most} vickrey 0 pays 0\n")
    return Run(words, files, fault or f"{lines}net {n * most}\nrevenue 0")


def winners(n: int, is_over: bool) -> Run:
    """That many winners."""
    return winning(n, "price BOOK CERT", "", f"cca: limit winners {n}" if is_over else "")


def weighted_winners(n: int, is_over: bool) -> Run:
    """That many winners of weight 2."""
    fault = f"cca: limit winners {n}" if is_over else ""
    return winning(n, "weigh BOOK WEIGHTS CERT", "weight b# 2\n", fault)


def value_of_a_choice(n: int, _is_over: bool) -> Run:
    """All bidders win for the greatest amount. No book has a greater value."""
    count, most = n // MOST["amount"], MOST["amount"]
    book = book_of(f"{count}", bidders=numbered(count, f"bidder b#\nbid 1 {most}\n"))
    lines = numbered(count, f"winner b# 1 {most}\n")
    return Run("win BOOK", {"BOOK": book.encode()}, f"{lines}net {n}")


def rows_of_a_cert(n: int, is_over: bool) -> Run:
    """A certificate that breaks off after the number of its rows."""
    book = book_of("1", bidders="bidder x\nbid 1 5\n")
    front = "cert 1\nden 1\nvalue 5\nchoice 1\ntable\nt 0 5\nt 0 0\nwithout 1\nchoice 0\ntable\nt 0 0\nt 0 0\npay 0\n"
    cert = f"{front}rows {n}\n"
    return of_cert(book, cert, len(front if is_over else cert))


def rows_of_a_place_cert(n: int, is_over: bool) -> Run:
    """A certificate of a placement that breaks off after the number of its rows."""
    slots = f"{SLOTS_HEAD}band 1\nbidder x 1\nplace 1 5\nend\n"
    head = "pcert 1\nden 1\nvalue 5\norder 1\nchoice 1\ntable\nt 5 0\n"
    front = f"{head}without 1\norder 1\nchoice 0\ntable\nt 0 0\npay 0\n"
    cert = f"{front}rows {n}\n"
    return of_cert(slots, cert, len(front if is_over else cert), "SLOTS")


def number_of_a_choice(n: int, is_over: bool) -> Run:
    """A certificate that breaks off after a number that names no bid."""
    front = "cert 1\nden 1\nvalue 5\n"
    cert = f"{front}choice {n}\n"
    return of_cert(book_of("1", bidders="bidder x\nbid 1 5\n"), cert, len(front if is_over else cert))


def number_of_an_order(n: int, is_over: bool) -> Run:
    """A certificate of a placement that breaks off after a number of its order."""
    front = "pcert 1\nden 1\nvalue 5\n"
    cert = f"{front}order {n}\n"
    return of_cert(f"{SLOTS_HEAD}band 1\nbidder x 1\nend\n", cert, len(front if is_over else cert), "SLOTS")


def bidders_of_a_band(n: int, is_over: bool) -> Run:
    """That many bidders of one slot each."""
    text = f"{SLOTS_HEAD}band 40\n".encode() + numbered(n, "bidder b# 1\n").encode() + b"end\n"
    return of_slots(text, f"cca: limit bidders {n}" if is_over else "")


def first_version(book: Callable[[int, bool], str]) -> tuple[Scene, Scene]:
    """Certificates that break off after their head, of the first version and of the second."""
    second = f"cert 2\nlimits {MOST['bidders']} {MOST['states']}\n"

    def first(n: int, is_over: bool) -> Run:
        return of_cert(book(n, is_over), "cert 1\n", 0 if is_over else len("cert 1\n"))

    def other(n: int, is_over: bool) -> Run:
        return of_cert(book(n, is_over), second, len(second) if is_over else 0)

    return first, other


def many_bidders(n: int, _is_over: bool) -> str:
    """A book of that many bidders."""
    return book_of("1", bidders=numbered(n, "bidder b#\n"))


def many_states(n: int, is_over: bool) -> str:
    """A book of as many states, or of the next number that a supply can have."""
    return book_of(" ".join(map(str, supply_at(n, is_over))))


def field(old: str, new: str, fault: str) -> Scene:
    """The field of an award with the value; `fault` has its number and its table's number."""
    return lambda n, is_over: with_field(
        old, new.replace("#", str(n)), f"cca: refused award {fault}" if is_over else ""
    )


def tables(text: str, fault: str) -> Scene:
    """That many tables at the end of the award, whose own step goes if they are steps."""

    def scene(n: int, is_over: bool) -> Run:
        award = AWARD.replace(STEP, "") if "step" in text else AWARD
        return of_award(award + numbered(n, f"\n{text}"), fault * is_over)

    return scene


def record(text: str) -> Scene:
    """A log of one record with the value."""

    def scene(n: int, is_over: bool) -> Run:
        return of_log(text.replace("#", str(n)), "cca: refused log 1" if is_over else "cca: refused log 2")

    return scene


def edit(text: str, reply: str) -> Scene:
    """An edit with the value, which is of its form and refused."""
    return lambda n, is_over: of_edits(text.replace("#", str(n)), "cca: refused edits 8" if is_over else "", reply)


# By the name of a constant of crates/limits the name of the page's number, and the scenes.
SCENES: dict[str, tuple[str, list[Scene]]] = {
    "AWARD_BYTES": ("award bytes", [bytes_of_an_award]),
    "LOG_BYTES": ("log bytes", [bytes_of_a_log]),
    "BOOK_BYTES": ("book bytes", [junk(junk_book, "book")]),
    "CERT_BYTES": ("cert bytes", [junk(junk_cert, "cert"), junk(junk_place_cert, "cert")]),
    "WEIGHTS_BYTES": ("weights bytes", [junk(of_weights, "weights")]),
    "SLOTS_BYTES": ("slots bytes", [junk(of_slots, "slots")]),
    "EDITS_BYTES": ("edits bytes", [junk(junk_edits, "edits")]),
    "MOST_EDITS": ("edits", [edits_of_a_file]),
    "MOST_CATEGORIES": ("categories", [categories_of_a_book, categories_of_an_award]),
    "MOST_COUNT": ("supply", [count_of_a_supply, count_of_an_award, count_of_a_holding, count_of_a_band]),
    "MOST_LOTS": ("lots", [lots_of_a_book, lots_of_an_award, slots_of_a_band]),
    "MOST_STATES": ("states", [states_of_a_book]),
    "MOST_BIDDERS": ("bidders", [bidders_of_a_book, bidders_of_an_award]),
    "MOST_BIDS": ("bids", [bids_of_a_bidder]),
    "MOST_RECORDS": ("records", [records_of_a_log]),
    "MOST_ROUNDS": ("rounds", [rounds_of_a_clock]),
    "MOST_DRAFTS": ("drafts", [drafts_of_a_list, replies]),
    "MOST_POINTS": ("points", [field("points = 0", "points = #", "6 1")]),
    "MOST_ELIGIBILITY": ("eligibility", [field('"x"\neligibility = 0', '"x"\neligibility = #', "10 1")]),
    "MOST_STEPS": ("steps", [tables("[[step]]\nexcess = #\npermille = 1\n", "cca: refused award 12 0")]),
    "MOST_EXCESS": (
        "step excess",
        [field("permille = 1\n", "permille = 1\n\n[[step]]\nexcess = #\npermille = 1\n", "13 2")],
    ),
    "MOST_PERMILLE": ("permille", [field("permille = 1\n", "permille = #\n", "14 1")]),
    "MOST_CAPS": ("caps", [tables("[[cap]]\nweight = [1]\nlimit = 1\n", "cca: refused award 15 0")]),
    "MOST_CAP_WEIGHT": (
        "cap weight",
        [field("permille = 1\n", "permille = 1\n\n[[cap]]\nweight = [#]\nlimit = 1\n", "16 1")],
    ),
    "MOST_CAP_LIMIT": (
        "cap limit",
        [field("permille = 1\n", "permille = 1\n\n[[cap]]\nweight = [1]\nlimit = #\n", "17 1")],
    ),
    "MOST_STATED_COUNT": ("count", [record("bid,x,#,\n"), record("drop,x,#,\n"), edit("drop x #", "supply 1")]),
    "MOST_STATED_AMOUNT": (
        "draft amount",
        [record("draft,x,1,#\n"), edit("add x 1 #", f"amount-top {MOST['amount']}")],
    ),
    "MOST_NAME_BYTES": ("name bytes", [name_of_a_bidder, name_of_an_award]),
    "MOST_PRICE": (
        "price",
        [
            price_of_a_clock,
            price_of_a_book,
            field("reserve = 0", "reserve = #", "7 1"),
            field("tick = 1", "tick = #", "2 0"),
        ],
    ),
    "MOST_AMOUNT": ("amount", [amount_of_a_bid, amount_of_a_draft, amount_of_a_place, amount_of_an_edit]),
    "MOST_WEIGHT": ("weight", [weight_of_a_bidder]),
    "MOST_WINNERS": ("winners", [winners]),
    "MOST_WEIGHTED_WINNERS": ("weighted winners", [weighted_winners]),
    "MOST_ROWS": ("rows", [rows_of_a_cert, rows_of_a_place_cert]),
    "MOST_CHOSEN": ("chosen", [number_of_a_choice, number_of_an_order]),
    "MOST_PLACED": ("placed bidders", [bidders_of_a_band]),
    "FIRST_VERSION_BIDDERS": ("first version bidders", [*first_version(many_bidders)]),
    "FIRST_VERSION_STATES": ("first version states", [*first_version(many_states)]),
}
# Constants that no file can exceed, since they follow from the limits of what they are made of, with what the pages
# make of them, and the scene that reaches one.
BOUNDS: dict[str, tuple[int, list[Scene]]] = {
    "MOST_VALUE": (MOST["bidders"] * MOST["amount"], [value_of_a_choice]),
    "MOST_WEIGHTED_VALUE": (2 * MOST["weighted winners"] * MOST["amount"], []),
    "PRICED_CERT_BYTES": (MOST["priced cert bytes"], []),
}


def runs() -> Iterator[tuple[str, Run]]:
    """Each run at a limit and each beyond one, with the constant's name and which of both it is."""
    for name, (limit, scenes) in SCENES.items():
        for at, scene in enumerate(scenes, 1):
            yield f"{name} {at} at {MOST[limit]}", scene(MOST[limit], False)
            yield f"{name} {at} beyond {MOST[limit]}", scene(MOST[limit] + 1, True)
    for name, (most, reaching) in BOUNDS.items():
        for scene in reaching:
            yield f"{name} at {most}", scene(most, False)
