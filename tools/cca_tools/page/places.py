"""The places of the winners' lots in the band of a category, after `cca place` has found them."""

from __future__ import annotations

from collections.abc import Iterator, Sequence
from dataclasses import dataclass
from fractions import Fraction

from cca_tools.page.document import Content, Table, columns
from cca_tools.page.source import Source, given
from cca_tools.page.words import count, listed, price, price_cell
from cca_tools.rules.placement import PlaceCertificate, Slots, read_places, read_slots
from cca_tools.rules.placement_tests import first_fault
from cca_tools.rules.stops import NO, Stop, load, refused
from cca_tools.rules.types import BidderNumber


@dataclass(frozen=True)
class Run:
    """Adjacent lots of a category: their winner, or 0 if they are unsold, the number of the first lot in the band, how
    many there are, and what the winner pays for the place."""

    winner: BidderNumber
    first: int
    lots: int
    pays: Fraction = Fraction(0)

    @property
    def last(self) -> int:
        """The number of the last lot."""
        return self.first + self.lots - 1


def category_of(source: Source, name: str) -> int:
    """The place of a category, by its short name."""
    known = source.short_categories
    if name not in known:
        raise refused("slots", why=f"the award has no category `{name}`; it has {', '.join(known)}")
    return known.index(name)


def need_lots(source: Source, c: int, slots: Slots) -> None:
    """Stops unless the slots are the lots of the category, and their bidders are its winners with what they won."""
    category, supply = source.names.categories[c], given(source.book).supply[c]
    if slots.band != supply:
        why = f"the band has {count(slots.band, 'slot')}, and {category} has {count(supply, 'lot')}"
        raise refused("slots", why=why)
    won = {source.short_bidder(j): source.won(j)[0][c] for j in source.winners if source.won(j)[0][c]}
    for name, width in zip(slots.names, slots.widths):
        if won.get(name, 0) != width:
            wins = f"wins {won[name]}" if name in won else "wins none"
            raise refused("slots", why=f"bidder {name} has {count(width, 'slot')}, and {wins} of {category}")
    if missing := [name for name in won if name not in slots.names]:
        raise refused("slots", why=f"{listed(missing)} won lots of {category}, and the slots have no such bidder")


def runs_of(source: Source, slots: Slots, certificate: PlaceCertificate) -> list[Run]:
    """The lots of the band in order, from lot 1 on."""
    numbers = {source.short_bidder(j): j for j in source.winners}
    found, after = list[Run](), 1
    for k in certificate.choice.order:
        pays = Fraction(certificate.pay[k - 1], certificate.den)
        found.append(Run(numbers[slots.names[k - 1]], after, slots.widths[k - 1], pays))
        after += slots.widths[k - 1]
    if after <= slots.band:
        found.append(Run(0, after, slots.band + 1 - after))
    return found


def read_runs(source: Source, category: str, slots_file: str, cert_file: str) -> tuple[int, list[Run]]:
    """The place of a category with its lots as files place them. The certificate has to pass its tests."""
    c = category_of(source, category)
    slots = read_slots(load(slots_file, "slots"))
    need_lots(source, c, slots)
    certificate = read_places(load(cert_file, "cert"), slots)
    if fault := first_fault(slots, certificate):
        raise Stop(fault.line, NO, why=f"of the placement of {category}: {fault.text()}")
    return c, runs_of(source, slots, certificate)


def read_all(source: Source, placed: Sequence[Sequence[str]]) -> None:
    """Takes the placements of categories, each with its slots and certificate, into the report."""
    if placed and not source.has_prices:
        raise Stop("cca: words", 2, why="a placement is of an auction whose certificate passes")
    source.places = dict(read_runs(source, *it) for it in placed)


def edges(source: Source, c: int, run: Run) -> tuple[Fraction, Fraction] | None:
    """The frequencies where a run begins and ends, in MHz; None if the names don't have the start of the first lot."""
    found = source.frequencies(c)
    if found is None:
        return None
    start, step = found
    return start + step * (run.first - 1), start + step * run.last


def mhz(frequency: Fraction) -> str:
    """A frequency, as it is written: without commas."""
    return f"{float(frequency):.10g}"


def span(source: Source, c: int, run: Run) -> str:
    """The place of a run: its frequencies if they are known, or else the numbers of its lots."""
    found = edges(source, c, run)
    if found:
        return f"{mhz(found[0])} to {mhz(found[1])} MHz".replace(" ", "\N{NO-BREAK SPACE}")
    return f"lot {run.first}" if run.lots == 1 else f"lots {run.first} to {run.last}"


def of_winner(source: Source, j: BidderNumber) -> Iterator[str]:
    """The places of a winner's lots in the placed categories, a text for each category."""
    for c in sorted(source.places):
        for run in source.places[c]:
            if run.winner == j:
                yield f"{source.names.categories[c]}: {span(source, c, run)}"


def rows(source: Source, c: int) -> Iterator[list[Content]]:
    """A row for each run of a category."""
    for run in source.places[c]:
        who = source.names.bidder(run.winner) if run.winner else "unsold"
        lots = f"{run.first}" if run.lots == 1 else f"{run.first} to {run.last}"
        found = edges(source, c, run)
        wide: list[Content] = [f"{mhz(found[0])} to {mhz(found[1])}"] if found else []
        yield [who, lots, *wide, price_cell(run.pays) if run.winner else ""]


def table(source: Source, c: int) -> Table:
    """The places of a category's lots in its band."""
    wide = ["Frequencies, MHz #"] if source.frequencies(c) else []
    heads = columns("Winner", "Lots #", *wide, f"Pays for the place{source.unit} #")
    return Table(f"The band of {source.names.categories[c]}", heads, list(rows(source, c)))


def tables(source: Source) -> list[Table]:
    """The bands of all categories that are placed."""
    return [table(source, c) for c in sorted(source.places)]


def total(source: Source) -> Fraction:
    """What all winners pay for places."""
    return sum((run.pays for every in source.places.values() for run in every), Fraction(0))


def paid_words(source: Source) -> list[str]:
    """That what is paid for places isn't in the prices of the lots, if there are places."""
    paid = f"{price(total(source))}{source.units}"
    return [f"What winners pay for their places in the band, {paid} in all, comes on top."] if source.places else []


WORDS = (
    "Lots are numbered from the lower end of the band. Their places were found by `cca place`, and the certificate of"
    " each placement passes all tests."
)
