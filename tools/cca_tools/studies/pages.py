"""The page of a study: what was tried, what came out in each case, and what differs between cases."""

from __future__ import annotations

from collections.abc import Iterator, Sequence
from dataclasses import dataclass

from cca_tools.page.document import Block, Card, Cards, Content, Figures, Key, Page, Picture, Section, Table, Words
from cca_tools.page.document import columns as heads
from cca_tools.page.words import count, listed, minus, spelled
from cca_tools.studies import pictures
from cca_tools.studies.answers import Answer, answers_of, equilibria_of
from cca_tools.studies.measures import MEASURES, RULES, Measure, OfBest, Pair, Results, Spread, pairs_of, per_cent
from cca_tools.studies.origin import Origin
from cca_tools.studies.plan import Plan
from cca_tools.studies.pictures import Bar

MEANS = {
    "values": "the files of values",
    "version": "the award's version: 2 has the final cap",
    "increment": "the award's steps of prices, in percent of them",
    "share": "what bidders name of their values in the sealed round, in percent",
    "bidders": "how many bidders there are, the first of the award",
    "reserve": "the award's reserves, in percent of them",
    "format": "clock: a combinatorial clock auction; sealed: sealed bids alone, without caps",
}
PART_MEANS = {
    "share": "what {} names of its values, in percent",
    "shade": "what {} names less than its values",
    "budget": "the most that {} asks and bids for",
}
SPREAD_NOTE = (
    "A line goes from the value below which 5 % of the auctions are to that of 95 %, a box from 25 % to 75 % with the"
    " median in it; a point is the mean, which is also printed above it."
)


def tried(plan: Plan) -> Iterator[Block]:
    """What the plan says."""
    whole = plan.auctions * len(plan.cases)
    yield Figures(
        [
            ("auctions of each case", f"{plan.auctions:,}"),
            ("cases", str(len(plan.cases))),
            ("auctions in all", f"{whole:,}"),
            ("first seed", str(plan.seed)),
        ]
    )
    rows: list[list[Content]] = [
        [name, ", ".join(dict.fromkeys(str(case.get(name)) for case in plan.cases)), means_of(name)]
        for name in plan.fields
    ]
    yield Table("What the plan sets", heads("Field", "Values", "What it is"), rows)
    yield Words(
        "An auction of the same number has the same values of bidders in all cases. Bidders are straightforward in the"
        " clock, within their budgets, and list what their strategies name of their values, within their caps; if bids"
        " are sealed alone there are no caps."
    )


def left_out(results: Results) -> Iterator[Block]:
    """That a limit stopped some auctions, if one did."""
    if limits := stopped(results):
        was, are = ("was", "is") if limits == 1 else ("were", "are")
        yield Words(f"{count(limits, 'auction')} {was} stopped by a limit, and {are} left out.", tone="bad")


def means_of(name: str) -> str:
    """The meaning of a field, or of a part of a bidder's strategy such as `elm_share`."""
    bidder, _, part = name.rpartition("_")
    return MEANS[name] if name in MEANS else PART_MEANS[part].format(bidder)


def case_rows(results: Results) -> list[list[Content]]:
    """The mean of each measure in each case."""
    plan = results.plan
    return [
        [
            plan.label(case),
            f"{len(results.rows[case]):,}",
            *(minus(results.spread(case, measure).words()) for measure in MEASURES.values()),
        ]
        for case in plan.cases
        if results.rows[case]
    ]


def spread_table(title: str, bars: Sequence[Bar]) -> Table:
    """The numbers of bars."""
    rows: list[list[Content]] = [
        [
            name,
            minus(spread.words()),
            minus(spread.interval_words()),
            *(minus(f"{spread.quantiles[at]:.2f}") for at in (0, 2, 4)),
        ]
        for name, spread, _ in bars
    ]
    columns = heads("What", "Mean, standard error #", "95 % interval of the mean #", "5 % #", "Median #", "95 % #")
    return Table(title, columns, rows)


@dataclass(frozen=True)
class Drawing:
    """Groups of bars, as a picture of the page, with the table that says the same, or as a file of their own."""

    key: str
    title: str
    groups: Sequence[tuple[str, Sequence[Bar]]]
    what: str
    is_difference: bool
    caption: str = ""

    @property
    def flat(self) -> list[Bar]:
        """All bars, each with the name of its group."""
        return [(f"{name}: {it[0]}" if name else it[0], *it[1:]) for name, of_one in self.groups for it in of_one]

    @property
    def about(self) -> str:
        """What is shown, in words."""
        means = minus("; ".join(f"{label} {spread.mean:.2f}" for label, spread, _ in self.flat))
        return f"{self.title}: means in {self.what}. {means}."

    def text(self, is_file: bool = False) -> str:
        """The picture as SVG."""
        words = (self.key, self.title, self.about, self.groups, self.what)
        return pictures.bars(*words, self.is_difference, is_file)

    def picture(self) -> Picture:
        """The picture with its table."""
        counts = {spread.count for _, spread, _ in self.flat}
        many = f", {count(counts.pop(), 'auction')}" if len(counts) == 1 else ""
        table = spread_table(f"{self.title}, in {self.what}{many}", self.flat)
        return Picture(self.title, self.about, self.text, table, self.caption)


def distribution(results: Results) -> Drawing:
    """How revenue is spread by each rule in each case."""
    groups = rule_groups(results)
    return Drawing(
        "rules", "Revenue of the winning bids by each rule", groups, "% of what the best allocation is worth", False
    )


def rule_groups(results: Results) -> list[tuple[str, Sequence[Bar]]]:
    """The revenue by each rule in each case that has auctions."""
    return [
        (
            results.plan.label(case),
            [(rule, results.spread(case, measure), pictures.COLOURS[rule]) for rule, measure in RULES.items()],
        )
        for case in results.plan.cases
        if results.rows[case]
    ]


def rules_words(groups: Sequence[tuple[str, Sequence[Bar]]]) -> str:
    """What each rule brings in on average, over the cases, in a sentence."""
    found = []
    for at, rule in enumerate(RULES):
        means = [of_one[at][1].mean for _, of_one in groups]
        low, high = f"{min(means):.1f}", f"{max(means):.1f}"
        found.append(f"{rule} {low if low == high else f'{low} to {high}'} %")
    over = f" over {spelled(len(groups))} cases" if len(groups) > 1 else ""
    return minus(f"Mean revenue{over}, of what the best allocation is worth: {listed(found)}")


def measures_of(names: Sequence[str]) -> dict[str, Measure]:
    """What is compared between two cases."""
    own = {f"profit of {name}": OfBest(f"{name}_profit") for name in names}
    return {"efficiency": per_cent("efficiency"), "revenue": RULES["core"], "profit of all": OfBest("profit"), **own}


def pair_title(pair: Pair) -> str:
    """What a pair compares."""
    if pair.field == "version":
        with_cap = "with the final cap (version 2)", "without (version 1)"
        return " against ".join(with_cap if pair.second.version == 2 else with_cap[::-1])
    return f"{pair.field} {pair.second.get(pair.field)} against {pair.first.get(pair.field)}"


def change_words(name: str, spread: Spread) -> str:
    """How a measure differs, in words: whether it isn't seen to, or by how much it rises or falls."""
    if pictures.is_even(spread):
        return f"{name} isn't seen to change ({minus(spread.words())})"
    error = "" if spread.error is None else f" ± {spread.error:.2f}"
    return f"{name} {'rises' if spread.mean > 0 else 'falls'} by {abs(spread.mean):.2f}{error}"


def difference_words(bars: Sequence[Bar]) -> str:
    """What differs, in a sentence: efficiency and revenue, which come first."""
    changes = " and ".join(change_words(name, spread) for name, spread, _ in bars[:2])
    return f"{changes[:1].upper()}{changes[1:]}, in % of what the best allocation of the first case is worth"


def others(results: Results, pair: Pair) -> str:
    """What both cases of a pair have alike of what varies."""
    return ", ".join(f"{name} {pair.first.get(name)}" for name in results.plan.varied if name != pair.field)


def difference_bars(results: Results, pair: Pair) -> list[Bar]:
    """The differences of a pair; only bidders in both cases."""
    names = [bidder.name for bidder in results.plan.base().bidders][: min(pair.first.bidders, pair.second.bidders)]
    spreads: list[tuple[str, Spread]] = [
        (name, results.difference(pair, measure)) for name, measure in measures_of(names).items()
    ]
    return [(name, spread, pictures.colour_of(spread)) for name, spread in spreads]


def differences(results: Results) -> Iterator[tuple[Pair, Drawing]]:
    """What differs in each pair of cases."""
    for number, pair in enumerate(pairs_of(results), 1):
        bars = difference_bars(results, pair)
        words = (f"pair{number}", pair_title(pair), [("", bars)], "% of the best value", True)
        yield pair, Drawing(*words, difference_words(bars))


def drawings(results: Results) -> Iterator[Drawing]:
    """All pictures of a study."""
    if any(results.rows.values()):
        yield distribution(results)
    for _, drawing in differences(results):
        yield drawing


def stopped(results: Results) -> int:
    """How many auctions a limit stopped."""
    return len(results.plan.cases) * results.plan.auctions - sum(map(len, results.rows.values()))


def sections_of(results: Results) -> Iterator[Section]:
    """The parts of the page: what came out, and then what was tried."""
    plan = Section("plan", "What was tried", list(tried(results.plan)))
    if not any(results.rows.values()):
        plan.blocks = [*left_out(results), *plan.blocks]
        yield plan
        return
    table = Table("Means by case", heads("Case", "Auctions #", *(f"{name} #" for name in MEASURES)), case_rows(results))
    marks = [("blue", "box", "core"), ("orange", "box", "Vickrey"), ("green", "box", "pay as bid, for the same bids")]
    yield Section(
        "cases",
        "What came out",
        [
            *left_out(results),
            Words(
                "Means over the auctions, each with its standard error, which one auction alone doesn't have, and"
                " shares with their 95 % interval (Wilson). `best` is what the best allocation is worth."
            ),
            table,
            Key(marks),
            Cards([Card("", [distribution(results).picture()])], size="wide"),
            Words(SPREAD_NOTE),
        ],
        rules_words(rule_groups(results)),
    )
    if found := list(differences(results)):
        tests = sum(len(drawing.flat) for _, drawing in found)
        cards = [Card(it.title, [it.picture()], others(results, pair)) for pair, it in found]
        yield Section(
            "differences",
            "What differs, auction by auction",
            [
                Words(
                    "The second case less the first for auctions of the same number, so that the draws cancel, both"
                    " in % of the first one's best value. Green is more and orange less, by over two standard errors of"
                    f" the mean. These are {tests} comparisons: where nothing differs, about one of 20 has a colour by"
                    " chance."
                ),
                Cards(cards, size="wide"),
            ],
        )
    yield from answer_sections(results)
    yield plan


ANSWERS = (
    "What a bidder gains, on average and in the award's unit, while all else stays as it is: its best answer of what"
    " the plan tries, and by how much less it gains otherwise, in the same auctions. A best answer is no more certain"
    " than its lead over the next."
)


def answer_table(answer: Answer) -> Table:
    """The strategies of a bidder with their profits, and how much less each is than the best answer's."""
    rows: list[list[Content]] = [
        [f"{it.label}, best" if it is answer.best else it.label, minus(it.profit.words()), minus(it.gain.words())]
        for it in answer.tried
    ]
    title = f"{answer.bidder}, with {answer.others}" if answer.others else answer.bidder
    return Table(title, heads("", "Profit #", "Less than the best answer #"), rows)


def equilibrium_words(results: Results, answers: Sequence[Answer]) -> str:
    """The equilibria of the grid in a sentence."""
    found = equilibria_of(results, answers)
    if not found:
        return "No case has best answers of all of these bidders."
    labels = "; ".join(results.plan.label(case) for case in found)
    return f"All of these bidders answer best in {'this case' if len(found) == 1 else 'these cases'}: {labels}."


def answer_sections(results: Results) -> Iterator[Section]:
    """The best answers, if the plan varies a bidder's strategy."""
    if answers := answers_of(results):
        words = [Words(ANSWERS), Words(equilibrium_words(results, answers))]
        yield Section("answers", "Best answers", [*words, *map(answer_table, answers)])


def made_with(origin: Origin) -> Section:
    """What made the rows."""
    rows: list[list[Content]] = [
        ["program", f"{origin.mark}; SHA-256 {origin.program}"],
        ["tools", origin.maker],
        ["plan, without the number of auctions", f"SHA-256 {origin.plan}"],
    ]
    rows += [[f"inputs/{name}", f"SHA-256 {total}"] for name, total in origin.files.items()]
    return Section(
        "origin", "What made it", [Table("Programs and files, by their checksums", heads("What", "Which"), rows)]
    )


def page_of(results: Results, title: str, origin: Origin) -> Page:
    """The page of a study."""
    under = "Auctions of bidders with drawn values, priced by the program. `table.csv` has a row for each."
    return Page(f"Study: {title}", under, [*sections_of(results), made_with(origin)])


def summary(results: Results) -> Iterator[str]:
    """The results in a few lines."""
    for case in results.plan.cases:
        if results.rows[case]:
            yield f"{results.plan.label(case)} ({count(len(results.rows[case]), 'auction')})"
            yield from (f"  {name}: {results.spread(case, it).words()}" for name, it in MEASURES.items())
    for pair in pairs_of(results):
        yield f"{', '.join(filter(None, [pair_title(pair), others(results, pair)]))}, in % of the best value"
        yield from (f"  {name}: {spread.words(3)}" for name, spread, _ in difference_bars(results, pair))
    for answer in answers_of(results):
        lead = sorted(it.gain.mean for it in answer.tried)[-2:][0]
        about = f"{answer.bidder}, with {answer.others}" if answer.others else answer.bidder
        yield f"best answer of {about}: {answer.best.label} (ahead of the next by {abs(lead):.3f})"
    if left := stopped(results):
        yield f"stopped by a limit: {left}"
