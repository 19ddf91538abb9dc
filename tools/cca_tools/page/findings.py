"""What the numbers of a report say, in a sentence: the titles of its sections and pictures."""

from __future__ import annotations

from collections.abc import Sequence
from fractions import Fraction

from cca_tools.page.source import Source, given
from cca_tools.page.words import count, listed, number, per_cent, price, spelled
from cca_tools.rules.clock import Round
from cca_tools.rules.money import difference, price_total, total
from cca_tools.rules.types import BidderNumber, Package

NAMED = 3  # the most bidders or categories that a title names; of more it has the number


def capital(text: str) -> str:
    """A sentence with a capital letter."""
    return text[:1].upper() + text[1:]


def wins(source: Source, many: int) -> str:
    """How many of the winners, as the subject of a sentence."""
    whole = len(source.winners)
    if many == whole:
        return ("The only winner", "Both winners", f"All {spelled(whole)} winners")[min(whole, 3) - 1]
    return f"{capital(spelled(many))} of {spelled(whole)} winners"


def raising(source: Source, raised: Sequence[BidderNumber]) -> str:
    """Which coalitions raise prices above the Vickrey prices, as the subject of a sentence, with its verb."""
    shares = [share for j in raised for share in source.reasons.shares(j)]
    many = len({share.coalition for share in shares if share.coalition and share.amount > 0})
    return "a coalition raises" if many == 1 else f"{spelled(many)} coalitions raise"


def raised_by(source: Source, raised: Sequence[BidderNumber]) -> str:
    """Whose prices are above the Vickrey prices, and by how much."""
    above = {j: difference(source.pays(j), source.vickrey(j)) for j in raised}
    names = [source.names.bidder(j) for j in raised]
    whole, is_all = sum(above.values(), Fraction(0)), len(raised) == len(source.winners)
    if len(raised) > NAMED:
        who = f"{'all' if is_all else 'the other'} {spelled(len(raised))}"
    else:
        who = listed(names)
    if len(set(above.values())) == 1:
        return f"{who} by {price(above[raised[0]])}{source.units}{' each' if len(raised) > 1 else ''}"
    if len(raised) > NAMED:
        return f"{who} by {price(whole)}{source.units} together"
    return listed(f"{name} by {price(amount)}{source.units}" for name, amount in zip(names, above.values()))


def of_prices(source: Source) -> str:
    """Who pays its Vickrey price, and whose price coalitions raise."""
    raised = [j for j in source.winners if source.pays(j) != source.vickrey(j)]
    many = len(source.winners) - len(raised)
    if not source.winners:
        return "Nobody wins"
    if not raised:
        return f"{wins(source, many)} {'pays its Vickrey price' if many == 1 else 'pay their Vickrey prices'}"
    told = f"{raising(source, raised)} {raised_by(source, raised)}"
    if not many:
        return capital(f"{told}, above their Vickrey prices" if len(raised) > 1 else f"{told}, above its Vickrey price")
    return f"{wins(source, many)} {'pays its Vickrey price' if many == 1 else 'pay their Vickrey price'}; {told}"


def of_award(source: Source) -> str:
    """How many win, what they pay together, and for how many lots."""
    book, many = given(source.book), len(source.winners)
    whole, left = sum(book.supply), sum(book.left(given(source.certificate).choice))
    every = {1: "the only lot", 2: "both lots"}.get(whole, f"all {number(whole)} lots")
    if not source.winners:
        return f"Nobody wins, and {every} stay{'s' if whole == 1 else ''} unsold"
    pays = price_total(map(source.pays, source.winners))
    who = f"{source.names.bidder(source.winners[0])} pays" if many == 1 else f"{capital(spelled(many))} winners pay"
    lots = f"{number(whole - left)} of {number(whole)} lots" if left else every
    return f"{who} {price(pays)}{source.units} for {lots}"


def of_payments(source: Source) -> str:
    """What the winners pay together, of what they bid."""
    pays = price_total(map(source.pays, source.winners))
    bid = total(source.won(j)[1] for j in source.winners)
    one = len(source.winners) == 1
    return (
        f"{'The winner pays' if one else 'Winners pay'} {per_cent(pays, bid)} of what {'it' if one else 'they'} bid:"
        f" {price(pays)} of {number(bid)}{source.units}"
    )


def left_words(source: Source, left: Package) -> str:
    """Which lots stay unsold."""
    kinds = [(lots, name) for lots, name in zip(left, source.names.categories) if lots]
    if len(kinds) > NAMED:
        return f"{number(sum(left))} lots of {spelled(len(kinds))} categories stay unsold"
    verb = "stays" if sum(left) == 1 else "stay"
    return f"{listed(f'{number(lots)} of {name}' for lots, name in kinds)} {verb} unsold"


def of_lots(source: Source) -> str:
    """How many lots are sold, and which aren't."""
    book = given(source.book)
    whole, left = sum(book.supply), book.left(given(source.certificate).choice)
    sold, winners = whole - sum(left), len(source.winners)
    if not sold:
        return "The lot stays unsold" if whole == 1 else f"None of {number(whole)} lots is sold"
    to = f"to {source.names.bidder(source.winners[0])}" if winners == 1 else f"to {spelled(winners)} winners"
    if sold == whole:
        every = {1: "The lot is", 2: "Both lots are"}.get(whole, f"All {number(whole)} lots are")
        return f"{every} sold, {to}"
    return (
        f"{number(sold)} of {number(whole)} lots {'is' if sold == 1 else 'are'} sold, {to}; {left_words(source, left)}"
    )


def of_posted(shown: Sequence[Round], c: int, units: str = "") -> str:
    """How the price of a category went, in these units."""
    first, last = shown[0].prices[c], shown[-1].prices[c]
    rose = f" by {per_cent(last - first, first)}" if first else ""
    if first == last:
        return f"The price stayed at {number(first)}{units}"
    return f"The price rose{rose} to {number(last)}{units}"


def of_category(shown: Sequence[Round], c: int, has_open: bool, units: str = "") -> str:
    """How the price of a category went, and in how many closed rounds more than the supply was asked for."""
    closed, went = shown[:-1] if has_open else shown, of_posted(shown, c, units)
    above, whole = sum(closing.excess[c] > 0 for closing in closed), len(closed)
    if not closed:
        return went
    if not above:
        return f"{went}; demand was never above the supply"
    if whole == 1:
        return f"{went}; demand was above the supply in the {'closed' if has_open else 'only'} round"
    when = f"in {spelled(above)} of {spelled(whole)} {'closed rounds' if has_open else 'rounds'}"
    return f"{went}; demand was above the supply {when}"


def of_clock(shown: Sequence[Round], has_open: bool) -> str:
    """How many rounds the clock has taken, and in how many categories prices rose."""
    first, last = shown[0].prices, shown[-1].prices
    rose, whole = sum(old != new for old, new in zip(first, last)), len(first)
    named = "both" if whole == 2 else f"all {spelled(whole)}"
    every = "the price rose" if whole == 1 else f"prices rose in {named} categories"
    some = f"prices rose in {spelled(rose)} of {spelled(whole)} categories"
    where = "no price rose" if not rose else every if rose == whole else some
    if has_open:
        return f"The clock is in round {number(shown[-1].number)}; so far {where}"
    return f"The clock took {spelled(len(shown))} {'round' if len(shown) == 1 else 'rounds'}, and {where}"


def of_activity(points: Sequence[Sequence[int]], eligibility: Sequence[Sequence[int]], has_open: bool) -> str:
    """How the points that are asked for went over the closed rounds, and how many bidders had less eligibility in the
    last round than in the first. Both are by bidder and by round."""
    closed = len(points[0]) - has_open
    since = f"from round 1 to round {len(points[0]):,}"
    if len(points) == 1:
        lost = eligibility[0][0] - eligibility[0][-1]
        fell = f"fell by {count(lost, 'point')}" if lost else "stayed the same"
        return f"Eligibility {fell} {since}" if len(points[0]) > 1 else "Points asked for and eligibility"
    losers = sum(one[-1] < one[0] for one in eligibility)
    whole = len(points)
    who = "no bidder" if not losers else f"all {spelled(whole)} bidders" if losers == whole else ""
    lost_words = f"{who or f'{spelled(losers)} of {spelled(whole)} bidders'} lost eligibility {since}"
    if len(points[0]) < 2:
        return "Points asked for and eligibility"
    if closed < 2:
        return capital(lost_words)
    first, last = sum(one[0] for one in points), sum(one[closed - 1] for one in points)
    if first == last:
        return f"As many points are asked for in round {closed:,} as in round 1, {number(first)}; {lost_words}"
    went = "fell" if last < first else "rose"
    return f"Points asked for {went} from {number(first)} to {number(last)} in {spelled(closed)} rounds; {lost_words}"


def of_core(source: Source) -> str:
    """How far the least sum that nobody blocks is above the Vickrey prices."""
    above = sum((difference(source.pays(j), source.vickrey(j)) for j in source.winners), Fraction(0))
    if not above:
        return "Nobody blocks the Vickrey prices"
    names = listed(source.names.bidder(j) for j in source.winners)
    return f"{names} pay {price(above)}{source.units} more than their Vickrey prices, the least that nobody blocks"
