"""Which lines of two texts are the same lines, in time that hardly grows faster than the texts."""

from __future__ import annotations

import bisect
from collections import Counter
from collections.abc import Iterator, Sequence
from typing import TypeAlias

# Lines that are the same: the place in the old text and in the new one.
Pair: TypeAlias = tuple[int, int]
# A part of each text: its first place, and the place after its last one, of the old and then of the new.
Block: TypeAlias = tuple[int, int, int, int]
# This many steps are taken to find what is the same between lines that are there several times. What isn't found by
# then is taken as gone and as new.
MOST_STEPS = 1_000_000


def matched(old: Sequence[str], new: Sequence[str]) -> list[Pair]:
    """The places of the lines that both texts have, rising in both.

    First the beginning and the end that are alike, then the lines that are there just once in both; between these so
    again, and what is left by the fewest lines that have to go and to come.
    """
    pairs: list[Pair] = []
    blocks, steps = [(0, len(old), 0, len(new))], MOST_STEPS
    while blocks:
        ends, (i1, i2, j1, j2) = alike_ends(old, new, blocks.pop())
        pairs += ends
        anchors = [(i1 + i, j1 + j) for i, j in once_in_both(old[i1:i2], new[j1:j2])]
        if anchors:
            pairs += anchors
            blocks += between(anchors, (i1, i2, j1, j2))
        else:
            found, taken = by_fewest_changes(old[i1:i2], new[j1:j2], steps)
            pairs += [(i1 + i, j1 + j) for i, j in found]
            steps -= taken
    return sorted(pairs)


def alike_ends(old: Sequence[str], new: Sequence[str], block: Block) -> tuple[list[Pair], Block]:
    """The pairs of the beginning and of the end that are alike, and the block that is left between them."""
    i1, i2, j1, j2 = block
    pairs = []
    while i1 < i2 and j1 < j2 and old[i1] == new[j1]:
        pairs.append((i1, j1))
        i1, j1 = i1 + 1, j1 + 1
    while i1 < i2 and j1 < j2 and old[i2 - 1] == new[j2 - 1]:
        i2, j2 = i2 - 1, j2 - 1
        pairs.append((i2, j2))
    return pairs, (i1, i2, j1, j2)


def once_in_both(old: Sequence[str], new: Sequence[str]) -> list[Pair]:
    """Of the lines that are there just once in both texts the most that come in the same order."""
    counts, others = Counter(old), Counter(new)
    places = {line: j for j, line in enumerate(new) if others[line] == 1}
    return longest_rise([(i, places[line]) for i, line in enumerate(old) if counts[line] == 1 and line in places])


def longest_rise(pairs: Sequence[Pair]) -> list[Pair]:
    """The longest part of pairs, which rise in the first place, that rises in the second."""
    lowest: list[int] = []  # the lowest end of a rise of each length
    ends: list[int] = []  # the pair that has it
    before: list[int | None] = []  # of each pair the one before it in its rise
    for n, (_, j) in enumerate(pairs):
        at = bisect.bisect_left(lowest, j)
        before.append(ends[at - 1] if at else None)
        lowest[at : at + 1], ends[at : at + 1] = [j], [n]
    found: list[Pair] = []
    last = ends[-1] if ends else None
    while last is not None:
        found.append(pairs[last])
        last = before[last]
    return found[::-1]


def between(anchors: Sequence[Pair], block: Block) -> Iterator[Block]:
    """The blocks between pairs, and before the first and after the last one."""
    i1, i2, j1, j2 = block
    for i, j in anchors:
        yield i1, i, j1, j
        i1, j1 = i + 1, j + 1
    yield i1, i2, j1, j2


def by_fewest_changes(old: Sequence[str], new: Sequence[str], steps: int) -> tuple[list[Pair], int]:
    """The pairs that leave the fewest lines to remove and add, and the steps that this took; no pairs if it takes too
    many.

    This is the greedy algorithm of Myers (1986): `farthest` has, for each difference k of the places in both texts, how
    far in the old one this many changes can lead.
    """
    farthest, history, taken = {1: 0}, list[dict[int, int]](), 0
    for changes in range(len(old) + len(new) + 1):
        history.append(dict(farthest))
        for k in range(-changes, changes + 1, 2):
            i = farthest[k - 1] + 1 if goes(farthest, changes, k) else farthest[k + 1]
            while i < len(old) and i - k < len(new) and old[i] == new[i - k]:
                i, taken = i + 1, taken + 1
            farthest[k] = i
            if i >= len(old) and i - k >= len(new):
                return pairs_back(history, len(old), len(new)), taken
        taken += len(farthest)
        if taken > steps:
            break
    return [], taken


def pairs_back(history: Sequence[dict[int, int]], i: int, j: int) -> list[Pair]:
    """The pairs on the way back from the ends of both texts."""
    found: list[Pair] = []
    for changes in range(len(history) - 1, -1, -1):
        farthest, k = history[changes], i - j
        gone = goes(farthest, changes, k)
        before = k - 1 if gone else k + 1
        while i > farthest[before] + gone:
            i, j = i - 1, j - 1
            found.append((i, j))
        i, j = farthest[before], farthest[before] - before
    return found


def goes(farthest: dict[int, int], changes: int, k: int) -> bool:
    """Whether the last of this many changes that lead to the difference k takes a line out of the old text."""
    return k != -changes and (k == changes or farthest[k - 1] >= farthest[k + 1])
