"""Compares the page `audit.html` of the second proof, in a headless Chromium, with `cca`: its answer, and under which
heading.

The cases are the same as in `checks/compare second-proof`: certificates of drawn books, weights and slots, as made,
altered and damaged, damaged subjects, and drawn logs with their certificates. The page gets each as files, and the test
is started in the same way as by its button. For only a log, the worker of the page is asked for the replies and the
book. It needs `second_proof/build page` and a Chromium.
"""

from __future__ import annotations

import json
import os
import random
import subprocess
import sys
import tempfile
from collections.abc import Mapping

from checks.browser import Browser
from checks.comparisons import second_proof
from checks.comparisons.second_proof import CHECKER, SECOND, Comparison, prepared, runs_of
from second_proof.coq_audit.plain import plain_award

PAGE = os.path.join(SECOND, "built", "audit.html")
ANSWER = """(async given => {
    files.length = 0
    await take(Object.entries(given).map(([name, text]) => new File([text], name)))
    for (const file of files) file.kind = file.name
    show_files()
    if (at('start').disabled) return ['not tested', at('need').textContent]
    await test()
    const printed = [...at('answer').querySelectorAll('details')].find(it => it.innerText.startsWith('The answer as'))
    return [at('verdict').textContent, printed ? printed.querySelector('code').textContent : '']
})(%s)"""
REPLIES = """(async given => {
    const worker = start_checker(() => {}), bytes = text => new TextEncoder().encode(text)
    const said = await worker.ask(['auction', 'award', 'log'], { award: bytes(given.award), log: bytes(given.log) })
    worker.end()
    return said.text || said.fault
})(%s)"""


def heading_of(printed: str) -> str:
    """How the heading of the page has to begin for an answer."""
    first = printed.split("\n")[0]
    return "Yes: " if first == "yes" else "No: " if first.startswith("no ") else "No verdict"


class OnPage(Comparison):
    """Runs of `cca` and of the page."""

    def __init__(self, cca: str, folder: str) -> None:
        super().__init__(cca, folder)
        self.browser = Browser()
        self.browser.open(PAGE)

    def check(self, kind: str, command: str, texts: Mapping[str, str]) -> None:
        """The program and the page on these files."""
        words = [self.cca, command, *(self.path(name, text) for name, text in texts.items())]
        said = subprocess.run(words, capture_output=True, text=True, check=False).stdout
        heading, shown = self.browser.evaluate(ANSWER % json.dumps(dict(texts)))
        same = shown == said and heading.startswith(heading_of(said))
        self.count(kind, same, said.split("\n")[0], {**texts, "cca.said": said, "page.said": f"{heading}\n{shown}"})

    def log(self, rng: random.Random) -> None:
        """A drawn log: its replies and its book, and audits of certificates of it."""
        award, supply, bidders = second_proof.drawn_award(rng)
        plain = plain_award(award.encode()).decode()
        texts = {"award": plain, "log": second_proof.drawn_log(rng, award, supply, bidders)}
        words = [self.cca, "auction", *(self.path(name, text) for name, text in texts.items()), self.path("made.book")]
        said = subprocess.run(words, capture_output=True, text=True, check=False).stdout
        if os.path.exists(words[-1]):
            with open(words[-1]) as file:
                said += file.read()
        shown = self.browser.evaluate(REPLIES % json.dumps(texts))
        self.count("log, its replies", said == shown, "replies", {**texts, "cca.said": said, "page.said": shown})
        self.audits(rng, texts)


def main(number: int, seed: int) -> int:
    """Draws cases until there are this many, and prints the counts."""
    if not os.path.exists(PAGE) or not os.path.exists(CHECKER):
        sys.exit("checks/compare page: run second_proof/build page first")
    rng = random.Random(seed)
    with tempfile.TemporaryDirectory() as folder:
        comparison = OnPage(prepared(), folder)
        try:
            while sum(comparison.kinds.values()) < number:
                runs_of(rng, comparison)
                comparison.log(rng)
        except KeyboardInterrupt:
            print("stopped; so far:")
        comparison.browser.close()
    for kind, runs in sorted(comparison.kinds.items()):
        print(f"{runs:6} {kind}: {comparison.differ[kind]} differ")
    print(f"{sum(comparison.kinds.values())} runs, {sum(comparison.differ.values())} differ")
    print(", ".join(f"{count} {word}" for word, count in sorted(comparison.answers.items())))
    return 1 if comparison.differ else 0
