"""Compares the court's own files with the rules of cca_tools, with the program if CCA_PROGRAM names one, and with the
checker of the second proof if `second_proof/build` has made it.

The court's files are tools/audit and tools/check, the cases are drawn and altered, and some have numbers that don't fit
into a machine's word. It prints how often each command had each answer, what differs, and last how much differs; the
status is 1 if something differs.
"""

from __future__ import annotations

import collections
import itertools
import os
import random
import re
import tempfile

from checks.cases.court_cases import answers, cases
from checks.cases.voices import CHECKER, checker_answer, is_alike, is_confirmed


def main(number: int, seed: int) -> int:
    counts: collections.Counter[tuple[str, str]] = collections.Counter()
    differ = 0
    program, has_checker = os.environ.get("CCA_PROGRAM"), os.path.exists(CHECKER)
    with tempfile.TemporaryDirectory() as folder:
        for command, texts in itertools.islice(cases(random.Random(str(seed))), number):
            said = answers(folder, command, texts, program)
            checked = [checker_answer(command, texts)] if has_checker else []
            counts[command, re.sub(r" [\d ]+$", "", said[0][0].split("\n")[0])] += 1
            if not is_alike(*said) or not all(is_confirmed(one, said[1]) for one in checked):
                differ += 1
                print(command, *said, *checked, *texts, sep="\n", flush=True)
    for (command, answer), count in sorted(counts.items()):
        print(f"{count:>7} {command}: {answer}")
    print(f"{number} cases, {2 + bool(program) + has_checker} voices, {differ} differ")
    return 1 if differ else 0
