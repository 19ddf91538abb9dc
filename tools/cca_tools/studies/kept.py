"""The files of one auction of a study, so that anyone can audit its row."""

from __future__ import annotations

import os
import pathlib
import shutil
from collections.abc import Iterator

from cca_tools.rules.stops import CRASH, Stop
from cca_tools.studies.awarding import Held, awarded_in
from cca_tools.studies.rows import Job, drawn_auction, row_of
from cca_tools.studies.store import Store

AUCTIONS = "auctions"


def keep_auction(store: Store, number: int) -> Iterator[str]:
    """Runs an auction again in each case, and writes its files into folders of the study. Yields lines about the files
    and how to audit them. A `Stop` of status 70 if a row of the study is another one, and of status 7 if an auction is
    beyond a limit."""
    for at, case in enumerate(store.plan.cases):
        folder = store.folder / AUCTIONS / str(number) / str(at + 1)
        held, new = drawn_auction(store.plan, number, case).held, folder.with_name(f"{folder.name}.new")
        try:
            shutil.rmtree(new, ignore_errors=True)
            new.mkdir(parents=True)
            awarded_in(held, new, is_audited=True)
            shutil.rmtree(folder, ignore_errors=True)
            os.rename(new, folder)
        except OSError as fault:
            shutil.rmtree(new, ignore_errors=True)
            raise store.unwritten(fault) from None
        kept = store.rows.get(Job(at, number))
        if kept is not None and kept != row_of(store.plan, number, case):
            why = f"the row of auction {number} in case {at + 1} isn't what this auction gives now"
            raise Stop("cca: audit", CRASH, why=why)
        same = "; its row is the same" if kept is not None else ""
        yield f"case {at + 1}, {store.plan.label(case)}{same}"
        yield f"  {audit_command(held, folder)}"


def audit_command(held: Held, folder: pathlib.Path) -> str:
    """The command that audits the files of an auction."""
    names = [str(folder / kind) for kind in (*held.files(), "cert")]
    return " ".join(["cca", "check" if held.auction is None else "audit", *names])
