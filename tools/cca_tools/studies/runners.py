"""What runs the auctions of a study: processes of this machine, or the workers of Dask. The rows are the same."""

from __future__ import annotations

import asyncio
import contextlib
import multiprocessing
import os
import pathlib
import signal
import threading
import time
import zipfile
from collections.abc import Generator, Iterator, Sequence
from concurrent.futures import CancelledError, ProcessPoolExecutor, as_completed
from concurrent.futures.process import BrokenProcessPool
from typing import Any

from cca_tools.command_line import say
from cca_tools.rules.program import program
from cca_tools.rules.scratch import scratch_folder
from cca_tools.rules.stops import CRASH, Stop
from cca_tools.studies.plan import Plan
from cca_tools.studies.rows import Done, Job, rows_of

PACKAGE = pathlib.Path(__file__).resolve().parents[1]
LARGEST, TRIES, POLL = 10, 20, 1.0
WAIT = 10.0  # seconds until a report that the scheduler has no workers
NO_DASK = (
    "this Python has no Dask: apt-get install python3-distributed, then /usr/bin/python3 tools/study .. --scheduler .."
)


def parts_of(jobs: Sequence[Job], workers: int) -> list[list[Job]]:
    """The jobs in parts, several for each worker and none of more than ten."""
    size = max(1, min(LARGEST, len(jobs) // (8 * workers)))
    return [list(jobs[at : at + size]) for at in range(0, len(jobs), size)]


# Processes of this machine.


def begin_worker(parent: int) -> None:
    """Begins a worker. An interrupt is for its parent, which keeps what is done. When the parent is gone the worker
    ends, and so does the program that it runs, which is in its group of processes."""
    signal.signal(signal.SIGINT, signal.SIG_IGN)
    os.setpgid(0, 0)

    def watch() -> None:
        while os.getppid() == parent:
            time.sleep(POLL)
        os.killpg(0, signal.SIGKILL)

    threading.Thread(target=watch, daemon=True).start()


def end_workers() -> None:
    """Ends the processes that run auctions, with their programs. A later run of the study runs these auctions."""
    for worker in multiprocessing.active_children():
        if worker.pid:
            with contextlib.suppress(OSError):  # (it has ended, or has no group of its own yet)
                os.killpg(worker.pid, signal.SIGKILL)
            worker.kill()


def here(plan: Plan, jobs: Sequence[Job], processes: int | None = None) -> Generator[Done, None, None]:
    """The rows by this number of processes, by default one for each processor, as they come. If the caller needs no
    more, or at Ctrl-C, the processes end at once."""
    workers = processes or len(os.sched_getaffinity(0))
    with ProcessPoolExecutor(workers, initializer=begin_worker, initargs=(os.getpid(),)) as pool:
        parts = [pool.submit(rows_of, plan, part, program()) for part in parts_of(jobs, workers)]
        try:
            for part in as_completed(parts):
                yield from part.result()
        except (GeneratorExit, KeyboardInterrupt):
            end_workers()
            raise
        except BrokenProcessPool:
            why = "a process of the study was killed, perhaps because memory ran out; run it again to go on"
            raise Stop("cca: stopped", CRASH, why=why) from None
        finally:
            pool.shutdown(wait=False, cancel_futures=True)


# Workers of Dask.


def package_zip(folder: str) -> str:
    """This package as a file that workers can load it from."""
    name = os.path.join(folder, "cca_tools.zip")
    with zipfile.ZipFile(name, "w") as file:
        for path in sorted(PACKAGE.rglob("*.py")):
            file.write(path, path.relative_to(PACKAGE.parent))
    return name


def dask() -> Any:
    """The library of Dask."""
    try:
        import distributed
    except ImportError:
        raise Stop("cca: no libraries", CRASH, why=NO_DASK) from None
    return distributed


def rows_there(plan: Plan, jobs: Sequence[Job], path: str | None) -> tuple[str, list[Done]]:
    """The rows of some auctions on a worker of Dask, with its address."""
    worker: str = dask().get_worker().address
    return worker, rows_of(plan, jobs, path)


def is_of_worker(done: Done, total: str) -> bool:
    """Whether a stop is a matter of the machine, and not of the auction: no program is there, it is another one, or a
    signal ended it, as when memory runs out."""
    if done.stop is None:
        return done.program != total
    line, status, _ = done.stop
    return status == CRASH and line != "cca: audit"


def fault_of(done: Done, total: str) -> str:
    """Why a worker can't run an auction."""
    if done.stop:
        return done.stop[2]
    return f"its program has the SHA-256 {done.program}, and that of this study {total}"


class Workers:
    """The workers of a scheduler: parts of the auctions are sent to them, and what one can't do is sent to others."""

    def __init__(self, client: Any, plan: Plan, total: str) -> None:
        self.client, self.plan, self.total = client, plan, total
        self.faults: dict[str, str] = {}  # why a worker is left out, by its address

    def known(self) -> dict[str, int]:
        """The addresses of the workers with their numbers of threads."""
        return {name: it["nthreads"] for name, it in self.client.scheduler_info()["workers"].items()}

    def send(self, jobs: Sequence[Job]) -> Any:
        """Sends a part to the workers that aren't left out. A `Stop` if these are none."""
        options: dict[str, object] = {"pure": False, "retries": TRIES}
        if self.faults:
            left = [name for name in self.known() if name not in self.faults]
            if not left:
                name, why = next(iter(self.faults.items()))
                raise Stop("cca: no worker", CRASH, why=f"no worker can hold the auctions; {name}: {why}")
            options.update(workers=left, allow_other_workers=False)
        return self.client.submit(rows_there, self.plan, jobs, program(), **options)

    def rows(self, jobs: Sequence[Job]) -> Iterator[Done]:
        """The rows as they come."""
        parts = {self.send(part): part for part in parts_of(jobs, max(1, sum(self.known().values())))}
        arriving = dask().as_completed(list(parts))
        for part in arriving:
            worker, found = part.result()
            good = [done for done in found if not is_of_worker(done, self.total)]
            yield from good
            sent = parts.pop(part)
            left = [job for job in sent if job not in {done.job for done in good}]
            if left and not any(done.stop for done in good):
                if worker not in self.faults:
                    bad = next(done for done in found if is_of_worker(done, self.total))
                    self.faults[worker] = fault_of(bad, self.total)
                    say(f"tools/study: the worker {worker} is left out: {self.faults[worker]}")
                again = self.send(left)
                parts[again] = left
                arriving.add(again)
            part.release()


def watch_workers(workers: Workers, address: str, end: threading.Event) -> None:
    """Reports once that the scheduler has no workers, and then that it has some."""
    is_empty = False
    while not end.is_set():
        try:
            count = len(workers.known())
        except (OSError, ValueError, RuntimeError):
            return
        if not count and not is_empty:
            say(f"tools/study: the scheduler at {address} has no workers; waiting for one (dask-worker {address})")
        elif count and is_empty:
            say(f"tools/study: {count} worker{'s' if count > 1 else ''} came")
        is_empty = not count
        end.wait(WAIT if count else POLL)


def on_dask(plan: Plan, jobs: Sequence[Job], address: str, total: str) -> Generator[Done, None, None]:
    """The rows by the workers of a scheduler, as they come. Workers get this package from here, also those that come
    later, and what a lost worker had is done by another one. All have to have the program with this checksum."""
    distributed = dask()
    gone = (CancelledError, asyncio.CancelledError, distributed.comm.CommClosedError)
    with scratch_folder() as folder:
        try:
            client = distributed.Client(address, timeout=30)
        except (OSError, ValueError) as fault:
            raise Stop("cca: no scheduler", CRASH, why=f"no scheduler answers at {address}: {fault}") from None
        end = threading.Event()
        try:
            plugin = distributed.diagnostics.plugin.UploadFile(package_zip(str(folder)))
            client.register_worker_plugin(plugin, "cca_tools")
            workers = Workers(client, plan, total)
            threading.Thread(target=watch_workers, args=(workers, address, end), daemon=True).start()
            yield from workers.rows(jobs)
        except gone:
            why = f"the scheduler at {address} is gone; all rows that came are kept, so run it again to go on"
            raise Stop("cca: no scheduler", CRASH, why=why) from None
        except distributed.KilledWorker as fault:
            why = f"several workers ended while they held the same auctions, perhaps because memory ran out: {fault}"
            raise Stop("cca: no worker", CRASH, why=why) from None
        finally:
            end.set()
            client.close()
