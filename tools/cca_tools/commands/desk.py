"""The auctioneer's desk: pages for running an auction, in a browser on this machine only. It prints its address and a
key; nobody enters without the key, which is new at each start.

A line is shown with both programs' reply before it is written. It is written once, whole, and synced to the disk before
anybody reads its reply. A close says what it does, and asks for the number of the open round, or for the text `end the
clock` or `end the auction`. Next to LOG are its journal (LOG.desk: when each line came in and what was replied;
tools/journal prints it), the key of the seals (LOG.key), the posted lines (LOG.posted: a sealed line for each close and
each round that is run again; tools/seal tests it) and each longer log that was cut (LOG.cut-N).

Once the auction is closed the desk awards, has both programs audit, makes the report (LOG.html, LOG.txt) and the set
that is published (LOG.set).

With --second a close, and a round that is run again, wait until a second person, who enters by the second key in a
browser of its own, has seen and approved them; the journal has both names.

The room's screen, /posted, needs no key; show it in a browser of its own. For the desk take a browser profile without
extensions. Nobody else writes LOG while the desk is open.

To rehearse, let `tools/rehearse AWARD VALUES FILE --desk` write FILE, at the pace that --pace says, and name it with
--feed: its lines wait on the desk, go through the same pages as lines that are typed, and the rehearsal goes on when
the desk has closed a round. LOG is another file.

Needs the program (CCA_PROGRAM, or the one that ./cca has built), python3-flask and python3-waitress. Ctrl-C ends it.
What it doesn't test: that the lines are what the bidders sent.
"""

from __future__ import annotations

import argparse
import contextlib
import ctypes
import importlib.util
import logging
import os
import resource
import socket
import sys
import threading
from collections.abc import Sequence
from pathlib import Path

from cca_tools.command_line import Parser, kept_until_the_end, run_command, say, written
from cca_tools.rules.names import read_names
from cca_tools.rules.pricing import winners_warning
from cca_tools.rules.program import program
from cca_tools.rules.stops import CRASH, WRITE_FAULT, Stop
from cca_tools.rules.words import NUMBER
from cca_tools.terminal import progress

HOST = "127.0.0.1"
THREADS, CONNECTIONS, IDLE_SECONDS = 6, 1000, 15
STACK = 4 << 20
PACKAGES = {"flask": "python3-flask", "waitress": "python3-waitress"}
NO_PROGRAM = (
    "the desk answers each line by both programs, and the program isn't built here. Build it once with ./cca, or say"
    " where it is with CCA_PROGRAM=PATH"
)


def parser() -> Parser:
    """The arguments of the command."""
    words = Parser("desk", __doc__)
    words.add_file("AWARD", "the terms of the auction")
    words.add_file("LOG", "its log; it is made where it isn't there")
    words.add_argument("--names", metavar="FILE", help="a file of names for people; tools/state --help has its form")
    words.add_argument(
        "--copies", metavar="FOLDER", help="copy log, journal and key there after each write; name another disk"
    )
    words.add_argument("--port", metavar="N", default="0", help="listen on this port; without it, on one of this log")
    words.add_argument(
        "--second", action="store_true", help="a second person approves closes and cuts, by a key of his own"
    )
    words.add_argument("--demand", action="store_true", help="show the demand of closed rounds on the room's screen")
    words.add_argument("--feed", metavar="FILE", help="take lines that `tools/rehearse --desk` writes there")
    return words


def need_packages() -> None:
    """Stops if a package of Debian isn't there for this Python."""
    lacking = [package for module, package in PACKAGES.items() if importlib.util.find_spec(module) is None]
    if lacking:
        why = f"this Python lacks a library: apt-get install {' '.join(lacking)}, then /usr/bin/python3 tools/desk .."
        raise Stop("cca: stopped", CRASH, why=why)


def need_program() -> Path:
    """The path of the program."""
    path = program()
    if not path:
        raise Stop("cca: stopped", CRASH, why=NO_PROGRAM)
    return Path(path).resolve()


def port_of(text: str) -> int:
    """The port of --port; 0 has the system draw one."""
    if not NUMBER.fullmatch(text) or int(text) > 65535:
        parser().error(f"--port takes a number from 0 to 65535, and `{text}` isn't that")
    return int(text)


def listener_on(port: int) -> socket.socket:
    """A socket only of this machine."""
    made = socket.socket(socket.AF_INET, socket.SOCK_STREAM)
    try:
        made.setsockopt(socket.SOL_SOCKET, socket.SO_REUSEADDR, 1)
        made.bind((HOST, port))
        made.listen(16)  # (before the address is printed)
    except OSError as fault:
        made.close()
        raise Stop("cca: stopped", CRASH, why=f"port {port} of {HOST} can't be had: {fault.strerror}") from None
    return made


def usual_listener(port: int) -> socket.socket:
    """A socket on the port that a log has at each start, so that the room's screen goes on after a restart; on a drawn
    one if another program has it."""
    try:
        return listener_on(port)
    except Stop:
        say(f"! Another program has port {port}, so the room's screen has a new address.", "red")
        return listener_on(0)


def path_of(text: str | None) -> Path | None:
    """The path of an option, or None without it."""
    return Path(text) if text else None


def desk(options: argparse.Namespace) -> str:
    """Serves the pages until Ctrl-C."""
    need_packages()
    path, port = need_program(), port_of(options.port)
    if "-" in (options.award, options.log, options.names, options.feed):
        parser().error("each file is read more than once, so none is standard input")
    if options.feed and os.path.realpath(options.feed) == os.path.realpath(options.log):
        parser().error("--feed names LOG itself, and a rehearsal writes another file")
    os.umask(0o077)
    return served(options, path, port)


def served(options: argparse.Namespace, path: Path, port: int) -> str:
    """Makes the desk and serves it; the libraries are loaded here, so that wrong arguments are reported without
    them."""
    from cca_tools.desk.answers import NoProgram
    from cca_tools.desk.control import Desk, Files
    from cca_tools.desk.ending import Ending
    from cca_tools.desk.guard import Guard, in_groups, new_key
    from cca_tools.desk.logfile import Refused, Unsure, warnings_of
    from cca_tools.desk.web import make_app

    log, copies, feed = Path(options.log), path_of(options.copies), path_of(options.feed)
    try:
        files = Files(Path(options.award), path)
        names = read_names(options.names, files.answers.award)
        made = Desk(files, log, names=names, copies=copies, feed=feed)
    except (Refused, Unsure, NoProgram) as fault:
        raise Stop("cca: stopped", WRITE_FAULT, why=f"the desk can't begin: {str(fault).rstrip('.')}") from None
    if made.mark.is_proved:
        say(f"The program: {made.mark.text}.")
    else:
        say(f"! {made.mark.text}. Run no auction with it: the journal and the published set say so.", "red")
    for warning in warnings_of(log, copies):
        say(f"! {warning}", "red")
    for warning in winners_warning(made.award):
        say(f"! {warning}", "red")
    if made.log.is_shared():
        say("! Another desk has this log open. Nothing is lost by that, but end one of them.", "red")
    listener = listener_on(port) if port else usual_listener(made.log.usual_port())
    guard = Guard(listener.getsockname()[1], second_key=new_key() if options.second else "")
    app = make_app(made, guard, Ending(made, path_of(options.names)), options.demand)
    prepare_threads()
    second = f"second  {in_groups(guard.second_key)}\n" if options.second else ""
    if not written(
        sys.stdout, f"desk  {guard.origin}/\nkey   {in_groups(guard.key)}\n{second}room  {guard.origin}/posted"
    ):
        raise Stop("cca: stopped", WRITE_FAULT, why="the desk's address and key can't be printed")
    with kept_until_the_end():
        serve(app, listener)
    return "The desk is closed."


def prepare_threads() -> None:
    """Lets threads end whatever the system refuses then. glibc ends the process by SIGABRT if it can't load a library
    for that, or can't free a stack. It frees none while all are below 40 MiB."""
    with contextlib.suppress(OSError):  # (other C libraries do without it)
        ctypes.CDLL("libgcc_s.so.1")
    threading.stack_size(STACK)


def serve(app: object, listener: socket.socket) -> None:
    """Serves pages until Ctrl-C. The desk itself does one thing at a time; the room's screen never waits for it, and
    idle connections are soon closed."""
    import waitress

    from cca_tools.desk.guard import MOST_BYTES

    progress.step("")  # (it waits for requests, which isn't reported)
    logging.getLogger("waitress").setLevel(logging.CRITICAL)  # (it reports connections, in terms of Python)
    soft, hard = resource.getrlimit(resource.RLIMIT_NOFILE)
    resource.setrlimit(resource.RLIMIT_NOFILE, (min(hard, max(soft, 4 * CONNECTIONS)), hard))
    waitress.serve(
        app,
        sockets=[listener],
        threads=THREADS,
        ident=None,
        max_request_body_size=2 * MOST_BYTES,
        inbuf_overflow=2 * MOST_BYTES + 1,  # (in memory: no list of a bidder is in a file of the system's)
        connection_limit=CONNECTIONS,
        channel_timeout=IDLE_SECONDS,
        cleanup_interval=5,
        asyncore_use_poll=True,
        _quiet=True,
    )


def main(argv: Sequence[str]) -> int:
    """Runs the command with these arguments, and returns its status."""
    return run_command(parser(), desk, argv)


if __name__ == "__main__":
    sys.exit(main(sys.argv[1:]))
