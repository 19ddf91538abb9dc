"""The pages of the desk by Flask. This module decides nothing about lines: what is typed is in `lines`, what a page
shows in `views`, what is written in `control`, and who may ask in `guard`.

The reply to each form is the address of a page (303), so that loading a page again, or going back, sends nothing twice.
"""

from __future__ import annotations

import secrets
import threading
from collections.abc import Callable, Mapping
from dataclasses import dataclass, field, replace
from pathlib import Path
from typing import Any, TypeAlias

import jinja2
from flask import Blueprint, Flask, Response, abort, g, make_response, redirect, render_template, request
from werkzeug.exceptions import HTTPException

from cca_tools.command_line import say
from cca_tools.desk import files, search, views
from cca_tools.desk.answers import NoLine
from cca_tools.desk.approval import Asked, People
from cca_tools.desk.control import Desk, Moment, Stopped, WrongWords, closes_of, need_words
from cca_tools.desk.ending import Ending, Outcome
from cca_tools.desk.guard import FORM, HEADERS, MOST_BYTES, Guard, InMemory
from cca_tools.desk.lines import CLOSE, NotLines, Typed, agrees, cut_words, need_alone, plain
from cca_tools.desk.logfile import Base, Mend, Refused, Stop, Written
from cca_tools.desk.pasting import paste_of
from cca_tools.desk.sheets import MOST_FILE, Handed, bidder_in, sheet_of, text_of
from cca_tools.desk.views import FormFault
from cca_tools.interrupts import reason
from cca_tools.page.ink import variables
from cca_tools.rules.view import view_text

Answer: TypeAlias = Response
HERE = Path(__file__).parent
KEPT = 50  # pages that can be loaded again
REASON, NAME = 500, 80
GONE = "That page is gone, and nothing was written by it. Enter the line again."
STATUS_WORDS = {
    400: "The desk doesn't understand what was sent.",
    403: "This page needs the key that the terminal shows, and the desk's own forms. After each start the key is new.",
    404: "There is no such page.",
    405: "Pages are loaded, and forms are sent; nothing else is answered.",
    413: "More was sent than the desk takes at once, which is 1 MB.",
    415: f"Forms are sent as {FORM}.",
    421: "The desk is at its own address alone, as the terminal shows it.",
    500: "The desk failed, and gives no answer. Its terminal says where. What was answered is in the log.",
}
MENDS: dict[Mend, str] = {
    "take back": "Take that line back",
    "end line": "End that line",
    "cut again": "Cut again",
    "put back": "Put the answered log back",
    "keep changed log": "Go on with the log as it is",
    "restart": "Start again",
    "take out": "Take out what isn't answered",
}
KEEP: Mend = "keep changed log"
KEEP_WORDS = "go on with the changed log"
KEPT_ROWS = (
    "These rows of the list aren't written yet. No draft was dropped: hand in the whole list once it has no fault."
)
NOT_SECOND = "The second person approves or declines, and writes nothing."


@dataclass(frozen=True)
class Kept:
    """What a form had, for the page that it leads to: the fields as typed, the lines, what was wrong, the lines that
    the form keeps for later, and the list that the lines are of."""

    form: Mapping[str, str] = field(default_factory=dict)
    text: bytes = b""
    notice: str = ""
    fault: FormFault = FormFault()
    rest: str = ""
    handed: Handed | None = None

    @property
    def page(self) -> str:
        """The page that shows the form."""
        return "list" if "list" in self.form else "entry"


class Store:
    """The last forms, each under a number that can't be guessed."""

    def __init__(self) -> None:
        self.kept: dict[str, Kept] = {}

    def keep(self, kept: Kept) -> str:
        """Keeps a form, and returns its number."""
        number = secrets.token_hex(8)
        self.kept[number] = kept
        for old in list(self.kept)[:-KEPT]:
            del self.kept[old]
        return number

    def find(self, number: str) -> Kept:
        """The form with this number; a page that is gone says so."""
        return self.kept.get(number, Kept(notice=GONE))


class Pages:
    """The pages of one desk."""

    def __init__(self, desk: Desk, guard: Guard, ending: Ending, with_demand: bool) -> None:
        self.desk, self.guard, self.ending, self.with_demand = desk, guard, ending, with_demand
        self.store, self.people = Store(), People(bool(guard.second_key))
        self.entered: list[str] = []  # the times when browsers have entered
        self.lock = threading.RLock()  # of everything but the room's screen
        self.room = ""  # the room's screen as it was shown last
        self.asked: Asked | None = None  # what waits for the second person
        self.decided = ""  # the page of what the second person has decided, for the first one, who waits
        self.asked_keep: tuple[str, bytes] | None = None  # the reason and the changed log, if that waits
        self.cuts: dict[str, views.CutDone] = {}
        self.outcomes: dict[str, tuple[str, Outcome]] = {}  # of each step: the log's checksum, and the outcome
        self.sheet = style_sheet()

    # What every answer has.

    def watch(self) -> Answer | None:
        """Refuses a request that the guard doesn't let in."""
        fault = self.guard.fault(request)
        if fault:
            return self.refusal(fault)
        if self.guard.is_inside(request):
            self.lock.acquire()
            g.has_lock = True
            if request.method == "POST" and self.is_second() and not self.may_send():
                return make_response(render_template("refused.html", words=NOT_SECOND, door=""), 403)
        return None

    def leave_lock(self, fault: BaseException | None) -> None:
        """Lets the next request of the desk in."""
        if g.pop("has_lock", False):
            self.lock.release()

    def may_send(self) -> bool:
        """Whether the second person may send this form: to approve, to decline, and to leave."""
        is_keep = request.path.endswith("/mend") and request.form.get("mend") == KEEP and self.asked_keep is not None
        return is_keep or request.path.endswith(("/approve", "/leave"))

    def is_second(self) -> bool:
        """Whether the second person asks."""
        return self.guard.is_second(request)

    def headed(self, response: Answer) -> Answer:
        """Adds the headers that each response has."""
        response.headers.update(HEADERS)
        return response

    def refusal(self, status: int) -> Answer:
        """The page of a request that is refused, without any address of the desk."""
        words = STATUS_WORDS.get(status, STATUS_WORDS[400])
        return make_response(render_template("refused.html", words=words, door="/" if status == 403 else ""), status)

    def http_fault(self, fault: HTTPException) -> Answer:
        """The page of a fault of a request."""
        if fault.code == 413 and self.guard.takes_file(request):  # (of a browser that has entered)
            why = f"Nothing was read: the file is larger than {MOST_FILE:,} bytes, and a list isn't."
            return self.to(f"list/{self.store.keep(Kept(fault=FormFault('file', [why])))}")
        return self.refusal(fault.code or 500)

    def lacking(self, fault: OSError) -> Answer:
        """The page of a request that lacked something of the system."""
        say(f"! A page wasn't shown, since this can't be had: {reason(fault)}.", "red")
        # (a template is a file, which may lack that too)
        return make_response(STATUS_WORDS[500], 500)

    def shown(self, template: str, status: int = 200, /, **facts: Any) -> Answer:
        """A page of the desk."""
        guard = self.guard
        room, waits = f"{guard.origin}/posted", self.asked is not None
        more = {"room": room, "waits": waits, "is_second": self.is_second(), "is_over": facts.pop("is_over", False)}
        text = render_template(template, inside=guard.inside, token=guard.token, host=guard.host, **more, **facts)
        return make_response(text, status)

    def to(self, place: str) -> Answer:
        """Sends the browser on to a page."""
        return make_response(redirect(f"{self.guard.inside}/{place}", 303))

    def keep(
        self, place: str, text: bytes = b"", notice: str = "", fault: FormFault = FormFault(), rest: str = ""
    ) -> Answer:
        """Keeps the form that was sent, and sends the browser on to the page that shows it."""
        fields = {name: value for name, value in request.form.items() if name not in ("token", "base", "text")}
        return self.to(f"{place}/{self.store.keep(Kept(fields, text, notice, fault, rest))}")

    def keep_fault(self, why: NotLines | Refused) -> Answer:
        """Sends the browser on to the form that was sent, with what is wrong at its field."""
        field_name = getattr(why, "field", "") or ("raw" if request.form.get("raw") else "")
        if field_name or request.form.get("kind"):
            return self.keep("entry", fault=FormFault(field_name or "package", [f"Nothing was written. {why}"]))
        return self.keep("entry", notice=f"Nothing was written. {why}")

    # Without the key.

    def door(self) -> Answer:
        """The field for the key."""
        return self.shown("door.html", is_wrong="wrong" in request.args, by_two=bool(self.guard.second_key))

    def enter(self) -> Answer:
        """Lets in who has the key."""
        person, name = self.guard.person_of(request.form.get("key", "")), " ".join(request.form.get("name", "").split())
        if not person or not self.people.enter(person, name[:NAME]):
            return make_response(redirect("/?wrong", 303))
        answer = self.to("")
        self.guard.let_in(answer, person)
        with self.lock:
            self.entered.append(views.time_now())
        return answer

    def leave(self) -> Answer:
        """Locks the desk for this browser: its cookie is gone, and the key opens it again."""
        answer = make_response(redirect("/", 303))
        self.guard.let_out(answer)
        return answer

    def posted(self) -> Answer:
        """The page of what everybody may know. If the desk can't reply now, the page says only that. While the desk
        works for its own pages, the page is the one that was shown last."""
        if not self.lock.acquire(blocking=False):
            return make_response(self.room) if self.room else make_response(render_template("wait.html"), 503)
        try:
            facts = views.posted(self.desk, self.desk.now(), self.with_demand)
            self.room = render_template("posted.html", posted=facts)
        except Stopped:
            self.room = ""
            return make_response(render_template("wait.html"), 503)
        finally:
            self.lock.release()
        return make_response(self.room)

    def css(self) -> Answer:
        """The style sheet."""
        return Response(self.sheet, mimetype="text/css")

    # The stage, and a line.

    def home(self, number: str = "") -> Answer:
        """The stage, with the form of a line."""
        return self.stage(self.with_reasons(self.store.find(number)) if number else Kept())

    def with_reasons(self, kept: Kept) -> Kept:
        """A form that is corrected, with why its lines would be refused."""
        if kept.notice or kept.fault.sentences:
            return kept
        if not kept.text:
            return self.with_paste_faults(kept)
        moment = self.desk.now()
        try:
            lines = views.preview_page(self.desk, moment, self.desk.preview(moment, kept.text)).lines
        except Refused as fault:
            return replace(kept, notice=str(fault))
        reasons = [
            f"{f'Line {row}, ' if len(lines) > 1 else ''}{line.record} would be refused: {line.reply}. {line.words}"
            for row, line in enumerate(lines, 1)
            if not line.is_ok
        ]
        if not reasons:
            return kept
        where = "raw" if kept.form.get("raw") else "amount" if "amount" in lines[0].words else "package"
        return replace(kept, fault=FormFault(where, reasons))

    def with_paste_faults(self, kept: Kept) -> Kept:
        """A form that has kept lines of a paste, with why they aren't lines, or why they would be refused."""
        raw = kept.form.get("raw", "")
        try:
            paste = paste_of(raw, self.desk.award)
            if paste.faults:
                sentences = [it.words() for it in paste.faults]
                return replace(kept, fault=FormFault("raw", sentences, len(paste.good)))
            return self.with_reasons(replace(kept, text=plain("".join(f"{it}\n" for it in paste.good))))
        except NotLines:
            return kept

    def stage(self, kept: Kept) -> Answer:
        """The stage, with the form as it was typed and what was wrong."""
        moment = self.desk.noted()
        notice, waiting = kept.notice, list[bytes]()
        try:
            waiting = self.desk.waiting(moment)
        except Refused as fault:
            notice = notice or str(fault)
        shown = views.home(self.desk, moment, Typed.of(kept.form), waiting, kept.fault)
        facts = {
            "outcomes": self.outcomes_of(moment),
            "base": moment.base.text(),
            "recut": self.cut_lines(moment)[1] > 0,
            "entered": self.entered,
            "set_out": self.set_out(moment),
            "links": self.ending.links(moment.auction.stage == "closed"),
            "can_price": self.desk.has_pricer,
        }
        return self.shown("home.html", page=shown, notice=notice, **facts)

    def set_out(self, moment: Moment) -> str:
        """The folder of a set that was made before the log had its last lines; nothing if there is none."""
        if moment.auction.stage != "closed":
            return ""
        made = self.ending.older_set()
        return made.name if made else ""

    def outcomes_of(self, moment: Moment) -> dict[str, Outcome]:
        """The outcomes of the last steps that were made with this log."""
        return {step: outcome for step, (total, outcome) in self.outcomes.items() if total == moment.base.sum}

    def preview(self) -> Answer:
        """Takes what was typed to the page that shows the replies."""
        typed, rest = Typed.of(request.form), ""
        try:
            if typed.raw:
                paste = paste_of(typed.raw, self.desk.award)
                if paste.faults and not (paste.good and "good" in request.form):
                    sentences = [f"Nothing was written. {it.words()}" for it in paste.faults]
                    return self.keep("entry", fault=FormFault("raw", sentences, len(paste.good)))
                text, rest = plain("".join(f"{it}\n" for it in paste.good)), paste.rest
            else:
                text = typed.text()
            need_alone(text)
            if text == CLOSE:
                return self.to("close")
            self.desk.preview(self.desk.now(), text)
        except (NotLines, Refused) as fault:
            return self.keep_fault(fault)
        return self.keep("preview", text, rest=rest)

    def list_form(self, number: str = "") -> Answer:
        """The form for a list as CSV."""
        kept = self.store.find(number) if number else Kept()
        if kept.handed:
            kept = self.with_list_reasons(kept, kept.handed)
        page = views.list_form(self.desk, kept.form)
        return self.shown("list.html", page=page, fault=kept.fault, notice=kept.notice)

    def with_list_reasons(self, kept: Kept, handed: Handed) -> Kept:
        """The form of a list that is corrected, with why its rows would be refused."""
        moment = self.desk.now()
        try:
            page = views.preview_page(self.desk, moment, self.desk.preview(moment, kept.text))
        except Refused as fault:
            return replace(kept, notice=str(fault))
        refused = [it for it in page.lines if not it.is_ok]
        reasons = [f"{handed.place(it.record)} would be refused: {it.reply}. {it.words}" for it in refused]
        return replace(kept, fault=FormFault("list", reasons))

    def take_list(self) -> Answer:
        """Takes a list that was handed in, as a file or as text, to the page that shows the replies to its lines."""
        form, text = request.form, request.form.get("list", "")
        try:
            moment = self.desk.now()
            if moment.auction.stage != "sealed":
                raise Refused("Lists are taken only after the clock has ended.")
            text = self.file_text() or text
            j = bidder_in(self.desk.award, form.get("bidder", ""))
            if not text.strip():
                raise NotLines("Choose the bidder's file, or paste its rows.", "file")
            sheet = sheet_of(text, self.desk.award, self.desk.names)
            if sheet.faults and not (sheet.rows and "good" in form):
                sentences = [f"Nothing was written. {it.words()}" for it in sheet.faults]
                return self.keep_list(text, FormFault("list", sentences, len(sheet.rows)))
            handed = Handed(self.desk.award.names[j - 1], sheet, "whole" in form, "submit" in form)
            lines = plain(handed.lines(moment.auction.desks[j - 1].drafts))
            self.desk.preview(moment, lines)
        except (NotLines, Refused) as fault:
            return self.keep_list(
                text, FormFault(getattr(fault, "field", "") or "list", [f"Nothing was written. {fault}"])
            )
        return self.to(f"preview/{self.store.keep(Kept(self.list_fields(text), lines, handed=handed))}")

    def file_text(self) -> str:
        """The text of the file that was chosen, or nothing if none was. Raises `NotLines`."""
        files_sent = [it for it in request.files.getlist("file") if it.filename]
        if len(files_sent) > 1:
            raise NotLines("Choose one file.", "file")
        return text_of(files_sent[0].read()) if files_sent else ""

    def list_fields(self, text: str) -> dict[str, str]:
        """The fields of the form of a list, with the text of its file."""
        fields = {name: value for name, value in request.form.items() if name in ("bidder", "whole", "submit")}
        return {**fields, "list": text}

    def keep_list(self, text: str, fault: FormFault) -> Answer:
        """Sends the browser on to the form of a list, with what is wrong in it."""
        return self.to(f"list/{self.store.keep(Kept(self.list_fields(text), fault=fault))}")

    def cut_lines(self, moment: Moment) -> tuple[str, int]:
        """The lines of the open round, or of the lists, that the last cut took away, if nothing was written after it;
        and how many."""
        text = files.cut_lines(self.desk, moment)
        return text, text.count("\n")

    def recut(self) -> Answer:
        """Takes the lines that a cut took away to the page that shows the replies."""
        text, many = self.cut_lines(self.desk.now())
        if not many:
            return self.keep("entry", notice="There are no cut lines to be entered again.")
        return self.to(f"preview/{self.store.keep(Kept({'raw': text}, plain(text)))}")

    def take_waiting(self) -> Answer:
        """Takes lines of a rehearsal to the page that shows the replies."""
        count = max(1, request.form.get("count", 1, type=int))
        try:
            lines = self.desk.waiting(self.desk.now())[:count]
            if not lines:
                raise Refused("No line of the rehearsal waits.")
            text = plain(b"".join(lines).decode("ascii", "replace"))
            self.desk.preview(self.desk.now(), text)
        except (NotLines, Refused) as fault:
            return self.keep("entry", notice=f"Nothing was written. {fault}")
        return self.to(f"preview/{self.store.keep(Kept({'raw': text.decode()}, text))}")

    def previewed(self, number: str) -> Answer:
        """The page with the replies that lines would get now."""
        kept = self.store.find(number)
        if not kept.text:
            return self.stage(kept)
        moment = self.desk.now()
        try:
            answered = self.desk.preview(moment, kept.text)
        except Refused as fault:
            return self.stage(Kept(kept.form, notice=f"Nothing was written. {fault}"))
        page, faults = views.preview_page(self.desk, moment, answered, kept.handed), kept.rest.count("\n")
        facts = {
            "notice": kept.notice,
            "base": moment.base.text(),
            "text": kept.text.decode(),
            "number": number,
            "rest": kept.rest,
            "rest_count": len(kept.handed.sheet.faults) if kept.handed else faults,
            "is_list": kept.handed is not None,
        }
        return self.shown("preview.html", page=page, **facts)

    def close(self, number: str = "") -> Answer:
        """The question of a close."""
        kept = self.store.find(number) if number else Kept()
        moment = self.desk.noted()
        try:
            waiting = self.desk.waiting(moment)
        except Refused:
            waiting = []
        page = views.close_page(self.desk, moment, self.desk.effect(moment), waiting)
        facts = {"base": moment.base.text(), "notice": kept.notice, "fault": kept.fault}
        return self.shown("close.html", page=page, by_two=self.people.by_two, **facts)

    def write(self) -> Answer:
        """Writes lines."""
        sent, text = request.form.get("text", "").replace("\r\n", "\n"), b""
        try:
            text = plain(sent)
            if text == CLOSE:
                return self.to("close")
            written = self.desk.write(Base.of(request.form.get("base", "")), text)
        except NotLines as fault:
            return self.to(f"entry/{self.store.keep(Kept({'raw': sent}, notice=f'Nothing was written. {fault}'))}")
        except Refused as fault:
            before = self.store.find(request.form.get("handed", ""))
            form = before.form if before.handed else {"raw": sent}
            return self.to(f"preview/{self.store.keep(Kept(form, text, str(fault), handed=before.handed))}")
        left = self.left_of(text)
        return self.to_lines(written, text.count(b"\n"), self.store.keep(left) if left else "")

    def left_of(self, text: bytes) -> Kept | None:
        """The form with what it keeps after these lines are written: lines of a paste, or rows of a list."""
        rest = request.form.get("rest", "").replace("\r\n", "\n")
        handed = self.store.find(request.form.get("handed", "")).handed
        if handed and (rows := handed.rest(text)):
            fields = {"bidder": handed.bidder, "list": rows, **({"submit": "on"} if handed.submits else {})}
            return Kept(fields, notice=KEPT_ROWS if handed.is_whole else "")
        return Kept({"raw": rest}) if rest else None

    def write_close(self) -> Answer:
        """Writes a close, or asks the second person."""
        form = request.form
        try:
            base, typed = Base.of(form.get("base", "")), form.get("typed", "")
            if self.people.by_two:
                moment = self.desk.now()
                need_words(moment.auction, typed)
                return self.ask(Asked("close", base, moment.data, {"typed": typed}))
            written = self.desk.close(base, typed)
        except Refused as fault:
            if isinstance(fault, WrongWords):
                return self.keep("close", fault=FormFault("typed", [str(fault)]))
            return self.keep("close", notice=str(fault))
        return self.to_lines(written, 1)

    # Two people.

    def ask(self, asked: Asked) -> Answer:
        """Asks the second person to approve something."""
        self.asked = asked
        return self.to("approve")

    def approval(self) -> Answer:
        """What waits for the second person, as it would be done now; once that is decided, what came of it."""
        if not self.asked:
            if self.is_second():
                return self.to("")
            place, self.decided = self.decided, ""
            return self.to(place)
        moment = self.desk.noted()
        if moment.data != self.asked.data:
            self.asked = None
            return self.keep("entry", notice="The log has changed, so what waited for the second person is gone.")
        return self.shown("approve.html", asked=self.asked, **self.approved_page(self.asked, moment))

    def approved_page(self, asked: Asked, moment: Moment) -> dict[str, Any]:
        """What the second person sees of what waits."""
        facts: dict[str, Any] = {"names": self.people.names(), "close": None, "cuts": ""}
        if asked.kind == "close":
            facts["close"] = views.close_page(self.desk, moment, self.desk.effect(moment), [])
        else:
            page = views.again_page(moment)
            facts["cuts"] = next(
                (f"{it.words}; {it.cuts}" for it in page.choices if it.typed == asked.form["typed"]), ""
            )
        return facts

    def approve(self) -> Answer:
        """Does what waits, once the second person has approved it; the first may only take it back."""
        asked, says = self.asked, request.form.get("says", "")
        if not asked or says not in ("decline", "approve") or says == "approve" and not self.is_second():
            return self.to("approve" if asked else "")
        self.asked = None
        if says == "decline":
            answer = self.keep("entry", notice="Nothing was written: it was taken back or declined.")
        else:
            answer = self.done(asked, self.people.names())
        self.decided = answer.headers["Location"].removeprefix(f"{self.guard.inside}/") if self.is_second() else ""
        return answer

    def done(self, asked: Asked, people: Mapping[str, str]) -> Answer:
        """Does what the second person has approved."""
        try:
            if asked.kind == "close":
                return self.to_lines(self.desk.close(asked.base, asked.form["typed"], people), 1)
            return self.do_cut(asked.base, self.desk.now(), int(asked.form["record"]), asked.form["why"], people)
        except Refused as fault:
            return self.keep("entry", notice=str(fault))

    def to_lines(self, written: Written, count: int, rest: str = "") -> Answer:
        """Sends the browser on to the page of what was written, with the number of a form that keeps other lines."""
        last = len(self.desk.answered(written.log).lines)
        more = [*(["again"] if written.was_there else []), *([f"rest={rest}"] if rest else [])]
        return self.to(f"lines/{last - count + 1}-{last}{'?' if more else ''}{'&'.join(more)}")

    def lines(self, first: int, last: int) -> Answer:
        """What was written."""
        moment = self.desk.now()
        if not 1 <= first <= last <= len(moment.auction.lines):
            abort(404)
        page = views.written_page(self.desk, moment, first, last, "again" in request.args)
        rest = request.args.get("rest", "")
        place = f"{self.store.find(rest).page}/{rest}" if rest in self.store.kept else ""
        facts = {"copy_fault": self.desk.copy_fault, "rest": place}
        facts["announcement"] = files.announcement(self.desk, moment, last, self.with_demand) if page.seal else ""
        return self.shown("written.html", page=page, last=last, **facts)

    def all_lines(self) -> Answer:
        """All lines of the log, or those that are asked for."""
        moment = self.desk.noted()
        page = search.found_lines(self.desk, moment, search.Wanted.of(request.args))
        return self.shown("all.html", page=page)

    # A bidder.

    def number_of(self, name: str) -> int:
        """The number of a bidder of the award."""
        return self.desk.award.number_of(name) or abort(404)

    def bidder(self, name: str) -> Answer:
        """What a bidder may see."""
        number = self.number_of(name)
        return self.shown("bidder.html", page=views.bidder_page(self.desk, self.desk.now(), number))

    def view(self, name: str) -> Answer:
        """The view of a bidder, as a file."""
        number = self.number_of(name)
        answer = Response(view_text(self.desk.now().auction, number), mimetype="text/plain")
        answer.headers["Content-Disposition"] = f'attachment; filename="{name}.view"'
        return answer

    def readback(self, name: str) -> Answer:
        """What a bidder has sent, to be printed, compared by it and signed."""
        page = views.readback(self.desk, self.desk.now(), self.number_of(name))
        return self.shown("readback.html", page=page)

    def views_zip(self) -> Answer:
        """The views of all bidders, and the last announcement."""
        data = files.views_zip(self.desk, self.desk.now(), self.with_demand)
        return self.attached(data, f"{self.desk.log_path.name}.views.zip", "application/zip")

    def announced(self, last: int) -> Answer:
        """The announcement of a close as a file."""
        moment = self.desk.now()
        if not 1 <= last <= len(moment.auction.lines):
            abort(404)
        text = files.announcement(self.desk, moment, last, self.with_demand) or abort(404)
        return self.attached(text.encode(), f"announcement-{last}.txt", "text/plain; charset=utf-8")

    def attached(self, data: bytes, name: str, kind: str) -> Answer:
        """A file to be kept."""
        answer = Response(data, content_type=kind)
        answer.headers["Content-Disposition"] = f'attachment; filename="{name}"'
        return answer

    def protocol(self) -> Answer:
        """The journal as a protocol, to be printed and signed."""
        self.desk.now()
        return self.shown("protocol.html", text=files.protocol(self.desk))

    def made(self, name: str) -> Answer:
        """A file that a step at the end has made."""
        path = self.ending.made_files().get(name) or abort(404)
        kinds = {".html": "text/html; charset=utf-8", ".txt": "text/plain; charset=utf-8"}
        return self.attached(path.read_bytes(), path.name, kinds.get(path.suffix, "application/octet-stream"))

    # A round that is run again.

    def again(self, number: str = "") -> Answer:
        """The closes after which the log can be cut."""
        kept = self.store.find(number) if number else Kept()
        moment = self.desk.noted()
        facts = {"base": moment.base.text(), "notice": kept.notice, "form": kept.form, "fault": kept.fault}
        return self.shown("again.html", page=views.again_page(moment), by_two=self.people.by_two, **facts)

    def cut(self) -> Answer:
        """Cuts the log after a close, or asks the second person."""
        moment, form = self.desk.now(), request.form
        record, why = form.get("record", -1, type=int), " ".join(form.get("why", "").split())[:REASON]
        try:
            wrong = self.cut_fault(moment, record, why)
            if wrong.sentences:
                return self.keep("again", fault=wrong)
            base = Base.of(form.get("base", ""))
            if self.people.by_two:
                fields = {"record": str(record), "why": why, "typed": cut_words(record)}
                return self.ask(Asked("cut", base, moment.data, fields))
            return self.do_cut(base, moment, record, why, {})
        except Refused as fault:
            return self.keep("again", notice=str(fault))

    def cut_fault(self, moment: Moment, record: int, why: str) -> FormFault:
        """What is wrong in the form of a cut."""
        if record not in lengths_of(moment):
            choices = views.again_page(moment).choices
            first = f"record-{choices[0].record}" if choices else ""
            return FormFault(first, ["Nothing was cut: choose the close after which the log is cut."])
        if not why:
            return FormFault("why", ["Nothing was cut: give the reason; everybody reads it."])
        if not agrees(request.form.get("typed", ""), cut_words(record)):
            return FormFault("typed", [f"Nothing was cut. For the close that you chose, type: {cut_words(record)}"])
        return FormFault()

    def do_cut(self, base: Base, moment: Moment, record: int, why: str, people: Mapping[str, str]) -> Answer:
        """Cuts the log. Raises `Refused`."""
        length, last = lengths_of(moment)[record], views.last_close(moment)
        stay = last is not None and record == last.record - 1
        kept = self.desk.cut(base, length, why, stay, people)
        number = secrets.token_hex(8)
        self.cuts[number] = views.cut_done(self.desk, moment, length, kept.name, why)
        return self.to(f"cut/{number}")

    def cut_page(self, number: str) -> Answer:
        """What a cut has done."""
        page = self.cuts.get(number) or abort(404)
        return self.shown("cut.html", page=page, recut=self.cut_lines(self.desk.now())[1])

    # A stop, and the end.

    def stopped(self, fault: Stopped) -> Answer:
        """Why nothing is written now; a form that was sent leads to the page that says so."""
        if request.method == "POST":
            return self.to("")
        number = (request.view_args or {}).get("number", "")
        notice = self.store.kept[number].notice if number in self.store.kept else ""
        mends = [(mend, MENDS[mend]) for mend in self.mends_of(fault.stop) if mend in MENDS and mend != KEEP]
        facts = {"stop": fault.stop, "mends": mends, "notice": notice, "keep": KEEP, "words": KEEP_WORDS}
        facts |= {"asked_keep": self.asked_keep[0] if self.asked_keep else "", "names": self.people.names()}
        return self.shown("stopped.html", 503, changes=self.changes(fault.stop), **facts)

    def changes(self, stop: Stop) -> list[str]:
        """What changes if the auctioneer goes on with a changed log; nothing if that can't be."""
        if not stop.allows(KEEP):
            return []
        try:
            return views.changes(self.desk)
        except (NoLine, Refused, Stopped):
            return []

    def mends_of(self, stop: Stop) -> list[Mend]:
        """The repairs that fit a stop. A torn line that is whole except for its line feed can be ended too."""
        if stop.mend == "put back":
            return ["put back", KEEP]
        if stop.mend != "take back":
            return [stop.mend]
        try:
            self.desk.answered(self.desk.log.read() + b"\n")
        except (NoLine, Refused, Stopped):
            return ["take back"]
        return ["take back", "end line"]

    def mend(self) -> Answer:
        """Repairs the log as a button says."""
        stop, wanted = self.desk.log.stop() or self.desk.line_stop(), request.form.get("mend", "")
        why = " ".join(request.form.get("why", "").split())[:REASON]
        for mend in self.mends_of(stop) if stop else []:
            if mend == wanted and mend in MENDS:
                return self.mended(mend, why)
        return self.to("")

    def mended(self, mend: Mend, why: str) -> Answer:
        """Repairs the log if a reason is given."""
        try:
            if not why:
                raise Refused("Nothing was changed: give the reason, for the journal.")
            if mend == KEEP and not agrees(request.form.get("typed", ""), KEEP_WORDS):
                raise Refused(f"Nothing was changed. To go on with the changed log, type: {KEEP_WORDS}")
            if mend == KEEP and self.people.by_two:
                return self.keep_by_two(why)
            self.desk.mend(mend, why)
        except Refused as fault:
            return self.keep("entry", notice=str(fault))
        except Stopped as fault:
            return self.keep("entry", notice=f"That was tried, and it failed. {fault.stop.why}")
        return self.to("")

    def keep_by_two(self, why: str) -> Answer:
        """Goes on with a changed log once the second person has approved that; asks for it before. Raises `Refused` and
        `Stopped`."""
        data = self.desk.log.read()
        if not self.is_second():
            self.asked_keep = why, data
            return self.to("")
        asked, self.asked_keep = self.asked_keep, None
        if asked is None or asked[1] != data:
            raise Refused("Nothing was changed: the log isn't the one that this was asked for.")
        self.desk.mend(KEEP, asked[0], self.people.names())
        return self.to("")

    def end(self, step: str) -> Answer:
        """One step at the end of the auction."""
        moment = self.desk.now()
        if moment.auction.stage != "closed":
            return self.to("")
        steps: dict[str, Callable[[], Outcome]] = {
            "award": lambda: self.ending.award(moment),
            "price": lambda: self.ending.price(moment),
            "report": self.ending.report,
            "publish": lambda: self.ending.publish(moment),
        }
        run = steps.get(step) or abort(404)
        outcome = run()
        # (a certificate of the pricer is used as the award's, and the page offers what follows it)
        self.outcomes["award" if step == "price" else step] = moment.base.sum, outcome
        return self.to("")


def lengths_of(moment: Moment) -> dict[int, int]:
    """The bytes of the log after each record after which it can be cut."""
    lengths = {0: 0, **{it.record: it.length for it in closes_of(moment.data, moment.auction)}}
    if last := views.last_close(moment):
        lengths[last.record - 1] = last.length - len(CLOSE)
    return lengths


def style_sheet() -> str:
    """The style sheet, with the colours of the reports for a white and for a dark ground."""
    white, dark = variables("white"), variables("dark")
    colours = f":root {{ {white} }}\n@media (prefers-color-scheme: dark) {{ :root {{ {dark} }} }}\n"
    return colours + (HERE / "static" / "desk.css").read_text(encoding="utf-8")


def make_app(desk: Desk, guard: Guard, ending: Ending, with_demand: bool = False) -> Flask:
    """The application of one desk."""
    app, pages = Flask("cca_tools.desk", root_path=str(HERE), static_folder=None), Pages(
        desk, guard, ending, with_demand
    )
    app.config["MAX_CONTENT_LENGTH"] = MOST_BYTES
    app.request_class = InMemory
    app.jinja_env.trim_blocks = app.jinja_env.lstrip_blocks = True
    app.jinja_env.undefined = jinja2.StrictUndefined
    app.before_request(pages.watch)
    app.after_request(pages.headed)
    app.teardown_request(pages.leave_lock)
    app.register_error_handler(HTTPException, pages.http_fault)
    app.register_error_handler(Stopped, pages.stopped)
    app.register_error_handler(OSError, pages.lacking)
    for path, handler, method in OUTSIDE:
        app.add_url_rule(path, handler, getattr(pages, handler), methods=[method])
    room = Blueprint("room", __name__)
    for path, handler, method in INSIDE:
        room.add_url_rule(path, handler, getattr(pages, handler), methods=[method])
    app.register_blueprint(room, url_prefix=guard.inside)
    return app


OUTSIDE = (
    ("/", "door", "GET"),
    ("/", "enter", "POST"),
    ("/posted", "posted", "GET"),
    ("/desk.css", "css", "GET"),
)
INSIDE = (
    ("/", "home", "GET"),
    ("/entry/<number>", "home", "GET"),
    ("/preview", "preview", "POST"),
    ("/waiting", "take_waiting", "POST"),
    ("/preview/<number>", "previewed", "GET"),
    ("/write", "write", "POST"),
    ("/lines/<int:first>-<int:last>", "lines", "GET"),
    ("/leave", "leave", "POST"),
    ("/list", "list_form", "GET"),
    ("/list/<number>", "list_form", "GET"),
    ("/list", "take_list", "POST"),
    ("/recut", "recut", "POST"),
    ("/approve", "approval", "GET"),
    ("/approve", "approve", "POST"),
    ("/all", "all_lines", "GET"),
    ("/views.zip", "views_zip", "GET"),
    ("/announcement/<int:last>", "announced", "GET"),
    ("/protocol", "protocol", "GET"),
    ("/made/<name>", "made", "GET"),
    ("/bidder/<name>/readback", "readback", "GET"),
    ("/close", "close", "GET"),
    ("/close/<number>", "close", "GET"),
    ("/close", "write_close", "POST"),
    ("/bidder/<name>", "bidder", "GET"),
    ("/bidder/<name>/view", "view", "GET"),
    ("/again", "again", "GET"),
    ("/again/<number>", "again", "GET"),
    ("/again", "cut", "POST"),
    ("/cut/<number>", "cut_page", "GET"),
    ("/mend", "mend", "POST"),
    ("/end/<step>", "end", "POST"),
)
