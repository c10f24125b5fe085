"""Who asks, and whether they may: sessions, tokens, rights, requests of other sites, headers."""
from __future__ import annotations

import contextlib
import json
import os
import re
import sqlite3
import sys
import threading
import time
from collections.abc import Callable
from typing import IO, TYPE_CHECKING, Any, TypeVar, cast

import flask
from register_files import FULL, Refused
from werkzeug.exceptions import HTTPException
from werkzeug.wrappers import Response as AnyResponse
from werkzeug.wsgi import wrap_file

from office.core import days, plain, turns, wording
from office.web.frame import failures, uploads
from office.web.frame.watch import Watch
from office.web.register.desk import Away
from office.web.register.history import now
from office.web.rounds.terms import SENT

from .roles import Person

if TYPE_CHECKING:
    from office.web.parts import Parts

COOKIE = "__Host-admissions"
# where a site is tried without TLS, a browser takes no such cookie
PLAIN_COOKIE = "admissions"
# what a program sends, and no form can
TYPES = ("application/json", "text/csv")
PUBLIC = "public"
SIGNED_IN = "signed in"
HEADERS = {
    "Referrer-Policy": "same-origin",
    "Cache-Control": "no-store",
    "X-Content-Type-Options": "nosniff",
    "Cross-Origin-Resource-Policy": "same-origin",
    "Cross-Origin-Opener-Policy": "same-origin",
    "Permissions-Policy": "camera=(), geolocation=(), microphone=(), payment=(), usb=()",
    "Content-Security-Policy": (
        "default-src 'none'; script-src 'self'; style-src 'self'; img-src 'self'; connect-src"
        " 'self'; base-uri 'none'; form-action 'self'; frame-ancestors 'none';"
        " require-trusted-types-for 'script'"),
}
# a person who tries what is not theirs is on record once in so many seconds for each address
REFUSED_SECONDS = 60
# and what anybody may do who is signed in so often within so many seconds
MOST_FEW, FEW_SECONDS = 500, 3600
# what a program sends is in the history for good, and so in memory, also if the register refuses
# it: so many bytes of each within a day, of which a season needs a tenth
MOST_SENT, SENT_SECONDS = 64 << 20, 24 * 3600
# what is for programs with a token, and for nobody else: the register's own answers
OF_PROGRAMS = {f"register.{it}" for it in (
    "register", "draw", "read", "school", "pairs", "waiting", "command", "rows", "question")}
FOR_PROGRAMS = ("this is for other programs, which send a token: the head of the office adds a"
                " program on the screen People")
# what a program may ask for beside it: that it is known, before the site reads what it sends
OF_BOTH = "signing.signed_in"
# what has more than one child, and is downloaded, is on record: each by a person or a program once
# an hour; of the register's own answers also those that begin so
EXPORTS = ("register.register", "register.draw", "register.pairs", "register.waiting", "lists.csv",
           "lists.workbook", "lots.sheet_file", "lots.sealed_text", "draws.sealed",
           "draws.audit_text", "schools.workbook", "trials.workbook", "trials.pdf",
           "activity.workbook")
ROUNDS, EXPORT_SECONDS = "/round/", 3600
# what somebody may do whose password was drawn by somebody else
BEFORE_CHANGE = ("signing.password", "signing.sign_out", "signing.signed_in")
# what was typed is kept over the end of a session up to this size, and on these pages never
MOST_TYPED, MOST_SECRET = 1_000_000, 100
# of the words of a button that confirms something, by which it is sent again
MOST_CONFIRMED = 300
SECRET = ("signing.sign_in", "signing.password")
# an answer of more bytes keeps the turn of its person until it is sent: who reads it slowly holds a
# thread
LONG_ANSWER = 1_000_000
# of those without a session one body is read at a time; another one meanwhile is not read
NOBODY = threading.Lock()
# of those with one, so many pages at a time are made of what they typed, of which each may be long
KEEPING = turns.Turn(threading.BoundedSemaphore(2), "others have sent much")
ENDED = ("Your session has ended, and nothing was done. Sign in again, and then send once more what"
         " you typed: it is below.")
WRONG = "Something went wrong in the application. "
BROKEN = (f"{WRONG}Look whether what you sent is done, before you send it again; and tell IT"
          " support.")
UNMADE = "Nothing was changed. Tell IT support the address of the page and this moment: "
EARLIER = ("This page was opened by another person, or before your password was changed, and"
           " nothing was done. What you typed is below: read it, and send it again if it still"
           " holds.")
View = TypeVar("View", bound=Callable[..., Any])


def needs(right: str) -> Callable[[View], View]:
    """Says which right a view needs; PUBLIC needs none, SIGNED_IN any person."""
    def marked(view: View) -> View:
        view.right = right  # type: ignore[attr-defined]
        return view
    return marked


def parts() -> Parts:
    """The parts of the application."""
    return cast("Parts", flask.current_app.extensions["office"])


def watch() -> Watch:
    """What is counted."""
    return cast(Watch, flask.current_app.extensions["watch"])


def person() -> Person:
    """Who asks."""
    found: Person | None = flask.g.get("person")
    if found is None:
        flask.abort(401)
    return found


def record(what: str, **about: Any) -> None:
    """Adds what the person does to the history."""
    parts().history.add(person().name, what, about)


def cookie_name() -> str:
    """The name of the cookie."""
    return COOKIE if parts().config.origin.startswith("https:") else PLAIN_COOKIE


def who_asks() -> Person | None:
    """The person of the session, or the program of a token."""
    request, people = flask.request, parts().people
    if secret := request.cookies.get(cookie_name()):
        return people.of_session(secret)
    if request.authorization and request.authorization.type == "basic":
        name, token = request.authorization.username, request.authorization.password
        found = people.of_token(name or "", token or "")
        # (the site asks who is signed in, and passes nothing on of a token that is wrong)
        if found is None:
            sign_in_failed(failures.TOKEN)
        return found
    return None


def address() -> str:
    """The address of whoever asks, as the site names it."""
    return flask.request.headers.get("X-Real-IP", "?")


def sign_in_failed(kind: str) -> None:
    """Counts a sign-in that failed, and names its address in the machine's journal."""
    parts().failures.add(kind, address())


def is_foreign() -> bool:
    """Whether a request that changes something may come from a page of another site. A form has the
    secret of a session of the same person, of an earlier one where the page was left open; what a
    program sends is of kinds that no form can send.
    """
    request = flask.request
    if request.headers.get("Origin") != parts().config.origin:
        return True
    found: Person | None = flask.g.get("person")
    if found is not None and found.is_program:
        # (of two kinds some versions of the library name the first, and others both)
        kind = re.split("[;,]", request.headers.get("Content-Type", ""))[0]
        return kind.strip().lower() not in TYPES
    if request.endpoint == "signing.sign_in":
        return False
    return found is None or not parts().people.is_form_of(found, request.form.get("form", ""))


class Recent:
    """What somebody did last, so that a loop does not fill the disk."""

    def __init__(self, seconds: float) -> None:
        self.lock, self.seconds = threading.Lock(), seconds
        self.last: dict[tuple[str, str], float] = {}

    def is_new(self, name: str, path: str) -> bool:
        """Whether this is to be on record."""
        moment = time.monotonic()
        with self.lock:
            last = self.last.pop((name, path), None)
            self.last[name, path] = moment if last is None else last
            is_due = last is None or moment - last > self.seconds
            if is_due:
                self.last[name, path] = moment
            for key in list(self.last)[:-1000]:
                del self.last[key]
            return is_due


class Few:
    """How much somebody did within some seconds of what is on record: who does it in a loop fills
    neither the disk nor the memory with that.
    """

    def __init__(
        self, most: int, seconds: float, clock: Callable[[], float] = time.monotonic
    ) -> None:
        self.most, self.seconds = most, seconds
        self.lock, self.clock = threading.Lock(), clock
        self.counts: dict[str, tuple[float, int]] = {}

    def is_one(self, name: str, size: int = 1) -> bool:
        """Whether this is one of the few that are to be on record."""
        moment = self.clock()
        with self.lock:
            began, count = self.counts.get(name, (moment, 0))
            if moment - began > self.seconds:
                began, count = moment, 0
            self.counts[name] = began, count + size
            return count < self.most


def record_few(what: str, **about: Any) -> None:
    """Records what the person did, if that is one of few."""
    if cast(Few, flask.current_app.extensions["few"]).is_one(person().name):
        record(what, **about)


def see_few(what: str, name: str) -> None:
    """Refuses what is on record each time, once it is not one of few."""
    if not cast(Few, flask.current_app.extensions["few"]).is_one(f"{what} {name}"):
        raise turns.Busy(f"{name} has done this {MOST_FEW} times within an hour, and nothing was"
                         " done: try again in an hour.")


def again(status: int, reason: str) -> AnyResponse | None:
    """The answer that keeps what was typed on a page of this site, so that it can be sent again; or
    None where there is nothing. No password is in it.
    """
    request = flask.request
    is_typed = (
        request.method == "POST" and wants_page() and request.endpoint not in SECRET
        and request.headers.get("Origin") == parts().config.origin
        and (request.content_length or 0) <= min(MOST_TYPED, request.max_content_length or 0)
    )
    if not is_typed:
        return None
    if flask.g.get("person"):
        with contextlib.suppress(turns.Busy), KEEPING:
            return typed_again(status, reason)
        return None
    if not NOBODY.acquire(False):
        return None
    try:
        return typed_again(status, reason)
    finally:
        NOBODY.release()


def typed_again(status: int, reason: str) -> AnyResponse | None:
    """The page with what was typed, if there is anything. Of nobody it keeps the secret that was
    sent, by which it can be sent once its person has signed in again.
    """
    request = cast(uploads.Request, flask.request)
    found: Person | None = flask.g.get("person")
    form = found.form if found else request.form.get("form", "")[:MOST_SECRET]
    typed = [it for it in request.form.items(multi=True) if it[0] != "form"]
    if not typed or len(typed) > request.most_fields:
        return None
    return flask.make_response(flask.render_template(
        "again.html", reason=reason, typed=typed, has_files=bool(request.files), form=form,
        label=wording.label, confirmed=request.form.get("confirmed", "")[:MOST_CONFIRMED]), status)


def see() -> AnyResponse | None:
    """Lets a request pass, or answers it."""
    turns.SERVES.set("")
    request = cast(uploads.Request, flask.request)
    if request.wrong_headers:
        flask.abort(400, "a header of the request cannot be read")
    # (the site says of each body how long it is, by which it is bounded)
    if "Transfer-Encoding" in request.headers:
        flask.abort(411)
    view = flask.current_app.view_functions.get(request.endpoint or "")
    if view is None:
        # (for the menu of the page that says so)
        flask.g.person = who_asks()
        return None
    right: str = getattr(view, "right")
    flask.g.person = found = who_asks()
    turns.SERVES.set(found.name if found and not found.is_program else "")
    if right == PUBLIC and request.method in ("GET", "HEAD"):
        return None
    if found is not None:
        served = turns.SERVED.of(found.name, found.is_program)
        served.acquire()
        flask.g.served = served
    if right != PUBLIC and found is None:
        if request.method == "GET" and "text/html" in request.headers.get("Accept", ""):
            return flask.redirect(flask.url_for("signing.sign_in", to=target()))
        return again(401, ENDED) or flask.abort(401)
    is_of_programs = request.endpoint in OF_PROGRAMS
    if is_of_programs and found is not None and not found.is_program:
        refused(found, FOR_PROGRAMS)
    if request.method not in ("GET", "HEAD") and is_foreign():
        kept = again(403, EARLIER) if found else None
        return kept or flask.abort(403, "a request must come from a page of this site")
    if right == PUBLIC or found is None:
        return None
    parts().hear()
    if found.must_change and request.endpoint not in BEFORE_CHANGE:
        return flask.redirect(flask.url_for("signing.password"))
    is_screen = found.is_program and not is_of_programs and request.endpoint != OF_BOTH
    if is_screen or right != SIGNED_IN and not found.may(right):
        refused(found)
    return None


def leave(_: BaseException | None) -> None:
    """The thread serves no screen any more."""
    turns.SERVES.set(None)
    if served := flask.g.pop("served", None):
        served.release()


def keep_turn(response: flask.Response) -> flask.Response:
    """Has a long answer keep the turn of its person until it is sent, or nobody reads it."""
    if (response.content_length or 0) > LONG_ANSWER and (served := flask.g.pop("served", None)):
        # (what is passed to the server as it is, is not closed here)
        response.direct_passthrough = False
        response.call_on_close(served.release)
    return response


def of_file(file: IO[bytes], mimetype: str, headers: dict[str, str]) -> flask.Response:
    """An answer with what a file has, of which no more is in memory than what is being sent."""
    response = flask.Response(
        wrap_file(flask.request.environ, file), mimetype=mimetype, headers=headers)
    response.content_length = os.fstat(file.fileno()).st_size
    return response


def target() -> str:
    """The path that was asked for, to go on there after the sign-in."""
    return flask.request.full_path.rstrip("?")


def refused(found: Person, reason: str = "") -> None:
    """Refuses a person what is not theirs, and records it."""
    request = flask.request
    path = f"{request.method} {request.path[:80]}"
    refusals: Recent = flask.current_app.extensions["refusals"]
    if refusals.is_new(found.name, path):
        with contextlib.suppress(Refused):
            record_few("refused", asked=path, role=found.role)
    who = "a program" if found.is_program else f"the role {found.role}"
    flask.abort(403, reason or f"{who} may not do this")


def record_export(response: flask.Response) -> flask.Response:
    """Records, before it is sent, that somebody takes a file of more than one child."""
    request, recent = flask.request, cast(Recent, flask.current_app.extensions["exports"])
    is_export = request.endpoint in EXPORTS or request.path.startswith(ROUNDS)
    if is_export and response.status_code == 200 and (
            recent.is_new(person().name, request.path)):
        record("took a file", of=request.path)
    return response


def see_own_school(code: str) -> None:
    """Refuses the head of a school another school than theirs; and all lists from when a draw is
    sent until it is audited, and until its day.
    """
    found = person()
    if found.school is None:
        return
    if found.school != code:
        refused(found)
    if said := hidden():
        flask.abort(403, said)
    flask.g.is_of_school = True


def see_shown(response: flask.Response) -> flask.Response:
    """Looks once more whether the lists of a school are shown, now that the answer is made: a draw
    may have been sent since the first look, and before they were read.
    """
    if not flask.g.get("is_of_school"):
        return response
    try:
        said = hidden()
    except Refused as error:
        said = str(error)
    return flask.make_response(failed(403, said)) if said else response


def hidden() -> str:
    """Why the heads of schools see no lists now, or ""."""
    draw = parts().draws.present()
    if draw is not None and draw.state in SENT:
        return f"the lists are shown again once {draw.name} is audited"
    today = days.today()
    if to_come := [it.day for it in parts().desk.register().draws if it.day > today]:
        return f"the lists are shown again on {days.in_words(max(to_come))}, the day of the offers"
    return ""


def headers(response: flask.Response) -> flask.Response:
    """Gives a response the headers that keep a browser strict, and counts it."""
    watch().add(response.status_code)
    for name, value in HEADERS.items():
        response.headers.setdefault(name, value)
    return response


def wants_page() -> bool:
    """Whether the answer is read by a person."""
    return "text/html" in flask.request.headers.get("Accept", "")


def is_look() -> bool:
    """Whether a page was only opened."""
    return flask.request.method in ("GET", "HEAD")


def unmade() -> str:
    """What is said of a page that could not be made, now."""
    return f"{UNMADE}{wording.moment(now())}."


def failed(status: int, reason: str) -> tuple[str, int] | flask.Response:
    """The answer that says why something was not done."""
    if wants_page():
        return flask.render_template("failed.html", reason=reason, status=status), status
    text = json.dumps({"reason": reason, "status": status}, sort_keys=True, separators=(",", ":"))
    return flask.Response(text, status, mimetype="application/json")


def on_refused(error: Exception) -> AnyResponse | tuple[str, int]:
    """What cannot be done, in words; what is away or busy may be asked again."""
    if isinstance(error, turns.Busy) and (kept := again(503, wording.sentence(str(error)))):
        return kept
    return failed(503 if isinstance(error, (Away, turns.Busy)) else 409, str(error))


def on_files(error: Exception) -> AnyResponse | tuple[str, int]:
    """What the application cannot do with its own files, in words that name none of them; what was
    typed is kept. The log has the rest.
    """
    assert isinstance(error, (OSError, sqlite3.Error))
    flask.current_app.log_exception(sys.exc_info())
    said = f"The application cannot use its files now: {plain.reason(error)}. "
    said += unmade() if is_look() else (
        f"{plain.ADVICE}; and look whether what you sent is done, before you send it again.")
    # (507 is for a disk that is full, as by a file that a browser sends)
    status = 507 if getattr(error, "errno", None) in FULL else 503
    try:
        return again(status, said) or failed(status, said)
    except OSError:
        # (what cannot be kept is the request itself)
        return failed(status, said)


def on_http(error: HTTPException) -> AnyResponse | tuple[str, int]:
    """A status of HTTP, in words. Where the application has failed, what was typed is kept."""
    words = {404: "there is no such page", 405: "the page takes no such request",
             401: "sign in first", 413: "that is too large",
             500: WRONG + unmade() if is_look() else BROKEN}
    status = error.code or 500
    if status == 500 and (kept := again(500, BROKEN)):
        return kept
    if error.response is not None:
        return cast(flask.Response, error.response)
    return failed(status, words.get(status) or str(error.description))


def guarded(app: flask.Flask) -> None:
    """Guards an application. Each of its views says which right it needs."""
    app.extensions["refusals"] = Recent(REFUSED_SECONDS)
    app.extensions["exports"] = Recent(EXPORT_SECONDS)
    app.extensions["few"] = Few(MOST_FEW, FEW_SECONDS)
    app.extensions["sent"] = Few(MOST_SENT, SENT_SECONDS)
    app.extensions["watch"] = Watch()
    app.before_request(see)
    # (the first one of these comes last, when the answer is the one that is sent)
    app.after_request(keep_turn)
    app.after_request(headers)
    app.after_request(record_export)
    app.after_request(see_shown)
    app.teardown_request(leave)
    app.register_error_handler(Refused, on_refused)
    app.register_error_handler(OSError, on_files)
    app.register_error_handler(sqlite3.Error, on_files)
    app.register_error_handler(HTTPException, on_http)
    missing = [name for name, it in app.view_functions.items() if not hasattr(it, "right")]
    if missing:
        raise RuntimeError(f"without a right: {', '.join(missing)}")
