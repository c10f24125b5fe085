"""What other programs read and send: the answers of the register as they are."""
from typing import cast

import flask

from office.core import commands, rules
from office.web.people import guard
from office.web.people.guard import Few, needs, parts, person
from office.web.people.roles import LISTS, READ, RECORD
from office.web.register.desk import (
    DIFFERS, DONE, REFUSED, SEASON_DELETED, TWO_PEOPLE, Away, Command, Result, Seen, seen_by,
)

screen = flask.Blueprint("register", __name__)
JSON, CSV = "application/json", "text/csv"


def answer(status: int, /, **said: object) -> flask.Response:
    """An answer of the application's own, as JSON."""
    return flask.Response(flask.json.dumps(said), status, mimetype=JSON)


def passed(path: str, question: bytes | None = None) -> flask.Response:
    """The register's own answer to a path, or to a question that changes nothing."""
    try:
        status, body = parts().desk.asked(path, question)
    except Away as error:
        return answer(502, reason=str(error), unanswered=True)
    return flask.Response(body, status, mimetype=JSON if body[:1] == b"{" else "text/plain")


def sent(kind: str) -> bytes:
    """What was sent, if it is of a kind, and no longer than the register takes."""
    given = flask.request.headers.get("Content-Type", "").partition(";")[0]
    if given.strip().lower() != kind:
        flask.abort(415, f"this takes {kind} alone")
    most = rules.LIMITS["body"].most
    body = flask.request.get_data()
    if len(body) > most:
        reason = f"the register takes at most {most:,} bytes at once"
        flask.abort(answer(413, reason=reason, status=413))
    return body


def to_record(kind: str) -> bytes:
    """What was sent, if it is no loop: it is on record before the register says what it is."""
    body = sent(kind)
    if not cast(Few, flask.current_app.extensions["sent"]).is_one(person().name, len(body)):
        reason = f"a program sends at most {guard.MOST_SENT >> 20} MB within a day"
        flask.abort(answer(503, reason=reason, status=503))
    return body


@screen.get("/register")
@needs(READ)
def register() -> flask.Response:
    """The register."""
    try:
        return flask.Response(parts().desk.whole().document, mimetype=JSON)
    except Away:
        # (the register's own answer says more, where it gives one)
        return passed("/register")


@screen.get("/draw/<int:number>")
@needs(READ)
def draw(number: int) -> flask.Response:
    """A draw with its lots."""
    return passed(f"/draw/{number}")


@screen.get("/register/child/<int:number>")
@screen.get("/child/<int:number>")
@screen.get("/child/<int:number>/letter")
@screen.get("/round/<int:number>")
@needs(READ)
def read(number: int) -> flask.Response:
    """An answer about one child or one round."""
    return passed(flask.request.path)


def see_code(code: str) -> None:
    """Answers that there is no such page, where an address has no code of a school."""
    if not rules.is_code(code):
        flask.abort(404)


@screen.get("/register/school/<code>")
@needs(READ)
def school(code: str) -> flask.Response:
    """The entry of a school in the register."""
    see_code(code)
    return passed(f"/register/school/{code}")


@screen.get("/pairs")
@screen.get("/pairs/<code>")
@needs(READ)
def pairs(code: str = "") -> flask.Response:
    """The pairs of the next round, or of a fill at a school."""
    if not code:
        return passed("/pairs")
    see_code(code)
    return passed(f"/pairs/{code}")


@screen.get("/school/<code>/waiting")
@needs(LISTS)
def waiting(code: str) -> flask.Response:
    """The waiting list of a school."""
    guard.see_own_school(code)
    see_code(code)
    return passed(f"/school/{code}/waiting")


# by what a request came to; by the register's own answer; and by what never lets it be sent. All
# else may be sent again, as it is: 503
STATUSES = {DONE: 200, REFUSED: 409, DIFFERS: 409}
OF_REGISTER = {"fault": 400, "memory": 503, "failed": 503}
OF_OFFICE = {TWO_PEOPLE: 403, SEASON_DELETED: 409}


def answered(result: Result) -> flask.Response:
    """What a request came to: the register's own answer where there is one."""
    status = STATUSES.get(result.outcome, 503)
    if result.answer:
        value = commands.read(result.answer)
        own = (OF_REGISTER[it] for it in OF_REGISTER if isinstance(value, dict) and it in value)
        return flask.Response(result.answer, next(own, status), mimetype=JSON)
    if result.is_done:
        return answer(200, done=True)
    said = {"outcome": result.outcome, "reason": result.said}
    if result.name:
        return answer(OF_OFFICE[result.name], name=result.name, **said)
    if not result.is_known:
        return answer(502, **said, unanswered=True)
    return answer(status, **said)


@screen.post("/command")
@needs(RECORD)
def command() -> flask.Response:
    """A command."""
    body = to_record(JSON)
    given = commands.read(body)
    if not isinstance(given, dict) or commands.wrong_field(given):
        # (the register says what is wrong)
        return answered(parts().desk.pass_on(person(), body))
    return answered(parts().desk.send(person(), given, seen_in(given)))


def seen_in(given: Command) -> Seen | None:
    """What a command rests on as its sender saw it: X-Seen has the child or the school of the
    register's document, or null for none. A program may leave it out.
    """
    text = flask.request.headers.get("X-Seen")
    if text is None:
        return None
    # (a header comes as Latin-1; what was sent are the bytes of the document, in UTF-8)
    row = commands.read(text.encode("latin-1"))
    if not isinstance(row, dict) and text != "null":
        flask.abort(400, "what was seen is no child and no school")
    return seen_by(given, row)


@screen.post("/import")
@needs(RECORD)
def rows() -> flask.Response:
    """The rows of an import."""
    body = to_record(CSV)
    try:
        body.decode("utf-8")
    except UnicodeDecodeError:
        flask.abort(400, "the rows are no text in UTF-8")
    return answered(parts().desk.send_import(person(), body))


@screen.post("/what-if")
@needs(READ)
def question() -> flask.Response:
    """A question about another list of a child, which changes nothing."""
    return passed("/what-if", sent(JSON))
