"""Signing in and out, and a password of one's own."""
import secrets
from typing import cast

import flask
import itsdangerous
from register_files import Refused
from werkzeug.wrappers import Response

from office.core.turns import Busy
from office.web.frame import failures

from .. import attempts, authority, guard, people
from ..guard import PUBLIC, SIGNED_IN, needs, parts, person

screen = flask.Blueprint("signing", __name__)
# a browser is known for a year, and by the names that signed in last
BROWSER_SECONDS, MOST_NAMES = 365 * 24 * 3600, 5
Answer = str | Response | tuple[str, int]


def own_path(text: str) -> str:
    """A path of this site to go on at, or that of the first screen."""
    is_own = text.startswith("/") and not text.startswith("//")
    return text if is_own and "\\" not in text and text.isprintable() else "/"


def sign_in_page(to: str, said: str, name: str) -> str:
    """The form."""
    return flask.render_template("sign_in.html", to=to, said=said, name=name,
                                 provider=authority.provider_of(parts().store))


@screen.route("/sign-in", methods=("GET", "POST"))
@needs(PUBLIC)
def sign_in() -> Answer:
    """The form, and the begin of a session."""
    request = flask.request
    to = own_path(request.values.get("to", "/"))
    # (also one for the head alone, which a page of any site can send)
    if guard.is_look():
        return sign_in_page(to, "", "")
    name = request.form.get("name", "").strip().lower()
    browser, names = browser_of()
    try:
        secret = parts().people.sign_in(
            name, request.form.get("password", ""), guard.address(),
            browser if name in names else "")
        see_few(name, secret)
    except Refused as error:
        is_wait = isinstance(error, (attempts.TooMany, Busy))
        guard.sign_in_failed(failures.WAIT if is_wait else failures.PASSWORD)
        return sign_in_page(to, str(error), name), status_of(error)
    parts().history.add(name, "signed in", {})
    answer = with_session(flask.redirect(to, 303), secret)
    known = [name, *(it for it in names if it != name)][:MOST_NAMES]
    answer.set_cookie(
        browser_cookie(), str(signer().dumps([browser or secrets.token_urlsafe(9), known])),
        max_age=BROWSER_SECONDS, secure=guard.cookie_name() == guard.COOKIE, httponly=True,
        samesite="Strict", path="/")
    return answer


def see_few(name: str, secret: str) -> None:
    """Ends the session that was begun, and refuses it, once too many of somebody are on record. (A
    password that is wrong counts for nobody: no one else keeps them out by that.)
    """
    try:
        guard.see_few("sign-in", name)
    except Busy:
        parts().people.end(secret)
        raise


def browser_cookie() -> str:
    """The name of the cookie of a browser in which somebody has signed in."""
    return f"{guard.cookie_name()}-browser"


def signer() -> itsdangerous.URLSafeSerializer:
    """What signs that cookie."""
    return itsdangerous.URLSafeSerializer(str(flask.current_app.secret_key), "browser")


def browser_of() -> tuple[str, list[str]]:
    """The browser that asks, and who has signed in there."""
    try:
        browser, names = signer().loads(flask.request.cookies.get(browser_cookie(), ""))
    except itsdangerous.BadData:
        return "", []
    return str(browser), list(names)


def with_session(answer: Response, secret: str) -> Response:
    """An answer that gives the browser its session."""
    answer.set_cookie(
        guard.cookie_name(), secret, secure=guard.cookie_name() == guard.COOKIE, httponly=True,
        samesite="Strict", path="/")
    return answer


def provider() -> authority.Provider:
    """The provider of the authority's accounts."""
    found = authority.provider_of(parts().store)
    if not found:
        flask.abort(404)
    return found


def accounts() -> authority.Accounts:
    """The way to that provider."""
    return cast(authority.Accounts, flask.current_app.extensions["accounts"])


def status_of(error: Refused) -> int:
    """The status of a sign-in that was refused, or may be tried again."""
    return 503 if isinstance(error, Busy) else 403


@screen.get("/sign-in/authority")
@needs(PUBLIC)
def go_out() -> Answer:
    """The way to the provider."""
    to = own_path(flask.request.args.get("to", "/"))
    flask.session["to"] = to
    back = parts().config.origin + flask.url_for("signing.come_back")
    try:
        return accounts().go_out(provider(), back)
    except Refused as error:
        guard.sign_in_failed(failures.PROVIDER)
        return sign_in_page(to, str(error), ""), status_of(error)


@screen.get("/sign-in/authority/back")
@needs(PUBLIC)
def come_back() -> Answer:
    """The begin of a session of somebody who comes back from the provider."""
    to = own_path(str(flask.session.pop("to", "/")))
    try:
        found = provider()
        name, account = authority.account_in(found, accounts().claims(found))
        secret = parts().people.sign_in_outside(name, account)
        see_few(name, secret)
    except Refused as error:
        guard.sign_in_failed(failures.ACCOUNT)
        return sign_in_page(to, str(error), ""), status_of(error)
    parts().history.add(name, "signed in", {"by": "the authority's account"})
    # (a browser that was led here by another site sends the new cookie only from a page of this
    # one)
    page = flask.make_response(flask.render_template("signed_in.html", to=to))
    return with_session(page, secret)


@screen.get("/signed-in")
@needs(SIGNED_IN)
def signed_in() -> tuple[str, int]:
    """That somebody is signed in, for the site, which then reads what they send."""
    return "", 204


@screen.post("/sign-out")
@needs(SIGNED_IN)
def sign_out() -> Answer:
    """The end of a session."""
    parts().people.end(flask.request.cookies.get(guard.cookie_name(), ""))
    guard.record("signed out")
    answer = flask.redirect(flask.url_for("signing.sign_in"), 303)
    answer.delete_cookie(guard.cookie_name(), path="/", secure=True, samesite="Strict")
    # (what was typed is kept by pages over the end of a session that is left without this)
    answer.headers["Clear-Site-Data"] = '"storage"'
    return answer


@screen.route("/password", methods=("GET", "POST"))
@needs(SIGNED_IN)
def password() -> Answer:
    """Another password."""
    said = ""
    if flask.request.method == "POST":
        form = flask.request.form
        try:
            if form.get("new", "") != form.get("again", ""):
                raise Refused("the new password is not the same in both fields")
            guard.see_few("password", person().name)
            parts().people.set_password(person(), form.get("present", ""), form.get("new", ""))
            guard.record("changed the own password")
            return flask.redirect("/", 303)
        except Refused as error:
            said = str(error).removesuffix(".")
    return flask.render_template(
        "password.html", said=said, least=people.LEAST_PASSWORD), 403 if said else 200
