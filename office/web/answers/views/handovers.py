"""The batch of a colleague, who has left or cannot record it: shown whole, and taken over by a
button that names whose it is.
"""
import flask
from register_files import Refused
from werkzeug.wrappers import Response

from office.core.command_kinds import ANSWERS
from office.core.wording import sentence
from office.web.people import guard
from office.web.people.guard import needs, parts, person
from office.web.people.people import NAME
from office.web.people.roles import RECORD

from .. import handovers
from .answers import digest_of

screen = flask.Blueprint("answers_of", __name__, url_prefix="/answers/of")
Answer = str | Response | tuple[str, int]


def page(owner: str, said: str = "") -> Answer:
    """The batch of somebody."""
    found = parts().piles
    found.look(owner)
    register = parts().desk.register()
    shown = found.shown(owner, register)
    body = flask.render_template(
        "answers_of.html", owner=owner, why=handovers.why_away(parts().store, owner), shown=shown,
        words=ANSWERS, said=said, digest=digest_of(shown), is_running=found.is_running(owner))
    return body, 409 if said else 200


def see_owner(owner: str) -> None:
    """Refuses a batch that is not to be taken over."""
    if not NAME.fullmatch(owner):
        flask.abort(404)
    if not handovers.may_take(parts().store, person(), owner):
        guard.refused(person())


@screen.get("/<owner>")
@needs(RECORD)
def show(owner: str) -> Answer:
    """What would be taken over."""
    see_owner(owner)
    return page(owner)


@screen.post("/<owner>")
@needs(RECORD)
def take(owner: str) -> Answer:
    """Takes over what was shown."""
    see_owner(owner)
    found, who = parts().piles, person().name
    shown = found.shown(owner, parts().desk.register())
    entries = [it.entry for it in shown]
    if found.is_running(owner):
        return page(owner, "Nothing was taken over: the batch is being recorded now.")
    if not shown or digest_of(shown) != flask.request.form.get("digest", ""):
        return page(owner, "Nothing was taken over: the batch has changed since it was shown.")
    try:
        with parts().store.writing():
            found.hand_over(owner, who, entries)
            guard.record("took over a pile", person=owner,
                         answers=[it.meant.typed for it in entries])
    except Refused as error:
        return page(owner, sentence(f"nothing was taken over: {error}"))
    return flask.redirect(flask.url_for("answers.show"), 303)
