"""The office's words for flags."""
import flask
from register_files import Refused
from werkzeug.wrappers import Response

from office.core.fields import trimmed
from office.core.model import Register
from office.core.wording import sentence
from office.web.people import guard
from office.web.people.guard import needs, parts
from office.web.people.roles import READ, RECORD

from .. import flags

screen = flask.Blueprint("flags", __name__, url_prefix="/flags")
Answer = str | Response | tuple[str, int]


def uses(register: Register | None, number: int) -> tuple[str, int]:
    """The schools with a flag among their criteria, and how many children have it."""
    if register is None:
        return "", 0
    schools = (code for code, it in register.schools.items() if f"flag:{number}" in it.criteria)
    return ", ".join(schools), sum(number in it.flags for it in register.children.values())


def page(
    given: dict[int, str], seen: str, said: str = "", wrong: dict[int, str] | None = None,
    status: int = 200, focus: int | None = None,
) -> Answer:
    """All flags. One has the focus: the last that was stored, or the first that is wrong."""
    register, focus = None, min(wrong) if wrong else focus
    try:
        register = parts().desk.register()
    except Refused as error:
        said = f"{said} {sentence(str(error))}".strip()
    rows = [(it, given.get(it, ""), (wrong or {}).get(it, ""), *uses(register, it))
            for it in flags.NUMBERS]
    return flask.render_template(
        "flags.html", rows=rows, seen=seen, said=said, is_bad=status != 200, focus=focus), status


@screen.get("/")
@needs(READ)
def show() -> Answer:
    """The words."""
    words = flags.present()
    stored = flask.request.args.get("stored", "")
    said = "The words are stored." if stored else ""
    focus = int(stored) if stored in map(str, flags.NUMBERS) else None
    return page(words, flags.text_of(words), said, focus=focus)


@screen.post("/")
@needs(RECORD)
def change() -> Answer:
    """Other words. What was typed is shown again where it cannot be stored."""
    form = flask.request.form
    given = {it: trimmed(form.get(f"flag-{it}", "")) for it in flags.NUMBERS}
    words = {it: text for it, text in given.items() if text}
    wrong = {it: said for it, text in words.items() if (said := flags.wrong(text))}
    seen, known = form.get("seen", ""), flags.present()
    if wrong:
        return page(given, seen, "Nothing was stored: see the fields that are marked.", wrong, 400)
    try:
        flags.change(parts().store, seen, words,
                     lambda before: guard.record("named flags", words=words, before=before))
    except Refused as error:
        present = flags.present()
        now = "; ".join(f"{it}: {text}" for it, text in present.items()) or "none"
        return page(given, flags.text_of(present),
                    f"{sentence(str(error))} The present words: {now}.", status=409)
    last = max((it for it in given if given[it] != known.get(it, "")), default=min(given))
    return flask.redirect(flask.url_for("flags.show", stored=last), 303)
