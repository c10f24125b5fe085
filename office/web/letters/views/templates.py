"""The templates of letters: edited as text, tried by examples, previewed as PDF, and saved."""
import dataclasses
import difflib
import hashlib
import pathlib

import flask
from register_files import Refused
from werkzeug.wrappers import Response

from office.core.wording import sentence
from office.web.frame import uploads
from office.web.machinery import numbers
from office.web.people.guard import needs, parts, person
from office.web.people.roles import READ, TEMPLATES
from office.web.schools import flags

from .. import apart, pdf, versions
from .. import fields as letter_fields
from ..apart import Form, Source
from ..examples import ADDRESS, DAY, EXAMPLES
from ..sets import PREVIEWS
from ..versions import Templates, Version

screen = flask.Blueprint("letter_templates", __name__, url_prefix="/letters/templates")
Answer = str | Response | tuple[str, int]
# more lines are not compared, and of what differs not more are shown
MOST_COMPARED, MOST_DIFFERENCES = 2_000, 200


def templates() -> Templates:
    """The templates of this application."""
    return parts().letters.templates


def version_of(number: int) -> Version:
    """The last version of a template."""
    templates().standard()
    found = templates().last(number)
    if found is None:
        flask.abort(404)
    return found


@screen.get("/")
@needs(READ)
def show() -> Answer:
    """All templates."""
    return flask.render_template("letters_templates.html", rows=templates().listed())


@screen.get("/<int:number>")
@needs(READ)
def one(number: int) -> Answer:
    """A template, to be read or edited."""
    found = version_of(number)
    return form_page(found, "" if found.is_standard else found.name, found.text,
                     dict.fromkeys(found.pictures, b""))


def form_page(
    found: Version, name: str, text: str, pictures: dict[str, bytes], said: str = "",
    status: int = 200, pages: list[int] | None = None,
) -> Answer:
    """The form with what was typed."""
    seen = flask.request.form.get("seen", str(found.version))
    return flask.render_template(
        "letters_template.html", it=found, name=name, text=text, pictures=pictures, said=said,
        is_bad=status != 200, seen=seen, examples=[(it, it) for it in EXAMPLES], pages=pages,
        differences=differences(found, text) if status != 200 else "",
        sample=flask.request.form.get("sample", ""), child=flask.request.form.get("child", ""),
        versions=templates().versions(found.template)), status


def differences(found: Version, text: str) -> str:
    """What a text has otherwise than a version, as lines."""
    before, after = found.text.splitlines(), text.splitlines()
    if max(len(before), len(after)) > MOST_COMPARED:
        return ""
    lines = list(difflib.unified_diff(before, after, lineterm="", n=1))[2:]
    return "\n".join(lines[:MOST_DIFFERENCES])


def pictures_of(found: Version) -> dict[str, bytes]:
    """The pictures of a form: those of the version that are kept, and one that is new."""
    form = flask.request.form
    kept = templates().source(found).pictures
    pictures = {name: data for name, data in kept.items() if name not in form.getlist("remove")}
    given = flask.request.files.get("picture")
    if given is not None and given.filename:
        name = pathlib.PurePosixPath(given.filename.replace("\\", "/")).name
        data = uploads.bytes_of(given)
        versions.see_picture(name, data)
        pictures[name] = data
    return pictures


@screen.post("/<int:number>")
@needs(TEMPLATES)
def save(number: int) -> Answer:
    """Saves a template once it was tried; or shows a letter by it."""
    found, form = version_of(number), flask.request.form
    # (a browser sends the ends of lines of a text as two characters)
    text = form.get("text", "").replace("\r\n", "\n")
    name = form.get("name", "").strip() if found.is_standard else found.name
    shown = dict.fromkeys(found.pictures, b"")
    try:
        pictures = pictures_of(found)
        source = Source(name or found.name, text, pictures)
        if form.get("what") == "preview":
            return form_page(found, name, text, shown, "", 200, preview(source))
        number_to = None if found.is_standard else number
        seen = numbers.read(form.get("seen", ""), 0)
        saved = templates().save(person(), number_to, seen, name, source)
    except Refused as error:
        return form_page(found, name, text, shown, sentence(f"Not saved. {error}"), 422)
    return flask.redirect(
        flask.url_for("letter_templates.one", number=saved.template, saved="yes"), 303)


def preview(source: Source) -> list[int]:
    """Makes a letter of the example or the child that was chosen. How many pages it has."""
    form = flask.request.form
    letter, day = EXAMPLES.get(form.get("sample", "")), DAY
    if text := form.get("child", "").strip():
        register = parts().desk.register()
        number = numbers.read(text)
        if number not in register.children:
            raise Refused(f"the register has no child {text[:20]}")
        day = DAY.today()
        letter = letter_fields.Writer(
            register, None, flags.words_of(parts().store), day).letter(number)
    if letter is None:
        raise Refused("choose an example, or type the number of a child")
    path = preview_file()
    path.unlink(missing_ok=True)
    # (what is shown before it is saved is never to be sent)
    sender = parts().letters.sender
    source = dataclasses.replace(source, values=sender.values(sender.number))
    return apart.letters(source, [(letter, ADDRESS)], day, Form(True), str(path)).pages


def preview_file() -> pathlib.Path:
    """The file of what a person has previewed last."""
    folder = parts().config.folder / PREVIEWS
    folder.mkdir(mode=0o700, exist_ok=True)
    return folder / f"{hashlib.sha256(person().name.encode()).hexdigest()}.pdf"


@screen.get("/preview.pdf")
@needs(TEMPLATES)
def previewed() -> Response:
    """The letter that the person has previewed last."""
    path = preview_file()
    if not path.is_file():
        flask.abort(404)
    return flask.Response(path.read_bytes(), mimetype="application/pdf", headers={
        "Content-Disposition": 'inline; filename="preview.pdf"'})


@screen.get("/<int:number>/versions/<int:version>")
@needs(READ)
def earlier(number: int, version: int) -> Response:
    """The text of a version."""
    found = templates().get(number, version)
    return flask.Response(found.text, mimetype="text/plain", headers={
        "Content-Disposition": f'attachment; filename="letter-{number}-{version}.html"'})


@screen.get("/help")
@needs(READ)
def fields() -> Answer:
    """What a template can have."""
    text = pathlib.Path(pdf.TEMPLATE).read_text("utf-8")
    start, _, _ = text.partition("#}")
    return flask.render_template("letters_fields.html", text=start.removeprefix("{#").strip())
