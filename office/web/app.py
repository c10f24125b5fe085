"""The application as a program of the web: its screens over one register."""
import datetime
import gc
import pathlib
from collections.abc import Callable
from typing import Any

import flask
import jinja2
import markupsafe
import werkzeug.routing

from office.core import texts, wording

from .answers.views import answers, notices
from .answers.views import handovers as answers_of
from .areas import views as areas
from .applications.views import gazetteer, points
from .applications.views import add as applications_add
from .applications.views import commit as applications_commit
from .applications.views import files as applications_files
from .applications.views import staging as applications
from .children.views import child, find, notes, preferences, subject
from .copies.views import copies, restores
from .explain import views as why
from .figures import views as figures
from .frame import uploads
from .frame import navigation as frame
from .frame.views import activity, health, help
from .frame.views import programs as register
from .home import views as season
from .letters.views import letters
from .letters.views import addresses as letter_addresses
from .letters.views import sender as letter_sender
from .letters.views import templates as letter_templates
from .lists import views as lists
from .machinery import numbers, pictures
from .parts import Config, Parts
from .people import authority, guard
from .people.guard import PUBLIC, needs
from .people.views import people, signing
from .rounds.views import draws, lots
from .schools import flags
from .schools.views import schools
from .schools.views import flags as flag_screen
from .schools.views import new as new_schools
from .season_end import views as season_end
from .trials import views as trials

HERE = pathlib.Path(__file__).resolve().parent
SCREENS = (
    signing, season, find, new_schools, areas, schools, flag_screen, applications, applications_add,
    applications_files, applications_commit, points, gazetteer, child, preferences, why, notes,
    subject, answers, notices, letters, letter_templates, letter_sender, letter_addresses, draws,
    trials, lots, lists, figures, copies, restores, people, activity, season_end, register, help,
    answers_of, health,
)
# the largest body: an Excel file
MOST_BYTES = 16 << 20
# so many objects are made between two looks for garbage among them: a page of a long list makes
# tens of thousands, nearly all of which end without one
OBJECTS = 50_000


def create(config: Config) -> flask.Flask:
    """The application over one register."""
    app = flask.Flask(__name__, static_folder=None, template_folder=None)
    # (the name of a template is its own in all of them)
    setattr(app, "jinja_loader", jinja2.FileSystemLoader(sorted(HERE.glob("*/templates"))))
    app.jinja_env.undefined = jinja2.StrictUndefined
    app.jinja_env.trim_blocks = app.jinja_env.lstrip_blocks = True
    # (later versions of the library have a limit of their own for forms)
    app.config["MAX_CONTENT_LENGTH"] = app.config["MAX_FORM_MEMORY_SIZE"] = MOST_BYTES
    app.request_class = uploads.Request
    parts = Parts(config)
    gc.set_threshold(OBJECTS, *gc.get_threshold()[1:])
    app.extensions["office"] = parts
    wording.is_account = is_account
    is_secure = config.origin.startswith("https:")
    app.url_map.converters["int"] = numbers.Number
    app.secret_key = authority.cookie_key(parts.store)
    app.extensions["accounts"] = authority.Accounts(app)
    app.config.update(
        SESSION_COOKIE_NAME="__Host-state" if is_secure else "state", SESSION_COOKIE_PATH="/",
        SESSION_COOKIE_SECURE=is_secure, SESSION_COOKIE_HTTPONLY=True,
        SESSION_COOKIE_SAMESITE="Lax")
    setattr(app, "wsgi_app", at_origin(app.wsgi_app, config.origin))
    for it in SCREENS:
        app.register_blueprint(it.screen)
    app.context_processor(shared)
    app.context_processor(frame.shared)
    app.jinja_env.filters["day"] = day
    app.jinja_env.filters["moment"] = wording.moment
    app.jinja_env.filters["sentence"] = wording.sentence
    app.jinja_env.filters["by_refusals"] = wording.by_refusals
    app.jinja_env.filters["flag_words"] = flags.flag_words
    app.jinja_env.filters["visible"] = visible
    app.jinja_env.filters["at_fields"] = wording.at_fields
    app.jinja_env.globals["count"] = texts.count
    app.jinja_env.globals["shapes"] = pictures.SHAPES

    @needs(PUBLIC)
    def file(name: str) -> flask.Response:
        return flask.send_from_directory(config.site, name)

    @needs(PUBLIC)
    def icon() -> tuple[str, int]:
        return "", 204

    # (a browser asks for it on its own, and reports an error where it is not found)
    app.add_url_rule("/favicon.ico", "icon", icon)
    app.url_map.converters["file"] = FileName
    app.add_url_rule("/<file:name>", "file", file)
    guard.guarded(app)
    # (with the sets that an application before this one has left)
    parts.letters.wake()
    return app


def at_origin(inner: Callable[..., Any], origin: str) -> Callable[..., Any]:
    """An application that is found at an address: the site before it ends TLS."""
    scheme = origin.partition(":")[0]
    return lambda environ, start: inner({**environ, "wsgi.url_scheme": scheme}, start)


def is_account(name: str) -> bool:
    """Whether a name is that of an account of the application that answers now."""
    return flask.has_app_context() and guard.parts().people.has(name)


class FileName(werkzeug.routing.BaseConverter):
    """The name of a file of the site, which has one of two ends."""

    regex = r"[a-z]+\.(?:css|js)"


def visible(text: str) -> str:
    """A text of a template with what cannot be seen escaped; one of markup stays one."""
    found: str = texts.visible(text)
    if isinstance(text, markupsafe.Markup):
        found = markupsafe.Markup(found)
    return found


def shared() -> dict[str, Any]:
    """What each template has."""
    found, config = flask.g.get("person"), guard.parts().config
    return {
        "person": found,
        "authority": config.authority,
        "register_name": config.name,
        "form_secret": found.form if found else "",
    }


def day(value: datetime.date | str | None) -> str:
    """A day in words."""
    if not value:
        return ""
    found = datetime.date.fromisoformat(value) if isinstance(value, str) else value
    return f"{found.day} {found:%B %Y}"
