"""Help: a topic for each screen and task, a search over them, and what each refusal of the register
means.
"""
import itertools
import re

import flask
import markdown
import markupsafe
from werkzeug.wrappers import Response

from office.core import rules, texts
from office.web.people.guard import SIGNED_IN, needs

from .. import topics
from ..topics import Topic

screen = flask.Blueprint("help", __name__)
# links of the handbook: to a topic, to the refusals, and to pages that the application does not
# serve; and its pictures
LINK = re.compile(r"(?<!!)\[([^]]*)\]\(([^)]*)\)")
REFUSALS, PICTURE = "ERRORS.md#refusals", "(../pictures/"
TABLE = re.compile("<table>(.*?)</table>", re.DOTALL)
HEAD, CELL = re.compile("<th>(.*?)</th>"), re.compile("<td>")


def linked(found: re.Match[str]) -> str:
    """A link as the application has it."""
    words, target = found[1], found[2]
    if target.startswith("#") and target[1:] in topics.topics():
        return f"[{words}]({flask.url_for('help.topic', name=target[1:])})"
    if target.endswith(REFUSALS):
        return f"[{words}]({flask.url_for('help.refusals')})"
    return words


def page_of(topic: Topic) -> markupsafe.Markup:
    """The text of a topic as a page has it."""
    pictures = flask.url_for("help.picture", name="").rstrip("/")
    text = LINK.sub(linked, topic.text).replace(PICTURE, f"({pictures}/")
    made = markdown.markdown(text, extensions=["tables"])
    title = str(markupsafe.escape(topic.title))
    # (it comes from the product itself, and from nobody who uses it)
    return markupsafe.Markup(TABLE.sub(lambda it: table_of(it[1], title), made))


def table_of(rows: str, title: str) -> str:
    """A table that scrolls by itself, and is a list on a narrow screen."""
    names = itertools.cycle(HEAD.findall(rows))
    cells = CELL.sub(lambda _: f'<td data-name="{next(names)}">', rows)
    return (f'<div class="region fold" role="region" aria-label="{title}" tabindex="0">'
            f'<table class="data"><caption class="unseen">{title}</caption>'
            f'{cells.replace("<th>", "<th scope=col>")}</table></div>')


@screen.get("/help/")
@needs(SIGNED_IN)
def show() -> str:
    """All topics by their groups, or those that have some words."""
    text = flask.request.args.get("q", "").strip()[:texts.MOST_SOUGHT]
    return flask.render_template(
        "help.html", text=text, found=topics.having(text), groups=topics.groups())


@screen.get("/help/<name>")
@needs(SIGNED_IN)
def topic(name: str) -> str:
    """A topic."""
    found = topics.topics().get(name) or flask.abort(404)
    return flask.render_template(
        "help_topic.html", topic=found, text=page_of(found), near=topics.groups()[found.group])


@screen.get("/help/refusals")
@needs(SIGNED_IN)
def refusals() -> str:
    """What each refusal means, and what to do."""
    rows = [(name, *rules.in_words("refusals", name)) for name in rules.RULES["refusals"]]
    return flask.render_template("help_refusals.html", rows=rows)


@screen.get("/help/pictures/<name>")
@needs(SIGNED_IN)
def picture(name: str) -> Response:
    """A picture of a topic."""
    return flask.send_from_directory(topics.PICTURES, name)
