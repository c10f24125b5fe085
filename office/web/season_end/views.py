"""The end of a season: what is open, the last copy, the archive, the day of deletion, and the
deletion, which a second person confirms.
"""
import datetime
from collections.abc import Callable

import flask
from register_files import Refused
from werkzeug.wrappers import Response

from office.core import days
from office.core.model import Register
from office.core.wording import day_of, moment, sentence
from office.web.machinery import numbers
from office.web.people.guard import needs, of_file, parts, person
from office.web.people.roles import CONFIRM, END, Person
from office.web.rounds import second as draws_second
from office.web.rounds.second import Second

from . import end as season_end
from .end import DELETED, DELETING, End, SeasonEnd, WrongField

screen = flask.Blueprint("season_end", __name__, url_prefix="/season-end")
Answer = str | Response | tuple[str, int]
WRONG_DAY = "a day as 31 January 2027 or 31/1/2027"


def seen() -> int:
    """The version that a person saw."""
    return numbers.read(flask.request.form.get("seen", ""))


def typed(name: str) -> str:
    """A field of the form."""
    return flask.request.form.get(name, "").strip()


@screen.get("/")
@needs(CONFIRM)
def show() -> Answer:
    """How far it is."""
    return page()


def page(said: str = "", status: int = 200, wrong: dict[str, str] | None = None) -> Answer:
    """The page of all steps."""
    # (before the state is read: what ends meanwhile was not cut off)
    work, end, found = parts().end.steps.under_way(), parts().end, parts().end.get()
    register, trouble = register_now(found)
    if not work and (reason := end.steps.refused(0)):
        trouble = f"The last step was not done: {sentence(reason)}"
    # (while the register is copied it cannot be read)
    trouble = "" if work else trouble
    there = season_end.still_open(parts(), register, end.today()) if register else []
    date = found.date
    is_due = bool(date and end.today() >= date)
    counts = end.counts() if register and found.asked_by else {}
    proposed = end.proposed(register) if register else None
    return flask.render_template(
        "season_end.html", end=found, work=work, open=there, read=season_end.read_of(there),
        is_stopped=any(it.is_stop for it in there), said=said or trouble, wrong=wrong or {},
        register=register, months=end.months(), form=flask.request.form,
        steps=steps_of(found, there),
        proposed=days.in_words(proposed) if proposed else "",
        soonest=soonest(register, end.today()) if register else None,
        is_due=is_due, counts=counts, shown=season_end.read_counts(counts),
        not_second=not_second(found), second=second_of(found), deleting=DELETING,
        deleted=DELETED), status


def steps_of(found: End, there: list[season_end.Open]) -> list[dict[str, str]]:
    """How far the end of the season is."""
    rows = (
        ("What is still open", not there or bool(found.copy), "", ""),
        ("Last copy", bool(found.copy), found.copied_by, found.copied),
        ("Archive", bool(found.taken), found.taken_by, found.taken),
        ("Day of deletion", bool(found.day), found.day_by, ""),
        ("Deletion", False, "by two people", ""),
    )
    first = next(title for title, is_done, _, _ in rows if not is_done)
    return [{"title": title, "does": "", "who": who, "when": moment(at) if at else "",
             "state": "done" if is_done else "now" if title == first else "next"}
            for title, is_done, who, at in rows]


def register_now(found: End) -> tuple[Register | None, str]:
    """The register, if there is one, or why it does not answer."""
    if found.phase:
        return None, ""
    try:
        return parts().desk.now(), ""
    except Refused as error:
        return None, sentence(str(error))


def soonest(register: Register, today: datetime.date) -> datetime.date:
    """The first day that can be the day of deletion."""
    after = register.days[2] + datetime.timedelta(days=1)
    return max(after, today + days.DELETION_NOTICE)


def not_second(found: End) -> str:
    """Why the person cannot confirm the deletion, or ""."""
    if found.asked_by == person().name:
        return "You have asked for the deletion: somebody else confirms it."
    case = parts().end.case(found, found.asked_by)
    return sentence(draws_second.hindered(parts().history, person().name, case))


def second_of(found: End) -> Second | None:
    """Who may confirm the deletion, once somebody has asked for it."""
    case = parts().end.case(found, found.asked_by)
    return draws_second.second_of(parts().store, parts().history, case) if found.asked_by else None


def refused(error: Refused) -> Answer:
    """The page that says what is wrong: at its field, if it is of one."""
    said = sentence(str(error))
    if isinstance(error, WrongField):
        return page("", 422, {error.field: said})
    return page(said, 409)


def set_day(end: SeasonEnd, who: Person, version: int, text: str, reason: str) -> None:
    """Sets the day of deletion as it is typed."""
    date = day_of(text)
    if date is None:
        raise WrongField("day", WRONG_DAY)
    end.set_day(who, version, date, reason)


# the steps by their requests: who may do each, what it does, and the fields that it is asked with.
# The second person's are all that an office needs to end what the first one cannot go on with
STEPS: dict[str, tuple[str, Callable[..., None], tuple[str, ...]]] = {
    "copy": (END, SeasonEnd.copy_and_archive, ("read",)),
    "archive": (END, SeasonEnd.make_archive, ()),
    "retention": (END, SeasonEnd.set_months, ("months",)),
    "day": (END, set_day, ("day", "reason")),
    "ask": (END, SeasonEnd.ask, ("name",)),
    "take-back": (CONFIRM, SeasonEnd.take_back, ()),
    "confirm": (CONFIRM, SeasonEnd.confirm, ("name", "shown")),
    "go-on": (CONFIRM, SeasonEnd.go_on, ()),
}


def view_of(step: Callable[..., None], fields: tuple[str, ...]) -> Callable[[], Answer]:
    """The view that does a step, and shows how far it is, that it runs, or what is wrong."""
    def view() -> Answer:
        end, who, given = parts().end, person(), (seen(), *map(typed, fields))
        try:
            end.steps.begin(who, 0, lambda: step(end, who, *given))
        except Refused as error:
            return refused(error)
        return flask.redirect(flask.url_for("season_end.show"), 303)
    return view


for name, (right, does, asked) in STEPS.items():
    screen.add_url_rule(f"/{name}", name.replace("-", "_"), needs(right)(view_of(does, asked)),
                        methods=["POST"])


@screen.post("/archive/file")
@needs(END)
def take() -> Answer:
    """The archive, to be kept elsewhere."""
    try:
        path = parts().end.take(person(), seen(), typed("kept"))
    except Refused as error:
        return refused(error)
    headers = {"Content-Disposition": f'attachment; filename="{path.name}"'}
    return of_file(path.open("rb"), "application/zip", headers)
