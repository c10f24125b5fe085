"""A child: its place, its list, its data and its history; and what can be recorded of it."""
import dataclasses
import datetime
from collections.abc import Sequence
from typing import Any

import flask
from register_files import Refused
from werkzeug.datastructures import MultiDict
from werkzeug.wrappers import Response

from office.core import criteria, days, texts, wording
from office.core.command_kinds import ACTIONS
from office.core.days import today
from office.core.model import OFFERED, WAITS, Register
from office.core.wording import sentence
from office.web.answers.notice_marks import UNREAD, Marks
from office.web.answers.notices import LAPSE, REMIND
from office.web.answers.piles import BEFORE_PLANS
from office.web.applications import row_points as staging_points
from office.web.applications.points import TYPED, Point
from office.web.applications.row_points import Keys
from office.web.applications.tools import tools
from office.web.areas.map import Map
from office.web.copies.safeguard import copied
from office.web.explain import explanations, reasons
from office.web.machinery import pictures, tables
from office.web.machinery.asked import Typed
from office.web.people.guard import needs, parts, person
from office.web.people.roles import NOTES, READ, RECORD
from office.web.register import records
from office.web.register.desk import Seen, seen_of
from office.web.register.entry_words import Names
from office.web.schools import flags
from office.web.schools import moves as list_moves
from office.web.schools.moves import Step

from .. import corrections
from .. import actions as children
from ..actions import FIELDS, Question, fields_of
from ..corrections import Proposal

screen = flask.Blueprint("child", __name__, url_prefix="/children")
Answer = str | Response | tuple[str, int]
NAMES = f"any({', '.join(ACTIONS)})"
# what a correction does with the catchment schools that are there when the home moves
KEEP = "keep"
TYPE_AGAIN = "What you typed is not kept any more. Nothing was recorded: type it again."


@dataclasses.dataclass(frozen=True)
class Listed:
    """A school of a child's list, as the screen has it."""

    at: int
    code: str
    name: str
    state: str
    words: str
    metres: int
    waits: bool
    # of the waiting list, the page that has the child
    page: int


def listed(register: Register, number: int) -> list[Listed]:
    """The schools of a child's list."""
    application, place = register.applications.get(number), register.places.get(number)
    words, found = flags.present(), []
    for at, (code, it) in enumerate(application.listed.items() if application else (), 1):
        school = register.schools[code]
        state = wording.state(it, place)
        if state == wording.STATES["left"]:
            state = records.ended_by(parts().history, number, code) or state
        found.append(Listed(at, code, school.name, state,
                            criteria.in_brief(school, it.number, words), it.metres,
                            it.state == WAITS, tables.page_of(it.position or 1)))
    return found


def shown(register: Register, number: int) -> dict[str, Any]:
    """What each page about a child has."""
    child, place = register.children[number], register.places.get(number)
    application = register.applications.get(number)
    rows = listed(register, number)
    return {
        "child": child, "register": register, "listed": rows,
        "are_alike": {criteria.UNMET, criteria.ALONE} <= {it.words for it in rows},
        "place": wording.place(register, place), "deadline": wording.deadline(place),
        "applied": application.day if application else None,
        "is_late": application is not None and not register.is_in_time(application.day),
        "facts": children.facts_of(register, child, flags.flag_words),
    }


def child_in(number: int) -> Register:
    """The register, which has the child."""
    register = parts().desk.register()
    if number not in register.children:
        flask.abort(404)
    return register


@screen.get("/<int:number>")
@needs(READ)
def show(number: int) -> Answer:
    """A child."""
    return child_page(number)


# what is kept of a child, each at an address of its own
HISTORY, LETTERS, POSITIONS, KEPT = "history", "letters", "positions", "notes"


def child_page(number: int, said: str = "", status: int = 200) -> Answer:
    """The page of a child."""
    register, history = child_in(number), parts().history
    names = Names(register, flags.present())
    if "recorded" in flask.request.args and not said:
        said = records.last_of(history, person().name, number, names)
    place, day = register.places.get(number), today()
    actions = [(name, ACTIONS[name].title, children.is_likely(name, place, day))
               for name, _ in children.possible(register, number) if name != "leave"]
    return flask.render_template(
        "child.html", **shown(register, number), **drawn(register, number), said=said,
        is_bad=status != 200, namesakes=children.namesakes(register, register.children[number]),
        tags=children.tags_of(register, number, day), waits=children.waiting(register, number),
        stays=children.stays(register, number) if place and place.kind == OFFERED else "",
        moved=moved(register, number) if part() == POSITIONS else [],
        point=records.point_of(history, number), actions=actions,
        records=records.of_child(history, register, number, names, person().may(NOTES)),
        part=part(), rounds=explanations.taken(parts(), register, number),
        **noted(number)), status


def part() -> str:
    """Which of what is kept of the child is shown."""
    found = flask.request.args.get("part", "")
    is_there = found in (LETTERS, POSITIONS) or (found == KEPT and person().may(NOTES))
    return found if is_there else HISTORY


def moved(register: Register, number: int) -> list[tuple[str, list[Step]]]:
    """The positions of the child on the waiting lists of its schools: the name of each, and them.
    """
    application = register.applications.get(number)
    found = [(register.schools[code].name, list(list_moves.of_child(
        register, parts().draws, parts().positions, code, number)))
             for code in (application.preferences if application else ())]
    return [(name, rows) for name, rows in found if rows]


def drawn(register: Register, number: int) -> dict[str, Any]:
    """Why the child has no place at schools of its list, and the map of its home and these."""
    child, place = register.children[number], register.places.get(number)
    application = register.applications.get(number)
    try:
        found = reasons.reasons(register, number, flags.present())
    except Refused:
        # (a draw that is not shown now is no reason to show nothing)
        found = {}
    ways = []
    for code, it in application.listed.items() if application else ():
        school, reason = register.schools[code], found.get(code)
        is_own = place is not None and place.school == code
        state = "place" if is_own else "waits" if it.state == WAITS else "below"
        ways.append(pictures.Way(code, school.east, school.north, state,
                                 reason.metres if reason and reason.why else None))
    if not ways:
        return {"reasons": found, "map": "", "map_says": "", "map_key": []}
    nearest = min(application.listed.items(), key=lambda it: it[1].metres) if application else None
    says = f"The home and the {texts.count(len(ways), 'school')} of the child’s list."
    if nearest:
        says += f" The nearest, {nearest[0]}, is {nearest[1].metres:,} metres away."
    picture = pictures.child_map("child-drawn", "Home and schools", says, (child.east, child.north),
                                 ways)
    return {"reasons": found, "map": picture, "map_says": says, "map_key": key_of(ways)}


SIGNS = {"place": ("school place", "the school of the child’s place"),
         "waits": ("school waits", "a school where the child waits"),
         "below": ("school", "another school of the child’s list")}


def key_of(ways: Sequence[pictures.Way]) -> list[tuple[str, str]]:
    """What the signs of a child's map mean, of those that are drawn."""
    states = {it.state for it in ways}
    found = [("dwelling", "the home"), *(it for state, it in SIGNS.items() if state in states)]
    if any(it.metres is not None for it in ways):
        found.append(("line last", "how far the last child admitted lives"))
    return found


def noted(number: int) -> dict[str, Any]:
    """The notes and files of a child, for those who may see them."""
    if not person().may(NOTES):
        return {}
    kept = parts().notes
    return {"notes": kept.of_child(number), "files": kept.files_of(number)}


def day_typed() -> tuple[datetime.date, str, str]:
    """The day of an action: as it was typed, or today; and what is wrong with what was typed."""
    text = flask.request.form.get("day", flask.request.args.get("day"))
    if text is None:
        return today(), days.in_words(today()), ""
    found = wording.day_of(text)
    if found is None or found > today():
        return found or today(), text, wording.NOT_YET if found else wording.NOT_A_DAY
    return found, text, ""


@screen.get(f"/<int:number>/<{NAMES}:name>")
@needs(RECORD)
def ask(number: int, name: str) -> Answer:
    """What is asked before something is recorded."""
    return ask_page(number, name)


def marks_of(register: Register, name: str) -> Marks | None:
    """What is said beside children whose offer is reminded of or withdrawn, also in rows."""
    return Marks(parts().letter_lists, register) if name in (REMIND, LAPSE) else None


def against(register: Register, number: int, name: str) -> str:
    """Why an offer is not withdrawn now, or "": its answer waits in a pile; or nobody has said that
    it is right without a reminder that was sent.
    """
    marks = marks_of(register, name) if name == LAPSE else None
    if marks and (said := marks.waiting.get(number)):
        return sentence(f"{said}. Nothing was recorded")
    is_read = flask.request.form.get("read") == "yes"
    return UNREAD if marks and marks.unsent(number) and not is_read else ""


def ask_page(number: int, name: str, said: str = "", status: int = 200) -> Answer:
    """The question, with the child as it is now."""
    register = child_in(number)
    marks = marks_of(register, name)
    given = flask.request.values.get("school", "")
    code = children.school_of(register, number, name, given)
    day, typed, wrong = day_typed()
    found: Question | None = None
    try:
        if name != "plan" or code:
            found = children.question(register, number, name, code, day, today())
        else:
            # (whether there can be one at all)
            children.see_possible(register, number, name, next(iter(register.schools), ""))
    except Refused as error:
        # (what was recorded meanwhile is named first)
        return child_page(number, f"{said} {sentence(str(error))}".strip(), 409)
    seen = seen_of(register, found.command).text if found else ""
    schools = [(it.code, f"{it.code} {it.name}") for it in register.schools.values()]
    return flask.render_template(
        "ask.html", **shown(register, number), action=ACTIONS[name], question=found, seen=seen,
        marks=marks.of(number) if marks and found else (),
        is_unsent=bool(name == LAPSE and marks and marks.unsent(number)),
        code=code, day=day, typed=typed, wrong=wrong, said=said, schools=schools,
        to=flask.url_for("child.record", number=number, name=name),
        weekday=wording.weekday(day)), 400 if wrong and status == 200 else status


@screen.post(f"/<int:number>/<{NAMES}:name>")
@needs(RECORD)
def record(number: int, name: str) -> Answer:
    """Something that was confirmed."""
    form = flask.request.form
    action, day = ACTIONS[name], wording.day_of(form.get("day", ""))
    command: dict[str, Any] = {
        "cmd": action.name, "child": number, "school": form.get("school", "")}
    if action.is_dated:
        if day is None or day > today() or form.get("what") == "show":
            return ask_page(number, name)
        if day.isoformat() != form.get("day_shown"):
            return ask_page(number, name, f"Nothing was recorded: {wording.weekday(day)}, was typed"
                            " and not shown before. What happens with this day is below.",
                            409)
        command["day"] = day.isoformat()
    if reason := against(child_in(number), number, name):
        return ask_page(number, name, reason, 409)
    seen = Seen(form.get("seen", ""))
    try:
        if name == "plan" and not parts().desk.changed(child_in(number), command, seen):
            copied(parts().desk, parts().copies, BEFORE_PLANS, person())
    except Refused as error:
        return ask_page(number, name, sentence(str(error)), 409)
    result = parts().desk.send(person(), command, seen)
    if not result.is_done:
        return ask_page(number, name, result.said, 409)
    return flask.redirect(flask.url_for("child.show", number=number, recorded="yes"), 303)


@screen.get("/<int:number>/correct")
@needs(RECORD)
def correct(number: int) -> Answer:
    """The form of a correction, with the present data or what was typed and not recorded; its
    question; or what was looked up for it.
    """
    child_in(number)
    digest = flask.request.args.get("typed", "")
    typed = parts().asked.find(person(), flask.request.path, digest)
    if digest and typed is None:
        return form_page(number, Typed(), said=TYPE_AGAIN, status=409)
    if not digest or typed is None:
        return form_page(number, typed or Typed())
    if "look" in flask.request.args:
        return look_up(number, typed)
    return compare(number, typed)


def form_page(
    number: int, typed: Typed, wrong: dict[str, str] | None = None, said: str = "",
    status: int = 200, cells: dict[str, str] | None = None, point: str = "",
) -> Answer:
    """The form, with what was typed and looked up, and what was seen of the child when it was
    opened.
    """
    register = child_in(number)
    child = register.children[number]
    present = seen_of(register, {"cmd": "amend", "child": number}).text
    words = flags.present()
    return flask.render_template(
        "correct.html", child=child, fields=fields_of(register), wrong=wrong or {}, said=said,
        cells=cells or (cells_in(typed) if typed else corrections.cells_of(child)),
        is_bad=status != 200, label=wording.label, seen=typed.get("seen", present),
        is_kept=bool(typed) and not wrong and not point,
        is_choice=corrections.is_choice, is_flags=corrections.is_flags, keys=keys_in(typed),
        point=point, flags=[(it, flags.named(it, words)) for it in flags.NUMBERS]), status


def cells_in(typed: Typed) -> dict[str, str]:
    """What was typed. Flags are boxes that are ticked."""
    return {it.name: ";".join(typed.getlist(it.name)) if corrections.is_flags(it.kind)
            else typed.get(it.name, "") for it in FIELDS}


def keys_in(typed: Typed) -> Keys:
    """The property number and the postcode that were typed."""
    return Keys(typed.get("property_number", ""), typed.get("postcode", ""))


def look_up(number: int, typed: Typed) -> Answer:
    """The form with the point that is looked up, where there is one."""
    keys = keys_in(typed)
    with tools().points.gazetteer.looking() as lookup:
        made, point = staging_points.looked_up(cells_in(typed), keys, lookup, Point(TYPED), True)
    said = "; ".join(staging_points.said_in_form(made, point, keys))
    return form_page(number, typed, cells=made,
                     point=said or "type a property number or a postcode")


def source_of(register: Register, number: int, cells: dict[str, str], keys: Keys) -> str:
    """Where the point of a correction came from, if it changes the point."""
    child = register.children[number]
    if (cells["east"].strip(), cells["north"].strip()) == (str(child.east), str(child.north)):
        return ""
    with tools().points.gazetteer.looking() as lookup:
        return staging_points.typed_point(cells, keys, lookup)[1].words


@screen.post("/<int:number>/correct")
@needs(RECORD)
def do_correct(number: int) -> Answer:
    """Leads to the question of what was typed, or to what is looked up for it; records what was
    confirmed.
    """
    child = child_in(number).children[number]
    typed: Typed = MultiDict(flask.request.form)
    path, kept, what = flask.request.path, parts().asked, typed.get("what", "")
    if what == "send":
        return compare(number, typed, True)
    if what == KEEP:
        typed["catchments"] = texts.cell_of(child.catchments)
    if what == "anew":
        kept.forget(person(), path)
        return flask.redirect(path, 303)
    more: dict[str, Any] = {"look": "yes"} if what == "look" else {}
    return flask.redirect(flask.url_for(
        "child.correct", number=number, typed=kept.keep(person(), path, typed), **more), 303)


def areas_of(register: Register) -> Map | None:
    """The catchment areas that are in use, of a large register."""
    return parts().areas.map(register.schools) if register.is_large else None


def is_kept(typed: Typed) -> bool:
    """Whether the catchment schools are to stay that a child has."""
    return KEEP in (typed.get("what", ""), typed.get("schools", ""))


def compare(number: int, typed: Typed, is_sent: bool = False) -> Answer:
    """The question of a correction, with each field that it changes; or one that was confirmed."""
    register, cells = child_in(number), cells_in(typed)
    command, wrong = corrections.read(register, number, cells)
    areas, proposal = areas_of(register), None
    if areas and not is_sent:
        proposal = corrections.proposal_of(
            register.children[number], command, areas, is_kept(typed))
    if proposal and proposal.is_taken:
        cells["catchments"] = proposal.cell
        command, wrong = corrections.read(register, number, cells)
    if wrong:
        return form_page(number, typed, wrong,
                         "Nothing was recorded: see the fields that are marked.", 400)
    seen, said = Seen(typed.get("seen", "")), ""
    if is_sent:
        result = parts().desk.send(
            person(), command, seen, point=source_of(register, number, cells, keys_in(typed)),
            catchments=corrections.source_of(register.children[number], command, areas)
            if areas else "")
        if result.is_done:
            parts().asked.forget(person(), flask.request.path)
            return flask.redirect(flask.url_for("child.show", number=number, recorded="yes"), 303)
        said, register = result.said, child_in(number)
    # (a form that was opened before another correction has the data from before it)
    if other := parts().desk.changed(register, command, seen):
        said = f"{other} Nothing was recorded now: below only what you changed is new."
        cells = corrections.merged(register.children[number], seen.text, cells)
        command, _ = corrections.read(register, number, cells)
    return compare_page(register, number, cells, command, typed, said, proposal)


def compare_page(
    register: Register, number: int, cells: dict[str, str], command: dict[str, Any], typed: Typed,
    said: str, proposal: Proposal | None,
) -> Answer:
    """What a correction changes of the data that the register has now."""
    child, keys = register.children[number], keys_in(typed)
    changes = corrections.changes(child, command)
    if not changes:
        same = "The register has these details already: there is nothing to record."
        return form_page(number, typed, said=f"{said} {same}".strip(), status=409, cells=cells)
    return flask.render_template(
        "correction.html", child=child, changes=changes, cells=cells, said=said,
        fields=fields_of(register), proposal=proposal, schools=KEEP if is_kept(typed) else "",
        present=", ".join(child.catchments),
        keys=keys, point=source_of(register, number, cells, keys),
        warnings=list(corrections.warnings(child, command)),
        seen=seen_of(register, command).text, is_flags=corrections.is_flags,
    ), 409 if said else 200
