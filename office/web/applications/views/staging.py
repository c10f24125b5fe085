"""Applications before they are in the register: what is wrong by kinds, cells corrected, and rows
set aside and merged.
"""
from collections.abc import Container, Iterator, Mapping, Sequence
from typing import Any

import flask
from register_files import Refused
from werkzeug.wrappers import Response

from office.core import child_fields, texts
from office.web.machinery import tables
from office.web.people.guard import needs, person
from office.web.people.roles import RECORD

from .. import columns, fault_kinds, latest, mends, pictures, replace, sent
from .. import page as staging_page
from .. import tools as staging_tools
from ..fault_kinds import Kind
from ..latest import said_of_saved
from ..page import ALL, ASIDE, FILTERS, WRONG, Asked
from ..rows import OPEN, REMARK, WITHDRAWN, digest_of
from ..sent import Refusal
from ..staging import Meanwhile
from ..table_check import Table
from ..tools import number_in, numbers_taken, table_now, tools

screen = flask.Blueprint("applications", __name__, url_prefix="/applications")
screen.record(staging_tools.begin)
Answer = str | Response | tuple[str, int]
# what the address of the table keeps from one page to the next
KEPT = ("show", "find", "kind", "page")
# so many kinds are seen at once
MOST_KINDS = 12
# so many pairs of possible duplicates are on the page
MOST_PAIRS = 100
# chosen in the place of an item that is left out
LEFT_OUT = "-"
# the menus of the kinds have this before the kind
BY = "by-"


def page(text: str = "", is_bad: bool = False, saved: Sequence[int] = (),
         refused: Mapping[int, Refusal] | None = None, show: str = "",
         is_added: bool = False) -> Answer:
    """The table. Rows that were saved, or could not be, are the first; so is one that the address
    names.
    """
    table, reason = table_now()
    args, staging = flask.request.args, tools().staging
    refused = refused or {}
    edited = latest.numbers_in(args, "edit")
    first = [*refused, *saved, *edited, *latest.numbers_in(args, "see")]
    away = staging.rows(WITHDRAWN)
    counts = staging_page.counts(table, len(away))
    kinds = fault_kinds.kinds(table, lambda: numbers_taken(table.register))
    kind = next((it for it in kinds if it.key == args.get("kind", "")), None)
    asked = Asked(which(show or args.get("show", ""), counts, first), args.get("find", ""),
                  frozenset(kind.rows) if kind else None, frozenset(edited))
    shown = staging_page.page_of(table, away, asked, number_in(args, "page", 1), first, refused)
    changes, more = staging_page.changes(table)
    here = {"show": asked.show, "find": asked.find, "kind": kind.key if kind else None}
    wrong = table.wrong()
    # (a row that is set aside is on the screen of these alone)
    there = {it.id for it in away} if asked.show == ASIDE else table.rows
    body = flask.render_template(
        "applications.html", said=f"{said_of_saved(table, saved)} {text}".strip(), is_bad=is_bad,
        is_added=is_added, chosen=chosen_now(),
        reason=reason, page=shown, here=here, kinds=kinds[:MOST_KINDS], others=kinds[MOST_KINDS:],
        kind=kind, aside_kind=fault_kinds.whole_kind(kind, table) if kind else None,
        filters=filters(counts, asked.find), filter="" if kind else FILTERS[asked.show],
        counts=counts, wrong=len(wrong), aside_all=fault_kinds.aside(wrong), changes=changes,
        more_changes=more, address=tables.pages("applications.show", **here),
        files=list(sources(table)), waiting=replace.waiting(staging),
        pairs=len(table.pairs), lost=lost_of(there, refused),
        groups=staging_page.groups(), of_areas=fault_kinds.of_areas(table),
        to_see=sum(it.needs_look for it in table.rows.values()),
        undo=latest.undo_of(staging, args), focus=staging_page.focus_of(shown, first),
        may_add="add" in args or not counts[ALL], days=pictures.by_day(table),
        wanted=pictures.wanted(table), seen=digest_of(away),
        file_columns=columns.columns(table.register))
    return body, 409 if is_bad else 200


def which(asked: str, counts: Mapping[str, int], first: Sequence[int]) -> str:
    """Which rows are shown: those that were asked for, else those with errors, if there are any or
    the last of them was corrected just now.
    """
    if asked in FILTERS:
        return asked
    return WRONG if counts[WRONG] and not first else ALL


def filters(counts: Mapping[str, int], find: str) -> list[tuple[str, str, str, str]]:
    """The links to the rows of each state, with their number."""
    return [(words, flask.url_for("applications.withdrawn" if it == ASIDE else "applications.show",
                                  show=None if it == ASIDE else it, find=find or None),
             f"{counts[it]:,}", staging_page.KINDS.get(it, "") if counts[it] else "")
            for it, words in FILTERS.items()]


def sources(table: Table) -> Iterator[tuple[Any, Any]]:
    """The files, each with what sets its rows aside."""
    mends = fault_kinds.of_files(table)
    return ((it, mends.get(it.id)) for it in tools().staging.files())


def lost_of(
    rows: Container[int], refused: Mapping[int, Refusal],
) -> list[tuple[str, dict[str, str]]]:
    """What was typed into rows that are not in the table any more: how each was called, and its
    cells.
    """
    return [(it.where, {staging_page.title_of(column): text
                        for column, text in it.typed.cells.items() if text})
            for number, it in refused.items() if number not in rows]


def to_table(**more: Any) -> Response:
    """The way back to the page of the table that was seen. (It names no row of the page: a browser
    that goes to one gives the focus to no cell.)
    """
    kept: dict[str, Any] = {it: flask.request.args.get(it) for it in KEPT}
    found = {**kept, **more}
    is_aside = found["show"] == ASIDE and not found["kind"]
    view = "applications.withdrawn" if is_aside else "applications.show"
    return flask.redirect(flask.url_for(view, **found), 303)


def is_ready() -> bool:
    """Whether the rows of the table can be stored, which families change no more."""
    table, reason = table_now()
    return bool(table.rows) and not (table.wrong() or reason) and table.register is not None and (
        not staging_tools.is_collecting(table.register))


def onward(was_ready: bool, done: dict[str, Any], **more: Any) -> Response:
    """Back to the table; from the last of its errors to the question that waited for it."""
    if was_ready or not is_ready():
        return to_table(**done, **more)
    return flask.redirect(flask.url_for("applications_commit.show", **done), 303)


@screen.get("/")
@needs(RECORD)
def show() -> Answer:
    """The table, and what was done last."""
    return rows_of()


def rows_of(show: str = "") -> Answer:
    """The rows of a state, and what was done last."""
    tools().committing.look()
    found = latest.last(tools().staging, flask.request.args)
    return page(found.text, saved=found.saved, show=show, is_added=found.is_added)


@screen.post("/")
@needs(RECORD)
def save() -> Answer:
    """All rows of a page that were changed; then, by its button, one of them is set aside or put
    back, or is confirmed as it is.
    """
    form, staging, who = flask.request.form, tools().staging, person().name
    aside, back = number_in(form, "aside"), number_in(form, "back")
    try:
        rows = sent.read(form)
    except Refused as error:
        return page(f"Nothing was changed: {error}.", True)
    was_ready = is_ready()
    came = sent.save(staging, who, rows, number_in(form, "confirm"))
    for it in rows:
        if it.number in (aside, back):
            sent.move(staging, who, it, came, WITHDRAWN if it.number == aside else OPEN)
    if came.refused:
        reasons = "; ".join(dict.fromkeys(it.why for it in came.refused.values()))
        return page(f"Not saved: {reasons}. What you typed is kept below.", True,
                    list(came.saved), came.refused)
    if back:
        return to_table(see=back, show=None)
    done = {"row": list(came.saved), "aside": aside or None}
    return onward(was_ready, done, same=None if came.saved or aside else "yes")


@screen.post("/mend")
@needs(RECORD)
def mend() -> Answer:
    """All rows of a kind, by the button that was pressed: what it does was shown by it, or is asked
    about.
    """
    form, staging = flask.request.form, tools().staging
    with staging.lock:
        try:
            was_ready, (table, _) = is_ready(), table_now()
            kinds = fault_kinds.kinds(table, lambda: numbers_taken(table.register))
            chosen = chosen_item(kinds) if "seen" in form else mends.chosen(
                fault_kinds.all_mends(table, kinds), form.get("mend", ""))
            if chosen.is_asked and "confirmed" not in form:
                return flask.redirect(
                    flask.url_for("applications.ask_aside", mend=chosen.digest), 303)
            did = mends.apply(staging, person().name, chosen, form.get(REMARK, ""))
        except Refused as error:
            return page(f"Nothing was changed: {error}.", True)
    kept = {f"{BY}{key}": by for key, by in chosen_now().items()}
    return onward(was_ready, {"did": did}, kind=None, page=None, **kept)


@screen.get("/aside")
@needs(RECORD)
def ask_aside() -> Answer:
    """What is asked before many rows are set aside."""
    table, _ = table_now()
    kinds = fault_kinds.kinds(table, lambda: numbers_taken(table.register))
    try:
        found = mends.chosen(fault_kinds.all_mends(table, kinds),
                             flask.request.args.get("mend", ""))
    except Refused as error:
        return page(f"Nothing was changed: {error}.", True)
    return flask.render_template("applications_aside.html", mend=found)


def chosen_now() -> dict[str, str]:
    """What is chosen in the menus of the kinds, also of those that were not replaced yet."""
    return {it.removeprefix(BY): by for it, by in flask.request.values.items()
            if it.startswith(BY) and by}


def chosen_item(kinds: Sequence[Kind]) -> mends.Mend:
    """What replaces a school or a flag that is not known by the one that was chosen, or leaves it
    out.
    """
    form = flask.request.form
    kind = next((it for it in kinds if it.digest == form.get("seen", "")), None)
    if kind is None:
        raise Meanwhile("the table has changed since it was shown")
    by = form.get(f"{BY}{kind.key}", "")
    if by != LEFT_OUT and by not in dict(kind.choices):
        raise Refused(f"choose what is meant by {texts.shown(kind.item)}")
    return fault_kinds.replaced(kind, "" if by == LEFT_OUT else by)


@screen.post("/undo")
@needs(RECORD)
def undo() -> Answer:
    """What was done to many rows is taken back."""
    try:
        rows = mends.undo(
            tools().staging, person().name, number_in(flask.request.form, "entry"))
    except Refused as error:
        return page(f"Nothing was changed: {error}.", True)
    return to_table(undone=len(rows))


@screen.get("/withdrawn")
@needs(RECORD)
def withdrawn() -> Answer:
    """The rows that were set aside."""
    return rows_of(ASIDE)


@screen.post("/withdrawn")
@needs(RECORD)
def bring_back() -> Answer:
    """All of them, put back."""
    tools().staging.bring_back(person().name, flask.request.form.get("seen", ""))
    return to_table(show=None)


@screen.get("/duplicates")
@needs(RECORD)
def duplicates() -> Answer:
    """Rows that may be of one child, side by side."""
    return pairs_page()


def pairs_page(text: str = "") -> Answer:
    """The pairs, and why a change was not made."""
    table, reason = table_now()
    children = table.register.children if table.register else {}
    applications = table.register.applications if table.register else {}
    found = []
    for it in table.pairs[:MOST_PAIRS]:
        child = children.get(it.child or 0)
        values = child_fields.cells_of(child, applications.get(child.number)) if child else {}
        found.append((it.why, *staging_page.sides(it.one, it.other, it.child, values)))
    body = flask.render_template(
        "applications_duplicates.html", pairs=found, every=len(table.pairs), said=text,
        reason=reason,
        columns=staging_page.columns())
    return body, 409 if text else 200


@screen.post("/duplicates")
@needs(RECORD)
def decide() -> Answer:
    """One of two is set aside, alone or after its values went into the other."""
    form, staging, who = flask.request.form, tools().staging, person().name
    one, other = ((number_in(form, it), number_in(form, f"{it}-version"))
                  for it in ("one", "other"))
    try:
        if form.get("what") == "merge":
            staging.merge(who, one, other)
        else:
            staging.move(who, [one], WITHDRAWN)
        return flask.redirect(flask.url_for("applications.duplicates"), 303)
    except Refused as error:
        return pairs_page(f"Nothing was changed: {error}.")
