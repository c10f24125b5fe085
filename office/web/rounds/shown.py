"""The outcome of a draw as its screen shows it: figures, the flow from first preferences, the
schools with their places, and the children in groups, found by words, in an order, on pages.
"""
import dataclasses
import urllib.parse
from collections.abc import Callable, Collection, Mapping, Sequence
from typing import Any

import flask
from markupsafe import Markup

from office.core import texts
from office.core.model import Register
from office.web.home.tasks import RANKS, RANK_KINDS, share
from office.web.lists import choice as list_choice
from office.web.machinery import pictures, tables
from office.web.machinery.tables import Column

from . import outcome
from .outcome import CARE, ENDS, KEPT, LATE, LOT, MOVE, NONE, NOTE, OFFER, OfChild, OfSchool, Whole
from .terms import Draw

# so many children are on a page of the screen
PAGE = 50
# a flow has so many schools, and all others as one
MOST_FLOW = 16
Group = Callable[[OfChild], bool]
GROUPS: dict[str, tuple[str, Group]] = {
    "none": ("No place", lambda it: it.what == NONE),
    "care": ("Looked after", lambda it: CARE in it.marks),
    "lot": ("Decided by a lot", lambda it: LOT in it.marks),
    "note": ("With a note", lambda it: NOTE in it.marks),
    "ends": ("Accepted place ends", lambda it: ENDS in it.marks),
    "late": ("Late, not in this round", lambda it: it.what == LATE),
    "first": ("First preference", lambda it: it.rank == 0),
    "lower": ("Lower preference", lambda it: it.rank is not None and it.rank > 0),
    "offer": ("Offered a place", lambda it: it.what in (OFFER, MOVE)),
    "move": ("Moves", lambda it: it.what == MOVE),
    "kept": ("Keeps its place", lambda it: it.what == KEPT),
}
# these are there also if nobody is in them: that is what one looks for
ALWAYS = ("none", "care", "lot")
# how the marks of a child look
MARKS = {CARE: "info", LOT: "info", NOTE: "plain", ENDS: "warn"}
SCHOOLS: dict[str, Column[OfSchool]] = {
    "school": Column("School", "", lambda it: it.school),
    "pan": Column("Places", "number", lambda it: it.pan),
    "offers": Column("Offered", "number", lambda it: it.offers),
    "moves": Column("of these, moves", "number", lambda it: it.moves),
    "kept": Column("Kept", "number", lambda it: it.kept),
    "plans": Column("EHC plans", "number", lambda it: it.plans),
    "vacancies": Column("Left free", "number", lambda it: it.vacancies),
    "waiting": Column("Wait", "number", lambda it: it.waiting),
    "late": Column("of these, late", "number", lambda it: it.late),
    "gone": Column("Left for another", "number", lambda it: it.gone),
    "firsts": Column("First preferences", "number", lambda it: it.firsts),
    "last": Column("Last place", "", lambda it: it.last),
}
# those of which a rehearsal of an earlier release says nothing; and those of a later draw
KNOWN_LATER, OF_LATER = ("pan", "plans", "vacancies", "waiting"), ("moves", "kept", "gone")


def address(draw: Draw, **given: str | None) -> str:
    """The address of the rows of the children, with what was chosen before."""
    # (what is in the address is text: no name of it means anything to what makes addresses)
    kept: dict[str, str | None] = {
        name: text for name, text in flask.request.args.items() if name != "page"}
    asked = {name: text for name, text in {**kept, **given}.items() if text is not None}
    query = f"?{urllib.parse.urlencode(asked)}" if asked else ""
    return f"{flask.url_for('draws.one', number=draw.number)}{query}#children"


def figures(draw: Draw, whole: Whole) -> list[tuple[str, str, str, str, str]]:
    """The few numbers that say how it came out, with the rows that are counted."""
    counts, every = whole.counts, whole.took_part
    met = outcome.shares(whole.firsts.values())
    fresh = counts[OFFER] + counts[MOVE]
    found = [(f"{fresh:,}", "Offered a place", f"of {texts.count(every, 'child', 'children')}"
              if not draw.terms.school else texts.count(counts[MOVE], "moves", "move")
              + " from another school", "", "good")]
    if whole.firsts:
        lower = [f"{words.lower()} {many:,}" for words, many in zip(RANKS[1:4], met[1:4]) if many]
        found.append((f"{met[0]:,}", "First preference", ", ".join((
            f"{share(met[0], every)} of those who took part", *lower,
            f"none of theirs {met[4]:,}")),
            address(draw, what="first"), ""))
    if counts[KEPT]:
        found.append((f"{counts[KEPT]:,}", "Keep their place", texts.count(
            counts[MOVE], "moves", "move") + " to a school higher on their list",
            address(draw, what="kept"), ""))
    if not draw.terms.school:
        found.append((f"{counts[NONE]:,}", "No place", "at none of their schools",
                      address(draw, what="none"), "warn" if counts[NONE] else ""))
    free = [it.vacancies for it in whole.schools if it.vacancies]
    if any(it.vacancies is not None for it in whole.schools):
        found.append((f"{sum(free):,}", "Places left free",
                      f"at {texts.count(len(free), 'school')}",
                      flask.url_for("draws.one", number=draw.number, _anchor="schools"), ""))
    return found


def flow(register: Register, whole: Whole) -> dict[str, Any]:
    """The flow from first preferences to what came of them: the picture, what it says in a
    sentence, and the rows of its table.
    """
    if not whole.firsts:
        return {}
    by_size = sorted(whole.firsts.items(), key=lambda it: (-sum(it[1]), it[0]))
    rows = [(register.schools[code].name, counts) for code, counts in by_size]
    drawn = rows if len(rows) <= MOST_FLOW else [
        *rows[:MOST_FLOW - 1],
        (f"{len(rows) - MOST_FLOW + 1} others", outcome.shares(
            it for _, it in rows[MOST_FLOW - 1:]))]
    sums = outcome.shares(whole.firsts.values())
    says = f"{share(sums[0], sum(sums))} of those who took part have their first preference."
    if missed := [it for it in rows if sum(it[1]) > it[1][0]]:
        most = max(missed, key=lambda it: sum(it[1]) - it[1][0])
        says += (f" Of the others {sum(most[1]) - most[1][0]:,} of {sum(sums) - sums[0]:,} had put"
                 f" {most[0]} first.")
    picture = pictures.flow(
        "flow-drawn", "From first preference to outcome", "On the left the schools that families"
        " put first, on the right at which preference the children have a place.",
        [short(name) for name, _ in drawn], list(zip(RANKS, RANK_KINDS)),
        [it for _, it in drawn], ("First preference", "Outcome"))
    bars = [(words, f"{many:,}", share(many, sum(sums)), pictures.bar(many, sum(sums), kind))
            for words, many, kind in zip(RANKS, sums, RANK_KINDS)]
    return {"picture": picture, "says": says, "rows": rows, "sums": sums, "bars": bars,
            "columns": [{"title": it, "kind": "number"} for it in RANKS]}


def short(name: str) -> str:
    """The name of a school beside a picture."""
    for end in (" School", " Academy", " College", " High", " Primary"):
        name = name.removesuffix(end)
    return name if len(name) <= 22 else f"{name[:21]}…"


def schools(draw: Draw, whole: Whole) -> tuple[tables.Table[OfSchool], dict[str, Markup]]:
    """The table of the schools, and the bar of each: how its places are held."""
    first = whole.schools[0] if whole.schools else None
    is_known = first is not None and first.pan is not None
    is_later = draw.terms.school is not None or draw.terms.first > 1
    has_late = not is_later and any(it.late for it in whole.schools)
    hidden = [*(() if is_known else KNOWN_LATER), *(() if is_later else OF_LATER),
              *(() if has_late else ("late",)), *(() if whole.firsts else ("firsts",)),
              *(() if any(it.last for it in whole.schools) else ("last",))]
    columns = {name: it for name, it in SCHOOLS.items() if name not in hidden}
    bars = {it.school: bar(it) for it in whole.schools if it.taken is not None}
    # (an offer concerns its school, and those that a child leaves)
    rows = [it for it in whole.schools if not draw.terms.school or it.offers or it.gone]
    return tables.table(columns, rows, "schools"), bars


def bar(it: OfSchool) -> Markup:
    """How the places of a school are held: new offers, held before, and by plans."""
    plans = it.plans or 0
    before = max((it.taken or 0) - it.offers - plans, 0)
    return pictures.stacked([(it.offers, "has"), (before, "second"), (plans, "plan")],
                            max(it.pan or 0, it.taken or 0))


@dataclasses.dataclass(frozen=True)
class Grouped:
    """The rows of all children, those of each group, and what is looked for words in each row."""

    rows: list[OfChild]
    groups: dict[str, list[OfChild]]
    texts: list[str]


def grouped(register: Register, whole: Whole, notes: Collection[int]) -> Grouped:
    """The rows in their groups, with a mark of those children that have a note."""
    rows = [dataclasses.replace(it, marks=(*it.marks, NOTE)) if it.child in notes else it
            for it in whole.children]
    return Grouped(
        rows, {name: list(filter(is_in, rows)) for name, (_, is_in) in GROUPS.items()},
        [list_choice.text_of([it.child, it.name, it.had, it.has], register) for it in rows])


def children(draw: Draw, whole: Whole, register: Register, known: Grouped) -> dict[str, Any]:
    """The rows of the children as they were asked for: by words and a group, in an order, on a
    page.
    """
    given = flask.request.args
    words, what = given.get("q", "").strip(), given.get("what", "")
    what = what if what in GROUPS else ""
    found, groups = known.rows, known.groups
    if words:
        found = [it for it, text in zip(known.rows, known.texts) if list_choice.is_in(words, text)]
        groups = {name: list(filter(is_in, found)) for name, (_, is_in) in GROUPS.items()}
    chosen = groups[what] if what else found
    table = tables.table(columns_of(draw), chosen, "children")
    page, every = tables.paged(table.rows, given.get("page", ""), PAGE), len(known.rows)
    return {
        "page": page, "columns": table.columns, "sort": table.sort, "words": words,
        "filters": filters(draw, len(found), groups, what),
        "filter": GROUPS[what][0] if what else "All",
        "caption": f": {len(chosen):,} of {every:,}" if len(chosen) < every else "",
        "all": flask.url_for("draws.one", number=draw.number, _anchor="children"),
        "kept": [(it, text) for it, text in given.items() if it not in ("q", "page")],
        "whole": address(draw, page="all"), "who": "" if words or what else who(draw, whole),
        "address": tables.pages("draws.one", number=draw.number, q=words or None,
                                what=what or None, _anchor="children"),
        "why": {(it.draw, it.child): outcome.why_not(register, whole, it)
                for it in page.rows},
    }


def who(draw: Draw, whole: Whole) -> str:
    """Who is in the list of all children; and its order, where nobody asked for another one."""
    late = whole.counts[LATE]
    said = f"{texts.count(whole.took_part, 'child takes part', 'children take part')}"
    said += f", and {texts.count(late, 'is late', 'are late')}. " if late else ". "
    if flask.request.args.get("order", "").startswith("children."):
        return said.strip()
    moves = ", then moves" if draw.terms.first > 1 else ""
    kept = ", then who keeps a place" if draw.terms.first > 1 else ""
    end = ", then late ones" if late else ""
    return f"{said}Those offered a place come first{moves}, then no place{kept}{end}; by number."


def filters(
    draw: Draw, every: int, groups: Mapping[str, Sequence[OfChild]], what: str,
) -> list[tuple[str, str, str, str]]:
    """The groups as links, each with how many are in it."""
    found = [("All", address(draw, what=None), f"{every:,}", "")]
    return found + [(GROUPS[name][0], address(draw, what=name), f"{len(rows):,}", "")
                    for name, rows in groups.items()
                    if rows or name == what or name in ALWAYS and not draw.terms.school]


def columns_of(draw: Draw) -> Mapping[str, Column[OfChild]]:
    """The columns of the table of children."""
    found: dict[str, Column[OfChild]] = {
        "name": Column("Child", "", lambda it: it.name),
        "child": Column("Number", "number", lambda it: it.child),
        "draw": Column("Draw", "number", lambda it: it.draw),
        "had": Column("Before", "", lambda it: it.had),
        "has": Column("Place", "", lambda it: it.has),
        "nth": Column("Preference", "", lambda it: it.rank),
        "marks": Column("To look at", "", lambda it: it.marks[0] if it.marks else None),
    }
    if draw.terms.fills == 1:
        del found["draw"]
    if draw.terms.first == 1:
        del found["had"]
    return found
