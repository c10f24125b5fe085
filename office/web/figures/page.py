"""The page that an authority publishes after a round: figures without personal data, in one file
that any browser shows.

Classes and distances are those of the data that the register has; later the program holds the round
again on the copy from right before it. Counts from 1 to 4 are withheld, and so are others from
which they could be worked out; squares of the map with fewer than 5 homes; and the distance where
the last place went to a child that is or was looked after, or by a flag.
"""
from typing import Any

from markupsafe import Markup
from register_files import Refused

from office.core import criteria, days, model, texts
from office.files import charts, pages
from office.web.rounds import held_draw

from . import counts
from .counts import LOWER, NONE, Figures, School, What
from .withheld import LEAST, MEANING, WITHHELD

MOST_BARS = 40
MAP_TEXT = (
    "A map with a triangle and the code of each school. {cells} squares of {side} metres are"
    " coloured, the darker the more homes are in them."
)
# a row of a table of the page
Row = dict[str, Any]


def shown(found: Figures, key: What, value: int) -> str:
    """A count as the page has it."""
    return WITHHELD if key in found.hidden else f"{value:,}"


def drawn(found: Figures, key: What, value: int) -> int | None:
    """A count as a chart has it: None is withheld."""
    return None if key in found.hidden else value


def percent(found: Figures, key: What, value: int) -> float | None:
    """Of all children that took part, in percent with one decimal, rounded half up; None if it is
    withheld.
    """
    if key in found.hidden:
        return None
    tenths = (2000 * value + found.children) // (2 * found.children)
    return tenths / 10


def name_of(what: int | str) -> str:
    """A row of the preferences."""
    return "no place" if isinstance(what, str) else f"{texts.nth(what)} preference"


def keys_of(*years: Figures | None) -> list[int | str]:
    """The preferences that any of these has, and NONE."""
    met = {key for it in years if it for key in it.met}
    return [*sorted(it for it in met if isinstance(it, int)), NONE]


def met_cells(found: Figures, key: int | str) -> tuple[str, str]:
    """The count and the percent of a preference."""
    rate = percent(found, ("met", key), found.met[key])
    words = WITHHELD if rate is None else f"{rate:.1f}%"
    return shown(found, ("met", key), found.met[key]), words


def last_offered(school: School, flags: dict[int, str]) -> tuple[str, str]:
    """The criterion and the distance of the last child that was offered a place, in words."""
    if school.last is None:
        return "no offer in this round", ""
    number, metres = school.last
    distance = WITHHELD if criteria.is_private(school, number) else f"{metres:,} m"
    return criteria.in_words(school, number, flags), distance


def school_row(found: Figures, it: School, flags: dict[int, str]) -> Row:
    """A school's row of the main table."""
    code, (criterion, metres) = it.code, last_offered(it, flags)
    totals = {"applications": it.applications.total(), "plans": it.plans, "kept": it.kept,
              "offers": it.offers.total()}
    return {
        "code": code, "name": it.name, "pan": f"{it.pan:,}",
        "applied": [shown(found, ("applied", code, at), it.applications[at])
                    for at in range(1, LOWER + 1)],
        **{what: shown(found, (what, code), value) for what, value in totals.items()},
        "criterion": criterion, "metres": metres,
        "turned_away": "some" if it.turned_away else "none",
        "classes": [(criteria.in_words(it, at, flags), shown(found, ("class", code, at), number))
                    for at, number in enumerate(it.offers[at] for at in classes_of(it))],
    }


def classes_of(school: School) -> range:
    """The classes of a school: the looked after, one for each criterion, and the others."""
    return range(len(school.criteria) + 2)


def compared(row: Row, then: Row | None) -> Row:
    """A school's row of the comparison: each figure of this year, and of last year if it was there.
    """
    columns = ("pan", "applications", "offers", "metres")
    pairs = [(row[it], then[it] if then else "") for it in columns]
    return {"code": row["code"], "name": row["name"], "pairs": pairs, "was_there": then is not None}


def chart_of_preferences(
    found: Figures, last: Figures | None, keys: list[int | str],
) -> Markup:
    """How many percent of the children have which preference."""
    rates = {it.year: [percent(it, ("met", key), it.met[key]) for key in keys]
             for it in (found, last) if it}
    words = (WITHHELD if it is None else f"{it:.1f}%" for it in rates[found.year])
    text = "; ".join(f"{name_of(key)} {it}" for key, it in zip(keys, words))
    title = "Preferences met, in percent of the children"
    description = f"Bars. {found.year}: {text}. The table above has the numbers."
    series = [(str(year), them) for year, them in rates.items()]
    return charts.bars("met", title, description, [name_of(it) for it in keys], series,
                       "percent of the children", WITHHELD)


def chart_of_schools(found: Figures) -> tuple[str, Markup]:
    """Places, first preferences and offers of each school, or of those with the most places if
    there are many.
    """
    largest = sorted(found.schools.values(), key=lambda it: -it.pan)[:MOST_BARS]
    there = sorted(largest, key=lambda it: it.code)
    first = [drawn(found, ("applied", it.code, 1), it.applications[1]) for it in there]
    offers = [drawn(found, ("offers", it.code), it.offers.total()) for it in there]
    series: list[charts.Series] = [
        ("admission number", [it.pan for it in there]), ("first preferences", first),
        ("offers", offers),
    ]
    is_whole = len(there) == len(found.schools)
    which = "of each school" if is_whole else f"of the {MOST_BARS} schools with the most places"
    title = f"Admission number, first preferences and offers {which}"
    description = "Three bars for each school, with the numbers of the table above."
    return title, charts.bars("schools", title, description, [it.code for it in there], series,
                              "children", WITHHELD)


def tables(found: Figures, last: Figures | None, flags: dict[int, str]) -> Row:
    """The tables of the page: the preferences with the cells of each year, the schools, and the
    schools beside those of last year. `flags` are the office's words for flags.
    """
    years = [it for it in (found, last) if it]
    met = [(name_of(key), [cell for it in years for cell in met_cells(it, key)])
           for key in keys_of(found, last)]
    rows = [school_row(found, it, flags) for it in found.schools.values()]
    then = {it.code: school_row(last, it, flags) for it in last.schools.values()} if last else {}
    beside = [compared(it, then.get(it["code"])) for it in rows] if last else []
    return {"met": met, "rows": rows, "compared": beside}


def points_of(found: Figures) -> list[tuple[str, int, int]]:
    """The schools of the map."""
    return [(it.code, it.east, it.north) for it in found.schools.values()]


def page(found: Figures, last: Figures | None, flags: dict[int, str]) -> str:
    """The page, from the figures of this year and of last year."""
    made = tables(found, last, flags)
    met_chart = chart_of_preferences(found, last, keys_of(found, last))
    schools_title, schools_chart = chart_of_schools(found)
    map_chart, side = charts.school_map("map", "Schools and homes", MAP_TEXT, points_of(found),
                                        found.homes, LEAST)
    return pages.render("web/figures/printed/figures.html", {
        **made, "found": found, "last": last, "day": days.in_words(found.day),
        "least": LEAST, "meaning": MEANING, "side": f"{side:,}",
        "kept": shown(found, ("kept",), found.kept),
        "offers": shown(found, ("offers",), found.offers), "schools_title": schools_title,
        "charts": {"met": met_chart, "schools": schools_chart, "map": map_chart},
    })


def figures_of(after: model.Register, before: model.Register | None, number: int | None,
               option: str) -> Figures:
    """The figures of a register's round, as the round saw its schools and children: where there is
    a copy from before it, the program holds it again on that. `option` is the one that names it.
    """
    if before is None:
        found = counts.count_unchanged(held_draw.of_register(after, number), option)
    else:
        seen = held_draw.next_round(before, after)
        if number not in (None, seen.number):
            raise Refused(f"{before.name} is not from right before round {number}")
        found = counts.count(held_draw.held_again(before, after))
    counts.is_published(found)
    return found


def see_comparable(found: Figures, last: Figures, name: str) -> None:
    """Refuses figures that are not of an earlier year of the same phase."""
    if last.phase != found.phase or last.year >= found.year:
        raise Refused(f"{name} is of {last.phase} entry in {last.year}, and cannot be compared with"
                      f" {found.phase} entry in {found.year}")
