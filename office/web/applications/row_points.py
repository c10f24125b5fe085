"""The points of rows of the staging table: by property number, else by postcode, of the columns
that hold these. A point that a row has stays; one that differs is asked about.
"""
import dataclasses
import json
from collections.abc import Iterable, Mapping, Sequence

from register_files import Refused

from office.core import texts
from office.web.register.history import History

from . import gazetteer_rows, points
from .gazetteer import Found, Gazetteer, Lookup
from .points import GAZETTEER, POSTCODE, PROPERTY, TYPED, Point
from .rows import OPEN, Staged, named, places_of, see_lengths, told
from .staging import Staging

SETTING = "columns of addresses"
# the columns in which what is typed here is kept, before all others
OWN = {PROPERTY: "Property number", POSTCODE: "Postcode"}
USUAL = {PROPERTY: gazetteer_rows.NAMES["property"], POSTCODE: gazetteer_rows.NAMES["postcode"]}
Cells = dict[str, str]


@dataclasses.dataclass(frozen=True)
class Keys:
    """The property number and the postcode of a row, as they are written there."""

    number: str = ""
    code: str = ""

    @property
    def others(self) -> Cells:
        """The columns in which they are kept."""
        both = {OWN[PROPERTY]: self.number.strip(), OWN[POSTCODE]: self.code.strip()}
        return {name: text for name, text in both.items() if text}


@dataclasses.dataclass(frozen=True)
class Looked:
    """What looking up came to: rows that got a point by each key, those of which none was found,
    and those whose point differs.
    """

    by_property: int = 0
    by_postcode: int = 0
    missing: int = 0
    asked: int = 0

    @property
    def words(self) -> str:
        """This in words."""
        parts = [f"{texts.count(self.by_property, 'point')} by property number",
                 f"{self.by_postcode:,} by postcode, approximate",
                 f"{self.missing:,} not found"]
        asked = f"; {texts.count(self.asked, 'row')} to be asked about" if self.asked else ""
        return f"Looked up: {', '.join(parts)}{asked}."


def looked_up(cells: Mapping[str, str], keys: Keys, lookup: Lookup, point: Point,
              is_asked: bool = False) -> tuple[Cells, Point]:
    """The cells of a row and where its point came from, once it was looked up. A point that is
    there stays, unless somebody has asked for another one of this row.
    """
    found, said = lookup.find(keys.number, keys.code)
    if points.has_any(cells) and not is_asked:
        if point.source == GAZETTEER:
            return dict(cells), point
        is_kept = point.is_kept and (found.at if found else None) == point.at
        made = of_found(found, point.source, said if keys != Keys() else [])
        return dict(cells), dataclasses.replace(made, is_kept=is_kept)
    if found is None:
        return dict(cells), dataclasses.replace(
            point if points.has_any(cells) else Point(point.source), said=tuple(said))
    return {**cells, **points.cells_at(found.at)}, of_found(found, GAZETTEER, said)


def of_found(found: Found | None, source: str, said: Sequence[str]) -> Point:
    """A point with what a gazetteer has for it."""
    if found is None:
        return Point(source, said=tuple(said))
    return Point(source, found.by, found.key, found.day, found.at, tuple(said))


def typed_point(cells: Mapping[str, str], keys: Keys, lookup: Lookup) -> tuple[Cells, Point]:
    """The same for what was typed into a form: a point that is that of the gazetteer is its."""
    made, point = looked_up(cells, keys, lookup, Point(TYPED))
    if point.at is not None and point.at == points.metres_of(made):
        point = dataclasses.replace(point, source=GAZETTEER)
    return made, point


def needs_look(row: Staged) -> bool:
    """Whether a person is to see to the point of a row."""
    return points.needs_look(row.point, row.cells)


class Points:
    """The points of one staging table."""

    def __init__(self, staging: Staging, gazetteer: Gazetteer, record: History) -> None:
        self.staging, self.gazetteer, self.history = staging, gazetteer, record

    def columns(self) -> Cells:
        """The columns that were chosen for property numbers and postcodes, by what they hold."""
        found: Cells = json.loads(self.staging.store.setting(SETTING, "{}"))
        return found

    def choose(self, who: str, columns: Mapping[str, str]) -> None:
        """Keeps which columns hold property numbers and postcodes."""
        kept = {it: columns.get(it, "") for it in OWN}
        if kept != self.columns():
            self.history.add(who, "chose columns of addresses",
                             {what: told(name) for what, name in kept.items()})
            self.staging.store.set(SETTING, json.dumps(kept))

    def guessed(self, rows: Iterable[Staged]) -> Cells:
        """The columns that were chosen; else those of these rows that are usually called so."""
        if found := self.columns():
            return found
        names = dict.fromkeys(name for it in rows for name in it.others)
        return {what: next((it for it in names if gazetteer_rows.plain(it) in usual), "")
                for what, usual in USUAL.items()}

    def keys_of(self, row: Staged, columns: Mapping[str, str]) -> Keys:
        """What a row has of both: what was typed here, else what the chosen column has."""
        def text(what: str) -> str:
            if OWN[what] in row.others:
                return row.others[OWN[what]]
            return row.others.get(columns.get(what, ""), "")

        return Keys(text(PROPERTY), text(POSTCODE))

    def fill(self, who: str, file: int | None = None) -> Looked:
        """Looks up the points of all rows, or of those of a file."""
        with self.staging.lock, self.gazetteer.looking() as lookup:
            rows = [it for it in self.staging.rows(OPEN) if file is None or it.file == file]
            columns, changed = self.guessed(rows), []
            if not lookup.about:
                return Looked()
            # (of a row that could not be read nobody knows what is in which column)
            for row in (it for it in rows if not any(note.is_whole for note in it.notes)):
                keys = self.keys_of(row, columns)
                cells, point = looked_up(row.cells, keys, lookup, row.point)
                if (cells, point) != (row.cells, row.point):
                    changed.append((row, cells, row.others, point))
            if changed:
                got = [row for row, cells, _, _ in changed if cells != row.cells]
                self.history.add(who, "looked up points", {
                    "rows": places_of(row for row, _, _, _ in changed), "points": places_of(got),
                    **{f"gazetteer by {kind}": f"{it.name}, {points.day_in_words(it.day)}"
                       for kind, it in lookup.about.items()}})
                self.staging.set_points(changed, who)
            got_now = [point.by for row, cells, _, point in changed if cells != row.cells]
            return counted(got_now, self.staging.rows(OPEN))

    def look_up(self, who: str, number: int, version: int, keys: Keys) -> Staged:
        """Looks up the point of one row by what was typed for it, in place of the one it has."""
        see_lengths(keys.others)
        with self.staging.lock, self.gazetteer.looking() as lookup:
            row = self.staging.seen(number, version, OPEN)
            if not lookup.about:
                raise Refused("there is no gazetteer yet")
            others = {**row.others, OWN[PROPERTY]: keys.number.strip(),
                      OWN[POSTCODE]: keys.code.strip()}
            cells, point = looked_up(row.cells, keys, lookup, row.point, True)
            self.set(who, row, cells, others, point, "looked up a point")
            return self.staging.row(number)

    def type(self, who: str, number: int, version: int, at: Mapping[str, str]) -> Staged:
        """Gives a row a point that was typed."""
        see_lengths(at)
        with self.staging.lock:
            row = self.staging.seen(number, version, OPEN)
            point = points.after(row.point, row.cells, at)
            self.set(who, row, {**row.cells, **at}, row.others, point, "typed a point")
            return self.staging.row(number)

    def decide(self, who: str, number: int, version: int, is_taken: bool) -> Staged:
        """Takes the gazetteer's point for a row, or decides that the row's is right."""
        with self.staging.lock:
            row = self.staging.seen(number, version, OPEN)
            point, cells = row.point, row.cells
            if is_taken and point.at is not None:
                point = dataclasses.replace(point, source=GAZETTEER)
                cells = {**cells, **points.cells_at(point.at or (0, 0))}
            point = dataclasses.replace(point, is_kept=True)
            what = "took the gazetteer's point" if is_taken else "kept a point"
            self.set(who, row, cells, row.others, point, what)
            return self.staging.row(number)

    def set(self, who: str, row: Staged, cells: Cells, others: Cells, point: Point,
            what: str) -> None:
        """Changes the point of a row, which is in the history before."""
        changes = {name: f'"{told(had)}" to "{told(now)}"' for name, had, now in (
            *((it, row.cells[it], cells[it]) for it in ("east", "north")),
            *((it, row.others.get(it, ""), others.get(it, "")) for it in OWN.values()),
        ) if had != now}
        self.history.add(who, what, {
            "row": row.where, **named(row), **changes, "point": point.words})
        self.staging.set_points([(row, cells, others, point)], who)


def counted(got: Sequence[str], left: Sequence[Staged]) -> Looked:
    """What looking up came to: by what points were found, and what is left in the table."""
    return Looked(
        got.count(PROPERTY), got.count(POSTCODE),
        sum(not points.has_any(it.cells) for it in left),
        sum(bool(points.question(it.point, it.cells)) for it in left))


def said_in_form(cells: Mapping[str, str], point: Point, keys: Keys) -> list[str]:
    """What is said of the point of a form that was looked up."""
    if keys == Keys():
        return []
    source = [f"the point {cells['east']}, {cells['north']} is {point.words}"] if (
        points.metres_of(cells)) else []
    return source + [it for it in (*points.findings(point, cells), *point.said) if it]
