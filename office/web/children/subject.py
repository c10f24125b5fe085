"""What is held of one child: what the register and the application have of it, and what the history
says, with nothing of another child. For a family that asks for it.
"""
import base64
import dataclasses
import json
import re
import zlib
from collections.abc import Iterable, Iterator, Mapping, Sequence
from html import unescape
from typing import Any, Protocol

from office.core import texts
from office.core.model import Register
from office.core.wording import label
from office.files import pages
from office.web.register.history import ANSWER, SENDS, SETTLED, Entry
from office.web.register.records import came_of, ends_of, points_in, row_in
from office.web.register.schema import IN_LINES, OF_CHILD, tables_of
from office.web.rounds.terms import ENDED

# what is not in this, and where it is
ELSEWHERE = (
    "Copies of the register and of the application's file have what these had on their day.",
    "Commands that were sent past the application, as by a file on the machine, are in no history;"
    " logs of an earlier version may have them.",
    "A row of an import is kept in the register's file as it was read, to know it again: it is"
    " the row that the history has, where the import came by the application.",
    "Rows of applications that are not added and have no number are on the screen Applications,"
    " by name.",
)
UNSEALED = {
    False: "{} is in progress: the lots of this child in it are seen by the supervisor alone until"
           " they are sealed, and are not in this.",
    True: "{} was cancelled before its lots were sealed: those of this child were seen by the"
          " supervisor alone, and are not in this.",
}
# how the page calls what the register has
NAMES = {
    "year": "Year of entry", "gave_up": "Schools declined or left", "draws": "Rounds and offers"}
NAMED = re.compile(r"\bchild (\d+)\b", re.I)
# a form has no file, and a row is one of a file
FORM = ""
PLACE = re.compile(r"(?:form|row) (\d+)(?: of (.*))?", re.S)
PATH = re.compile(r"/children/(\d+)(?:/|$)")
IN_LINE = re.compile(r'"child"\s*:\s*"?(\d+)')
# the rows that a text names of a file, as `3, 5 to 9 of a.csv; 2 of b.csv`
SPANS, SPAN = "(?:^|; )([0-9, to]+) of {}(?=; |$)", re.compile("([0-9]+)(?: to ([0-9]+))?")


class Rows(Protocol):
    """The application's file."""

    def rows(self, query: str, *values: object) -> Sequence[Any]:
        """The rows of a query."""


def of_register(register: Register, number: int) -> dict[str, Any]:
    """What the register has of a child."""
    child, place = register.children[number], register.places.get(number)
    application = register.applications.get(number)
    found: dict[str, Any] = {
        "phase": register.phase, "year": register.year,
        "data": {"child": number, "name": child.name, **child.data},
        "application": None, "place": None,
        "gave_up": sorted(code for of, code in register.left if of == number),
        "draws": list(of_draws(register, number)),
    }
    if application:
        listed = [{"school": code, "class": it.number, "metres": it.metres, "state": it.state,
                   "position": it.position, "of": it.of}
                  for code, it in application.listed.items()]
        found["application"] = {"day": application.day.isoformat(), "preferences": listed}
    if place:
        found["place"] = {name: str(it) for name, it in place._asdict().items() if it is not None}
    return found


def of_draws(register: Register, number: int) -> Iterator[dict[str, Any]]:
    """The draws in which a child took part, with its lots."""
    for draw in register.draws:
        lots = {code: lot for (code, child), lot in register.lots(draw.number).items()
                if child == number}
        outcomes = register.outcomes.get(draw.number, {})
        if number in outcomes or lots:
            yield {
                "draw": draw.number, "round": draw.round, "school": draw.school,
                "day": draw.day.isoformat(), "took_part": number in outcomes,
                "outcome": outcomes.get(number),
                "is_new": register.fresh.get(draw.number, {}).get(number), "lots": lots,
            }


@dataclasses.dataclass(frozen=True)
class Known:
    """By what the history may name a child beside its number: its rows of applications (by file and
    number, whether a row is the child's), and the sets of its letters.
    """

    number: int
    places: Mapping[tuple[str, int], bool]
    sets: frozenset[int]

    def is_mine(self, value: object) -> bool:
        """Whether a value is the number of the child."""
        return str(value).strip() == str(self.number)

    def lines(self, value: object) -> list[str]:
        """The lines of a text, or of the texts in a list or record, that name the child. Other
        children in them have no number.
        """
        found = []
        for line in (line for text in texts_in(value) for line in text.split("\n")):
            if any(self.is_mine(it) for it in NAMED.findall(line)):
                found.append(NAMED.sub(
                    lambda it: it[0] if self.is_mine(it[1]) else "another child", line))
        return found


def texts_in(value: object) -> Iterator[str]:
    """All texts in a value of JSON."""
    if isinstance(value, str):
        yield value
    elif isinstance(value, Mapping):
        value = list(value.values())
    if isinstance(value, list):
        for it in value:
            yield from texts_in(it)


def has_row(text: str, name: str, number: int) -> bool:
    """Whether a text of the history names a row of a file, whose name may look like rows too."""
    return any(int(first) <= number <= int(last or first)
               for spans in re.findall(SPANS.format(re.escape(name)), text)
               for first, last in SPAN.findall(spans))


def command_of(entry: Entry, known: Known) -> dict[str, Any] | None:
    """What a request to the register said of the child."""
    about = entry.about
    if "import" in about:
        row = row_in(about["import"], known.number)
        point = points_in(entry).get(str(known.number))
        return {"row": row, **({"point": point} if point else {})} if row else None
    if "line" in about:
        numbers = IN_LINE.findall(about["line"])
        return dict(about) if numbers and all(map(known.is_mine, numbers)) else None
    return dict(about) if known.is_mine(about.get("command", {}).get("child", "")) else None


def place_of(about: Mapping[str, Any]) -> tuple[str, int] | None:
    """The row of applications that an entry is about."""
    if "form" in about:
        return FORM, int(about["form"])
    found = PLACE.fullmatch(str(about.get("row", about.get("into", ""))))
    return (found[2] or FORM, int(found[1])) if found else None


def step_of(about: Mapping[str, Any], known: Known) -> dict[str, Any] | None:
    """What another entry says of the child. A row of applications is that of the child whose number
    it has now, since the one that was typed first may have been wrong.
    """
    place = place_of(about)
    if place and place in known.places:
        return dict(about) if known.places[place] else None
    named = about.get("number" if place else "child")
    if named is not None:
        return dict(about) if known.is_mine(named) else None
    if isinstance(about.get("children"), list):
        return only_of(about, known) if known.number in about["children"] else None
    if about.get("set") in known.sets:
        return {name: it for name, it in about.items() if name != "for"}
    if isinstance(about.get("rows"), str):
        mine = sorted(it for it, is_mine in known.places.items()
                      if is_mine and has_row(about["rows"], *it))
        return {"rows": "; ".join(f"{at} of {name}" for name, at in mine)} if mine else None
    path = PATH.search(str(about.get("asked", "")))
    if path:
        return dict(about) if known.is_mine(path[1]) else None
    lines = known.lines(dict(about))
    return {"lines": lines} if lines else None


def only_of(about: Mapping[str, Any], known: Known) -> dict[str, Any]:
    """An entry about several children, as far as it is about this one."""
    lists = ("children", "again")
    found = {name: it for name, it in about.items() if name not in (*lists, "for")}
    return found | {name: [known.number] for name in lists if known.number in about.get(name, [])}


def of_history(entries: Sequence[Entry], known: Known) -> Iterator[dict[str, Any]]:
    """What the history says of the child, the first entry first."""
    ends = ends_of(entries)
    for it in entries:
        if it.what in (ANSWER, SETTLED):
            continue
        found = command_of(it, known) if it.what == SENDS else step_of(it.about, known)
        if found is not None:
            shown: dict[str, Any] = {
                "entry": it.number, "at": it.at, "who": it.who, "what": it.what, "about": found}
            if it.what == SENDS:
                shown["came"] = came_of(it, ends)[0] if "row" not in found else (
                    "done" if came_of(it, ends)[1] else "not done")
            yield shown


def values(row: Mapping[str, Any]) -> dict[str, Any]:
    """The cells of a row: bytes as base64."""
    return {name: base64.b64encode(row[name]).decode() if isinstance(row[name], bytes)
            else row[name] for name in row.keys()}


def of_tables(store: Rows, known: Known, entries: Iterable[int]) -> dict[str, list[Any]]:
    """The rows of the application's file that are of the child, by tables."""
    found: dict[str, list[Any]] = {}
    for table in tables_of(OF_CHILD):
        rows = store.rows(f"SELECT * FROM {table} WHERE child=? ORDER BY 1, 2", known.number)
        found[table] = [values(row) for row in rows]
    found["lot"] = [values(row) for row in store.rows(
        "SELECT lot.* FROM lot JOIN draw ON draw.id=lot.draw WHERE child=? AND digest IS NOT NULL"
        " ORDER BY 1, 2", known.number)]
    for made in found["letter"]:
        made["html"] = zlib.decompress(base64.b64decode(made["html"])).decode()
    found["answer"] += of_answers(store, known)
    found["staged_row"] = [values(row) for row in staged(store)
                           if is_staged(row, known.number)]
    for table, it in tables_of(IN_LINES).items():
        found[table] = list(of_lines(store, table, it.lines, known))
    found["letter_set"] = [of_set(row) for row in store.rows("SELECT * FROM letter_set ORDER BY id")
                           if row["id"] in known.sets]
    chosen = set(entries)
    found["again"] = [{name: row[name] for name in ("restore", "entry", "is_chosen", "state")}
                      for row in store.rows("SELECT * FROM again ORDER BY restore, entry")
                      if row["entry"] in chosen]
    return {table: rows for table, rows in found.items() if rows}


def of_answers(store: Rows, known: Known) -> Iterator[dict[str, Any]]:
    """Answers that were typed and not understood, whose first number is that of the child."""
    for row in store.rows("SELECT * FROM answer WHERE child IS NULL ORDER BY number"):
        first = re.search(r"\d+", row["typed"])
        if first and known.is_mine(first[0]):
            yield values(row)


def unsealed(store: Rows, number: int) -> list[str]:
    """What is said of the draws in which the child has lots that are not sealed."""
    rows = store.rows("SELECT * FROM draw WHERE digest IS NULL AND id IN"
                      " (SELECT draw FROM lot WHERE child=?) ORDER BY id", number)
    return [UNSEALED[row["state"] in ENDED].format(f"{row['name'][:1].upper()}{row['name'][1:]}")
            for row in rows]


def staged(store: Rows) -> Sequence[Any]:
    """The rows of the staging table, with their files."""
    return store.rows(
        "SELECT staged_row.*, staged_file.name AS file_name, is_form FROM staged_row"
        " JOIN staged_file ON staged_file.id=staged_row.file ORDER BY staged_row.id")


def is_staged(row: Mapping[str, Any], number: int) -> bool:
    """Whether a row of the staging table has the number of the child."""
    return str(json.loads(row["cells"]).get("child", "")).strip() == str(number)


def of_lines(
    store: Rows, table: str, columns: Sequence[str], known: Known
) -> Iterator[dict[str, Any]]:
    """The lines of the texts of a table that name the child."""
    for row in store.rows(f"SELECT * FROM {table} ORDER BY 1, 2"):
        for column in columns:
            if lines := known.lines(read(row[column])):
                yield {"row": row[0], "column": column, "lines": lines}


def read(text: str | None) -> object:
    """A text, or what it is as JSON."""
    try:
        return json.loads(text or '""')
    except ValueError:
        return text


def of_set(row: Mapping[str, Any]) -> dict[str, Any]:
    """A set of letters without its other children."""
    asked = json.loads(row["asked"])
    return {**{name: row[name] for name in ("id", "who", "at", "state", "sent", "sent_by")},
            **{name: asked.get(name) for name in ("day", "kind", "template", "version")}}


def known_of(store: Rows, number: int) -> Known:
    """By what the history may name a child."""
    sets = {row["set_id"] for row in
            store.rows("SELECT set_id FROM letter WHERE child=? ORDER BY 1", number)}
    sets |= {row["id"] for row in store.rows("SELECT id, asked FROM letter_set")
             if number in json.loads(row["asked"]).get("children", [])}
    places = {(FORM if row["is_form"] else row["file_name"], row["number"]): is_staged(row, number)
              for row in staged(store)}
    # (and where a row was in a file that was replaced since)
    places |= {(name, at): is_staged(row, number) for row in staged(store)
               for name, at in json.loads(row["places"])}
    return Known(number, places, frozenset(sets))


def held(
    register: Register, number: int, at: str, store: Rows, entries: Sequence[Entry]
) -> dict[str, Any]:
    """All that is held of a child at a moment, by where it is."""
    known = known_of(store, number)
    entries_of = list(of_history(entries, known))
    sent = (it["entry"] for it in entries_of if it["what"] == SENDS)
    return {
        "child": number, "made": at, "register": of_register(register, number),
        "elsewhere": [*ELSEWHERE, *unsealed(store, number)], "history": entries_of,
        "office": of_tables(store, known, sent),
    }


def json_of(found: Mapping[str, Any]) -> Iterator[str]:
    """It as JSON, in pieces."""
    yield from json.JSONEncoder(indent=1, ensure_ascii=False).iterencode(found)
    yield "\n"


def shown(value: object) -> str:
    """A value on the page, with what cannot be seen escaped."""
    if isinstance(value, Mapping):
        return "; ".join(f"{name}: {shown(it)}" for name, it in value.items())
    if isinstance(value, list):
        return ", ".join(map(shown, value)) or "none"
    if value is None or isinstance(value, bool):
        return {None: "none", True: "yes", False: "no"}[value]
    return "\n".join(texts.visible(it.replace("\t", " ")) for it in str(value).split("\n"))


def size_of(row: Mapping[str, Any], name: str) -> str:
    """A cell on the page: of a file its bytes are counted, and of a letter its words are shown."""
    if name == "data":
        return "in the file as JSON, as base64" if row[name] else "removed"
    return words_of(row[name]) if name == "html" else shown(row[name])


def words_of(html: str) -> str:
    """The words of a letter."""
    body = re.sub(r"(?is)<(style|script|head)\b.*?</\1>", " ", html)
    lines = re.sub(r"<[^>]*>", "\n", body).split("\n")
    return "\n".join(shown(unescape(it.strip())) for it in lines if it.strip())


def page_of(found: Mapping[str, Any]) -> Iterator[str]:
    """It as a page to be read and printed."""
    tables = {table: [{name: size_of(row, name) for name in row} for row in rows]
              for table, rows in found["office"].items()}
    history = [{**it, "about": shown(it["about"])} for it in found["history"]]
    register = {NAMES.get(name) or label(name): shown(it)
                for name, it in found["register"].items() if name != "data"}
    yield pages.render("web/children/printed/subject.html", {
        "found": found, "name": found["register"]["data"]["name"], "register": register,
        "data": {label(name): shown(it) for name, it in found["register"]["data"].items()},
        "history": history, "tables": tables})
