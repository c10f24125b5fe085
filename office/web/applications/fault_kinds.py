"""What is wrong in the staging table, by kinds, each with the corrections of all its rows that are
likely: a button states how it reads what is written, and nothing is done without it.
"""
import collections
import dataclasses
import functools
import hashlib
import itertools
from collections.abc import Callable, Iterable, Iterator, Mapping, Sequence
from types import MappingProxyType

from office.core import days, fields, texts

from . import form
from .mends import Change, Mend
from .row_check import Context, Finding
from .rows import WITHDRAWN, Staged
from .table_check import OTHERS, SAME_NUMBER, Pair, Table

# a kind that is of one item: each school, flag or text of its own
OF_ITEM = ("school", "flag", "truth")
# what a kind is called: of a fault in any column, else by the column
TITLES = {
    "two readings": "Days that can be read in two ways", "short year": "Years of two digits",
    "serial": "Days as a spreadsheet’s number", "no day": "Days that cannot be read",
    "too late": "Days after the waiting lists close", "twice": "A school is listed twice",
    "gap": "A school is missing between others", "many": "Too many schools",
    "commas": "Numbers with commas", "lines": "Names on more than one line",
    "lost": "Names whose letters were lost", "long": "Names that are too long",
    "comma in name": "Names with a comma", "width": "Too many or too few fields",
    "formula": "Formulas that were never calculated", "total": "Rows that look like a total",
    "register": "Other values than in the register", "refused": "Refused by the register",
}
HOME = ("east", "north")
BY_COLUMN = {
    "child": "Numbers", "name": "Names", "day": "Days", "preferences": "Preferences",
    "flags": "Verified reasons", "home": "Homes",
}
# the words of the button for all rows of a kind whose cells have one likely meaning each
FOR_ALL = {
    "short year": "Read all as years from 2000", "serial": "Read all as a spreadsheet’s days",
    "twice": "Keep the first of each", "gap": "Close the gap in all",
    "commas": "Leave the commas out of all", "fraction": "Round all to whole metres",
    "lines": "Write all on one line",
}
# what a child counts as by what is written under 'Looked after'
COUNTS_AS = {"yes": "looked after", "no": "not looked after"}
# what is said once a button has been pressed begins with another word than its own
PAST = {"Keep": "Kept", "Close": "Closed", "Leave": "Left", "Round": "Rounded", "Write": "Wrote",
        "Replace": "Replaced", "Give": "Gave"}
DID = {"Read": "read", "Take": "taken"}
NUMBERS_TWICE = {True: ("same child", "One child in two rows"),
                 False: ("same number", "Two children with one number")}


@dataclasses.dataclass
class Kind:
    """Errors of one kind: how they are called, an example, the rows that have them, and what is
    likely to be right; of a school or a flag that is not known its text, and what may be chosen in
    its place, each by its value and words.
    """

    key: str
    title: str
    hint: str = ""
    rows: list[int] = dataclasses.field(default_factory=list)
    mends: list[Mend] = dataclasses.field(default_factory=list)
    item: str = ""
    choices: list[tuple[str, str]] = dataclasses.field(default_factory=list)
    # each of its findings with its row
    found: list[tuple[Staged, Finding]] = dataclasses.field(default_factory=list)

    @property
    def digest(self) -> str:
        """Of the rows as they are shown."""
        shown = [self.key, *(f"{row.id} {row.version}" for row, _ in self.found)]
        return hashlib.sha256("\n".join(shown).encode()).hexdigest()


def title_of(finding: Finding) -> str:
    """What the kind of an error is called."""
    fault, column = finding.fault, "home" if finding.column in HOME else finding.column
    if fault == "school":
        return f"There is no school {texts.cut(finding.item)}"
    if fault == "truth":
        return f"Looked after: {texts.shown(finding.item)}" if finding.item else (
            "Looked after: nothing is written")
    if fault == "flag" and finding.item:
        return f"There is no reason {texts.cut(finding.item)}"
    if fault in TITLES:
        return TITLES[fault]
    if fault == "fraction" and column == "home":
        return "Homes with a fraction of a metre"
    if fault == "missing" and column == "home":
        return "Homes without a point"
    named = BY_COLUMN.get(column)
    if named is None:
        return "Something else"
    return f"{named} that {'are missing' if fault == 'missing' else 'cannot be read'}"


def key_of(finding: Finding) -> str:
    """By which errors are of one kind."""
    if finding.fault in OF_ITEM:
        return f"{finding.fault} {' '.join(texts.plain(finding.item).split())}"
    return title_of(finding).casefold().replace(" ", "-")


def kinds(table: Table, taken: Callable[[], set[int]]) -> list[Kind]:
    """The kinds of errors of a table, the most frequent first. `taken` are the numbers that no
    other child can get.
    """
    found, rows = dict[str, Kind](), collections.defaultdict[str, dict[int, None]](dict)
    pairs = {it.one.id: it for it in table.pairs if it.why == SAME_NUMBER and it.other}
    for number, it in table.rows.items():
        for finding in table.errors(number):
            pair = pairs.get(number) if finding.fault == "number twice" else None
            key, title = twice(pair) if pair else (key_of(finding), title_of(finding))
            kind = found.setdefault(key, Kind(key, title))
            kind.found.append((it.staged, finding))
            here = [number] if pair is None or pair.other is None else [pair.other.id, number]
            rows[key] |= dict.fromkeys(here)
    for key, kind in found.items():
        kind.rows = list(rows[key])
        fill(kind, table, pairs, taken)
    return sorted(found.values(), key=lambda it: (-len(it.rows), it.title))


def twice(pair: Pair) -> tuple[str, str]:
    """The kind of two rows with one number: of one child or of two, by their names."""
    names = [it.cells["name"] for it in (pair.one, pair.other) if it]
    return NUMBERS_TWICE[texts.is_alike(*names)]


def fill(kind: Kind, table: Table, pairs: Mapping[int, Pair],
         taken: Callable[[], set[int]]) -> None:
    """Adds to a kind an example, and the corrections that are likely."""
    first = kind.found[0][1]
    kind.hint = example(kind)
    fault, many = first.fault, texts.count(len(kind.rows), "row")
    if fault == "school":
        schools = table.register.schools.values() if table.register else ()
        kind.item, kind.choices = first.item, [(it.code, f"{it.code} {it.name}") for it in schools]
        kind.mends = list(of_items(kind, f"Replace {texts.cut(first.item)} by", many))
    elif fault == "truth":
        what = f"Take {texts.shown(first.item)} as" if first.item else (
            "Take an empty cell as")
        kind.mends = list(of_items(kind, what, many, COUNTS_AS))
    elif fault == "flag":
        what = f"Read {texts.shown(first.item)} as" if first.item else "Read all as"
        kind.mends = list(of_items(kind, what, many))
        if first.item:
            kind.item = first.item
            kind.choices = [(str(it), f"{it} {words}") for it, words in sorted(table.words.items())]
    elif fault == "two readings":
        kind.mends, kind.hint = of_days(kind, table)
    elif fault in FOR_ALL:
        kind.mends = list(of_one_meaning(kind, FOR_ALL[fault]))
    elif fault == "comma in name":
        confirmed = [Change(row, {"name": row.cells["name"]}) for row, _ in kind.found]
        kind.mends = [Mend("All these names are right", f"Names with a comma taken in {many}",
                           tuple(confirmed))]
    elif fault in ("total", "register"):
        kind.mends = [aside([it for it, _ in kind.found])]
    elif fault == "number twice":
        kind.mends = list(of_twice(kind, pairs, taken))
    elif first.column == "child" and fault == "missing":
        kind.mends = list(numbered([row for row, _ in kind.found], taken, "each"))


def example(kind: Kind, shown: Callable[[str], str] = texts.shown) -> str:
    """An example of a kind, and of how many different values it is one."""
    written = [(it.item if it.fault in OF_ITEM else it.value, row) for row, it in kind.found]
    values = {value for value, _ in written if value}
    if not values:
        return f"in {kind.found[0][0].where}"
    value, row = next(it for it in written if it[0])
    many = f"{len(values):,} different values, " if len(values) > 1 else ""
    return f"{many}as {shown(value)} in {row.where}"


def done_of(words: str) -> str:
    """What is said of what a button did. (How many rows it was is said after it.)"""
    first, _, rest = words.partition(" ")
    if first in DID:
        what, _, how = rest.rpartition(" as ")
        return f"{what[:1].upper()}{what[1:]} {DID[first]} as {how}"
    return f"{PAST.get(first, first)} {rest}".removesuffix(" of all").removesuffix(" in all")


def merged(found: Iterable[tuple[Staged, Mapping[str, str]]]) -> tuple[Change, ...]:
    """The changes of rows of which some have several cells."""
    rows: dict[int, tuple[Staged, dict[str, str]]] = {}
    for row, cells in found:
        rows.setdefault(row.id, (row, {}))[1].update(cells)
    return tuple(Change(row, cells) for row, cells in rows.values())


def of_items(
    kind: Kind, what: str, many: str, means: Mapping[str, str] = MappingProxyType({}),
) -> Iterator[Mend]:
    """An item in all rows, replaced by each that may be meant; or a text of one cell. Where that
    decides something, the button says what.
    """
    likely = dict.fromkeys((it.by, it.words) for _, found in kind.found for it in found.likely
                           if it.by)
    for by, words in likely:
        changes = merged(
            (row, {found.column: next(it.text for it in found.likely if it.by == by)})
            for row, found in kind.found if any(it.by == by for it in found.likely))
        end = f" in all {many}" if len(changes) > 1 else ""
        decides = f": {means[by]}" if by in means else ""
        yield Mend(f"{what} {by}{end}{decides}", done_of(f"{what} {words}"), changes)


def replaced(kind: Kind, by: str) -> Mend:
    """An item that is not known, replaced by a chosen one in all rows, or with "" left out."""
    changes = merged((row, {found.column: by if found.column == "present" else
                            fields.replaced(row.cells[found.column], found.item, by)})
                     for row, found in kind.found)
    item = texts.cut(kind.item)
    return Mend("", f"Replaced {item} by {by}" if by else f"Left {item} out", changes)


def of_one_meaning(kind: Kind, words: str) -> Iterator[Mend]:
    """All rows whose cells have one likely meaning each."""
    changes = merged((row, {found.column: found.likely[0].text}) for row, found in kind.found
                     if len(found.likely) == 1)
    if changes:
        yield Mend(words, done_of(words), changes)


def of_days(kind: Kind, table: Table) -> tuple[list[Mend], str]:
    """The days of two readings in the one that the other days of their files have; and what these
    are.
    """
    files = {row.file for row, _ in kind.found}
    others: collections.Counter[bool] = collections.Counter()
    for it in table.rows.values():
        read = days.readings(fields.trimmed(it.staged.cells["day"]))
        if it.staged.file in files and len(read) == 1 and "/" in it.staged.cells["day"]:
            others[days.uk_reading(it.staged.cells["day"]) in read] += 1
    hint = example(kind, str)
    if others:
        said = [f"{texts.count(others[is_uk], 'other day')} can only be {words}"
                for is_uk, words in ((True, "day/month/year"), (False, "month/day/year"))
                if others[is_uk]]
        hint = f"{hint}; {texts.listed(said)}"
    ways = [at for at, is_uk in enumerate((True, False)) if others[is_uk] or not (at or others)]
    words = ("Read all as day/month/year", "Read all as month/day/year")
    return [Mend(words[at], done_of(words[at]), merged(
        (row, {found.column: found.likely[at].text}) for row, found in kind.found))
        for at in ways], hint


def of_twice(kind: Kind, pairs: Mapping[int, Pair], taken: Callable[[], set[int]]
             ) -> Iterator[Mend]:
    """Two rows with one number. Of one child the earlier is set aside, where the days say which it
    is; of two children the second gets another number.
    """
    if kind.key == NUMBERS_TWICE[False][0]:
        yield from numbered([row for row, _ in kind.found], taken, "the second")
        return
    earlier = []
    for row, _ in kind.found:
        other = pairs[row.id].other
        if other is None or not (both := days_of(row, other)) or both[0] == both[1]:
            return
        earlier.append(row if both[0] < both[1] else other)
    if len({it.id for it in earlier}) == len(earlier):
        yield dataclasses.replace(aside(earlier), words="Keep the later form of each",
                                  done="Kept the later form of each", is_asked=False)


def days_of(*rows: Staged) -> list[str]:
    """The days of rows, if all of them can be read."""
    found = [fields.day(it.cells["day"], Context({}, it.is_uk)).text for it in rows]
    return found if all(found) else []


def numbered(rows: Sequence[Staged], taken: Callable[[], set[int]], whom: str) -> Iterator[Mend]:
    """Rows that get the next numbers that are free."""
    given = list(itertools.islice(form.free(taken()), len(rows)))
    if given and len(given) == len(rows):
        span = f"{given[0]}" if len(given) == 1 else f"{given[0]} to {given[-1]}"
        who = whom if len(given) > 1 or whom != "each" else "it"
        words = f"Give {who} the next free number, {span}"
        yield Mend(words, done_of(words), tuple(Change(row, {"child": str(number)})
                                                for row, number in zip(rows, given)))


def aside(rows: Sequence[Staged], what: str = "") -> Mend:
    """Rows that are set aside."""
    many = texts.count(len(rows), "row")
    return Mend(f"Set {many}{what} aside", f"{many} set aside",
                tuple(Change(it, {}, WITHDRAWN) for it in rows), is_asked=True)


def whole_kind(kind: Kind, table: Table) -> Mend:
    """All rows of a kind, set aside."""
    return aside([table.rows[it].staged for it in kind.rows])


def of_areas(table: Table) -> Mend | None:
    """The rows with other catchment schools than the areas say, which get those; of one row its own
    button does that.
    """
    rows = [it.staged for at, it in table.rows.items()
            if any(one.fault == OTHERS for one in table.findings[at])]
    return Mend(f"Take the schools of the areas in all {len(rows):,} rows",
                "Catchment schools of the areas taken",
                tuple(Change(it, {"catchments": ""}) for it in rows)) if len(rows) > 1 else None


def all_mends(table: Table, found: Sequence[Kind]) -> Iterator[Mend]:
    """Each that a button of the screens may do."""
    if mend := of_areas(table):
        yield mend
    for kind in found:
        yield from kind.mends
        yield whole_kind(kind, table)
    yield aside(table.wrong())
    yield from of_files(table).values()


@functools.lru_cache(1)
def of_files(table: Table) -> dict[int, Mend]:
    """All rows of each file, set aside. (A table is asked for them by each of its pages.)"""
    return {it: aside(rows, f" of {rows[0].file_name}") for it, rows in table.files.items()}
