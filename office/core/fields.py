"""The fields of an application as an office writes them: what import takes for each, what was
changed for that, or in at most eight words what is wrong, with what is likely to be meant."""
import dataclasses
import datetime
import decimal
import re
from collections.abc import Callable, Collection, Iterator, Mapping
from typing import Protocol

from . import days, rules, texts
from .rules import LIMITS, Limit

COLUMNS = tuple(rules.COLUMNS)
# those without which a file of applications is not read, and what each of the others is read as
# where it is not there
REQUIRED = tuple(name for name, it in rules.COLUMNS.items() if not it.is_optional)
OMITTED = {name: texts.cell_of(it.omitted) for name, it in rules.COLUMNS.items()
           if it.is_optional}
# a number as a spreadsheet writes it is far shorter
MOST_DIGITS = 40
INVISIBLE = "\u200b\u2060\ufeff"
TRUTH = {"yes": "yes", "y": "yes", "true": "yes", "no": "no", "n": "no", "false": "no"}
# what may stand between the items of a list: none of them can be part of a code or a number
BETWEEN = re.compile(r"[;,/|\r\n]")


# how a spreadsheet counts days: from this one on
FIRST_SERIAL = datetime.date(1899, 12, 30)
# so many schools are proposed in place of one that is not known
MOST_LIKELY = 3
# and so many flags
MOST_FLAGS = 5


@dataclasses.dataclass(frozen=True)
class Likely:
    """What may be meant by a field that cannot be read: what its button says, the whole field with
    it, and what stands in it for the item that is wrong, where that is likely in all rows.
    """

    words: str
    text: str
    by: str = ""


@dataclasses.dataclass(frozen=True)
class Field:
    """A field as import takes it; or, where it cannot be read, what is wrong, the kind of fault and
    the item of a list that has it, and what is likely to be meant.
    """

    text: str
    expected: str = ""
    fault: str = ""
    item: str = ""
    likely: tuple[Likely, ...] = ()


class School(Protocol):
    """What is looked at of a school."""

    @property
    def code(self) -> str: ...

    @property
    def name(self) -> str: ...


class Context(Protocol):
    """What readers know: the schools of a register, whether days are day/month/year, the words of
    flags, and whether the register is large.
    """

    @property
    def schools(self) -> Mapping[str, School]: ...

    @property
    def is_uk(self) -> bool: ...

    @property
    def words(self) -> Mapping[int, str]: ...

    @property
    def is_large(self) -> bool: ...


def columns_up_to(has: Collection[str]) -> list[str]:
    """The columns that import wants of a file with these: it takes none without those before it."""
    last = max((at for at, it in enumerate(COLUMNS) if it in has), default=-1)
    return list(COLUMNS[: last + 1])


def trimmed(text: str) -> str:
    """A text without the blanks and invisible characters round it."""
    return text.strip().strip(INVISIBLE).strip()


def number(text: str, limit: Limit, what: str) -> Field:
    """A whole number: leading zeros and a fraction of zeros are left out."""
    given = trimmed(text)
    if not given:
        return Field("", f"{what} is missing", "missing")
    form = f"write a whole number from {limit.least:,} to {limit.most:,}"
    # (the length first: the time of the pattern grows with its square)
    if len(given) > MOST_DIGITS:
        return Field("", form, "number")
    found = re.fullmatch(r"0*([0-9]+?)(\.0*)?", given, re.ASCII)
    if found:
        return Field(found[1]) if limit.has(int(found[1])) else Field("", form, "number")
    if re.fullmatch(r"[0-9.]+[eE][+-]?[0-9]+", given, re.ASCII):
        return Field("", "a spreadsheet has shortened it", "shortened")
    if re.fullmatch(r"[0-9]{1,3}(,[0-9]{3})+", given, re.ASCII):
        plain = given.replace(",", "")
        likely = (Likely(plain, plain),) if limit.has(int(plain)) else ()
        return Field("", f"write {plain}, without commas", "commas", likely=likely)
    if re.fullmatch(r"[0-9]+\.[0-9]+", given, re.ASCII):
        return Field("", "write it without a fraction", "fraction")
    return Field("", form, "number")


def child(text: str, _: object) -> Field:
    """The number of a child."""
    return number(text, LIMITS["child"], "the number")


def metres(text: str, limit: Limit) -> Field:
    """A coordinate in metres: that of a fraction is likely to be the nearest one, halves upwards.
    """
    found = number(text, limit, "the home")
    if found.fault != "fraction":
        return found
    whole = str(decimal.Decimal(trimmed(text)).to_integral_value(decimal.ROUND_HALF_UP))
    likely = (Likely(whole, whole),) if limit.has(int(whole)) else ()
    return dataclasses.replace(found, likely=likely)


def coordinate(text: str, _: object) -> Field:
    """A coordinate of the home, in metres to the east."""
    return metres(text, LIMITS["east"])


def north(text: str, _: object) -> Field:
    """The other coordinate, in metres to the north."""
    return metres(text, LIMITS["north"])


def name(text: str, _: object) -> Field:
    """A name, which the register keeps as it is."""
    found, most = trimmed(text), LIMITS["name"].most
    if not found:
        return Field("", "the name is missing", "missing")
    if texts.CONTROL.search(found):
        line = texts.CONTROL.sub(" ", found)
        return Field("", "the name has more than one line", "lines",
                     likely=(Likely("Write it on one line", line),))
    if "\ufffd" in found:
        return Field("", "letters of the name were lost", "lost")
    if len(found.encode()) > most:
        return Field("", f"the name is longer than {most} letters", "long")
    return Field(found)


def truth(text: str, _: object) -> Field:
    """Whether a child is or was looked after."""
    found = TRUTH.get(trimmed(text).lower())
    likely = (Likely("yes", "yes", "yes"), Likely("no", "no", "no"))
    return Field(found) if found else Field("", "write yes or no", "truth", trimmed(text), likely)


def items(text: str) -> list[str]:
    """The items of a list without the blanks round them. A separator at its end adds none."""
    parts = [trimmed(it) for it in BETWEEN.split(trimmed(text))]
    while parts and not parts[-1]:
        parts.pop()
    return parts


def replaced(text: str, item: str, by: str) -> str:
    """A list with another item in the place of one, or with "" without it."""
    return ";".join(new for it in items(text) if (new := by if it == item else it) or not it)


def flags(text: str, context: Context) -> Field:
    """The flags of a child, each once. One that is written in words is likely to be the flag that
    has these.
    """
    limit, good = LIMITS["flag"], []
    for it in items(text):
        found = number(it, limit, "the reason")
        if not found.expected:
            good.append(found.text)
            continue
        if re.search(r"[0-9]{4}-[0-9]{2}-[0-9]{2}", it):
            return Field("", "a spreadsheet has made a day of it", "day", it)
        return Field("", wrong_flag(it, context.words), "flag", it,
                     (*flags_like(text, it, context.words), without(text, it)))
    return Field(";".join(good))


def wrong_flag(item: str, words: Mapping[int, str]) -> str:
    """What is wrong with a flag, by those that the season has."""
    if not words:
        return "reasons are numbers from {0.least} to {0.most}".format(LIMITS["flag"])
    there = texts.spans(sorted(words))
    if item.isdecimal():
        return f"reason {texts.cut(item)} is none of {there}"
    return f"write the reason’s number: {there}"


def without(text: str, item: str) -> Likely:
    """A list without an item of it."""
    return Likely("Leave it out", replaced(text, item, ""))


def flags_like(text: str, item: str, words: Mapping[int, str]) -> Iterator[Likely]:
    """The flag whose words are those of an item; where there is none, each that has words."""
    named = [it for it, said in words.items() if texts.folded(said) == texts.folded(item)]
    for it in named or list(words)[:MOST_FLAGS]:
        yield Likely(f"{it} {words[it]}", replaced(text, item, str(it)), str(it) if named else "")


def code_of(text: str, known: Mapping[str, School]) -> str | None:
    """A school's code: in capitals, or found by the school's whole name where one register's
    school alone has it."""
    found = text.upper()
    if rules.is_code(found):
        return found
    named = [it.code for it in known.values() if it.name.casefold() == text.casefold()]
    return named[0] if len(named) == 1 else None


def codes(text: str, known: Mapping[str, School], limit: Limit) -> Field:
    """A list of schools, none of them twice."""
    given, good = items(text), list[str]()
    for item in given:
        one = code_of(item, known)
        if not item:
            closed = ";".join(filter(None, given))
            return Field("", "a school is missing between two others", "gap",
                         likely=(Likely("Close the gap", closed),))
        if one is None or (known and one not in known):
            return Field("", f"there is no school {texts.cut(item)}", "school", item,
                         tuple(schools_like(text, item, known)))
        if one in good:
            once = ";".join(dict.fromkeys(code_of(it, known) or it for it in given))
            return Field("", f"{one} is listed twice", "twice", one,
                         (Likely("Keep the first", once),))
        good.append(one)
    if len(good) < limit.least:
        return Field("", "no school is listed", "missing")
    if len(good) > limit.most:
        return Field("", f"at most {limit.most} schools: it has {len(good)}", "many")
    return Field(";".join(good))


def schools_like(text: str, item: str, known: Mapping[str, School]) -> Iterator[Likely]:
    """The schools that may be meant by an item of a list: whose code or name is like it. (None is
    like a text of twice the length, whose comparison with each would take seconds.)
    """
    is_short = len(item) <= 2 * LIMITS["name"].most
    near = [it for it in known.values() if is_short and is_like(item, it)]
    for it in near[:MOST_LIKELY]:
        yield Likely(f"{it.code} {it.name}", replaced(text, item, it.code), it.code)


def is_like(item: str, school: School) -> bool:
    """Whether a school's code differs from a text by one letter alone, or its name nearly does
    not.
    """
    code, name_of, given = item.upper(), texts.folded(school.name), texts.folded(item)
    if len(code) == len(school.code) and sum(a != b for a, b in zip(code, school.code)) == 1:
        return True
    return texts.is_one_slip(code, school.code) or name_of == given or (
        texts.is_one_slip(name_of, given))


def siblings(text: str, context: Context) -> Field:
    """The siblings' schools. One that is not known may be left out."""
    found = codes(text, context.schools, LIMITS["siblings"])
    if found.fault != "school":
        return found
    return dataclasses.replace(found, likely=(*found.likely, without(text, found.item)))


def catchments(text: str, context: Context) -> Field:
    """The schools in whose catchment areas the home is. One that is not known may be left out."""
    if not rules.has("catchments", context.is_large) and trimmed(text):
        return Field("", "this register has no catchment areas", "no areas",
                     likely=(Likely("Leave it out", ""),))
    found = codes(text, context.schools, rules.LARGE["catchments"])
    if found.fault != "school":
        return found
    return dataclasses.replace(found, likely=(*found.likely, without(text, found.item)))


def preferences(text: str, context: Context) -> Field:
    """The schools that a family wants, best first."""
    return codes(text, context.schools, LIMITS["preferences"])


def present(text: str, context: Context) -> Field:
    """The present school, which need not be one of the register."""
    found = trimmed(text).upper()
    if not found or rules.is_code(found):
        return Field(found)
    item = trimmed(text)
    return Field("", f"{texts.cut(item)} is no school’s code", "school", item,
                 tuple(schools_like(item, item, context.schools)))


def day(text: str, context: Context) -> Field:
    """The day of the application."""
    found = trimmed(text)
    if days.read(found):
        return Field(found)
    if context.is_uk and (uk := days.uk_reading(found)):
        return Field(uk.isoformat())
    readings = sorted(days.readings(found), key=str)
    if len(readings) == 1:
        return Field(readings[0].isoformat())
    if readings:
        # (that of day/month/year first)
        both = sorted(readings, key=lambda it: it != days.uk_reading(found))
        asked = f"{both[0].day} {both[0]:%B} or {days.in_words(both[1])}?"
        return Field("", asked, "two readings", likely=tuple(map(likely_day, both)))
    return wrong_day(found)


def likely_day(it: datetime.date) -> Likely:
    """A day that may be meant."""
    return Likely(days.in_words(it), it.isoformat())


def wrong_day(text: str) -> Field:
    """What is wrong with a day of no reading."""
    if not text:
        return Field("", "the day is missing", "missing")
    if re.fullmatch(r"[0-9]{5}", text, re.ASCII):
        meant = FIRST_SERIAL + datetime.timedelta(int(text))
        likely = (likely_day(meant),) if days.FIRST <= meant <= days.LAST else ()
        return Field("", "the day is a spreadsheet’s number", "serial", likely=likely)
    if re.fullmatch(r"[0-9]{1,2}[-/. ]([0-9]{1,2}|[A-Za-z]{3})[-/. ][0-9]{2}", text, re.ASCII):
        whole = f"{text[:-2]}20{text[-2:]}"
        uk = days.uk_reading(whole)
        meant_by = [uk] if uk else sorted(days.readings(whole))
        return Field("", "write the year with four digits", "short year",
                     likely=tuple(map(likely_day, meant_by)))
    if re.fullmatch(r"[0-9]{1,4}[-/. ][0-9]{1,2}[-/. ][0-9]{1,4}", text, re.ASCII):
        return Field("", "there is no such day", "no day")
    return Field("", "write the day as 20 October 2024", "no day")


def any_text(text: str, _: object) -> Field:
    """A text of which nothing is known."""
    return Field(trimmed(text))


Reader = Callable[[str, Context], Field]
READERS: dict[str, Reader] = {
    "child": child, "name": name, "east": coordinate, "north": north, "looked_after": truth,
    "flags": flags, "siblings": siblings, "day": day, "preferences": preferences,
    "present": present, "catchments": catchments,
}
# of a column that has no reader of its own
READERS_BY_KIND: dict[str, Reader] = {
    "code_or_none": present, "day": day, "list of flag": flags, "text": any_text, "truth": truth,
}


def reader_of(column: rules.Field) -> Reader | None:
    """What reads a column: its own reader, or that of its kind. A number has the limit of its name,
    if there is one.
    """
    if column.kind == "number" and column.name not in READERS:
        limit = LIMITS.get(column.name, LIMITS["number"])
        return lambda text, _: number(text, limit, column.name.replace("_", " "))
    return READERS.get(column.name) or READERS_BY_KIND.get(column.kind)


def read(column: str, text: str, context: Context) -> Field:
    """The field of a column. Of one that nothing reads here, import alone tests the text."""
    return (reader_of(rules.COLUMNS[column]) or any_text)(text, context)
