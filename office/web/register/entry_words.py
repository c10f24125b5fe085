"""What an entry of the history says in an office's words: its title, what was changed, and the kind
of work that it is of.
"""
import dataclasses
import re
from collections.abc import Iterable, Mapping
from typing import Any

from office.core import days, rules, texts
from office.core.command_kinds import (
    APPLICATIONS, COPIES, KINDS, LETTERS, NOTES, OF_ANSWERS, OF_NOTICES, OTHERS, PEOPLE, REPORTS,
    ROUNDS, SCHOOLS,
)
from office.core.model import Register
from office.core.wording import label
from office.web.lists import on_screen

from .history import SENDS, Entry

Command = Mapping[str, Any]
IMPORT, LINE = "import", "line"
# what people did; a draw and a restore have steps of one name
STEPS = {
    SENDS: (OTHERS, "Sent a command to the register"),
    IMPORT: (APPLICATIONS, "Added applications to the register"),
    LINE: (OTHERS, "Sent a line that is no command"),
    "added applications": (APPLICATIONS, "Added the file {file} with {rows} rows"),
    "added an application": (APPLICATIONS, "Typed an application[ of {child}]"),
    "corrected an application": (APPLICATIONS, "Corrected {row}[, {child}]"),
    "corrected applications": (APPLICATIONS, "Corrected rows {rows}: {done}"),
    "undid a correction of applications": (APPLICATIONS, "Undid a correction of rows {rows}"),
    "replaced the rows of a file": (APPLICATIONS, "Replaced {file} by {by}"),
    "confirmed an application": (APPLICATIONS, "Confirmed {row}[, {child}]"),
    "withdrew applications": (APPLICATIONS, "Set aside rows {rows}"),
    "brought back applications": (APPLICATIONS, "Put back rows {rows}"),
    "merged applications": (APPLICATIONS, "Merged {withdrawn} into {into}[, {child}]"),
    "read days as day/month/year": (APPLICATIONS, "Read the days of {file} as day/month/year"),
    "chose columns of addresses": (APPLICATIONS, "Chose the columns of addresses"),
    "looked up points": (APPLICATIONS, "Looked up homes: rows {rows}"),
    "looked up a point": (APPLICATIONS, "Looked up the home of {row}[, {child}]"),
    "typed a point": (APPLICATIONS, "Typed the home of {row}[, {child}]"),
    "took the gazetteer's point": (APPLICATIONS, "Took the gazetteer’s point for {row}[, {child}]"),
    "kept a point": (APPLICATIONS, "Kept the point of {row}[, {child}]"),
    "received a gazetteer": (APPLICATIONS, "Sent the gazetteer {file}"),
    "reads in a gazetteer": (APPLICATIONS, "Read in the gazetteer {source}"),
    "removed a gazetteer that was not read in": (APPLICATIONS, "Removed the gazetteer {file}"),
    "added to the draft of schools": (SCHOOLS, "Added to the draft of schools: {schools}"),
    "changed the draft of schools": (SCHOOLS, "Changed the draft of schools"),
    "removed from the draft of schools": (SCHOOLS, "Removed from the draft of schools"),
    "added catchment areas": (SCHOOLS, "Sent the catchment areas {file}"),
    "chose the property of catchment areas": (SCHOOLS, "Chose what names the schools in {file}"),
    "removed catchment areas that were not used": (SCHOOLS, "Removed the catchment areas {file}"),
    "uses catchment areas": (SCHOOLS, "Put the catchment areas {file} in use"),
    "named flags": (SCHOOLS, "Changed the verified reasons"),
    "records a pile": (OF_ANSWERS, "Began to record a batch of {answers} answers"),
    "took over a pile": (OF_ANSWERS, "Took over the batch of {person}"),
    "records reminders": (OF_NOTICES, "Began to record reminders of {day} for {children}"),
    "records withdrawals": (OF_NOTICES, "Began to record withdrawals of {day} for {children}"),
    "began a draw": (ROUNDS, "Began {for}"),
    "closed the register": (ROUNDS, "Paused recording for {for}"),
    "copied the register": (ROUNDS, "Copied the register for {for}"),
    "gave the pairs to the supervisor": (ROUNDS, "Asked the supervisor for the lots of {for}"),
    "saved lots": (ROUNDS, "Saved lots of {for}"),
    "sealed the lots": (ROUNDS, "Sealed the lots of {for}"),
    "rehearsed": (ROUNDS, "Rehearsed {for}"),
    "confirmed": (ROUNDS, "Confirmed {for}"),
    "held": (ROUNDS, "Ran {for}"),
    "audited": (ROUNDS, "Audited {for}"),
    "opened the register": (ROUNDS, "Resumed recording after {for}"),
    "could not go on": (ROUNDS, "Could not go on with {for}"),
    "gave up": (ROUNDS, "Cancelled {for}"),
    "gave up alone": (ROUNDS, "Cancelled {for} alone"),
    "asked to give up": (ROUNDS, "Asked to cancel {for}"),
    "took back the giving up": (ROUNDS, "No longer asks to cancel {for}"),
    "asked to restore the copy from before it": (
        ROUNDS, "Asked to restore the copy from before {for}"),
    "took back the restore": (ROUNDS, "No longer asks to restore the copy from before {for}"),
    "restored the copy from before it": (ROUNDS, "Restored the copy from before {for}"),
    "restored the copy from before it alone": (
        ROUNDS, "Restored the copy from before {for} alone"),
    "made letters": (LETTERS, "Made letters: {for}, for {children}"),
    "ended letters": (LETTERS, "Removed letters: {for}"),
    "took letters": (LETTERS, "Downloaded letters: {for}"),
    "recorded letters as sent": (LETTERS, "Recorded letters as sent on {day}: {for}, {children}"),
    "took back a record of letters": (LETTERS, "Undid the record that letters were sent: {for}"),
    "saved a template": (LETTERS, "Saved the template {template}, version {version}"),
    "saved the office on its letters": (LETTERS, "Saved the letterhead, version {version}"),
    "stored addresses for letters": (LETTERS, "Stored addresses for letters of {children}"),
    "added a note": (NOTES, "Added a note[ on {child}]"),
    "struck out a note": (NOTES, "Struck out a note[ on {child}]"),
    "added a file": (NOTES, "Added a file[ about {child}]"),
    "removed a file": (NOTES, "Removed a file[ about {child}]"),
    "read a file": (NOTES, "Downloaded a file[ about {child}]"),
    "printed what is held of a child": (NOTES, "Downloaded all that is held[ of {child}]"),
    "took a file": (REPORTS, "Downloaded {of}"),
    "saved a view": (REPORTS, "Saved the view {view} of a list"),
    "removed a view": (REPORTS, "Removed the view {view} of a list"),
    "made figures": (REPORTS, "Made figures: {of}"),
    "took figures for publication": (REPORTS, "Downloaded figures for publication: {of}"),
    "signed in": (PEOPLE, "Signed in"),
    "signed out": (PEOPLE, "Signed out"),
    "refused": (PEOPLE, "Was refused a page"),
    "changed the own password": (PEOPLE, "Changed their own password"),
    "added": (PEOPLE, "Added the account {person} as {role}"),
    "removed": (PEOPLE, "Removed the account {person} ({role})"),
    "gave a role": (PEOPLE, "Gave {person} the role {role}"),
    "drew a new password": (PEOPLE, "Gave {person} a new password"),
    "drew a new token": (PEOPLE, "Gave {person} a new token"),
    "locked": (PEOPLE, "Locked the account {person}"),
    "unlocked": (PEOPLE, "Unlocked the account {person}"),
    "changed the sign-in by the authority's accounts": (
        PEOPLE, "Changed the sign-in by the authority’s accounts"),
    "made a copy": (COPIES, "Made a copy: {purpose}"),
    "tested a copy": (COPIES, "Tested copy {copy}"),
    "restored a copy": (COPIES, "The register is that of copy {copy} from here on"),
    "began a restore": (COPIES, "Began to restore copy {copy}"),
    "asked to restore": (COPIES, "Asked to restore copy {copy}"),
    "confirmed the restore": (COPIES, "Confirmed the restore of copy {copy}"),
    "restores": (COPIES, "Restored copy {copy}"),
    "sends again": (COPIES, "Began to send again what came since copy {copy}"),
    "sent again": (COPIES, "Sent again what came since copy {copy}"),
    "makes the last copy of the season": (COPIES, "Made the last copy of the season"),
    "made the archive": (COPIES, "Made the archive {file}"),
    "took the archive": (COPIES, "Downloaded the archive"),
    "set how long a season is kept": (COPIES, "Set how long a season is kept: {months} months"),
    "set the day of deletion": (COPIES, "Set the day of deletion: {day}"),
    "asked to delete the season": (COPIES, "Asked to delete the season"),
    "took back the deletion of the season": (COPIES, "No longer asks to delete the season"),
    "confirmed the deletion of the season": (COPIES, "Confirmed the deletion of the season"),
    "deleted the season": (COPIES, "Deleted the season"),
}
RESTORES = {
    "copied the register": "Copied the register before the restore of copy {copy}",
    "opened the register": "Resumed recording after the restore of copy {copy}",
    "gave up": "Cancelled the restore of copy {copy}",
    "took back the restore": "No longer asks to restore copy {copy}",
}
# what is of the machine, or is in the words anyway
UNSHOWN = {
    "again", "before_entry", "bytes", "children", "cmd", "copies", "digest", "draw", "form", "id",
    "import", "lots", "number", "points", "position", "restore", "set", "told", "kind", "file",
    "note", "entries", "withheld", "fields", "lines",
}
LABELS = {
    "agreed": "Agreed to", "asked": "Page", "by": "By", "for": "For", "of": "Of", "line": "Line",
    "pairs": "Lots", "point": "Home", "remark": "Note", "why": "Reason", "wrong": "Wrong",
    "done_at": "Done on the machine", "before": "Before", "catchments": "Catchment schools",
}
# the values that count something, and are no number of a child, a copy or a point
COUNTS = ("answers", "chosen", "done", "pairs", "pan", "rows")
# the steps that have the same values before and after them
PAIRS = {"named flags": ("before", "words"), "changed the draft of schools": ("before", "now")}
# the files of a draw by the ends of their addresses
OF_DRAWS = {"sealed.txt": "the sealed lots of a round or offer",
            "audit.txt": "the audit of a round or offer"}
# what is between two values that are kept as one text
CHANGE = '" to "'
# a program may send texts of a megabyte, and a page has many entries: so much of each is shown
MOST_SHOWN = 2_000
NONE = "none"


@dataclasses.dataclass(frozen=True)
class Names:
    """How children, schools and verified reasons are called, as far as they are known."""

    register: Register | None = None
    reasons: Mapping[int, str] = dataclasses.field(default_factory=dict)

    def child(self, number: Any) -> str:
        """A child, with its number."""
        child = self.register.children.get(number) if self.register else None
        return f"{child.name} ({number})" if child else f"child {number}"

    def school(self, code: Any) -> str:
        """A school."""
        school = self.register.schools.get(code) if self.register else None
        return school.name if school else str(code)

    def value(self, field: str, text: str) -> str:
        """A value of a field, as a cell of a file of applications has it."""
        parts = text.split(";")
        if field == "flags":
            parts = [self.reasons.get(int(it), f"reason {it}") if it.isdecimal() else it
                     for it in parts]
        return ", ".join(parts) or NONE


class Filled(dict[str, str]):
    """The values of a title. What an entry does not have is empty."""

    def __missing__(self, name: str) -> str:
        return ""


def key_of(it: Entry) -> str:
    """By what the words of an entry are found: its command, or what was done."""
    if it.what != SENDS:
        return it.what
    if "command" in it.about:
        return str(it.about["command"].get("cmd", ""))
    return IMPORT if "import" in it.about else LINE if "line" in it.about else SENDS


def form_of(it: Entry) -> tuple[str, str]:
    """The kind of an entry, and its title with the places for names."""
    key = key_of(it)
    if it.what == SENDS and key in KINDS:
        return KINDS[key].work, KINDS[key].told
    if "restore" in it.about and key in RESTORES:
        return COPIES, RESTORES[key]
    if it.what == SENDS:
        return STEPS[key if key in (IMPORT, LINE) else SENDS]
    # (a step that is not known here by its own words, without the braces of a place)
    own = re.sub(r"[{}\[\]]", "", f"{key[:1].upper()}{key[1:]}")
    return STEPS.get(key, (OTHERS, own))


def title_of(it: Entry, names: Names, of_child: bool = False) -> str:
    """The title of an entry; on the page of a child without the child."""
    about = it.about.get("command", it.about)
    return filled(form_of(it)[1], about, names, of_child)


def command_title(command: Command, names: Names) -> str:
    """The title of a command, without the child."""
    found = KINDS.get(command["cmd"])
    return filled(found.told if found else STEPS[SENDS][1], command, names, True)


def child_of(about: Mapping[str, Any]) -> int | None:
    """The number of the child that a command or a step is about, if it is about one."""
    number = about.get("child", about.get("number") if "row" in about or "into" in about else None)
    return int(number) if str(number).isdecimal() else None


def filled(form: str, about: Mapping[str, Any], names: Names, of_child: bool) -> str:
    """A title with the values that it names. What is in brackets is of the child, if there is one.
    """
    number = child_of(about)
    is_left_out = of_child or number is None
    form = re.sub(r"\[([^]]*)\]", "" if is_left_out else r"\1", form)
    found = Filled({name: value_of(name, value) for name, value in about.items()
                    if f"{{{name}}}" in form})
    found["child"] = names.child(number)
    if "school" in found:
        found["school"] = names.school(about["school"])
    if isinstance(many := about.get("children"), list):
        found["children"] = names.child(many[0]) if len(many) == 1 else texts.count(
            len(many), "child", "children")
    if str(about.get("of", "")).startswith("/"):
        found["of"] = file_of(about["of"], names)
    if "for" not in found and "draw" in about:
        found["for"] = f"round or offer {about['draw']}"
    return in_short(texts.visible(form.format_map(found)).strip())


def in_short(text: str) -> str:
    """A text as a screen shows it. The file of the history has all of it."""
    return text if len(text) <= MOST_SHOWN else f"{text[:MOST_SHOWN]} .."


def own_words(it: Entry) -> str:
    """What an entry says without the names of children and schools."""
    form = re.sub(r"[\[\]]|{[^}]*}", "", form_of(it)[1])
    if it.what == SENDS:
        return form
    return f"{form} {' '.join(text_of(value) for value in it.about.values())}"


def file_of(path: str, names: Names) -> str:
    """A file that somebody has downloaded, by its address."""
    first, *rest = path.strip("/").split("/")
    if rest and rest[-1] in OF_DRAWS:
        return OF_DRAWS[rest[-1]]
    if first == "lists" and rest:
        return f"the list ‘{on_screen.title(rest[0])}’"
    if first == "schools" and rest:
        return f"the lists of {names.school(rest[0])}"
    if first == "school" and rest:
        return f"the waiting list of {names.school(rest[0])}"
    return {"register": "the whole register", "activity": "the activity", "lots": "a sheet of lots",
            "trials": "a trial", "draw": "the record of a round or offer",
            "round": "the record of a round or offer",
            "pairs": "the children who need a lot"}.get(first, path)


def text_of(value: Any) -> str:
    """A value of an entry. What is empty in it is left out."""
    if isinstance(value, bool):
        return "yes" if value else "no"
    if isinstance(value, Mapping):
        return "; ".join(f"{label(str(name))} {text}" for name, it in value.items()
                         if (text := text_of(it)))
    if isinstance(value, list):
        return ", ".join(filter(None, map(text_of, value)))
    text = "" if value is None else str(value)
    if text[:1] == text[-1:] == '"' and CHANGE in text[1:-1]:
        one, _, other = text[1:-1].rpartition(CHANGE)
        return f"{one or NONE} → {other or NONE}"
    day = days.read(text)
    return days.in_words(day) if day else text


def value_of(field: str, value: Any) -> str:
    """The same of a field, of which some count."""
    return f"{value:,}" if field in COUNTS and type(value) is int else text_of(value)


def more_of(it: Entry, names: Names, before: Command | None) -> str:
    """What an entry says beside its title: of a correction the fields that it changes."""
    command = it.about.get("command", it.about)
    form, lines = form_of(it)[1], []
    if command.get("cmd") == "amend" and before:
        lines = changes(before, command, names) or ["nothing was changed"]
    elif it.what in PAIRS:
        one, other = (command.get(name) or {} for name in PAIRS[it.what])
        lines = [f"{f'Reason {name}' if name.isdecimal() else label(name)}:"
                 f" {one.get(name) or NONE} → {other.get(name) or NONE}"
                 for name in {**one, **other} if one.get(name, "") != other.get(name, "")]
    else:
        lines = [f"{LABELS.get(name) or label(name)}: {text}" for name, value in command.items()
                 if name not in UNSHOWN and f"{{{name}}}" not in form
                 and (text := shown(name, value, names))]
    if "import" in it.about:
        rows = sum(map(bool, it.about["import"].splitlines())) - 1
        lines.append(texts.count(rows, "application"))
    if command is not it.about:
        lines += [f"{LABELS[name]}: {it.about[name]}" for name in ("point", "catchments")
                  if it.about.get(name)]
    return in_short(texts.visible("; ".join(lines)))


def shown(field: str, value: Any, names: Names) -> str:
    """A value of an entry as the screen shows it, or "" if it is empty."""
    if field == "flags" and isinstance(value, list):
        return names.value(field, texts.cell_of(value)) if value else ""
    return "" if value is False else value_of(field, value)


def changes(
    before: Command, now: Command, names: Names = Names(),
    fields: Iterable[str] = tuple(rules.COMMANDS["amend"]),
) -> list[str]:
    """The fields in which the details of a child differ, with the value before and after."""
    found = []
    for it in fields:
        one, other = (texts.cell_of(data.get(it, "")) for data in (before, now))
        if one != other:
            found.append(f"{label(it)}: {names.value(it, one)} → {names.value(it, other)}")
    return found
