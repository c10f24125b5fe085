"""Whom letters go to: the children of a draw, of a day, of a list or of a row of reminders; what
the letter of each is about, and who has that letter already.
"""
import collections
import dataclasses
import datetime
import urllib.parse
from collections.abc import Callable, Mapping

from register_files import Refused
from werkzeug.datastructures import MultiDict

from office.core import days, model, texts
from office.core.model import Register
from office.core.wording import day_of, draw_in_words
from office.core.wording import KINDS as KIND_WORDS
from office.web.lists import on_screen
from office.web.lists import choice as list_choice
from office.web.register.history import History
from office.web.register.store import Store
from office.web.rounds.store import DrawStore
from office.web.schools import flags

from .audits import announced

OFFERS, PART, UNANSWERED = "offers", "part", "unanswered"
REMINDED, WITHDRAWN, ROW, CHILDREN = "reminded", "withdrawn", "row", "children"
# of a list of the office, whose value is its name and its options as in an address
LIST = "list"
# what each kind is, and what its value is called on the form
KINDS = {
    OFFERS: ("All who were offered a place in a round or offer", "draw"),
    PART: ("All who took part in a round or offer, also without a place", "draw"),
    UNANSWERED: ("All who have not answered their offer", ""),
    REMINDED: ("All who were reminded on a day", "day"),
    WITHDRAWN: ("All whose offer was withdrawn on a day", "day"),
}
MOST = 25_000
# the orders in which letters can be printed
ORDERS: dict[str, tuple[str, Callable[[Register, int], tuple[str, str, int]]]] = {
    "number": ("by number", lambda register, it: ("", "", it)),
    "name": ("by name", lambda register, it: ("", register.children[it].name.casefold(), it)),
    "school": ("by school, then by name", lambda register, it: (
        register.places[it].school if it in register.places else "~",
        register.children[it].name.casefold(), it)),
}


@dataclasses.dataclass(frozen=True)
class Whom:
    """Whom letters go to: the kind, and a draw, a day, a row, a list or numbers of children."""

    kind: str
    value: str = ""


@dataclasses.dataclass(frozen=True)
class About:
    """What a letter is about: in short, by which a second one is known, and in words."""

    key: str
    words: str


@dataclasses.dataclass(frozen=True)
class Chosen:
    """A child of a whom-list: what its letter is about, and who has sent or made it already."""

    child: int
    name: str
    about: About
    sent: str
    made: str


@dataclasses.dataclass(frozen=True)
class Notices:
    """A row of reminders or withdrawals that was recorded: its kind and day, the children for whom
    it was done, and the copy from before it.
    """

    kind: str
    day: datetime.date
    children: tuple[int, ...]
    copy: int | None

    @property
    def words(self) -> str:
        """What was recorded, as a heading has it."""
        what = "Reminders" if self.kind == "remind" else "Withdrawals"
        return f"{what} of {days.in_words(self.day)}"


def read(given: Mapping[str, str]) -> Whom:
    """Whom a form or an address names."""
    kind = given.get("whom", "")
    if kind not in (*KINDS, ROW, CHILDREN, LIST):
        raise Refused("choose whom the letters go to")
    value = given.get("value", "").strip()
    name = KINDS[kind][1] if kind in KINDS else ""
    if name:
        value = value or given.get(name, "").strip()
    if name == "day":
        day = day_of(value)
        if day is None:
            raise Refused("type the day as 17 March 2025 or 17/3/2025")
        value = day.isoformat()
    return Whom(kind, value)


def numbers_in(text: str) -> list[int]:
    """The numbers of children in a text, each once."""
    found = [it.strip() for it in text.split(",")]
    if len(found) > MOST or not all(it.isascii() and it.isdecimal() and len(it) < 9
                                    for it in found):
        raise Refused("choose the children whom the letters go to")
    return list(dict.fromkeys(map(int, found)))


class Lists:
    """The whom-lists of one application."""

    def __init__(self, store: Store, record: History) -> None:
        self.store, self.history = store, record

    def row(self, number: str) -> Notices:
        """A row of reminders or withdrawals, with the children for whom it was done."""
        row = self.store.row("SELECT * FROM notice_row WHERE id=?", number)
        if row is None:
            raise Refused("there is no such set of reminders or withdrawals")
        found = self.store.rows("SELECT child FROM notice WHERE row_id=? AND state='done'"
                                " ORDER BY place", row["id"])
        return Notices(row["kind"], datetime.date.fromisoformat(row["day"]),
                       tuple(it["child"] for it in found), row["copy"])

    def children(self, register: Register, whom: Whom) -> list[int]:
        """The children that the register has."""
        if whom.kind in (OFFERS, PART):
            return of_draw(register, whom)
        if whom.kind == CHILDREN:
            found = numbers_in(whom.value)
        elif whom.kind == LIST:
            found = of_list(register, whom, flags.words_of(self.store))
        elif whom.kind == ROW:
            found = list(self.row(whom.value).children)
        elif whom.kind == WITHDRAWN:
            found = self.withdrawn(register, datetime.date.fromisoformat(whom.value))
        else:
            day = datetime.date.fromisoformat(whom.value) if whom.kind == REMINDED else None
            found = [child for child, it in register.places.items() if it.kind == model.OFFERED
                     and (day is None or it.reminded == day)]
        if missing := [it for it in found if it not in register.children]:
            raise Refused(f"the register has no child {missing[0]}")
        return found

    def withdrawn(self, register: Register, day: datetime.date) -> list[int]:
        """The children whose offer was withdrawn on a day, as the history has it, where the
        register still says so.
        """
        found: list[int] = []
        for it in self.history.done():
            command = it.about.get("command", {})
            is_this = command.get("cmd") == "lapse" and command.get("day") == day.isoformat()
            if is_this and (command["child"], command["school"]) in register.left:
                found.append(command["child"])
        return sorted(set(found))

    def withdrawal(self, whom: Whom) -> tuple[datetime.date | None, int | None]:
        """The day of the withdrawals of which letters tell, and the copy from before them, by which
        they name the place; nothing of other letters.
        """
        if whom.kind == ROW and (row := self.row(whom.value)).kind == "lapse":
            return row.day, row.copy
        if whom.kind != WITHDRAWN:
            return None, None
        found = self.store.row("SELECT copy FROM notice_row WHERE kind='lapse' AND day=?"
                               " AND copy IS NOT NULL ORDER BY id LIMIT 1", whom.value)
        return datetime.date.fromisoformat(whom.value), found["copy"] if found else None

    def draw(self, register: Register, whom: Whom, held: DrawStore) -> int | None:
        """The copy from before the draw of which letters tell, by which they name a place that a
        child has given up for one that it prefers.
        """
        if whom.kind not in (OFFERS, PART):
            return None
        return held.copy_before(register.draws[int(whom.value) - 1])

    def words(self, register: Register, whom: Whom) -> str:
        """Whom it names, as a heading has it."""
        if whom.kind in (OFFERS, PART):
            draw = register.draws[int(whom.value) - 1]
            what = "Offers" if whom.kind == OFFERS else "All who took part"
            return f"{what}: {draw_in_words(draw)} of {days.in_words(draw.day)}"
        if whom.kind == ROW:
            return self.row(whom.value).words
        if whom.kind in (REMINDED, WITHDRAWN):
            day = days.in_words(datetime.date.fromisoformat(whom.value))
            return f"{whom.kind.capitalize()} on {day}"
        if whom.kind == LIST:
            return on_screen.title(whom.value.partition("?")[0])
        if whom.kind == UNANSWERED:
            return "Offers without an answer"
        return texts.count(len(numbers_in(whom.value)), "chosen child", "chosen children")

    def chosen(self, register: Register, whom: Whom, order: str) -> list[Chosen]:
        """The children in the order that is wanted, with what their letters are about."""
        day, _ = self.withdrawal(whom)
        sent, made = self.earlier("sent IS NOT NULL"), self.earlier(
            "sent IS NULL AND state='made' AND is_draft=0")
        found = []
        key = ORDERS.get(order, ORDERS["number"])[1]
        for it in sorted(self.children(register, whom), key=lambda it: key(register, it)):
            about = about_of(register, it, day)
            found.append(Chosen(it, register.children[it].name, about,
                                sent.get((it, about.key), ""), made.get((it, about.key), "")))
        return found

    def untold(self, register: Register) -> dict[int, int]:
        """How many letters of each draw are not recorded as sent, of the draws that lack some: in
        the first round to all who took part, and later to all who were offered a place. A child is
        counted once, for the last of these draws.
        """
        results: dict[int, tuple[int, str | None]] = {}
        for draw in register.draws:
            for child, school in register.outcomes[draw.number].items():
                if draw.round == 1 or register.fresh[draw.number][child]:
                    results[child] = draw.number, school
        sent: dict[int, list[str]] = {}
        for it in self.store.rows("SELECT child, about FROM letter JOIN letter_set ON"
                                  " set_id=letter_set.id WHERE sent IS NOT NULL"):
            sent.setdefault(it["child"], []).append(it["about"])
        found = [number for child, (number, school) in results.items()
                 if not any(is_told(it, number, school) for it in sent.get(child, []))]
        return dict(sorted(collections.Counter(found).items()))

    def earlier(self, where: str) -> dict[tuple[int, str], str]:
        """Who has sent or made which letters, in words."""
        said, found = dict[int, str](), {}
        # (each set once: what was asked for has all its children, and so has each of its letters)
        for it in self.store.rows(f"SELECT id, who, sent, sent_by FROM letter_set WHERE {where}"):
            day = it["sent"] and days.in_words(datetime.date.fromisoformat(it["sent"]))
            said[it["id"]] = (f"sent on {day}, by {it['sent_by']}" if day else
                              f"made by {it['who']}, and not recorded as sent")
        for it in self.store.rows(f"SELECT child, about, set_id FROM letter WHERE set_id IN"
                                  f" (SELECT id FROM letter_set WHERE {where}) ORDER BY set_id"):
            if it["set_id"] in said:
                found[it["child"], it["about"]] = said[it["set_id"]]
        return found


def is_told(about: str, number: int, school: str | None) -> bool:
    """Whether a letter that was sent tells of a child's result in a draw, or of what came later."""
    what, _, rest = about.partition(" ")
    if what == "reminder":
        return school is not None and rest.startswith(f"{school} ")
    if what != "draw":
        return False
    of, _, result = rest.partition(" ")
    if not of.isdecimal() or int(of) != number:
        return of.isdecimal() and int(of) > number
    return result == "none" or school is not None and result.startswith(f"{school} ")


def of_draw(register: Register, whom: Whom) -> list[int]:
    """The children of a draw."""
    known = {str(it.number): it.number for it in register.draws}
    if whom.value not in known:
        raise Refused("choose a round or offer of the list")
    number = known[whom.value]
    fresh = register.fresh[number]
    return [it for it in register.outcomes[number] if whom.kind == PART or fresh[it]]


def of_list(register: Register, whom: Whom, words: Mapping[int, str]) -> list[int]:
    """The children of a list, each once."""
    name, _, options = whom.value.partition("?")
    if name not in on_screen.NAMES:
        raise Refused("there is no such list")
    given = MultiDict(urllib.parse.parse_qsl(options))
    found, values = on_screen.options(register, name, given, days.today())
    if not on_screen.is_whole(name, found, values):
        raise Refused("choose what the list is of first")
    listed = on_screen.rows_of(register, name, values, words)
    choice = dataclasses.replace(list_choice.of_address(given), columns=())
    if list_choice.wrong(choice, listed, register):
        raise Refused("the list does not have what was chosen of it: look at it again")
    header, *rows = list_choice.chosen(choice, listed, register)
    if on_screen.CHILD not in header:
        raise Refused("this list has no children")
    at = header.index(on_screen.CHILD)
    return list(dict.fromkeys(it for row in rows if isinstance(it := row[at], int)))


def about_of(register: Register, child: int, withdrawn: datetime.date | None) -> About:
    """What the letter of a child is about now. A second letter about the same is one too many."""
    place = register.places.get(child)
    if withdrawn:
        day = days.in_words(withdrawn)
        return About(f"withdrawal {withdrawn}", f"withdrawal of {day}")
    if place and place.kind == model.OFFERED and place.reminded:
        day = days.in_words(place.reminded)
        return About(f"reminder {place.school} {place.reminded}", f"reminder of {day}")
    number = announced(register, child)
    key = f"draw {number} {place.school} {place.kind}" if place else f"draw {number} none"
    has = f"{place.school}, {KIND_WORDS[place.kind]}" if place else "no place"
    words = f"result of {draw_in_words(register.draws[number - 1])}" if number else "no round yet"
    return About(key, f"{words}: {has}")
