"""The way to the register: requests one after another, each compared just before with what the
register says now, and on record before it is sent. As it is the only way, it knows what each may
have changed: that is read again, and the whole after a while, or where it is not known.
"""
import contextlib
import dataclasses
import datetime
import gc
import json
import threading
import time
from collections.abc import Callable, Iterable, Iterator
from typing import Any, NamedTuple

from register_files import Refused

from office.core import command_kinds, commands, days, effects, entries, model, senders, turns
from office.core.command_kinds import DRAWS, KINDS
from office.core.entries import Subject
from office.core.model import Members, Register
from office.web.people.roles import Person

from .history import ANSWER, SENDS, SETTLED, Entry, History

Command = dict[str, Any]
# for so long the register is shown as it was read wholly, but for what was sent since; later what
# came to it past the application, by a hand on the machine, is shown too
WHOLE_SECONDS = 60.0
# a request that had no answer is looked for once more after this
AGAIN_SECONDS = 1.0
# so many characters of a line that is no command are on record
MOST_LINE = 1000
# what a request is about that may have changed any child and any school
ANY: Subject = ("", "")
# an answer has one of these where it is certain what a request came to
CERTAIN = {"done", "refused", "fault"}
DONE, REFUSED, DIFFERS, UNSENT, LOST = "done", "refused", "differs", "unsent", "not done"
# what is never sent, however often somebody tries: a draw that two people hold on a screen, and
# what comes after the end of the season
TWO_PEOPLE, SEASON_DELETED = "TwoPeople", "SeasonDeleted"


@dataclasses.dataclass(frozen=True)
class Result:
    """What a request came to, in one word and in a sentence; the answer of the register; whether it
    is known what it came to; and what never lets it be sent, where something does.
    """

    outcome: str
    said: str
    answer: bytes = b""
    is_known: bool = True
    name: str = ""

    @property
    def is_done(self) -> bool:
        """Whether it is stored."""
        return self.outcome == DONE


@dataclasses.dataclass(frozen=True)
class Seen:
    """What a person saw of a child, or of a school, when they decided: what a command rests on."""

    text: str


def seen_of(register: Members, command: Command) -> Seen:
    """What a command rests on, of a register."""
    rests_on = KINDS[command["cmd"]].rests_on
    return Seen(json.dumps(rests_on(register, command), sort_keys=True))


def seen_by(command: Command, row: dict[str, Any] | None) -> Seen:
    """What a command rests on, of the child or the school of the register's document that somebody
    saw, or None where there was none.
    """
    rows = [] if row is None else [row]
    is_child = "child" in command
    return seen_of(model.of_rows("the register", [] if is_child else rows,
                                 rows if is_child else []), command)


def subject(about: dict[str, Any]) -> Subject:
    """The child or the school that a request is about. What a command rests on is of its own child
    or school, and no command about another changes it. A draw changes any; and so may an import,
    and a line of which nothing is known here.
    """
    command: Command = about.get("command", {})
    if command.get("cmd") not in DRAWS:
        for name in (entries.CHILD, entries.SCHOOL):
            if name in command:
                return name, command[name]
    return ANY


def again_of(entry: Entry) -> dict[str, Any]:
    """What is sent once more of an entry, to a register that was restored since. Who recorded it
    first, and when, stays with it.
    """
    first = entry.about.get("again") or {"of": entry.number, "who": entry.who, "at": entry.at}
    return {**entry.about, "again": first}


def line_of(command: Command) -> bytes:
    """A command as it is sent."""
    return json.dumps(command, separators=(",", ":"), ensure_ascii=False).encode()


def is_about(register: Register, entry: Entry, number: int) -> bool:
    """Whether a request that was done is about a child, or a draw that offered it a place."""
    command = entry.about.get("command", {})
    return command.get("child") == number or (
        "draw" in command and register.fresh.get(command["draw"], {}).get(number, False))


def today() -> datetime.date:
    """The day of today, by the clock of this machine."""
    return datetime.datetime.now().date()


def local(at: str) -> str:
    """A moment of the history by the clock of this machine, with its day if that is not today."""
    found = datetime.datetime.fromisoformat(at).astimezone()
    day = "" if found.date() == today() else f" on {days.in_words(found.date())}"
    return f"{found:%H:%M}{day}"


@contextlib.contextmanager
def uncollected() -> Iterator[None]:
    """Many objects are made meanwhile, and none of them is garbage: to look for some among all that
    there are would take as long again.
    """
    was_enabled = gc.isenabled()
    gc.disable()
    try:
        yield
    finally:
        if was_enabled:
            gc.enable()


class Away(Refused):
    """The register does not answer."""


class Copy(NamedTuple):
    """The register as it was read: when it was read wholly, after how many requests it was read
    last, and its document, or nothing where some of it is newer.
    """

    moment: float
    sent: int
    register: Register
    document: bytes


class Desk:
    """The register of one application."""

    def __init__(
        self, sender: senders.Http, record: History, clock: Callable[[], float] = time.monotonic
    ) -> None:
        self.sender, self.history, self.clock = sender, record, clock
        self.source = model.Server(sender)
        self.reader = model.Reader(self.source)
        self.lock = turns.Turn(threading.RLock(), "the register is being copied, or others send")
        self.reading = turns.Turn(
            threading.Lock(), "the register is being copied, or does not answer")
        self.copy: Copy | None = None
        # how many requests were begun, and what those that ended may have changed
        self.begun, self.sent = 0, list[Subject]()
        # why nobody but a draw may send, or ""; and why nobody may any more
        self.closed: Callable[[], str] = str
        self.ended: Callable[[], str] = str

    @property
    def is_large(self) -> bool:
        """Whether the register is large, if it was read: that never changes."""
        return self.copy is not None and self.copy.register.is_large

    def register(self) -> Register:
        """The register as it is with all that was sent through here."""
        return self.present()

    def present(self, *about: Subject) -> Register:
        """The same, and in what is about these also with what came past here."""
        with self.reading:
            self.copy = self.kept_up(about) or self.read()
            return self.copy.register

    def kept_up(self, about: Iterable[Subject]) -> Copy | None:
        """The copy, in which what was sent since and what is about these is read again. None if it
        is old, if that may be anything or is much, or if something is being sent: of what is read
        apart one thing could have the effect of that, and another could not.
        """
        found, begun, ended = self.copy, self.begun, len(self.sent)
        if found is None or found.moment <= self.clock() - WHOLE_SECONDS:
            return None
        touched = {*self.sent[found.sent:ended], *about}
        if not touched:
            return found
        if ANY in touched or ended != begun:
            return None
        try:
            register = entries.read_again(found.register, touched, self.part)
        except Refused:
            return None
        if self.begun != begun:
            return None
        document = found.document if register is found.register else b""
        return Copy(found.moment, ended, register, document)

    def now(self) -> Register:
        """The register as it is, read wholly."""
        return self.whole().register

    def whole(self) -> Copy:
        """The register as it is with its document."""
        asked = self.clock()
        with self.reading:
            if self.copy is None or self.copy.moment < asked or not self.copy.document:
                self.copy = self.read()
            return self.copy

    def read(self) -> Copy:
        """Reads the whole register."""
        moment, sent = self.clock(), len(self.sent)
        document = self.document()
        return Copy(moment, sent, self.shown(document), document)

    def shown(self, document: bytes) -> Register:
        """The register of a document, which is made out once."""
        if self.copy and self.copy.document == document:
            return self.copy.register.shown_again()
        with uncollected():
            return self.reader.register(document)

    def asked(
        self, path: str, question: bytes | None = None, seconds: float = senders.ANSWER_SECONDS,
    ) -> tuple[int, bytes]:
        """The register's own answer to a path, or to a question that changes nothing."""
        method = "GET" if question is None else "POST"
        try:
            return self.sender.ask(method, path, question, seconds=seconds)
        except senders.Ended as error:
            raise Away(f"the register does not answer now: {error}") from error

    def part(self, path: str) -> bytes | None:
        """What the register has at a path now, or None where it has nothing there."""
        status, found = self.asked(path)
        if status == 404:
            return None
        if status != 200:
            raise Away(f"the register cannot be read now: {senders.refusal(status)}")
        return found

    def document(self) -> bytes:
        """The document of the register."""
        found = self.part("/register")
        if found is None:
            raise Away(f"the register cannot be read now: {senders.refusal(404)}")
        return found

    def send(
        self, who: Person, command: Command, seen: Seen | None = None, draw: bool = False,
        point: str = "", catchments: str = "",
    ) -> Result:
        """Sends a command if what it rests on is as it was seen. Where the point of a home and its
        catchment schools came from is in the history beside it.
        """
        if command["cmd"] in DRAWS and not draw:
            return Result(UNSENT, "Nothing was recorded: a round or an offer from a waiting list is"
                                  " run on the screen Rounds, where a second person confirms it.",
                          name=TWO_PEOPLE)
        sources = {"point": point, "catchments": catchments}
        about: dict[str, Any] = {name: it for name, it in sources.items() if it}
        return self.request(who, {"command": command, **about}, seen, draw)

    def request(
        self, who: Person, about: dict[str, Any], seen: Seen | None = None, is_closed: bool = False,
    ) -> Result:
        """Sends a request in its turn, if what its command rests on is as it was seen; also while
        recording is paused.
        """
        with self.sending(is_closed) as refusal:
            if refusal:
                return refusal
            if seen is not None and (found := self.difference(about["command"], seen)):
                return found
            return self.exchange(who, about, lambda: self.passed(about))

    def passed(self, about: dict[str, Any]) -> bytes:
        """The answer of the register to a command, or to the rows of an import."""
        if "import" in about:
            rows: str = about["import"]
            return self.sender.imported(rows.encode())
        return self.sender.send(line_of(about["command"]))

    def pass_on(self, who: Person, line: bytes) -> Result:
        """Sends what is no command as far as is known here, for what the register says of it. It
        may know more, and take it: so this goes in its turn, and is on record before.
        """
        with self.sending() as refusal:
            if refusal:
                return refusal
            about = {"line": line.decode("utf-8", "replace")[:MOST_LINE]}
            return self.exchange(who, about, lambda: self.sender.send(line))

    def send_import(self, who: Person, rows: bytes) -> Result:
        """Sends the rows of an import, which are stored all or not at all."""
        return self.request(who, {"import": rows.decode()})

    @contextlib.contextmanager
    def sending(self, draw: bool = False) -> Iterator[Result | None]:
        """The turn to send, with the refusal where nothing can be sent now."""
        with contextlib.ExitStack() as held:
            try:
                held.enter_context(self.lock)
            except turns.Busy as error:
                yield Result(UNSENT, f"Nothing was recorded: {error}.")
                return
            yield self.refusal(draw)

    def refusal(self, draw: bool) -> Result | None:
        """Why nothing can be sent now, if so."""
        if not draw and (said := self.closed()):
            return Result(UNSENT, said, name=SEASON_DELETED if self.ended() else "")
        try:
            self.settle()
        except Refused as error:
            return Result(UNSENT, f"Nothing was recorded. {error}")
        return None

    def difference(self, command: Command, seen: Seen) -> Result | None:
        """What has changed since a command was decided, if something has or cannot be looked up."""
        try:
            said = self.changed(self.present(subject({"command": command})), command, seen)
        except Refused as error:
            return Result(UNSENT, f"Nothing was recorded. {error}")
        return Result(DIFFERS, f"{said} Nothing was recorded now.") if said else None

    def changed(self, register: Register, command: Command, seen: Seen) -> str:
        """What a register has otherwise than it was seen, with who recorded it last, or ""."""
        if seen_of(register, command) == seen:
            return ""
        if "child" not in command:
            return "It has changed meanwhile."
        number = command["child"]
        done = self.history.done()
        last = next((it for it in done if is_about(register, it, number)), None)
        if last is None:
            return f"Child {number} has changed meanwhile."
        noun = KINDS[last.about["command"]["cmd"]].noun
        return f"Child {number}: {last.who} recorded {noun} at {local(last.at)}."

    def exchange(self, who: Person, about: dict[str, Any], send: Callable[[], bytes]) -> Result:
        """Sends a request that is on record before, and records the answer."""
        try:
            entry = self.history.add(who.name, SENDS, about)
        except Refused as error:
            return Result(UNSENT, f"Nothing was recorded: {error}")
        touched = ANY
        self.begun += 1
        try:
            answer = send()
            value = commands.read(answer)
            if isinstance(value, dict) and CERTAIN & value.keys():
                touched = subject(about)
        except senders.Ended as error:
            return self.lost(entry, error)
        finally:
            self.sent.append(touched)
        if isinstance(value, dict) and value.get("failed"):
            # (stored wholly or not at all, and only a look at the register says which)
            found = self.looked(entry, commands.in_words(value, None))
            return found if found.is_known else dataclasses.replace(found, answer=answer)
        note = ""
        try:
            self.history.add(who.name, ANSWER, {"of": entry.number, "answer": value})
        except Refused as error:
            note = f" The answer is not in the history: {error}."
        if commands.is_done(value):
            return Result(DONE, (commands.result(value) or "Done, and stored.") + note, answer)
        said = commands.in_words(value, about.get("command"), self.plans())
        return Result(REFUSED, f"It was not done: {said}.{note}", answer)

    def plans(self) -> dict[int, str]:
        """The schools of the children that have a place by a plan, as of the last copy."""
        places = self.copy.register.places.items() if self.copy else ()
        return {child: it.school for child, it in places if it.kind == model.PLAN}

    def lost(self, entry: Entry, error: senders.Ended) -> Result:
        """What a request without an answer came to."""
        if not error.is_open:
            try:
                self.history.add(entry.who, SETTLED,
                                 {"of": entry.number, "done": False, "why": str(error)})
            except Refused:
                pass
            return Result(UNSENT, f"Nothing was recorded: {error}.")
        return self.looked(entry, str(error))

    def looked(self, entry: Entry, why: str) -> Result:
        """What a request came to, by a look at the register."""
        try:
            is_done = self.settled(entry)
        except Refused as other:
            return Result(LOST, f"There was no certain answer ({why}), and the register does not"
                          f" answer now: {other}. Whether it is done is looked up before anything"
                          " else is sent.", is_known=False)
        if is_done:
            return Result(DONE, "Done, and stored: the answer was lost, and the register has it.")
        return Result(LOST, f"It was not done: there was no answer ({why}), and the register does"
                      " not have it.")

    def settle(self) -> None:
        """Finds out what became of each request without a known answer, before another is sent."""
        for it in self.history.open_requests():
            self.settled(it)

    def settled(self, entry: Entry) -> bool:
        """Whether a request is done, by a look at the register. It is never sent again."""
        is_done = self.is_done(entry)
        if not is_done:
            time.sleep(AGAIN_SECONDS)
            is_done = self.is_done(entry)
        self.history.add(entry.who, SETTLED, {"of": entry.number, "done": is_done})
        return is_done

    def is_done(self, entry: Entry) -> bool:
        """Whether the register is as after a request."""
        if "line" in entry.about:
            # (which nothing here knows the effect of)
            return False
        register = self.now()
        if "command" in entry.about:
            return command_kinds.is_done(register, entry.about["command"])
        return effects.is_imported(register, entry.about["import"])
