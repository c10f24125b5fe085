"""The draw with two persons, as a state machine in the store: from its begin until the register is
open for all again. Each step is on record before it is done, and a crash leaves a draw in the state
before the step or after it.
"""
import contextlib
import dataclasses
import datetime
import json
from collections.abc import Callable, Iterator

from register_files import Refused

from office.core import command_kinds, texts
from office.core.model import Pair, Register
from office.web.copies.copies import Copies, is_same
from office.web.people.roles import Person
from office.web.register.desk import Desk
from office.web.register.history import History
from office.web.register.store import Store

from . import again, before_pause, lot_sheets, second, words
from .before_pause import Check
from .lots import sheet_of, ties_in
from .rehearsal import Rehearsal, see_accepted
from .second import Case
from .store import DrawStore
from .terms import (
    AUDITED, BEGUN, CLOSED, CONFIRMED, COPIED, GIVEN_UP, LOTS, MOST_FILLS, OPENED, REHEARSED,
    RESTORED, SEALED, SENDING, SENT, STATES, UNSEALED, UNSENT, UNSENT_SEALED, Draw, Terms,
)

GIVE_UP = "Cancel it, and begin again."
RESTORE = "It cannot go on: the copy from before it must be restored."
STEADY = "somebody does this who had their role and their password before"


class Differs(Refused):
    """The lots, the outcome or the register are not those of the rehearsal."""


class Draws(DrawStore):
    """The steps of draws over a register."""

    def __init__(self, store: Store, record: History, desk: Desk, copies: Copies) -> None:
        super().__init__(store, record)
        self.desk, self.copies = desk, copies
        self.today: Callable[[], datetime.date] = datetime.date.today

    # the steps before the lots

    def begin(
        self, who: Person, school: str | None, fills: int, day: datetime.date, other_lots: str = "",
    ) -> int:
        """Begins a draw: a round, or so many fills at a school. One that repeats a draw which was
        undone has its lots, unless it is said why others are drawn.
        """
        register = self.desk.now()
        terms = Terms(len(register.draws) + 1, school, fills, day)
        see_terms(register, terms)
        name, repeats = words.name_of(terms, register), again.repeated(self.listed(), terms)
        return self.added(who, name, terms, BEGUN, repeats, other_lots)

    def checks(self, draw: Draw) -> list[Check]:
        """What is to be read before it closes the register."""
        return before_pause.checks(self.desk.register(), draw.terms, self.today())

    def close(
        self, who: Person, number: int, seen: int, is_agreed: bool, read: str | None = None,
    ) -> None:
        """Closes the register for all others. What is in flight is ended first. `read` is what
        looked wrong when the person agreed to it, where that was on a page.
        """
        with self.turn(number, seen, BEGUN) as draw, self.desk.lock:
            self.desk.settle()
            register = self.desk.now()
            see_terms(register, draw.terms)
            checks = before_pause.checks(register, draw.terms, self.today())
            found = [it.said for it in checks if it.is_risk]
            is_read = read is None or read == before_pause.agreed_to(checks)
            if found and not (is_agreed and is_read):
                raise Refused("something looks wrong: read it, and say that it is right")
            self.record(who, "closed the register", draw, agreed=found)
            with self.moving(draw, who, CLOSED, " ".join(found)):
                pass

    def copy(self, who: Person, number: int, seen: int) -> None:
        """Makes the copy from before the draw."""
        with self.turn(number, seen, CLOSED) as draw:
            self.record(who, "copied the register", draw)
            copy = self.copies.make(f"before {draw.name}", who.name)
            with self.moving(draw, who, COPIED, f"Copy {copy}.", copy_before=copy):
                pass

    def give(self, who: Person, number: int, seen: int) -> None:
        """Gives the pairs to the supervisor, as the register says them."""
        with self.turn(number, seen, COPIED) as draw:
            register = self.unchanged(draw)
            pairs = self.pairs(draw)
            if pairs != draw.terms.pairs_in(register):
                raise Refused("the register asks for other lots than it shows. " + GIVE_UP)
            fills = draw.terms.fills
            see_accepted(self.copies.path(draw.before or 0), draw.terms,
                         {it: [at] * fills for at, it in enumerate(pairs, 1)})
            ties, kept = ties_in(register, pairs), again.kept(self, draw)
            self.record(who, "gave the pairs to the supervisor", draw, pairs=len(pairs))
            said = f"{texts.count(len(pairs), 'lot')}."
            with self.moving(draw, who, LOTS, said) as db:
                db.executemany(
                    "INSERT INTO lot VALUES (?, ?, ?, ?, ?, ?, ?)",
                    [(draw.number, *it, at, *kept.get((it, at), ("", None)), ties[it])
                     for it in pairs for at in range(fills)])

    def pairs(self, draw: Draw) -> list[Pair]:
        """The pairs of the next draw, as the register says them now."""
        text = self.desk.sender.read(draw.terms.path).decode("ascii", "replace")
        if not text:
            raise Refused("the register has nobody for whom a lot is drawn")
        return lot_sheets.pairs_in("the register", text, draw.terms.school)

    def unchanged(self, draw: Draw) -> Register:
        """The register, or a refusal where it is not as it was copied."""
        register = self.desk.now()
        if not is_same(register, self.copies.register(draw.before or 0)):
            raise Refused(f"the register has changed since it was copied. {GIVE_UP}")
        return register

    # the steps after the lots

    def see_fits(self, draw: Draw) -> None:
        """Refuses sealed lots that are not those of the register's next draw."""
        sheet = sheet_of(self.store, draw.number, draw.terms)
        if sheet.digest() != draw.digest:
            raise Refused(f"the lots are not those that were sealed. {GIVE_UP}")
        sealed, pairs = {it.pair for it in sheet.rows}, set(self.pairs(draw))
        if gone := sealed - pairs:
            raise Refused(f"the register has changed: it wants no lot any more for"
                          f" {lot_sheets.in_words(gone)}. {GIVE_UP}")
        if new := pairs - sealed:
            raise Refused(f"the register has changed: it wants a lot also for"
                          f" {lot_sheets.in_words(new)}. {GIVE_UP}")
        self.unchanged(draw)

    @contextlib.contextmanager
    def rehearsed(self, draw: Draw, is_audited: bool = False) -> Iterator[Rehearsal]:
        """The draw on scratch copies of the copy from before it, with the sealed lots. Once it was
        rehearsed its outcome is the same.
        """
        sheet = sheet_of(self.store, draw.number, draw.terms)
        if sheet.digest() != draw.digest:
            raise Differs("the lots are not those that were sealed")
        path = self.copies.path(draw.before or 0)
        with Rehearsal(path, draw.terms, sheet.lots()) as found:
            found.hold(is_audited)
            if draw.rehearsal and not found.has_outcome(draw.rehearsal):
                raise Differs("the outcome is not that of the rehearsal")
            yield found

    def rehearse(self, who: Person, number: int, seen: int) -> None:
        """Holds the draw on scratch copies. A difference that the audit finds stops it."""
        with self.turn(number, seen, SEALED) as draw:
            see_goes_on(draw)
            self.see_fits(draw)
            with self.rehearsed(draw, True) as found:
                kept = found.kept()
            wrong = kept["wrong"]
            self.record(who, "rehearsed", draw, wrong=wrong)
            said = f"It found {texts.count(len(wrong), 'difference')}." if wrong else ""
            with self.moving(draw, who, SEALED if wrong else REHEARSED, said,
                             rehearsal=json.dumps(kept)):
                pass

    def confirm(self, who: Person, number: int, seen: int) -> None:
        """Confirms the rehearsed draw, as a second person."""
        with self.turn(number, seen, REHEARSED) as draw:
            see_goes_on(draw)
            self.see_second(who, self.case_to_confirm(draw), "somebody else confirms it")
            self.record(who, "confirmed", draw, lots=draw.digest)
            with self.moving(draw, who, CONFIRMED):
                pass

    def case_to_confirm(self, draw: Draw) -> Case:
        """What a second person confirms, and who has a part in it: also who saved lots for another
        to seal. Where the lots stay from a draw that was undone, who saved and sealed them then
        has one too.
        """
        case, before, sealed = case_of(draw), draw, dict[str, str]()
        saved = dict.fromkeys(self.savers(draw), "saved lots")
        while before.repeats and not before.other_lots:
            before = self.get(before.repeats)
            saved |= dict.fromkeys(
                self.savers(before), f"saved lots of {draw.name} before it was undone")
            sealed[before.who(SEALED)] = f"sealed the lots of {draw.name} before it was undone"
        return dataclasses.replace(case, others={**saved, **sealed, **case.others})

    def held(self, draw: Draw, found: Rehearsal) -> int:
        """How many draws of the row are held, by a look at the register, which must be as it was
        rehearsed up to there.
        """
        register = self.desk.now()
        count = held_in(register, draw)
        is_rehearsed = 0 <= count < len(found.registers) and (
            is_same(register, found.registers[count])) and (
            all(command_kinds.is_done(register, it) for it in found.commands[:count]))
        if not is_rehearsed:
            said = GIVE_UP if draw.state in UNSENT else RESTORE
            raise Differs(f"the register is not as it was rehearsed. {said}")
        return count

    def send(self, who: Person, number: int, seen: int) -> None:
        """Holds the draws of the row that are not held yet, one after another."""
        with self.turn(number, seen, CONFIRMED, SENDING) as draw, self.desk.lock:
            see_goes_on(draw)
            self.desk.settle()
            with self.rehearsed(draw) as found:
                count = self.held(draw, found)
                if draw.state == CONFIRMED:
                    if count:
                        raise Refused(f"the register has {draw.name} already, and it was not run"
                                      " from here: tell IT support")
                    self.record(who, "held", draw)
                    with self.moving(draw, who, SENDING):
                        pass
                    draw = self.get(number)
                for command in found.commands[count:]:
                    result = self.desk.send(who, command, None, True)
                    if not result.is_done:
                        raise Refused(result.said)
                    self.held(draw, found)

    def audit(self, who: Person, number: int, seen: int) -> None:
        """Copies the register once more, and audits it against the copy from before the draw."""
        with self.turn(number, seen, SENDING) as draw:
            see_goes_on(draw)
            with self.rehearsed(draw) as found:
                if self.held(draw, found) < draw.terms.fills:
                    raise Refused("not all of it is run yet")
                self.record(who, "copied the register", draw)
                copy = self.copies.make(f"after {draw.name}", who.name)
                result = found.compared(self.copies.path(copy))
            self.record(who, "audited", draw, copy=copy, wrong=result.wrong)
            value = json.dumps({"audits": result.lines, "wrong": result.wrong})
            said = f"Copy {copy}."
            if result.wrong:
                said += f" It found {texts.count(len(result.wrong), 'difference')}."
            with self.moving(draw, who, SENDING if result.wrong else AUDITED, said, audit=value,
                             copy_after=copy):
                pass

    def open(self, who: Person, number: int, seen: int) -> None:
        """Opens the register for all."""
        with self.turn(number, seen, AUDITED) as draw:
            see_goes_on(draw)
            self.record(who, "opened the register", draw)
            with self.moving(draw, who, OPENED):
                pass

    # other ends

    def see_second(self, who: Person, case: Case = Case(), otherwise: str = STEADY) -> None:
        """Refuses as one of two persons somebody who is not another one than the first."""
        second.see(self.history, who, case, otherwise)

    def see_alone(self, who: Person) -> str:
        """Why nobody else can be the second of two persons; a refusal where somebody can."""
        said = second.alone(self.store, self.history, who.name)
        if not said:
            raise Refused("somebody else can confirm it: ask for it, and another person confirms")
        return said

    def give_up(self, who: Person, number: int, seen: int, why: str = "") -> None:
        """Ends a draw whose lots are not sealed yet. Once one is saved it is shown, with the
        reason, at each draw that follows: who draws lots again may have seen these.
        """
        with self.turn(number, seen, *UNSEALED) as draw:
            why = reason_to_give_up(why) if self.has_lots(draw) else ""
            self.record(who, "gave up", draw, reason=why)
            said = f"{before_end(draw)}{f' Reason: {why}' if why else ''}"
            with self.moving(draw, who, GIVEN_UP, said, give_up_by=who.name if why else None,
                             give_up_why=why):
                pass

    def ask_give_up(self, who: Person, number: int, seen: int, why: str) -> None:
        """Says that a draw whose lots are sealed is to be given up and why, which another confirms.
        So nobody alone has other lots drawn who has seen what these lead to.
        """
        with self.turn(number, seen, *UNSENT_SEALED) as draw:
            self.see_second(who)
            why = reason_to_give_up(why)
            self.record(who, "asked to give up", draw, lots=draw.digest, reason=why)
            with self.moving(draw, who, draw.state, f"Asked to cancel it. Reason: {why}",
                             give_up_by=who.name, give_up_why=why):
                pass

    def go_on(self, who: Person, number: int, seen: int) -> None:
        """Takes back that a draw is to be given up."""
        with self.turn(number, seen, *UNSENT_SEALED) as draw:
            self.record(who, "took back the giving up", draw)
            with self.moving(draw, who, draw.state, "Took back the cancelling.", give_up_by=None,
                             give_up_why=""):
                pass

    def confirm_give_up(self, who: Person, number: int, seen: int) -> None:
        """Ends a draw whose lots are sealed and not sent, as a second person."""
        with self.turn(number, seen, *UNSENT_SEALED) as draw:
            if not draw.give_up_by:
                raise Refused(f"nobody has asked to cancel {draw.name}")
            self.see_second(who, Case(others={draw.give_up_by: f"has asked to cancel {draw.name}"}),
                            "somebody else confirms it")
            self.record(who, "gave up", draw, lots=draw.digest, reason=draw.give_up_why)
            said = f"{before_end(draw)} Fingerprint of the lots {draw.digest}."
            with self.moving(draw, who, GIVEN_UP, said):
                pass

    def give_up_alone(self, who: Person, number: int, seen: int, why: str) -> None:
        """Ends the same alone, where nobody else can confirm it: else no draw could ever follow.
        It is shown with each draw that does.
        """
        with self.turn(number, seen, *UNSENT_SEALED) as draw:
            alone, why = self.see_alone(who), reason_to_give_up(why)
            self.record(who, "gave up alone", draw, lots=draw.digest, why=alone, reason=why)
            said = (f"{before_end(draw)} Alone: {alone}. Fingerprint of the lots {draw.digest}."
                    f" Reason: {why}")
            with self.moving(draw, who, GIVEN_UP, said, give_up_by=who.name, give_up_why=why):
                pass

    def ask_restore(self, who: Person, number: int, seen: int) -> None:
        """Says that the copy from before the draw is to be restored, which another confirms."""
        with self.turn(number, seen, *SENT) as draw:
            self.see_second(who)
            self.record(who, "asked to restore the copy from before it", draw)
            with self.moving(draw, who, draw.state, "Asked to restore the copy from before it.",
                             restore_by=who.name):
                pass

    def keep(self, who: Person, number: int, seen: int) -> None:
        """Takes back that the copy is to be restored. Where it is restored already, it must be
        confirmed.
        """
        with self.turn(number, seen, *SENT) as draw:
            if is_same(self.desk.now(), self.copies.register(draw.before or 0)):
                raise Refused("the register is that of the copy: confirm the restore")
            self.record(who, "took back the restore", draw)
            with self.moving(draw, who, draw.state, "Took back the restore.", restore_by=None):
                pass

    def restore(self, who: Person, number: int, seen: int) -> None:
        """Restores the copy from before the draw, as a second person, and opens the register."""
        with self.turn(number, seen, *SENT) as draw:
            if not draw.restore_by:
                raise Refused("nobody has asked for the restore")
            self.see_second(who, Case(others={draw.restore_by: "has asked for the restore"}),
                            "somebody else confirms it")
            self.record(who, "restored the copy from before it", draw, copy=draw.before)
            self.copies.restore(draw.before or 0, who.name)
            with self.moving(draw, who, RESTORED, f"Copy {draw.before}."):
                pass

    def restore_alone(self, who: Person, number: int, seen: int) -> None:
        """Restores it alone, where nobody else can confirm it and the draw cannot go on."""
        with self.turn(number, seen, *SENT) as draw:
            why = self.see_alone(who)
            if not draw.wrong and self.is_as_rehearsed(draw):
                raise Refused(f"the register is as it was rehearsed: {draw.name} goes on")
            self.record(who, "restored the copy from before it alone", draw, copy=draw.before,
                        why=why)
            self.copies.restore(draw.before or 0, who.name)
            with self.moving(draw, who, RESTORED, f"Alone: {why}. Copy {draw.before}."):
                pass

    def is_as_rehearsed(self, draw: Draw) -> bool:
        """Whether the draw can go on: lots, outcome and register are those of the rehearsal."""
        try:
            with self.rehearsed(draw) as found:
                self.held(draw, found)
        except Differs:
            return False
        return True


def case_of(draw: Draw) -> Case:
    """What two people do with a draw, and who has done what of it so far."""
    found = {draw.who(SEALED): "sealed the lots", draw.who(CLOSED): "paused recording for it",
             draw.who(BEGUN): f"began {draw.name}"}
    return Case(others={name: it for name, it in found.items() if name})


def before_end(draw: Draw) -> str:
    """Where a draw was before it is cancelled."""
    return f"Before that: {STATES.in_short(draw.state)}."


def reason_to_give_up(text: str) -> str:
    """Why a draw with lots is given up, or a refusal."""
    return again.reason_in(text, "cancelling it", "who confirms the next one")


def held_in(register: Register, draw: Draw) -> int:
    """How many draws of the row a register has, by their numbers."""
    return len(register.draws) - draw.terms.first + 1


def see_goes_on(draw: Draw) -> None:
    """Refuses to go on with a draw that is to be given up or undone."""
    if draw.give_up_by:
        raise Refused(f"{draw.give_up_by} has asked to cancel {draw.name}: that is to be confirmed"
                      " or undone first")
    if draw.restore_by:
        raise Refused(f"{draw.restore_by} has asked to restore the copy from before {draw.name}:"
                      " that is to be confirmed or undone first")
    if draw.state == SEALED and draw.wrong:
        raise Refused(f"the rehearsal has found a difference. {GIVE_UP}")


def next_state(draw: Draw) -> str:
    """The state to which the next step leads, or "" where there is none."""
    if draw.is_ended or draw.state == SEALED and draw.wrong:
        return ""
    found = STATES.next(draw.state)
    return found.name if found else ""


def see_terms(register: Register, terms: Terms) -> None:
    """Refuses a draw that cannot be the next one."""
    if terms.first != len(register.draws) + 1:
        raise Refused(f"another round or offer was run meanwhile. {GIVE_UP.rstrip('.')}")
    if terms.school is None:
        if terms.fills != 1:
            raise Refused("a round is run once")
    elif terms.school not in register.schools:
        raise Refused(f"there is no school {terms.school}")
    elif not 1 <= terms.fills <= MOST_FILLS:
        raise Refused(f"the number of places is from 1 to {MOST_FILLS}")
    if not terms.pairs_in(register):
        where = f"nobody waits at {terms.school}" if terms.school else "nobody takes part"
        raise Refused(f"there is nothing to draw: {where}")
