"""Which draws a letter announces, and whether their audit agrees: until then letters are drafts."""
import contextlib
import hashlib
import json

from register_files import Refused

from office import audit
from office.core.model import Register
from office.core.wording import draw_in_words
from office.web.copies.copies import Copies
from office.web.people.roles import Person
from office.web.register.history import now
from office.web.register.store import Store
from office.web.rounds import rehearsal
from office.web.rounds.draws import Draws
from office.web.rounds.terms import AUDITED, OPENED, Draw


def announced(register: Register, child: int) -> int | None:
    """The draw whose result a letter to this child announces: the last one in which it took part,
    or that offered it a place.
    """
    found = [it.number for it in register.draws if child in register.outcomes[it.number]]
    return found[-1] if found else None


def outcome_of(register: Register, number: int) -> str:
    """What a draw did, in short: an audit is of this result and no other."""
    day = register.draws[number - 1].day.isoformat()
    rows = [[child, school, register.fresh[number][child]]
            for child, school in sorted(register.outcomes[number].items())]
    return hashlib.sha256(json.dumps([number, day, rows]).encode()).hexdigest()


def is_agreed(register: Register, held: list[Draw], number: int) -> bool:
    """Whether a draw is one of those that were held on the screen of draws, and whose audit agreed,
    with the outcome that the register has now.
    """
    now_there = [[child, school, register.fresh[number][child]]
                 for child, school in sorted(register.outcomes[number].items())]
    for it in held:
        if it.terms.first <= number < it.terms.first + it.terms.fills:
            rows = [row for row in it.rehearsal["outcomes"] if row[0] == number]
            if sorted([child, has, fresh] for _, child, _, has, fresh in rows) == now_there:
                return True
    return False


class Audits:
    """What is known of the audits of draws."""

    def __init__(self, store: Store, draws: Draws, copies: Copies) -> None:
        self.store, self.draws, self.copies = store, draws, copies

    def agreed(self, register: Register) -> set[int]:
        """The draws of a register whose audit agrees with what it has of them now."""
        numbers = {it.number for it in register.draws}
        kept = self.store.rows("SELECT * FROM letter_audit WHERE is_right=1")
        found = {it["draw"] for it in kept if it["draw"] in numbers
                 and it["outcome"] == outcome_of(register, it["draw"])}
        held = [it for it in self.draws.listed() if it.state in (AUDITED, OPENED)
                and not it.audit.get("wrong", True)]
        return found | {it for it in numbers - found if is_agreed(register, held, it)}

    def before(self, number: int) -> int | None:
        """The last copy from before a draw. One that is gone, or cannot be read, keeps nobody from
        the others.
        """
        for it in self.copies.listed():
            with contextlib.suppress(Refused):
                if len(self.copies.register(it.number).draws) == number - 1:
                    return it.number
        return None

    def audit(self, who: Person, register: Register, number: int) -> tuple[bool, str]:
        """Audits a draw that was not held here: by a copy from before it and a copy made now.
        Whether it agrees, and what was found.
        """
        before, name = self.before(number), draw_in_words(register.draws[number - 1])
        if before is None:
            raise Refused(f"there is no copy from before {name} here, so it cannot be audited:"
                          " letters that announce its result stay drafts")
        after = self.copies.make(f"to audit {name}", who.name)
        one, other = (rehearsal.rows_of(str(self.copies.path(it))) for it in (before, after))
        try:
            lines, is_right = audit.audit(one, other, True, None)
        except audit.MISFITS as error:
            lines, is_right = [f"the rows of a copy do not fit each other: {error!r}"], False
        # (what was found is of the register as it was copied)
        outcome = outcome_of(self.copies.register(after), number)
        said = "\n".join(lines)
        self.draws.history.add(who.name, "audited", {
            "for": name, "draw": number, "copies": [before, after],
            "wrong": [] if is_right else lines})
        with self.store.writing() as db:
            db.execute("INSERT OR REPLACE INTO letter_audit VALUES (?, ?, ?, ?, ?, ?)",
                       (number, outcome, int(is_right), said, who.name, now()))
        return is_right, said if outcome == outcome_of(register, number) else (
            f"{name} is not the one that was shown")
