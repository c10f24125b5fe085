"""What speaks against the register or the history as they are found: one of them lacks what was
recorded last, as where an older copy was put in its place by hand.
"""
from office.core import effects
from office.core.command_kinds import DRAWS, is_done
from office.core.fields import trimmed
from office.core.model import Register
from office.web.parts import Parts

from .desk import local, subject
from .history import Entry

LATER = "Record nothing, and tell IT support."


def has(register: Register, entry: Entry) -> bool:
    """Whether a register has what was done last, as far as that is seen at once."""
    if rows := entry.about.get("import"):
        first: dict[str, str] = next(iter(effects.rows_of(rows)), {})
        return trimmed(first.get("child") or "") in map(str, register.children)
    command = entry.about.get("command")
    if command is None:
        # (nothing here knows what a line does)
        return True
    if command["cmd"] in DRAWS:
        return len(register.draws) >= int(command["draw"])
    return is_done(register, command)


def in_words(parts: Parts) -> tuple[Register, str]:
    """The register, and what speaks against it or the history, or ""."""
    record = parts.history
    last = next(record.done(), None)
    about = [subject(last.about)] if last else []
    register = parts.desk.present(*about)
    row = parts.store.row("SELECT number, position FROM copy ORDER BY position DESC LIMIT 1")
    if row and (row["position"] or 0) > len(record.entries):
        return register, (f"The history lacks entries: it ends before copy {row['number']} was"
                          f" made. {LATER}")
    # (what is sent meanwhile may have changed what was done before it)
    is_last = last is not None and not record.open_requests() and next(record.done(), None) is last
    if last is None or not is_last or has(register, last):
        return register, ""
    return register, (f"The register lacks what {last.who} recorded at {local(last.at)}: it may be"
                      f" an older copy. {LATER}")
