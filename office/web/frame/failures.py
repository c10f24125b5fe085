"""Sign-ins that failed: how many, for a monitor, and from which address, in the machine's journal.
What was typed as a name is in neither, since it may be a password that was typed in the wrong
field; and the history has none of them, since whoever fails may fail without end.
"""
import collections
import contextlib
import threading
import time
from collections.abc import Callable

from . import journal
from .journal import Send

# by a wrong name or password; without being looked at, as an earlier one must be waited for; by an
# account of the authority; with the token of a program; and where the provider of accounts gives no
# answer
PASSWORD, WAIT, ACCOUNT, TOKEN, PROVIDER = "password", "wait", "account", "token", "provider"
KINDS = (PASSWORD, WAIT, ACCOUNT, TOKEN, PROVIDER)
# so many lines a minute are in the journal: what is beyond them is counted alone
MOST_LINES, SECONDS = 60, 60.0
IDENTIFIER = "admissions-sign-in"
# notice, and the facility of sign-ins
PRIORITY, FACILITY = "5", "10"


class Failures:
    """Those since the application began."""

    def __init__(
        self, register: str, send: Send | None, clock: Callable[[], float] = time.monotonic
    ) -> None:
        self.register, self.send, self.clock = register, send, clock
        self.lock = threading.Lock()
        self.counted: collections.Counter[str] = collections.Counter()
        self.begun, self.lines = clock(), 0

    def add(self, kind: str, address: str) -> None:
        """Counts one, and names its address in the journal. One that was not looked at is counted
        alone: the address is named by those before it.
        """
        with self.lock:
            self.counted[kind] += 1
            if kind == WAIT:
                return
            if self.clock() - self.begun >= SECONDS:
                self.begun, self.lines = self.clock(), 0
            self.lines += 1
            line = self.lines
        if self.send and line <= MOST_LINES:
            # (what the journal does not take now is in the counts)
            with contextlib.suppress(OSError):
                self.send(journal.packed(self.fields(kind, address, line == MOST_LINES)))

    def fields(self, kind: str, address: str, is_last: bool) -> dict[str, str]:
        """The fields of a line in the journal."""
        rest = "; what else fails within this minute is counted alone" if is_last else ""
        return {
            "MESSAGE": f"{self.register}: a sign-in failed from {address} ({kind}){rest}",
            "PRIORITY": PRIORITY, "SYSLOG_FACILITY": FACILITY, "SYSLOG_IDENTIFIER": IDENTIFIER,
            "ADMISSIONS_REGISTER": self.register, "ADMISSIONS_ADDRESS": address,
            "ADMISSIONS_BY": kind,
        }

    def counts(self) -> dict[str, int]:
        """How many there were by their kind."""
        with self.lock:
            return {kind: self.counted[kind] for kind in KINDS}
