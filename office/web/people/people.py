"""Who may sign in: people with a password of their own, and programs with a token; and their
sessions. What each role may do is in `roles`.
"""
import contextlib
import hashlib
import hmac
import json
import re
import secrets
import threading
import time
from collections.abc import Callable, Iterator

from register_files import Refused

from office.core import texts
from office.core.turns import Busy
from office.web.register.history import now
from office.web.register.store import Store

from .attempts import OF_CHANGES, Attempts, key_of_browser, keys_of
from .roles import PERSON, PROGRAM, Person, see_role

# a mail address too
NAME = re.compile("[a-z0-9][a-z0-9._@+-]{0,63}")
LEAST_PASSWORD, MOST_PASSWORD = 12, 200
# a password has so many different characters, and so many letters beside the own name and what is
# in the passwords of many
LEAST_DIFFERENT, LEAST_LETTERS = 4, 4
COMMON = ("password", "passwort", "passw0rd", "1234567890", "0123456789", "qwertyuiop", "letmein",
          "welcome", "iloveyou", "changeme", "administrator", "admissions", "abcdefghijkl")
# a session ends after so many seconds without a request, and after so many at most
IDLE_SECONDS, SESSION_SECONDS = 30 * 60, 10 * 3600
HASHES_AT_ONCE = 4
# so many sign-ins are looked at or wait at once, and hold a thread each; and beside them so many of
# browsers in which the name has signed in before
SIGN_INS_AT_ONCE, KNOWN_AT_ONCE = 8, 4
WRONG = "The name or the password is wrong."
# a drawn password is read out and typed once: letters that look like no other, in groups
LETTERS, GROUPS, IN_GROUP = "abcdefghjkmnpqrstuvwxyz", 5, 4


def digest(secret: str) -> str:
    """The digest of a drawn secret, which needs no slow hash."""
    return hashlib.sha256(secret.encode()).hexdigest()


def drawn(kind: str) -> str:
    """A drawn password, of 90 bits; or the token of a program."""
    if kind == PROGRAM:
        return secrets.token_urlsafe(18)
    return "-".join("".join(secrets.choice(LETTERS) for _ in range(IN_GROUP))
                    for _ in range(GROUPS))


def form_of(mark: str, hashed: str) -> str:
    """The secret of the forms of a session: what was drawn for it, with its sum by what is kept of
    the person's password. So one of an earlier session is known until the password is another.
    """
    return f"{mark}.{hmac.new(hashed.encode(), mark.encode(), 'sha256').hexdigest()}"


def see_password(name: str, password: str) -> None:
    """Refuses a password that others may guess."""
    if not LEAST_PASSWORD <= len(password) <= MOST_PASSWORD:
        raise Refused(f"a password has {LEAST_PASSWORD} to {MOST_PASSWORD} characters")
    rest = "".join(password.lower().split())
    if len(set(rest)) < LEAST_DIFFERENT:
        raise Refused(f"a password has at least {LEAST_DIFFERENT} different characters")
    before = rest
    for it in (name, name.partition("@")[0], *COMMON):
        rest = rest.replace(it, "")
    if rest != before and sum(map(str.isalpha, rest)) < LEAST_LETTERS:
        raise Refused("a password is not one's own name, nor one that many have")


class People:
    """The people and programs of a register, and who is signed in. A session ends by the clock that
    shows the time, which may be set back, and by one that only goes on.
    """

    def __init__(
        self, store: Store, clock: Callable[[], float] = time.time,
        steady: Callable[[], float] = time.monotonic,
    ) -> None:
        self.store, self.clock, self.steady = store, clock, steady
        # when each session was seen first and last, by the second clock
        self.seen: dict[str, tuple[float, float]] = {}
        self.attempts = Attempts()
        import argon2

        self.hasher = argon2.PasswordHasher()
        self.wrong = argon2.exceptions.VerificationError, argon2.exceptions.InvalidHash
        # (each needs much memory for some time)
        self.hashing = threading.Semaphore(HASHES_AT_ONCE)
        self.signing = threading.BoundedSemaphore(SIGN_INS_AT_ONCE)
        self.signing_known = threading.BoundedSemaphore(KNOWN_AT_ONCE)
        # (so that a name that does not exist takes as long)
        self.nobody = self.hasher.hash(secrets.token_urlsafe(18))

    def has(self, name: str) -> bool:
        """Whether there is an account of this name."""
        return self.store.row("SELECT 1 FROM person WHERE name=?", name) is not None

    def see_new(self, name: str, role: str) -> None:
        """Refuses somebody who cannot be added."""
        self.see_name(name)
        see_role(role)

    def see_name(self, name: str) -> None:
        """Refuses a name that nobody can be added by."""
        if not NAME.fullmatch(name):
            raise Refused("a name is 1 to 64 of a-z, 0-9 and . _ @ + -, and begins with a letter"
                          " or a figure")
        if self.has(name):
            raise Refused(f"{name} is there already")

    def add(self, name: str, role: str, kind: str = PERSON) -> str:
        """Adds a person or a program, and returns the drawn password or token, which is shown
        once.
        """
        secret = drawn(kind)
        with self.store.writing() as db:
            self.see_new(name, role)
            db.execute("INSERT INTO person (name, kind, role, hash, must_change, added)"
                       " VALUES (?, ?, ?, ?, ?, ?)",
                       (name, kind, role, self.hash_of(secret, kind), kind == PERSON, now()))
        return secret

    def hash_of(self, secret: str, kind: str) -> str:
        """What is kept of a password, or of a drawn token."""
        return digest(secret) if kind == PROGRAM else str(self.hasher.hash(secret))

    def changed(self, name: str, query: str, *values: object) -> None:
        """Changes a person, and ends the sessions."""
        with self.store.writing() as db:
            if not db.execute(f"UPDATE person SET {query} WHERE name=?", (*values, name)).rowcount:
                raise Refused(f"there is no {name}")
            db.execute("DELETE FROM session WHERE person=?", (name,))

    def set_role(self, name: str, role: str) -> None:
        """Gives a person another role."""
        see_role(role)
        self.changed(name, "role=?", role)

    def lock(self, name: str, is_locked: bool) -> None:
        """Keeps a person out, or lets them in again."""
        self.changed(name, "is_locked=?", int(is_locked))

    def reset(self, name: str) -> str:
        """Draws another password or token, and returns it."""
        row, secret = self.store.row("SELECT kind FROM person WHERE name=?", name), ""
        if row:
            kind = row["kind"]
            secret = drawn(kind)
            # (and another account of the authority's provider may be the person's from now on)
            self.changed(name, "hash=?, must_change=?, account=''", self.hash_of(secret, kind),
                         kind == PERSON)
        return secret

    def see_removable(self, name: str) -> None:
        """Refuses to remove a person whose answers wait in a batch, and would be gone with them."""
        found = self.store.row(
            "SELECT count(*) AS many FROM answer WHERE person=? AND state<>'done'", name)
        if found and found["many"]:
            have = texts.count(found["many"], "answer")
            raise Refused(f"{name} has {have} in a batch that nobody has recorded, which would be"
                          f" lost: another officer takes them over first, on the screen Answers."
                          f" {name} can be locked")

    def remove(self, name: str) -> None:
        """Removes a person. What they did stays in the history."""
        with self.store.writing() as db:
            self.see_removable(name)
            db.execute("DELETE FROM sending WHERE kind='answer' AND batch=?", (name,))
            db.execute("DELETE FROM person WHERE name=?", (name,))

    def set_password(self, person: Person, old: str, new: str) -> None:
        """Gives a person a password of their own, and ends their other sessions."""
        row = self.store.row("SELECT hash FROM person WHERE name=?", person.name)
        hashed = row["hash"] if row else self.nobody
        # (who may try it is signed in: the wait keeps nobody else out)
        with self.one_of_few(True):
            if not self.attempts.is_right(
                    lambda: self.is_right(hashed, old), OF_CHANGES + person.name):
                raise Refused("the present password is wrong")
        see_password(person.name, new)
        if new == old:
            raise Refused("the new password is the present one")
        new_hash = self.hasher.hash(new)
        with self.store.writing() as db:
            # (the old one may be of no more use since it was compared)
            if not db.execute("UPDATE person SET hash=?, must_change=0 WHERE name=? AND hash=?",
                              (new_hash, person.name, hashed)).rowcount:
                raise Refused("the password was changed meanwhile, and is not changed now")
            db.execute("DELETE FROM session WHERE person=? AND form<>?",
                       (person.name, person.form))

    def is_right(self, hashed: str, password: str) -> bool:
        """Whether a password is that of a hash."""
        try:
            with self.hashing:
                return bool(self.hasher.verify(hashed, password))
        except self.wrong:
            return False

    def sign_in(self, name: str, password: str, address: str, browser: str = "") -> str:
        """The secret of a new session, or a refusal that does not say what was wrong. `browser` is
        the one that asks, if this name has signed in there before.
        """
        row = self.store.row("SELECT * FROM person WHERE name=? AND kind=?", name, PERSON)

        def check() -> bool:
            hashed = row["hash"] if row else self.nobody
            is_right = self.is_right(hashed, password[:MOST_PASSWORD])
            return row is not None and is_right and not row["is_locked"]

        name = name[:64]
        keys = (key_of_browser(name, browser),) if browser else (
            keys_of(name, row is not None, address))
        with self.one_of_few(bool(browser)):
            if not self.attempts.is_right(check, *keys):
                raise Refused(WRONG)
        return self.begin(name, False, row["hash"] if row else "")

    @contextlib.contextmanager
    def one_of_few(self, is_known: bool) -> Iterator[None]:
        """One of the few sign-ins at once. Who is beyond them is refused and not kept waiting: from
        many addresses each has free attempts, and all threads would wait for their hashes.
        """
        turns = (self.signing_known, self.signing) if is_known else (self.signing,)
        taken = next((it for it in turns if it.acquire(False)), None)
        if taken is None:
            raise Busy("Many sign in now, and nothing was tried. Try again in a moment.")
        try:
            yield
        finally:
            taken.release()

    def sign_in_outside(self, name: str, account: str) -> str:
        """The secret of a new session of somebody whom the authority's provider has signed in by an
        account, which stays the only one of that provider for this person.
        """
        with self.store.writing() as db:
            row = self.store.row("SELECT * FROM person WHERE name=? AND kind=?", name, PERSON)
            if not row or row["is_locked"]:
                raise Refused(f"{name} may not sign in here: ask who adds people.")
            before = json.loads(row["account"] or "null")
            if row["account"] != account:
                if before and before[0] == json.loads(account)[0]:
                    raise Refused(f"{name} signed in by another account of the provider before: ask"
                                  " who adds people for a new password, and sign in by this account"
                                  " then.")
                # (one account of the provider that was given another name there is one person)
                if other := self.store.row("SELECT name FROM person WHERE account=?", account):
                    raise Refused(f"This account of the provider signed in as {other['name']}"
                                  f" before, and {name} is another person here: ask who adds people"
                                  f" to remove {other['name']}.")
                db.execute("UPDATE person SET account=? WHERE name=?", (account, name))
            return self.begin(name, True, row["hash"])

    def begin(self, name: str, is_outside: bool, hashed: str) -> str:
        """Begins a session, unless the person is locked or gone, or what is kept of the password is
        another one since it was compared. Who was signed in outside needs no password of their own.
        """
        secret, moment = secrets.token_urlsafe(32), self.clock()
        steady = self.steady()
        late = [key for key, (_, last) in list(self.seen.items()) if steady - last > IDLE_SECONDS]
        with self.store.writing() as db:
            db.execute("DELETE FROM session WHERE seen<? OR began<?",
                       (moment - IDLE_SECONDS, moment - SESSION_SECONDS))
            for it in late:
                db.execute("DELETE FROM session WHERE digest=?", (it,))
                self.seen.pop(it, None)
            if not db.execute("SELECT 1 FROM person WHERE name=? AND hash=? AND is_locked=0",
                              (name, hashed)).fetchone():
                raise Refused(WRONG)
            form = form_of(secrets.token_urlsafe(18), hashed)
            db.execute("INSERT INTO session VALUES (?, ?, ?, ?, ?, ?)",
                       (digest(secret), name, form, moment, moment, int(is_outside)))
            db.execute("UPDATE person SET signed_in=? WHERE name=?", (now(), name))
        return secret

    def is_form_of(self, person: Person, form: str) -> bool:
        """Whether this is the secret of the forms of a person's session, or of an earlier one of
        the same person.
        """
        if not person.form or not form.isascii():
            return False
        if hmac.compare_digest(form, person.form):
            return True
        row = self.store.row("SELECT hash FROM person WHERE name=?", person.name)
        return row is not None and hmac.compare_digest(
            form, form_of(form.partition(".")[0], row["hash"]))

    def of_session(self, secret: str) -> Person | None:
        """Who has a session."""
        moment = self.clock()
        row = self.store.row(
            "SELECT * FROM session JOIN person ON person=name WHERE digest=?", digest(secret))
        if not row or row["is_locked"]:
            return None
        steady = self.steady()
        first, last = self.seen.get(row["digest"], (steady, steady))
        idle = max(moment - row["seen"], steady - last)
        if idle > IDLE_SECONDS or max(moment - row["began"], steady - first) > SESSION_SECONDS:
            self.end(secret)
            return None
        self.seen[row["digest"]] = first, steady
        if moment - row["seen"] > 60 or moment < row["seen"]:
            with self.store.writing() as db:
                db.execute("UPDATE session SET seen=? WHERE digest=?", (moment, digest(secret)))
        must_change = bool(row["must_change"]) and not row["is_outside"]
        return Person(row["name"], row["role"], must_change, row["form"])

    def signed_in(self) -> list[str]:
        """Who is signed in."""
        rows = self.store.rows("SELECT DISTINCT person FROM session WHERE seen>? ORDER BY person",
                               self.clock() - IDLE_SECONDS)
        return [row["person"] for row in rows]

    def of_token(self, name: str, token: str) -> Person | None:
        """Which program has a token."""
        row = self.store.row("SELECT * FROM person WHERE name=? AND kind=?", name, PROGRAM)
        known = row["hash"] if row else digest("")
        is_right = secrets.compare_digest(known, digest(token))
        if not row or not is_right or row["is_locked"]:
            return None
        return Person(name, row["role"], is_program=True)

    def end(self, secret: str) -> None:
        """Ends a session."""
        with self.store.writing() as db:
            db.execute("DELETE FROM session WHERE digest=?", (digest(secret),))
