"""What the application keeps beside the register, in one SQLite file: people, sessions, drafts,
the staging table, draws in progress. Nothing in it is a second truth about the register.
"""
import contextlib
import json
import os
import secrets
import sqlite3
import threading
from collections.abc import Iterator

from register_files import Refused

from .schema import STEPS

# the disk, or the limit of a file of the system, is reached
FULL = "SQLITE_FULL"


class Store:
    """The file, of which one connection is open. Each block of `writing` is wholly stored or not at
    all.
    """

    def __init__(self, path: str) -> None:
        self.path, self.lock = path, threading.RLock()
        fd = os.open(path, os.O_RDWR | os.O_CREAT | os.O_CLOEXEC, 0o600)
        os.close(fd)
        self.db = sqlite3.connect(path, timeout=10, isolation_level=None, check_same_thread=False)
        self.db.row_factory = sqlite3.Row
        for line in ("journal_mode=WAL", "synchronous=FULL", "foreign_keys=ON"):
            self.db.execute(f"PRAGMA {line}")
        self.upgrade()

    def upgrade(self) -> None:
        """Takes a file of an earlier version, or a new one, to this version."""
        with self.writing() as db:
            version = db.execute("PRAGMA user_version").fetchone()[0]
            if version > len(STEPS):
                raise Refused(f"{self.path} is of a later release than this one")
            for step in STEPS[version:]:
                for statement in step.split(";"):
                    db.execute(statement)
            db.execute(f"PRAGMA user_version={len(STEPS)}")

    @contextlib.contextmanager
    def writing(self) -> Iterator[sqlite3.Connection]:
        """A transaction."""
        with self.lock:
            if self.db.in_transaction:
                # (a part of one that this thread has begun)
                yield self.db
                return
            self.db.execute("BEGIN IMMEDIATE")
            try:
                yield self.db
                self.db.execute("COMMIT")
            except BaseException as error:
                # (on a full disk SQLite may have taken it back already)
                if self.db.in_transaction:
                    self.db.execute("ROLLBACK")
                if getattr(error, "sqlite_errorname", "") == FULL:
                    raise Refused("the disk is full, and nothing was stored: IT support has to"
                                  " make room on it") from error
                raise

    def rows(self, query: str, *values: object) -> list[sqlite3.Row]:
        """The rows of a query."""
        with self.lock:
            return self.db.execute(query, values).fetchall()

    def row(self, query: str, *values: object) -> sqlite3.Row | None:
        """The first row of a query, if there is one."""
        return next(iter(self.rows(query, *values)), None)

    def setting(self, name: str, default: str = "") -> str:
        """A setting."""
        found = self.row("SELECT value FROM setting WHERE name=?", name)
        return str(found["value"]) if found else default

    def set(self, name: str, value: str) -> None:
        """Stores a setting."""
        with self.writing() as db:
            db.execute("INSERT OR REPLACE INTO setting VALUES (?, ?)", (name, value))

    def tell(self, who: str, what: str, about: dict[str, str]) -> None:
        """Leaves for the history what somebody is about to do outside of the application."""
        with self.writing() as db:
            db.execute("INSERT INTO told (key, who, what, about) VALUES (?, ?, ?, ?)",
                       (secrets.token_hex(8), who, what, json.dumps(about)))

    def close(self) -> None:
        """Ends the use of the file."""
        with self.lock:
            self.db.close()
