"""Serves the application by gunicorn: one process with many threads, since what it knows of the
register is in its memory, and one request to the register follows another.
"""
import atexit
from typing import Any

import gunicorn.app.base
from register_files import Refused, say

from office.core import turns

from . import app
from .parts import Config

# (programs wait beside them, each with a thread)
OF_PEOPLE = 32
THREADS = OF_PEOPLE + turns.MOST_OF_PROGRAMS


class Server(gunicorn.app.base.BaseApplication):  # type: ignore[misc]
    """The server and its settings."""

    def __init__(self, config: Config, listen: str) -> None:
        self.office, self.listen = config, listen
        super().__init__()

    def load_config(self) -> None:
        """Its settings."""
        if self.listen:
            self.cfg.set("bind", self.listen)
        for name, value in (
            ("workers", 1), ("worker_class", "gthread"),
            ("threads", THREADS), ("timeout", 0), ("graceful_timeout", 30), ("umask", 0o077),
            ("proc_name", f"admissions-office {self.office.name}"), ("loglevel", "warning"),
            # (the site limits it: some versions write of each longer one to the log)
            ("limit_request_line", 0),
            ("worker_tmp_dir", str(self.office.folder)), ("control_socket_disable", True),
        ):
            if name in self.cfg.settings:
                self.cfg.set(name, value)

    def load(self) -> Any:
        """The application, which its process makes."""
        try:
            made = app.create(self.office)
        except (Refused, OSError) as error:
            say(2, f"office: {error}")
            raise SystemExit(4) from error
        # (once no request is answered any more)
        atexit.register(made.extensions["office"].close)
        return made


def run(config: Config, listen: str) -> None:
    """Serves until a signal; at the socket that systemd hands over where none is named."""
    config.folder.mkdir(mode=0o700, exist_ok=True)
    Server(config, listen).run()
