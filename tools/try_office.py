"""The application of a season that is tried, as a process of its own:

  try_office.py MOMENT NAME DOOR ORIGIN FOLDER COPIES AUTHORITY SOCKET

SOCKET is the number of a descriptor that listens. A template that was changed is seen at the next
request.
"""
import datetime
import pathlib
import sys
from typing import Any

import try_clock

ROOT = pathlib.Path(__file__).resolve().parent.parent


def main() -> None:
    """Serves it until a signal."""
    moment, name, door, origin, folder, copies, authority, socket = sys.argv[1:]
    try_clock.begin(datetime.datetime.fromisoformat(moment))
    sys.path.insert(0, str(ROOT))
    from office.web import parts, serve

    class Server(serve.Server):
        """The server, which reads a template that was changed."""

        def load(self) -> Any:
            """The application."""
            found = super().load()
            found.jinja_env.auto_reload = True
            return found

    config = parts.Config(name, origin, door, pathlib.Path(folder), pathlib.Path(copies),
                          ROOT / "deploy" / "site", authority)
    Server(config, f"fd://{socket}").run()


if __name__ == "__main__":
    main()
