"""The application as `python3 -m office.web` serves it: the day in the file TODAY is today, and
where MOST_ROWS is set, a request with applications takes as many of them.
"""
import datetime
import os
import pathlib

FILE = pathlib.Path(os.environ["TODAY"])
Date = datetime.date


class Day(Date):
    """A day, of which one is today."""

    @classmethod
    def today(cls) -> "Day":
        """The day of the file."""
        return cls.fromisoformat(FILE.read_text("ascii"))


def main() -> None:
    """Serves it."""
    setattr(datetime, "date", Day)
    # (what it imports takes the class from there)
    from office.web import __main__
    from office.web.applications import commit
    from office.web.copies import copies

    commit.MOST_ROWS = int(os.environ.get("MOST_ROWS", commit.MOST_ROWS))

    # (on a machine that is busy a copy takes longer than on that of an office)
    copies.BEGIN_SECONDS = copies.BACK_SECONDS = 600.0
    __main__.main()


if __name__ == "__main__":
    main()
