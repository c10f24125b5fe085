"""The clock of a season that is tried, in this process: `datetime` shows a moment of the season,
and goes on from there. It is imported before the office's application, which has no setting for it.
"""
import datetime
from typing import Any

Date = datetime.date
Moment = datetime.datetime


class Kind(type):
    """Has the days and moments of any class taken for those of the season."""

    def __instancecheck__(cls, it: object) -> bool:
        """Whether it is one of the class below."""
        return isinstance(it, cls.__mro__[1])


class SeasonDate(Date, metaclass=Kind):
    """A day, of which today is one of the season."""

    @classmethod
    def today(cls) -> Any:
        """The day of the season."""
        return now().date()


class SeasonMoment(Moment, metaclass=Kind):
    """A moment, of which now is one of the season."""

    @classmethod
    def now(cls, tz: datetime.tzinfo | None = None) -> Any:
        """The moment of the season."""
        return now(tz)


AHEAD = {"by": datetime.timedelta()}


def now(zone: datetime.tzinfo | None = None) -> Moment:
    """The moment of the season, by the zone of this machine or another one."""
    return Moment.now(zone) + AHEAD["by"]


def begin(moment: Moment) -> None:
    """Has it be this moment now."""
    AHEAD["by"] = moment.astimezone() - Moment.now().astimezone()
    setattr(datetime, "date", SeasonDate)
    setattr(datetime, "datetime", SeasonMoment)
