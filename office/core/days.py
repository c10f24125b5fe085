"""Days: how they are read and printed."""
import datetime
import re

from .rules import RULES

FIRST, LAST = (
    datetime.date.fromisoformat(RULES["limits"]["day"][it]) for it in ("least", "most")
)
# so long a family has to answer an offer, and as long again to answer the reminder of it
NOTICE = datetime.timedelta(days=RULES["limits"]["notice"]["least"])
# a day of deletion is kept only if it is so far ahead, so that IT support can object
DELETION_NOTICE = datetime.timedelta(days=14)
# before the closing date; primary applications are made from 1 September on, and it closes on
# 15 January
EARLIEST_DAYS, EARLIEST = 136, "more than four months"
MONTHS = (
    "january",
    "february",
    "march",
    "april",
    "may",
    "june",
    "july",
    "august",
    "september",
    "october",
    "november",
    "december",
)

# as 3rd March 2025
NAMED_MONTH = r"([0-9]{1,2})(?:st|nd|rd|th)?[-/. ]+([A-Za-z]{3,9})\.?,?[-/. ]+([0-9]{4})"


def today() -> datetime.date:
    """The day of today, by the clock of this machine."""
    return datetime.date.today()


def answer_by(since: datetime.date) -> datetime.date:
    """The last day on which a family may answer an offer, or a reminder, of a day."""
    return since + NOTICE


def due_from(since: datetime.date) -> datetime.date:
    """The day after it, from which the reminder or the withdrawal is due. The register accepts them
    on the last day of the answer already.
    """
    return answer_by(since) + datetime.timedelta(days=1)


def read(text: str) -> datetime.date | None:
    """The day of a text YYYY-MM-DD, from the first to the last that the program takes, or None."""
    if not re.fullmatch(r"[0-9]{4}-[0-9]{2}-[0-9]{2}", text, re.ASCII):
        return None
    return real(int(text[:4]), int(text[5:7]), int(text[8:]))


def real(year: int, month: int, day: int) -> datetime.date | None:
    """The day of these numbers, or None where there is none or it is out of range."""
    try:
        found = datetime.date(year, month, day)
    except ValueError:
        return None
    return found if FIRST <= found <= LAST else None


def in_words(day: datetime.date) -> str:
    """As a letter has it: 3 March 2025."""
    return f"{day.day} {MONTHS[day.month - 1].capitalize()} {day.year}"


def readings(text: str) -> set[datetime.date]:
    """The days that a text can mean which is not YYYY-MM-DD. None or one is no question, two
    are."""
    text = re.sub(r"[ T]00:00(:00(\.0+)?)?$", "", text.strip())
    if found := re.fullmatch(r"([0-9]{4})[-/. ]([0-9]{1,2})[-/. ]([0-9]{1,2})", text, re.ASCII):
        year, one, other = map(int, found.groups())
        return {day for day in (real(year, one, other),) if day}
    if found := re.fullmatch(r"([0-9]{1,2})[-/. ]([0-9]{1,2})[-/. ]([0-9]{4})", text, re.ASCII):
        one, other, year = map(int, found.groups())
        return {day for day in (real(year, other, one), real(year, one, other)) if day}
    if found := re.fullmatch(NAMED_MONTH, text, re.ASCII):
        named = [at for at, it in enumerate(MONTHS, 1) if it.startswith(found[2].lower())]
        day = real(int(found[3]), named[0], int(found[1])) if len(named) == 1 else None
        return {day} if day else set()
    return set()


def uk_reading(text: str) -> datetime.date | None:
    """The day of a text that is read as day, month, year, or None."""
    found = re.fullmatch(r"([0-9]{1,2})[-/. ]([0-9]{1,2})[-/. ]([0-9]{4})", text.strip(), re.ASCII)
    return real(int(found[3]), int(found[2]), int(found[1])) if found else None
