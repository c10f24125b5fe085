"""What looks wrong in what is recorded and may be final: a day far from the season or from today, a
home that moves far, an admission number that rises by much.
"""
import datetime

from . import days, texts
from .model import Register

FAR_FROM_TODAY = 60
FAR_MOVE_METRES = 20_000
# an admission number that rises by more than both looks like a slip: a tenth of it, and so many
# places
FAR_PAN_PART, FAR_PAN_PLACES = 10, 5


def season_risk(
    command: str, day: datetime.date, register: Register, is_first_round: bool = False,
) -> str:
    """What is wrong with the day of a command in the season of the register, or "". The first round
    of a register is held on the offer day.
    """
    closing, offer, end = register.days
    if command != "apply":
        if not offer <= day <= end:
            return (f"outside the season: offers are made on {days.in_words(offer)}, and lists"
                    f" close on {days.in_words(end)}")
        is_other = is_first_round and day != offer
        return (f"not right for a first round: the offer day is {days.in_words(offer)}"
                if is_other else "")
    if day > end:
        return f"after the last day of the lists, {days.in_words(end)}: the register refuses it"
    if (closing - day).days > days.EARLIEST_DAYS:
        return (f"{days.EARLIEST} before the closing date, {days.in_words(closing)}: with a wrong"
                " year a late application is in time")
    if not register.is_in_time(day) and not register.draws:
        return (f"after the closing date, {days.in_words(closing)}: the child takes no part in the"
                " first round")
    return ""


def today_risk(day: datetime.date, today: datetime.date) -> str:
    """How far a day is from today, where it is to come or long past; or ""."""
    if today - datetime.timedelta(days=FAR_FROM_TODAY) <= day <= today:
        return ""
    count = texts.count(abs((day - today).days), "day")
    return f"{count} away" if day > today else f"{count} before today"


def is_far_rise(had: int, pan: int) -> bool:
    """Whether an admission number rises so much that a digit may be wrong: it can never be lowered.
    """
    return pan - had > max(had / FAR_PAN_PART, FAR_PAN_PLACES)
