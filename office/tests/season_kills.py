"""Those who send rows of commands in the scripted season, each with what leads to its button, the
button, and how it goes on after the application was killed.
"""
import dataclasses
from collections.abc import Callable

from season_hands import Hand, Room
from season_trace import begin_draw, seal

Do = Callable[[Room], None]


@dataclasses.dataclass(frozen=True)
class Sender:
    """A sender of rows: what was kept before it, its day, what leads to it, its button, how it goes
    on, and how many commands it sends.
    """

    kept: str
    day: str
    leads: Do
    send: Do
    goes_on: Do
    many: int


def has(hand: Hand, begin: str) -> bool:
    """Whether a page has a button whose text begins so."""
    return any(it.startswith(begin) for it in hand.page.buttons())


def to_answers(lived: Room) -> None:
    """Three answers are in a batch, and shown."""
    jane = lived.person("jane")
    for it in ("5", "6-", "13"):
        jane.get("/answers/").press("Add", {"entry": it})
    jane.press("Record ")


def answers_go_on(lived: Room) -> None:
    """What waits in the batch is recorded."""
    jane = lived.person("jane").get("/answers/")
    if has(jane, "Record "):
        jane.press("Record ").press("Record ")


def to_reminders(lived: Room) -> None:
    """Reminders of all who are due are shown."""
    lived.person("jane").get("/notices/remind?tick=all").press(
        "Check what is ticked")


def record(lived: Room) -> None:
    """Jane records what is shown."""
    lived.person("jane").press("Record ")


def reminders_go_on(lived: Room) -> None:
    """The rest of the row is recorded."""
    jane = lived.person("jane").get("/notices/")
    jane.get(jane.links("/notices/rows/")[0])
    if has(jane, "Record the other "):
        jane.press("Record the other ")


def to_restore(lived: Room) -> None:
    """A restore is asked for."""
    hal = lived.person("hal")
    hal.get("/draws/3/cancel").press("Pause recording for everyone, to restore copy ")
    hal.press("Ask to restore copy ")
    lived.person("jane").get(hal.path)


def restore(lived: Room) -> None:
    """It is confirmed by a second person, and all that is ticked is sent again."""
    lived.person("jane").press("Restore copy ")


def restore_goes_on(lived: Room) -> None:
    """What is left of it is sent, and the register is opened."""
    jane = lived.person("jane").get("/restores/1")
    for text in ("Go on: send again what was ticked", "Resume recording"):
        if text in jane.page.buttons():
            jane.press(text)


def to_commit(lived: Room) -> None:
    """What is to be stored is shown."""
    lived.person("jane").get("/applications/commit/")


def store(lived: Room) -> None:
    """Jane adds what is shown."""
    lived.person("jane").press("Add ")


def commit_goes_on(lived: Room) -> None:
    """It is stored, unless it is."""
    jane = lived.person("jane").get("/applications/commit/")
    if has(jane, "Add "):
        jane.press("Add ")


def to_schools(lived: Room) -> None:
    """Two schools of the draft are shown."""
    jane = lived.person("jane")
    for at, code in enumerate(("ASH", "BAY")):
        jane.get("/schools/new/").press("Add to the draft", {
            "school": code, "name": code.title(), "pan": "3", "east": str(at), "north": "0"})
    jane.press("Store 2 schools")


def store_schools(lived: Room) -> None:
    """Jane stores what is shown."""
    lived.person("jane").press("Store ")


def schools_go_on(lived: Room) -> None:
    """The others are stored."""
    jane = lived.person("jane").get("/schools/new/")
    if has(jane, "Store "):
        jane.press("Store ").press("Store ")


def to_fills(lived: Room) -> None:
    """Two fills are confirmed."""
    lived.person("olga").get("/schools/OAK/raise?pan=4").press("Raise ")
    begin_draw(lived.person("hal"), kind="fill", day="18 March 2025", school="OAK", fills="2")
    seal(lived.person("sup"), 2, "", types=True)
    lived.person("olga").get("/draws/2").press("Confirm ")
    lived.person("hal").get("/draws/2")


def hold(lived: Room) -> None:
    """They are held."""
    lived.person("hal").press("Run ")


def fills_go_on(lived: Room) -> None:
    """The page has the button of what was cut off, and no other one."""
    hal = lived.person("hal").get("/draws/2")
    for it in ("Run ", "Go on", "Audit ", "Resume "):
        if has(hal, it):
            hal.press(it)


SENDERS = {
    "answers": Sender("its letters", "2025-03-10", to_answers, record, answers_go_on, 3),
    "reminders": Sender("answers", "2025-03-18", to_reminders, record, reminders_go_on, 7),
    "again": Sender(
        "a round on a wrong day", "2025-04-28", to_restore, restore, restore_goes_on, 3),
    "applications": Sender(
        "they are corrected", "2024-11-07", to_commit, store, commit_goes_on, 1),
    "schools": Sender(
        "they are corrected", "2024-11-07", to_schools, store_schools, schools_go_on, 2),
    "draws": Sender("answers", "2025-03-18", to_fills, hold, fills_go_on, 2),
}
