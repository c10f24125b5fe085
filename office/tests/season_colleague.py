"""Pages of the scripted season that show what somebody is about to change, while a colleague
changes it: each brings somebody to a page, has the colleague do something, and says which button is
pressed then.
"""
from collections.abc import Callable

from season_hands import NOTHING, Hand, Room, Typed
from season_trace import begin_draw, corrected, row_of

Pressed = tuple[Hand, str, Typed]
Case = Callable[[Room], Pressed]


def two(lived: Room) -> tuple[Hand, Hand]:
    """Jane, and her colleague."""
    return lived.person("jane"), lived.person("olga")


def answered(hand: Hand, entry: str) -> None:
    """An answer is typed and recorded."""
    hand.get("/answers/").press("Add", {"entry": entry})
    hand.press("Record ").press("Record ")


def cells(lived: Room) -> Pressed:
    """A cell of the table that both correct."""
    jane, olga = two(lived)
    row = row_of(olga, "4")
    jane.get(f"/applications/?edit={row}")
    olga.get(f"/applications/?edit={row}").press("Save what was changed", {f"north-{row}": "11"})
    return jane, "Save what was changed", {f"north-{row}": "12"}


def commit(lived: Room) -> Pressed:
    """What is to be stored, of which a row is corrected meanwhile."""
    jane, olga = two(lived)
    jane.get("/applications/commit/")
    row = row_of(olga, "4")
    olga.get(f"/applications/?edit={row}").press("Save what was changed", {f"north-{row}": "13"})
    return jane, "Add ", NOTHING


def flags(lived: Room) -> Pressed:
    """The words of a flag that both store."""
    jane, olga = two(lived)
    jane.get("/flags/")
    olga.get("/flags/").press("Store the words", {"flag-3": "a twin"})
    return jane, "Store the words", {"flag-3": "a triplet"}


def person(lived: Room) -> Pressed:
    """A role that is given by both."""
    hal, ann = lived.person("hal"), lived.person("ann")
    ann.get("/people/ask?name=rita&what=role&role=officer")
    hal.get("/people/ask?name=rita&what=lock").press("Lock ")
    return ann, "Give ", NOTHING


def draft(lived: Room) -> Pressed:
    """Schools that are to be stored, to which one is added meanwhile."""
    jane, olga = two(lived)
    added = {"north": "0", "pan": "3", "name": "Ash", "school": "ASH", "east": "10"}
    jane.get("/schools/new/").press("Add to the draft", added)
    jane.press("Store 1 school")
    olga.get("/schools/new/").press("Add to the draft", {**added, "school": "BAY", "east": "20"})
    return jane, "Store 1 school", NOTHING


def line(lived: Room) -> Pressed:
    """A line of the draft that both change."""
    jane, olga = two(lived)
    path = jane.get("/schools/new/").links("/schools/new/")[0]
    jane.get(path)
    olga.get(path).press("Change the line", {"pan": "4"})
    return jane, "Change the line", {"pan": "5"}


def correction(lived: Room) -> Pressed:
    """The data of a child that both correct."""
    jane, olga = two(lived)
    jane.get("/children/5/correct").press("Compare with the register", {"east": "701"})
    corrected(olga, 5, east="702")
    return jane, "Correct the details of ", NOTHING


def correcting(lived: Room) -> Pressed:
    """The form of a correction, while a colleague corrects the same."""
    jane, olga = two(lived)
    jane.get("/children/5/correct")
    corrected(olga, 5, east="703")
    return jane, "Compare with the register", {"east": "704"}


def declining(lived: Room) -> Pressed:
    """A place that is to be declined, and is accepted meanwhile."""
    jane, olga = two(lived)
    jane.get("/children/3/decline")
    answered(olga, "3")
    return jane, jane.button("confirm"), NOTHING


def raised(lived: Room) -> Pressed:
    """An admission number that both raise."""
    jane, olga = two(lived)
    jane.get("/schools/OAK/raise?pan=4")
    olga.get("/schools/OAK/raise?pan=5").press("Raise ")
    return jane, "Raise ", NOTHING


def pile(lived: Room) -> Pressed:
    """A batch whose child has answered otherwise meanwhile."""
    jane, olga = two(lived)
    jane.get("/answers/").press("Add", {"entry": "4-"})
    jane.press("Record ")
    answered(olga, "4")
    return jane, "Record ", NOTHING


def notices(lived: Room) -> Pressed:
    """Reminders, of which one child answers meanwhile."""
    jane, olga = two(lived)
    jane.get("/notices/remind?tick=all").press("Check what is ticked")
    answered(olga, "3")
    return jane, "Record ", NOTHING


def closing(lived: Room) -> Pressed:
    """A draw that is to be closed, and is given up meanwhile."""
    hal, jane = lived.person("hal"), lived.person("jane")
    hal.get("/draws/").press("Begin", {
        "kind": "fill", "day": "18 March 2025", "school": "ELM", "fills": "1"})
    jane.get(f"{hal.path}/cancel").press("Cancel ")
    return hal, "Pause recording for everyone", NOTHING


def sealing(lived: Room) -> Pressed:
    """Lots that are to be sealed, of which one is another meanwhile."""
    sup, other = lived.person("sup"), Hand(lived, "sup", lived.person("sup").cookie())
    begin_draw(lived.person("hal"), kind="fill", day="18 March 2025", school="ELM", fills="1")
    path = lived.person("hal").path.replace("draws", "lots")
    names = [it for it in sup.get(path).form("Save").values if it.startswith("was-")]
    typed = {it.removeprefix("was-"): str(at + 5) for at, it in enumerate(names)}
    sup.press("Save", typed)
    sup.get(f"{path}/seal")
    other.get(f"{path}?page=1").press("Save", {next(iter(typed)): "4"})
    return sup, "Seal the lots of ", NOTHING


def confirming(lived: Room) -> Pressed:
    """A draw that two persons confirm."""
    jane, olga = two(lived)
    page = int(lived.person("hal").path.rpartition("/")[2])
    sup = lived.person("sup")
    sup.get(f"/lots/{page}/seal").press("Seal the lots of ")
    jane.get(f"/draws/{page}")
    olga.get(f"/draws/{page}").press("Confirm ")
    return jane, "Confirm ", NOTHING


def holding(lived: Room) -> Pressed:
    """A draw that is to be held, and that is asked to be given up meanwhile."""
    hal, jane = lived.person("hal"), lived.person("jane")
    hal.get(hal.path)
    jane.get(f"{hal.path}/cancel").press("Ask a second person ", {"reason": "a lot was mistyped"})
    return hal, "Run ", NOTHING


def restoring(lived: Room) -> Pressed:
    """A restore that is to be asked for, and is given up meanwhile."""
    hal, jane = lived.person("hal"), lived.person("jane")
    hal.get("/draws/3/cancel").press("Pause recording for everyone, to restore copy ")
    jane.get(hal.path).press("Cancel the restore of copy ")
    return hal, "Ask to restore copy ", NOTHING


def confirming_restore(lived: Room) -> Pressed:
    """A restore that is to be confirmed, and is chosen anew meanwhile."""
    hal, jane = lived.person("hal"), lived.person("jane")
    hal.get("/draws/3/cancel").press("Pause recording for everyone, to restore copy ")
    hal.press("Ask to restore copy ")
    jane.get(hal.path)
    hal.press("Choose once more what is sent again")
    return jane, "Restore copy ", NOTHING


# by what was kept, and the day of it
CASES: dict[str, tuple[str, tuple[Case, ...]]] = {
    "they are corrected": ("2024-11-06", (cells, commit, flags, person, draft, line)),
    "its letters": ("2025-03-04", (correction, correcting, declining, raised, pile)),
    "answers": ("2025-03-18", (notices, closing, sealing, confirming, holding)),
    "a round on a wrong day": ("2025-04-28", (restoring, confirming_restore)),
}
