"""The scripted season: what six people and their administrator do, by paths, forms and the texts of
buttons alone, and what is observed of it.

    ADMISSIONS=PROGRAM /usr/bin/python3 office/tests/season_trace.py --update

writes the files of season_trace/ anew, for a change that was reviewed. Their values are those of
the product when they were written: they say whether its behaviour moved, and not whether it is
right, which other tests say.
"""
import io
import pathlib
import re
import shutil
import sys
import tempfile
from collections.abc import Callable

import openpyxl
from conftest import make
from draw_site import NAME
from season_hands import Hand, Room, room
from season_observed import EXPECTED, Trace
from staged import csv_of, workbook

ROLES = {"ann": "administrator", "jane": "officer", "olga": "officer", "sup": "supervisor",
         "abbey": "school-OAK", "rita": "reader"}
SCHOOLS = """school,name,pan,east,north,criteria
OAK,Oak & Ash,3,0,0,sibling;within:1500
ELM,Elm Grove,3,3000,0,flag:2;sibling
YEW,"Ysgol Tŷ Ywen, Upper",2,1500,1500,feeder:PRIM7
FIR,Fir Hill,5,0,4000,
"""
# two children have one name, and the number of one is the begin of those of others; three live in
# one house; two apply late
ROWS = (
    "1,Sam Reed,100,0,no,,,2024-10-01,OAK;ELM;FIR,",
    "2,\"Ann \"\"Nan\"\" O'Abel\",200,0,yes,,,2024-10-02,OAK;ELM,",
    "3,Bo & Bell,900,100,no,,OAK,2024-10-03,OAK;YEW,PRIM7",
    "4,Siân Tŷ Gwyn,300,0,no,2,,2024-10-04,ELM;OAK;FIR,",
    "5,Cyd <b>Cole</b>,700,100,no,,,2024-10-05,OAK;ELM;FIR,",
    "6,Dai Cole,700,100,no,,,2024-10-05,OAK;ELM;FIR,PRIM7",
    "7,Efa Cole,700,100,no,,,2024-10-05,OAK;FIR,",
    "8,Farid Khan,2900,0,no,,ELM,2024-10-31,ELM;OAK,",
)
SHEET: list[list[object]] = [
    [9, "Grace Hill", 1500, 1400, "no", "", "", "2024-10-09", "YEW;OAK", "PRIM7"],
    [10, "Huw Ellis", 1200, 1500, "no", "", "", "31/11/2024", "YEW;FIR", ""],
    [11, "Iona Ash", 2500, 0, "no", "1", "", "2024-11-05", "ELM;YEW", ""],
    [12, "Sam Reed", 2600, 10, "no", "", "", "2024-10-11", "ELM;ELK", ""],
    [13, "José Ó Briain", 150, 3000, "no", "", "", "2024-10-12", "FIR;OAK", ""],
    [13, "José Ó Briain", 250, 3000, "no", "", "", "2024-10-12", "FIR;OAK", ""],
    [14, "Kit Moor", 3000, 200, "no", "", "", "2024-10-13", "ELM;FIR", ""],
]
SENDER = {"office": "Borough of Tŷ & Sons", "address": "Civic Hall\n2 Low Street\nTown TN1 1AA",
          "telephone": "020 7946 0000", "email": "", "website": "", "opening": "", "closing": "",
          "signs": "Mary Head, Borough of Tŷ"}
ADDRESSES = "child,name,address 1,address 2\n" + "".join(
    f"{it},Parent of {it},{it} High Street,Town\n" for it in range(1, 15))
Step = Callable[[Room, Trace], None]


def people(lived: Room, _: Trace) -> None:
    """The head arrives, and adds an administrator, who adds the others."""
    hal = lived.person("hal").arrive(lived.first_password())
    by = hal
    for who, role in ROLES.items():
        if who == "abbey":
            # (the school is stored first)
            continue
        by.get("/people/").press("Add", {"name": who, "role": role, "kind": "person"})
        lived.person(who).arrive(by.page.by_id["secret"])
        by = lived.person("ann")


def schools(lived: Room, _: Trace) -> None:
    """The schools of a sheet are stored; and the words of flags."""
    hal, jane = lived.person("hal"), lived.person("jane")
    jane.get("/schools/new/").press(
        "Add to the draft", files={"sheet": ("schools.csv", SCHOOLS.encode())}, at=1)
    jane.press("Store 4 schools")
    hal.get("/flags/").press("Store the words", {"flag-1": "medical need",
                                                 "flag-2": "child of a member of staff"})
    ann, abbey = lived.person("ann"), lived.person("abbey")
    ann.get("/people/").press("Add", {"name": "abbey", "role": ROLES["abbey"], "kind": "person"})
    abbey.arrive(ann.page.by_id["secret"])


def applications(lived: Room, trace: Trace) -> None:
    """Two files, of which one has faults, and a child in a form."""
    jane, olga = lived.person("jane"), lived.person("olga")
    jane.get("/applications/").press("Add the files", files={
        "files/1": ("first.csv", csv_of(*ROWS)), "files/2": ("second.xlsx", workbook(SHEET))})
    trace.page(jane, "/applications/", ", with faults")
    olga.get("/applications/add/").press(
        "Add the child to the table", {
            "name": "Lowri Vaughan", "east": "800", "north": "100", "looked_after": "no",
            "day": "14/10/2024", "preference-1": "OAK", "preference-2": "Fir Hill"})


def row_of(hand: Hand, child: str, at: int = 0) -> str:
    """The row of a child in the table: of several the one at this place."""
    hand.get(f"/applications/?show=all&find={child}")
    return [it.removeprefix("row-") for it in hand.page.by_id if it.startswith("row-")][at]


def corrections(lived: Room, _: Trace) -> None:
    """What is wrong is corrected at its cells, and one row is set aside."""
    jane, olga = lived.person("jane"), lived.person("olga")
    day, listed = f"day-{row_of(jane, '10')}", f"preferences-{row_of(jane, '12')}"
    jane.get("/applications/").press("Save what was changed", {
        day: "2024-10-10", listed: "ELM;YEW"})
    olga.press("Set aside", {"aside": row_of(olga, "13", 1)})


def commit(lived: Room, _: Trace) -> None:
    """All are stored."""
    olga = lived.person("olga")
    olga.get("/applications/commit/").press("Add ")


def begin_draw(hal: Hand, **given: str) -> None:
    """A draw is begun, and the register is closed for it."""
    hal.get("/draws/").press("Begin", given)
    close_for_draw(hal)


def close_for_draw(hal: Hand) -> None:
    """The register is closed for the draw of the page."""
    agreed = hal.page.fields.get("agreed")
    hal.press("Pause recording for everyone", {"agreed": agreed["value"]} if agreed else {})


def lots_of_workbook(sheet: bytes) -> bytes:
    """The Excel file of lots, filled for those pairs that only a lot can separate: they are first.
    """
    book = openpyxl.load_workbook(io.BytesIO(sheet))
    page = book.active
    head = [str(it.value).lower() for it in page[1]]
    for at, row in enumerate(page.iter_rows(min_row=2, max_row=9), 1):
        row[head.index("lot")].value = 1000 - 7 * at
    made = io.BytesIO()
    book.save(made)
    return made.getvalue()


def seal(sup: Hand, page: int, seed: str, by_workbook: bool = False, types: bool = False) -> None:
    """The supervisor has lots by an Excel file, and types or draws the others, and seals them."""
    if by_workbook:
        sheet = sup.file(f"/lots/{page}/sheet.xlsx")
        sup.get(f"/lots/{page}").press("Add the lots of the file", files={
            "file": ("lots.xlsx", lots_of_workbook(sheet))})
    sup.get(f"/lots/{page}")
    if types:
        form = sup.form("Save")
        cells = [it for it, given in form.values.items()
                 if f"was-{it}" in form.values and given == [""]]
        sup.press("Save", {it: str(500 - 3 * at) for at, it in enumerate(cells)})
    else:
        sup.press("Draw ", {"seed": seed})
    sup.get(f"/lots/{page}/seal").press("Seal the lots of ")


def held(lived: Room, page: int, second: str) -> None:
    """A draw whose lots are sealed is confirmed by a second person, and held."""
    lived.person(second).get(f"/draws/{page}").press("Confirm ")
    lived.person("hal").get(f"/draws/{page}").press("Run ")


def first_round(lived: Room, trace: Trace) -> None:
    """A round, whose lots come in an Excel file and by a seed."""
    begin_draw(lived.person("hal"), kind="round", day="3 March 2025")
    seal(lived.person("sup"), 1, "05 17 23 31 44 48", by_workbook=True)
    trace.file("sealed.txt of draw 1", lived.person("sup").file("/lots/1/sealed.txt"))
    held(lived, 1, "jane")


def corrected(hand: Hand, child: int, **given: str) -> None:
    """The data of a child are corrected in its form."""
    hand.get(f"/children/{child}/correct").press("Compare with the register", given)
    hand.press("Correct the details of ")


def notes(lived: Room, trace: Trace) -> None:
    """A correction of a child, notes, one of which is struck out, and files of children."""
    jane, olga = lived.person("jane"), lived.person("olga")
    corrected(jane, 12, east="2650", name="Samuel Reed")
    corrected(jane, 12, name="Sam Reed")
    for child in (1, 12, 10):
        olga.get(f"/children/{child}/notes").press(
            f"Add the note to child {child}", {"text": f"The family of {child} rang.\nThey move."})
    jane.get("/children/12/notes").press("Add the file to child 12", files={
        "file": ("letter of a doctor.txt", b"a letter\n")})
    jane.get("/children/12/notes/2/strike").press("Strike out note 2 of ", {
        "why": "not this child"})
    trace.file("file 1 of child 12", olga.file("/children/12/files/1"))


def letters(hand: Hand, trace: Trace, name: str, path: str, kind: str, day: str) -> str:
    """A set of letters to those of a list, and its file; the path of its page."""
    hand.get(path).press(
        "Make the letters of those ticked", {"kind": kind, "day_of_letters": day})
    trace.file(name, hand.file(f"{hand.path}/file"))
    return hand.path


def first_letters(lived: Room, trace: Trace) -> None:
    """The office on its letters, addresses, and the letters of the first round: as a mail merge,
    and on paper, which are recorded as sent, taken back, and recorded again.
    """
    jane, olga = lived.person("jane"), lived.person("olga")
    lived.person("hal").get("/letters/office/").press("Save for all letters", SENDER)
    whom = "/letters/whom?whom=offers&draw=1"
    letters(jane, trace, "letters of draw 1, without addresses", whom, "merge", "3 March 2025")
    olga.get("/letters/addresses/").press("Show these addresses", {"way": "child"}, {
        "file": ("addresses.csv", ADDRESSES.encode())})
    olga.press("Store ")
    page = letters(jane, trace, "letters of draw 1", whom, "pdf", "3 March 2025")
    jane.press("Record ", {"day": "3 March 2025"})
    jane.press("Undo the record of ", {"reason": "they are not in the post yet"})
    jane.get(page).press("Record ", {"day": "4 March 2025"})


def record_answers(hand: Hand) -> None:
    """The batch is recorded."""
    hand.get("/answers/").press("Record ").press("Record ")


def answers(lived: Room, _: Trace) -> None:
    """Answers: typed, pasted, and of a sheet; one of them with the name of two children."""
    jane, olga = lived.person("jane"), lived.person("olga")
    for it in ("1", "2-", "Efa Cole", "Sam Reed"):
        jane.get("/answers/").press("Add", {"entry": it})
    jane.press("Remove Sam Reed")
    record_answers(jane)
    olga.get("/answers/").press("Add to the batch", {"pasted": (
        "8,Farid Khan,ELM,decline\n9,Grace Hill,YEW,accept")})
    record_answers(olga)
    jane.get("/answers/").press("Add to the batch", {"pasted": ""}, {
        "sheet": ("answers.csv", b"child,name,school,answer\n10,Huw Ellis,YEW,yes\n")})
    record_answers(jane)


def due(lived: Room, trace: Trace, kind: str, out: str) -> None:
    """Those who are due but one are recorded, and their letters, which are made by themselves."""
    jane = lived.person("jane")
    jane.get(f"/notices/{kind}?tick=all")
    chosen = [it for it in jane.form("Check what is ticked").values["child"]
              if it != out]
    jane.press("Check what is ticked", {"child": chosen}).press("Record ")
    found = jane.get(jane.path)
    paths = [it for it in found.page.stops if it == "take"]
    assert paths, found.last.text
    trace.file(f"letters of {kind}", jane.file(str(jane.page.fields["take"]["href"])))
    jane.press("Record ")


def reminders(lived: Room, trace: Trace) -> None:
    """Reminders of all who are due but one."""
    due(lived, trace, "remind", "15")


def fills(lived: Room, trace: Trace) -> None:
    """An admission number is raised, and two vacancies are filled in one closure, by typed lots."""
    lived.person("olga").get("/schools/OAK/raise?pan=4").press("Raise ")
    begin_draw(lived.person("hal"), kind="fill", day="20 March 2025", school="OAK", fills="2")
    seal(lived.person("sup"), 2, "", types=True)
    held(lived, 2, "olga")
    letters(lived.person("olga"), trace, "letters of draw 2", "/letters/whom?whom=offers&draw=2",
            "pdf", "20 March 2025")


def withdrawals(lived: Room, trace: Trace) -> None:
    """Withdrawals of offers of all who are due but one."""
    due(lived, trace, "lapse", "13")


def wrong_round(lived: Room, trace: Trace) -> None:
    """A second round on a wrong day, and what is recorded after it."""
    jane, olga = lived.person("jane"), lived.person("olga")
    begin_draw(lived.person("hal"), kind="round", day="28 April 2025")
    seal(lived.person("sup"), 3, "02 03 19 28 41 47")
    held(lived, 3, "jane")
    trace.file("sealed.txt of the wrong draw 4", lived.person("sup").file("/lots/3/sealed.txt"))
    for it in ("15", "3", "11"):
        jane.get("/answers/").press("Add", {"entry": it})
    record_answers(jane)
    olga.get("/schools/FIR/raise?pan=6").press("Raise ")
    corrected(olga, 7, present="PRIM7")
    jane.get("/children/13/notes").press(
        "Add the note to child 13", {"text": "After the wrong round."})


def restored(lived: Room, trace: Trace) -> None:
    """The copy from before it is restored, what came since is sent again, and the round is held
    once more on another day; an answer to an offer that it makes is sent after it.
    """
    hal, jane, sup = (lived.person(it) for it in ("hal", "jane", "sup"))
    hal.get("/draws/3/cancel").press("Pause recording for everyone, to restore copy ")
    trace.page(hal, hal.path)
    hal.press("Ask to restore copy ")
    path = hal.path
    jane.get(path).press("Restore copy ")
    trace.page(jane, jane.path, ", done")
    hal.get(path).press("Begin round 2 again", {"day": "29 April 2025"})
    close_for_draw(hal)
    sup.get("/lots/4/seal").press("Seal the lots of ")
    held(lived, 4, "olga")
    hal.get(path).press("Send what is ticked")
    trace.page(hal, path, ", at its end")
    trace.file("sealed.txt of draw 4", sup.file("/lots/4/sealed.txt"))
    letters(jane, trace, "letters of draw 4", "/letters/whom?whom=offers&draw=4", "pdf",
            "29 April 2025")


LISTS = ("children/csv", "interest/csv", "list/csv?school=OAK", "moved/csv?draw=4", "season/csv",
         "unplaced/csv", "vacancies/csv", "draws/csv", "children/workbook")


def read(lived: Room, trace: Trace) -> None:
    """What is held of children, lists, explanations, figures, and other pages."""
    jane, rita, abbey = (lived.person(it) for it in ("jane", "rita", "abbey"))
    for child in (1, 10, 12):
        held_of = jane.file(f"/children/{child}/held.json")
        trace.file(f"held.json of child {child}", held_of)
    trace.file("held.html of child 12, its text",
               re.sub(b"<[^>]*>", b" ", jane.file("/children/12/held.html")))
    for name in LISTS:
        trace.file(name, rita.file(f"/lists/{name}"))
    trace.file("OAK.xlsx", abbey.file("/schools/OAK/workbook"))
    trace.file("why of child 12", rita.file("/children/12/why/1/family/pdf"))
    jane.get("/figures/").press("Make the figures, and show them", {"round": "1"})
    trace.page(jane, jane.path)
    taken = jane.ask("POST", *jane.sent("Download the figures of round 1 "))
    trace.file("figures of round 1", taken.data)
    for path in ("/children/1", "/children/12", "/schools/OAK", "/draws/1", "/draws/3", "/draws/4",
                 "/letters/sets/2"):
        trace.page(jane, path)


def archived(lived: Room, trace: Trace) -> None:
    """The last copy and the archive, which is taken, and the day of deletion."""
    hal = lived.person("hal")
    read_field = hal.get("/season-end/").page.fields.get("read")
    hal.press("Make the last copy and the archive",
              {"read": read_field["value"]} if read_field else {})
    taken = hal.ask("POST", *hal.sent("Download the archive", {"kept": "the records office"}))
    trace.file("names of the archive", taken.data)
    hal.get("/season-end/").press("Store the rule", {"months": "1"})
    hal.press("Set the day of deletion", {"reason": "rule of retention 4.2"})


def deleted(lived: Room, _: Trace) -> None:
    """Two persons delete the season."""
    hal, jane = lived.person("hal"), lived.person("jane")
    hal.get("/season-end/").press("Ask to delete ", {"name": NAME})
    jane.get("/season-end/").press("Delete ", {"name": NAME})


STEPS: tuple[tuple[str, str, Step], ...] = (
    ("2024-11-04", "people are added", people),
    ("2024-11-04", "schools are stored", schools),
    ("2024-11-05", "applications are in the table", applications),
    ("2024-11-06", "they are corrected", corrections),
    ("2024-11-07", "they are stored", commit),
    ("2024-11-18", "notes and files", notes),
    ("2025-03-03", "the first round", first_round),
    ("2025-03-04", "its letters", first_letters),
    ("2025-03-10", "answers", answers),
    ("2025-03-18", "reminders", reminders),
    ("2025-03-20", "fills", fills),
    ("2025-04-07", "withdrawals", withdrawals),
    ("2025-04-28", "a round on a wrong day", wrong_round),
    ("2025-04-29", "it is undone, and held again", restored),
    ("2025-05-06", "what is read", read),
    ("2026-01-12", "the archive", archived),
    ("2026-02-28", "the deletion", deleted),
)


# after these the pages of all menus are observed, and after those all is kept for other tests
SEEN_WHOLE = (3, 8, 14)
KEPT = {"they are corrected", "its letters", "answers", "a round on a wrong day"}


def live(folder: pathlib.Path) -> Trace:
    """Lives the season in an empty folder, in which it leaves what is kept."""
    make(folder / "reg.db", [])
    asked: list[str] = []
    with room(folder / "machine", folder / "reg.db", asked=asked) as lived:
        trace = Trace(lived, asked)
        lived.today(STEPS[0][0])
        lived.begin("--person", "hal")
        for at, (day, title, step) in enumerate(STEPS):
            lived.today(day)
            trace.begin(title)
            step(lived, trace)
            trace.point()
            if at in SEEN_WHOLE:
                # (a refusal is on record once a minute: each is seen once)
                trace.pages(all_of_them=at == SEEN_WHOLE[0])
            if title in KEPT:
                lived.keep(folder / title)
    return trace


def main() -> None:
    """Writes the files anew."""
    if sys.argv[1:] != ["--update"]:
        raise SystemExit(__doc__)
    with tempfile.TemporaryDirectory() as folder:
        found = live(pathlib.Path(folder)).found()
    shutil.rmtree(EXPECTED, ignore_errors=True)
    EXPECTED.mkdir()
    for name, text in found.items():
        (EXPECTED / f"{name}.txt").write_text(text, "utf-8")


if __name__ == "__main__":
    main()
