"""What is held of one child: all that was typed of it by any route, and nothing of another child.

Each text of child 1 has a word MINE-.. of its own, and each of another child has the word OTHERS.
"""
import base64
import io
import json
import pathlib
import re
import sqlite3
import zlib
from collections.abc import Iterator

import pytest
from applications import ROUND, SCHOOLS, Browser, Site, child, office_over, town
from pages import Page, press
from staged import Screens, csv_of

from office.web.machinery.outbox import Outbox
from office.web.people.roles import Person
from office.web.register import history
from office.web.register.schema import IN_LINES, OF_CHILD, OF_NOBODY, TABLES
from office.web.register.store import Store

NAMES_OF_OTHERS = ("Ben Bell", "Cole", "Dare", "OTHERS")
FILE = b"%PDF-1.7 a letter of a doctor\x00\xff"
# of child 1, and of child 2
ROWS = (
    (1, "MINE", "Ada Abel"),
    (2, "OTHERS", "Ben Bell"),
)
AT = "2025-03-10T09:00:00.000+00:00"


@pytest.fixture(name="office", scope="module")
def office_fixture(tmp_path_factory: pytest.TempPathFactory) -> Iterator[Site]:
    """The application over the town after its round, in which much was typed of two children."""
    with office_over(tmp_path_factory.mktemp("subject"), [*town(), ROUND]) as found:
        found.add("jane", "officer")
        found.add("rita", "reader")
        jane = found.browser("jane")
        for number, mark, name in ROWS:
            by_screens(jane, number, mark)
            by_commands(found, number, mark, name)
            by_the_history(found, number, mark)
        in_the_store(found.parts.store)
        yield found


def by_screens(jane: Browser, number: int, mark: str) -> None:
    """What an officer types of a child on its screens."""
    path = f"/children/{number}/notes"
    page = Page(jane.get(path).text)
    text = f"{mark}-note\nof two lines \u202e"
    done = press(jane, path, page, f"Add the note to child {number}", text=text)
    assert done.status_code == 303
    given = {"file": (io.BytesIO(FILE), f"{mark}-doctor.pdf")}
    page = Page(jane.get(path).text)
    assert press(jane, path, page, f"Add the file to child {number}", **given).status_code == 303


def by_commands(office: Site, number: int, mark: str, name: str) -> None:
    """What is sent of a child, and what is refused."""
    command = {"cmd": "amend", "child": number, "name": f"{name} {mark}-name", "east": 7,
               "north": 100 * number, "looked_after": False, "flags": [], "siblings": []}
    office.record("jane", command)
    refused = {"cmd": "remind", "child": number, "school": "B", "day": "2025-03-04"}
    office.parts.desk.send(Person("jane", "officer"), refused)


def by_the_history(office: Site, number: int, mark: str) -> None:
    """What the application puts on record of several children at once, and of an import."""
    record = office.parts.history
    head = "child,name,east,north,looked_after,flags,siblings,day,preferences\n"
    rows = "".join(f"{at},{sign}-imported,1,1,no,,,2024-10-01,A\n" for at, sign, _ in ROWS)
    sent = record.add("jane", history.SENDS, {
        "import": head + rows, "points": {str(at): f"{sign}-point" for at, sign, _ in ROWS}})
    record.add("jane", history.ANSWER, {"of": sent.number, "answer": {
        "refused": 3, "child": 2, "name": "OTHERS"}})
    record.add("jane", "recorded letters as sent", {
        "for": "OTHERS: child 2", "set": 90, "day": "2025-03-03", "children": [1, 2],
        "again": [2]})
    record.add("jane", "took letters", {"for": "letters of OTHERS", "set": 7 + number})
    line = json.dumps({"cmd": "aply", "child": number, "why": f"{mark}-line"})
    sent = record.add("jane", history.SENDS, {"line": line})
    record.add("jane", history.SETTLED, {"of": sent.number, "done": False, "why": "no command"})
    record.add("rita", "refused", {"asked": f"/children/{number}/notes", "role": f"{mark}-role"})
    record.add("jane", "audited", {
        "draw": 1, "wrong": [f"{mark}-wrong: child {number} before child {number + 2}"]})
    # (the number that was typed first was wrong)
    record.add("jane", "added an application", {
        "form": number, "child": str(3 - number), "name": f"{mark}-form"})
    record.add("jane", "corrected an application", {
        "row": f"row {number} of both.csv", "number": "99", "name": f'"x" to "{mark}-cell"'})
    record.add("jane", "withdrew applications", {"rows": "1, 2 of both.csv; 5 of OTHERS.csv"})


def in_the_store(store: Store) -> None:
    """What the application keeps of two children, as its parts keep it."""
    with store.writing() as db:
        add(db, "staged_file", id=50, name="both.csv", digest="d", is_form=0, is_uk=0,
            changes="[]", who="jane", added=AT)
        add(db, "draw", id=1, first=1, fills=0, day="2025-03-03", state="held", version=1,
            digest="sealed",
            audit=json.dumps({"audits": [[f"child {at}: {sign}-audit" for at, sign, _ in ROWS]],
                              "wrong": []}))
        add(db, "copy", number=1, purpose="before", asked=AT)
        add(db, "restore", id=1, copy=1, state="done", version=1)
        asked = {"words": "OTHERS", "children": [1, 2], "template": 1, "version": 1,
                 "day": "2025-03-03", "kind": "pdf"}
        add(db, "notice_row", id=1, key="k", kind="remind", day="2025-03-20", who="jane", at=AT,
            said="child 1: MINE-said by child 2")
        add(db, "staged_file", id=51, name="forms", digest="f", is_form=1, is_uk=0, changes="[]",
            who="jane", added=AT)
        for at, sign, _ in ROWS:
            add(db, "staged_row", id=60 + at, file=51, number=at, cells=json.dumps(
                {"child": str(at), "name": f"{sign}-typed-in"}), others="{}", notes="[]",
                state="open", who="jane", added=AT, changed_by="jane", changed=AT)
            add(db, "staged_row", id=50 + at, file=50, number=at, cells=json.dumps(
                {"child": f" {at} ", "name": f"{sign}-staged"}), others=json.dumps(
                {"telephone": f"{sign}-telephone"}), notes="[]", state="open", who="jane",
                added=AT, changed_by="jane", changed=AT)
            add(db, "letter_set", id=7 + at, key=f"set {at}", who="jane", at=AT, state="made",
                asked=json.dumps({**asked, "children": [at]}), total=1)
            add(db, "letter", set_id=7 + at, place=0, child=at, about=f"{sign}-about", words="w",
                html=zlib.compress(f"<style>p</style><p>{sign}-letter &amp; more</p>".encode()))
            add(db, "letter_address", child=at, lines=f"{sign}-street", who="jane", at=AT)
            waits(db, "notice", "1", at, seen=f"{sign}-seen", said=f"{sign}-notice", child=at,
                  school="A")
            add(db, "lot", draw=1, school="A", child=at, fill=0, text=f"{sign}-lot", tie=0)
            add(db, "draw_step", draw=1, version=at, at=AT, who="jane", state="held",
                said=f"child {at}: {sign}-step")
            add(db, "restore_step", restore=1, version=at, at=AT, who="jane", state="done",
                said=f"child {at}: {sign}-restored")
            add(db, "letter_audit", draw=at, outcome="x", is_right=0, who="jane", at=AT,
                said=f"child {at}: {sign}-judged")
            waits(db, "answer", "jane", 0, typed=f"{at} {sign}-typed", child=at,
                  name=f"{sign}-called")
            waits(db, "answer", "jane", 0, typed=f"{at} {sign}-unread")


def waits(
    db: sqlite3.Connection, kind: str, batch: str, place: int, seen: str = "", said: str = "",
    **about: object,
) -> None:
    """Adds what waits to be sent."""
    add(db, "sending", kind=kind, batch=batch, place=place, about=json.dumps(about), seen=seen,
        state="waits", said=said)


def add(db: sqlite3.Connection, table: str, **cells: object) -> None:
    """Adds a row."""
    marks = ", ".join("?" for _ in cells)
    db.execute(f"INSERT INTO {table} ({', '.join(cells)}) VALUES ({marks})", (*cells.values(),))


MINE = {
    "note", "doctor", "name", "form", "imported", "point", "line", "role", "wrong", "cell", "audit",
    "said", "staged", "telephone", "about", "letter", "street", "seen", "notice", "lot", "step",
    "restored", "judged", "typed", "called", "unread",
}


def marks(text: str) -> set[str]:
    """The words of child 1 that a text has."""
    return set(re.findall(r"MINE-(\w+)", text))


def see_no_other(text: str) -> None:
    """A text has nothing of another child."""
    assert [it for it in NAMES_OF_OTHERS if it in text] == []
    assert not re.search(r"\bchild [2-9]\b", text)


def test_all_that_was_typed_of_a_child_is_in_both_and_nothing_of_another(office: Site) -> None:
    jane = office.browser("jane")
    answer = jane.get("/children/1/held.json")
    assert answer.status_code == 200 and answer.mimetype == "application/json"
    assert answer.headers["Content-Disposition"] == 'attachment; filename="child-1-held.json"'
    page = jane.get("/children/1/held.html").text
    assert marks(answer.text) == MINE and marks(page) == MINE
    see_no_other(answer.text)
    see_no_other(page)
    for words in ("Looked after", "Verified reasons", "Year of entry", "Rounds and offers"):
        assert f"<dt>{words}</dt>" in page, words
    found = json.loads(answer.text)
    assert [base64.b64decode(it["data"]) for it in found["office"]["child_file"]] == [FILE]
    # by hand: the second lives nearest after the first, and both have places at A, which has two
    assert found["register"]["place"] == {"school": "A", "kind": "offered", "day": "2025-03-03"}
    # (the lots of a round go school by school, and there by the numbers of the children)
    assert found["register"]["draws"][0]["lots"] == {"A": 1, "B": 5}
    assert found["register"]["data"]["name"] == "Ada Abel MINE-name"
    assert "\u202e" in answer.text and "\u202e" not in page and "\\u202e" in page
    assert "MINE-letter &amp; more" in page and "<script" not in page


def test_an_entry_about_several_children_names_the_one_alone(office: Site) -> None:
    found = office.browser("jane").get("/children/1/held.json").json["history"]
    abouts = [it["about"] for it in found if it["what"] == "recorded letters as sent"]
    assert [(it["children"], it.get("again")) for it in abouts] == [([1], None)] * 2


def test_a_child_is_known_by_its_whole_number_and_not_by_its_name(
    tmp_path_factory: pytest.TempPathFactory,
) -> None:
    """Children 1, 12 and 2, of whom 1 and 2 have one name: what is typed of each is held of that
    one alone, on each screen.
    """
    named = {1: "Ada Abel", 12: "Lou Lane", 2: "Ada Abel"}
    children = [child(number, name, 100 * number) for number, name in named.items()]
    with office_over(tmp_path_factory.mktemp("alike"), [*SCHOOLS, *children]) as office:
        jane = office.browser("jane")
        for number in named:
            path = f"/children/{number}/notes"
            page = Page(jane.get(path).text)
            button, text = f"Add the note to child {number}", f"note-{number}."
            done = press(jane, path, page, button, text=text)
            assert done.status_code == 303
            given = {"file": (io.BytesIO(FILE), f"file-{number}.pdf")}
            page = Page(jane.get(path).text)
            done = press(jane, path, page, f"Add the file to child {number}", **given)
            assert done.status_code == 303
            jane.post("/answers/", {"entry": f"perhaps unread-{number}."})
            row = {"child": str(number), "name": f"form-{number}."}
            with office.parts.store.writing() as db:
                if number == 1:
                    add(db, "staged_file", id=9, name="forms", digest="f", is_form=1, is_uk=0,
                        changes="[]", who="jane", added=AT)
                add(db, "staged_row", file=9, number=number, cells=json.dumps(row), others="{}",
                    notes="[]", state="open", who="jane", added=AT, changed_by="jane", changed=AT)
        office.parts.history.add("jane", "recorded letters as sent", {
            "for": "Offers", "set": 7, "day": "2025-03-03", "children": [12], "again": []})
        for number in named:
            found = jane.get(f"/children/{number}/held.json")
            abouts = [it["about"].get("child", number) for it in found.json["history"]]
            assert len(abouts) > 1 and {str(it) for it in abouts} == {str(number)}
            sent = [it for it in found.json["history"] if it["what"] == "recorded letters as sent"]
            assert len(sent) == (number == 12)
            text = found.text
            for kind in ("note", "file", "unread", "form"):
                got = set(re.findall(rf"\b{kind}-(\d+)\.", text))
                assert got == {str(number)}, (number, kind, got)


def test_the_name_of_a_file_may_look_like_rows(tmp_path: pathlib.Path) -> None:
    """Millions that it seems to name are not gone through, and its own row is found."""
    name = "a; 1 to 9999999 of b.csv"
    with office_over(tmp_path, [*SCHOOLS, child(1, "Ada Abel", 100)]) as office:
        jane = office.browser("jane")
        screens = Screens(jane)
        rows = [f"{it},Ada Abel,0,100,no,,,2024-10-20,A," for it in (2, 1)]
        assert screens.add((name, csv_of(*rows))).status_code == 303
        for it in screens.see().rows():
            assert screens.withdraw(it).status_code == 303
        found = jane.get("/children/1/held.json").json["history"]
        assert [it["about"] for it in found if it["what"] == "withdrew applications"] == [
            {"rows": f"3 of {name}"}]


def test_who_asked_is_on_record_before(office: Site) -> None:
    jane, before = office.browser("jane"), len(office.parts.history.entries)
    assert jane.get("/children/1/held.json").status_code == 200
    entries = [it for it in office.parts.history.entries[before:] if it.what != "signed in"]
    assert [(it.who, it.what, it.about) for it in entries] == [
        ("jane", "printed what is held of a child", {"child": 1})]


def test_only_who_may_see_notes_gets_it(office: Site) -> None:
    rita, before = office.browser("rita"), len(office.parts.history.entries)
    assert rita.get("/children/1/held.json").status_code == 403
    assert not any(it.what.startswith("printed what")
                   for it in office.parts.history.entries[before:])
    assert "held.json" not in rita.get("/children/1").text
    assert office.browser("jane").get("/children/9/held.json").status_code == 404
    jane = office.browser("jane")
    assert "/children/1/held.json" in jane.get("/children/1?part=notes").text


def test_each_table_of_the_application_is_known(tmp_path: pathlib.Path) -> None:
    """A new table must be said to have something of a child, or nothing; and a view to be one."""
    store = Store(str(tmp_path / "office.db"))
    names = {it["name"]: it["type"] == "view" for it in store.rows(
        "SELECT name, type FROM sqlite_master WHERE type IN ('table', 'view')"
        " AND name NOT LIKE 'sqlite%'")}
    assert {name: it.is_view for name, it in TABLES.items()} == names
    for table, it in TABLES.items():
        query_of = f"SELECT name FROM pragma_table_info('{table}')"
        columns = {row["name"] for row in store.rows(query_of)}
        assert ("child" in columns) == (it.whose == OF_CHILD or table == "lot"), table
        assert bool(it.lines) == (it.whose == IN_LINES), table
        assert {*it.lines, *it.changing} <= columns, table
        assert it.is_of_season or it.whose == OF_NOBODY, table
    store.close()


def test_what_is_sent_in_rows_is_shown_by_views(tmp_path: pathlib.Path) -> None:
    """Of each kind: what an archive has in place of the table."""
    store = Store(str(tmp_path / "office.db"))
    kinds = {"answer": "answer", "notice": "notice", "again": "again", "school": "school_draft",
             "import": "staged_import"}
    own = [it for it in Outbox.__subclasses__() if it.__module__.startswith("office.")]
    assert {it.kind for it in own} == kinds.keys()
    with store.writing() as db:
        for kind in kinds:
            waits(db, kind, "1", 1)
    for view in kinds.values():
        assert TABLES[view].is_view and len(store.rows(f"SELECT * FROM {view}")) == 1, view
    store.close()
