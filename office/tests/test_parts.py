"""A table of more applications than one request takes: what was confirmed is stored in parts, each
wholly or not at all.
"""
import pathlib
import subprocess
import threading
from collections.abc import Iterator

import pytest
from applications import Site, office_over, site
from conftest import PROGRAM, do, school
from served import served
from staged import Screens, Seen, csv_of
from test_staging import GOOD, TOWN, ended, expected, has, imports, lines, states

from office.core import rules
from office.core.rules import Limit
from office.core.senders import Ended
from office.files import sheet_apart
from office.web.applications import commit as staging_commit
from office.web.applications import imports as staging_imports
from office.web.applications.rows import COMMITTED, OPEN, SENDING
from office.web.register import history


@pytest.fixture(name="office")
def office_fixture(tmp_path: pathlib.Path, monkeypatch: pytest.MonkeyPatch) -> Iterator[Site]:
    """The application over a register with two schools and a child, where a part has five rows."""
    monkeypatch.setattr(staging_commit, "MOST_ROWS", 5)
    with office_over(tmp_path, TOWN) as found:
        yield found


@pytest.fixture(name="screens")
def screens_fixture(office: Site) -> Screens:
    """The screens of an officer."""
    return Screens(office.browser("jane"))


def words(text: str) -> str:
    """A text with one blank between words."""
    return " ".join(text.split())


def test_one_question_is_asked_of_all_parts(office: Site, screens: Screens) -> None:
    """They are shown whole and confirmed once; each is a request of its own, after one copy."""
    screens.add(("a.csv", lines(GOOD)))
    seen = screens.see("commit/")
    assert seen.texts["verdict"] == "12 applications can be added: 11 in time and 1 late."
    assert "They are added in 3 parts of at most 5" in words(seen.texts["in-parts"])
    assert "Add 12 applications" in seen.buttons and "Ada Abbot" in seen.text
    done = screens.store()
    assert done.status_code == 303
    page = Seen(screens.browser.get(done.location).text)
    assert "Added to the register: 12 applications." in page.texts["answer"]
    assert has(office.parts.desk.now()) == expected(GOOD) and states(office) == {COMMITTED: 12}
    assert [it["import"].count("\n") - 1 for it in imports(office)] == [5, 5, 2]
    assert office.copied == ["before applications are added"]
    assert screens.store(seen.value("digest")).location == done.location
    assert len(imports(office)) == 3


def test_a_part_has_no_more_bytes_than_a_request(
    office: Site, screens: Screens, monkeypatch: pytest.MonkeyPatch
) -> None:
    """Long rows make smaller parts."""
    monkeypatch.setattr(staging_commit, "MOST_BYTES", 200)
    screens.add(("a.csv", lines(GOOD)))
    assert screens.store().status_code == 303
    sent = [it["import"] for it in imports(office)]
    assert len(sent) > 3 and all(len(it.encode()) <= 200 for it in sent)
    assert has(office.parts.desk.now()) == expected(GOOD)


def test_a_part_that_is_refused_ends_it(
    office: Site, screens: Screens, monkeypatch: pytest.MonkeyPatch
) -> None:
    """The parts before it are stored; its rows and those after it are in the table, which is said
    with the row that the register does not take.
    """
    screens.add(("a.csv", lines(GOOD)))
    sender = office.parts.desk.sender
    real = sender.imported
    # (what the program refuses and the check does not: by a fault that is put in on the way)
    monkeypatch.setattr(sender, "imported", lambda rows: real(rows.replace(b",1600,", b",1e9,")))
    found = screens.store()
    assert found.status_code == 409
    answer = words(Seen(found.text).texts["answer"])
    assert answer.startswith(
        "5 of 12 applications were added to the register. Part 2 of 3 was not added, and 7 rows"
        " are in the table again. The register does not take row 8 of a.csv: ")
    assert "Gus Grant" in Seen(found.text).texts["refused"]
    assert states(office) == {COMMITTED: 5, OPEN: 7} and len(imports(office)) == 2
    assert has(office.parts.desk.now()) == expected(GOOD[:5])
    monkeypatch.setattr(sender, "imported", real)
    assert screens.store().status_code == 409
    screens.save(screens.see().row("row 8 of a.csv"))
    done = screens.store()
    assert "Added to the register: 7 applications." in screens.browser.get(done.location).text
    assert has(office.parts.desk.now()) == expected(GOOD)


def test_the_page_says_which_part_is_sent(
    office: Site, screens: Screens, monkeypatch: pytest.MonkeyPatch
) -> None:
    """Meanwhile no row of the whole set can be changed."""
    committing, sender = office.app.extensions["staging"].committing, office.parts.desk.sender
    real, came, may_go = sender.imported, threading.Event(), threading.Event()

    def slow(rows: bytes) -> bytes:
        if b"Finn" in rows:
            came.set()
            assert may_go.wait(60)
        return real(rows)

    screens.add(("a.csv", lines(GOOD)))
    digest = screens.digest()
    row = screens.see().row("row 13 of a.csv")
    form = {**screens.see(f"?edit={row}").sent(), f"name-{row}": "Lou Lambert"}
    monkeypatch.setattr(sender, "imported", slow)
    monkeypatch.setattr(committing, "wait", 0.0)
    found = screens.store(digest)
    assert found.status_code == 303 and came.wait(60)
    page = Seen(screens.browser.get(found.location).text)
    assert ("part 2 of 3: 5 applications are sent to the register, which takes all or none of a"
            " part; 5 of 12 are added." in words(page.texts["work"]))
    assert states(office) == {COMMITTED: 5, SENDING: 7}
    assert screens.store(digest).location == found.location
    other = Screens(office.browser("bo")).store(digest)
    assert other.status_code == 409 and staging_imports.CHANGED in other.text
    may_go.set()
    ended(office)
    page = Seen(screens.browser.get(found.location).text)
    assert page.texts["answer"] == "Added to the register: 12 applications."
    assert screens.browser.post("/applications/", form).status_code == 409
    assert has(office.parts.desk.now()) == expected(GOOD)


@pytest.mark.parametrize("meanwhile, said", [
    ("", ""), ("changed", "Its rows are read otherwise now than as they were shown."),
    ("restored", "The register was restored meanwhile.")])
def test_what_became_of_a_part_is_not_known(
    office: Site, screens: Screens, monkeypatch: pytest.MonkeyPatch, meanwhile: str, said: str
) -> None:
    """Where the register does not answer after the sending, the parts wait; then the present one is
    found, and those after it are sent, if all is as it was.
    """
    screens.add(("a.csv", lines(GOOD)))
    digest, sender, store = screens.digest(), office.parts.desk.sender, office.parts.store
    real_import, real_ask = sender.imported, sender.ask

    def broken(rows: bytes) -> bytes:
        found = real_import(rows)
        if b"Finn" in rows:
            monkeypatch.setattr(sender, "ask", away)
            raise Ended("the connection broke")
        return found

    def away(*_: object, **more: object) -> tuple[int, bytes]:
        raise Ended("it does not answer")

    monkeypatch.setattr(sender, "imported", broken)
    found = screens.store(digest)
    assert found.status_code == 409 and "There was no certain answer" in found.text
    assert states(office) == {COMMITTED: 5, SENDING: 7}
    assert "Whether 5 applications of this table are in the register is not known yet" in (
        screens.browser.get("/applications/").text)
    if meanwhile == "changed":
        with store.writing() as db:
            db.execute("UPDATE staged_row SET cells=json_set(cells, '$.name', 'Lou Lambert'),"
                       " version=version+1 WHERE number=13")
    elif meanwhile == "restored":
        office.parts.history.add("hal", history.RESTORED, {"copy": 1, "position": 0})
    monkeypatch.setattr(sender, "ask", real_ask)
    monkeypatch.setattr(sender, "imported", real_import)
    page = screens.see("commit/")
    if meanwhile:
        assert said in page.texts["answer"] and "question" in page.texts
        many = 10 if meanwhile == "changed" else 5
        assert states(office) == {COMMITTED: many, OPEN: 12 - many} and len(imports(office)) == 2
    else:
        assert states(office) == {COMMITTED: 12} and len(imports(office)) == 3
        assert has(office.parts.desk.now()) == expected(GOOD)


def many(first: int, count: int) -> bytes:
    """A file of so many applications, of which none looks like another."""
    return csv_of(*(f"{it},C{it} {it * 7919 % 10007},{it * 3},0,no,,,2024-10-20,OAK,"
                    for it in range(first, first + count)))


def test_a_large_register_is_filled_from_the_table(
    tmp_path: pathlib.Path, monkeypatch: pytest.MonkeyPatch
) -> None:
    """The table has place for as many rows as the register can have children, also for those of one
    file; they are shown by pages, and stored in parts of as many as a request takes.
    """
    path = tmp_path / "reg.db"
    subprocess.run([PROGRAM, "init", path, "secondary", "2025", "--large"], check=True)
    do(path, [school("OAK", pan=500)])
    with served(path) as (address, _), site(tmp_path, address) as office:
        screens = Screens(office.browser("jane"))
        assert screens.add(("a.csv", many(1, 2001))).status_code == 303
        assert screens.add(("b.csv", many(3001, 4))).status_code == 303
        page = screens.see("commit/")
        assert "They are added in 2 parts of at most 2,000" in words(page.texts["in-parts"])
        assert "row 201 of a.csv" in page.text and "row 203 of a.csv" not in page.text
        assert "row 203 of a.csv" in screens.see("commit/?page=2").text
        done = screens.store()
        assert "Added to the register: 2,005 applications." in screens.browser.get(
            done.location).text
        assert len(imports(office)) == 2 and states(office) == {COMMITTED: 2005}
        assert len(office.parts.desk.now().children) == 2005
        monkeypatch.setitem(rules.LARGE, "children", Limit(0, 2010))
        found = screens.add(("c.csv", many(4001, 2011)))
        assert "the table would have 2,011 rows, and has place for 2,010" in (
            Seen(found.text).texts["answer"])


def test_a_file_may_have_a_row_for_each_child_of_a_large_register() -> None:
    """It is read, as an officer may have all applications in one."""
    most = rules.LARGE["children"].most
    assert len(sheet_apart.read("a.csv", many(1, most), None, "").rows) == 1 + most
