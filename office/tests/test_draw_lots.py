"""The lots of a draw: typed, taken from a sheet, drawn by a seed, and sealed."""
import csv
import hashlib
import io
import zipfile

import pytest
from applications import ORIGIN
from draw_site import (
    HAL, MISTYPED, SUP, Fields, Machine, Person, after_round, at_lots, begun, brought, lot_of,
    sealed, typed, version,
)
from pages import Page, press
from register_files import Refused

from office.core.model import Pair
from office.web.people import roles
from office.web.rounds import lot_sheets_apart
from office.web.rounds import lots as draws_lots
from office.web.rounds.drafts import Typed
from office.web.rounds.views import lots as screen


def seeded(seed: str, draw: int, pair: Pair) -> int:
    """The lot of a pair by a seed, as the page says it."""
    text = f"{seed}\n{draw}\n{pair[0]}\n{pair[1]}\n"
    return int(hashlib.sha256(text.encode()).hexdigest()[:8], 16)


def test_sealed_lots_cannot_be_changed(small: Machine) -> None:
    """Neither by the table, nor a sheet, a seed, or a second seal; and a change of the store is
    found at the rehearsal.
    """
    with small.office() as office:
        number = begun(office)
        brought(office, number, "sealed")
        sup = at_lots(office)
        before = office.parts.lots.sheet(number)[1].text()
        name = "lot-OAK-1-0"
        page = sup.post(f"/lots/{number}", {name: "5", f"was-{name}": ""})
        assert page.status_code == 409 and "cannot be changed" in page.text
        assert sup.post(f"/lots/{number}/seed", {"seed": "1"}).status_code == 409
        sheet = (io.BytesIO(b"OAK,1,5\n"), "a.csv")
        assert sup.post(f"/lots/{number}/sheet", {"file": sheet}).status_code == 409
        digest = office.parts.draws.get(number).digest
        again = {"seen": str(version(office, number)), "digest": digest}
        assert sup.post(f"/lots/{number}/seal", again).status_code == 409
        assert office.parts.lots.sheet(number)[1].text() == before
        with office.parts.store.writing() as db:
            db.execute("UPDATE lot SET text='77' WHERE school='OAK' AND child=1")
        with pytest.raises(Refused, match="the lots are not those that were sealed. Cancel it"):
            office.parts.draws.rehearse(HAL, number, version(office, number))


def test_the_first_screen_has_the_lots_that_are_to_be_drawn(small: Machine) -> None:
    """The table with the sheet and the seed, as on its own page; once each child has its lot, all
    of them to be sealed. Not for a supervisor who may not draw them, nor for anybody else.
    """
    with small.office() as office:
        number = begun(office)
        sup, sue = at_lots(office), at_lots(office, "sue")
        office.parts.history.add("hal", "added", {"person": "sue", "role": "supervisor"})
        brought(office, number, "copied")
        assert Page(sup.get("/").text).buttons() == []
        brought(office, number, "lots")
        home, own = (Page(sup.get(it).text) for it in ("/", f"/lots/{number}"))
        table = "Lots, page 1 of 1"
        assert home.tables[table] == own.tables[table] and len(home.tables[table]) == 11
        assert home.buttons() == own.buttons() and home.by_id["lots-title"] == "Lots of round 1"
        assert {f"/lots/{number}/sheet.xlsx", "file", "seed"} <= set(home.stops)
        others = (office.browser(f"one.{it}", it) for it in ("reader", "head", "administrator"))
        for other in (sue, *others):
            assert "/lots.js" not in other.get("/").text
        assert f"/lots/{number}" in Page(sue.get("/").text).stops
        found = press(sup, "/", home, "Save", **{"lot-OAK-1-0": "7"})
        assert found.location == f"/lots/{number}?page=1&done=saved&lots=1"
        assert Fields(sup.get("/").text).values["lot-OAK-1-0"] == "7"
        typed(office, number, lot_of)
        page = Page(sup.get("/").text)
        assert page.buttons() == ["Seal the lots of round 1"] and "/lots.js" not in page.text
        assert len(page.tables["All lots"]) == 11
        assert press(sup, "/", page, "Seal the lots of round 1").status_code == 303
        assert office.parts.draws.get(number).who("sealed") == "sup"
        assert Page(sup.get("/").text).buttons() == []


def test_each_way_from_the_table_saves_it(
    small: Machine, monkeypatch: pytest.MonkeyPatch
) -> None:
    """To any other page, and to all lots: what was typed is not lost by a link."""
    monkeypatch.setattr(screen, "CELLS", 2)
    with small.office() as office:
        number = begun(office)
        brought(office, number, "lots")
        sup = at_lots(office)
        shown = sup.get(f"/lots/{number}")
        page, fields = Page(shown.text), Fields(shown.text).values
        away = [it for it in page.stops if f"/lots/{number}" in it and "sheet." not in it]
        assert away == []
        names = [it for it in fields if it.startswith("lot-")]
        form = page.form("5")
        found = sup.sent(form.action, {**fields, **form.sent_by("5"), names[0]: "77"})
        assert "Lots, page 5 of 5" in Page(found.text).tables
        form = page.form("Save, and show all lots")
        found = sup.post(form.action, {**form.sent_by("Save, and show all lots"), names[1]: "78"})
        assert (found.status_code, found.location) == (303, f"/lots/{number}/seal")
        typed_now = office.parts.lots.sheet(number)[1].cells().values()
        assert sorted(filter(None, typed_now)) == ["77", "78"]


def test_no_step_is_sent_again_by_the_way_back(small: Machine) -> None:
    """Each leads to an address that says what was done: the table, or all lots to be sealed where
    none is missing; but what is saved without a button stays at the table. An address that nobody
    was led to says nothing.
    """
    with small.office() as office:
        number = begun(office)
        brought(office, number, "lots")
        sup = at_lots(office)
        path, table = f"/lots/{number}", f"/lots/{number}?page=1"
        given = {f"lot-OAK-{at}-0": str(at) for at in (1, 2, 3)}
        found = sup.post(path, {**given, "to": "1"})
        assert (found.status_code, found.location) == (303, f"{table}&done=saved&lots=3")
        assert Page(sup.get(found.location).text).said() == "3 lots saved."
        found = sup.post(f"{path}/seed", {"seed": "1 2 3"})
        assert found.location == f"{table}&done=drawn&lots=5"
        last = {"lot-ELM-2-0": "8", "lot-ELM-3-0": "9"}
        found = sup.post(path, last)
        assert found.location == f"{table}&done=saved&lots=2"
        assert "2 lots saved." in sup.get(found.location).text
        found = sup.post(path, {**last, "to": "1"})
        assert found.location == f"{path}/seal?done=saved&lots=0"
        page = Page(sup.get(found.location).text)
        assert page.said() == "What is on this page is saved."
        assert "Seal the lots of round 1" in page.buttons()
        for words in ("done=saved", "done=taken&lots=1", "lots=7", "done=x&lots=7",
                      "done=taken&lots=1&changed=<b>"):
            assert Page(sup.get(f"{table}&{words}").text).said() == ""


def test_what_is_wrong_is_marked_at_its_cell(small: Machine) -> None:
    """A lot of another pair, a text, a number that is too large; each is kept as it was typed, and
    nothing is sealed.
    """
    with small.office() as office:
        number = begun(office)
        brought(office, number, "lots")
        sup = at_lots(office)
        given = {"lot-OAK-1-0": "7", "lot-OAK-2-0": " 007 ", "lot-ELM-1-0": "7",
                 "lot-OAK-3-0": "<b>x</b>", "lot-OAK-4-0": "4294967296", "lot-OAK-5-0": "-1",
                 "lot-ELM-2-0": "٣", "lot-ELM-3-0": "=1+1", "lot-NONE-3-0": "1",
                 "lot-OAK-1-9": "1"}
        page = sup.sent(f"/lots/{number}", given)
        assert page.status_code == 200 and "<b>x" not in page.text
        fields, no_number = Fields(page.text), "has a lot that is no number"
        assert {it: fields.said(it) for it in fields.values if it.startswith("lot-")} == {
            "lot-OAK-1-0": "has the lot of child 2", "lot-OAK-2-0": "has the lot of child 1",
            "lot-OAK-3-0": no_number, "lot-ELM-1-0": "",
            "lot-OAK-4-0": "has a lot above 4294967295", "lot-OAK-5-0": no_number,
            "lot-ELM-2-0": no_number, "lot-ELM-3-0": no_number,
            "lot-ELM-4-0": "", "lot-ELM-5-0": "",
        }
        assert (fields.values["lot-OAK-2-0"], fields.values["lot-OAK-3-0"]) == ("7", "<b>x</b>")
        whole = sup.get(f"/lots/{number}/seal")
        assert "Seal the lots of" not in whole.text and "9 lots are missing or wrong." in whole.text
        with pytest.raises(Refused, match="2 lots are missing and 7 lots are wrong"):
            office.parts.lots.seal(SUP, number, version(office, number), "")


def test_two_at_the_lots_see_each_other(small: Machine) -> None:
    """What one has saved at a cell is not replaced by the page of another: both are shown."""
    with small.office() as office:
        number = begun(office)
        brought(office, number, "lots")
        one, two = at_lots(office), at_lots(office, "sue")
        one.post(f"/lots/{number}", {"lot-OAK-1-0": "1", "was-lot-OAK-1-0": ""})
        given = {"lot-OAK-1-0": "8", "was-lot-OAK-1-0": "", "lot-OAK-2-0": "2",
                 "was-lot-OAK-2-0": ""}
        page = two.post(f"/lots/{number}", given)
        fields = Fields(page.text)
        assert page.status_code == 409
        assert (fields.values["lot-OAK-1-0"], fields.said("lot-OAK-1-0")) == (
            "8", "'1' is saved here")
        assert fields.values["lot-OAK-2-0"] == "2"
        sheet = office.parts.lots.sheet(number)[1]
        assert sheet.cells()[("OAK", 1), 0] == "1" and sheet.cells()[("OAK", 2), 0] == ""
        again = {it: value for it, value in fields.values.items() if "lot-" in it}
        assert two.sent(f"/lots/{number}", again).status_code == 200
        sheet = office.parts.lots.sheet(number)[1]
        assert sheet.cells()[("OAK", 1), 0] == "8" and sheet.cells()[("OAK", 2), 0] == "2"
        # an untouched cell does not take back what somebody else saved there
        one.post(f"/lots/{number}", {"lot-OAK-1-0": "1", "was-lot-OAK-1-0": "1",
                                     "lot-OAK-3-0": "3", "was-lot-OAK-3-0": ""})
        assert office.parts.lots.sheet(number)[1].cells()[("OAK", 1), 0] == "8"


def test_a_seal_is_of_the_lots_that_were_shown(small: Machine) -> None:
    """A lot that is saved between the page and the button is not sealed unseen."""
    with small.office() as office:
        number = begun(office)
        brought(office, number, "lots")
        typed(office, number, lot_of)
        sup = at_lots(office)
        fields = Fields(sup.get(f"/lots/{number}/seal").text).values
        cell = ("OAK", 1), 0
        stored = office.parts.lots.sheet(number)[1].cells()[cell]
        office.parts.lots.save(SUP, number, {cell: Typed(stored, "98")})
        given = {"seen": fields["seen"], "digest": fields["digest"]}
        page = sup.post(f"/lots/{number}/seal", given)
        assert page.status_code == 409 and "have changed since this page was shown" in page.text
        assert office.parts.draws.get(number).state == "lots"


def test_a_seed_draws_those_that_decide_nothing(small: Machine) -> None:
    """Each by its own number, and never one that was typed or that only a lot can separate."""
    with small.office() as office:
        number = begun(office)
        brought(office, number, "lots")
        cell = ("OAK", 4), 0
        office.parts.lots.save(SUP, number, {cell: Typed("", "12")})
        assert office.parts.lots.draw_by_seed(SUP, number, "1 2 3") == 5
        cells = office.parts.lots.sheet(number)[1].cells()
        assert {pair: text for (pair, _), text in cells.items()} == {
            ("OAK", 1): str(seeded("1 2 3", 1, ("OAK", 1))), ("OAK", 2): "", ("OAK", 3): "",
            ("OAK", 4): "12", ("OAK", 5): str(seeded("1 2 3", 1, ("OAK", 5))),
            ("ELM", 1): str(seeded("1 2 3", 1, ("ELM", 1))), ("ELM", 2): "", ("ELM", 3): "",
            ("ELM", 4): str(seeded("1 2 3", 1, ("ELM", 4))),
            ("ELM", 5): str(seeded("1 2 3", 1, ("ELM", 5)))}
        for seed in ("", "  ", "a\nb", "x" * 201, "\x1b[2J"):
            with pytest.raises(Refused, match="a seed is a line"):
                office.parts.lots.draw_by_seed(SUP, number, seed)


def test_a_seed_draws_other_lots_for_each_fill(small: Machine) -> None:
    """Each lot of a row by the number of its own draw: nobody keeps a bad one in each."""
    with small.office() as office:
        after_round(small, office)
        number = begun(office, "OAK", 3, "2025-04-07")
        brought(office, number, "lots")
        assert office.parts.lots.draw_by_seed(SUP, number, "1 2 3") == 6
        cells = office.parts.lots.sheet(number)[1].cells()
        assert {cell: text for cell, text in cells.items() if text} == {
            (pair, at): str(seeded("1 2 3", 2 + at, pair))
            for pair in (("OAK", 4), ("OAK", 5)) for at in range(3)}


def test_a_seed_with_two_equal_lots_is_refused(
    small: Machine, monkeypatch: pytest.MonkeyPatch
) -> None:
    """Which no seed that anybody has found leads to: so the numbers are made equal here."""
    monkeypatch.setattr("office.web.rounds.drafts.by_seed", lambda *_: 5)
    with small.office() as office:
        number = begun(office)
        brought(office, number, "lots")
        with pytest.raises(Refused, match="1 and 4 would have the same lot at ELM: use another"):
            office.parts.lots.draw_by_seed(SUP, number, "1")
        assert not any(office.parts.lots.sheet(number)[1].cells().values())


def workbook(rows: list[list[object]]) -> bytes:
    """A workbook of one sheet."""
    import openpyxl
    book = openpyxl.Workbook()
    for row in rows:
        book.active.append(row)
    out = io.BytesIO()
    book.save(out)
    return out.getvalue()


def test_lots_come_from_a_sheet(small: Machine) -> None:
    """The sheet that the page gives, filled in a spreadsheet: as an Excel file and as CSV."""
    with small.office() as office:
        number = begun(office)
        brought(office, number, "lots")
        sup = at_lots(office)
        given = sup.get(f"/lots/{number}/sheet.csv")
        rows = list(csv.reader(io.StringIO(given.data.decode("utf-8-sig"))))
        assert rows[0] == ["school", "child", "lot"] and len(rows) == 11
        filled: list[list[object]] = [list(rows[0])]
        filled += [[*row[:2], 50 + at] for at, row in enumerate(rows[1:])]
        path = f"/lots/{number}/sheet"
        page = sup.sent(path, {"file": (io.BytesIO(workbook(filled)), "lots.xlsx")})
        assert page.status_code == 200 and "10 lots: 10 new or changed." in page.text
        want = {(str(row[0]), int(str(row[1]))): str(row[2]) for row in filled[1:]}
        cells = office.parts.lots.sheet(number)[1].cells()
        assert {pair: text for (pair, _), text in cells.items()} == want
        part = b"OAK;1;900\r\nOAK;2;901\r\n"
        page = sup.sent(path, {"file": (io.BytesIO(part), "x.csv")})
        assert "2 lots: 2 new or changed." in page.text
        found = sup.client.get(f"/lots/{number}/sheet.xlsx", base_url=ORIGIN)
        assert zipfile.is_zipfile(io.BytesIO(found.data))


def test_the_files_of_a_draw_are_on_record(small: Machine) -> None:
    """The sheet of lots, the sealed lots and the audit name children with their schools: who
    downloads one is on record, once an hour for each.
    """
    with small.office() as office:
        number = begun(office)
        brought(office, number, "lots")
        sup, rita = at_lots(office), office.browser("rita", "reader")
        sheets = [f"/lots/{number}/sheet.{it}" for it in ("xlsx", "csv")]
        seals = [f"/{it}/{number}/sealed.txt" for it in ("lots", "draws")]
        audit = f"/draws/{number}/audit.txt"
        for path in (*sheets, sheets[0]):
            assert sup.get(path).status_code == 200
        assert sup.get(seals[0]).status_code == rita.get(seals[1]).status_code == 404
        brought(office, number, "rehearsed")
        for browser, path in ((sup, seals[0]), (rita, seals[1]), (rita, audit), (rita, audit)):
            assert browser.get(path).status_code == 200
        found = [(it.who, it.about) for it in office.parts.history.entries
                 if it.what == "took a file"]
        assert found == [("sup", {"of": it}) for it in (*sheets, seals[0])] + [
            ("rita", {"of": it}) for it in (seals[1], audit)]
        page = office.browser("hal", "head").get("/activity/").text
        for said, count in (("a sheet of lots", 2), ("the sealed lots of a round or offer", 2),
                            ("the audit of a round or offer", 1)):
            assert page.count(f"Downloaded {said}") == count


def test_each_of_several_fills_has_a_sheet_that_names_it(small: Machine) -> None:
    """A row says of which draw it is, and a file of one draw is not taken for another."""
    with small.office() as office:
        after_round(small, office)
        number = begun(office, "OAK", 2)
        brought(office, number, "lots")
        sup = at_lots(office)
        given = sup.get(f"/lots/{number}/sheet.csv?fill=1")
        assert given.headers["Content-Disposition"].endswith("lots-3.csv")
        rows = list(csv.reader(io.StringIO(given.data.decode("utf-8-sig"))))
        assert rows[0] == ["draw", "school", "child", "lot"]
        assert [it[:2] for it in rows[1:]] == [["3", "OAK"]] * 4
        assert sup.get(f"/lots/{number}/sheet.csv?fill=2").status_code == 404
        filled: list[list[object]] = [list(rows[0])]
        filled += [[*row[:3], 50 + at] for at, row in enumerate(rows[1:])]
        path = f"/lots/{number}/sheet"
        page = sup.post(path, {"file": (io.BytesIO(workbook(filled)), "a.xlsx"), "fill": "0"})
        assert page.status_code == 409 and "lots of draw &#34;3&#34;, and draw 2" in page.text
        page = sup.sent(path, {"file": (io.BytesIO(workbook(filled)), "a.xlsx"), "fill": "1"})
        assert "4 lots: 4 new or changed." in page.text
        cells = office.parts.lots.sheet(number)[1].cells()
        assert sorted(text for (_, at), text in cells.items() if at == 1) == [
            "50", "51", "52", "53"]


WRONG_SHEETS = {
    "a duplicate": (b"OAK,1,5\nOAK,2,5\n", "row 2 has a lot that row 1 has at OAK: 5"),
    "no number": (b"OAK,1,<b>\n", "row 1 has a lot that is no number: &lt;b&gt;"),
    "another pair": (b"OAK,1,5\nOAK,99,6\n", "row 2 is for no lot that is drawn here: OAK 99"),
    "a pair twice": (b"OAK,1,5\nOAK,1,6\n", "row 2 is for the school and child of row 1: OAK 1"),
    "no lot": (b"OAK,1\nOAK,2\n", "the file has no lot of round 1"),
    "a web page": (b"<html><body>1</body></html>", "a web page (HTML)"),
    "a register": (b"SQLite format 3\0" + bytes(200), "a register, or another database"),
    "no archive": (b"PK\x03\x04" + bytes(200), "the file is no Excel file that can be read"),
    "nothing": (b"", "the file has no lot of round 1"),
    "an old workbook": (b"\xd0\xcf\x11\xe0" + bytes(200), "an Excel file of the older kind"),
    "too many columns": (b"x," * 100_000, "has too many columns"),
}


def test_wrong_sheets_are_refused(small: Machine) -> None:
    """With each error and its row, and nothing is taken."""
    with small.office() as office:
        number = begun(office)
        brought(office, number, "lots")
        sup = at_lots(office)
        for what, (data, said) in WRONG_SHEETS.items():
            page = sup.post(f"/lots/{number}/sheet", {"file": (io.BytesIO(data), "<i>.csv")})
            assert page.status_code == 409 and said in page.text, (what, page.text)
        page = sup.post(f"/lots/{number}/sheet", {})
        assert page.status_code == 409 and "choose a file" in page.text
        assert not any(office.parts.lots.sheet(number)[1].cells().values())


def test_a_sheet_that_fills_the_memory_is_refused() -> None:
    """A workbook of a few kilobytes that would unpack to half a gigabyte, and a large file."""
    out = io.BytesIO()
    with zipfile.ZipFile(out, "w", zipfile.ZIP_DEFLATED) as archive:
        archive.writestr("[Content_Types].xml", "<Types/>")
        archive.writestr("xl/worksheets/sheet1.xml", b" " * 500_000_000)
    assert len(out.getvalue()) < 1_000_000
    for data in (out.getvalue(), b"OAK,1,5\n" * 2_000_000):
        with pytest.raises(Refused):
            lot_sheets_apart.rows_of(data)


def test_lots_are_read_with_the_pairs_that_the_register_says(small: Machine) -> None:
    """The groups are those that class and metres of the register do not separate."""
    with small.office() as office:
        register = office.parts.desk.now()
        pairs = sorted(register.pairs)
        assert draws_lots.ties_in(register, pairs) == {
            it: {"ELM": 1, "OAK": 2}[it[0]] if it[1] in (2, 3) else 0 for it in pairs}
        assert pairs == [(code, it) for code in ("ELM", "OAK") for it in range(1, 6)]


def test_lots_that_were_taken_out_again_were_seen(small: Machine) -> None:
    """A draw whose saved lots are empty again is given up for a reason, and each later one shows
    it: who made a supervisor's account could otherwise read lots, empty the cells, and begin anew
    until the lots are to their liking.
    """
    with small.office() as office:
        first = begun(office)
        brought(office, first, "lots")
        sup, name = at_lots(office), "lot-OAK-1-0"
        sup.post(f"/lots/{first}", {name: "5", f"was-{name}": ""})
        sup.post(f"/lots/{first}", {name: "", f"was-{name}": "5"})
        assert not any(office.parts.lots.sheet(first)[1].cells().values())
        hal = Person(office, "hal", "head")
        found = hal.step(first, "give-up")
        assert found.status_code == 409 and "Type the reason for cancelling it" in found.text
        assert hal.step(first, "give-up", reason=MISTYPED).status_code == 303
        page = hal.browser.get(f"/draws/{begun(office)}").text
        assert "and cancelled after the lots were" in " ".join(page.split()) and MISTYPED in page


@pytest.mark.parametrize("when", ["before", "after"])
def test_a_made_up_supervisor_neither_sees_nor_draws_lots(small: Machine, when: str) -> None:
    """Of a draw that was begun by who made the account, or before it was made: the lots of the
    supervisor are neither shown to them before the seal, nor changed by them; after it they are.
    """
    with small.office() as office:
        office.add("sup", "supervisor")
        if when == "before":
            office.parts.history.add("hal", "added", {"person": "sue"})
        number = begun(office)
        brought(office, number, "lots")
        if when == "after":
            office.parts.history.add("jane", "added", {"person": "sue"})
        typed(office, number, lambda pair, at: 90_000_000 + lot_of(pair, at))
        before, sue = office.parts.lots.sheet(number)[1].text(), at_lots(office, "sue")
        for path in ("", "?page=1", "/seal", "/sheet.csv"):
            page = sue.get(f"/lots/{number}{path}")
            assert page.status_code == 403 and "90000" not in page.text, path
            assert "Another supervisor draws and seals the lots" in page.text, path
        name = "lot-OAK-1-0"
        was = office.parts.lots.sheet(number)[1].cells()[("OAK", 1), 0]
        page = sue.post(f"/lots/{number}", {name: "5", f"was-{name}": was})
        assert page.status_code == 403 and "90000" not in page.text
        assert sue.post(f"/lots/{number}/seed", {"seed": "1"}).status_code == 403
        sheet = (io.BytesIO(b"OAK,1,5\n"), "a.csv")
        assert sue.post(f"/lots/{number}/sheet", {"file": sheet}).status_code == 403
        who = roles.Person("sue", "supervisor")
        with pytest.raises(Refused, match="somebody else draws the lots"):
            office.parts.lots.save(who, number, {(("OAK", 1), 0): Typed(was, "5")})
        assert office.parts.lots.sheet(number)[1].text() == before
        sealed(office, number)
        assert "90000" in sue.get(f"/lots/{number}/seal").text


@pytest.mark.parametrize("who", ["hal", "jane"])
def test_a_made_up_supervisor_sees_no_lots_of_a_cancelled_draw(small: Machine, who: str) -> None:
    """They are drawn again for the next one, before whose seal they would be known."""
    with small.office() as office:
        office.add("sup", "supervisor")
        number = begun(office)
        brought(office, number, "lots")
        typed(office, number, lambda pair, at: 90_000_000 + lot_of(pair, at))
        office.parts.history.add(who, "added", {"person": "sue"})
        sue, sup = at_lots(office, "sue"), at_lots(office)
        hal = Person(office, "hal", "head")
        assert hal.step(number, "give-up", reason=MISTYPED).status_code == 303
        for is_begun_again in (False, True):
            if is_begun_again:
                begun(office)
            for path in ("", "/seal", "/sheet.csv"):
                page = sue.get(f"/lots/{number}{path}")
                assert page.status_code == 403 and "90000" not in page.text, path
            assert "These lots were never sealed, and are not shown to you" in sue.get(
                f"/lots/{number}").text
            assert "90000" in sup.get(f"/lots/{number}").text
