"""What letters say of the office and where they go, the question before they are recorded as sent,
the way back, and a faulty template in words.
"""
import datetime
import html
import io
import pathlib
import re
import resource
from collections.abc import Iterator
from typing import Any

import openpyxl
import pytest
from applications import Browser, Site
from letter_site import (
    OFFICE, SENT_ON, after_round, asked, audited, count, hidden, letter_pages, made, pages,
    typed,
)
from pages import Page, press
from register_files import Refused
from test_letter_templates import number_of, own

from office.files.sheet import Row
from office.web.letters import addresses as letters_addresses
from office.web.letters import taken_back
from office.web.letters import pdf as letter_pdf
from office.web.letters.examples import ADDRESS, DAY, OFFERED, SENDER
from office.web.register.history import ANSWER, SENDS, History


@pytest.fixture(name="address", scope="module")
def address_fixture(tmp_path_factory: pytest.TempPathFactory) -> Iterator[str]:
    """A register that is served, after its round."""
    with after_round(tmp_path_factory.mktemp("round")) as found:
        yield found


@pytest.fixture(name="office")
def office_fixture(address: str, tmp_path: pathlib.Path) -> Iterator[Site]:
    """An application over it."""
    with audited(tmp_path, address) as found:
        yield found


def page_of(browser: Browser, path: str) -> str:
    """The text of a page."""
    text: str = browser.get(path).text
    return html.unescape(text)


def test_the_office_is_typed_in_fields_and_shown_on_its_letters(office: Site) -> None:
    """By the head alone; a field that is needed has its error and loses nothing; a preview shows
    what is typed and saves nothing; each version is kept with who and when.
    """
    jane, hal = office.browser("jane"), office.browser("hal", "head")
    form = {**OFFICE, "opening": "We write\nof a place.", "closing": "Ring us <soon>.", "seen": "1"}
    assert jane.post("/letters/office/", {**form, "what": "save"}).status_code == 403
    found = hal.post("/letters/office/", {**form, "signs": " ", "what": "save"})
    assert found.status_code == 422 and 'id="signs-error"' in found.text
    assert "We write of a place." in found.text and count(office, "letter_sender") == 1
    found = hal.post("/letters/office/", {**form, "what": "preview"})
    assert "Nothing was saved" in found.text and count(office, "letter_sender") == 1
    text = " ".join(pages(hal.get("/letters/templates/preview.pdf").data))
    head = ("Borough of Tŷ & Sons Civic Hall, 2 Low Street, Town TN1 1AA"
            " schools@borough.example · 020 7946 0000 · www.borough.example")
    for part in (head, "Dear parent or carer, We write of a place.", "Ring us <soon>. Yours"
                 " faithfully, Mary Head, Borough of Tŷ", "17 Low Lane Exampleton EX2 2BB",
                 "DRAFT"):
        assert part in text, (part, text)
    typed(hal, **form)
    assert hal.post("/letters/office/", {**form, "office": "X", "what": "save"}).status_code == 409
    page = page_of(jane, "/letters/office/")
    assert "by hal" in page and "by gwyn" in page
    entry = office.parts.history.entries[-1]
    assert (entry.what, entry.who) == ("saved the office on its letters", "hal")
    letter = letter_pages(jane, made(jane, asked(jane, "offers", "1", child=["4"])))[0]
    assert head in letter and "We write of a place." in letter and "Example" not in letter


def test_letters_with_the_address_of_an_example_are_not_recorded_as_sent(office: Site) -> None:
    """The screen warns until the office's own is typed; a set from before stays an example's."""
    with office.parts.store.writing() as db:
        db.execute("DELETE FROM letter_sender")
    jane, hal = office.browser("jane"), office.browser("hal", "head")
    assert 'id="example"' in jane.get("/letters/").text
    path = made(jane, asked(jane, "offers", "1", child=["1"]))
    assert "Example County Council" in letter_pages(jane, path)[0]
    page = page_of(jane, path)
    assert "the address of an example" in page and 'id="record"' not in page
    typed(hal)
    assert 'id="example"' not in jane.get("/letters/").text
    found = jane.post(f"{path}/record", {"count": "1", **SENT_ON})
    assert found.status_code == 400 and "have the address of an example" in found.text
    assert count(office, "letter_set WHERE sent IS NOT NULL") == 0


def test_an_own_template_can_show_the_office_or_has_its_own_address(office: Site) -> None:
    """One that names no example is recorded also where nothing was typed."""
    head = office.browser("hal", "head")
    path = own(head)
    text = "<p>{{ sender.telephone }} for {{ letter.name }}</p>"
    assert head.post(path, {"text": text, "seen": "1", "what": "save"}).status_code == 303
    form = asked(head, "offers", "1", child=["4"], template=f"{number_of(path)}.2")
    assert letter_pages(head, made(head, form)) == ["020 7946 0000 for Siân Tŷ Gwyn"]
    with office.parts.store.writing() as db:
        db.execute("DELETE FROM letter_sender")
    form = asked(head, "offers", "1", child=["4"], template=f"{number_of(path)}.1")
    assert 'id="record"' in head.get(made(head, form)).text


def test_the_example_of_the_application_is_that_of_the_template() -> None:
    """The letter of the command by the template alone is the one with the example's values."""
    text = pathlib.Path(letter_pdf.TEMPLATE).read_bytes()
    template = letter_pdf.template_of("it", text)
    alone = letter_pdf.html_of(template, "it", OFFERED, ADDRESS, DAY)
    assert alone == letter_pdf.html_of(template, "it", OFFERED, ADDRESS, DAY, {"sender": SENDER})
    assert "Example County Council" in alone


@pytest.mark.parametrize("text, line, said", [
    ("<p>\n{% if letter.school %}\n<p>x\n", 2, "the {% if %} that begins here"),
    ("{% for it in letter.listed %}\n{% if it.position %}\nx\n{% endfor %}\n", 2, "{% endif %}"),
    ("\n{% for it in letter.listed %}\n{% set a = 1 %}\n{% if a %}{% endif %}\n", 2, "{% for %}"),
    ("{% set a %}x {{ dict(b=1) }}\n", 1, "{% endset %}"),
])
def test_what_is_not_ended_is_named_with_its_line(text: str, line: int, said: str) -> None:
    """Not the last line, and in words an officer can act on."""
    with pytest.raises(Exception) as error:
        letter_pdf.template_of("Mine", text.encode())
    assert str(error.value).startswith(f"Mine, line {line}: ") and said in str(error.value)
    assert "Jinja" not in str(error.value)


def test_a_refused_template_is_shown_beside_the_version_in_use(office: Site) -> None:
    """As text: what is not in it any more, and what is new."""
    head = office.browser("hal", "head")
    path = own(head)
    text = "<h1>{{ letter.name }}</h1>\n{% if letter.school %}<b>\n"
    found = head.post(path, {"text": text, "seen": "1", "what": "save"})
    assert found.status_code == 422
    _, _, rest = found.text.partition('id="differences"')
    shown = html.unescape(rest.partition("</pre>")[0])
    assert "-<p>{{ date }}</p>\n+{% if letter.school %}<b>" in shown
    assert "-<h1>" not in shown and "&lt;b&gt;" in rest
    assert 'id="differences"' not in head.get(path).text


def test_what_is_recorded_as_sent_is_beside_the_button(office: Site) -> None:
    """How many, of which draw, of which date; the day is that of the letters unless it is to come,
    and is today's then. Not before somebody has taken the file.
    """
    jane = office.browser("jane")
    path = made(jane, asked(jane, "offers", "1", child=["1", "2"]))
    page = page_of(jane, path)
    for part in ("Letters: Offers: round 1 of 3 March 2025, 2 of 5", "round 1: 2 letters",
                 "<dd>3 March 2025</dd>", ">Record 2 letters as sent</button>"):
        assert part in page, part
    assert hidden(jane.get(path), "day") == "3 March 2025"
    found = jane.post(f"{path}/record", {"count": "2", **SENT_ON})
    assert found.status_code == 400 and "Nobody has downloaded these letters" in found.text
    assert count(office, "letter_set WHERE sent IS NOT NULL") == 0
    today = datetime.date.today()
    later = (today + datetime.timedelta(days=3)).isoformat()
    path = made(jane, asked(jane, "offers", "1", child=["1"], day_of_letters=later))
    assert hidden(jane.get(path), "day") == f"{today:%-d %B %Y}"
    found = jane.post(f"{path}/record", {"day": "someday", "count": "1"})
    assert found.status_code == 400 and 'value="someday"' in found.text
    assert 'id="day-error"' in found.text


def record(browser: Browser, path: str, **more: str) -> None:
    """Records a set as sent."""
    assert browser.get(f"{path}/file").status_code == 200
    many = hidden(browser.get(path), "count")
    found = browser.post(f"{path}/record", {"count": many, **SENT_ON, **more})
    assert found.status_code == 303, found.text


def test_a_record_is_taken_back_with_a_reason(office: Site) -> None:
    """It is on record, and the letters can be recorded again; not where there is no reason."""
    jane = office.browser("jane")
    path = made(jane, asked(jane, "offers", "1", child=["1", "2"]))
    record(jane, path)
    assert "Undo the record of 2 letters of 3 March 2025" in jane.get(path).text
    found = jane.post(f"{path}/take-back", {"reason": " "})
    assert found.status_code == 400 and "say why" in found.text
    assert count(office, "letter_set WHERE sent IS NOT NULL") == 1
    assert jane.post(f"{path}/take-back", {"reason": "not in the post"}).status_code == 303
    entry = office.parts.history.entries[-1]
    assert (entry.what, entry.who, entry.about["reason"]) == (
        "took back a record of letters", "jane", "not in the post")
    assert "sent by" not in jane.get("/children/1").text.lower()
    assert jane.post(f"{path}/take-back", {"reason": "again"}).status_code == 400
    record(jane, path)


def test_a_record_on_which_something_rests_stays(office: Site, address: str) -> None:
    """A second letter because there was a first; and a reminder that was recorded since."""
    jane = office.browser("jane")
    form = asked(jane, "offers", "1", child=["1", "2"])
    first = made(jane, form)
    other = made(jane, {**form, "key": "other", "child": ["2"]})
    record(jane, first)
    record(jane, other, agreed=hidden(jane.get(other), "agreed"))
    assert "child 2 was sent the same letter a second time" in jane.get(first).text
    found = jane.post(f"{first}/take-back", {"reason": "a slip"})
    assert found.status_code == 400 and "The record stays: child 2" in found.text
    assert jane.post(f"{other}/take-back", {"reason": "a slip"}).status_code == 303
    command = {"cmd": "remind", "child": 1, "school": "OAK", "day": "2025-03-17"}
    history = office.parts.history
    entry = history.add("jane", "sends", {"command": command})
    history.add("jane", "answer", {"of": entry.number, "answer": {"done": True}})
    assert "a reminder was recorded for child 1 since" in jane.get(first).text
    assert jane.post(f"{first}/take-back", {"reason": "a slip"}).status_code == 400
    assert count(office, "letter_set WHERE sent IS NOT NULL") == 1


def sheet(rows: list[list[Any]]) -> io.BytesIO:
    """An Excel file."""
    book, out = openpyxl.Workbook(), io.BytesIO()
    for row in rows:
        book.active.append(row)
    book.save(out)
    return io.BytesIO(out.getvalue())


def uploaded(browser: Browser, data: io.BytesIO, name: str, way: str) -> Any:
    """The answer to a file of addresses, all of whose columns are taken."""
    found = browser.post("/letters/addresses/", {"way": way, "file": (data, name)})
    if found.status_code != 200:
        return found
    page = Page(found.text)
    button = next(it for it in page.buttons() if it.startswith("Store "))
    return press(browser, "", page, button)


def test_addresses_are_shown_before_they_are_stored(office: Site) -> None:
    """Two as they will be printed, and the columns in their order; one that is no line of an
    address is left out.
    """
    jane, stored = office.browser("jane"), office.parts.letters.addresses
    data = b"child,street,town,postcode,to\n4,1 High St,Ayton,AA1 1AA,parent\n2,2 Low St,Bee,B,x\n"
    found = jane.post("/letters/addresses/", {"way": "child", "file": (io.BytesIO(data), "a.csv")})
    page = Page(found.text)
    assert found.status_code == 200 and stored.all() == {}
    columns = re.findall(r'name="column" value="[0-9]+" checked> <label[^>]*>([^<]*)<', found.text)
    assert columns == ["street", "town", "postcode", "to"]
    assert "2 Low St</bdi><br><bdi>Bee</bdi><br><bdi>B</bdi><br><bdi>x" in found.text
    button = "Store 2 addresses"
    found = press(jane, "", page, button, column=["0", "1", "2"])
    assert found.status_code == 200 and stored.all() == {}
    assert "AA1 1AA</bdi></address>" in found.text and "parent" not in re.sub(
        r"<input[^>]*>", "", found.text)
    assert press(jane, "", Page(found.text), button).status_code == 303
    assert stored.all() == {2: ["2 Low St", "Bee", "B"], 4: ["1 High St", "Ayton", "AA1 1AA"]}


def test_a_form_keeps_no_more_rows_than_a_sheet_has(office: Site) -> None:
    """A sheet at its limits is stored; more rows or cells are refused before they fill the memory,
    and what is no text of rows as soon.
    """
    jane, path = office.browser("jane"), "/letters/addresses/"
    row = b"," * 248 + b"\n"
    data = b"child,street\n1,1 [High] Street\n" + b"".join(b" " + row for _ in range(4_000))
    found = jane.post(path, {"way": "whole", "file": (io.BytesIO(data), "a.csv")})
    assert press(jane, "", Page(found.text), "Store 1 address").status_code == 303
    cells = ["x"] * 9
    rows = [Row(1, ["child", *cells]), *(Row(it, [str(it), *cells]) for it in range(2, 25_001))]
    assert len(letters_addresses.unpacked(letters_addresses.packed(rows))) == 25_000
    before = resource.getrusage(resource.RUSAGE_SELF).ru_maxrss
    many = ["[" + "[0,[]]," * 2_000_000 + "[0,[]]]", '[[0,["' + '","' * 4_000_000 + '"]]]',
            '[["' + '\\"' * 4_000_000, "[" * 4_000_000]
    for text in many:
        with pytest.raises(Refused, match="choose the file once more"):
            letters_addresses.unpacked(text)
    assert resource.getrusage(resource.RUSAGE_SELF).ru_maxrss - before < 100_000, "kilobytes"
    found = jane.post(path, {"way": "child", "rows": f"[{'[0,[]],' * 200_000}[0,[]]]"})
    assert found.status_code == 422 and "choose the file once more" in found.text


def test_an_address_with_half_of_a_character_is_not_stored(office: Site) -> None:
    """Half of a pair of surrogates in the rows that a form has kept: no page could show it."""
    jane = office.browser("jane")
    data = io.BytesIO(b"child,street\n1,1 High Street\n")
    found = jane.post("/letters/addresses/", {"way": "child", "file": (data, "a.csv")})
    page = Page(found.text)
    rows = r'[[1, ["child", "street"]], [2, ["1", "\ud800 High Street"]]]'
    found = press(jane, "", page, "Store 1 address", rows=rows)
    assert found.status_code == 422 and "choose the file once more" in found.text
    assert office.parts.letters.addresses.all() == {}


def test_what_was_recorded_before_the_letters_does_not_rest_on_them(
    tmp_path: pathlib.Path,
) -> None:
    """Nor what was recorded for other children."""
    record = History(str(tmp_path / "history.jsonl"), lambda: "2025-03-17T10:00:00.000+00:00")
    for name, number in (("remind", 1), ("lapse", 3), ("accept", 4)):
        sent = record.add("jane", SENDS, {"command": {"cmd": name, "child": number}})
        record.add("jane", ANSWER, {"of": sent.number, "answer": {"done": True}})
    before, after = "2025-03-17T09:00", "2025-03-17T11:00"
    assert taken_back.noticed(record, {1, 2}, before) == (
        "a reminder was recorded for child 1 since")
    assert taken_back.noticed(record, {3}, before) == (
        "a withdrawal of the offer was recorded for child 3 since")
    assert taken_back.noticed(record, {2, 4}, before) == ""
    assert taken_back.noticed(record, {1, 3}, after) == ""
    record.close()


def test_rows_that_may_be_of_another_child_are_shown_before_they_are_stored(office: Site) -> None:
    """As of a sheet one of whose columns was put in order without the others; and letters that a
    program has lost. Of a child's own name, and of its parents', nothing is said.
    """
    jane = office.browser("jane")
    data = sheet([["child", "name", "street"], [1, "Ann \"Nan\" O'Abel", "1 High Street"],
                  [4, "Bo & Bell, jr.", "T? Gwyn"], [5, "GWYN, SIAN TY", "2 Low Street?"]])
    found = jane.post("/letters/addresses/", {"way": "child", "file": (data, "a.xlsx")})
    said = " ".join(Page(found.text).by_id["doubts"].split())
    lost = "is the question mark a letter that was lost?"
    assert found.status_code == 200 and said == (
        'child 4, Siân Tŷ Gwyn: "Bo & Bell, jr." is the name of child 5'
        f' child 4, Siân Tŷ Gwyn: "T? Gwyn": {lost}'
        ' child 5, Bo & Bell, jr.: "GWYN, SIAN TY" is the name of child 4'
        f' child 5, Bo & Bell, jr.: "2 Low Street?": {lost}')
    right = sheet([["child", "name", "street"], [4, "The parents of Siân", "Tŷ Gwyn"]])
    found = jane.post("/letters/addresses/", {"way": "child", "file": (right, "a.xlsx")})
    assert found.status_code == 200 and "doubts" not in Page(found.text).by_id


def test_addresses_are_uploaded_once_and_stand_on_the_letters(office: Site) -> None:
    """By child or whole; who has none is shown; a faulty file stores nothing."""
    jane = office.browser("jane")
    rows: list[list[Any]] = [
        ["child", "street", "more", "town"], [4, "1 High <St>", None, "Town"],
        [2, "@Low", "Flat 3", "Village"]]
    found = uploaded(jane, sheet(rows), "addresses.xlsx", "child")
    assert found.status_code == 303, found.text
    page = jane.get("/letters/addresses/").text
    assert "2 children have an address, and 3 children have none" in page
    path = made(jane, asked(jane, "offers", "1", child=["2", "4"]))
    texts = letter_pages(jane, path)
    assert "Siân Tŷ Gwyn 1 High <St> Town " in texts[1] and "Flat 3 Village" in texts[0]
    path = made(jane, asked(jane, "offers", "1", child=["3", "4"], kind="merge"))
    merged = openpyxl.load_workbook(io.BytesIO(jane.get(f"{path}/file").data)).active
    assert [[it.value for it in row[-2:]] for row in merged.iter_rows()] == [
        ["address_1", "address_2"], [None, None], ["1 High <St>", "Town"]]
    for text, said in (("child,a\n99,x\n", "child 99"), ("number,a\n1,x\n", "no column"),
                       ("child,a\n1,x\n1,y\n", "twice"), (f"child,a\n1,{'x' * 101}\n", "at most"),
                       ("child,a\n", "no rows")):
        found = uploaded(jane, io.BytesIO(text.encode()), "a.csv", "whole")
        assert found.status_code == 422 and said in found.text, (text, found.text)
    assert count(office, "letter_address") == 2
    assert uploaded(jane, io.BytesIO(b"child,a\n1,Low\n4,\n"), "a.csv", "child").status_code == 303
    assert office.parts.letters.addresses.all() == {
        1: ["Low"], 2: ["@Low", "Flat 3", "Village"]}
    assert uploaded(jane, io.BytesIO(b"child,a\n3,New\n"), "a.csv", "whole").status_code == 303
    assert office.parts.letters.addresses.all() == {3: ["New"]}
    assert office.parts.history.entries[-1].about == {"children": [3], "in place of all": True}


def test_addresses_of_a_colleague_are_shown_before_they_are_replaced(office: Site) -> None:
    """With who stored them; and what was stored since the file was shown is not replaced unseen."""
    jane, bo = office.browser("jane"), office.browser("bo")
    path, stored = "/letters/addresses/", office.parts.letters.addresses
    first = b"child,a,b\n1,Low,Ayton\n2,High,Bee\n4,Same,Sea\n"
    assert uploaded(bo, io.BytesIO(first), "bo.csv", "child").status_code == 303

    def shown(data: bytes, way: str) -> Page:
        """What is shown of a file."""
        return Page(jane.post(path, {"way": way, "file": (io.BytesIO(data), "a.csv")}).text)

    page = shown(b"child,a,b\n1,New,Ayton\n3,More,Dee\n4,Same,Sea\n", "child")
    assert [it[:3] for it in page.tables["replaced"][1:]] == [["1", "Low, Ayton", "New, Ayton"]]
    assert page.tables["replaced"][1][3].startswith("bo, ")
    button = "Store 3 addresses, and replace 1 address"
    assert uploaded(bo, io.BytesIO(b"child,a\n1,Bo's\n"), "b.csv", "child").status_code == 303
    late = press(jane, "", page, button)
    again = Page(late.text)
    assert late.status_code == 409 and "somebody else has stored addresses" in again.said()
    assert again.tables["replaced"][1][:3] == ["1", "Bo's", "New, Ayton"]
    assert stored.all()[1] == ["Bo's"] and 3 not in stored.all()
    assert press(jane, "", again, button).status_code == 303
    page = shown(b"child,a,b\n3,More,Dee\n", "whole")
    assert [it[:3] for it in page.tables["replaced"][1:]] == [
        ["1", "New, Ayton", "none"], ["2", "High, Bee", "none"], ["4", "Same, Sea", "none"]]
    assert "Store 1 address, and replace 3 addresses" in page.buttons()


def test_the_page_of_a_set_is_looked_at_again(office: Site) -> None:
    """While it is made, and not afterwards."""
    jane = office.browser("jane")
    sets = office.parts.letters
    setattr(sets, "wake", lambda: None)
    path = jane.post("/letters/make", asked(jane, "offers", "1", child=["1"])).location
    page = jane.get(path).text
    assert f'id="set" data-running="{path}">' in page
    assert f'<a href="{path}">Look again</a>' in page
