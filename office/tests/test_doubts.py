"""What the first screen says where the register or the history lacks what was recorded last."""
import json
import pathlib
from collections.abc import Iterator
from typing import Any

import pytest
from applications import Browser, Site, office_over
from offers import offered
from pages import Page

from office.web.register.history import ANSWER, SENDS, SETTLED

ROWS = "child,name,east,north,looked_after,flags,siblings,day,preferences\n{},Zo,1,1,no,,,{},A\n"


@pytest.fixture(name="office")
def office_fixture(tmp_path: pathlib.Path) -> Iterator[Site]:
    """The application over a register with offers."""
    with office_over(tmp_path, offered()) as found:
        yield found


def said(browser: Browser) -> str:
    """What the first screen says."""
    found = browser.get("/")
    assert found.status_code == 200
    return Page(found.text).said()


def test_a_register_that_was_replaced_by_an_older_one_is_told(
    office: Site, monkeypatch: pytest.MonkeyPatch,
) -> None:
    """Whatever was recorded last; and a register that has it is not doubted."""
    jane = office.browser("jane")
    assert said(jane) == ""
    places, commands = office.parts.desk.now().places, list[dict[str, Any]]()
    commands += [{"cmd": "accept", "child": 11, "school": places[11].school},
                 {"cmd": "decline", "child": 12, "school": places[12].school},
                 {"cmd": "raise_pan", "school": "A", "pan": 499}]
    for command in commands:
        older = office.parts.desk.now()
        office.record("jane", command)
        assert said(jane) == ""
        with monkeypatch.context() as patch:
            patch.setattr(office.parts.desk, "present", lambda *_, older=older: older)
            assert said(jane).startswith("The register lacks what jane recorded at "), command
            assert said(jane).endswith("Record nothing, and tell IT support.")
    # (as of an import that is done)
    record = office.parts.history
    for number, is_there, mark in ((11, True, ""), (11, True, "\ufeff"), (77, False, "")):
        rows = mark + ROWS.format(number, "2024-10-20")
        entry = record.add("jane", SENDS, {"import": rows})
        assert said(jane) == "", "nothing is known of a request that is open"
        record.add("jane", SETTLED, {"of": entry.number, "done": True})
        assert (said(jane) == "") == is_there
    entry = record.add("jane", SENDS, {"line": "?"})
    record.add("jane", ANSWER, {"of": entry.number, "answer": json.loads('{"done": null}')})
    draw = record.add("jane", SENDS, {"command": {"cmd": "round", "draw": 9, "lots": []}})
    record.add("jane", SETTLED, {"of": draw.number, "done": True})
    assert said(jane).startswith("The register lacks what jane recorded at ")


def test_a_history_that_was_cut_is_told(office: Site) -> None:
    """By a copy that was made after an entry that it has no more."""
    jane, store = office.browser("jane"), office.parts.store
    there = len(office.parts.history.entries)
    with store.writing() as db:
        db.execute("INSERT INTO copy (number, purpose, asked, position) VALUES (7, '', '', ?)",
                   (there,))
    assert said(jane) == ""
    with store.writing() as db:
        db.execute("INSERT INTO copy (number, purpose, asked, position) VALUES (8, '', '', ?)",
                   (there + 50,))
    assert said(jane) == ("The history lacks entries: it ends before copy 8 was made. Record"
                          " nothing, and tell IT support.")
