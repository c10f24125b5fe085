"""What a column has as JSON, as an earlier or a later version of the application wrote it."""
import json
from typing import Any

import pytest

from office.web.answers.entries import Meant
from office.web.applications.files import Note
from office.web.applications.gazetteer_file import Given
from office.web.letters.sets import Asked
from office.web.register.rows import of_fields, of_json
from office.web.season_end.end import End

ASKED: dict[str, Any] = {
    "words": "offers of round 1", "children": [1, 2], "template": 1, "version": 3,
    "day": "2025-03-03", "kind": "pdf"}


def test_a_field_that_is_no_more_is_left_out() -> None:
    """And all others are as they were."""
    found = of_json(Asked, json.dumps({**ASKED, "envelope": "window", "sender": 4}))
    assert found == Asked(**ASKED, sender=4)
    assert of_json(End, '{"version": 2, "seal": "x"}') == End(version=2)
    assert of_fields(Note, {"text": "odd", "column": "day", "at": 3}) == Note("day", "odd")
    assert of_json(Given, '{"name": "a.csv", "size": 3, "seal": "x"}') == Given(
        "a.csv", "", 3, "", "")


@pytest.mark.parametrize("name, empty", [
    ("words", ""), ("children", []), ("template", 0), ("day", ""), ("sender", 0), ("copy", None)])
def test_a_field_that_was_not_yet_there_is_empty(name: str, empty: object) -> None:
    """Or what it is by default."""
    old = {field: it for field, it in ASKED.items() if field != name}
    assert getattr(of_json(Asked, json.dumps(old)), name) == empty


def test_nothing_at_all() -> None:
    """Of an end that has not begun, and of an entry of answers without a meaning."""
    assert of_json(End, "{}") == End()
    assert of_fields(Meant, {"odd": 1}) == of_fields(Meant, {})
