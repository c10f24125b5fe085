"""People of each role who try at once what is not theirs: refused, on record, and nothing changes.

What is whose is stated here for each address, and not taken from the application.
"""
import datetime
import io
import pathlib
import re
import threading
import types
import zipfile
from collections.abc import Iterator, Mapping
from typing import Any

import pytest
from applications import ORIGIN, ROUND, Answer, Browser, Program, Site, office_over, town
from draw_site import HAL, MISTYPED, SUP, Machine, begun, brought, typed

from office.core import days
from office.web.people import guard

HEAD, OFFICER, SUPERVISOR, READER = "head", "officer", "supervisor", "reader"
ADMINISTRATOR, SCHOOL = "administrator", "school-A"
ROLES = (HEAD, OFFICER, SUPERVISOR, READER, ADMINISTRATOR, SCHOOL)
READS, RECORDS = {HEAD, OFFICER, READER}, {HEAD, OFFICER}
ALL: set[str] = set(ROLES)
# who may see the pages of a screen, and who may send what it sends
SCREENS: dict[str, tuple[set[str], set[str]]] = {
    "activity": (RECORDS, set()), "answers": (RECORDS, RECORDS), "areas": (READS, RECORDS),
    "answers_of": (RECORDS, RECORDS), "applications": (RECORDS, RECORDS),
    "applications_add": (RECORDS, RECORDS), "applications_commit": (RECORDS, RECORDS),
    "applications_files": (RECORDS, RECORDS),
    "gazetteer": (RECORDS, RECORDS), "points": (RECORDS, RECORDS),
    "child": (READS, RECORDS), "draws": (READS, {HEAD}), "figures": (READS, RECORDS),
    "flags": (READS, RECORDS), "find": (READS, set()),
    "help": (ALL, set()), "copies": (READS, {HEAD}),
    "letters": (READS, RECORDS), "letter_templates": (READS, {HEAD}),
    "lists": (READS, READS), "lots": ({SUPERVISOR}, {SUPERVISOR}),
    "new_schools": (RECORDS, RECORDS), "notices": (READS, RECORDS),
    "people": ({HEAD, ADMINISTRATOR}, {HEAD, ADMINISTRATOR}),
    "register": (set(), set()), "schools": (READS, RECORDS), "season": (ALL, set()),
    "signing": (ALL, ALL), "why": (READS, set()), "notes": (RECORDS, RECORDS),
    "trials": (READS, RECORDS), "season_end": (RECORDS, {HEAD}), "restores": (READS, {HEAD}),
    "preferences": (RECORDS, RECORDS), "letter_sender": (READS, {HEAD}),
    "letter_addresses": (READS, RECORDS), "subject": (RECORDS, set()), "health": (ALL, set()),
}
# what differs from its screen
OTHERS: dict[tuple[str, str], set[str]] = {
    ("child.ask", "GET"): RECORDS, ("child.correct", "GET"): RECORDS,
    ("letters.file", "GET"): RECORDS, ("letters.again", "GET"): RECORDS,
    ("letters.audit", "POST"): {HEAD}, ("letters.text", "GET"): RECORDS,
    ("letter_templates.previewed", "GET"): {HEAD}, ("notices.choose", "GET"): RECORDS,
    ("notices.ask", "GET"): RECORDS, ("draws.second", "POST"): {HEAD, OFFICER},
    ("draws.cancel", "GET"): {HEAD, OFFICER},
    **{(f"season_end.{it}", "POST"): {HEAD, OFFICER} for it in ("confirm", "go_on", "take_back")},
    ("restores.second", "POST"): {HEAD, OFFICER},
    ("schools.one", "GET"): READS | {SCHOOL}, ("schools.workbook", "GET"): READS | {SCHOOL},
    ("schools.waiting", "GET"): READS | {SCHOOL}, ("schools.held", "GET"): READS | {SCHOOL},
    ("schools.raise_number", "GET"): RECORDS,
}
VALUES = {"number": 1, "name": "accept", "code": "A", "kind": "csv", "draw": 1, "reader": "family",
          "note": 1, "file": 1, "owner": "nobody", "version": 1, "form": "json", "key": "none"}
NAMES = {"draws.step": "close", "draws.second": "confirm", "lists.one": "waiting",
         "lists.workbook": "waiting", "letters.from_list": "waiting", "notices.choose": "remind",
         "notices.ask": "remind", "notices.confirm": "remind", "notices.tick": "remind",
         "lists.csv": "waiting", "lists.save": "waiting", "help.topic": "lots",
         "help.picture": "lots.png"}


@pytest.fixture(name="office")
def office_fixture(tmp_path: pathlib.Path) -> Iterator[Site]:
    """The application over a register with two schools, after a round."""
    with office_over(tmp_path, [*town(), ROUND]) as found:
        yield found


def addresses(
    office: Site, values: Mapping[str, Any] = VALUES,
) -> list[tuple[str, str, str]]:
    """Each endpoint with a method and an address of it, but the files that all may read."""
    found: list[tuple[str, str, str]] = []
    with office.app.test_request_context(base_url=ORIGIN):
        urls = office.app.url_map.bind("admissions.example", url_scheme="https")
        for rule in office.app.url_map.iter_rules():
            given: dict[str, Any] = {it: values[it] for it in rule.arguments}
            if rule.endpoint in NAMES:
                given["name"] = NAMES[rule.endpoint]
            if rule.endpoint in ("file", "icon"):
                continue
            for method in sorted((rule.methods or set()) - {"HEAD", "OPTIONS"}):
                built = urls.build(rule.endpoint, given, method=method)
                found.append((rule.endpoint, method, built))
    return found


def may(endpoint: str, method: str) -> set[str]:
    """Whose an address is."""
    screen = SCREENS[endpoint.partition(".")[0]]
    return OTHERS.get((endpoint, method), screen[method == "POST"])


def asked(browser: Browser, method: str, path: str) -> int:
    """The status of a request as a browser of this person sends it from a page of the site."""
    if method == "POST":
        return int(browser.post(path).status_code)
    return int(browser.get(path).status_code)


def kept(office: Site) -> list[Any]:
    """The register, and what the application keeps of people and drafts."""
    rows = [[tuple(row) for row in office.parts.store.rows(f"SELECT * FROM {table}")]
            for table in ("person", "staged_file", "staged_row", "school_draft", "answer", "draw",
                          "draw_step", "lot", "setting", "note", "child_file", "list_view",
                          "figures")]
    return [office.parts.desk.whole().document, rows]


def test_each_role_tries_what_is_not_its_own_at_once(office: Site) -> None:
    """At every address of the application."""
    browsers = {role: office.browser(role.lower(), role) for role in ROLES}
    theirs = addresses(office)
    assert len(theirs) > 60
    before, statuses = kept(office), dict[tuple[str, str, str], int]()
    gate = threading.Barrier(len(ROLES))

    def tries(role: str) -> None:
        gate.wait()
        for endpoint, method, path in theirs:
            if role not in may(endpoint, method):
                statuses[role, method, path] = asked(browsers[role], method, path)

    runs = [threading.Thread(target=tries, args=(role,)) for role in ROLES]
    for it in runs:
        it.start()
    for it in runs:
        it.join()
    wanted = {(role, method, path) for role in ROLES for endpoint, method, path in theirs
              if role not in may(endpoint, method)}
    assert set(statuses) == wanted and len(wanted) > 150
    assert {it for it, status in statuses.items() if status != 403} == set()
    assert kept(office) == before
    on_record = {(it.who, it.about["asked"]) for it in office.parts.history.entries
                 if it.what == "refused"}
    assert on_record == {(role.lower(), f"{method} {path}"[:80]) for role, method, path in wanted}
    assert {it.what for it in office.parts.history.entries} == {"signed in", "refused"}


def test_each_role_sees_what_is_its_own(office: Site) -> None:
    """Each page that a role may see is there, or says of a thing that it is not there."""
    for role in ROLES:
        browser = office.browser(role.lower(), role)
        for endpoint, method, path in addresses(office):
            if method == "GET" and role in may(endpoint, method):
                assert asked(browser, method, path) in (200, 204, 302, 303, 404, 409), (role, path)


# what is for programs with a token, by their roles
OF_PROGRAMS = {
    **dict.fromkeys(("register.register", "register.draw", "register.read", "register.school",
                     "register.pairs", "register.question"), READS),
    "register.waiting": READS | {SCHOOL}, "register.command": RECORDS, "register.rows": RECORDS,
}
# what nobody needs a sign-in for
OPEN = {"signing.sign_in", "signing.go_out", "signing.come_back", "health.health", "health.counts"}


def test_a_program_gets_the_answers_of_the_register_alone(office: Site) -> None:
    """Whatever its role: no page, and nothing of the application's own."""
    portal, before, tried = office.program("portal", HEAD), kept(office), 0
    for endpoint, method, path in addresses(office):
        if endpoint in {*OF_PROGRAMS, *OPEN, "signing.signed_in"}:
            continue
        assert sent(portal, method, path).status_code == 403, (method, path)
        tried += 1
    assert tried > 60 and kept(office) == before
    for path in ("/register", "/register/child/1", "/register/school/A", "/draw/1", "/pairs",
                 "/child/1", "/round/1", "/school/A/waiting"):
        assert portal.get(path).status_code == 200, path
    whole = portal.get("/register").json or {}
    for place, entry in (("children", portal.get("/register/child/1").json),
                         ("schools", portal.get("/register/school/A").json)):
        assert entry in whole[place]
    assert portal.get("/signed-in").status_code == 204


def sent(program: Program, method: str, path: str) -> Answer:
    """The answer to a request of a program."""
    return program.get(path) if method == "GET" else program.post(path, b"{}")


def test_what_is_for_programs_takes_a_token_of_its_role_and_no_session(office: Site) -> None:
    """The refusal names what a session has to use."""
    theirs = [it for it in addresses(office) if it[0] in OF_PROGRAMS]
    assert {it[0] for it in theirs} == set(OF_PROGRAMS) == guard.OF_PROGRAMS
    for role in ROLES:
        browser = office.browser(role.lower(), role)
        program = office.program(f"of.{role.lower()}", role)
        for endpoint, method, path in theirs:
            found = browser.client.open(path, method=method, base_url=ORIGIN,
                                        headers={"Origin": ORIGIN}, json={})
            assert (found.status_code, found.json) == (
                403, {"reason": guard.FOR_PROGRAMS, "status": 403}), (role, path)
            is_refused = sent(program, method, path).status_code == 403
            assert is_refused == (role not in OF_PROGRAMS[endpoint]), (role, path)


def test_files_of_several_children_are_on_record(office: Site) -> None:
    """Each with who took it; one that is taken again and again does not fill the disk."""
    jane, alpha = office.browser("jane", OFFICER), office.browser("alpha", SCHOOL)
    portal = office.program("portal")
    answers = ("/register", "/draw/1", "/round/1", "/pairs", "/pairs/A", "/school/A/waiting")
    for get, path in (*((portal.get, it) for it in answers),
                      (jane.get, "/lists/children/workbook"), (jane.get, "/lists/children/csv")):
        for _ in range(2):
            assert get(path).status_code == 200, path
    assert alpha.get("/schools/A/workbook").status_code == 200
    # (of one child or school nothing is on record, nor of a round that is not there)
    for path in ("/child/1", "/register/child/1", "/register/school/A"):
        assert portal.get(path).status_code == 200, path
    assert portal.get("/round/9").status_code == 404
    assert jane.get("/lists/children").status_code == 200
    found = [(it.who, it.about["of"]) for it in office.parts.history.entries
             if it.what == "took a file"]
    assert found == [*(("portal", it) for it in answers), ("jane", "/lists/children/workbook"),
                     ("jane", "/lists/children/csv"), ("alpha", "/schools/A/workbook")]
    said = re.findall(r"Downloaded ([^<]*)", jane.get("/activity/").text)
    assert len(said) == len(found) and not [it for it in said if it.startswith("/")], said


def test_heads_of_schools_see_a_round_from_its_day_on_and_audited(
    office: Site, monkeypatch: pytest.MonkeyPatch
) -> None:
    """Families hear of a draw first, and only of an audited one."""
    alpha, jane = office.browser("alpha", SCHOOL), office.browser("jane", OFFICER)
    today = ["2025-03-02"]
    programs = {alpha: office.program("of.alpha", SCHOOL), jane: office.program("of.jane")}

    def statuses(browser: Browser) -> set[int]:
        return {*(asked(browser, "GET", it) for it in ("/schools/A", "/schools/A/workbook")),
                programs[browser].get("/school/A/waiting").status_code}

    with monkeypatch.context() as patch:
        patch.setattr(days, "today", lambda: datetime.date.fromisoformat(today[0]))
        assert (statuses(alpha), statuses(jane)) == ({403}, {200})
        assert "3 March 2025" in alpha.get("/schools/A").text
        today[0] = "2025-03-03"
        assert statuses(alpha) == {200}
    with office.parts.store.writing() as db:
        db.execute("INSERT INTO draw (id, first, fills, day, state, version)"
                   " VALUES (7, 2, 1, '2025-04-01', 'sending', 1)")
        for at, state in enumerate(("begun", "closed", "sending"), 1):
            db.execute("INSERT INTO draw_step VALUES (7, ?, '2025-04-01T10:00:00+00:00', 'hal', ?,"
                       " '')", (at, state))
    assert statuses(alpha) == {403} and "audited" in alpha.get("/schools/A").text
    with office.parts.store.writing() as db:
        db.execute("UPDATE draw SET state='opened'")
    assert statuses(alpha) == {200}


def test_lists_that_are_read_while_a_draw_is_sent_are_not_shown(
    office: Site, monkeypatch: pytest.MonkeyPatch,
) -> None:
    """The draw is sent after it was looked whether they are shown, and before they are read."""
    alpha, program = office.browser("alpha", SCHOOL), office.program("of.alpha", SCHOOL)
    present, sent = list[None](), types.SimpleNamespace(
        state="sending", name="round 2")
    monkeypatch.setattr(office.parts.draws, "present", lambda: present.pop() if present else sent)
    for get, path in ((alpha.get, "/schools/A/waiting"), (alpha.get, "/schools/A/workbook"),
                      (program.get, "/school/A/waiting")):
        present.append(None)
        answer = get(path)
        assert answer.status_code == 403 and "once round 2 is audited" in answer.text, path
    assert "took a file" not in [it.what for it in office.parts.history.entries]


def test_the_head_of_a_school_sees_no_other(office: Site) -> None:
    """Neither its page, nor its Excel file, nor, as a program, its list."""
    browser, program = office.browser("alpha", SCHOOL), office.program("of.alpha", SCHOOL)
    for get, path in ((browser.get, "/schools/{}"), (browser.get, "/schools/{}/workbook"),
                      (program.get, "/school/{}/waiting")):
        assert get(path.format("A")).status_code == 200
        for other in ("B", "ZZ", "A%20", "a"):
            assert get(path.format(other)).status_code in (403, 404), (path, other)
        assert get(path.format("B")).status_code == 403


def words_in(data: bytes) -> str:
    """The text of a response: of an archive or an Excel file that of its parts."""
    if not data.startswith(b"PK"):
        return data.decode("utf-8", "replace")
    with zipfile.ZipFile(io.BytesIO(data)) as parts:
        return "\n".join(words_in(parts.read(it)) for it in parts.namelist())


def test_nobody_but_the_supervisor_sees_lots_before_the_seal(small: Machine) -> None:
    """Neither the lots nor the seed of others, in no answer to anybody else: as long as they are
    not sealed, and once the draw was given up before that.
    """
    seed = "61 83 97 of the urn"
    lots = {(code, child): at + child for code, at in (("OAK", 3141592600), ("ELM", 2718281800))
            for child in (2, 3)}
    with small.office() as office:
        number = begun(office)
        brought(office, number, "lots")
        assert office.parts.lots.draw_by_seed(SUP, number, seed) == 6
        typed(office, number, lambda pair, _: lots[pair])
        _, sheet = office.parts.lots.sheet(number)
        secret = {seed, *(text for row in sheet.rows for text in row.typed)}
        assert len(secret) == 11 and all(map(str.isprintable, secret))
        shown = words_in(office.browser("sup", SUPERVISOR).get(f"/lots/{number}?page=1").data)
        assert all(it in shown for it in secret)
        browsers = {role: office.browser(role.lower(), role)
                    for role in (HEAD, OFFICER, READER, ADMINISTRATOR, "school-OAK")}
        values: dict[str, Any] = {**VALUES, "code": "OAK"}
        paths = {path for _, method, path in addresses(office, values) if method == "GET"}
        assert len(paths) > 60
        texts = {(role, path): words_in(browser.get(path).data) for role, browser
                 in browsers.items() for path in sorted({*paths, "/children/1/held.html"})}
        assert [(*where, it) for where, text in texts.items() for it in secret if it in text] == []
        said = "Round 1 is in progress: the lots of this child in it are seen by the supervisor"
        for form in ("html", "json"):
            assert said in texts[OFFICER, f"/children/1/held.{form}"]
        office.parts.draws.give_up(HAL, number, office.parts.draws.get(number).version, MISTYPED)
        held = browsers[OFFICER].get("/children/1/held.json").text
        assert not any(it in held for it in secret) and "cancelled before its lots were" in held
