"""Everything that somebody hostile can send to each place of the application which takes a text or
a file: it is answered in words, and nothing is read, run, or shown as anything but text.
"""
import dataclasses
import io
import pathlib
import re
import urllib.parse
from collections.abc import Iterator
from typing import Any

import hostile_files
import hostile_places
import letter_site
import pytest
from applications import ORIGIN, Browser, Site
from conftest import HEADER, ROOT, apply, child, make, school
from draw_site import Machine, after_round, at_lots, begun, brought, machine_over
from hostile_places import WATCH, Bait, Request, Sender, addresses, crawl, raw
from pages import Form
from werkzeug.exceptions import HTTPException

NAMES = {
    1: "<b id=hostile onclick=alert(1)>Ann</b>", 2: "=HYPERLINK(1)", 3: "h{{91*91}}h",
    4: "\"'><script>alert(1)</script>", 5: "+1+cmd|' /C calc'!A0",
}
# every view that takes a file, and its fields
FILES = {
    "answers.several": {"sheet"}, "applications_files.add": {"files"}, "areas.add": {"file"},
    "applications_files.propose": {"file-1"},
    "figures.make": {"copy", "last", "last_copy"}, "gazetteer.receive": {"file"},
    "letter_addresses.save": {"file"}, "letter_templates.save": {"picture"},
    "lots.upload": {"file"},
    "new_schools.last_year": {"copy"}, "new_schools.sheet": {"sheet"}, "notes.add_file": {"file"},
}
STEP, PAGE = {"seen"}, {"show", "find", "page"}
END = {"seen", "months"}
SCHOOL = {"school", "name", "pan", "east", "north", "criteria", "kind", "value"}
CHILD = {"name", "east", "north", "looked_after", "flags", "siblings", "present", "catchments",
         "postcode", "property_number", "seen", "what", "schools"}
# every view that takes a form, and the fields that it reads by their names; those that end a season
# or change the register as a whole are the last
TEXTS: dict[str, set[str]] = {
    "answers.add": {"entry"},
    "answers.choose": {"number", "child", "answer"},
    "answers.record": {"digest"},
    "answers.remove": {"number", "digest"},
    "answers.several": {"pasted"},
    "answers_of.take": {"digest"},
    "applications.bring_back": {"seen"},
    "applications.decide": {"what", "one", "other", "one-version", "other-version"},
    "applications.mend": {"mend", "by", "seen", "confirmed", "remark"},
    "applications.save": {"aside", "back", "confirm", "meant"},
    "applications.undo": {"entry"},
    "applications_add.add": {"what", "seen", "proposed", "looked_after"},
    "applications_commit.store": {"digest"},
    "applications_files.add": {"sheet", "uk"},
    "applications_files.propose": {"sheet"},
    "applications_files.replace": {"what", "digest"},
    "areas.add": set(),
    "areas.choose": {"file", "property"},
    "areas.drop": {"file"},
    "areas.use": {"file", "seen"},
    "child.do_correct": CHILD,
    "child.record": {"day", "school", "seen", "read"},
    "figures.file": {"digest"},
    "figures.make": {"round"},
    "flags.change": {"seen"},
    "gazetteer.drop": {"digest"},
    "gazetteer.read_in": {"digest", "property", "postcode", "east", "north"},
    "gazetteer.receive": set(),
    "letter_addresses.save": {"way", "rows", "shown", "seen", "what", "column"},
    "letter_sender.save": {"office", "address", "telephone", "email", "website", "opening",
                           "closing", "signs", "seen", "what"},
    "letter_templates.save": {"name", "text", "seen", "what", "sample", "child", "remove"},
    "letters.audit": set(),
    "letters.end": {"standing"},
    "letters.make": {"double", "kind", "others"},
    "letters.record": {"day", "count", "agreed", "sure_of"},
    "letters.take_back": {"reason"},
    "lists.remove": set(),
    "lists.save": {"query", "title"},
    "lists.ticked": {"query", "row", "to", "page"},
    "lots.save": {"to"},
    "lots.seal": {"seen", "digest"},
    "lots.seed": {"seed"},
    "lots.upload": {"fill", "page"},
    "new_schools.add": SCHOOL,
    "new_schools.change": SCHOOL | {"seen"},
    "new_schools.last_year": set(),
    "new_schools.remove": {"number", "digest"},
    "new_schools.sheet": set(),
    "new_schools.store": {"digest", "seen", *(f"flag-{it}" for it in range(16))},
    "notes.add": {"text"},
    "notes.add_file": {"text"},
    "notes.remove": {"why"},
    "notes.strike": {"why"},
    "notices.confirm": {"digest", "read"},
    "notices.go_on": set(),
    "notices.tick": {"day", "child", "others", "ticked", "tick"},
    "people.change": {"what", "name", "role", "kind", "shown"},
    "preferences.record": {"day", "seen", "what", "preference-1", "preference-2"},
    "points.change": {"what", "version", "east", "north", "property", "postcode"},
    "points.look": {"property", "postcode"},
    "register.command": set(),
    "register.question": set(),
    "register.rows": set(),
    "schools.do_raise": {"pan", "seen"},
    "signing.password": {"old", "new", "again"},
    "signing.sign_in": {"name", "password", "to"},
    "signing.sign_out": set(),
    "trials.begin": {"round"},
    "trials.end": set(),
    "copies.make": {"purpose"},
    "copies.test": set(),
    "draws.begin": {"day", "fills", "kind", "school", "lots", "reason"},
    "draws.second": STEP,
    "draws.step": STEP | {"agreed"},
    "copies.begin": {"draw"},
    "restores.second": STEP,
    "restores.step": STEP,
    "season_end.retention": END,
    "season_end.copy": END | {"read"},
    "season_end.archive": END,
    "season_end.take": END | {"kept"},
    "season_end.day": {"day", "months", "reason", "seen"},
    "season_end.ask": END | {"name"},
    "season_end.take_back": END,
    "season_end.confirm": END | {"name", "shown"},
    "season_end.go_on": END,
}
# these have other bodies, or end the session by which all others are sent
APART = ("register.command", "register.question", "register.rows", "signing.sign_out",
         "signing.password")
HOSTILE = {
    "markup": "<b id=hostile onclick=alert(1)>x</b>", "quotes": "\"'><script>alert(1)</script>",
    "formula": "=1+1", "sum": "+1+cmd|' /C calc'!A0", "template": "h{{91*91}}h",
    "statement": "{% for x in range(10**12) %}{% endfor %}", "sql": "' OR 1=1; DROP TABLE note;--",
    "control": "a\0b\x1b[31m\x7f", "lines": "a\r\nSet-Cookie: x=1", "turned": "\u202egpj.exe\u2066",
    "emoji": "👩‍👩‍👧" * 5, "json": '{"cmd":"round"}', "path": "../../../../etc/passwd",
    "infinite": "[1e999,{}]", "deep": "[" * 50_000, "rows": "1 to 999999999 of a; 1 of b",
    "digits": "9" * 5000, "many digits": "9" * 30, "power": "²", "other digits": "٣٣", "less": "-1",
    "number": "1e999", "long": "x" * 1_000_000,
}


def commands() -> list[dict[str, object]]:
    """A town whose schools and children have hostile names."""
    found = [school("OAK", 1, name="<i id=hostile>Oak</i>"), school("ELM", 9, 9000, name="@SUM(1)")]
    for number, name in NAMES.items():
        found += [child(number, 100 * number, name), apply(number, ["OAK", "ELM"])]
    return found


@dataclasses.dataclass
class World:
    """An application with something of everything, whoever sends hostile things to it, its pages,
    and its forms by the views that take them.
    """

    machine: Machine
    office: Site
    sender: Sender
    starts: list[str]
    forms: dict[str, tuple[str, dict[str, Any]]] = dataclasses.field(default_factory=dict)

    def see(self) -> None:
        """Looks at all pages, and takes their forms."""
        adapter = self.office.app.url_map.bind("x")
        for path, page in crawl(self.sender, self.starts):
            for it in page.forms:
                to = urllib.parse.urljoin(path, it.action or path)
                try:
                    view = adapter.match(to.partition("?")[0], "POST")[0]
                except HTTPException:
                    continue
                if it.method.lower() == "post":
                    self.forms.setdefault(view, (to, given_of(it)))

    def right(self) -> None:
        """Nothing was wrong in any answer, and the application still answers."""
        found, self.sender.wrong = self.sender.wrong, []
        assert not found, (len(found), found[:20])
        assert hostile_places.memory() < hostile_places.KILOBYTES
        assert self.sender.browser.get("/schools/").status_code == 200


def given_of(form: Form) -> dict[str, Any]:
    """What a browser sends by the first button of a form."""
    button = next(iter(form.buttons.values()), ("", ""))
    given: dict[str, Any] = {**form.values, **({button[0]: button[1]} if button[0] else {})}
    given.pop("form", None)
    return given


def something(browser: Browser) -> None:
    """Has somebody add something of everything."""
    name = HOSTILE["markup"]
    rows = f"{HEADER}\n71,\"{name}\",1,1,no,,,2024-10-20,OAK,\n72,=1+1,5,5,no,,,2024-10-20,ELM,\n"
    sent: list[tuple[str, dict[str, Any]]] = [
        ("/answers/", {"entry": "1"}), ("/children/1/notes", {"text": name}),
        ("/children/1/files", {"file": (io.BytesIO(b"x"), f"{name}.pdf")}),
        ("/schools/new/", {"school": "NEW", "name": name, "pan": "1", "east": "1", "north": "1"}),
        ("/applications/files", {"files": (io.BytesIO(rows.encode()), f"{name}.csv")}),
        ("/lists/children/save", {"query": "", "title": name}), ("/figures/", {"round": "1"}),
        ("/copies/", {"purpose": name}), ("/flags/", {"seen": "{}", "flag-1": name}),
        ("/people/", {"what": "add", "name": "pat", "role": "reader"}),
    ]
    for path, given in sent:
        found = browser.post(path, given)
        assert found.status_code in (200, 303, 409, 422), (path, found.text)
    path = letter_site.made(browser, letter_site.asked(browser, "offers", "1"))
    assert browser.get(f"{path}/file").data.startswith(b"%PDF")


@pytest.fixture(name="world", scope="module")
def world_fixture(tmp_path_factory: pytest.TempPathFactory) -> Iterator[World]:
    """The application over this town after its first round, with what a large register alone has.
    """
    folder = tmp_path_factory.mktemp("hostile")
    make(folder / "reg.db", commands(), is_large=True)
    (folder / "machine").mkdir()
    with pytest.MonkeyPatch.context() as patch, machine_over(
            folder / "machine", folder / "reg.db", patch) as machine, machine.office() as office:
        office.app.request_class = Request
        after_round(machine, office)
        head = office.browser("hal", "head")
        something(head)
        names = {"code": ["OAK"], "name": ["children", "waiting", "style.css"], "owner": ["jane"],
                 "key": ["key"]}
        gets = addresses(office, names, "GET")
        starts = sorted({it for paths in gets.values() for it in paths})
        starts += ["/letters/whom?whom=offers&value=1", "/notices/remind?day=2025-04-20"]
        world = World(machine, office, Sender(office, head, Bait(folder / "bait")), starts)
        world.see()
        yield world


def one_of_each(fields: set[str]) -> list[str]:
    """The fields, of those that differ by a number alone one."""
    return sorted({re.sub("[0-9]+", "", it): it for it in sorted(fields)}.values())


def screens() -> dict[str, str]:
    """The sources of the screens."""
    texts = (it.read_text("utf-8") for it in (ROOT / "office" / "web").rglob("*.py"))
    return {found[1]: it for it in texts if (found := re.search(r'Blueprint\("(\w+)"', it))}


def test_each_view_that_takes_a_form_or_a_file_is_in_the_list(world: World) -> None:
    """And each field of a file that a page has."""
    views = {it.endpoint for it in world.office.app.url_map.iter_rules()
             if "POST" in (it.methods or ())}
    assert views == set(TEXTS)
    pages = "".join(it.read_text("utf-8") for it in (
        ROOT / "office" / "web").glob("*/templates/*.html"))
    inputs = [it for it in re.findall(r"<input[^>]*>", re.sub(r"\{\{.*?\}\}", "", pages))
              if 'type="file"' in it]
    there = {re.search('name="([a-z_]+)"', it)[1] for it in inputs}  # type: ignore[index]
    there |= set(re.findall(r'text_field\("([a-z_]+)"[^}]*kind="file"', pages))
    assert there == {it.removesuffix("-1") for fields in FILES.values() for it in fields}
    assert {name for name, text in screens().items() if "request.files" in text} == {
        view.partition(".")[0] for view in FILES}


def test_the_names_of_the_register_are_texts_on_each_page(world: World) -> None:
    """Nothing of all pages and files is markup, a formula, or a template; and each is one that a
    browser takes for what it is, and keeps in no cache.
    """
    world.right()
    assert len(world.forms) > 40 and world.sender.sent > 200


@pytest.mark.parametrize("view", [it for it in TEXTS if it not in APART])
def test_a_hostile_text_in_any_field_is_answered_in_words(world: World, view: str) -> None:
    """Each field of each form, whatever is typed into it; what the view has read is in the list."""
    rule = next(it for it in world.office.app.url_map.iter_rules() if it.endpoint == view
                and "POST" in (it.methods or ()))
    plain = re.sub("<[^<>]*>", "1", rule.rule)
    path, given = world.forms.get(view, (plain, {}))
    known = {it for it in given if it not in FILES.get(view, ())}
    for field in one_of_each(TEXTS[view] | known):
        for what, text in HOSTILE.items():
            world.sender.post(path, {**given, field: text}, f"{field} {what}")
    broken = b"form=" + world.sender.browser.secret.encode()
    fields = b"".join(b"&%s=%%ff%%00%%ed%%a0%%80" % it.encode() for it in TEXTS[view] | known)
    answer = raw(world.sender.browser, path, broken + fields, "application/x-www-form-urlencoded")
    assert answer.status_code < 500, answer.text
    world.right()
    # (a button of a row has the name of a field as its value)
    read = {it for it in WATCH.of("form").get(view, set()) - {"form", "page"}
            if re.fullmatch("[a-z][a-z0-9_-]{1,29}", it)}
    assert read - known <= TEXTS[view], "a field is new, and is not in the list"


def test_an_address_with_anything_in_it_is_answered_in_words(world: World) -> None:
    """Each part of each address that a view reads, and numbers that are too long."""
    names = {"code": ["OAK"], "name": ["children"], "owner": ["jane"], "key": ["key"]}
    gets = addresses(world.office, names, "GET")
    for view, fields in WATCH.of("args").items():
        for field in sorted(fields) if view in gets else ():
            for text in HOSTILE.values():
                query = urllib.parse.urlencode({field: text[:20_000]})
                world.sender.get(f"{gets[view][0]}?{query}")
            world.sender.get(f"{gets[view][0]}?{field}=%ff%00%ed%a0%80")
    for kind in ("offers", "part", "row", "children", "reminded", "withdrawn", "list"):
        for text in HOSTILE.values():
            query = urllib.parse.urlencode({"whom": kind, "value": text[:20_000]})
            world.sender.get(f"/letters/whom?{query}")
    for method in ("GET", "POST"):
        for paths in addresses(world.office, {"code": ["%ff"], "name": ["%00<b>"], "owner": [
                "=1"], "key": ["%ff<b>"]}, method).values():
            for text in (paths[0], re.sub("/1(?=/|$)", f"/{10**30}", paths[0]),
                         re.sub("/1(?=/|$)", "/-1", paths[0])):
                if "sign-out" not in text:
                    world.sender.post(text, {}) if method == "POST" else world.sender.get(text)
    world.right()


@pytest.mark.parametrize("path", ["/command", "/import", "/what-if"])
def test_a_body_of_anything_is_answered_in_words(world: World, path: str) -> None:
    """What a program sends."""
    program = world.office.program(f"of-{path[1:]}")
    kind = "text/csv" if path == "/import" else "application/json"
    bodies = [it.encode() for it in HOSTILE.values()] + [
        b"\xff\xfe\xed\xa0\x80", b"[" * 200_000, b'{"cmd":' * 50_000, b"", b"null", b"1e400",
        b'{"cmd":"amend","child":' + b"9" * 5000 + b"}", b'{"cmd":"\xff"}', b'{"cmd":"\\ud800"}',
        *hostile_files.wrong().values()]
    for body in bodies:
        answer = program.post(path, body, kind, Accept="text/html")
        assert answer.status_code < 500, (body[:60], answer.text)
    world.right()


@pytest.fixture(name="kinds", scope="module")
def kinds_fixture(world: World) -> hostile_files.Kinds:
    """All kinds of hostile files."""
    baits = world.sender.bait.names
    return {**hostile_files.bombs(), **hostile_files.outward(baits), **hostile_files.wrong(),
            **hostile_files.registers(), **hostile_files.pictures(baits),
            **hostile_files.changed_registers(world.machine.file.read_bytes())}


def place_of(world: World, view: str) -> tuple[str, dict[str, Any]]:
    """Where a view takes its file, and what is sent with it."""
    path, given = world.forms[view]
    return path, {name: it for name, it in given.items() if name not in FILES[view]}


@pytest.mark.parametrize("view", [it for it in FILES if it != "lots.upload"])
def test_a_hostile_file_is_answered_in_words(
    world: World, kinds: hostile_files.Kinds, view: str
) -> None:
    """Each kind of file under its name, and a small one under each odd name, at each place: within
    the limits of time and memory, and what it names is neither read nor run.
    """
    path, given = place_of(world, view)
    if view == "letter_addresses.save":
        # (one of two ways is chosen)
        given = {**given, "way": "child"}
    for field in sorted(FILES[view]):
        beside: dict[str, Any] = {}
        for name, data in kinds.items():
            if field == "last_copy":
                beside = {"last": (io.BytesIO(world.machine.file.read_bytes()), "last.db")}
            world.sender.file(path, field, name, data, {**given, **beside})
        for name in hostile_files.NAMES:
            world.sender.file(path, field, name, b"child,name\n1,Ann\n", given)
    world.right()
    assert WATCH.of("files")[view] == FILES[view]


def test_after_all_of_it_each_page_has_only_texts(world: World) -> None:
    """The same as before it: whatever was stored of all that was sent."""
    world.see()
    world.right()


# what the head of a school can ask for, and what a reader can send
OF_SCHOOL = ("/", "/schools/OAK", "/schools/OAK/waiting", "/schools/OAK/intake",
             "/schools/OAK/workbook", "/password", "/signed-in")
OF_READER = ("lists.save", "lists.remove", "lists.ticked")
ODD = {"code": ["OAK"], "name": ["children"], "owner": ["jane"], "key": ["key"]}


@pytest.mark.parametrize("role", ["reader", "school-OAK", "school-ELM", "administrator"])
def test_no_role_reaches_a_place_that_is_not_its_own(world: World, role: str) -> None:
    """Whatever addresses it guesses, of notes, files, letters, archives and all others."""
    browser = world.office.browser(f"odd-{role.lower()}", role)
    for method in ("GET", "POST"):
        for view, paths in addresses(world.office, ODD, method).items():
            if view.startswith(("signing.", "health.", "help.")) or view in ("file", "icon") or (
                    role == "reader" and (method == "GET" or view in OF_READER)):
                continue
            for path in paths:
                is_own = method == "GET" and (
                    path in OF_SCHOOL if role == "school-OAK" else path == "/" or (
                        role == "administrator" and view.startswith("people.")))
                is_own = is_own or (role, view) == ("administrator", "people.change")
                found = browser.get(path) if method == "GET" else browser.post(path)
                assert is_own or found.status_code == 403, (method, path, found.status_code)


def test_no_page_of_another_site_sends_a_form_to_any_place(world: World) -> None:
    """Neither with a sign-in, nor without the secret of its session."""
    browser = world.sender.browser
    for paths in addresses(world.office, ODD, "POST").values():
        for origin, secret in (("https://evil.example", browser.secret), ("null", browser.secret),
                               (ORIGIN, "guessed"), (ORIGIN, "")):
            if origin == ORIGIN and paths[0] == "/sign-in":
                continue
            found = browser.client.post(paths[0], base_url=ORIGIN, headers={"Origin": origin},
                                        data={"form": secret})
            assert found.status_code == 403, (paths[0], origin, found.status_code)


def test_hostile_lots_are_answered_in_words(small: Machine, tmp_path: pathlib.Path) -> None:
    """A sheet, cells, a seed, a page and a seal of anything: no sheet is taken."""
    with small.office() as office:
        office.app.request_class = Request
        number = begun(office)
        brought(office, number, "lots")
        sender = Sender(office, at_lots(office), Bait(tmp_path / "bait"))
        before = office.parts.lots.sheet(number)[1].cells()
        fields = {"": {"to", "page", "lot-OAK-1-0", "lot-OAK-1-999"}, "/seed": {"seed"},
                  "/seal": {"seen", "digest"}, "/sheet": {"fill", "page"}}
        for place, names in fields.items():
            for name in sorted(names):
                for what, text in HOSTILE.items():
                    sender.post(f"/lots/{number}{place}", {name: text}, what)
        baits = sender.bait.names
        for name, data in {**hostile_files.bombs(), **hostile_files.outward(baits),
                           **hostile_files.wrong(), **hostile_files.registers()}.items():
            found = sender.file(f"/lots/{number}/sheet", "file", name, data)
            assert found.status_code == 409, name
        assert not sender.wrong, sender.wrong
        after = office.parts.lots.sheet(number)[1].cells()
        assert after.keys() == before.keys()


def test_what_the_tests_look_for_is_seen(tmp_path: pathlib.Path, world: World) -> None:
    """A file that is read, an address that is asked, and markup in a page."""
    bait = Bait(tmp_path / "bait")
    assert not bait.followed()
    bait.file.read_bytes()
    assert bait.followed() == ["the file was read"]
    found = hostile_places.Markup("<p onclick=x><a href=//x>y</a><script>z</script>").found
    assert len(found) == 4, found
    assert hostile_places.formulas_of_csv("a,=1\n-1,@x\n") == ["=1", "@x"]
    assert world.sender.browser.client.get("/", base_url=ORIGIN).status_code == 200
