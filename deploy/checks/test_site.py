"""Who may do what, and which requests are passed on: each permission and each refusal of the site,
by curl."""

import itertools
import json
import re
import socket
import ssl
import time
import urllib.parse
from collections.abc import Callable

import pytest

from checks.expected import headers_differ
from checks.raw import raw, status_of
from checks.office import Account
from checks.world import COOKIE, FORM, HAS_IPV6, NAME, Answer, World, basic, group

ACCEPT = '{"cmd":"accept","child":1,"school":"A"}'
QUESTION = '{"child":3,"lots":[1,2,3],"preferences":["B"]}'
# what shows all children
WHOLE = ("/register", "/draw/1", "/pairs", "/pairs/A")
HEAD = "child,name,east,north,looked_after,flags,siblings,day,preferences\n"
# (of a child that was added by a command: it is refused)
ROWS = HEAD + "1,Row,0,700,no,,,2025-06-02,B\n"
EVIL = "https://evil.example"
HTTP = ("--http1.1", "--http2")
CHUNKED = ("--http1.1", "--header", "Transfer-Encoding: chunked")
# (over HTTP/2, where some versions of curl announce the length of what was to be sent in chunks)
UNANNOUNCED = {"in chunks": CHUNKED, "by HTTP/2": ("--http2", "--header", "Content-Length:")}
# What a browser sends that goes to a page
PAGE = ("--header", "Accept: text/html,application/xhtml+xml,*/*;q=0.8")
Ask = Callable[[World], Answer]


@pytest.fixture(scope="module", name="letter_before", autouse=True)
def letter_before_fixture(world: World) -> str:
    """The letter of child 1 before any of these requests."""
    return world.letter(1)


@pytest.fixture(scope="module", name="long_body")
def long_body_fixture(world: World) -> str:
    """A body of one byte more than the greatest length, for curl."""
    (world.room / "long-body").write_text(" " * 1_048_577)
    return f"@{world.room}/long-body"


def changed(world: World, **given: str) -> Answer:
    """What a change of a person on People gets, once what it does is shown."""
    asked = world.ask(f"/people/ask?{urllib.parse.urlencode(given)}", "jane")
    shown = group('name="shown" value="([^"]+)"', asked.body)
    return world.submit("/people/", "jane", **given, shown=shown)


def test_nginx_accepts_the_site(world: World) -> None:
    assert world.tested.returncode == 0, world.tested.stderr


# Who signs in


@pytest.fixture(scope="module", name="screens")
def screens_fixture(world: World) -> list[str]:
    """The addresses in the menu of who has most of it."""
    groups = links(world, "/")
    return sorted({*groups, *(it for group in groups for it in links(world, group))})


def links(world: World, path: str) -> list[str]:
    """What the menu of a page leads to."""
    shown = world.ask(path, "jane").body
    menu = re.findall('(?s)<nav class="(?:groups|screens)"(.*?)</nav>', shown)
    return re.findall('href="([^"]+)"', " ".join(menu))


@pytest.mark.parametrize("path", ["/", "/lists/", "/child/1", "/child/1/letter",
                                  "/school/A/waiting", "/round/1", *WHOLE])
def test_nobody_gets_anything_without_signing_in(world: World, path: str) -> None:
    assert world.ask(path).status == 401


def test_nobody_gets_a_screen_of_the_menu(world: World, screens: list[str]) -> None:
    assert len(screens) >= 10
    assert {path: world.ask(path).status for path in screens} == dict.fromkeys(screens, 401)


@pytest.mark.parametrize("path", ["/", "/lists/", "/child/1", "/people/", "/register"])
def test_a_browser_of_nobody_is_led_to_the_form_and_from_there_to_the_page(
        world: World, path: str) -> None:
    led = world.ask(path, options=PAGE)
    assert (led.status, urllib.parse.unquote(led.fields["location"])) == (
        302, f"/sign-in?to={path}")
    form = world.ask(led.fields["location"], options=PAGE)
    assert (form.status, f'name="to" value="{path}"' in form.body) == (200, True)


def test_who_sends_a_form_of_an_ended_session_has_it_again_and_is_told_to_sign_in(
        world: World) -> None:
    ended = (*PAGE, "--header", f"Cookie: {COOKIE}=ended")
    sent = world.ask("/people/", None, "what=lock&name=hal", kind=FORM, options=ended)
    assert (sent.status, sent.fields["content-type"]) == (401, "text/html; charset=utf-8")
    assert "Your session has ended, and nothing was done." in sent.body
    assert "<bdi>hal</bdi>" in sent.body
    (world.room / "long-form").write_text("name=" + "x" * 100_000)
    for form, options in ((f"@{world.room}/long-form", ended), ("what=lock&name=hal", PAGE)):
        kept = world.ask("/people/", None, form, kind=FORM, options=options)
        assert (kept.status, "sign in first" in kept.body) == (401, True)


def test_the_internal_query_for_a_session_cannot_be_requested(world: World) -> None:
    assert world.ask("/signed-in", "jane").status == 404


def test_nobody_sends_a_command_without_signing_in(world: World) -> None:
    assert world.ask("/command", body=ACCEPT).status == 401


@pytest.mark.parametrize("begin", ["POST /command", "POST /import", "PUT /", "GET /child/1"])
def test_nothing_of_a_long_body_is_read_of_who_is_not_signed_in(world: World, begin: str) -> None:
    """The answer comes although nothing of the body does. (A form that was typed is shorter.)"""
    fields = ("Content-Type: application/json", "Content-Length: 1000000")
    assert status_of(raw(world, begin, f"Origin: https://{NAME}", *fields)) == 401


@pytest.mark.parametrize("way", UNANNOUNCED)
def test_of_a_body_whose_length_is_not_announced_no_more_is_read_of_who_is_not_signed_in(
        world: World, way: str) -> None:
    body = world.room / "over-a-mebibyte"
    body.write_text(" " * ((1 << 20) + 1))
    ended = ("--header", f"Cookie: {COOKIE}=ended")
    for options, status in (((), 401), (ended, 413)):
        answer = world.ask("/command", None, f"@{body}", options=(*UNANNOUNCED[way], *options))
        assert answer.status == status


# Who tries a password of somebody, as each from an address that has tried none yet, and what for
WRONG = {
    "a wrong password": ("jane", "wrong"), "the password of a school": ("jane", "alpha"),
    "a name that is locked": ("smith", "smith"), "the name of a program": ("robot", "robot"),
    "a name that is not there": ("mallory", "jane"), "no name": ("", "jane"),
    "no password": ("jane", ""), "a name that is a query": ("' OR 1=1 --", "jane"),
}


@pytest.mark.parametrize("what", WRONG)
def test_a_wrong_sign_in_gets_no_session_and_does_not_learn_what_was_wrong(
        world: World, what: str) -> None:
    name, whose = WRONG[what]
    address = f"127.0.2.{list(WRONG).index(what) + 1}"
    answer = world.sign_in(name, world.passwords.get(whose, whose), "--interface", address)
    said = re.findall('role="alert">([^<]*)<', answer.body)
    assert (answer.status, answer.session, said) == (
        403, "", ["The name or the password is wrong."])


def test_after_five_wrong_passwords_an_address_waits_and_then_the_right_one_is_accepted(
        world: World) -> None:
    """The wait is twice as long after each more: 1, 2, 4 and then 8 seconds, less those that have
    passed before the next one is sent."""
    here = ("--interface", "127.0.2.50")
    for _ in range(5):
        assert world.sign_in("hal", "wrong", *here).status == 403
    waits = [waited(lambda: world.sign_in("hal", "wrong", *here)) for _ in range(3)]
    waits.append(waited(lambda: world.sign_in("hal", world.passwords["hal"], *here)))
    assert all(it <= most for it, most in zip(waits, (1, 2, 4, 8)))
    assert waits[3] > 2
    assert world.sign_in("hal", "wrong", *here).session == ""


def waited(ask: Callable[[], Answer]) -> int:
    """Waits as long as an answer says, and asks again, until it is looked at. Returns for how many
    seconds at most."""
    seconds = [0]
    while wait := (answer := ask()).wait:
        seconds.append(wait)
        time.sleep(wait)
    assert answer.status == 303 or "is wrong" in answer.body
    return max(seconds)


def test_a_password_that_was_drawn_is_for_one_sign_in_and_does_nothing_else(world: World) -> None:
    """So who adds people does not know what they sign in with."""
    page = world.submit("/people/", "jane", what="add", name="ivy", role="officer", kind="person")
    drawn = group('<code id="secret">([^<]+)</code>', page.body)
    answer = world.sign_in("ivy", drawn)
    world.people = {**world.people, "ivy": Account("officer")}
    world.passwords["ivy"] = "correct-horse"
    world.sessions["ivy"] = answer.session, time.monotonic()
    led = [world.ask("/children/1", "ivy"), world.ask("/lists/", "ivy")]
    assert [(it.status, it.fields["location"]) for it in led] == [(302, "/password")] * 2
    own = {"present": drawn, "new": "correct-horse", "again": "correct-horse"}
    assert world.submit("/password", "ivy", **{**own, "present": "wrong"}).status == 403
    assert world.submit("/password", "ivy", **{**own, "again": "another-horse"}).status == 403
    assert world.submit("/password", "ivy", **own).status == 303
    assert world.ask("/children/1", "ivy").status == 200
    assert world.sign_in("ivy", drawn, "--interface", "127.0.2.51").status == 403
    assert changed(world, what="remove", name="ivy").status == 200
    assert world.ask("/children/1", "ivy").status == 401


def test_the_form_of_another_site_signs_nobody_in(world: World) -> None:
    """So nobody can be led to type what is theirs into the session of somebody else."""
    for origin in (EVIL, "null", None):
        answer = world.sign_in("jane", world.passwords["jane"], origin=origin)
        assert (answer.status, answer.session) == (403, "")


@pytest.mark.parametrize("name, password", [
    ("robot", "wrong"), ("robot", ""), ("mallory", "x"), ("jane", "jane"), ("jane", "robot"),
    ("smith", "smith"), ("", "robot")])
def test_a_wrong_token_and_a_password_in_the_place_of_one_are_refused(
        world: World, name: str, password: str) -> None:
    field = basic(name, world.passwords.get(password, password))
    assert status_of(raw(world, "GET /child/1", field)) == 401


def test_a_program_with_its_token_is_known_and_needs_no_session(world: World) -> None:
    token = world.passwords["robot"]
    answer = world.ask("/pairs", None, options=("--user", f"robot:{token}"))
    assert (answer.status, answer.body[:4]) == (200, "A 2\n")


def test_the_session_is_in_a_cookie_that_no_script_and_no_other_site_gets(world: World) -> None:
    """Nor a site of a name below this one, nor one without TLS."""
    head = world.run("curl", "--silent", "--cacert", world.certificate, "--dump-header", "-",
                     "--connect-to", f"{NAME}:443:127.0.0.1:{world.site_port}", "--output",
                     "/dev/null", "--header", f"Origin: https://{NAME}", "--data-urlencode",
                     "name=hal", "--data-urlencode", f"password={world.passwords['hal']}",
                     f"https://{NAME}/sign-in").stdout
    session, known = re.findall("(?im)^set-cookie: (.*?)\r?$", head)
    name, *flags = session.split("; ")
    assert re.fullmatch(f"{COOKIE}=[A-Za-z0-9_-]{{43}}", name)
    assert sorted(flags) == ["HttpOnly", "Path=/", "SameSite=Strict", "Secure"]
    # (the other one says who has signed in in this browser)
    name, *more = known.split("; ")
    assert name.startswith(f"{COOKIE}-browser=") and set(flags) < set(more)


def test_who_signs_out_is_signed_in_no_more_even_with_the_cookie(world: World) -> None:
    before = world.field("hal")
    assert status_of(raw(world, "GET /children/1", before)) == 200
    answer = world.submit("/sign-out", "hal")
    assert (answer.status, answer.fields["location"]) == (303, "/sign-in")
    world.sessions.pop("hal")
    assert status_of(raw(world, "GET /children/1", before)) == 401


@pytest.mark.parametrize("secret", ["", "x", "A" * 43, "%00", "' OR 1=1 --", "x" * 7000])
def test_a_session_that_is_none_is_refused(world: World, secret: str) -> None:
    assert status_of(raw(world, "GET /children/1", f"Cookie: {COOKIE}={secret}")) == 401


def test_a_session_in_a_cookie_of_another_name_is_none(world: World) -> None:
    secret = world.session("jane")
    assert status_of(raw(world, "GET /children/1", f"Cookie: admissions={secret}")) == 401


# What the office gets: people the screens, and programs the register's own answers


@pytest.fixture(name="program", params=["robot", "reads"])
def program_fixture(request: pytest.FixtureRequest) -> str:
    """A program of an officer, and one of a reader."""
    name: str = request.param
    return name


@pytest.mark.parametrize("path", ["/child/1", "/child/1/letter", "/school/A/waiting", "/round/1",
                                  *WHOLE])
def test_a_session_gets_nothing_of_what_is_for_programs_and_is_told_so(
        world: World, path: str) -> None:
    answer = world.ask(path, "jane")
    assert (answer.status, json_of(answer)) == (403, {"reason": OF_PROGRAMS, "status": 403})


@pytest.mark.parametrize("who", ["jane", "hal", "rita", "robot"])
def test_people_of_the_office_get_a_screen_and_a_program_does_not(world: World, who: str) -> None:
    screen = world.ask("/lists/", who)
    wanted = (403, False) if who == "robot" else (200, True)
    assert (screen.status, "School admissions" in screen.body) == wanted


@pytest.mark.parametrize("path, kind", [("/ui.css", "text/css; charset=utf-8"),
                                        ("/pile.js", "text/javascript; charset=utf-8")])
def test_a_file_of_the_screens_has_its_type(world: World, path: str, kind: str) -> None:
    assert world.ask(path, "jane").fields.get("content-type") == kind


def test_a_program_reads_a_child(world: World, program: str) -> None:
    child = world.ask("/child/2", program)
    assert (child.status, child.body) == (
        200, '{"child":2,"place":{"kind":"offered","school":"B"},'
        '"waiting":[{"position":1,"school":"A"}]}')


def test_nothing_is_kept_in_a_cache_or_taken_for_another_type(world: World) -> None:
    fields = world.ask("/child/2", "robot").fields
    assert (fields.get("cache-control"), fields.get("x-content-type-options")) == (
        "no-store", "nosniff")


@pytest.mark.parametrize("path, first", [
    ("/child/2/letter", "Admission 2025 secondary"),
    ("/school/A/waiting", "Waiting list of A Alpha"),
    ("/round/1", "Round 1, draw 1, 2025-03-03"),
])
def test_a_program_reads_letters_lists_and_reports(
        world: World, program: str, path: str, first: str) -> None:
    answer = world.ask(path, program)
    assert (answer.status, answer.body.split("\n")[0]) == (200, first)


@pytest.mark.parametrize("path, begin", [
    ("/register", '{"children":['), ("/draw/1", '{"cutoffs":['),
    ("/pairs", "A 2\n"), ("/pairs/A", "A 2\n")])
def test_a_program_reads_what_shows_all_children(
        world: World, program: str, path: str, begin: str) -> None:
    answer = world.ask(path, program)
    assert (answer.status, answer.body[:len(begin)]) == (200, begin)


def test_a_program_asks_what_would_be(world: World, program: str) -> None:
    assert world.ask("/what-if", program, QUESTION).status == 200


@pytest.mark.parametrize("path", ["/child/7", "/school/X/waiting", "/round/2", "/nothing"])
def test_what_is_not_there_is_not_found(world: World, path: str) -> None:
    assert world.ask(path, "robot").status == 404


@pytest.mark.parametrize("address", ["127.0.0.1", *(["[::1]"] if HAS_IPV6 else [])])
def test_the_site_is_at_each_kind_of_address(world: World, address: str) -> None:
    at = ("--connect-to", f"{NAME}:443:{address}:{world.site_port}")
    assert world.ask("/pile.js", "jane", options=at).status == 200


@pytest.mark.parametrize("method, path, status", [("GET", "/command", 405),
                                                  ("PUT", "/child/1", 405)])
def test_another_method_is_refused(world: World, method: str, path: str, status: int) -> None:
    assert world.ask(path, "robot", options=("--request", method)).status == status


# What a school gets, its program and its head


def test_a_school_reads_its_own_list(world: World) -> None:
    own = world.ask("/school/A/waiting", "lists")
    assert (own.status, own.body.split("\n")[0]) == (200, "Waiting list of A Alpha")


@pytest.mark.parametrize("path", ["/school/B/waiting", "/school/AA/waiting", "/school/a/waiting",
                                  "/child/2", "/child/2/letter", "/round/1", "/lists/", *WHOLE])
def test_a_school_reads_nothing_else(world: World, path: str) -> None:
    assert world.ask(path, "lists").status == 403


@pytest.mark.parametrize("path", [
    "/school/A/../B/waiting", "/school/B/waiting?/school/A/waiting", "//school/B/waiting",
    "/school/%42/waiting", "/school/B%2Fwaiting", "/school/A/waiting/../../B/waiting",
    "/school/A%2f..%2fB/waiting", "/school/A/waiting%00/../../B/waiting", "/school/B/waiting/",
    f"https://{NAME}/school/B/waiting"])
def test_a_school_reads_no_other_list_by_another_way(world: World, path: str) -> None:
    answer = raw(world, f"GET {path}", world.field("lists"))
    assert status_of(answer) in (308, 400, 403, 404)
    assert "Cyd Cole" not in answer and "Waiting list" not in answer


def test_a_school_reads_its_own_list_by_another_way(world: World) -> None:
    for path in ("/school/A/waiting?", f"https://{NAME}/school/A/waiting"):
        answer = raw(world, f"GET {path}", world.field("lists"))
        assert (status_of(answer), "Waiting list of A Alpha" in answer) == (200, True)


@pytest.mark.parametrize("path, body, status", [
    ("/command", ACCEPT, 403), ("/what-if", QUESTION, 403), ("/school/A/waiting", ACCEPT, 405)])
def test_a_school_sends_nothing(world: World, path: str, body: str, status: int) -> None:
    assert world.ask(path, "lists", body).status == status


def test_a_school_gets_only_screens_of_its_own(world: World, screens: list[str]) -> None:
    statuses = {path: world.ask(path, "alpha").status for path in screens}
    assert {path: it for path, it in statuses.items() if it != 403} == {"/": 200}
    assert "Alpha" in world.ask("/", "alpha").body


# What others get who sign in


@pytest.mark.parametrize("path", ["/lists/", "/find", "/children/1", "/schools/"])
@pytest.mark.parametrize("name", ["sup", "adam"])
def test_who_draws_lots_and_who_adds_people_see_no_child(
        world: World, name: str, path: str) -> None:
    assert world.ask(path, name).status == 403


def test_the_program_of_a_reader_sends_no_command_and_no_rows(world: World) -> None:
    assert [world.ask("/command", "reads", ACCEPT).status,
            world.ask("/import", "reads", ROWS, kind="text/csv").status] == [403, 403]


@pytest.mark.parametrize("name, own", [("sup", "/lots/"), ("adam", "/people/")])
def test_each_gets_what_is_its_own(world: World, name: str, own: str) -> None:
    assert [world.ask(own, it).status for it in (name, "rita", "alpha")] == [200, 403, 403]


def test_who_is_refused_is_on_record_with_what_was_asked_and_once_in_a_minute(
        world: World) -> None:
    before = len(world.entries())
    assert [world.ask("/children/31", "alpha").status for _ in range(3)] == [403] * 3
    refused = [(it["who"], it["what"], it["about"]) for it in world.entries()[before:]]
    assert refused == [("alpha", "refused", {"asked": "GET /children/31", "role": "school-A"})]


# What a page of another site can make a browser send


@pytest.mark.parametrize("origin", [
    pytest.param(EVIL, id="another site"),
    pytest.param(f"http://{NAME}", id="the same name without TLS"),
    pytest.param(f"https://{NAME}:8443", id="another port"),
    pytest.param(f"https://{NAME}.evil.example", id="a name that begins alike"),
    pytest.param("null", id="nowhere (null)"),
    pytest.param(None, id="without an origin"),
])
def test_a_command_from_another_page_is_refused(world: World, origin: str | None) -> None:
    assert world.ask("/command", "robot", ACCEPT, origin=origin).status == 403


@pytest.mark.parametrize("kind, status", [
    (FORM, 403), ("text/plain", 403), ("multipart/form-data; boundary=x", 403),
    ("application/json, text/plain", 415), ("", 403), ("text/csv", 415)])
def test_a_command_of_another_type_is_refused(world: World, kind: str, status: int) -> None:
    assert world.ask("/command", "robot", ACCEPT, kind=kind).status == status


@pytest.mark.parametrize("kind, status", [("application/json", 415), ("text/plain", 403),
                                          ("text/csv, text/plain", 415), ("", 403)])
def test_rows_of_another_type_are_refused(world: World, kind: str, status: int) -> None:
    assert world.ask("/import", "robot", ROWS, kind=kind).status == status


def test_rows_from_another_site_are_refused(world: World) -> None:
    assert world.ask("/import", "robot", ROWS, origin=EVIL, kind="text/csv").status == 403


def test_nobody_but_the_office_sends_rows(world: World) -> None:
    statuses = [world.ask("/import", who, ROWS, kind="text/csv").status for who in (None, "lists")]
    assert statuses == [401, 403]


def test_a_question_from_another_site_is_refused(world: World) -> None:
    assert world.ask("/what-if", "robot", QUESTION, origin=EVIL).status == 403


@pytest.mark.parametrize("secret", ["", "x", "of another session"])
def test_a_form_without_the_secret_of_its_session_is_refused(world: World, secret: str) -> None:
    """As one that another site has prepared, even if a browser names the wrong origin."""
    page = world.ask("/password", "hal").body
    found = re.findall('name="form" value="([^"]+)"', page)[0] if len(secret) > 1 else secret
    form = {"what": "lock", "name": "rita", "form": found}
    answer = world.ask("/people/", "jane", urllib.parse.urlencode(form), kind=FORM)
    assert (answer.status, world.ask("/children/1", "rita").status) == (403, 200)


def test_a_form_with_its_secret_from_another_site_is_refused(world: World) -> None:
    secret = re.findall('name="form" value="([^"]+)"', world.ask("/people/", "jane").body)[0]
    form = urllib.parse.urlencode({"what": "lock", "name": "rita", "form": secret})
    answer = world.ask("/people/", "jane", form, EVIL, FORM)
    assert (answer.status, world.ask("/children/1", "rita").status) == (403, 200)


def test_another_site_is_not_permitted_to_ask(world: World) -> None:
    asked = world.ask("/command", "robot", options=(
        "--request", "OPTIONS", "--header", f"Origin: {EVIL}",
        "--header", "Access-Control-Request-Method: POST"))
    permissions = [name for name in asked.fields if name.startswith("access-control")]
    assert (asked.status, permissions) == (403, [])


# What is too long


def test_a_body_of_the_greatest_length_reaches_the_desk(world: World) -> None:
    (world.room / "body").write_text(" " * 1_048_576)
    answer = world.ask("/command", "robot", f"@{world.room}/body")
    assert answer.body == '{"fault":1,"name":"NotJson"}'


@pytest.mark.parametrize("options", [(), CHUNKED])
@pytest.mark.parametrize("path, kind", [("/command", "application/json"), ("/import", "text/csv"),
                                        ("/what-if", "application/json")])
def test_a_body_of_one_byte_more_is_refused(
        world: World, long_body: str, path: str, kind: str, options: tuple[str, ...]) -> None:
    assert world.ask(path, "robot", long_body, kind=kind, options=options).status == 413


def test_a_body_that_is_longer_than_what_a_head_may_be_is_done(world: World) -> None:
    """As an Excel file, or many rows, is."""
    rows = HEAD + "".join(f"1,Row,0,700,no,,,2025-06-02,{'B' * 12}\n" for _ in range(1000))
    answer = world.ask("/import", "robot", rows, kind="text/csv")
    assert len(rows) > 20_000
    assert (answer.status, json.loads(answer.body)["fault"] > 0) == (400, True)


# where else the application takes files
OTHER_FILES = (
    "/applications/files", "/answers/several", "/children/1/files", "/figures/",
    "/letters/templates/1", "/lots/1/sheet", "/schools/new/sheet", "/schools/new/last-year",
)


@pytest.mark.parametrize("options", [(), CHUNKED])
def test_a_gazetteer_is_taken_at_its_own_address_alone(
        world: World, options: tuple[str, ...]) -> None:
    """It is longer than all other files. (What is sent here is no form of a screen.)"""
    (world.room / "gazetteer").write_text(" " * (17 << 20))
    body = f"@{world.room}/gazetteer"
    assert world.ask("/applications/gazetteer/file", "jane", body, options=options).status == 403
    for path in OTHER_FILES:
        assert world.ask(path, "jane", body, options=options).status == 413, path
    assert world.ask("/applications/gazetteer/file", None, body).status == 401


def test_a_sign_in_of_over_8_kb_is_not_read(world: World) -> None:
    answer = world.sign_in("jane", "x" * 8192, "--interface", "127.0.2.40")
    assert (answer.status, answer.session) == (413, "")


# (over HTTP/2 the site closes the connection instead of an answer)
@pytest.mark.parametrize("path, options, statuses", [
    pytest.param("/" + "x" * 8192, (), [414, 0], id="a target"),
    pytest.param("/child/1", ("--header", "X: " + "x" * 8192), [400, 0], id="a field"),
    pytest.param("/child/1", tuple(itertools.chain.from_iterable(
        ("--header", f"X{number}: {'x' * 300}") for number in range(40))), [400, 0], id="a head"),
    pytest.param("/child/1", (), [200, 200], id="nothing"),
])
def test_a_target_a_field_or_a_head_that_is_too_long_is_refused(
        world: World, path: str, options: tuple[str, ...], statuses: list[int]) -> None:
    seen = [world.ask(path, "robot", options=(version, *options)).status for version in HTTP]
    assert seen == statuses


def test_100_short_fields_stay_here_and_the_desk_does_not_see_them(world: World) -> None:
    many = itertools.chain.from_iterable(("--header", f"X{it}: x") for it in range(100))
    assert world.ask("/child/1", "robot", options=tuple(many)).status == 200


# Other names, and TLS


def test_another_name_in_the_head_is_refused(world: World) -> None:
    other = world.ask("/child/1", "robot", options=("--header", "Host: evil.example"))
    assert other.status == 421


def test_another_name_in_tls_is_refused(world: World) -> None:
    context = ssl.create_default_context(cafile=str(world.certificate))
    context.check_hostname = False
    with pytest.raises(ssl.SSLError):
        shake_hands(world, context, "evil.example")


def test_plain_http_leads_to_the_site(world: World) -> None:
    plain = world.run("curl", "--silent", "--output", "/dev/null", "--write-out",
                      "%{http_code} %{redirect_url}", "--header", f"Host: {NAME}",
                      f"http://127.0.0.1:{world.plain_port}/child/1")
    assert plain.stdout == f"301 https://{NAME}/child/1"


def test_the_port_of_the_site_requires_tls(world: World) -> None:
    plain = world.run("curl", "--silent", "--output", "/dev/null", "--write-out", "%{http_code}",
                      f"http://127.0.0.1:{world.site_port}/child/1")
    assert plain.stdout == "400"


def test_an_old_version_of_tls_is_refused_by_the_site(world: World) -> None:
    old = world.ask("/child/1", "robot", options=(
        "--tlsv1.0", "--tls-max", "1.1", "--ciphers", "DEFAULT:@SECLEVEL=0", "--show-error"))
    assert old.status == 0
    assert "alert protocol version" in old.error


@pytest.mark.parametrize("cipher, is_accepted", [
    ("ECDHE-ECDSA-AES128-GCM-SHA256", True), ("ECDHE-ECDSA-AES256-GCM-SHA384", True),
    ("ECDHE-ECDSA-CHACHA20-POLY1305", True), ("ECDHE-ECDSA-AES128-SHA256", False),
    ("ECDHE-ECDSA-AES256-SHA", False), ("ECDHE-ECDSA-AES128-CCM8", False),
    ("ECDHE-ECDSA-AES128-CCM", False),
])
def test_tls_1_2_accepts_no_cipher_of_cbc_or_ccm(
        world: World, cipher: str, is_accepted: bool) -> None:
    context = ssl.create_default_context(cafile=str(world.certificate))
    context.maximum_version = ssl.TLSVersion.TLSv1_2
    context.set_ciphers(f"{cipher}:@SECLEVEL=0")
    try:
        shake_hands(world, context, NAME)
        seen = True
    except ssl.SSLError:
        seen = False
    assert seen == is_accepted


def shake_hands(world: World, context: ssl.SSLContext, name: str) -> None:
    """Begins TLS with a name."""
    with socket.create_connection(("127.0.0.1", world.site_port), timeout=10) as it:
        context.wrap_socket(it, server_hostname=name).close()


# What each answer of the site has: a reason that helps, where the site itself refuses; and each
# header of the list, and none but those

SIGN_IN, NOT_FROM_HERE = "sign in first", "a request must come from a page of this site"
LONG_BODY = ("a body has at most 16 MB, a gazetteer 64 MB, a sign-in 8 KB, and 100 KB where nobody"
             " is signed in")
LONG_COMMAND = "the register takes at most 1,048,576 bytes at once"
NO_REQUEST = "this is no request that the site reads, or its head has over 8 KB"
OF_PROGRAMS = ("this is for other programs, which send a token: the head of the office adds a"
               " program on the screen People")
# What is asked, its status and the reason
REFUSED: dict[str, tuple[Ask, int, str]] = {
    "no sign-in": (lambda world: world.ask("/child/1"), 401, SIGN_IN),
    "a command of nobody": (lambda world: world.ask("/command", None, ACCEPT), 401, SIGN_IN),
    "a wrong token": (
        lambda world: world.ask("/child/1", options=("--user", "robot:wrong")), 401, SIGN_IN),
    "a role": (lambda world: world.ask("/people/", "rita"), 403, "the role reader may not do this"),
    "another school": (lambda world: world.ask("/schools/B", "alpha"), 403,
                       "the role school-A may not do this"),
    "a program": (lambda world: world.ask("/command", "reads", ACCEPT), 403,
                  "a program may not do this"),
    "a session": (lambda world: world.ask("/command", "jane", ACCEPT), 403, OF_PROGRAMS),
    "another site": (
        lambda world: world.ask("/command", "robot", ACCEPT, origin=EVIL), 403, NOT_FROM_HERE),
    "no JSON": (
        lambda world: world.ask("/command", "robot", ACCEPT, kind="text/plain"), 403,
        NOT_FROM_HERE),
    "rows that are a command": (
        lambda world: world.ask("/command", "robot", ACCEPT, kind="text/csv"), 415,
        "this takes application/json alone"),
    "no such file": (
        lambda world: world.ask("/nothing.js", "jane"), 404, "there is no such page"),
    "a POST to a screen": (
        lambda world: world.ask("/lists/", "jane", ACCEPT), 405, "the page takes no such request"),
    "a long command": (
        lambda world: world.ask("/command", "robot", f"@{world.room}/long-body"), 413,
        LONG_COMMAND),
    "a long body": (
        lambda world: world.ask("/command", "robot", f"@{world.room}/longest-body"), 413,
        LONG_BODY),
    "a long body in chunks": (
        lambda world: world.ask(
            "/command", "robot", f"@{world.room}/longest-body", options=CHUNKED), 413, LONG_BODY),
    "a long sign-in": (
        lambda world: world.sign_in("jane", "x" * 8192, "--interface", "127.0.2.40"), 413,
        LONG_BODY),
    "a long address": (
        lambda world: world.ask("/" + "x" * 8192, "robot", options=("--http1.1",)), 414,
        "an address has at most 8 KB"),
    "a long head": (
        lambda world: world.ask("/child/1", "robot", options=(
            "--http1.1", "--header", "X: " + "x" * 8192)), 400, NO_REQUEST),
    "a length that is none": (
        lambda world: world.ask("/child/1", "robot", options=(
            "--http1.1", "--header", "Content-Length: x")), 400, NO_REQUEST),
}
SCREENS = ("/", "/lists/", "/people/", "/pile.js")
PATHS = (*SCREENS, "/register", "/child/2", "/child/2/letter", "/school/A/waiting", "/round/1",
         "/child/7", "/command")
# Others, of which the desk refuses some
OTHERS: dict[str, Ask] = {
    "a command that is refused": lambda world: world.ask(
        "/command", "robot", ACCEPT.replace('"A"', '"B"')),
    "not JSON": lambda world: world.ask("/command", "robot", "{"),
    "PUT": lambda world: world.ask("/child/1", "robot", options=("--request", "PUT")),
    "a part": lambda world: world.ask("/pile.js", "jane", options=("--range", "0-1")),
    "no such part": lambda world: world.ask("/pile.js", "jane", options=("--range", "99999999-")),
    "compressed": lambda world: world.ask("/register", "robot", options=("--compressed",)),
    "the form": lambda world: world.ask("/sign-in"),
    "a page of nobody": lambda world: world.ask("/lists/", options=PAGE),
    "a form of nobody": lambda world: world.ask(
        "/people/", None, "what=lock", kind=FORM, options=PAGE),
    "a long form": lambda world: world.ask(
        "/people/", "jane", f"@{world.room}/longest-body", kind=FORM, options=PAGE),
    "a sign-in": lambda world: world.sign_in("adam", world.passwords["adam"]),
    "a wrong sign-in": lambda world: world.sign_in("adam", "wrong", "--interface", "127.0.2.41"),
    "a page that is refused": lambda world: world.ask("/lists/", "alpha", options=PAGE),
    "a page that is not there": lambda world: world.ask("/nothing", "jane", options=PAGE),
}


def asker(path: str) -> str:
    """Who asks for a path: a person for a screen, and a program for what is for programs."""
    return "jane" if path in SCREENS else "robot"


@pytest.fixture(scope="module", name="answers")
def answers_fixture(world: World, long_body: str) -> dict[str, Answer]:
    """The answer to each of these. (Three of them send a long body.)"""
    (world.room / "longest-body").write_text(" " * ((16 << 20) + 1))
    answers = {what: ask(world) for what, (ask, _, _) in REFUSED.items()}
    answers |= {path: world.ask(path, asker(path)) for path in PATHS}
    return answers | {what: ask(world) for what, ask in OTHERS.items()}


def json_of(answer: Answer) -> object:
    """The JSON of a body, or the body if it is none."""
    try:
        read: object = json.loads(answer.body)
    except ValueError:
        return answer.body
    return read


@pytest.mark.parametrize("what", REFUSED)
def test_who_is_refused_gets_the_reason(answers: dict[str, Answer], what: str) -> None:
    answer, (_, status, reason) = answers[what], REFUSED[what]
    assert (answer.status, json_of(answer), answer.fields.get("content-type")) == (
        status, {"reason": reason, "status": status}, "application/json")


def test_a_request_for_another_host_gets_the_reason(world: World) -> None:
    other = world.ask("/child/1", "robot", options=("--header", "Host: evil.example"))
    assert (other.status, json_of(other), other.fields.get("server")) == (
        421, {"reason": "this machine has no site of this name", "status": 421}, "nginx")


def test_no_answer_has_a_browser_ask_for_a_password_by_itself(answers: dict[str, Answer]) -> None:
    assert [what for what, it in answers.items() if "www-authenticate" in it.fields] == []


def test_the_register_is_compressed_for_whoever_takes_that_and_is_the_same(
        answers: dict[str, Answer]) -> None:
    compressed, plain = answers["compressed"], answers["/register"]
    encodings = [it.fields.get("content-encoding") for it in (compressed, plain)]
    assert encodings == ["gzip", None]
    assert compressed.body == plain.body


@pytest.mark.parametrize("path", [*SCREENS, "/child/2"])
def test_what_has_a_secret_beside_something_of_the_request_is_not_compressed(
        world: World, path: str) -> None:
    answer = world.ask(path, asker(path), options=("--compressed",))
    assert (answer.status, answer.fields.get("content-encoding")) == (200, None)


def test_the_answers_have_each_status_of_the_desk(answers: dict[str, Answer]) -> None:
    assert sorted({answers[what].status for what in (*PATHS, *OTHERS)}) == [
        200, 206, 302, 303, 400, 401, 403, 404, 405, 409, 413, 416]


@pytest.mark.parametrize("what", [*REFUSED, *PATHS, *OTHERS])
def test_an_answer_has_each_header_of_the_list_and_no_other(
        answers: dict[str, Answer], what: str) -> None:
    """A browser may keep the files of the screens, which are everybody's, and asks whether they are
    still the same."""
    fields = answers[what].fields
    if what in ("/pile.js", "a part"):
        assert fields["cache-control"] == "no-cache"
        fields = fields | {"cache-control": "no-store"}
    assert headers_differ(fields) == []


def test_a_file_of_the_screens_is_not_sent_again_while_it_is_the_same(
        world: World, answers: dict[str, Answer]) -> None:
    etag = answers["/pile.js"].fields["etag"]
    again = world.ask("/pile.js", options=("--header", f"If-None-Match: {etag}"))
    assert (again.status, again.body) == (304, "")


# What somebody without a password can have written on a disk: nothing


def tries(name: str) -> str:
    """A name with a token that is wrong."""
    return basic(name, "x")


LONG, EMPTY = "/" + '"' * 7000, "Content-Length: 0"
UNSIGNED = {
    "nothing but a target": (f"GET {LONG}",),
    "bytes that are no UTF-8": ("GET /\xe9\xff", tries("\xff\xfe")),
    "a name of 5,400 bytes 1": ("GET /", tries("\1" * 5400)),
    "a target of 7,000 quotes": (f"GET {LONG}", tries("robot")),
    "a long POST from elsewhere": (
        f"POST {LONG}", tries("robot"), "Content-Type: application/json", EMPTY),
    "one of another type": (
        f"POST {LONG}", tries("robot"), f"Origin: https://{NAME}", "Content-Type: x", EMPTY),
    "a method of 7,000 letters": (f"{'G' * 7000} /", tries("robot")),
    "no request": (f"GET {LONG} {LONG}", tries("robot")),
    "a long address": (f"GET {LONG}{LONG}", tries("robot")),
    "the longest plain name and a long target": (f"GET /{'x' * 7000}", tries("a" * 64)),
    "a referrer and a browser": (
        "GET /", tries("robot"), "Referer: " + "r" * 3000, "User-Agent: " + "u" * 3000),
    "a cookie of 7,000 bytes": ("GET /", f"Cookie: {COOKIE}={'x' * 7000}"),
}
# The address that these come from
STRANGER = "127.0.0.4"


def written(world: World) -> int:
    """How many bytes there are in the history and the logs."""
    files = [world.room / "office/history.jsonl", *(world.room / "log").iterdir()]
    return sum(it.stat().st_size for it in files)


@pytest.mark.parametrize("what", UNSIGNED)
def test_who_is_not_signed_in_writes_nothing(world: World, what: str) -> None:
    before = written(world)
    status = status_of(raw(world, *UNSIGNED[what], source=STRANGER))
    assert status in (400, 401, 404, 405, 414)
    assert written(world) == before


@pytest.mark.parametrize("name", ["jane", "nobody", "\0\1\2", "\ud800", "é" * 900, '"\n{}'])
def test_a_wrong_sign_in_writes_nothing(world: World, name: str) -> None:
    before = written(world)
    form = urllib.parse.urlencode({"name": name.encode("utf-8", "surrogatepass"), "password": "x"})
    answer = world.ask("/sign-in", None, form, kind=FORM, options=("--interface", STRANGER))
    assert (answer.status, answer.session, written(world)) == (403, "", before)


def test_what_is_no_text_is_answered_by_the_register_and_is_in_the_history_as_text(
        world: World) -> None:
    before = len(world.entries())
    body = '{"cmd":"accept","child":1,"school":"\xff\xfe"}'
    answer = raw(world, "POST /command", world.field("robot"), f"Origin: https://{NAME}",
                 "Content-Type: application/json", f"Content-Length: {len(body)}", "",
                 body, source=STRANGER)
    assert status_of(answer) == 400
    assert [(it["who"], it["what"], it["about"]) for it in world.entries()[before:]] == [
        ("robot", "sends", {"line": body.replace("\xff\xfe", "\ufffd\ufffd")}),
        ("robot", "answer", {"of": before + 1, "answer": {"fault": 1, "name": "NotJson"}})]


def test_of_a_long_line_that_is_no_command_the_begin_alone_is_in_the_history(
        world: World) -> None:
    (world.room / "long-line").write_text("x" * 1_000_000)
    size = (world.room / "office/history.jsonl").stat().st_size
    assert world.ask("/command", "robot", f"@{world.room}/long-line").status == 400
    assert world.entries()[-2]["about"] == {"line": "x" * 1000}
    assert (world.room / "office/history.jsonl").stat().st_size < size + 2000


# What a program of the office sends


def test_nothing_of_the_above_has_changed_the_child(world: World, letter_before: str) -> None:
    assert world.letter(1) == letter_before


def test_a_command_of_the_office_is_done_and_refused_when_it_is_repeated(world: World) -> None:
    done = world.ask("/command", "robot", ACCEPT)
    assert (done.status, done.body) == (200, '{"done":true}')
    again = world.ask("/command", "robot", ACCEPT)
    assert (again.status, again.body) == (409, '{"name":"NotOffered","refused":15}')


def test_the_same_type_in_other_letters_is_accepted(world: World) -> None:
    kind = "application/json; charset=UTF-8"
    assert world.ask("/command", "robot", ACCEPT, kind=kind).status == 409


@pytest.mark.parametrize("rows, kind, status, body", [
    pytest.param(HEAD, "text/csv", 200, '{"added":0,"done":true,"known":0}', id="imported"),
    pytest.param(ROWS, "text/csv; charset=utf-8", 409,
                 '{"name":"RowDiffers","refused":20,"row":1}', id="refused"),
    pytest.param(ROWS + "42\n", "text/csv", 400, '{"fault":2,"name":"FieldCount","row":2}',
                 id="not read"),
])
def test_rows_of_the_office_are_imported_or_refused_or_not_read_with_their_number(
        world: World, rows: str, kind: str, status: int, body: str) -> None:
    answer = world.ask("/import", "robot", rows, kind=kind)
    assert (answer.status, answer.body) == (status, body)


def test_a_body_in_chunks_is_passed_on_whole(world: World) -> None:
    answer = world.ask("/command", "robot", ACCEPT, options=CHUNKED)
    assert answer.body == '{"name":"NotOffered","refused":15}'


@pytest.mark.parametrize("name", ["rita", "robot"])
def test_who_is_locked_is_signed_in_no_more_and_who_is_not_any_more_signs_in_again(
        world: World, name: str) -> None:
    before, path = world.field(name), "/child/1" if name == "robot" else "/children/1"
    assert status_of(raw(world, f"GET {path}", before)) == 200
    try:
        assert changed(world, what="lock", name=name).status == 200
        assert status_of(raw(world, f"GET {path}", before)) == 401
    finally:
        changed(world, what="unlock", name=name)
        world.sessions.pop(name, None)
    assert world.ask(path, name).status == 200


def test_who_is_given_another_role_has_no_more_what_the_one_before_could(world: World) -> None:
    before = world.field("hal")
    try:
        changed(world, what="role", name="hal", role="reader")
        world.sessions.pop("hal")
        assert status_of(raw(world, "GET /children/1", before)) == 401
        assert world.ask("/activity/", "hal").status == 403
    finally:
        changed(world, what="role", name="hal", role="officer")
        world.sessions.pop("hal")
    assert world.ask("/activity/", "hal").status == 200


def test_the_history_has_who_sent_which_command_and_its_result(world: World) -> None:
    entries = world.entries()
    answers = {it["about"]["of"]: it["about"]["answer"] for it in entries if it["what"] == "answer"}
    sent = [(it["who"], answers[it["n"]]) for it in entries
            if it["what"] == "sends" and it["about"].get("command") == json.loads(ACCEPT)]
    assert sent[0] == ("robot", {"done": True})
    assert [answer for _, answer in sent].count({"done": True}) == 1


def test_the_history_has_who_changed_whose_rights(world: World) -> None:
    changed = [(it["who"], it["what"], it["about"]["person"]) for it in world.entries()
               if "person" in it["about"]]
    assert changed == [
        *(("jane", it, "ivy") for it in ("added", "removed")),
        *(("jane", it, name) for name in ("rita", "robot") for it in ("locked", "unlocked")),
        *[("jane", "gave a role", "hal")] * 2]


def test_no_password_no_token_and_no_session_is_on_the_disk(world: World) -> None:
    secrets = [*world.passwords.values(), *(it for it, _ in world.sessions.values())]
    files = [it for folder in ("office", "log") for it in (world.room / folder).rglob("*")]
    kept = [it.read_bytes() for it in files if it.is_file()]
    assert len(kept) >= 5
    assert [it for it in secrets if any(it.encode() in data for data in kept)] == []
