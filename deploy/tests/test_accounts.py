"""admissions-admin accounts: what a provider is given, what is let out, and what is refused."""
import contextlib
import dataclasses
import http.server
import json
import pathlib
import threading
from collections.abc import Iterator

import pytest
from conftest import told, typed
from machine import network, people, registers, serving
from machine.verbs import accounts
from office.web.people import authority
from register_files import Refused

ACCOUNTS = {"title": "Council account", "issuer": "https://id.example", "client": "admissions",
            "secret": "of the two"}


def test_accounts_of_the_authority_let_the_application_out_and_their_end_keeps_it_in(
    users: registers.Register, monkeypatch: pytest.MonkeyPatch, machine: pathlib.Path
) -> None:
    monkeypatch.setattr(network, "UNITS", machine)
    monkeypatch.setattr(serving, "is_booted", lambda: False)
    monkeypatch.setattr(accounts, "provider_fault", lambda _: "")
    given = machine / "accounts.json"
    given.write_text(json.dumps(ACCOUNTS), encoding="utf-8")
    unit = machine / "admissions-office@secondary-2025.service.d/accounts.conf"
    assert typed("accounts", users.name, str(given)) == 0
    assert unit.read_text(encoding="utf-8").splitlines()[1:] == ["[Service]", "PrivateNetwork=no"]
    with people.opened(users) as (_, kept):
        found = authority.provider_of(kept)
    assert found and dataclasses.asdict(found) == ACCOUNTS | {"claim": "email"}
    assert typed("accounts", "none") == 0
    assert not unit.exists()
    with people.opened(users) as (_, kept):
        assert authority.provider_of(kept) is None
    assert [what for what, _ in told(users)][2:] == [
        "changed the sign-in by the authority's accounts"] * 2


@pytest.mark.parametrize(
    "change, said",
    [
        ("{", "the accounts are no JSON: "),
        ("[]", "the accounts are no JSON object with texts"),
        (json.dumps({"title": 1}), "the accounts are no JSON object with texts"),
        (json.dumps(ACCOUNTS | {"sekret": "x"}), "'sekret' is none of title, issuer, client, "),
        (json.dumps({**ACCOUNTS, "client": ""}), "the accounts have no client"),
        (json.dumps(ACCOUNTS | {"issuer": "http://id.example"}), "begins with https://"),
    ],
)
def test_accounts_that_cannot_be_used_are_refused_and_nothing_changes(
    change: str, said: str, users: registers.Register, monkeypatch: pytest.MonkeyPatch,
    machine: pathlib.Path,
) -> None:
    monkeypatch.setattr(network, "UNITS", machine)
    given = machine / "accounts.json"
    given.write_text(change, encoding="utf-8")
    before = told(users)
    with pytest.raises(Refused, match=said):
        typed("accounts", users.name, str(given))
    with people.opened(users) as (_, kept):
        assert authority.provider_of(kept) is None
    assert (told(users), list(machine.glob("*.d"))) == (before, [])


@contextlib.contextmanager
def provider(body: str, length: int = 0) -> Iterator[str]:
    """The issuer of a provider that says this of itself, made longer by blanks before its end."""

    class Answer(http.server.BaseHTTPRequestHandler):
        """A provider, or what is none: without a body it does not answer as HTTP does."""

        def do_GET(self) -> None:  # pylint: disable=invalid-name
            """What it says of itself."""
            if body and self.path == "/.well-known/openid-configuration":
                self.send_response(200)
                self.end_headers()
                text = body.replace("%s", issuer).encode()
                self.wfile.write(text[:-1].ljust(length - 1) + text[-1:])

        def log_message(self, *_: object) -> None:
            """Prints nothing."""

    with http.server.ThreadingHTTPServer(("127.0.0.1", 0), Answer) as server:
        issuer = f"http://127.0.0.1:{server.server_address[1]}"
        threading.Thread(target=server.serve_forever, daemon=True).start()
        yield issuer
        server.shutdown()


@pytest.mark.parametrize("body, said", [
    ('{"issuer": "%s/"}', ""), ('{"issuer": "https://id.example"}', "is not of http://"),
    ("[]", "is not of http://"), ("<html>", "cannot be read"), ("", "cannot be read")])
def test_a_provider_is_tried_when_its_accounts_are_set(
    body: str, said: str, users: registers.Register, monkeypatch: pytest.MonkeyPatch,
    machine: pathlib.Path, capsys: pytest.CaptureFixture[str],
) -> None:
    """One that does not answer, or is another one, is named at once, and the accounts are set."""
    monkeypatch.setattr(network, "UNITS", machine)
    monkeypatch.setattr(serving, "is_booted", lambda: False)
    with provider(body) as issuer:
        given = machine / "accounts.json"
        given.write_text(json.dumps(ACCOUNTS | {"issuer": issuer}), encoding="utf-8")
        assert typed("accounts", users.name, str(given)) == 0
    printed = capsys.readouterr().out
    assert said in printed and ("WARNING" in printed) == bool(said)


def test_a_provider_may_say_as_much_as_the_application_reads() -> None:
    """1 MiB, and not one byte more."""
    for length, end in ((1_048_576, ""), (1_048_577, "is longer than 1 MiB")):
        with provider('{"issuer": "%s"}', length) as issuer:
            said = accounts.provider_fault(issuer)
        assert said.endswith(end) and bool(said) == bool(end), said
