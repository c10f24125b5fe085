"""admissions-admin request, certificate and site: what a CA is asked, which answer is taken, and
another name of the site."""
import datetime
import pathlib
import subprocess
import sys
import typing

import pytest
from conftest import ROOT, Terminal, typed
from machine import answers, certificates, files, registers, serving, sites
from machine.verbs import certificate, status
from register_files import Refused

HOST = "admissions.example"
NAMES = ("site.key", "site.crt", "site.csr")
YEAR = datetime.date.today().year
JULY = [f"{YEAR + it}0701000000Z" for it in (-2, -1, 1, 2)]
PAST, NOW, FUTURE = JULY[:2], JULY[1:3], JULY[2:]


@pytest.fixture(name="at_site")
def at_site_fixture(
    register: registers.Register, write_as_me: None, monkeypatch: pytest.MonkeyPatch
) -> registers.Register:
    """A register with a key, a request and a certificate for a trial, on a machine without nginx
    and without systemd."""
    monkeypatch.setattr(sites, "make_all", lambda: ["nginx has read the sites"])
    monkeypatch.setattr(serving, "is_booted", lambda: False)
    list(certificates.make(register, HOST))
    return register


def content(register: registers.Register) -> dict[str, bytes]:
    """The settings of a register."""
    return {it.name: it.read_bytes() for it in register.settings.iterdir()}


def openssl(*words: str | pathlib.Path) -> str:
    return subprocess.run(["openssl", *words], check=True, capture_output=True, text=True).stdout


def made(folder: pathlib.Path, name: str, host: str = HOST, start: str = NOW[0],
         end: str = NOW[1]) -> pathlib.Path:
    """A certificate of a site with a key of its own, which is valid between two moments."""
    key, request = folder / f"{name}.key", folder / f"{name}.csr"
    openssl("req", "-new", "-newkey", "ec", "-pkeyopt", "ec_paramgen_curve:P-256", "-nodes",
            "-subj", f"/CN={host}", "-keyout", key, "-out", request)
    return signed(folder, name, request, key, host, start, end)


def signed(folder: pathlib.Path, name: str, request: pathlib.Path, key: pathlib.Path,
           host: str = HOST, start: str = NOW[0], end: str = NOW[1]) -> pathlib.Path:
    """What is signed of a request by a key."""
    (folder / "ca.conf").write_text(
        f"[ca]\ndefault_ca=c\n[c]\ndatabase={folder}/index\nnew_certs_dir={folder}\n"
        "rand_serial=yes\ndefault_md=sha256\npolicy=p\nunique_subject=no\n[p]\ncommonName=supplied"
        f"\n[v]\nsubjectAltName=DNS:{host}\n", encoding="ascii")
    (folder / "index").write_text("", encoding="ascii")
    openssl("ca", "-batch", "-notext", "-config", folder / "ca.conf", "-selfsign", "-keyfile", key,
            "-in", request, "-out", folder / f"{name}.crt", "-startdate", start, "-enddate", end,
            "-extensions", "v")
    return folder / f"{name}.crt"


def test_a_certificate_with_its_key_is_taken_after_a_yes_and_what_was_there_is_kept(
    at_site: registers.Register, tmp_path: pathlib.Path, monkeypatch: pytest.MonkeyPatch,
    capsys: pytest.CaptureFixture[str],
) -> None:
    """The names may be relative. The request of the key before is made anew, and the same line
    again changes nothing."""
    before = content(at_site)
    (tmp_path / "new").mkdir()
    made(tmp_path / "new", "new")
    monkeypatch.chdir(tmp_path / "new")
    words = ["new.crt", "--key", "new.key"]
    monkeypatch.setattr(sys, "stdin", Terminal("no\n"))
    with pytest.raises(Refused, match="nothing was changed"):
        typed("certificate", *words)
    assert "are replaced, and those that are there are kept beside them as site.crt.before" in (
        capsys.readouterr().out)
    assert content(at_site) == before
    assert typed("certificate", at_site.name, *words, "--yes") == 0
    after = content(at_site)
    assert [after[f"{it}.before"] for it in NAMES[:2]] == [before[it] for it in NAMES[:2]]
    assert after["site.crt"] == (tmp_path / "new/new.crt").read_bytes()
    assert (at_site.settings / "site.key.before").stat().st_mode & 0o777 == 0o600
    assert openssl("req", "-noout", "-pubkey", "-in", at_site.settings / "site.csr") == openssl(
        "pkey", "-pubout", "-in", tmp_path / "new/new.key")
    assert typed("certificate", *words) == 0
    assert content(at_site) == after


def test_the_answer_of_a_ca_is_taken_with_the_key_of_the_site(
    at_site: registers.Register, tmp_path: pathlib.Path, capsys: pytest.CaptureFixture[str]
) -> None:
    """As the warning of set-up says, which docs/admin/INSTALL.md shows: the key and the request
    stay. Afterwards nothing is warned of."""
    before = content(at_site)
    warning = certificates.see(at_site, HOST)
    assert warning and "no CA has signed it" in warning
    page = (ROOT / "docs/admin/INSTALL.md").read_text(encoding="utf-8").replace("2027", "2025")
    shown = warning.replace(str(at_site.settings.parent), "/etc/admissions")
    assert page.splitlines().count(shown) == 1, shown
    ca = tmp_path / "ca"
    openssl("req", "-x509", "-newkey", "ec", "-pkeyopt", "ec_paramgen_curve:P-256", "-nodes",
            "-subj", "/CN=CA", "-keyout", f"{ca}.key", "-out", f"{ca}.crt")
    answer = tmp_path / "answer.crt"
    openssl("x509", "-req", "-in", at_site.settings / "site.csr", "-CA", f"{ca}.crt", "-CAkey",
            f"{ca}.key", "-copy_extensions", "copy", "-days", "300", "-out", answer)
    program, *words = warning.rpartition(": ")[2].replace("FILE", str(answer)).split()
    assert program == "admissions-admin"
    assert typed(*words, "--yes") == 0
    assert f"took the certificate {answer}" in capsys.readouterr().out
    after = content(at_site)
    assert [after[it] for it in ("site.key", "site.csr")] == [
        before[it] for it in ("site.key", "site.csr")]
    assert after["site.crt.before"] == before["site.crt"]
    assert certificates.see(at_site, HOST) is None and status.certificate_of(at_site)[0]


@pytest.mark.parametrize("days, host, said", [
    ([PAST], HOST, rf"0.crt has ended at {YEAR - 1}-0.*: have the CA sign a new one"),
    ([FUTURE], HOST, rf"0.crt is valid from {YEAR + 1}-0.* on, and it is {YEAR}-.*: is the clock"),
    ([NOW, PAST], HOST, rf"0.crt, its certificate 2, has ended at {YEAR - 1}-0"),
    ([NOW], "other.example", "is of other.example, and not of admissions.example"),
])
def test_a_certificate_that_browsers_refuse_is_refused(
    days: list[list[str]], host: str, said: str, at_site: registers.Register,
    tmp_path: pathlib.Path,
) -> None:
    """And so is one whose intermediate certificate has ended."""
    before = content(at_site)
    files_ = [made(tmp_path, str(at), host, *it) for at, it in enumerate(days)]
    text = "".join(it.read_text(encoding="ascii") for it in files_)
    files_[0].write_text(text, encoding="ascii")
    key = str(files_[0].with_suffix(".key"))
    with pytest.raises(Refused, match=said):
        typed("certificate", str(files_[0]), "--key", key, "--yes")
    assert content(at_site) == before


@pytest.mark.parametrize("words, said", [
    (["gone.crt"], "gone.crt is not there, or is no file"),
    (["new.crt"], "new.crt is not of the key .*/site.key. If it has a key of its own: --key FILE"),
    (["new.crt", "--key", "gone.key"], "gone.key is not there"),
    (["other", "new.crt"], "no such register: other"),
])
def test_what_is_wrong_of_a_certificate_is_named(
    words: list[str], said: str, at_site: registers.Register, tmp_path: pathlib.Path,
    monkeypatch: pytest.MonkeyPatch,
) -> None:
    before = content(at_site)
    (tmp_path / "new").mkdir()
    made(tmp_path / "new", "new")
    monkeypatch.chdir(tmp_path / "new")
    with pytest.raises(Refused, match=said):
        typed("certificate", *words, "--yes")
    assert content(at_site) == before


@pytest.mark.parametrize("days, is_soon", [(20, True), (22, False)])
def test_a_certificate_that_ends_soon_is_taken_with_a_warning(
    days: int, is_soon: bool, at_site: registers.Register, tmp_path: pathlib.Path,
    capsys: pytest.CaptureFixture[str],
) -> None:
    end = datetime.datetime.now(datetime.timezone.utc) + datetime.timedelta(days=days, hours=1)
    file = made(tmp_path, "new", end=f"{end:%Y%m%d%H%M%SZ}")
    assert typed("certificate", str(file), "--key", str(file.with_suffix(".key")), "--yes") == 0
    said = f"WARNING: {at_site.settings / 'site.crt'} ends in {days} days"
    assert (said in capsys.readouterr().out) == is_soon


def test_a_key_that_others_have_is_replaced_and_is_nowhere_afterwards(
    at_site: registers.Register, tmp_path: pathlib.Path, monkeypatch: pytest.MonkeyPatch,
    capsys: pytest.CaptureFixture[str],
) -> None:
    """Its request is of the site, the one that is with the CA stays, and whoever was killed in the
    middle types the same line again."""
    before = content(at_site)
    assert typed("request", "--new-key") == 0
    printed = capsys.readouterr()
    request = tmp_path / "new.csr"
    request.write_text(printed.out, encoding="ascii")
    assert printed.err.endswith(f"and type: admissions-admin certificate {at_site.name} FILE\n")
    key = at_site.settings / "site.key.new"
    new = key.read_bytes()
    shown = openssl("req", "-in", request, "-noout", "-verify", "-text", "-pubkey")
    assert f"DNS:{HOST}" in shown and "P-256" in shown
    assert openssl("pkey", "-pubout", "-in", key) in shown
    assert key.stat().st_mode & 0o777 == 0o600
    assert typed("request", "--new-key") == 0 and key.read_bytes() == new
    assert content(at_site) == before | {"site.key.new": new}
    file = signed(tmp_path, "new", request, key)
    with monkeypatch.context() as patch, pytest.raises(KeyboardInterrupt):
        patch.setattr(pathlib.Path, "unlink", killed)
        typed("certificate", str(file), "--yes")
    assert typed("certificate", str(file), "--yes") == 0
    after = content(at_site)
    assert after["site.key"] == new and after["site.crt"] == file.read_bytes()
    assert not [name for name, data in after.items() if data == before["site.key"]]
    assert set(after) == {*NAMES, "site-name"}
    assert "have the CA revoke its certificate" in capsys.readouterr().out


@pytest.mark.parametrize("step", [
    (pathlib.Path, "unlink"), (certificates, "make"), (sites, "make_all")])
def test_a_key_that_is_lost_is_made_anew(
    step: tuple[typing.Any, str], at_site: registers.Register, tmp_path: pathlib.Path,
    monkeypatch: pytest.MonkeyPatch, capsys: pytest.CaptureFixture[str],
) -> None:
    """By what the status says, and set-up makes none for which the site has no certificate. The new
    one serves at once, with a certificate for a trial: without any, nginx would not start again.
    Killed and typed again, it goes on."""
    how = f"admissions-admin request {at_site.name} --new-key"
    (at_site.settings / "site.key").unlink()
    found = status.report(at_site)["certificate"]
    assert found.level.label == "FAILED" and found.text.endswith(f"cannot serve the site: {how}")
    with pytest.raises(Refused, match=f"site.key is not there, .*: {how}$"):
        list(certificates.make(at_site, HOST))
    request, first = tmp_path / "new.csr", (at_site.settings / "site.crt").read_bytes()
    with monkeypatch.context() as patch, pytest.raises(KeyboardInterrupt):
        patch.setattr(*step, killed)
        typed("request", "--new-key")
    capsys.readouterr()
    assert typed("request", "--new-key") == 0
    printed = capsys.readouterr()
    assert printed.out.startswith("-----BEGIN CERTIFICATE REQUEST-----\n")
    assert "let nobody past this certificate until a CA has signed" in printed.err
    assert certificates.key_problem(at_site) is None
    assert status.report(at_site)["certificate"].text.endswith("no CA has signed it")
    assert (at_site.settings / "site.crt.before").read_bytes() == first
    key = at_site.settings / "site.key.new"
    assert certificates.public_key("req", "-in", at_site.settings / "site.csr", "-pubkey", "-noout"
                                   ) == certificates.public_key("pkey", "-pubout", "-in", key)
    request.write_text(printed.out, encoding="ascii")
    assert typed("certificate", str(signed(tmp_path, "new", request, key)), "--yes") == 0
    assert certificates.key_problem(at_site) is None
    assert set(content(at_site)) == {*NAMES, "site-name"}


def killed(*_: object, **more: object) -> typing.NoReturn:
    """As a command that is killed there."""
    raise KeyboardInterrupt


@pytest.mark.parametrize("turn", range(4))
def test_a_site_gets_another_name_and_keeps_its_key(
    turn: int, at_site: registers.Register, tmp_path: pathlib.Path,
    monkeypatch: pytest.MonkeyPatch, capsys: pytest.CaptureFixture[str],
) -> None:
    """With a certificate that was signed before. Killed at each step and typed again, it goes
    on."""
    before, host = content(at_site), "places.example"
    assert typed("request", at_site.name, "--site", host) == 0
    printed = capsys.readouterr()
    assert printed.err.endswith(f"admissions-admin site {at_site.name} {host} --certificate FILE\n")
    (tmp_path / "new.csr").write_text(printed.out, encoding="ascii")
    assert content(at_site) == before
    file = signed(tmp_path, "new", tmp_path / "new.csr", at_site.settings / "site.key", host)
    words = ["site", host, "--certificate", str(file), "--yes"]
    with monkeypatch.context() as patch:
        place = [(files, "write"), (certificate, "taken"), (certificates, "make"),
                 (sites, "make_all")][turn]
        patch.setattr(*place, killed)
        with pytest.raises(KeyboardInterrupt):
            typed(*words)
    assert typed(*words) == 0
    after = content(at_site)
    assert after["site.key"] == before["site.key"] and after["site.crt"] == file.read_bytes()
    assert after["site-name"] == b"places.example\n"
    assert [after[f"{HOST}.{it}"] for it in ("crt", "csr")] == [
        before[f"site.{it}"] for it in ("crt", "csr")]
    assert f"DNS:{host}" in openssl("req", "-noout", "-text", "-in", at_site.settings / "site.csr")
    assert typed(*words) == 0 and content(at_site) == after


def test_another_name_is_confirmed_and_without_a_certificate_browsers_warn(
    at_site: registers.Register, monkeypatch: pytest.MonkeyPatch,
    capsys: pytest.CaptureFixture[str],
) -> None:
    before = content(at_site)
    monkeypatch.setattr(sys, "stdin", Terminal("no\nyes\n"))
    with pytest.raises(Refused, match="nothing was changed"):
        typed("site", "places.example")
    assert content(at_site) == before
    assert typed("site", "places.example") == 0
    said = capsys.readouterr().out
    assert "browsers warn of it until a CA has signed its certificate" in said
    assert "no CA has signed it" in said
    assert certificates.names_of(at_site.settings / "site.crt") == ["places.example"]


@pytest.mark.parametrize("words, said", [
    (["10.0.0.5"], "'10.0.0.5' is an address"), (["Places"], "'Places' is no name of a site"),
    (["primary.example"], "primary.example is the site of primary-2026 already"),
    (["places.example", "--certificate", "gone.crt"], "gone.crt is not there"),
])
def test_what_is_wrong_of_another_name_is_named(
    words: list[str], said: str, at_site: registers.Register
) -> None:
    other = registers.Register("primary-2026")
    other.settings.mkdir()
    (other.settings / "site-name").write_text("primary.example\n", encoding="ascii")
    before = content(at_site)
    with pytest.raises(Refused, match=said) as found:
        typed("site", *words, "--yes")
    assert found.value.status == 2 and content(at_site) == before


def test_an_address_is_no_name_of_a_site() -> None:
    with pytest.raises(Refused, match="'10.0.0.5' is an address.*No DNS name?.*hosts file"):
        answers.host("10.0.0.5")
