"""admissions-admin verify and uninstall: which folder of a release is refused, and what is removed
and what is not."""
import hashlib
import json
import pathlib
import subprocess
import sys

import pytest
from conftest import Terminal, typed
from machine.verbs import uninstall, verify
from register_files import Refused


@pytest.fixture(name="made", scope="module")
def made_fixture(tmp_path_factory: pytest.TempPathFactory) -> pathlib.Path:
    """A key that signs, with its public half."""
    home = tmp_path_factory.mktemp("gpg")
    home.chmod(0o700)
    subprocess.run(["gpg", "--homedir", home, "--batch", "--passphrase", "",
                    "--quick-generate-key", "release@example", "ed25519", "sign"],
                   check=True, capture_output=True)
    public = subprocess.run(["gpg", "--homedir", home, "--armor", "--export"], check=True,
                            capture_output=True).stdout
    (home / "public.asc").write_bytes(public)
    return home


def sign(folder: pathlib.Path, home: pathlib.Path) -> None:
    """Signs the digests of all files of a folder."""
    for name in ("SHA256SUMS", "SHA256SUMS.asc"):
        (folder / name).unlink(missing_ok=True)
    sums = "".join(f"{hashlib.sha256(it.read_bytes()).hexdigest()}  {it.name}\n"
                   for it in sorted(folder.iterdir()))
    (folder / "SHA256SUMS").write_text(sums, encoding="ascii")
    subprocess.run(["gpg", "--homedir", home, "--batch", "--armor", "--detach-sign",
                    folder / "SHA256SUMS"], check=True, capture_output=True)


@pytest.fixture(name="folder")
def folder_fixture(tmp_path: pathlib.Path, made: pathlib.Path) -> pathlib.Path:
    """The folder of a release that its gate has passed."""
    folder = tmp_path / "release"
    folder.mkdir()
    (folder / "admissions_0.2.0_amd64.deb").write_text("a package")
    manifest(folder, "2000 passed, 0 failed")
    sign(folder, made)
    return folder


def manifest(folder: pathlib.Path, verdict: str | None) -> None:
    about = {"package": "admissions 0.2.0", "commit": "c0ffee", "verdict_of_the_gate": verdict}
    (folder / "manifest.json").write_text(json.dumps(about), encoding="utf-8")


def test_a_release_that_its_gate_has_passed_is_verified(
    folder: pathlib.Path, made: pathlib.Path, capsys: pytest.CaptureFixture[str]
) -> None:
    assert typed("verify", str(folder), "--key", str(made / "public.asc")) == 0
    lines = capsys.readouterr().out.splitlines()
    assert lines[0] == ("admissions 0.2.0, of the commit c0ffee: 2 files are as they were signed;"
                        " the gate: 2000 passed, 0 failed")
    assert lines[1].startswith("next, which closes the offices: apt update && ")


@pytest.mark.parametrize("verdict", [None, "2000 passed, 1 failed", "0 passed, 0 failed"])
def test_a_release_without_a_verdict_is_for_trials_alone(
    verdict: str | None, folder: pathlib.Path, made: pathlib.Path
) -> None:
    manifest(folder, verdict)
    sign(folder, made)
    words = [str(folder), "--key", str(made / "public.asc")]
    with pytest.raises(Refused, match="no gate has passed this release: it is for trials only"):
        typed("verify", *words)
    assert typed("verify", *words, "--trial") == 0


def test_what_was_changed_added_or_signed_by_others_is_refused(
    folder: pathlib.Path, made: pathlib.Path, tmp_path: pathlib.Path
) -> None:
    words = ["verify", str(folder), "--key", str(made / "public.asc")]
    more = folder / "more.deb"
    more.write_text("x")
    with pytest.raises(Refused, match="has files that were not signed: more.deb"):
        typed(*words)
    more.unlink()
    package = folder / "admissions_0.2.0_amd64.deb"
    package.write_text("changed")
    with pytest.raises(Refused, match="amd64.deb is not there, or is not what was signed"):
        typed(*words)
    package.unlink()
    with pytest.raises(Refused, match="amd64.deb is not there, or is not what was signed"):
        typed(*words)
    with (folder / "SHA256SUMS").open("a", encoding="ascii") as file:
        file.write("\n")
    with pytest.raises(Refused, match="gpgv: .*BAD signature"):
        typed(*words)
    (tmp_path / "key").write_text("no key")
    with pytest.raises(Refused, match="key is no public key of gpg"):
        typed("verify", str(folder), "--key", str(tmp_path / "key"))


@pytest.mark.parametrize("has, verdict, said", [
    ("a program", "30 passed, 0 failed", ""),
    ("another", "30 passed, 0 failed", "admissions is not the program of"),
    ("a program", None, "no gate has passed this release: it is for trials only"),
    ("a program", "29 passed, 1 failed", "no gate has passed this release"),
])
def test_the_installed_program_is_that_of_its_manifest_and_a_gate_has_passed_it(
    has: str, verdict: str | None, said: str, tmp_path: pathlib.Path,
    monkeypatch: pytest.MonkeyPatch, capsys: pytest.CaptureFixture[str],
) -> None:
    (tmp_path / "admissions").write_text(has)
    digest = hashlib.sha256(b"a program").hexdigest()
    about = {"program": {"sha256": digest}, "verdict_of_the_gate": verdict}
    (tmp_path / "manifest.json").write_text(json.dumps(about))
    monkeypatch.setattr(verify, "program", lambda name: str(tmp_path / name))
    monkeypatch.setattr(verify, "MANIFEST", tmp_path / "manifest.json")
    if said:
        with pytest.raises(Refused, match=said):
            typed("verify")
    else:
        assert typed("verify") == 0
        assert "the gate: 30 passed, 0 failed" in capsys.readouterr().out
    if has == "a program":
        assert typed("verify", "--trial") == 0


@pytest.fixture(name="left")
def left_fixture(machine: pathlib.Path, monkeypatch: pytest.MonkeyPatch) -> pathlib.Path:
    """A machine whose registers were deleted: of one the record is left."""
    (machine / "log").mkdir()
    monkeypatch.setattr(uninstall, "LOGS", machine / "log")
    monkeypatch.setattr(uninstall, "ACCOUNT", machine / "home")
    monkeypatch.setattr(uninstall, "APT", (machine / "admissions.list",))
    (machine / "admissions.list").write_text("deb")
    (machine / "etc/secondary-2025").mkdir()
    (machine / "etc/secondary-2025/deleted").write_text("the record")
    return machine


@pytest.mark.parametrize("name", [
    "lib/secondary-2025/reg.db.before-restore-1", "backups/secondary-2025/nightly-1.db",
    "office/secondary-2025/office.db", "etc/secondary-2025/site.key", "etc/second-copy-identity"])
def test_all_is_removed_but_not_what_cannot_be_made_again(
    name: str, left: pathlib.Path, monkeypatch: pytest.MonkeyPatch,
    capsys: pytest.CaptureFixture[str],
) -> None:
    path = left / name
    path.parent.mkdir(exist_ok=True)
    path.write_text("what is left")
    with pytest.raises(Refused, match=f"nothing was removed: {path} is left"):
        typed("uninstall", "--yes")
    assert (left / "etc/secondary-2025/deleted").exists() and (left / "admissions.list").exists()
    path.unlink()
    (left / "home").mkdir()
    with pytest.raises(Refused, match="takes the copies of another: nothing was removed"):
        typed("uninstall", "--yes")
    (left / "home").rmdir()
    monkeypatch.setattr(sys, "stdin", Terminal("no\n"))
    with pytest.raises(Refused, match="nothing was changed"):
        typed("uninstall")
    assert (left / "etc").exists()
    assert typed("uninstall", "--yes") == 0
    assert not any((left / it).exists() for it in ("lib", "office", "backups", "etc", "log"))
    assert not (left / "admissions.list").exists()
    assert "next: dpkg --purge admissions-pdf admissions; userdel" in capsys.readouterr().out
    assert typed("uninstall", "--yes") == 0
