"""The folder of a release: apt takes the packages from it by the key beside it, and nothing of a
folder in which one byte differs. apt has folders of its own here, and installs nothing."""
import dataclasses
import json
import os
import pathlib
import shutil
import subprocess
from collections.abc import Callable

import pytest
from by_path import loaded
from conftest import ROOT

TOOL = ROOT / "deploy/release"
VERSION = "1.2.3"
DEBS = {"admissions": f"admissions_{VERSION}_amd64.deb",
        "admissions-pdf": f"admissions-pdf_{VERSION}_all.deb"}
ABOUT = {"package": f"admissions {VERSION}", "commit": "c0ffee", "program": {"sha256": "0" * 64},
         "verdict_of_the_gate": "57 passed, 0 failed"}
# What apt prints of another digest, where it copies, another signature and another key: the apt of
# Debian 12, and that of Debian 13
DIGEST = "Hash Sum mismatch|Undetermined Error"
SIGNATURE = "BADSIG|not valid|Bad signature|invalid|Message has been manipulated"
KEY = "NO_PUBKEY|Missing key"
VERDICT = "verdict_of_the_gate"


@dataclasses.dataclass(frozen=True)
class Ran:
    """How a command ended, and what it printed."""

    status: int
    text: str

    def refuses(self, why: str) -> bool:
        """Whether it failed and printed one of some texts, with | between them."""
        return self.status != 0 and any(it in self.text for it in why.split("|"))


def run(*words: object, **more: str) -> Ran:
    """Runs a command."""
    done = subprocess.run([str(it) for it in words], stdout=subprocess.PIPE, text=True, check=False,
                          stderr=subprocess.STDOUT, env={**os.environ, "LC_ALL": "C.UTF-8", **more})
    return Ran(done.returncode, done.stdout)


def write_package(folder: pathlib.Path, name: str) -> None:
    """Makes a package with one file."""
    root = folder / "root"
    (root / "DEBIAN").mkdir(parents=True)
    kind = DEBS[name].rpartition("_")[2].removesuffix(".deb")
    (root / "DEBIAN/control").write_text(
        f"Package: {name}\nVersion: {VERSION}\nArchitecture: {kind}\nMaintainer: x <x@x.example>\n"
        "Description: a package\n")
    (root / "file").write_text(f"what {name} has\n" * 100)
    made = run("dpkg-deb", "--root-owner-group", "--build", root, folder / DEBS[name])
    assert made.status == 0, made.text
    shutil.rmtree(root)


@pytest.fixture(name="source", scope="module")
def source_fixture(tmp_path_factory: pytest.TempPathFactory) -> pathlib.Path:
    """Packages as deploy/package makes them."""
    folder = tmp_path_factory.mktemp("source")
    for name in DEBS:
        write_package(folder, name)
    sums = subprocess.run(["sha256sum", *DEBS.values()], cwd=folder, capture_output=True, text=True,
                          check=True).stdout
    (folder / "SHA256SUMS").write_text(sums)
    (folder / "manifest.json").write_text(json.dumps(ABOUT))
    bill = loaded(ROOT / "deploy/sbom").made(ABOUT, "2026-01-02", "kit-1", [], ["nginx"], [])
    (folder / "sbom.spdx.json").write_text(json.dumps(bill))
    return folder


def new_key(folder: pathlib.Path, name: str) -> pathlib.Path:
    """A secret key in a file, which is also one of the keys of gpg in a folder."""
    folder.mkdir(mode=0o700)
    words = ("gpg", "--homedir", folder, "--batch", "--quiet", "--passphrase", "",
             "--pinentry-mode", "loopback")
    made = run(*words, "--quick-generate-key", name, "ed25519", "sign", "never")
    assert made.status == 0, made.text
    path = folder / "secret.asc"
    made = run(*words, "--armor", "--output", path, "--export-secret-keys")
    assert made.status == 0, made.text
    return path


@pytest.fixture(name="keys", scope="module")
def keys_fixture(tmp_path_factory: pytest.TempPathFactory) -> pathlib.Path:
    """A secret key in a file."""
    return new_key(tmp_path_factory.mktemp("keys") / "gpg", "a key of releases")


@pytest.fixture(name="made", scope="module")
def made_fixture(
    source: pathlib.Path, keys: pathlib.Path, tmp_path_factory: pytest.TempPathFactory
) -> pathlib.Path:
    """The folder of a release."""
    folder = tmp_path_factory.mktemp("made") / "release"
    done = run(TOOL, "--key", keys, source, folder)
    assert done.status == 0, done.text
    assert done.text.endswith("The result of the gate: 57 passed, 0 failed\n")
    return folder


@pytest.fixture(name="release")
def release_fixture(made: pathlib.Path, tmp_path: pathlib.Path) -> pathlib.Path:
    """A copy of it, which a test may change."""
    return pathlib.Path(shutil.copytree(made, tmp_path / "release"))


class Apt:
    """apt over a folder, with lists and packages of its own."""

    def __init__(self, room: pathlib.Path, release: pathlib.Path, key: pathlib.Path) -> None:
        for it in ("lists/partial", "cache/archives/partial", "etc", "dpkg"):
            (room / it).mkdir(parents=True)
        (room / "dpkg/status").touch()
        (room / "etc/sources.list").write_text(f"deb [signed-by={key}] copy:{release} ./\n")
        self.archives, self.config = room / "cache/archives", room / "etc/apt.conf"
        self.config.write_text(
            f'Dir "/";\nDir::Etc "{room}/etc";\nDir::Etc::parts "-";\nDir::Etc::sourceparts "-";\n'
            f'Dir::Etc::trusted "-";\nDir::Etc::trustedparts "-";\nDir::State "{room}";\n'
            f'Dir::State::lists "{room}/lists";\nDir::State::status "{room}/dpkg/status";\n'
            f'Dir::Cache "{room}/cache";\nAPT::Architecture "amd64";\nAPT::Sandbox::User "";\n'
            'APT::Architectures { "amd64"; };\nAcquire::Languages "none";\nDebug::NoLocking "1";\n')

    def get(self, *words: str) -> Ran:
        """Runs apt-get."""
        return run("apt-get", "-q", "-y", *words, APT_CONFIG=str(self.config))

    def fetched(self) -> list[str]:
        """Updates the lists and fetches both packages: the names of those that are there."""
        ran = self.get("update", "-o", "APT::Update::Error-Mode=any")
        if ran.status == 0:
            ran = self.get("install", "--download-only", *DEBS)
        self.said = ran
        return sorted(it.name for it in self.archives.glob("*.deb"))


@pytest.fixture(name="apt")
def apt_fixture(release: pathlib.Path, tmp_path: pathlib.Path) -> Apt:
    """apt, which trusts the key of the release."""
    return Apt(tmp_path / "apt", release, release / "admissions-archive.asc")


def test_apt_takes_both_packages(apt: Apt, release: pathlib.Path) -> None:
    """As they are in the folder."""
    assert apt.fetched() == sorted(DEBS.values()), apt.said.text
    for it in DEBS.values():
        assert (apt.archives / it).read_bytes() == (release / it).read_bytes()


def change(path: pathlib.Path, at: int | None = None) -> None:
    """Changes one byte of a file, in its middle unless it is said where."""
    data = bytearray(path.read_bytes())
    at = len(data) // 2 if at is None else at
    data[at] ^= 1
    path.write_bytes(data)


def after_text(path: pathlib.Path, text: bytes) -> int:
    """Where in a file a text ends."""
    return path.read_bytes().index(text) + len(text)


def test_another_byte_of_a_package_is_refused(apt: Apt, release: pathlib.Path) -> None:
    """The other package is fetched, and nothing is installed."""
    change(release / DEBS["admissions"])
    assert apt.fetched() == [DEBS["admissions-pdf"]]
    assert apt.said.refuses(DIGEST), apt.said.text


@pytest.mark.parametrize("name, text, why", [
    ("Packages", b"Version: ", DIGEST),
    ("InRelease", b"Label: ", SIGNATURE),
    ("InRelease", b"SHA256:\n ", SIGNATURE),
])
def test_another_byte_of_what_is_signed_is_refused(
    name: str, text: bytes, why: str, apt: Apt, release: pathlib.Path
) -> None:
    """At the update: apt knows no package then."""
    change(release / name, after_text(release / name, text))
    assert apt.fetched() == []
    assert apt.said.refuses(why), apt.said.text


def test_another_key_is_refused(release: pathlib.Path, tmp_path: pathlib.Path) -> None:
    """A folder that somebody else has signed."""
    other = new_key(tmp_path / "other", "somebody else").parent
    public = tmp_path / "other.asc"
    assert run("gpg", "--homedir", other, "--armor", "--output", public, "--export").status == 0
    apt = Apt(tmp_path / "apt", release, public)
    assert apt.fetched() == []
    assert apt.said.refuses(KEY), apt.said.text


@pytest.mark.parametrize("name", ["InRelease", "Release.gpg"])
def test_one_form_of_the_signature_is_enough(name: str, apt: Apt, release: pathlib.Path) -> None:
    """For an apt that reads one of them alone."""
    (release / name).unlink()
    assert apt.fetched() == sorted(DEBS.values()), apt.said.text


def test_a_folder_without_a_signature_is_refused(apt: Apt, release: pathlib.Path) -> None:
    """Though its digests are right."""
    for it in ("InRelease", "Release.gpg"):
        (release / it).unlink()
    assert apt.fetched() == []
    assert apt.said.status != 0 and "is not signed" in apt.said.text, apt.said.text


def test_the_digests_of_all_files_are_signed(
    release: pathlib.Path, tmp_path: pathlib.Path
) -> None:
    """Also of the manifest and the bill of materials, which apt does not read."""
    done = subprocess.run(["sha256sum", "--strict", "--quiet", "-c", "SHA256SUMS"], cwd=release,
                          check=False)
    assert done.returncode == 0
    named = {it.split()[1] for it in (release / "SHA256SUMS").read_text().splitlines()}
    assert named == {it.name for it in release.iterdir()} - {"SHA256SUMS", "SHA256SUMS.asc"}
    keyring = tmp_path / "keyring"
    made = run("gpg", "--homedir", tmp_path, "--dearmor", "--output", keyring,
               release / "admissions-archive.asc")
    assert made.status == 0, made.text
    words = ("gpgv", "--keyring", keyring, release / "SHA256SUMS.asc", release / "SHA256SUMS")
    assert run(*words).status == 0
    change(release / "SHA256SUMS")
    assert run(*words).status != 0


def test_a_key_by_its_id(source: pathlib.Path, keys: pathlib.Path, tmp_path: pathlib.Path) -> None:
    """One of gpg's own, as of a card: it signs, and none of another name does."""
    home = str(keys.parent)
    listed = run("gpg", "--list-secret-keys", "--with-colons", GNUPGHOME=home).text
    name = next(it.split(":")[9] for it in listed.splitlines() if it.startswith("fpr:"))
    done = run(TOOL, "--key", name, source, tmp_path / "release", GNUPGHOME=home)
    assert done.status == 0 and f"signed by the key {name}\n" in done.text, done.text
    done = run(TOOL, "--key", "F" * 40, source, tmp_path / "other", GNUPGHOME=home)
    assert done.status == 1 and not (tmp_path / "other").exists()


def test_without_a_key_one_is_made_and_used_again(
    source: pathlib.Path, tmp_path: pathlib.Path, monkeypatch: pytest.MonkeyPatch,
    capsys: pytest.CaptureFixture[str],
) -> None:
    """So that machines which trust the first release take the next."""
    tool = loaded(TOOL)
    monkeypatch.setattr(tool, "KEY", tmp_path / "kept" / "key.asc")
    folder = tmp_path / "release"
    tool.make(source, folder, None)
    first = (folder / "admissions-archive.asc").read_text()
    assert "A key was made" in capsys.readouterr().out
    assert (tmp_path / "kept/key.asc").stat().st_mode & 0o777 == 0o600
    tool.make(source, folder, None)
    assert "A key was made" not in capsys.readouterr().out
    assert (folder / "admissions-archive.asc").read_text() == first
    assert "PRIVATE" not in "".join(it.read_text("latin-1") for it in folder.iterdir())


@pytest.mark.parametrize("spoil, said", [
    (lambda it: change(it / DEBS["admissions"]), "is not the file that deploy/package made"),
    (lambda it: (it / DEBS["admissions-pdf"]).unlink(), "is not the file that deploy/package"),
    (lambda it: (it / "SHA256SUMS").unlink(), "has no packages: deploy/package makes them"),
    (lambda it: (it / "SHA256SUMS").write_text(""), "does not name the packages admissions and"),
    (lambda it: (it / "manifest.json").unlink(), "manifest.json"),
    (lambda it: (it / "sbom.spdx.json").write_text("{}"), "sbom.spdx.json is not as it should be"),
])
def test_what_is_not_as_it_was_made_is_not_released(
    spoil: Callable[[pathlib.Path], object], said: str, source: pathlib.Path, keys: pathlib.Path,
    tmp_path: pathlib.Path, made: pathlib.Path,
) -> None:
    """And the release that is there stays."""
    spoiled = pathlib.Path(shutil.copytree(source, tmp_path / "source"))
    folder = pathlib.Path(shutil.copytree(made, tmp_path / "release"))
    spoil(spoiled)
    done = run(TOOL, "--key", keys, spoiled, folder)
    assert done.status == 1 and said in done.text, done.text
    assert (folder / "InRelease").read_bytes() == (made / "InRelease").read_bytes()
