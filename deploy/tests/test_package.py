"""What a package says of itself: the result of the gate, the program, the versions and licences of
the kit's crates, and what it depends on."""
import argparse
import hashlib
import json
import os
import pathlib
import re
import subprocess
import types

import pytest
from by_path import loaded
from conftest import ROOT
from machine import serving
from office.core import libraries

GATE = """rt: adm_types proved
All of it took 3310 seconds of wall-clock time, and 9000 of CPU time
57 passed, 0 failed
"""


@pytest.fixture(name="package")
def package_fixture() -> types.ModuleType:
    return loaded(ROOT / "deploy/package")


@pytest.mark.parametrize(
    "text",
    [
        "",
        "57 passed, 0 failed\n",
        GATE.replace("0 failed", "1 failed"),
        GATE.replace("57 passed", "0 passed"),
        GATE + "and more\n",
    ],
)
def test_a_log_that_is_none_of_a_gate_that_passed(
    text: str, package: types.ModuleType, tmp_path: pathlib.Path
) -> None:
    (tmp_path / "log").write_text(text)
    with pytest.raises(package.Refused):
        package.verdict_of(str(tmp_path / "log"))


def test_the_verdict_is_the_last_line_of_the_log(
    package: types.ModuleType, tmp_path: pathlib.Path
) -> None:
    (tmp_path / "log").write_text(GATE)
    assert package.verdict_of(str(tmp_path / "log")) == "57 passed, 0 failed"
    assert package.verdict_of("none") is None


@pytest.mark.parametrize("verdict", ["57 passed, 0 failed", None])
def test_the_manifest_says_what_it_was_given_and_what_is_there(
    verdict: str | None,
    package: types.ModuleType,
    tmp_path: pathlib.Path,
    monkeypatch: pytest.MonkeyPatch,
) -> None:
    program = tmp_path / "admissions"
    program.write_bytes(b"a program\n")
    for name, value in (("file_version", 2), ("program_version", "admissions 1.2.3")):
        monkeypatch.setattr(package, name, lambda _, it=value: it)
    found = package.manifest(program, "1.2.3", verdict)
    commit = subprocess.run(
        ["git", "-C", ROOT, "log", "-1", "--format=%H"], capture_output=True, text=True, check=True
    ).stdout.strip()
    assert found["verdict_of_the_gate"] == verdict
    assert (found["program"]["sha256"], found["program"]["bytes"]) == (
        hashlib.sha256(b"a program\n").hexdigest(),
        10,
    )
    assert (found["program"]["version"], found["program"]["file_version"], found["commit"]) == (
        "admissions 1.2.3",
        2,
        commit,
    )
    assert found["program_is_of_this_checkout"] is False
    assert json.loads(json.dumps(found)) == found


def made(
    package: types.ModuleType, verdict: str, monkeypatch: pytest.MonkeyPatch, tmp_path: pathlib.Path
) -> None:
    """Goes as far as the manifest with a program that this checkout has not built."""
    program = tmp_path / "admissions"
    program.write_text("#!/bin/sh\n")
    program.chmod(0o755)
    version = re.split("[-+~]", package.releases()[0][0])[0]
    # (the commands that make a package need not be on this machine)
    monkeypatch.setattr(package, "NEEDED", {})
    monkeypatch.setattr(package, "program_version", lambda _: f"admissions {version}")
    monkeypatch.setattr(package, "file_version", lambda _: 2)
    package.make(argparse.Namespace(program=str(program), verdict=verdict))


def test_a_verdict_is_of_the_program_of_this_checkout_alone(
    package: types.ModuleType, tmp_path: pathlib.Path, monkeypatch: pytest.MonkeyPatch
) -> None:
    (tmp_path / "log").write_text(GATE)
    with pytest.raises(
        package.Refused,
        match="says nothing of .*, which is not the program that this checkout built",
    ):
        made(package, str(tmp_path / "log"), monkeypatch, tmp_path)


def released(folder: pathlib.Path, changelog: str, *tags: str) -> types.ModuleType:
    """deploy/package of a repository with a changelog, whose commits before the last have tags."""
    (folder / "deploy").mkdir()
    (folder / "deploy/package").write_bytes((ROOT / "deploy/package").read_bytes())

    def git(*words: str) -> None:
        about = ["-c", "user.name=A", "-c", "user.email=a@b.example", "-c", "commit.gpgsign=false"]
        subprocess.run(["git", "-C", folder, *about, *words], check=True)

    git("init", "--quiet")
    for name in (*tags, ""):
        (folder / "CHANGELOG.md").write_text(f"# Changelog\n\n{changelog}{' ' * (not name)}")
        git("add", "CHANGELOG.md")
        git("commit", "--quiet", "--message", name or "last")
        if name:
            git("tag", name)
    return loaded(folder / "deploy/package")


def compared(one: str, relation: str, other: str) -> bool:
    """Whether Debian's tools put two versions so."""
    return not subprocess.run(["dpkg", "--compare-versions", one, relation, other],
                              check=False).returncode


def test_a_commit_after_a_release_has_a_version_between_it_and_the_next(
    tmp_path: pathlib.Path
) -> None:
    changes = "## Next release\n\n- Something.\n\n## 0.1.0, 2026-11-26\n\n- The first.\n"
    package = released(tmp_path, changes, "v0.1.0")
    (version, _, text), before = package.releases()
    assert (text, before[0]) == ("- Something.", "0.1.0")
    assert version.endswith(package.git("rev-parse", "HEAD")[:8])
    assert all(compared(version, it, other) for it, other in
               (("gt", "0.1.0"), ("lt", "0.1.1"), ("lt", "0.2.0")))
    assert package.debian_changelog().startswith(f"admissions ({version}) unstable;")
    package.refuse_tagged(version)


def test_a_release_is_one_commit(tmp_path: pathlib.Path) -> None:
    package = released(tmp_path, "## 0.1.0, 2026-11-26\n\n- The first.\n", "v0.1.0")
    assert package.releases()[0][0] == "0.1.0"
    with pytest.raises(package.Refused, match="v0.1.0 is another commit"):
        package.refuse_tagged("0.1.0")
    package.git("checkout", "--quiet", "v0.1.0")
    package.refuse_tagged("0.1.0")


def test_without_a_verdict_nothing_is_made() -> None:
    done = subprocess.run(
        [ROOT / "deploy/package", ROOT / "deploy/package"],
        capture_output=True,
        text=True,
        check=False,
    )
    assert (
        done.returncode,
        "--verdict LOG, the log of the gate that the program passed; none where it has not"
        in done.stderr,
    ) == (2, True)


MIT = (
    "Permission is hereby granted, subject to the following\nconditions:\n\n"
    "The above copyright notice and this permission notice shall\n"
)
APACHE = "Apache License\nVersion 2.0\n"


@pytest.fixture(name="kit")
def kit_fixture(
    package: types.ModuleType, tmp_path: pathlib.Path, monkeypatch: pytest.MonkeyPatch
) -> pathlib.Path:
    """A kit of three crates, and the table that says of them what they say."""
    crates: list[tuple[str, str, list[str]]] = [
        ("a", "A port of `a` 1.0.18 (MIT or Apache-2.0).", [MIT]),
        ("b", "After `b` 2.1.0, and `z`.", [APACHE, MIT]),
        ("own", "No port, 3.1.0.", []),
    ]
    for crate, readme, licences in crates:
        (tmp_path / crate).mkdir()
        (tmp_path / crate / "README.md").write_text(readme)
        for number, text in enumerate(licences):
            (tmp_path / crate / f"LICENSE-{number}").write_text(text)
    monkeypatch.setattr(package, "ported", lambda: ("kit", ROWS))
    return tmp_path


ROWS: list[dict[str, str]] = []
GOOD = [
    ("a", "a", "1.0.18", "MIT OR Apache-2.0"),
    ("b", "b", "2.1.0", "(Apache-2.0 OR BSL-1.0) AND MIT"),
    ("own", "-", "-", "-"),
]


def rows(*changed: tuple[str, str, str, str]) -> None:
    ROWS[:] = [
        dict(zip(("crate", "upstream", "version", "licence"), it))
        for it in ({row[0]: row for row in GOOD} | {row[0]: row for row in changed}).values()
    ]


def test_the_table_agrees_with_the_kit(package: types.ModuleType, kit: pathlib.Path) -> None:
    rows()
    package.compare_with_kit(kit)


@pytest.mark.parametrize(
    "row",
    [
        ("a", "a", "1.0.1", "MIT OR Apache-2.0"),
        ("a", "a", "1.0.19", "MIT OR Apache-2.0"),
        ("a", "a", "0.18", "MIT OR Apache-2.0"),
        ("a", "a", "1.0.18", "Apache-2.0"),
        ("a", "a", "1.0.18", "-"),
        ("a", "a", "1.0.18", "MIT AND Apache-2.0"),
        ("b", "b", "2.1.0", "Apache-2.0 OR BSL-1.0"),
        ("b", "b", "2.1.0", "BSL-1.0 AND MIT"),
        ("own", "-", "-", "MIT"),
        ("c", "c", "1.0.0", "MIT"),
    ],
)
def test_another_version_or_licence_is_refused(
    row: tuple[str, str, str, str], package: types.ModuleType, kit: pathlib.Path
) -> None:
    rows(row)
    with pytest.raises(package.Refused, match=f"^debian/ported.tsv has {row[0]}"):
        package.compare_with_kit(kit)


@pytest.mark.parametrize(("found", "is_listed"), [
    ("kit-1 logic a", True), ("kit-2 logic a", True), ("kit-3 logic a", False),
    ("kit-1 logic b", False), ("kit-1", False),
])
def test_the_toolchains_of_the_table_are_taken_and_no_other(
    found: str, is_listed: bool, package: types.ModuleType, monkeypatch: pytest.MonkeyPatch
) -> None:
    monkeypatch.setattr(package, "agreed", lambda: ["kit-1 logic a", "kit-2 logic a"])
    monkeypatch.setattr(package, "compare_with_kit", lambda kit: None)
    monkeypatch.setattr(package, "run", lambda *arguments: f"{found}\n")
    monkeypatch.setattr(package.shutil, "which", lambda name: "/kit/bin/rt")
    if is_listed:
        assert package.toolchain() == found
    else:
        with pytest.raises(package.Refused, match="bring the table up to date"):
            package.toolchain()


def dependencies(package: str) -> set[str]:
    """What a package depends on, by debian/control and by what the installed tools import."""
    return set(loaded(ROOT / "debian/dependencies").of_repository(package))


def test_the_package_depends_on_what_a_site_needs() -> None:
    """Whatever set-up looks for, age and rsync for second copies; none of what makes PDF."""
    found = dependencies("admissions")
    imported = {libraries.PACKAGES[it] for it in serving.MODULES}
    needed = {*serving.NEEDED.values(), *imported, "age", "rsync"}
    assert needed <= found and "python3-jinja2" in found
    assert not {libraries.PACKAGES[it] for it in libraries.LARGE} & found


def test_the_package_of_pdf_depends_on_the_large_ones() -> None:
    """And on the font of letters."""
    found = dependencies("admissions-pdf")
    assert found == {"admissions", "fonts-dejavu-core", "python3-pikepdf", "python3-pyproj",
                     "python3-shapely", "weasyprint"}


NAMES = ("admissions", "admissions-pdf")
# what a trial had in place of the second one
BEFORE = "admissions-office"


def relation_of(name: str, version: str) -> str:
    """What debian/control has a package depend on of this source, in a version of it."""
    text = (ROOT / "debian/control").read_text(encoding="utf-8")
    [line] = re.findall(rf"(?m)^Package: {name}\n(?:.+\n)*?Depends: (.*)$", text)
    own = [it for it in line.split(", ") if it.split()[0] in NAMES]
    return ", ".join(own).replace("${binary:Version}", version)


def changed_by(name: str, version: str) -> str:
    """The fields of debian/control by which a package takes the place of another one."""
    text = (ROOT / "debian/control").read_text(encoding="utf-8")
    [part] = [it for it in text.split("\n\n") if it.startswith(f"Package: {name}\n")]
    lines = re.findall(r"(?m)^(?:Provides|Breaks|Replaces): .*\n", part)
    return "".join(lines).replace("${source:Version}", version)


@pytest.fixture(name="archive", scope="module")
def archive_fixture(tmp_path_factory: pytest.TempPathFactory) -> pathlib.Path:
    """A folder from which apt installs, with two versions of both packages. That of PDF
    needs another library in each; and apt has folders of its own beside it."""
    room = tmp_path_factory.mktemp("archive")
    for it in ("packages", "lists/partial", "cache/archives/partial", "etc"):
        (room / it).mkdir(parents=True)
    found = [(f"library-{it}", it, "") for it in "12"]
    for it in "12":
        found.append((NAMES[0], it, relation_of(NAMES[0], it)))
        found.append((NAMES[1], it, f"{relation_of(NAMES[1], it)}, library-{it}"))
    found.append((BEFORE, "1", f"{relation_of(NAMES[1], '1')}, library-1"))
    for name, version, depends in found:
        root = room / f"packages/{name}_{version}"
        (root / "DEBIAN").mkdir(parents=True)
        (root / "DEBIAN/control").write_text(
            f"Package: {name}\nVersion: {version}\nArchitecture: all\nDescription: x\n"
            "Maintainer: x <x@x.example>\n" + (f"Depends: {depends}\n" if depends else "")
            + (changed_by(name, version) if name in NAMES else ""))
        subprocess.run(["dpkg-deb", "--build", root, f"{root}.deb"], check=True,
                       stdout=subprocess.DEVNULL)
    listed = subprocess.run(["apt-ftparchive", "packages", "."], cwd=room / "packages", check=True,
                            capture_output=True, text=True).stdout
    (room / "packages/Packages").write_text(listed)
    (room / "etc/sources.list").write_text(f"deb [trusted=yes] file:{room}/packages ./\n")
    (room / "status").touch()
    (room / "etc/apt.conf").write_text(
        f'Dir "/";\nDir::Etc "{room}/etc";\nDir::Etc::parts "-";\nDir::Etc::sourceparts "-";\n'
        f'Dir::State "{room}";\nDir::State::lists "{room}/lists";\nDir::Cache "{room}/cache";\n'
        f'Dir::State::status "{room}/status";\nDir::Cache::pkgcache "";\n'
        'Dir::Cache::srcpkgcache "";\nAPT::Architecture "amd64";\nAPT::Sandbox::User "";\n'
        'APT::Architectures { "amd64"; };\nAcquire::Languages "none";\nDebug::NoLocking "1";\n')
    apt_get(room, "update")
    return room


def apt_get(room: pathlib.Path, *words: str) -> dict[str, str]:
    """What apt-get would install, with the versions; and what it would remove, with none."""
    done = subprocess.run(
        ["apt-get", "-q", *words], capture_output=True, text=True, check=False,
        env=os.environ | {"APT_CONFIG": str(room / "etc/apt.conf"), "LC_ALL": "C.UTF-8"})
    found = dict(re.findall(r"(?m)^Inst (\S+) (?:\[\S+\] )?\((\S+) ", done.stdout))
    return found | dict.fromkeys(re.findall(r"(?m)^Remv (\S+) ", done.stdout), "")


BOTH = dict.fromkeys(NAMES, "2")


@pytest.mark.parametrize("held, command, wanted", [
    # the line of docs/admin/OPERATE.md
    ("", "install --no-install-recommends admissions", BOTH | {"library-2": "2"}),
    ("", "install admissions-pdf", BOTH | {"library-2": "2"}),
    ("", "dist-upgrade", BOTH | {"library-2": "2"}),
    # its library is not there, and this command installs none
    ("", "upgrade", {}),
    # whichever is held holds the other one
    ("admissions", "dist-upgrade", {}),
    ("admissions", "install admissions-pdf", {}),
    ("admissions-pdf", "dist-upgrade", {}),
    ("admissions-pdf", "install --no-install-recommends admissions", {}),
])
def test_one_of_the_two_packages_is_not_upgraded_alone(
    held: str, command: str, wanted: dict[str, str], archive: pathlib.Path
) -> None:
    """It would lack a library that its tools need, or the other would lose one."""
    installed(archive, "1", held)
    assert apt_get(archive, "--simulate", *command.split()) == wanted


def test_back_to_an_earlier_version_both_are_named(archive: pathlib.Path) -> None:
    """With one of them alone the other one would be removed."""
    installed(archive, "2")
    go_back = ("--simulate", "--allow-downgrades", "install")
    assert apt_get(archive, *go_back, *(f"{it}=1" for it in NAMES)) == {
        **dict.fromkeys(NAMES, "1"), "library-1": "1"}
    assert apt_get(archive, *go_back, f"{NAMES[0]}=1") == {NAMES[0]: "1", NAMES[1]: ""}


def test_the_name_of_before_gives_way_to_the_new_one(archive: pathlib.Path) -> None:
    """Which has what it had, and is there once."""
    installed(archive, "1", names=(NAMES[0], BEFORE))
    assert apt_get(archive, "--simulate", "install", "--no-install-recommends", *NAMES) == BOTH | {
        "library-2": "2", BEFORE: ""}


def installed(
    archive: pathlib.Path, version: str, held: str = "", names: tuple[str, ...] = NAMES
) -> None:
    """Has apt find both packages installed in this version, one of them held."""
    text = ""
    for name in (*names, f"library-{version}"):
        control = archive / f"packages/{name}_{version}/DEBIAN/control"
        state = "hold" if name == held else "install"
        text += f"{control.read_text()}Status: {state} ok installed\n\n"
    (archive / "status").write_text(text)


def test_a_module_whose_package_is_not_known_is_an_error(tmp_path: pathlib.Path) -> None:
    """So no package is made that lacks a dependency."""
    (tmp_path / "tool.py").write_text("import flask, unheard_of\n")
    done = subprocess.run(
        [ROOT / "debian/dependencies", "admissions", tmp_path],
        capture_output=True, text=True, check=False,
    )
    assert (done.returncode, done.stdout) == (1, "")
    assert done.stderr == "the Debian packages of these modules are not known: unheard_of\n"
