"""admissions-admin move and rehearse: what goes along and what stays, killed at each step and typed
again, and that a machine in use is no machine for trials."""
import argparse
import contextlib
import pathlib
import shutil
import types
import typing

import pytest
from conftest import Systemd, document, typed
from machine import (
    certificates, copies, fetching, files, programs, registers, second_copy, serving, sites,
)
from machine.verbs import (
    certificate, copy as copy_verb, drill, move, rehearse, retire, takeover,
)
from register_files import Refused

NAME = "secondary-2025"
COPY = "nightly-000012-2025-03-03T023000.db"
APPLICATION = f"admissions-office@{NAME}.socket admissions-office@{NAME}.service"


@pytest.fixture(name="disk")
def disk_fixture(
    register: registers.Register, systemd: Systemd, machine: pathlib.Path, write_as_me: None,
    monkeypatch: pytest.MonkeyPatch,
) -> pathlib.Path:
    """A disk that is mounted, beside a register with a key, copies and what no copy has; systemd
    makes the next copy, which arrives at the second place."""
    place = machine / "kept"
    place.mkdir()
    monkeypatch.setattr("os.path.ismount", lambda path: pathlib.Path(path) == place)
    monkeypatch.setattr(sites, "make_all", lambda: ["nginx has read the sites"])
    monkeypatch.setattr(serving, "make_folders", lambda _: [])
    for name in ("ENABLED", "AVAILABLE"):
        (machine / name).mkdir()
        monkeypatch.setattr(sites, name, machine / name)
        (machine / name / f"admissions-{NAME}").write_text("site")
    list(certificates.make(register, "admissions.example"))
    (machine / "etc/second-copy").write_text("/mnt/copies\n")
    for it in (register.copies / "before-round-1.db", register.copies / COPY,
               register.copies / "history/history-000001-0123456789abcdef.gz",
               register.copies / "drill.report", register.office_copies / "office-000001-x.db",
               register.office / "gazetteer/places.db", register.office / "archive/season.zip",
               register.office / "office.db"):
        it.parent.mkdir(exist_ok=True)
        it.write_text(it.name)

    def back_up() -> None:
        number = copies.last_number(register.copies) + 1
        (register.copies / f"nightly-{number:06}-2025-03-04T023000.db").write_text("last")

    def send() -> None:
        line = f"{register.nightly_copies()[-1].name}.age is in /mnt/copies/{NAME}, equal\n"
        (register.copies / second_copy.REPORT).write_text(line)

    systemd.does = {f"start admissions-backup@{NAME}.service": back_up,
                    f"start admissions-second-copy@{NAME}.service": send}
    return place


def content(folder: pathlib.Path) -> dict[str, bytes]:
    return {str(it.relative_to(folder)): it.read_bytes()
            for it in folder.rglob("*") if it.is_file()}


def here(machine: pathlib.Path) -> dict[str, bytes]:
    """All that the machine has of the register."""
    return {name: data for folder in ("lib", "office", "backups", "etc")
            for name, data in content(machine / folder).items() if name.startswith(NAME)}


def killed(*_: object, **more: object) -> typing.NoReturn:
    raise KeyboardInterrupt


def test_what_the_second_place_does_not_have_goes_along_to_a_new_machine(
    disk: pathlib.Path, register: registers.Register, machine: pathlib.Path, systemd: Systemd,
    monkeypatch: pytest.MonkeyPatch, capsys: pytest.CaptureFixture[str],
) -> None:
    """With the key of the site, after the office is closed and the last copy has arrived. There,
    what is read in meanwhile stays; killed and typed again, each half goes on."""
    for place in ((copy_verb, "made"), (copy_verb, "sent"), (move, "call")):
        with monkeypatch.context() as patch:
            patch.setattr(*place, killed)
            with pytest.raises(KeyboardInterrupt):
                typed("move", "--pack", str(disk), "--yes")
        assert not (disk / f"{NAME}.tar").exists()
    systemd.calls.clear()
    assert typed("move", "--pack", str(disk), "--yes") == 0
    calls = systemd.lines("disable", "start", "mask")
    assert calls[0].startswith(f"disable --now {APPLICATION} admissions-backup@{NAME}.timer")
    assert calls[-2:] == [f"disable --now admissions@{NAME}.service",
                          f"mask --now {APPLICATION} admissions@{NAME}.service"]
    assert {it.stat().st_mode & 0o077 for it in disk.iterdir()} == {0}
    with pytest.raises(Refused, match="is there already: give it another name"):
        typed("move", "--pack", str(disk), "--yes")
    key = (register.settings / "site.key").read_bytes()
    # (the new machine, which has taken over)
    for it in ("before-round-1.db", "office/office-000001-x.db"):
        (register.copies / it).unlink()
    shutil.rmtree(register.office)
    (register.office / "gazetteer").mkdir(parents=True)
    (register.office / "gazetteer/places.db").write_text("read in since")
    for path in certificates.paths(register):
        path.unlink()
    list(certificates.make(register, "admissions.example"))
    with monkeypatch.context() as patch, pytest.raises(KeyboardInterrupt):
        patch.setattr(certificate, "taken", killed)
        typed("move", "--unpack", str(disk), "--yes")
    assert systemd.lines("stop", "start") == [f"stop {APPLICATION}", f"start {APPLICATION}"]
    assert typed("move", NAME, "--unpack", str(disk), "--yes") == 0
    assert (register.settings / "site.key").read_bytes() == key
    for it in ("before-round-1.db", "office/office-000001-x.db"):
        assert (register.copies / it).read_text() == pathlib.Path(it).name
    assert content(register.office) == {
        "gazetteer/places.db": b"read in since", "archive/season.zip": b"season.zip"}
    assert f"{NAME} is moved. next: lead admissions.example" in capsys.readouterr().out


def test_what_is_unpacked_is_so_by_the_user_whose_it_is(
    disk: pathlib.Path, register: registers.Register, machine: pathlib.Path, systemd: Systemd,
    monkeypatch: pytest.MonkeyPatch,
) -> None:
    """Otherwise a link that a service puts in its folder would have root write elsewhere."""
    assert typed("move", "--pack", str(disk), "--yes") == 0
    for it in (register.copies / "before-round-1.db", register.office / "archive/season.zip"):
        it.unlink()
    acting, by, real = ["root"], dict[str, str](), programs.call

    @contextlib.contextmanager
    def acting_as(name: str) -> typing.Iterator[None]:
        acting.append(name)
        yield
        acting.pop()

    def call(*words: object, **more: typing.Any) -> object:
        before = here(machine)
        done = real(*words, **more)
        by.update(dict.fromkeys(here(machine).keys() - before.keys(), acting[-1]))
        return done

    monkeypatch.setattr(files, "acting_as", acting_as)
    monkeypatch.setattr(move, "call", call)
    assert typed("move", NAME, "--unpack", str(disk), "--yes") == 0
    assert by == {f"{NAME}/before-round-1.db": programs.USER,
                  f"{NAME}/archive/season.zip": programs.OFFICE}


def test_a_last_copy_that_did_not_arrive_is_no_move(
    disk: pathlib.Path, register: registers.Register, machine: pathlib.Path, systemd: Systemd
) -> None:
    systemd.does[f"start admissions-second-copy@{NAME}.service"] = lambda: None
    with pytest.raises(Refused, match="is not at the second place. Correct that and type it again"):
        typed("move", "--pack", str(disk), "--yes")
    assert list(disk.iterdir()) == []
    (machine / "etc/second-copy").write_text("none\n")
    systemd.calls.clear()
    with pytest.raises(Refused, match="needs a second place"):
        typed("move", "--pack", str(disk), "--yes")
    assert systemd.calls == []


@pytest.mark.parametrize("turn", range(5))
def test_a_register_is_moved_away_and_brought_back(
    turn: int, disk: pathlib.Path, register: registers.Register, machine: pathlib.Path,
    systemd: Systemd, monkeypatch: pytest.MonkeyPatch,
) -> None:
    """With all its files, also where it was killed in the middle, and typed again."""
    before = here(machine)
    real, count = move.moved_from, [0]

    def moved_from(*given: pathlib.Path) -> None:
        if count[0] == turn:
            raise KeyboardInterrupt
        count[0] += 1
        real(*given)

    with monkeypatch.context() as patch, pytest.raises(KeyboardInterrupt):
        patch.setattr(move, "moved_from", moved_from)
        if turn == 4:
            patch.setattr(sites, "make_all", killed)
        typed("move", NAME, "--away", str(disk), "--yes")
    if turn == 4:
        with pytest.raises(Refused, match="is of a move that has ended"):
            typed("move", NAME, "--away", str(disk), "--yes")
    else:
        (register.copies.with_name(f"{NAME}.moved")).mkdir(exist_ok=True)
        assert typed("move", NAME, "--away", str(disk), "--yes") == 0
    assert here(machine) == {} and not list(machine.glob("*/*.moved"))
    assert not list(machine.glob(f"*/admissions-{NAME}"))

    def call(*words: object) -> object:
        if words[0] == shutil.which("cp") and "etc" in str(words[-1]):
            raise KeyboardInterrupt
        return programs.call(*words)

    with monkeypatch.context() as patch, pytest.raises(KeyboardInterrupt):
        patch.setattr(move, "call", call)
        typed("move", NAME, "--back", str(disk))
    assert typed("move", NAME, "--back", str(disk)) == 0
    assert here(machine) == before and not list(machine.glob("*/*.new"))
    assert systemd.calls[-1] == f"start admissions-drill@{NAME}.timer"
    register.history.write_text("another register's")
    with pytest.raises(Refused, match="are not equal, and both stay"):
        typed("move", NAME, "--back", str(disk))
    assert register.history.read_text() == "another register's"


@pytest.mark.parametrize("at", range(4))
def test_a_move_to_a_disk_without_room_is_taken_back(
    at: int, disk: pathlib.Path, register: registers.Register, machine: pathlib.Path,
    systemd: Systemd, monkeypatch: pytest.MonkeyPatch,
) -> None:
    """It is refused before anything is stopped. Where the disk is full within, or its cable is
    loose, what is here stays, and what was moved comes back."""
    before = here(machine)
    free = types.SimpleNamespace(free=sum(map(len, before.values())) - 1)
    with monkeypatch.context() as patch:
        patch.setattr(shutil, "disk_usage", lambda _: free)
        with pytest.raises(Refused, match="bytes free, and .* are needed: nothing was moved"):
            typed("move", NAME, "--away", str(disk), "--yes")
    assert systemd.calls == [] and here(machine) == before
    number = [0]

    def call(*words: object) -> object:
        done = programs.call(*words)
        if words[0] == shutil.which("cp"):
            number[0] += 1
            if number[0] == at + 1:
                first = next(it for it in sorted(disk.rglob("*")) if it.is_file()
                             and it.relative_to(disk / NAME / str(machine)[1:]).parts[0] == (
                                 ("lib", "office", "backups", "etc")[at]))
                first.unlink()
                raise Refused("cp: No space left on device")
        return done

    with monkeypatch.context() as patch, pytest.raises(Refused, match="No space left"):
        patch.setattr(move, "call", call)
        typed("move", NAME, "--away", str(disk), "--yes")
    assert typed("move", NAME, "--back", str(disk)) == 0
    assert here(machine) == before and not list(machine.glob("*/*.moved"))
    assert systemd.calls[-1] == f"start admissions-drill@{NAME}.timer"


@pytest.mark.parametrize("words, said", [
    (["--pack", "/mnt/gone"], "no disk is mounted at /mnt/gone: nothing was moved"),
    (["secondary-2052", "--away", "{disk}"], "no register secondary-2052 is here: nothing was mov"),
    (["secondary-2052", "--pack", "{disk}"], "no such register: secondary-2052"),
    (["--unpack", "{disk}"], f"{NAME}.tar is not there: nothing was unpacked"),
    (["--back", "{disk}"], "NAME is missing"),
    ([NAME, "--back", "{disk}"], "is not there: nothing"),
])
def test_a_wrong_place_or_name_moves_nothing(
    words: list[str], said: str, disk: pathlib.Path, machine: pathlib.Path, systemd: Systemd
) -> None:
    before = here(machine)
    with pytest.raises(Refused, match=said) as found:
        typed("move", *(it.format(disk=disk) for it in words), "--yes")
    assert (found.value.status, systemd.calls, here(machine)) == (2, [], before)


@pytest.mark.parametrize("place, name, is_done", [
    # (a machine for trials; one in use, with and without a place; one that is prepared to take a
    # register over)
    ("# a comment\n", "", True), ("/mnt/copies\n", "primary-2026", False),
    ("# a comment\n", "primary-2026", False), ("# a comment\n/mnt/copies\n", "", True),
])
@pytest.mark.parametrize("verb", ["rehearse", "takeover"])
def test_the_second_place_of_a_machine_in_use_is_not_switched_off(
    place: str, name: str, is_done: bool, verb: str, machine: pathlib.Path,
    monkeypatch: pytest.MonkeyPatch, write_as_me: None,
) -> None:
    """Neither to rehearse a takeover, nor for one after a break-in."""
    monkeypatch.setattr(serving, "see_needed", lambda: None)
    monkeypatch.setattr(fetching, "fetch", killed)
    path = machine / "etc/second-copy"
    path.write_text(place)
    if name:
        (machine / "lib" / name).mkdir()
        (machine / "lib" / name / "reg.db").write_text("a register")
    more = ["--site", "trial.example"] if verb == "rehearse" else ["--no-copies"]
    with pytest.raises(KeyboardInterrupt if is_done else Refused):
        typed(verb, NAME, "/mnt/copies", *more)
    assert path.read_text() == ("# a comment\nnone\n" if is_done else place)


def test_a_rehearsal_says_how_long_it_took_and_what_the_copy_has(
    machine: pathlib.Path, monkeypatch: pytest.MonkeyPatch, write_as_me: None,
    capsys: pytest.CaptureFixture[str],
) -> None:
    given: list[argparse.Namespace] = []

    def take_over(words: argparse.Namespace) -> int:
        given.append(words)
        return 0

    monkeypatch.setattr(takeover, "taken", take_over)
    monkeypatch.setattr(drill, "main", lambda it: print("restored and opened"))
    assert typed("rehearse", NAME, "/mnt/copies", "--site", "trial.example") == 0
    assert (given[0].site, given[0].place) == ("trial.example", "/mnt/copies")
    assert capsys.readouterr().out.startswith("it took 0 seconds\nrestored and opened\nnext: ")
    for words in ([NAME], [NAME, "/mnt/copies"]):
        with pytest.raises(Refused, match="PLACE and --site are missing"):
            typed("rehearse", *words)


def test_a_rehearsal_is_ended_where_it_was_and_nowhere_else(
    register: registers.Register, machine: pathlib.Path, monkeypatch: pytest.MonkeyPatch,
    write_as_me: None,
) -> None:
    """With the last register, and only if that was deleted, the second place is named again."""
    given: list[argparse.Namespace] = []

    def delete(words: argparse.Namespace) -> int:
        given.append(words)
        register.file.unlink()
        return 0

    path = machine / "etc/second-copy"
    path.write_text("# a comment\n/mnt/copies\n")
    monkeypatch.setattr(retire, "main", delete)
    for line in ("/mnt/copies", "none"):
        path.write_text(f"# a comment\n{line}\n")
        with pytest.raises(Refused, match="no rehearsal was begun on this machine"):
            typed("rehearse", NAME, "--end", "--yes")
    register.file.unlink()
    path.write_text("# a comment\n/mnt/copies\n")
    for _ in range(2):
        # (the second one is typed again)
        rehearse.copy_nowhere()
    register.file.write_text(document())
    (machine / "lib/primary-2026").mkdir()
    other = machine / "lib/primary-2026/reg.db"
    other.write_text(document())
    assert typed("rehearse", NAME, "--end", "--yes") == 0
    assert (given[0].early, given[0].second_place) == (rehearse.WHY, False)
    assert second_copy.line_of() == "none"
    other.unlink()
    register.file.write_text(document())
    assert typed("rehearse", NAME, "--end") == 0 and not given[1].yes
    assert path.read_text() == "# a comment\n/mnt/copies\n"
    assert not (machine / "etc" / rehearse.BEFORE).exists()


def test_a_rehearsal_that_has_fetched_nothing_is_ended_too(
    machine: pathlib.Path, monkeypatch: pytest.MonkeyPatch, write_as_me: None,
    capsys: pytest.CaptureFixture[str],
) -> None:
    """As from a place that is not there. A name that was mistyped ends no rehearsal of another."""
    monkeypatch.setattr(serving, "see_needed", lambda: None)
    path = machine / "etc/second-copy"
    path.write_text("/mnt/copies\n")
    with pytest.raises(Refused, match="is not there: is the disk mounted?"):
        typed("rehearse", NAME, str(machine / "gone"), "--site", "trial.example")
    assert path.read_text() == "none\n"
    other = machine / "lib/primary-2026/reg.db"
    other.parent.mkdir()
    other.write_text(document())
    with pytest.raises(Refused, match=f"no such register: {NAME}"):
        typed("rehearse", NAME, "--end", "--yes")
    assert path.read_text() == "none\n"
    other.unlink()
    assert typed("rehearse", NAME, "--end", "--yes") == 0
    assert path.read_text() == "/mnt/copies\n"
    assert "second place of this machine is /mnt/copies, as before" in capsys.readouterr().out
    with pytest.raises(Refused, match="no rehearsal was begun on this machine"):
        typed("rehearse", NAME, "--end", "--yes")
