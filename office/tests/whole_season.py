"""A whole season in the application, as its people live it in a browser: deploy/checks/season over
the application with a machine. It needs a browser and some minutes, so it is run by its name alone:

ADMISSIONS=bin/admissions /usr/bin/python3 -m pytest -s office/tests/whole_season.py

With PICTURES=FOLDER it leaves there a picture of each screen, wide and small.
"""
import contextlib
import datetime
import os
import pathlib
import socket
import subprocess
import time
from collections.abc import Callable, Iterator

import pytest
from conftest import ROOT, make
from draw_site import NAME, Machine, machine_over
from machine import deletion, office_delete, second_copy

from checks.season import needs  # noqa: E402

FIRST = "jane"
HERE = pathlib.Path(__file__).resolve().parent


def free_port() -> int:
    """A port that nothing has at this moment."""
    with socket.socket() as it:
        it.bind(("127.0.0.1", 0))
        found: int = it.getsockname()[1]
        return found


@contextlib.contextmanager
def application(machine: Machine, today: pathlib.Path) -> Iterator[tuple[str, str]]:
    """The application as a process of its own, for which the day of a file is today: its address,
    and the drawn password of its first person.
    """
    (machine.state / "copies").symlink_to(machine.copies)
    place = f"127.0.0.1:{free_port()}"
    address = f"http://{place}"
    environment = {**os.environ, "PYTHONPATH": f"{ROOT}:{ROOT / 'tools'}", "TODAY": str(today)}
    log = machine.folder / "application.log"
    with log.open("wb") as out, subprocess.Popen(
        ["/usr/bin/python3", str(HERE / "application_of_a_day.py"), NAME, "--door", machine.address,
         "--listen", place, "--origin", address, "--folder", str(machine.state),
         "--person", FIRST], env=environment, stdout=out, stderr=out) as run:
        try:
            end = time.monotonic() + 60
            while not is_answering(place):
                assert run.poll() is None and time.monotonic() < end, log.read_text()
                time.sleep(0.05)
            yield address, log.read_text().partition(f"{FIRST}: ")[2].split("\n")[0]
        finally:
            run.terminate()


def is_answering(place: str) -> bool:
    """Whether something listens there."""
    host, _, port = place.partition(":")
    try:
        socket.create_connection((host, int(port)), 1).close()
    except OSError:
        return False
    return True


def with_deletion(machine: Machine, patch: pytest.MonkeyPatch,
                  now: Callable[[], datetime.date]) -> None:
    """Has the machine keep a day of deletion and delete the register, by the day of the season."""
    settings = machine.folder / "etc"
    (settings / NAME).mkdir(parents=True)
    (settings / NAME / "site-name").write_text("admissions.example\n")
    for it in (office_delete, second_copy):
        patch.setattr(it, "SETTINGS", settings)
    patch.setattr(deletion, "today", now)
    patch.setattr(
        office_delete, "stop", lambda _: machine.stop() if machine.file.exists() else None)


def test_a_season_as_people_live_it(
    tmp_path: pathlib.Path, monkeypatch: pytest.MonkeyPatch
) -> None:
    """From the first sign-in to the deletion, on the days of the season."""
    assert not needs.missing()
    from checks.season import season, site

    register, today, room = tmp_path / "reg.db", tmp_path / "today", tmp_path / "room"
    make(register, [])
    room.mkdir()
    (tmp_path / "machine").mkdir()
    pictures = os.environ.get("PICTURES")

    def clock(day: datetime.date) -> None:
        new = tmp_path / "today.new"
        new.write_text(day.isoformat())
        new.replace(today)

    def now() -> datetime.date:
        return datetime.date.fromisoformat(today.read_text("ascii"))

    clock(datetime.date(2024, 11, 4))
    with machine_over(tmp_path / "machine", register, monkeypatch) as machine:
        with_deletion(machine, monkeypatch, now)
        with application(machine, today) as (address, password):
            report = season.hold(
                site.Site(address), (FIRST, password), room,
                pathlib.Path(pictures) if pictures else None, clock)
        assert not report.failed, "\n".join(report.failed)
        assert not [*(machine.lib / NAME).iterdir(), *(machine.backups / NAME).iterdir()]
    assert report.passed > 100, "the season was not lived"
