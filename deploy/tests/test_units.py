"""The lines of units and scripts that decide when copies are made and how many are kept, and that docs/admin/OPERATE.md promises; and what a purge removes."""
import hashlib
import os
import pathlib
import re
import subprocess

import pytest
from conftest import ROOT
from machine import brought, sites

UNITS = ROOT / "deploy/systemd"
MAIN = "user www-data;\nevents {\n\tworker_connections\t768; # as Debian has it\n\t# multi_accept on;\n}\n"
# Each line is what docs/admin/OPERATE.md says in the words beside it
LINES = {
    "admissions-backup@.timer": {
        "OnCalendar": ("*-*-* 02:30", "every night at 02:30"),
        "Persistent": ("true", "when it is on again"),
    },
    "admissions-drill@.timer": {
        "OnCalendar": ("*-*-01 04:30", "on the first of each month"),
        "Persistent": ("true", "when it is on again"),
    },
    "admissions-backup@.service": {
        "ExecStart": (
            "/usr/local/lib/admissions/nightly /var/lib/admissions/%i/reg.db /var/backups/admissions/%i 30",
            "keeps the 30 copies that were made last",
        ),
        "OnSuccess": (
            "admissions@%i.service admissions-second-copy@%i.service",
            "starts the server again, even if the copy failed",
        ),
        "OnFailure": ("admissions@%i.service", "starts the server again, even if the copy failed"),
        "User": ("admissions", ""),
    },
    "admissions-second-copy@.service": {
        "ExecStartPre": (
            "-+/usr/local/lib/admissions/settings-copy %i",
            "people, settings and history",
        ),
        "ExecStart": (
            "/usr/local/lib/admissions/second-copy %i",
            "The copies go to the second place",
        ),
        "User": ("admissions", ""),
    },
    "admissions-office@.service": {"OOMPolicy": ("continue", "and the application goes on")},
    "admissions-drill@.service": {
        "ExecStart": ("/usr/local/lib/admissions/drill %i", "a drill restores the newest copies"),
        "User": ("admissions", ""),
    },
}


def test_each_unit_names_its_documentation() -> None:
    """The page for administrators, where the package has it."""
    units = sorted(it for it in UNITS.iterdir() if it.suffix in (".path", ".service", ".socket", ".timer"))
    assert len(units) > 15
    for it in units:
        found = re.findall(r"(?m)^Documentation=(.*)$", it.read_text(encoding="utf-8"))
        assert found == ["file:///usr/local/share/doc/admissions/admin/OPERATE.md"], it.name


@pytest.mark.parametrize("unit", LINES)
def test_the_lines_of_a_unit_are_those_that_the_page_promises(unit: str) -> None:
    found = dict(re.findall(r"(?m)^(\w+)=(.*)$", (UNITS / unit).read_text(encoding="utf-8")))
    page = " ".join((ROOT / "docs/admin/OPERATE.md").read_text(encoding="utf-8").split())
    for key, (value, words) in LINES[unit].items():
        assert (key, found.get(key), words in page) == (key, value, True)


def lines_of(unit: str) -> dict[str, str]:
    """The lines of a unit by their names; of two with one name the last."""
    return dict(re.findall(r"(?m)^(\w+)=(.*)$", (UNITS / unit).read_text(encoding="utf-8")))


@pytest.mark.parametrize("unit", ["admissions@.service", "admissions-office@.service", "admissions-office@.socket", "admissions-backup@.service"])
def test_nothing_opens_a_register_in_the_middle_of_a_restore(unit: str) -> None:
    """Neither a restart of the machine nor a timer: what came since the copy does not wait yet."""
    found = re.findall(r"(?m)^ConditionPathExists=!(.*)$", (UNITS / unit).read_text(encoding="utf-8"))
    assert f"/etc/admissions/%i/{brought.BEGUN}" in found


@pytest.mark.parametrize("request_, capabilities", [
    # the answer is written into a folder of the application; the copy is made as the user of the registers, and given to the group of the application
    ("copy", "CAP_CHOWN CAP_DAC_OVERRIDE CAP_FOWNER CAP_SETGID CAP_SETUID"),
    ("restore", "CAP_DAC_OVERRIDE CAP_SETGID CAP_SETUID"),
    ("deletion-day", "CAP_DAC_OVERRIDE"),
    ("delete", "CAP_DAC_OVERRIDE"),
])
def test_what_root_does_for_the_application_has_the_capabilities_that_it_uses(request_: str, capabilities: str) -> None:
    """Each is woken by a file that the application writes."""
    found = lines_of(f"admissions-office-{request_}@.service")
    assert (found["CapabilityBoundingSet"], found["NoNewPrivileges"]) == (capabilities, "yes")
    assert "User" not in found


def test_the_second_copy_sees_no_home_and_has_the_network_alone() -> None:
    found = lines_of("admissions-second-copy@.service")
    assert (found["ProtectHome"], found["RestrictAddressFamilies"], found["CapabilityBoundingSet"]) == (
        "yes", "AF_UNIX AF_INET AF_INET6", "")


@pytest.mark.parametrize("unit", ["admissions@.service", "admissions-office@.service"])
def test_a_unit_that_does_not_start_waits_and_gives_up(unit: str) -> None:
    """Within the time in which it counts its starts, though each takes three times as long as the wait before it."""
    found = lines_of(unit)
    wait, starts = int(found["RestartSec"]), int(found["StartLimitBurst"])
    assert found["Restart"] == "always" and wait >= 3 and starts >= 10
    assert found["StartLimitIntervalSec"] == "2min" and starts * 4 * wait <= 120


def test_the_server_may_make_the_log_of_a_register() -> None:
    """Which gives it the owner that it has: the last line counts."""
    text = (UNITS / "admissions@.service").read_text(encoding="utf-8")
    assert re.findall(r"(?m)^SystemCallFilter=(.*)$", text) == ["@system-service", "~@privileged @resources", "@chown"]


@pytest.mark.parametrize("request_", ["copy", "restore", "deletion-day", "delete"])
def test_what_the_application_asks_for_is_done_ten_times_a_minute_at_most(request_: str) -> None:
    """Each time stops the desk: whoever has broken into the application shall not do that without end."""
    found = lines_of(f"admissions-office-{request_}@.path")
    assert (found["TriggerLimitIntervalSec"], found["TriggerLimitBurst"]) == ("1min", "10")


@pytest.mark.parametrize(
    "unit, form",
    [
        ("admissions-backup@.timer", "*-*-* 02:30:00"),
        ("admissions-drill@.timer", "*-*-01 04:30:00"),
    ],
)
def test_systemd_reads_the_times_as_they_are_meant(unit: str, form: str) -> None:
    time = re.findall(r"(?m)^OnCalendar=(.*)$", (UNITS / unit).read_text(encoding="utf-8"))
    done = subprocess.run(
        ["systemd-analyze", "calendar", *time], capture_output=True, text=True, check=True
    )
    assert re.findall(r"Normalized form: (.*)", done.stdout) == [form]


@pytest.fixture(name="machine_root")
def machine_root_fixture(tmp_path: pathlib.Path) -> pathlib.Path:
    """What a register leaves on a machine, below a folder."""
    for name in (
        "var/lib/admissions/a/reg.db",
        "var/lib/admissions/a/reg.db-wal",
        "var/lib/admissions/a/reg.db.before-restore-1",
        "var/lib/admissions/.ssh/id_ed25519",
        "var/lib/admissions/.running-before-upgrade",
        "var/backups/admissions/a/nightly-000001-2025-03-03T023000.db",
        "var/backups/admissions/a/nightly-000001-2025-03-03T023000.tar",
        "var/backups/admissions/a/log/asked-000001-0123456789abcdef.gz",
        "var/backups/admissions/a/drill.report",
        "var/log/admissions/a/asked.log",
        "var/log/admissions/a/asked.log.1",
        "var/log/admissions/a/asked.log.2.gz",
        "var/log/admissions/a/errors.log",
        "etc/admissions/a/site.key",
        "etc/admissions/a/site.crt",
        "etc/admissions/a/site.csr",
        "etc/admissions/a/site-name",
        "etc/admissions/authority",
        "etc/nginx/sites-available/other",
        "etc/tmpfiles.d/other.conf",
        "etc/systemd/system/multi-user.target.wants/admissions@a.service",
        "etc/systemd/system/timers.target.wants/admissions-backup@a.timer",
        "etc/systemd/system/multi-user.target.wants/other.service",
    ):
        (tmp_path / name).parent.mkdir(parents=True, exist_ok=True)
        (tmp_path / name).write_text(f"{name}\n")
    for name in (
        "etc/nginx/conf.d/admissions.conf",
        "etc/nginx/sites-available/admissions-a",
        "etc/tmpfiles.d/admissions-a.conf",
    ):
        (tmp_path / name).parent.mkdir(parents=True, exist_ok=True)
        (tmp_path / name).write_text("# Made by admissions-admin\n")
    (tmp_path / "etc/nginx/nginx.conf").write_text(sites.main_text(MAIN))
    (tmp_path / "etc/nginx/modules-enabled").mkdir()
    (tmp_path / "etc/nginx/modules-enabled/90-admissions.conf").write_text(sites.limits_text(MAIN))
    return tmp_path


def files_of(root: pathlib.Path) -> dict[str, str]:
    return {
        str(it.relative_to(root)): hashlib.sha256(it.read_bytes()).hexdigest()
        for it in root.rglob("*")
        if it.is_file()
    }


def test_a_purge_removes_what_can_be_made_again_and_nothing_else(
    machine_root: pathlib.Path, tmp_path_factory: pytest.TempPathFactory
) -> None:
    script = re.sub(
        r"(?<![\w$/])/(var|etc|run)/",
        rf"{machine_root}/\1/",
        (ROOT / "debian/postrm").read_text(encoding="utf-8"),
    )
    here = tmp_path_factory.mktemp("script") / "postrm"
    here.write_text(script, encoding="utf-8")
    before = files_of(machine_root)
    done = subprocess.run(["sh", here, "purge"], capture_output=True, text=True, check=True)
    after = files_of(machine_root)
    assert (machine_root / "etc/nginx/nginx.conf").read_text() == MAIN
    after["etc/nginx/nginx.conf"] = before["etc/nginx/nginx.conf"]
    assert after.items() <= before.items()
    assert sorted(before.keys() - after.keys()) == [
        "etc/admissions/a/site-name",
        "etc/admissions/authority",
        "etc/nginx/conf.d/admissions.conf",
        "etc/nginx/modules-enabled/90-admissions.conf",
        "etc/nginx/sites-available/admissions-a",
        "etc/systemd/system/multi-user.target.wants/admissions@a.service",
        "etc/systemd/system/timers.target.wants/admissions-backup@a.timer",
        "etc/tmpfiles.d/admissions-a.conf",
        "var/lib/admissions/.running-before-upgrade",
    ]
    for folder, count in (("var/lib", 4), ("var/backups", 4), ("var/log", 4), ("etc", 3)):
        assert (
            f"admissions: {machine_root}/{folder}/admissions is kept, with {count} files:"
            in done.stdout
        )


@pytest.mark.parametrize("word", ["remove", "upgrade", "failed-upgrade", "abort-install"])
def test_nothing_but_a_purge_removes_anything(
    word: str, machine_root: pathlib.Path, tmp_path_factory: pytest.TempPathFactory
) -> None:
    script = re.sub(
        r"(?<![\w$/])/(var|etc|run)/",
        rf"{machine_root}/\1/",
        (ROOT / "debian/postrm").read_text(encoding="utf-8"),
    )
    here = tmp_path_factory.mktemp("script") / "postrm"
    here.write_text(script.replace("systemctl", "true"), encoding="utf-8")
    before = files_of(machine_root)
    subprocess.run(["sh", here, word], capture_output=True, text=True, check=True)
    assert files_of(machine_root) == before


@pytest.mark.parametrize("status, is_left", [(0, False), (1, True)])
def test_an_upgrade_removes_what_an_earlier_page_read_once_no_site_names_it(
    status: int, is_left: bool, machine_root: pathlib.Path, tmp_path_factory: pytest.TempPathFactory
) -> None:
    room = tmp_path_factory.mktemp("script")
    for name in ("admissions-admin", "systemd-sysusers", "systemd-tmpfiles", "upgrade"):
        (room / name).write_text(f"#!/bin/sh\nexit {status if name == 'admissions-admin' else 0}\n")
        (room / name).chmod(0o755)
    script = (ROOT / "debian/postinst").read_text(encoding="utf-8")
    script = re.sub(r"(?<![\w$/])/(var|etc|run)/", rf"{machine_root}/\1/", script)
    (room / "postinst").write_text(script.replace("/usr/lib/admissions/upgrade", str(room / "upgrade")))
    index = machine_root / "run/admissions-index/a/desk/index.json"
    index.parent.mkdir(parents=True)
    index.write_text("{}")
    subprocess.run(
        ["sh", room / "postinst", "configure", "0.1.0"],
        env={**os.environ, "PATH": f"{room}:{os.environ['PATH']}"},
        check=True,
    )
    assert (machine_root / "run/admissions-index").exists() == is_left
