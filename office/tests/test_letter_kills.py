"""An application that is killed while it makes letters: the set goes on where it was, of the same
state of the register, and nothing is made twice.
"""
import os
import pathlib
import signal
import subprocess
import sys
import time

import letters_in_a_process
import pytest
from applications import ROUND, SCHOOLS, child, site
from conftest import ROOT, make
from letter_site import pages, waited
from letters_in_a_process import AT_A_TIME, MANY
from served import do_over, served

from office.web.letters import sets as letters_sets
from office.web.register.store import Store


def commands() -> list[dict[str, object]]:
    """Twelve children that all want A, which has two places, and then B, which has one."""
    found = [*SCHOOLS, *(child(at, f"Child {at}", 100 * at) for at in range(1, MANY + 1))]
    found += [{"cmd": "apply", "child": at, "day": "2024-10-31", "preferences": ["A", "B"]}
              for at in range(1, MANY + 1)]
    return [*found, {**ROUND, "lots": list(range(1, 2 * MANY + 1))}]


def count(folder: pathlib.Path) -> int:
    """How many letters are stored."""
    store = Store(str(folder / "office" / "office.db"))
    try:
        return len(store.rows("SELECT 1 FROM letter"))
    finally:
        store.close()


def test_a_killed_application_goes_on_with_its_letters(
    tmp_path: pathlib.Path, monkeypatch: pytest.MonkeyPatch,
) -> None:
    """After the kill an offer is declined, and a child whose letter is not made yet has another
    name. The letters are those of the state before, and each child has one.
    """
    make(tmp_path / "reg.db", commands())
    monkeypatch.setattr(letters_sets, "BATCH", AT_A_TIME)
    environment = {**os.environ, "TMPDIR": str(tmp_path)}
    with served(tmp_path / "reg.db") as (address, _):
        with subprocess.Popen(
                [sys.executable, letters_in_a_process.__file__, str(tmp_path), address],
                env=environment, cwd=ROOT, stdout=subprocess.PIPE) as run:
            assert run.stdout and run.stdout.readline() == b"1\n"
            end = time.monotonic() + 300
            while not AT_A_TIME <= count(tmp_path) < MANY:
                assert time.monotonic() < end
                time.sleep(0.05)
            os.kill(run.pid, signal.SIGKILL)
            run.wait()
        before = count(tmp_path)
        assert before < MANY
        room = tmp_path / "office" / "letters" / "1"
        parts = {it.name: it.stat().st_mtime_ns for it in room.glob("part-*.pdf")}
        assert len(parts) >= 1
        do_over(address, [{"cmd": "decline", "child": 2, "school": "A"},
                          {**child(MANY, "Changed", 100 * MANY), "cmd": "amend"}])
        with site(tmp_path, address) as office:
            jane = office.browser("jane")
            # (nobody has to ask for it again)
            page = waited(jane, "/letters/sets/1")
            assert "not recorded as sent" in page and "12 letters" in page, page
            found = pages(jane.get("/letters/sets/1/file").data)
            assert [f"Child {at} " in page for at, page in enumerate(found, 1)] == [True] * MANY
            assert "Please tell us by 17 March 2025 whether you accept" in found[0]
            assert "A place at Alpha is offered to Child 2." in found[1]
            assert "There is at present no place for Child 12" in found[11]
            rows = office.parts.store.rows("SELECT child FROM letter ORDER BY place")
            assert [it["child"] for it in rows] == list(range(1, MANY + 1))
            assert len(office.parts.store.rows("SELECT 1 FROM letter_set")) == 1
            asks = [it for it in office.parts.history.entries if it.what == "made letters"]
            assert len(asks) == 1 and sorted(it.name for it in room.iterdir()) == [
                "letters.json", "letters.pdf"]


def test_the_process_that_lays_out_ends_with_the_application(tmp_path: pathlib.Path) -> None:
    """None remains after a kill."""
    make(tmp_path / "reg.db", commands())
    with served(tmp_path / "reg.db") as (address, _), subprocess.Popen(
            [sys.executable, letters_in_a_process.__file__, str(tmp_path), address],
            cwd=ROOT, stdout=subprocess.PIPE) as run:
        assert run.stdout and run.stdout.readline() == b"1\n"
        found: list[str] = []
        end = time.monotonic() + 120
        while not found:
            assert time.monotonic() < end
            ran = subprocess.run(["ps", "-o", "pid=", "--ppid", str(run.pid)],
                                 capture_output=True, text=True, check=False)
            found = ran.stdout.split()
        os.kill(run.pid, signal.SIGKILL)
        run.wait()
        end = time.monotonic() + 30
        while any(pathlib.Path(f"/proc/{it}").exists() for it in found):
            assert time.monotonic() < end
            time.sleep(0.1)
