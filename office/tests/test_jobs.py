"""The jobs of an application: one of a name at a time, what hinders them, and how they end with it.
"""
import logging
import threading

import pytest
from register_files import Refused

from office.web.machinery.jobs import BROKEN, Jobs

PATIENCE = 60.0


def test_one_of_a_name_runs_at_a_time() -> None:
    """Another name's runs beside it; who waits has the end, and who does not reads that it runs."""
    jobs, may_end, done = Jobs(), threading.Event(), list[str]()

    def slow() -> None:
        assert may_end.wait(PATIENCE)
        done.append("slow")

    job = jobs.run("draw", "hal", slow, about=3)
    assert job and (job.who, job.about) == ("hal", 3) and jobs.is_running("draw")
    assert jobs.run("draw", "jane", slow) is None and jobs.last("draw") is job
    assert jobs.run("letters", "jane", lambda: done.append("quick"), PATIENCE)
    assert not jobs.is_running("letters") and done == ["quick"]
    may_end.set()
    assert job.is_over.wait(PATIENCE) and done == ["quick", "slow"]
    assert jobs.run("draw", "jane", lambda: done.append("next"), PATIENCE)
    assert done[-1] == "next"


def test_what_hinders_a_job_is_said_once() -> None:
    """To who waited for it; or else to who looks later."""
    jobs, may_end = Jobs(), threading.Event()

    def refused() -> None:
        raise Refused("the disk is full")

    with pytest.raises(Refused, match="the disk is full"):
        jobs.run("draw", "hal", refused, PATIENCE)
    job = jobs.last("draw")
    assert job and job.is_over.is_set() and job.refused == ""

    def later() -> None:
        assert may_end.wait(PATIENCE)
        refused()

    job = jobs.run("draw", "hal", later)
    assert job and job.refused == ""
    may_end.set()
    assert job.is_over.wait(PATIENCE) and job.refused == "the disk is full"


def test_an_error_that_nobody_knows_is_in_the_log(caplog: pytest.LogCaptureFixture) -> None:
    """And the next job of the name is done."""
    jobs = Jobs()
    with caplog.at_level(logging.ERROR), pytest.raises(ZeroDivisionError):
        jobs.run("draw", "hal", lambda: print(1 // 0), PATIENCE)
    assert [it.getMessage() for it in caplog.records] == [f"draw: {BROKEN}"]
    assert jobs.run("draw", "hal", lambda: None, PATIENCE)


def test_what_is_wanted_meanwhile_is_done_after_it() -> None:
    """Once, however often it was wanted."""
    jobs, may_end, done = Jobs(), threading.Event(), list[int]()

    def work() -> None:
        assert may_end.wait(PATIENCE)
        done.append(len(done))

    for _ in range(3):
        jobs.wake("letters", work)
    job = jobs.last("letters")
    may_end.set()
    assert job and job.is_over.wait(PATIENCE) and done == [0, 1]
    jobs.wake("letters", work)
    job = jobs.last("letters")
    assert job and job.is_over.wait(PATIENCE) and done == [0, 1, 2]


def test_jobs_end_with_the_application(caplog: pytest.LogCaptureFixture) -> None:
    """Each is ended, or looks itself; nothing more begins, and what was wanted is not done."""
    jobs, is_ended, began, done = Jobs(), threading.Event(), threading.Event(), list[str]()

    def program() -> None:
        assert is_ended.wait(PATIENCE)
        done.append("program")

    def rows() -> None:
        began.set()
        while not jobs.is_closed:
            is_ended.wait(0.01)
        done.append("rows")

    jobs.run("trial", "jane", program, end=is_ended.set)
    jobs.wake("letters", rows)
    jobs.wake("letters", rows)
    assert began.wait(PATIENCE)
    jobs.close()
    assert sorted(done) == ["program", "rows"]
    assert not jobs.is_running("trial") and not jobs.is_running("letters")
    with pytest.raises(Refused, match="the application is being ended"):
        jobs.run("draw", "hal", lambda: done.append("late"))
    assert len(done) == 2 and caplog.records == []
