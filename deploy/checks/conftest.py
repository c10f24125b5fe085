"""What the checks share: the machine's part of the site with two registers, which are started once,
and an option of pytest for what is tested. deploy/check runs all of them, in its order. From the
top of the repository one file can be run alone, if it does not need what those before it did:

/usr/bin/python3 -m pytest deploy/checks/test_site.py --program=bin/admissions
"""

import pathlib
import tempfile
import traceback
from collections.abc import Iterator
from typing import Any

import pytest

from checks import primary
from checks.world import Installation, World


def pytest_addoption(parser: pytest.Parser) -> None:
    """What is tested."""
    options = parser.getgroup("deploy/check")
    options.addoption("--program", type=path, help="the program that is tested, with the files of"
                      " the repository; without it, the package that is installed")


def path(given: str) -> pathlib.Path:
    """A path that is given."""
    return pathlib.Path(given).resolve()


def pytest_terminal_summary(terminalreporter: Any) -> None:
    """Prints what a test that passed has measured."""
    for it in terminalreporter.getreports("passed"):
        for name, value in it.user_properties:
            terminalreporter.write_line(f"{it.nodeid.rpartition('::')[2]}: {name}: {value}")


@pytest.fixture(scope="session", name="world")
def world_fixture(pytestconfig: pytest.Config) -> Iterator[World]:
    """The register secondary 2025, on which nearly all is tested, and beside it primary 2026."""
    with tempfile.TemporaryDirectory(prefix="deploy-check-", ignore_cleanup_errors=True) as name:
        room = pathlib.Path(name)
        world = World(Installation(pytestconfig.getoption("program"), room / "root"), room)
        world.beside.append(primary.beside(world))
        try:
            try:
                world.start()
            except Exception:
                pytest.exit(f"not all was started:\n{traceback.format_exc()}", 1)
            yield world
        finally:
            world.end_all()


@pytest.fixture(autouse=True)
def ready_fixture(world: World) -> Iterator[None]:
    """After each test, even one that failed, desk and application answer."""
    yield
    world.continue_desk()
    if world.desk.poll() is not None:
        world.start_desk()
    if world.office.poll() is not None:
        world.start_office()
