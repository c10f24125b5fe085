"""The programs that the commands of a machine run: those of this installation, and Debian's."""
import os
import pathlib
import shutil
import subprocess
import sys
import typing

from register_files import Refused

# the user of the desks, and that of the office's applications
USER, OFFICE = "admissions", "admissions-office"


def program(name: str) -> str:
    """A program of this installation: beside the command, below its prefix, or in PATH."""
    here = os.path.dirname(os.path.realpath(sys.argv[0]))
    for folder in ((), ("..", "bin"), ("..", "..", "bin")):
        path = os.path.normpath(os.path.join(here, *folder, name))
        if os.access(path, os.X_OK):
            return path
    if found := shutil.which(name):
        return found
    raise Refused(f"{name} is not installed")


def of_unit(name: str) -> str:
    """A program that a unit runs, below the prefix of this installation."""
    return str(pathlib.Path(__file__).resolve().parents[3] / "lib/admissions" / name)


def tool(name: str, package: str) -> str:
    """A program of a Debian package, which may be below sbin."""
    found = shutil.which(name, path=f"{os.environ.get('PATH', '')}:/usr/sbin:/sbin")
    if not found:
        raise Refused(f"{name} is missing: apt-get install {package}")
    return found


def call(
    *arguments: object, text: str = "", as_user: str | None = None, may_fail: bool = False,
    given: typing.IO[bytes] | None = None,
) -> "subprocess.CompletedProcess[str]":
    """Runs a program, which reads a text or a file that is given, and returns what it printed;
    where it fails, that is the error."""
    is_other = as_user is not None and os.geteuid() == 0
    done = subprocess.run(
        [str(it) for it in arguments],
        input=None if given else text,
        stdin=given,
        text=True,
        capture_output=True,
        cwd="/",
        check=False,
        user=as_user if is_other else None,
        group=as_user if is_other else None,
        extra_groups=[] if is_other else None,
    )
    if done.returncode and not may_fail:
        lines = [line for line in (done.stderr + done.stdout).splitlines() if line]
        said = ", ".join(lines) or f"status {done.returncode}"
        raise Refused(f"{os.path.basename(str(arguments[0]))}: {said}")
    return done


def is_booted() -> bool:
    """Whether systemd runs this machine."""
    return os.path.isdir("/run/systemd/system")
