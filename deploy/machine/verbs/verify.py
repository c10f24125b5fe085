"""Verifies the folder of a release before apt installs from it, or the program
that is installed.

  admissions-admin verify FOLDER [--key FILE] [--trial]
  admissions-admin verify

All files of FOLDER are verified by their digests, and those by the signature of
the key, which is the one that apt trusts already; --key gives another. The
verdict of the gate must be that all passed: a release without one is for trials
only, and is refused without --trial. The second form shows the same of what is
installed, and whether the program is the one of its manifest.

example:
  admissions-admin verify /srv/admissions
"""
import argparse
import base64
import json
import pathlib
import re
import tempfile
import typing

from register_files import Refused

from ..programs import call, program, tool
from ..sealed import digest

KEY = pathlib.Path("/etc/apt/keyrings/admissions-archive.asc")
MANIFEST = pathlib.Path("/usr/share/doc/admissions/manifest.json")
PASSED = re.compile(r"[1-9]\d* passed, 0 failed")


def arguments(reader: argparse.ArgumentParser) -> None:
    reader.add_argument("folder", nargs="?", metavar="FOLDER", help="the folder of a release")
    reader.add_argument("--key", metavar="FILE", type=pathlib.Path, default=KEY,
                        help="the public key of the release")
    reader.add_argument("--trial", action="store_true", help="also one that no gate has passed")


def main(given: argparse.Namespace) -> int:
    if not given.folder:
        return installed(given.trial)
    folder = pathlib.Path(given.folder).absolute()
    signed(folder, given.key)
    count = whole(folder)
    see_verdict(read(folder / "manifest.json"), f"{count} files are as they were signed",
                given.trial)
    print("next, which closes the offices: apt update && apt install --no-install-recommends"
          " admissions")
    return 0


def installed(is_trial: bool) -> int:
    """Compares the installed program with its manifest."""
    path, about = pathlib.Path(program("admissions")), read(MANIFEST)
    wanted = about["program"]["sha256"]
    if digest(path) != wanted:
        raise Refused(f"{path} is not the program of {MANIFEST}")
    see_verdict(about, f"{path} is the program of {MANIFEST}, {wanted}", is_trial)
    return 0


def see_verdict(about: dict[str, typing.Any], said: str, is_trial: bool) -> None:
    """Prints what a release is, and refuses one that no gate has passed."""
    verdict = about.get("verdict_of_the_gate")
    print(f"{about.get('package')}, of the commit {about.get('commit')}: {said}; the gate:"
          f" {verdict or 'no verdict'}", flush=True)
    if not PASSED.fullmatch(str(verdict)) and not is_trial:
        raise Refused("no gate has passed this release: it is for trials only (--trial)")


def read(path: pathlib.Path) -> dict[str, typing.Any]:
    """A manifest."""
    try:
        found = json.loads(path.read_text(encoding="utf-8"))
    except ValueError as error:
        raise Refused(f"{path} cannot be read: {error}") from error
    if not isinstance(found, dict):
        raise Refused(f"{path} is no manifest")
    return found


def signed(folder: pathlib.Path, key: pathlib.Path) -> None:
    """Refuses digests that this key has not signed."""
    with tempfile.NamedTemporaryFile() as ring:
        ring.write(unarmoured(key))
        ring.flush()
        call(tool("gpgv", "gpgv"), "--keyring", ring.name, folder / "SHA256SUMS.asc",
             folder / "SHA256SUMS")


def unarmoured(key: pathlib.Path) -> bytes:
    """The bytes of a public key that is text."""
    found = re.search(r"-----BEGIN PGP PUBLIC KEY BLOCK-----.*?\n\n(.*?)\n=[^\n]*\n-----END",
                      key.read_text(encoding="ascii"), re.DOTALL)
    if not found:
        raise Refused(f"{key} is no public key of gpg")
    return base64.b64decode(found[1])


def whole(folder: pathlib.Path) -> int:
    """Refuses a file that is another than the signed one, or that was not signed. Returns how many
    files there are."""
    lines = (folder / "SHA256SUMS").read_text(encoding="utf-8").splitlines()
    sums = {name: wanted for wanted, _, name in (it.partition("  ") for it in lines)}
    for name, wanted in sums.items():
        if "/" in name or not (folder / name).is_file() or digest(folder / name) != wanted:
            raise Refused(f"{folder / name} is not there, or is not what was signed")
    beside = {"SHA256SUMS", "SHA256SUMS.asc"}
    if more := sorted({it.name for it in folder.iterdir()} - sums.keys() - beside):
        raise Refused(f"{folder} has files that were not signed: {', '.join(more)}")
    return len(sums)
