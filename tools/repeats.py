"""What whoever repeats a check compares with, for tools/evidence: how long it took here, and the
fingerprints of the release."""
import hashlib
import json
import os
import shutil
import subprocess
import tempfile
from pathlib import Path
from typing import Any

from page_text import Refused

COSTS, UNIT = Path("out/costs"), Path("out/unit")
RELEASE = Path("out/release")


def unit() -> float | None:
    """The CPU seconds of a unit on this machine, if it was measured (tools/unit > out/unit)."""
    text = UNIT.read_text(encoding="ascii").strip() if UNIT.exists() else ""
    if text and not (text.isdigit() and int(text)):
        raise Refused(f"{UNIT} is not what tools/unit prints: {text}")
    return int(text) if text else None


def seconds_of(crate: str) -> int | None:
    """The CPU seconds of the proof of a crate, which a build here made from nothing."""
    path = COSTS / crate
    return int(path.read_text(encoding="ascii")) if path.exists() else None


def in_units(seconds: int | None, of: float | None) -> str:
    """CPU seconds, with units beside them where both are known."""
    if seconds is None:
        return ""
    return f"{seconds} s" + (f", {seconds / of:.2f} units" if of else "")


def fingerprints(key: Path) -> list[str]:
    """The fingerprints of the keys of a file."""
    if not shutil.which("gpg"):
        raise Refused(f"{key} is there, and its fingerprint needs what is not here. On Debian:"
                      " apt-get install gnupg")
    with tempfile.TemporaryDirectory(prefix="keys-") as home:
        shown = subprocess.run(
            ["gpg", "--batch", "--show-keys", "--with-colons", str(key)], check=False,
            env={**os.environ, "GNUPGHOME": home}, capture_output=True, text=True)
    lines = [it.split(":") for it in shown.stdout.splitlines()]
    found = [after[9] for before, after in zip(lines, lines[1:])
             if before[0] == "pub" and after[0] == "fpr"]
    if not found:
        raise Refused(f"{key} has no key: {shown.stderr.strip()}")
    return found


def release(commit: str) -> dict[str, Any]:
    """The fingerprints of the release at out/release, if there is one and it is of this commit."""
    manifest, sums = RELEASE / "manifest.json", RELEASE / "SHA256SUMS"
    if not manifest.exists():
        return {"is": "none"}
    data = manifest.read_bytes()
    about, digest = json.loads(data), hashlib.sha256(data).hexdigest()
    if about.get("commit") != commit:
        return {"is": "of another commit", "commit": about.get("commit")}
    if not sums.exists() or f"{digest}  {manifest.name}" not in sums.read_text("ascii").split("\n"):
        raise Refused(f"{manifest} is not the file that {sums} names")
    return {"is": "of this commit", "manifest": digest, "package": about.get("package"),
            "keys": fingerprints(RELEASE / "admissions-archive.asc"),
            "program": (about.get("program") or {}).get("sha256"),
            "verdict_of_the_gate": about.get("verdict_of_the_gate")}
