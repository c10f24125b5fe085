"""What is counted and seen in the season, and waits for what a screen comes to."""
import contextlib
import dataclasses
import time
from collections.abc import Callable
from typing import Any

from selenium.common.exceptions import WebDriverException

# for so long a step may take on a machine that is busy: a copy of the register, or a rehearsal
SECONDS = 600


class Stopped(Exception):
    """Why the season cannot go on."""


@dataclasses.dataclass
class Counts:
    """What all persons have pressed: buttons, links and boxes; fields to type there; and keys."""

    clicks: int = 0
    fields: int = 0
    keys: int = 0


@dataclasses.dataclass
class Report:
    """What was seen, and how often something was not as it must be."""

    passed: int = 0
    failed: list[str] = dataclasses.field(default_factory=list)
    counts: Counts = dataclasses.field(default_factory=Counts)
    # which screens were looked at
    screens: set[str] = dataclasses.field(default_factory=set)
    began: float = dataclasses.field(default_factory=time.monotonic)

    def see(self, is_so: object, name: str) -> bool:
        """Counts something that must be so."""
        if is_so:
            self.passed += 1
        else:
            self.failed.append(name)
            print(f"FAILED: {name}", flush=True)
        return bool(is_so)

    def same(self, found: object, wanted: object, name: str) -> None:
        """Counts two things that must be equal."""
        self.see(found == wanted, f"{name}: {shortly(found)}, and not {shortly(wanted)}")

    def step(self, text: str) -> None:
        """Prints what is done, with the clicks so far."""
        it = self.counts
        seconds = time.monotonic() - self.began
        print(f"{seconds:4.0f} s, {it.clicks:3} clicks, {it.fields:2} into fields,"
              f" {it.keys:5} keys: {text}", flush=True)


def shortly(value: object) -> str:
    """A value as it is printed of something that failed."""
    text = repr(value)
    return text if len(text) <= 300 else f"{text[:300]}.."


def until(what: Callable[[], object], name: str, seconds: float = SECONDS) -> Any:
    """Waits until something is so, and returns it."""
    end = time.monotonic() + seconds
    while True:
        with contextlib.suppress(WebDriverException):
            if found := what():
                return found
        if time.monotonic() > end:
            raise Stopped(f"{name}: not within {seconds:.0f} seconds")
        time.sleep(0.05)
