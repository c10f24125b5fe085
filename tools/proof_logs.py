"""The verdicts of crates in a log of proofs, for tools/evidence: of `rt ci` in the gate, or an
auditor's own of `rt verdict`.

A check is the lines up to one that begins with `logic=`. In an auditor's own log the line
`crate NAME` is above what `rt verdict` printed of that crate and of those below it, and the line
`exit 0` below. Looked for is all that the page 'Repeat' says to look for: a log that lacks any of
it is refused, with the line and why.
"""
import re
from collections.abc import Callable, Iterator
from typing import NamedTuple

from page_text import Refused

CRATE, EXIT = re.compile(r"crate (\w+)"), re.compile(r"exit (\d+)")
BEGUN = re.compile(r"== (\w+)(: its tests)?")
ENDED = re.compile(r"rt: (\w+)(?: (proved)|: its tests are (proved))")
ITEM = re.compile(r"(\w+) ((\w+)::\S+): (.+)")
EMPTY = re.compile(r"empty contracts: (\d+) found; tried (\d+) of (\d+) functions")
LOGIC = re.compile(r"logic \S+: .*\bsum=([0-9a-f]{16})[0-9a-f]*")
KEPT = re.compile(r"\bkept\b|begins with what|\bearlier (?:check|one|run)\b")
VERDICT = re.compile(r"logic=proved (?:\S+ )*?functions=\d+ (?:\S+ )*?sum=[0-9a-f]+\b.*")
# what a last line of `rt verdict` never has: the check took up what was there, or says less
NO_VERDICT = re.compile(r"\b(incremental|cache|batches|crate-checked|pinned|hides|bugs)=")


class Line(NamedTuple):
    """A line of a log, with its number."""

    number: int
    text: str


class Check(NamedTuple):
    """A check of a crate: its last line, the crate that its other lines name, if any does, the sum
    of the logic, and the line at which it ends."""

    verdict: str
    crate: str
    logic: str
    number: int


class Proved(NamedTuple):
    """A crate that a log has proved."""

    crate: str
    verdict: str
    logic: str


class ProofLog:
    """What a log has proved: with the crates of the repository below each crate, and those that
    have a public function."""

    def __init__(self, name: str, deep: Callable[[str], set[str]], has_code: set[str]) -> None:
        self.name, self.deep, self.has_code = name, deep, has_code

    def fails(self, line: Line, why: str) -> Refused:
        """Why the log is refused."""
        return Refused(f"{self.name}:{line.number}: {line.text}: {why}")

    def proved(self, lines: list[str]) -> Iterator[Proved]:
        """The crates that are proved in a log."""
        numbered = [Line(at, it) for at, it in enumerate(lines, 1)]
        yield from self.of_gate(numbered)
        start: Line | None = None
        for it in numbered:
            if CRATE.fullmatch(it.text):
                if start:
                    raise self.fails(start, "no line 'exit 0' says that the check ended")
                start = it
            elif start and EXIT.fullmatch(it.text):
                yield from self.of_verdict(numbered[start.number:it.number - 1], start, it)
                start = None
        if start:
            raise self.fails(start, "no line 'exit 0' below it says that the check ended")

    def of_gate(self, lines: list[Line]) -> Iterator[Proved]:
        """The crates of `rt ci`: what it printed between `== NAME` and `rt: NAME proved`."""
        begun: Line | None = None
        for it in lines:
            if BEGUN.fullmatch(it.text):
                begun = it
            elif found := ENDED.fullmatch(it.text):
                head = f"== {found[1]}" + (": its tests" if found[3] else "")
                if not begun or begun.text != head:
                    raise self.fails(it, "the lines of its check are not above it")
                checks = self.checks(lines[begun.number:it.number - 1])
                if len(checks) != 1 or checks[0].crate not in ("", found[1]):
                    raise self.fails(it, "what is above it is not the one check of this crate")
                self.see_crate(checks[0], found[1], bool(found[3]))
                begun = None
                if found[2]:
                    yield Proved(found[1], checks[0].verdict, checks[0].logic)

    def of_verdict(self, lines: list[Line], head: Line, end: Line) -> Iterator[Proved]:
        """The crates of one `rt verdict`: that of the line `crate NAME`, and those below it."""
        name = head.text.partition(" ")[2]
        if end.text != "exit 0":
            raise self.fails(end, f"`rt verdict` of {name} did not succeed")
        checks = self.checks(lines)
        filled = [it for it in lines if it.text.strip()]
        if not checks or checks[-1].number != filled[-1].number:
            last = filled[-1] if filled else head
            raise self.fails(last, "`rt verdict` of a crate ends with the line logic=proved ..")
        of_tests = [it for it in checks if " tests=" in it.verdict]
        own = [it for it in checks if it not in of_tests]
        named = {it.crate: it for it in own if it.crate}
        # (of a crate without functions a check names nothing)
        rest = sorted(self.deep(name) - {*named})
        silent = [it for it in own if not it.crate]
        for it, crate in zip(silent, rest):
            named[crate] = it
        missing = sorted(self.deep(name) ^ {*named})
        if missing or len(own) != len(named) or len(rest) > 1 or own[-1] is not named[name]:
            raise self.fails(head, "below it there must be one check of each of"
                             f" {', '.join(sorted(self.deep(name)))}, its own as the last"
                             + (f": not so of {', '.join(missing)}" if missing else ""))
        for crate, it in named.items():
            self.see_crate(it, crate)
            yield Proved(crate, it.verdict, it.logic)

    def see_crate(self, check: Check, crate: str, is_of_tests: bool = False) -> None:
        """Refuses a check without functions for a crate that has some, and one of tests for a
        crate."""
        line = Line(check.number, check.verdict)
        is_empty = not check.crate or "functions=0 " in line.text
        if crate in self.has_code and is_empty:
            raise self.fails(line, f"{crate} has functions, and this check has none of them")
        if (" tests=" in line.text) != is_of_tests:
            raise self.fails(line, f"this is not the verdict on {crate}, but on its tests, or not"
                             " on these")

    def checks(self, lines: list[Line]) -> list[Check]:
        """The checks that these lines have, each as it must be."""
        out, start = [], 0
        for at, it in enumerate(lines):
            if it.text.startswith("logic="):
                out.append(self.check(lines[start:at], it))
                start = at + 1
        return out

    def check(self, lines: list[Line], end: Line) -> Check:
        """A check by its lines: each item proved, no contract that no call can meet, nothing taken
        up."""
        if not VERDICT.fullmatch(end.text):
            raise self.fails(end, "this is no line logic=proved ..")
        if NO_VERDICT.search(end.text):
            raise self.fails(end, "the check took up what was there, or says less than a verdict")
        crates: dict[str, Line] = {}
        logic, functions = "", 0
        searched, counts = end, (-1, 0, 0)
        for it in lines:
            if found := ITEM.fullmatch(it.text):
                self.see_item(it, found[4], end.text)
                crates.setdefault(found[3], it)
                functions += found[1] == "fn"
            elif found := EMPTY.fullmatch(it.text):
                searched, counts = it, (int(found[1]), int(found[2]), int(found[3]))
            elif found := LOGIC.fullmatch(it.text):
                logic = found[1]
            elif KEPT.search(re.sub(r"`[^`]*`", "", it.text)):
                raise self.fails(it, "something was kept of an earlier check")
        if len(crates) > 1:
            raise self.fails([*crates.values()][-1], "this is of another crate than those above")
        if counts != (0, functions, functions):
            wanted = f"empty contracts: 0 found; tried {functions} of {functions} functions"
            raise self.fails(searched, f"of each check there must be '{wanted}', as many as it"
                             " has lines 'fn ..'")
        if not logic or f" sum={logic} " not in f"{end.text} ":
            raise self.fails(end, "no line 'logic ..' above has this sum")
        return Check(end.text, next(iter(crates), ""), logic, end.number)

    def see_item(self, line: Line, status: str, verdict: str) -> None:
        """Refuses an item that is not proved."""
        allowed = ["proved", *(f"proved, may {it}" for it in re.findall(r"\bmay-(\w+)=", verdict))]
        if status not in allowed:
            raise self.fails(line, "it must be proved")
