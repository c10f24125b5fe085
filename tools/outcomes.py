"""What logs say, for tools/evidence: of crates and mutants, with what a verdict rests on and by
what a mutant was refused; of tests; and how long it took.

A log is one of `make test` or `make mutants`, or an auditor's own of `rt verdict` in crates: a line
`source SUM` (tools/proved_source.py) says of which source it is. tools/proof_logs.py says what it
must have of a crate that it has proved.
"""
import hashlib
import json
import re
from collections.abc import Callable
from pathlib import Path
from typing import Any

import proved_source
from page_text import Refused
from proof_logs import EXIT, LOGIC, ProofLog

UNSEEN, UNTRIED = "not checked here", "not tried here"
WORDS = Path("tools/verdict_words.json")
OUTCOME = re.compile(r"rt: must-fail (\S+)\.edit: (.*)")
WORD = re.compile(r"([a-z-]+)=\S+")
# the toolchain, as `rt version` prints it
TOOLCHAIN = re.compile(r"\S+ logic [0-9a-f]{16}")
# a part of the gate, as tools/test prints what it ended with
PART = re.compile(r"part (.+): (\d+) passed, (\d+) failed")
TOTAL = re.compile(r"\d+ passed, \d+ failed")
RAN = re.compile(r"rt: (\w+)(?:: (its tests passed)| (ran, and wrote what its file stdout has))")
NOT_PASSED = re.compile(r"case (\w+): (NOT as expected.*|it has no step)")
# how long a run took, as tools/test and tools/mutants print it
TIMES = re.compile(r"(All of it|tools/mutants[^:]*: mutants tried: \d+),? (?:took|in) (\d+)"
                   r" seconds of wall-clock time(?:, and (\d+) of CPU time)?")
# from what a verdict was made, by what its text has; the first that fits
MADE = (
    (rf"^{UNSEEN}$", UNSEEN),
    (r"^is kept: ", "kept: an earlier run proved the same files, and this one proved nothing"),
    (r"\b(crate-checked|cache)=trusted", "kept: it is the verdict of an earlier check"),
    (r"\bincremental=trusted.* \(anew\)$",
     "with a folder for kept results that was empty of this crate before"),
    (r"\bincremental=trusted", "over what earlier checks had kept, where that still fits"),
    (r"^logic=proved ", "from nothing"),
)
# with what `rt` begins a refusal; it cuts the reason after so many letters
REASON, LONGEST = "refused, as it must be: ", 160
# how the prover says that a goal is false of the mutant; cut short it says so from these letters on
FALSE = "; the facts known there allow values at which this goal is false"
FALSE_FROM = len("; the facts known there")
# by what a mutant was refused, from the strongest to what is no refusal
REFUSALS = (
    ("meaning", "At a goal that is false of the mutant: the prover shows that what is known there"
     " allows values at which the goal does not hold."),
    ("no proof", "At a goal or clause for which no proof was found. That the goal is false there is"
     " not shown; where tools/expected has an input, a clause is false for it, and so no proof can"
     " exist."),
    ("cut short", f"Cut short by rt, which prints {LONGEST} letters of the reason: whether the goal"
     " is false of the mutant, or no proof was found, came after them. It shows as much as 'no"
     " proof'."),
    ("names", "Only because a proof names what the mutant removed. That says little of the"
     " contract: such a one is no evidence."),
    ("limit", "Only by a limit of the prover, which gave no verdict. Such a one is no evidence."),
    ("not tried", "Nothing was seen of it."),
    ("not refused", "The mutant was not refused: the contract allows this bug."),
)


class Logs:
    """What the logs that were handed in say of the source as it is."""

    def __init__(self, paths: list[str], proofs: Callable[[str], ProofLog]) -> None:
        self.proved: dict[str, str] = {}
        self.mutants: dict[str, str] = {}
        self.given: list[dict[str, Any]] = []
        self.files: dict[str, bytes] = {}
        self.parts: list[dict[str, Any]] = []
        self.runs: dict[str, list[str]] = {}
        self.cases: dict[str, str] = {}
        self.times: list[dict[str, Any]] = []
        wanted = f"source {proved_source.sum_of_all(Path())}"
        for path in map(Path, paths):
            data = path.read_bytes()
            lines = data.decode(errors="replace").splitlines()
            sources = [line for line in lines if line.startswith("source ")]
            # (the gate prints it before its mutants, and again before the twins)
            if {*sources} != {wanted}:
                raise Refused(f"{path} is no log of this source: it has no line '{wanted}', or"
                              " one of another source")
            if path.name in self.files:
                raise Refused(f"{path}: another log that was given has this name, too")
            self.files[path.name] = data
            self.about(path.name, lines)
            self.read(path.name, lines)
            for one in proofs(path.name).proved(lines):
                self.proved[one.crate] = f"{one.verdict} ({path.name})"

    def about(self, name: str, lines: list[str]) -> None:
        """Takes what a log is: its sum, how it ended, and the toolchain that it names."""
        filled = [it for it in lines if it.strip()]
        last = next(it for it in reversed(filled) if not TIMES.fullmatch(it))
        is_of_mutants = bool(re.fullmatch(r"tools/mutants.*: mutants tried: \d+, .*", filled[-1]))
        is_gate = any(it.startswith("== ") or PART.fullmatch(it) for it in lines)
        self.given.append({
            "log": name, "last_line": last, "is_of_the_gate": is_gate,
            "ended": is_of_mutants or any(it.fullmatch(filled[-1]) for it in (EXIT, TOTAL)),
            "sha256": hashlib.sha256(self.files[name]).hexdigest(),
            "toolchain": sorted({it for it in lines if TOOLCHAIN.fullmatch(it)}),
            "logic": sorted({found[1] for found in map(LOGIC.fullmatch, lines) if found}),
        })

    def read(self, name: str, lines: list[str]) -> None:
        """Takes what a log has of mutants, parts, tests and times, and of crates that were kept."""
        tried: dict[str, str] = {}
        for line in lines:
            if found := re.fullmatch(r"rt: (\w+) (is kept: .*)", line):
                self.proved[found[1]] = f"{found[2]} ({name})"
            elif found := OUTCOME.fullmatch(line):
                # (the first: a twin may have an outcome of the same name)
                tried.setdefault(found[1], found[2])
            elif found := RAN.fullmatch(line):
                self.runs.setdefault(found[1], []).append(f"{found[2] or found[3]} ({name})")
            elif found := NOT_PASSED.fullmatch(line):
                self.cases[found[1]] = f"{found[2]} ({name})"
            elif found := TIMES.fullmatch(line):
                cpu = int(found[3]) if found[3] else None
                self.times.append({"log": name, "what": found[1], "seconds": int(found[2]),
                                   "cpu_seconds": cpu})
            elif found := PART.fullmatch(line):
                self.parts.append({"part": found[1], "passed": int(found[2]),
                                   "failed": int(found[3]), "log": name})
        self.mutants.update(tried)

    def of_case(self, name: str) -> str:
        """What the logs say of a case: the gate runs all of them, and names those that failed."""
        ran = [it["log"] for it in self.parts if it["part"].startswith("tools/cases")]
        return self.cases.get(name, f"passed ({ran[-1]})" if ran else UNTRIED)

    def of_run(self, name: str) -> str:
        """What the logs say of the program and the tests of a crate."""
        return "; ".join(self.runs.get(name, [])) or UNTRIED


def made_from(verdict: str) -> str:
    """From what a verdict was made."""
    return next(said for pattern, said in MADE if re.search(pattern, verdict))


def refused_by(outcome: str) -> str:
    """By what a mutant was refused."""
    if re.fullmatch(rf"{UNTRIED}|NOT TRIED: .*|BAD EDIT: .*", outcome):
        return "not tried"
    if not outcome.startswith(REASON[:-2]):
        return "not refused"
    if outcome.startswith(f"{REASON[:-2]} (only "):
        return "names" if "(only because " in outcome else "limit"
    reason = outcome.removeprefix(REASON)
    is_cut = len(reason) == LONGEST and outcome.startswith(REASON)
    cut_short = (FALSE[:at] for at in range(FALSE_FROM, len(FALSE)))
    if FALSE in reason or is_cut and any(map(reason.endswith, cut_short)):
        return "meaning"
    if "gave up at one of its limits" in reason:
        return "limit"
    return "cut short" if is_cut else "no proof"


def words() -> dict[str, str]:
    """What each field of a verdict means."""
    found: dict[str, str] = json.loads(WORDS.read_text(encoding="utf-8"))
    return found


def see_words(verdicts: list[str]) -> None:
    """Refuses a verdict with a field that has no words."""
    known = words()
    unknown = {name for line in verdicts if line.startswith("logic=")
               for name in WORD.findall(line) if name not in known}
    if unknown:
        raise Refused("\n".join(f"{WORDS} has no words for {it}=, which a verdict has"
                                for it in sorted(unknown)))
