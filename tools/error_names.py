"""The names of refusals, errors and statuses that the source states, and their anchors in ERRORS.

Each is in one row of docs/reference/ERRORS.md, beside its anchor; and each anchor of the page is of
one of them. The application and the other pages link to them.
"""
import re
from collections.abc import Iterator
from typing import Any

import source_rules

ANCHOR = re.compile(r'<a id="([^"]+)"></a>')
# the definitions of what a run prints where it fails
PRINTED = (
    ("adm_host/Exits.fault_line", r'(?:(\w+) = codes "fault: (\w+)\\n"|.* = \w+_text .*)'),
    ("adm_program/Logged.IsConnectionLine",
     r'line = \(line ≡ codes "(fault): (\w+)\\n"\) .*'),
    ("adm_words/Lines.IsFaultText",
     r'(?:(\w+) text = text ≡ codes "fault: (\w+)\\n"|\(Usage e\) .*)'),
)
CAUSE = r'(?:\(Some \w+\.\w+\) = codes "fault: Disk\\ncause: ([^"\\]+)\\n"|None = .*)'
STATUS = re.compile(r"(?:\bReject|\bbare|=|\bthen|\belse) ([1-5][0-9][0-9])\b")


def of_group(group: str, name: str) -> str:
    """The anchor of a refusal or an error of rules.json."""
    return f"{'row-' if group == 'row_faults' else ''}{name.lower()}"


def slug(text: str) -> str:
    """A text as a part of an anchor."""
    return re.sub(r"[^a-z0-9]+", "-", text.lower()).strip("-")


def of_run(rules: source_rules.Rules) -> Iterator[tuple[str, str]]:
    """The errors of a run, causes of Disk and exit statuses: their anchors, and what is there."""
    yield "fault-disk", "Disk"
    for place, form in PRINTED:
        yield from ((f"fault-{slug(it[2])}", it[2]) for it in rules.equations(place, form) if it[2])
    for it in rules.equations("adm_host/Exits.disk_text", CAUSE):
        if it[1]:
            yield f"cause-{slug(it[1])}", it[1]
    for it in rules.equations("adm_host/Exits.exit_code", r"exit\.\w+ = ([0-9]+)"):
        yield f"status-{it[1]}", it[1]


def of_responses(rules: source_rules.Rules) -> Iterator[tuple[str, str]]:
    """The statuses of responses over HTTP."""
    for place in rules.texts:
        if place.startswith("adm_http/"):
            yield from ((f"http-{it}", it) for it in STATUS.findall(rules.body(place)))


def names(rules: source_rules.Rules, document: dict[str, Any]) -> dict[str, str]:
    """What must be beside each anchor."""
    found = {of_group(group, name): name for group in ("refusals", "faults", "row_faults")
             for name in document[group]}
    return {**found, **dict(of_run(rules)), **dict(of_responses(rules))}


def wrong(page: str, expected: dict[str, str]) -> Iterator[str]:
    """What is wrong with the anchors of the page: those that are missing, too many, doubled, or
    beside another name.
    """
    found: dict[str, str] = {}
    for line in page.splitlines():
        for anchor in ANCHOR.findall(line):
            if anchor in found:
                yield f"has the anchor {anchor} twice"
            found[anchor] = line
    yield from (f"has no anchor {it}, for {name}" for it, name in expected.items()
                if it not in found)
    yield from (f"has the anchor {it}, which no error of the source has" for it in found
                if it not in expected)
    for it, name in expected.items():
        there = ANCHOR.sub("", found.get(it, name))
        if not re.search(rf"\b{re.escape(name)}\b", there):
            yield f"has the anchor {it} where {name} is not"
