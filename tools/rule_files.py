"""The files that follow from the rules of the source, and from the words for them.

They are office/rules.json, and tables of docs/reference/ERRORS.md and FORMATS.md.
office/words.json, which is written by hand, has words for each refusal, error and kind of field,
and for no other. The names in docs/reference/ERRORS.md have anchors (error_names.py).
"""
import importlib
import json
import re
import sys
from collections.abc import Iterator
from pathlib import Path
from typing import Any

import error_names
import source_rules

RULES, WORDS = Path("office/rules.json"), Path("office/words.json")
PAGE, FORMATS = Path("docs/reference/ERRORS.md"), Path("docs/reference/FORMATS.md")
# groups of words, and how the table of each begins
TITLES = {
    "refusals": "| Refusal | Meaning | What to do |",
    "faults": "| Error of a line | Meaning | What to do |",
    "row_faults": "| Error of a row | Meaning | What to do |",
}
COMMANDS = "| `cmd` | Fields, in the order in which they are checked |"
LIMITS = "| Limit | Least | Most |"
# how FORMATS calls the kinds of fields
KINDS = {
    "child": "child number", "code_or_none": "present school", "truth": "truth value",
    "list of flag": "flags", "list of code": "codes", "list of criterion": "array of criteria",
    "list of number": "array of numbers",
}


def kinds_of(document: dict[str, Any]) -> list[str]:
    """The kinds of the fields of commands, in their order."""
    return list(dict.fromkeys(
        field["kind"] for listed in document["commands"].values() for field in listed))


def wrong_words(document: dict[str, Any], words: dict[str, Any]) -> Iterator[str]:
    """What is wrong with the words: those that are missing or too many, and places of no value."""
    wanted = {group: document[group] for group in ("refusals", "faults", "row_faults")}
    for group, names in {**wanted, "kinds": kinds_of(document)}.items():
        has = words.get(group, {})
        yield from (f"{WORDS} has no words for {it} of {group}" for it in names if it not in has)
        yield from (f"{WORDS}: {group} has {it}, which the source has not" for it in has
                    if it not in names)
    for group, name, text in texts_of(words):
        if not re.fullmatch(r"(?!.*[|\n]).*[^\s.]", text):
            yield f"{WORDS}: {name} of {group} is empty, ends with a full stop or has a | or a line"
        for hole in re.findall(r"\{[^}]*\}?", text):
            found = re.fullmatch(r"\{(\w+)(?:\.(\w+))?\}", hole)
            there = document["limits"].get(found[1], {}) if found and found[2] else words["values"]
            if not found or (found[2] or found[1]) not in there:
                yield f"{WORDS}: {name} of {group} has {hole}, which is no limit and no value"


def texts_of(words: dict[str, Any]) -> Iterator[tuple[str, str, str]]:
    """The texts, each with its group and name."""
    yield from (("kinds", name, text) for name, text in words.get("kinds", {}).items())
    for group in ("refusals", "faults", "row_faults"):
        for name, it in words.get(group, {}).items():
            yield from ((group, name, it.get(key, "")) for key in ("means", "do"))


def anchor(group: str, name: str) -> str:
    """The anchor of a refusal or an error."""
    return f'<a id="{error_names.of_group(group, name)}"></a>'


def tables(document: dict[str, Any]) -> dict[str, list[str]]:
    """The rows of each table of the page, by how it begins. office/rules.json must be as it is."""
    sys.path[:0] = [str(Path.cwd())]
    rules = importlib.import_module("office.core.rules")
    del sys.path[0]
    made = {
        TITLES[group]: [
            f"| {anchor(group, name)}{name} ({number}) |"
            f" {' | '.join(rules.in_words(group, name))} |"
            for name, number in document[group].items()]
        for group in ("refusals", "faults")
    }
    made[TITLES["row_faults"]] = [
        f"| {anchor('row_faults', name)}`fault: row N: {name}` ({number}) |"
        f" {' | '.join(rules.in_words('row_faults', name))} |"
        for name, number in document["row_faults"].items()
    ]
    return made


def field_in_words(field: dict[str, Any]) -> str:
    """A field of a command with its kind, and its value where it is missing."""
    kind = KINDS.get(field["kind"], field["kind"])
    omitted = str(field.get("omitted") or "none").lower()
    missing = f" (may be missing: {omitted})" if field["optional"] else ""
    return f"`{field['field']}` {kind}{missing}"


def format_tables(document: dict[str, Any]) -> dict[str, list[str]]:
    """The rows of each table of FORMATS, by how it begins."""
    commands: dict[str, list[str]] = {}
    for name, fields in document["commands"].items():
        commands.setdefault(", ".join(map(field_in_words, fields)), []).append(f"`{name}`")
    limits = []
    for name, it in document["limits"].items():
        least, most = (f"{one:,}" if isinstance(one, int) and name != "year" else one or ""
                       for one in (it.get("least"), it.get("most")))
        of = f" of {it['characters']}" if "characters" in it else ""
        large = f" (`large`: {it['large']:,})" if "large" in it else ""
        limits.append(f"| `{name}` | {least} | {most}{of}{large} |")
    return {COMMANDS: [f"| {', '.join(names)} | {said} |" for said, names in commands.items()],
            LIMITS: limits}


def with_tables(page: Path, made: dict[str, list[str]]) -> str:
    """The text of a page with these tables in place of its own."""
    text = text_in(page)
    for title, rows in made.items():
        dashes = re.sub("[^|]+", "---", title)
        new = "\n".join([title, dashes, *rows]) + "\n"
        text, count = re.subn(
            rf"^{re.escape(title)}\n(?:\|.*\n)*", lambda _: new, text, flags=re.MULTILINE)
        if count != 1:
            raise source_rules.FormError(f"{page} has {count} tables that begin with {title}")
    return text


def text_in(path: Path) -> str:
    """What a file has, or nothing where it is not there."""
    return path.read_text(encoding="utf-8") if path.exists() else ""


def failures(texts: dict[tuple[str, str, str], str]) -> Iterator[str]:
    """What is wrong with the files; and an empty text for each of them that is as it must be."""
    advice = "tools/reference --update writes it anew"
    try:
        document = source_rules.Rules(texts).document()
        is_same = text_in(RULES) == source_rules.text_of(document)
        yield "" if is_same else f"{RULES} is not what tools/reference --rules prints: {advice}"
        words = text_in(WORDS)
        wrong = list(wrong_words(document, json.loads(words)))
        yield from wrong or [""]
        if is_same and not wrong:
            text, formats = text_in(PAGE), text_in(FORMATS)
            has_tables = with_tables(PAGE, tables(document)) == text
            yield "" if has_tables else f"{PAGE} has other tables than these words: {advice}"
            has_tables = with_tables(FORMATS, format_tables(document)) == formats
            yield "" if has_tables else f"{FORMATS} has other tables than the rules: {advice}"
            names = error_names.names(source_rules.Rules(texts), document)
            yield from [f"{PAGE} {it}" for it in error_names.wrong(text, names)] or [""]
    except (source_rules.FormError, ValueError) as error:
        yield str(error)


def update(texts: dict[tuple[str, str, str], str]) -> None:
    """Writes the files anew."""
    document, words = source_rules.Rules(texts).document(), text_in(WORDS)
    RULES.write_text(source_rules.text_of(document), encoding="utf-8")
    if wrong := list(wrong_words(document, json.loads(words))):
        raise source_rules.FormError("\n".join(wrong))
    PAGE.write_text(with_tables(PAGE, tables(document)), encoding="utf-8")
    FORMATS.write_text(with_tables(FORMATS, format_tables(document)), encoding="utf-8")
