"""Command lines: which field of a line is wrong, and what the answers mean in words."""
import collections
import json
import math
import re
from collections.abc import Callable, Iterator, Mapping
from typing import Any

from . import days, rules, texts

# what may follow the prefix of a criterion
VALUES = {
    "number": f"(?:0|[1-9][0-9]{{0,{len(str(rules.LIMITS['number'].most)) - 1}}})",
    "code": rules.CODE.pattern,
}
CRITERION = re.compile(
    "|".join(re.escape(it.text) + (VALUES[it.value] if it.value else "") for it in rules.CRITERIA)
)
# so much that is out of range is named of one command
MOST_NAMED = 10


def is_number(value: object) -> bool:
    """Whether a value is a number of a command."""
    return type(value) is int and rules.LIMITS["number"].has(value)


def is_criterion(value: object) -> bool:
    """Whether a value is one of the forms of criteria."""
    if not isinstance(value, str) or not CRITERION.fullmatch(value):
        return False
    prefixes = [it.text for it in rules.CRITERIA if it.value == "number"]
    return all(is_number(int(value.removeprefix(it))) for it in prefixes if value.startswith(it))


# each kind of field that is no list
KINDS: dict[str, Callable[[Any], bool]] = {
    "child": lambda it: is_number(it) and rules.LIMITS["child"].has(it),
    "code": rules.is_code,
    "code_or_none": lambda it: it == "" or rules.is_code(it),
    "criterion": is_criterion,
    "day": lambda it: isinstance(it, str) and days.read(it) is not None,
    "flag": lambda it: is_number(it) and rules.LIMITS["flag"].has(it),
    "number": is_number,
    "text": lambda it: isinstance(it, str),
    "truth": lambda it: isinstance(it, bool),
}


def is_kind(kind: str, value: object) -> bool:
    """Whether a value is of a kind of field."""
    if kind.startswith(rules.LIST):
        item = KINDS[kind.removeprefix(rules.LIST)]
        return isinstance(value, list) and all(map(item, value))
    return KINDS[kind](value)


def read(line: bytes) -> Any:
    """The value of a line of JSON, or None."""
    try:
        value = json.loads(
            line.decode("utf-8"), parse_int=whole, parse_float=fraction, parse_constant=fraction
        )
        # (half of a pair of surrogates is no text)
        json.dumps(value, ensure_ascii=False).encode("utf-8")
        return value
    except (ValueError, RecursionError):
        return None


def fraction(text: str) -> float:
    """The value of a number with a point or an exponent. One that is none, or beyond a float of
    64 bits, is no JSON for the program."""
    value = float(text)
    if not math.isfinite(value):
        raise ValueError(text)
    return value


def whole(text: str) -> float:
    """The value of a number of digits. -0 is no number of a command, and one beyond a float no
    JSON."""
    value = fraction(text)
    return value if text == "-0" else int(text)


def wrong_field(command: Any) -> str:
    """What is wrong with the form of a command, in the order of the program's tests, or "" """
    if not isinstance(command, dict):
        return "the line is no command in braces"
    name = command.get("cmd")
    if not isinstance(name, str):
        return '"cmd" must be the name of a command, in quotes'
    if name not in rules.COMMANDS:
        known = texts.listed(sorted(rules.COMMANDS))
        return f'"cmd" is {texts.shown(name)}, which is no command; there are {known}'
    fields = rules.COMMANDS[name]
    for field in fields.values():
        expected = rules.kind_in_words(field.kind)
        if field.name not in command and not field.is_optional:
            return f'the field "{field.name}" is missing: {expected}'
        if field.name in command and not is_kind(field.kind, command[field.name]):
            given = texts.cut(json.dumps(command[field.name], ensure_ascii=False))
            return f'the field "{field.name}" is {given}, and must be {expected}'
    extra = [it for it in command if it not in fields and it != "cmd"]
    return f'the field "{extra[0]}" is none of {name}' if extra else ""


def numbers_of(command: Mapping[str, Any]) -> Iterator[tuple[str, int, rules.Limit]]:
    """The numbers of a command that have a limit beside their kind: what each is, and the limit."""
    for field in rules.COMMANDS[command["cmd"]].values():
        if field.kind == "number" and field.name in rules.LIMITS and field.name in command:
            yield f'"{field.name}"', command[field.name], rules.LIMITS[field.name]
    for text in command.get("criteria", []):
        for form in rules.CRITERIA:
            if form.limit and text.startswith(form.text):
                number = int(text.removeprefix(form.text))
                yield f'the number of "{form.text}"', number, form.limit


def outside(command: Mapping[str, Any]) -> list[str]:
    """What is out of range in a command whose fields are of the right kind, each as a sentence."""
    found = [
        f"{name} is {value}, and must be from {limit.least:,} to {limit.most:,}"
        for name, value, limit in numbers_of(command)
        if not limit.has(value)
    ]
    for name in ("criteria", "siblings", "catchments"):
        most = rules.LARGE.get(name, rules.LIMITS[name]).most
        if len(command.get(name, [])) > most:
            found.append(f'"{name}" has {len(command[name])} items, and may have {most}')
    for name in ("siblings", "catchments"):
        given = collections.Counter(command.get(name, []))
        found += [f'"{name}" has {it} twice' for it, many in given.items() if many > 1]
    if command["cmd"] == "raise_pan" and not found:
        found.append(
            f'"pan" is {command["pan"]}, and must not be less than the present admission number of'
            f' {command["school"]}, which can only rise'
        )
    return found[:MOST_NAMED]


def values_of(command: Any) -> dict[str, str]:
    """The words for the values of a command that the text of a refusal names."""
    if not isinstance(command, dict):
        return {}
    kinds = {"child": "child", "day": "day", "draw": "number", "school": "code"}
    found = {
        name: rules.value_in_words(name, command[name])
        for name, kind in kinds.items()
        if name in command and is_kind(kind, command[name])
    }
    codes = [command.get("school")]
    for name in ("siblings", "catchments", "preferences"):
        if is_kind("list of code", command.get(name)):
            codes += command[name]
    if schools := list(dict.fromkeys(filter(rules.is_code, codes))):
        found["schools"] = rules.value_in_words("schools", *schools)
    return found


def is_done(answer: Any) -> bool:
    """Whether an answer says that the command is stored."""
    return isinstance(answer, dict) and answer.get("done") is True


def result(answer: Any) -> str:
    """What a round or a fill did, or "" where a line did nothing else than what it says."""
    if not is_done(answer):
        return ""
    if "round" in answer:
        offers, unplaced = answer["offers"], answer["unplaced"]
        were = "1 child was" if offers == 1 else f"{offers:,} children were"
        have = "1 has none" if unplaced == 1 else f"{unplaced:,} have none"
        kept = f"{answer['kept']:,} kept theirs"
        return f"round {answer['round']}: {were} offered a place, {kept}, {have}"
    return f"child {answer['child']} was offered the place" if "child" in answer else ""


def refusal(name: str, command: Any, plans: Mapping[int, str]) -> str:
    """What a refusal means, and what to do."""
    if not wrong_field(command):
        if name == "OutOfRange" and (named := outside(command)):
            return "; ".join(named)
        if name == "NotOffered" and (school := plans.get(command["child"])):
            child = values_of(command)["child"]
            return f"{child} has its place at {school} by a plan, which no command ends"
    if name not in rules.RULES["refusals"]:
        return "refused"
    return "; ".join(rules.in_words("refusals", name, values_of(command)))


def in_words(answer: Any, command: Any, plans: Mapping[int, str] | None = None) -> str:
    """What an answer that is not `done` means, with the field where a line could not be read.
    `plans` are the schools that children have by a plan."""
    if not isinstance(answer, dict):
        return "the answer cannot be read"
    name = str(answer.get("name", ""))
    if "refused" in answer:
        return f"{refusal(name, command, plans or {})} ({name})"
    if "fault" in answer:
        if name not in rules.RULES["faults"]:
            return f"a field is of another kind ({name})"
        said = wrong_field(command) if name != "NotJson" else ""
        return f"{said or '; '.join(rules.in_words('faults', name))} ({name})"
    if answer.get("memory"):
        return "memory ran out for this line, which changed nothing: free memory and send it again"
    if answer.get("failed"):
        return (
            "the write failed, often on a full disk: this command is stored wholly or not at all;"
            " ERRORS has what to do"
        )
    return "the answer cannot be read"
