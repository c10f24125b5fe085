"""The rules that the source states: limits, criteria, fields, refusals and errors, as one document.

They are read from the definitions of crates/*/specs. A definition that is read must have the form
that this file expects of it. If it has another one, there is no document, and the error names the
definition: then this file is brought up to date, and nothing is guessed.
"""
import datetime
import json
import re
from collections.abc import Iterator, Mapping
from typing import Any

# A number of a definition by the name of the limit that it is. Each form is a whole definition
# without its signature; `…` is any text.
LIMITS = (
    ("adm_types/Fields.has_plain_digits", "is_from <plain.least> <plain.most> (length text) …"),
    (
        "adm_wire/Kinds.a_number",
        "option_and_then (λ n. if nat_lt n (2 ^ <number.bits>) then Some n else None)"
        " (option_and_then as_u64 (as_number d))",
    ),
    (
        "adm_types/Fields.plain_of",
        "if has_plain_digits text && nat_lt (digits_value 10 text) (2 ^ <number.bits>) then …",
    ),
    ("adm_types/Numbers.is_child_number", "is_from <child.least> <child.most> n"),
    ("adm_types/Code.is_code", "is_from <code.least> <code.most> (length text) && …"),
    ("adm_types/Flags.flag_of", "if nat_le n <flag.most> then Some n else None"),
    ("adm_types/Seasons.IsDay", "(<day.least> ≤ day) × (day ≤ <day.most>)"),
    (
        "adm_types/Limits.is_name",
        "is_from <name.least> <name.most> (length text) && not (list_any is_control (chars text))",
    ),
    (
        "adm_types/Limits.is_on_map",
        "nat_le p.east <east.most> && nat_le p.north <north.most>",
    ),
    ("adm_types/Limits.is_pan", "is_from <pan.least> <pan.most>"),
    (
        "adm_types/Limits.is_school_in_range",
        "is_pan s.pan && is_on_map s.at && nat_le (length s.criteria) <criteria.most>"
        " && list_all is_criterion s.criteria",
    ),
    (
        "adm_types/Limits.is_child_in_range",
        "is_on_map c.home && nat_le (length c.siblings) <siblings.most>"
        " && is_without_repeat c.siblings && is_code_or_none c.present"
        " && nat_le (length c.catchments) (most_catchments Large)"
        " && is_without_repeat c.catchments",
    ),
    (
        "adm_types/Limits.is_child_of_size",
        "is_child_in_range c && nat_le (length c.catchments) (<catchments.most> size)",
    ),
    (
        "adm_commands/Apply.further_tests",
        "… (is_from <preferences.least> <preferences.most> (length application.list)"
        " && is_without_repeat application.list, BadPreferences) …",
    ),
    (
        "adm_commands/AddSchool.tests",
        "… (nat_lt (len old.schools) (<schools.most> old.season.size), RegisterFull) …",
    ),
    ("adm_commands/AddChild.tests", "tests_with_room (<children.most> old.season.size) old child"),
    *(
        (
            f"adm_commands/{command}.tests",
            "… (nat_lt (draws_so_far old).draws <draws.most>"
            " && nat_le ((draws_so_far old).lots + length numbers) (<lots.most> old.season.size),"
            " RegisterFull) …",
        )
        for command in ("Round", "Fill")
    ),
    ("adm_csv/Rows.import_row_at", "if nat_lt <rows.most> k then Err TooManyRows else …"),
    (
        "adm_http/Heads.by_length",
        "… by_length purpose (Some n) = if nat_lt <body.most> n then Reject 413 else Run purpose n",
    ),
    (
        "adm_types/Seasons.IsSeason",
        "… (<year.least> ≤ season.year) × (season.year ≤ <year.most>) …"
        " length season.holidays ≤ <holidays.most> …",
    ),
    ("adm_commands/Offered.is_after_offer", "… nat_le (offered + <notice.least>) day"),
    ("adm_commands/Offered.is_after_reminder", "… nat_le (reminded + <notice.least>) day"),
)
# where the constants are that these definitions name
CONSTANTS = ("adm_types/Numbers", "adm_types/Limits", "adm_csv/Rows", "adm_http/Heads")
# where the lists of fields are
FIELDS = ("adm_wire/Commands", "adm_wire/Forms", "adm_fields/Lists")
# what a field is where it is omitted, as a command has it: by its kind, and by its definition
OMITTED: dict[tuple[str, str], Any] = {
    ("code_or_none", "None"): "",
    ("list of code", "[]"): [],
    ("list of flag", "0"): [],
    ("text", "[]"): "",
    ("truth", "false"): False,
    ("truth", "true"): True,
}
EPOCH = datetime.date(1970, 1, 1)
TOKEN = re.compile(r'"(?:[^"\\]|\\.)*"|[()]|[^\s()"]+')

Term = str | list["Term"]


class FormError(Exception):
    """A definition has another form than this file expects."""


class Rules:
    """The document, read from the texts of definitions, each by (crate, file, name)."""

    def __init__(self, texts: Mapping[tuple[str, str, str], str]) -> None:
        self.texts = {f"{crate}/{file}.{name}": text for (crate, file, name), text in texts.items()}

    def body(self, place: str) -> str:
        """The text of a definition without its comments, its signature and the repeated name."""
        name = place.split(".")[-1]
        if place not in self.texts:
            raise FormError(f"{place}: there is no such definition")
        text = " ".join(re.sub(r"(?m)(?:^|\s)--.*", "", self.texts[place]).split())
        head = rf"(?:(?:abbrev|unfoldable) )?(?:pub )?{name} : "
        signature = re.match(rf"{head}.*?(?= {name}\b)", text)
        return text[signature.end():].strip() if signature else text

    def parts(self, place: str) -> tuple[list[str], str]:
        """The names that a definition with one equation binds, and what it is."""
        name = place.split(".")[-1]
        found = re.fullmatch(rf"{name}((?: \w+)*) = (.*)", self.body(place))
        if not found or re.search(rf" {name}(?: \w+)* = ", found[2]):
            raise FormError(f"{place} has not one equation: {self.body(place)}")
        return found[1].split(), found[2]

    def found_in(self, place: str, form: str) -> dict[str, str]:
        """What a definition has in the places of a form."""
        holes, pattern = [], ""
        for part in re.split(r"(<[\w.]+>|… | …)", form):
            if re.fullmatch("<.*>", part):
                holes.append(part[1:-1])
                pattern += r"(\w+)"
            else:
                pattern += ".*" if "…" in part else re.escape(part)
        text = self.meaning(place)
        found = re.fullmatch(pattern, text)
        if not found:
            raise FormError(f"{place} has another form than {form!r}: {text}")
        return dict(zip(holes, found.groups()))

    def meaning(self, place: str) -> str:
        """The right side of a definition, or its whole text where it has several equations."""
        try:
            return self.parts(place)[1]
        except FormError:
            return self.body(place)

    def number(self, text: str) -> int:
        """A number, or the constant of this name."""
        if text.isdigit():
            return int(text)
        for file in CONSTANTS:
            if f"{file}.{text}" in self.texts:
                _, value = self.parts(f"{file}.{text}")
                if value.isdigit():
                    return int(value)
        raise FormError(f"{text} is no number, and no constant of {', '.join(CONSTANTS)}")

    def sides(self, side: str, text: str) -> dict[str, int]:
        """A side of a limit; with `large` beside it if a large register has another number."""
        for file in CONSTANTS:
            if f"{file}.{text}" in self.texts:
                form = rf"{text} Standard = (\d+) {text} Large = (\d+)"
                if found := re.fullmatch(form, self.body(f"{file}.{text}")):
                    return {side: int(found[1]), "large": int(found[2])}
        return {side: self.number(text)}

    def equations(self, place: str, form: str) -> Iterator[re.Match[str]]:
        """The equations of a definition, each of which must have a form, a regular expression."""
        name = place.split(".")[-1]
        for text in re.split(rf" (?={name} )", self.body(place)):
            found = re.fullmatch(rf"{name} {form}", text)
            if not found:
                raise FormError(f"{place} has another form than {form!r}: {text}")
            yield found

    # ---- limits

    def limits(self) -> dict[str, dict[str, int | str]]:
        """The limits by their names, with `least` and `most`, and `large`, the most of a large
        register, if that is more; days as YYYY-MM-DD.
        """
        found: dict[str, dict[str, int]] = {}
        for place, form in LIMITS:
            for key, text in self.found_in(place, form).items():
                name, _, part = key.partition(".")
                for side, value in self.sides(part, text).items():
                    known = found.setdefault(name, {}).setdefault(side, value)
                    if known != value:
                        raise FormError(f"{place}: {name}.{side} is {value}, and elsewhere {known}")
        found["number"] = {"most": 2 ** found["number"]["bits"] - 1}
        if found.pop("plain")["most"] != len(str(found["number"]["most"])):
            raise FormError("a plain number has not as many digits as the greatest number")
        for criterion in self.criteria():
            if "most" in criterion:
                name = criterion["text"].rstrip(":")
                least, most = criterion["least"], criterion["most"]
                sides = found.setdefault(name, {"least": least, "most": most})
                if (sides.get("least", 0), sides["most"]) != (least, most):
                    raise FormError(f"a criterion {name}: has other limits than a {name}")
        made: dict[str, dict[str, int | str]] = {
            name: {"least": 0, **sides} for name, sides in sorted(found.items())
        }
        made["code"]["characters"] = self.characters()
        for side in ("least", "most"):
            made["day"][side] = (EPOCH + datetime.timedelta(found["day"][side])).isoformat()
        return made

    def characters(self) -> str:
        """The characters of a school's code, as a class of a regular expression has them."""
        form = "is_ascii_uppercase b || is_ascii_digit b"
        self.found_in("adm_types/Code.is_code_byte", form)
        return "A-Z0-9"

    def criteria(self) -> list[dict[str, Any]]:
        """The forms of criteria: their texts, and the value that follows, with its limits; `large`
        if a large register alone may have it.
        """
        limits: dict[str, dict[str, int]] = {}
        form = r"\(?(\w+)(?: (\w+)\))? = (?:true|is_from (\d+) (\d+) \2|nat_le \2 (\d+)|is_code \2)"
        for found in self.equations("adm_types/Criteria.is_criterion", form):
            most = found[4] or found[5]
            limits[found[1]] = (
                {"least": int(found[3] or 0), "most": int(most)} if most else {}
            )
        form = r"(\w+) \(?(\w+)(?: \w+\))? = (true|false)"
        sized = self.equations("adm_types/Limits.is_allowed", form)
        large = {it[2] for it in sized if it[3] == "false"}
        _, text = self.parts("adm_types/Criteria.criterion_of")
        made: list[dict[str, Any]] = []
        while first := re.fullmatch(
            r'if pointwise nat_eq text \(codes "(\w+)"\) then Some (\w+) else (.*)', text
        ):
            if limits.pop(first[2], None) != {}:
                raise FormError(f"adm_types/Criteria.criterion_of has another form: {text}")
            made.append({"text": first[1], **({"large": True} if first[2] in large else {})})
            text = first[3]
        for variant, kind, prefix in self.read_after(parsed(text)):
            of_large = {"large": True} if variant in large else {}
            made.append({"text": prefix, "value": kind, **limits.pop(variant), **of_large})
        if limits:
            raise FormError(f"adm_types/Criteria.criterion_of does not read {', '.join(limits)}")
        return made

    def read_after(self, term: Term) -> Iterator[tuple[str, str, str]]:
        """The variants that a term reads after a prefix: the variant, its kind, the prefix."""
        match term:
            case ["first_criterion", one, other]:
                yield from self.read_after(one)
                yield from self.read_after(other)
            case ["option_map", str(variant), [str(reader), ["codes", str(prefix)], "text"]] if (
                reader in ("number_after", "code_after")
            ):
                yield variant, reader.removesuffix("_after"), json.loads(prefix)
            case _:
                raise FormError(f"adm_types/Criteria.criterion_of has another form: {term}")

    # ---- fields

    def kind(self, term: Term) -> str:
        """The name of a kind of value, as `code` or `list of code`."""
        match term:
            case ["a_list", str(item)] if item.startswith("a_"):
                return f"list of {item.removeprefix('a_')}"
            case str(name) if name.startswith("format."):
                record = self.body("adm_wire/Forms.json")
                found = re.search(rf"[{{;] {name.removeprefix('format.')} = ([^;]*);", record)
                if not found:
                    raise FormError(f"adm_wire/Forms.json has no {name}: {record}")
                return self.kind(simple(parsed(found[1])))
            case "some_flags":
                names, text = self.parts("adm_wire/Kinds.some_flags")
                found = re.fullmatch(r"option_map bits_of \((a_list \w+) d\)", text)
                if not found or names != ["d"]:
                    raise FormError(f"adm_wire/Kinds.some_flags has another form: {text}")
                return self.kind(parsed(found[1]))
            case str(name) if name.startswith("a_"):
                return name.removeprefix("a_")
        raise FormError(f"a field has an unknown kind: {term}")

    def fields(self, term: Term, file: str) -> list[dict[str, Any]]:
        """The fields that a term of a file lists, in their order."""
        call: list[Term] = [term] if isinstance(term, str) else term
        head, arguments = call[0], call[1:]
        match call:
            case ["no_fields" | "format.no_more"]:
                return []
            case ["format.field", ["codes", str(name)], otherwise, kind, others]:
                own = {"field": json.loads(name), "kind": self.kind(kind), "optional": False}
                if otherwise != "None":
                    omitted = self.omitted(f"{file}: the field {name}", own["kind"], otherwise)
                    own |= {"optional": True, "omitted": omitted}
                return [own, *self.fields(others, file)]
        place = next((f"{it}.{head}" for it in FIELDS if f"{it}.{head}" in self.texts), None)
        if not place:
            raise FormError(f"{file}: {head} is no list of fields that is known: {term}")
        names, text = self.parts(place)
        home = place.rpartition(".")[0]
        # (the lists of adm_fields are of any format, which others name first)
        if home == "adm_fields/Lists" and arguments[:1] == ["json"]:
            del arguments[0]
        if len(names) != len(arguments):
            raise FormError(f"{file}: {head} takes {len(names)} terms, and not {len(arguments)}")
        return self.fields(replaced(parsed(text), dict(zip(names, arguments))), home)

    def omitted(self, what: str, kind: str, otherwise: Term) -> Any:
        """What a field of this kind is where it is omitted."""
        match otherwise:
            case ["Some", str(text)] if kind == "number" and text.isdigit():
                return int(text)
            case ["Some", str(text)] if (kind, text) in OMITTED:
                return OMITTED[kind, text]
        raise FormError(f"{what}, a {kind}, is {otherwise} where it is omitted")

    def commands(self) -> dict[str, list[dict[str, Any]]]:
        """The fields of each command, in the order in which they are tested."""
        place, made = "adm_wire/Commands.form_of", {}
        names, text = self.parts(place)
        form = re.compile(
            r'if bytes_eq name \(codes "(\w+)"\)'
            r" then with_fields (\w+|\(\w+ json\)) \(λ v\. .*?\) else \( ?"
        )
        while found := form.match(text):
            made[found[1]] = self.fields(simple(parsed(found[2])), "adm_wire/Commands")
            text = text[found.end():]
        if not made or not re.fullmatch(r"λ d\. Err UnknownCommand\)+", text):
            raise FormError(f"{place} has another form: {text}")
        return made

    def question(self) -> list[dict[str, Any]]:
        """The fields of a question."""
        _, text = self.parts("adm_wire/WhatIfs.what_if_form")
        found = re.fullmatch(r"alone (\(.*\)) d >>= λ v\. Ok \(record .*\)", text)
        if not found:
            raise FormError(f"adm_wire/WhatIfs.what_if_form has another form: {text}")
        return self.fields(simple(parsed(found[1])), "adm_wire/WhatIfs")

    def columns(self) -> list[dict[str, Any]]:
        """The columns of the rows of an import."""
        self.found_in("adm_csv/Rows.row_in", "row_of (import_fields csv) width fields …")
        return self.fields("import_fields", "adm_fields/Lists")

    # ---- refusals and errors

    def refusals(self) -> dict[str, int]:
        """The numbers of the refusals of commands and questions, by their names."""
        numbers = {
            it[1]: int(it[2])
            for it in self.equations("adm_types/Refusals.refusal_number", r"r\.(\w+) = (\d+)")
        }
        form = r'r\.(\w+) = codes "(\w+)"'
        names = {it[1]: it[2] for it in self.equations("adm_wire/Texts.name_of_refusal", form)}
        if names.keys() != numbers.keys():
            raise FormError("adm_wire/Texts.name_of_refusal has other refusals than refusal_number")
        made = {names[it]: number for it, number in numbers.items()}
        form = r"unanswered\.(\w+) = (?:refusal_text refusal\.\1 0|memory_text|codes (.*))"
        for it in self.equations("adm_desk/Lines.question_fault_text", form):
            if it[2]:
                answer = json.loads(json.loads(it[2]))
                made[answer["name"]] = answer["refused"]
        return by_number(made)

    def faults(self) -> dict[str, int]:
        """The numbers of the errors of a line that is no command, by their names."""
        form = r"f\.(\w+) = (?:memory_text|codes (.*))"
        answers = [
            json.loads(json.loads(it[2]))
            for it in self.equations("adm_wire/Texts.fault_text", form)
            if it[2]
        ]
        return by_number({it["name"]: it["fault"] for it in answers})

    def row_faults(self) -> dict[str, int]:
        """The numbers of the errors of a row of an import, by their names."""
        form = r'row_fault\.(\w+) row = (?:memory_text|named_row_text (\d+) \(codes "(\w+)"\) row)'
        found = self.equations("adm_http/Replies.row_fault_text", form)
        return by_number({it[3]: int(it[2]) for it in found if it[3]})

    def phases(self) -> list[str]:
        """The phases of education."""
        found = self.equations("adm_view/Season.phase_name", r'(\w+) = codes "(\w+)"')
        return [it[2] for it in found]

    def document(self) -> dict[str, Any]:
        """All of them."""
        return {
            "columns": self.columns(),
            "commands": self.commands(),
            "criteria": self.criteria(),
            "faults": self.faults(),
            "limits": self.limits(),
            "phases": self.phases(),
            "question": self.question(),
            "refusals": self.refusals(),
            "row_faults": self.row_faults(),
        }


def by_number(numbers: dict[str, int]) -> dict[str, int]:
    return dict(sorted(numbers.items(), key=lambda it: it[1]))


def parsed(text: str) -> Term:
    """A term: a name, a text in quotes, or a call as the list of what it has."""
    stack: list[list[Term]] = [[]]
    for token in TOKEN.findall(text):
        if token == "(":
            stack.append([])
        elif token == ")":
            if len(stack) < 2:
                raise FormError(f"a term has a bracket too many: {text}")
            made = stack.pop()
            stack[-1].append(simple(made))
        else:
            stack[-1].append(token)
    if len(stack) > 1:
        raise FormError(f"a term has a bracket that is not closed: {text}")
    return simple(stack[0])


def simple(term: Term) -> Term:
    """A term without brackets around it."""
    while isinstance(term, list) and len(term) == 1:
        term = term[0]
    return term


def replaced(term: Term, values: dict[str, Term]) -> Term:
    """A term with these values in place of names."""
    if isinstance(term, str):
        return values.get(term, term)
    return [replaced(it, values) for it in term]


def text_of(document: Any) -> str:
    """The document as its file has it, with a short object on one line."""

    def joined(found: re.Match[str]) -> str:
        line = re.sub(r"\n\s*", " ", found[1]).strip()
        return f"{{{line}}}" if len(line) < 80 else found[0]

    return re.sub(r"\{(\n[^{}[\]]*)\}", joined, json.dumps(document, indent=1)) + "\n"
