"""The definitions of out/reference/program.txt, in the order in which a reader needs them: each
after the first clause or definition that names it. What is printed of one is its sentence and its
text, without the types of its parameters and results; of those in IN_WORDS the sentence alone."""
import re
import textwrap
from collections.abc import Callable, Iterable, Iterator
from typing import Any

WIDTH = 160
# from as many definitions on that one leads to, an empty line is above it
LEADS = 12
# whose sentence is enough for a promise: texts, numbers and conversions; how streams, lines and
# connections are gone through; and facts that are no longer than their sentence
IN_WORDS = frozenset("""
    around files texts file_of held_by_named shown RowFiles Ports LineStep errors_of ended ended_of
    row_fault_end row_fault_text disk_text not_read_text fault_line of_create of_open of_error
    of_run exit_of exit_of_result exit_of_arguments error_of with_close IsDisk IsOpenFault
    IsCauseIn has_many_holidays ExitsBy IsUntouched AreUntouched AreAsFound ActsOrFails LogsBy
    PrintsConnections IsConnectionLine connection_fault_line outcome_line accept_lines
    PrintsExactly TakesNext IsIdle IsOpen serving_text text_or line_of register_line draw_line
    IsCut ReportsText ReportsOutcome ReportsArguments Puts PrintsAs FileGives HoldsSeason InFlight
    is_read_fault is_write_fault is_connection_fault of_answer of_shown Takes Ends Exchanges
    HasBody IsSettled MayStop MustStop IsNotFarPast WritesFront RunsBody AnswersAsLine HasRows
    AnswersImport AnswersQuestionLine AnswersWhatIf AnswersLines IsBeginning onto_first lines_of
    lines_ended answer_text school_text question_fault_text what_if_answer_text line_text
    answers_text is_done is_failed is_refused with_command handled AnswersFor AreAnswered recorded
    with_answered commands_of is_whole IsUndisturbed SentFirst AreExchanged IsMerged
    command_response IsCommandFor SendsCommand IsWrittenBy HasNoCommand HasStatus200
    BeginsStatus200 LacksStatus200 HasEffect HasLastEffect acknowledged_in unanswered_in
    AreRecorded
""".split())


def wrapped(text: str, indent: int) -> list[str]:
    """The lines of a text, of which those after the first are indented."""
    return textwrap.wrap(text, WIDTH, subsequent_indent=" " * indent, break_long_words=False,
                         break_on_hyphens=False)


def packed(parts: list[str], start: str, indent: int) -> list[str]:
    """The parts, one after another, as many on a line as it has room for."""
    lines = [start]
    for part in parts:
        is_first = not lines[-1].strip()
        if not is_first and len(lines[-1]) + 1 + len(part) > WIDTH:
            lines.append(" " * indent)
            is_first = True
        lines[-1] += part if is_first else f" {part}"
    return [it for line in lines for it in (wrapped(line, indent + 4) if line.strip() else [])]


def record(lines: list[str]) -> list[str]:
    """A record: its parameters without their types, and its fields."""
    fields: list[str] = []
    head, at = lines[0], 1
    while not head.rstrip().endswith(" where"):
        head, at = f"{head} {lines[at].strip()}", at + 1
    for line in lines[at:]:
        if re.match(r"  pub \w+ : ", line):
            fields.append(line.strip().removeprefix("pub "))
        else:
            fields[-1] += f" {line.strip()}"
    named = re.sub(r"\{[^}]*\} ?", "", head.removeprefix("pub "))
    start = f"{without_types(re.sub(r' : Type [0-9]+ where$', '', named))} where"
    parts = [f"{it};" for it in fields[:-1]] + fields[-1:]
    one = packed(parts, start, 4)
    return one if len(one) == 1 else [start, *packed(parts, " " * 4, 4)]


def without_types(head: str) -> str:
    """The parameters `(a b : T)` of a head as `a b`; a type may have brackets."""
    out, depth, is_type = "", 0, False
    for sign in head:
        depth += (sign == "(") - (sign == ")")
        is_type = is_type and depth > 0 or depth == 1 and sign == ":"
        out += "" if is_type or depth + (sign == ")") == 1 and sign in "()" else sign
    return " ".join(out.split())


def equations(name: str, lines: list[str]) -> list[str]:
    """The equations of a definition, without its type above them."""
    found: list[list[str]] = []
    for line in lines:
        if re.match(rf"{re.escape(name)} ", line):
            found.append([re.sub(" +=", " =", line, count=1)])
        elif found:
            found[-1].append(line)
    for one in found:
        if one[0].endswith(" =") and len(one) > 1 and len(one[0]) + len(one[1].strip()) < WIDTH:
            one[:2] = [f"{one[0]} {one[1].strip()}"]
    lines = [line for one in found for line in one]
    if len(lines) == len(found):
        short = packed([f"{it};" for it in lines[:-1]] + lines[-1:], "", 0)
        lines = short if len(short) <= min(2, len(lines) - 1) else lines
    return lines


class Order:
    """Those definitions that are printed, by what has been printed so far."""

    def __init__(self, printed: Iterable[Any], sentence: Callable[[Any], str]) -> None:
        self.printed, self.sentence = set(printed), sentence
        self.seen: set[Any] = set()

    @staticmethod
    def clauses(function: Any) -> list[str]:
        """The lines of the clauses of a function."""
        said = (f"{it.kind} {it.name} {{ {it.text} }}" for it in function.clauses)
        return packed([" ".join(it.split()) for it in said], " " * 4, 4)

    def after(self, clauses: Iterable[Any]) -> Iterator[str]:
        """The lines of the definitions to which clauses lead, but for those that are there."""
        yield from self.visit(list(dict.fromkeys(it for one in clauses for it in one.names)))

    def ahead(self, it: Any) -> set[Any]:
        """The definitions to which one leads whose text is still to be printed."""
        found: set[Any] = set()
        left = [it]
        while left:
            more = {*self.whole(left.pop().names)} - self.seen - found - {it}
            found |= more
            left += more
        return found

    def whole(self, names: Iterable[Any]) -> list[Any]:
        """Those whose text is printed, and in place of one in words alone those that it names."""
        found: dict[Any, None] = {}
        for it in (it for it in names if it in self.printed):
            found.update(dict.fromkeys(self.whole(it.names) if it.name in IN_WORDS else [it]))
        return list(found)

    def visit(self, names: list[Any]) -> Iterator[str]:
        """The lines of these definitions and of those to which they lead: first those in words
        alone, then those that lead to no other."""
        said = [it for it in names if it in self.printed - self.seen and it.name in IN_WORDS]
        if said:
            self.seen |= {*said}
            words = [f"`{it.name}`: {self.sentence(it).rstrip('.')}." for it in said]
            yield from wrapped(f"   In words: {'  '.join(words)}", 6)
        for it in sorted(self.whole(names), key=lambda it: bool(self.ahead(it))):
            if it not in self.seen:
                if len(self.ahead(it)) >= LEADS:
                    yield ""
                self.seen.add(it)
                yield from self.lines(it)
                yield from self.visit(it.names)

    def lines(self, it: Any) -> list[str]:
        """The sentence and the text of a definition, on one line if it has room for both."""
        lines = it.text.rstrip("\n").splitlines()
        is_record = re.match("(pub )?record ", lines[0])
        text = record(lines) if is_record else equations(it.name, lines)
        said = self.sentence(it)
        if len(text) == 1 and len(text[0]) + len(said) + 5 <= WIDTH:
            return [f"{text[0]}  -- {said}"]
        return [*wrapped(f"-- {said}", 3), *text]
