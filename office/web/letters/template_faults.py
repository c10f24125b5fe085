"""What is wrong with the text of a template, in words by which a person can mend it."""
from __future__ import annotations

from typing import TYPE_CHECKING

if TYPE_CHECKING:
    from jinja2 import Environment, TemplateSyntaxError

# what begins and has an end of its own: {% if %} .. {% endif %}
BEGIN = ("if", "for", "macro", "call", "filter", "block", "with", "autoescape", "set")
UNKNOWN = ("something that was begun with {% is not ended: compare the text with the version before"
           " it")
# how jinja2 says that it came to an end, or to another end, before that of what was begun
OPEN = " looking for "


def begun(env: Environment, text: str) -> list[tuple[str, int]] | None:
    """What was begun and is not ended where the text ends, or where another end comes, each with
    its line; None where an end comes of which nothing was begun.
    """
    found: list[tuple[str, int]] = []
    for line, name in tags(env, text):
        if name in BEGIN:
            found.append((name, line))
        elif name.startswith("end") and name[3:] in BEGIN:
            if not found:
                return None
            if found[-1][0] != name[3:]:
                return found
            found.pop()
    return found


def tags(env: Environment, text: str) -> list[tuple[int, str]]:
    """The tags of a text, each with its line: the first word after each {%. A {% set %} that has
    its value with it begins nothing.
    """
    found: list[tuple[int, str]] = []
    is_first, is_set = False, False
    for line, kind, value in env.lex(text):
        if kind == "whitespace":
            continue
        if is_first and kind == "name":
            found.append((line, value))
            is_set = value == "set"
        elif is_set and (kind, value) == ("operator", "="):
            found.pop()
            is_set = False
        is_first = kind == "block_begin"
        is_set = is_set and kind != "block_end"
    return found


def in_words(env: Environment, text: str, error: TemplateSyntaxError) -> tuple[int, str]:
    """The line to look at, and what is wrong there."""
    if OPEN not in (error.message or ""):
        return error.lineno, error.message or ""
    names = begun(env, text)
    if not names:
        return error.lineno, UNKNOWN
    name, line = names[-1]
    return line, (f"the {{% {name} %}} that begins here, or another one after it, is not ended:"
                  f" each needs its {{% end{name} %}}")
