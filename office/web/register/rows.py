"""Values that a column of the store has as JSON: they are read as another version wrote them."""
import dataclasses
import json
import typing
from collections.abc import Mapping
from typing import Any, TypeVar

T = TypeVar("T")


def of_fields(kind: type[T], found: Mapping[str, Any]) -> T:
    """A value of a dataclass: without the fields that it no longer has; one that it did not have
    yet, and for which it has no default, is empty.
    """
    values: dict[str, Any] = {}
    for it in dataclasses.fields(typing.cast(Any, kind)):
        if it.name in found:
            values[it.name] = found[it.name]
        elif it.default is it.default_factory is dataclasses.MISSING:
            hint = typing.get_type_hints(kind)[it.name]
            values[it.name] = (typing.get_origin(hint) or hint)()
    return kind(**values)


def of_json(kind: type[T], text: str) -> T:
    """The same, of a column's text."""
    return of_fields(kind, json.loads(text))
