"""What was made out of the register for a screen, and is kept as long as that shows the same."""
from collections.abc import Callable, Hashable
from typing import Any, TypeVar

from office.core.model import Register

One = TypeVar("One")


class Made:
    """The last of each kind."""

    def __init__(self) -> None:
        self.kept: dict[str, tuple[Hashable, object, Any]] = {}

    def of(
        self, kind: str, key: Hashable, register: Register, make: Callable[..., One],
        *more: object,
    ) -> One:
        """What was made by this key of the same register, or what is made now of that and more."""
        # (a register that is read anew and shows the same has the same children)
        found = self.kept.get(kind)
        if found is None or found[0] != key or found[1] is not register.children:
            found = self.kept[kind] = (key, register.children, make(register, *more))
        value: One = found[2]
        return value
