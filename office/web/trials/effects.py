"""What a change of schools would have done to the children of a round: who would have gained, and
who would have lost, by school and criterion.
"""
import collections
import dataclasses

from office.core.model import Register


@dataclasses.dataclass(frozen=True)
class Effect:
    """A child whose school would have been another: the one that it has and the one that it would
    have (None is none), and its class at each.
    """

    child: int
    gains: bool
    had: str | None
    had_class: int | None
    would: str | None
    would_class: int | None


@dataclasses.dataclass
class SchoolEffect:
    """One school: of those whose place there is new or gone, who gains and who loses, and the last
    child offered, as class and metres.
    """

    code: str
    offered: int
    would_offer: int
    last: tuple[int, int] | None
    would_last: tuple[int, int] | None
    gains: collections.Counter[int]
    losses: collections.Counter[int]


def class_at(register: Register, code: str | None, child: int) -> int | None:
    """The class of a child at a school, if it has one."""
    return register.rank(code, child)[0] if code else None


def last_of(register: Register, number: int, code: str) -> tuple[int, tuple[int, int] | None]:
    """How many children were offered a place at a school in a draw, and the class and the metres of
    the last of them.
    """
    outcomes, fresh = register.outcomes[number], register.fresh[number]
    offered = sum(school == code and fresh[it] for it, school in outcomes.items())
    last = register.drawn(number).cutoffs.get(code)
    return offered, last and last[:2]


def effects_of(plain: Register, changed: Register, number: int) -> list[Effect]:
    """The children that would have another school."""
    found = []
    for child, had in sorted(plain.outcomes[number].items()):
        would = changed.outcomes[number][child]
        if would != had:
            listed = [*plain.applications[child].preferences, None]
            found.append(Effect(child, listed.index(would) < listed.index(had),
                                had, class_at(plain, had, child),
                                would, class_at(changed, would, child)))
    return found


def by_school(plain: Register, changed: Register, number: int,
              effects: list[Effect]) -> list[SchoolEffect]:
    """The schools, each with its effects: a gain counts at the school that the child would have, a
    loss at the one that it has.
    """
    found = []
    for code in plain.schools:
        offered, last = last_of(plain, number, code)
        would_offer, would_last = last_of(changed, number, code)
        gains = collections.Counter(it.would_class for it in effects
                                    if it.gains and it.would == code and it.would_class is not None)
        losses = collections.Counter(it.had_class for it in effects if not it.gains
                                     and it.had == code and it.had_class is not None)
        found.append(SchoolEffect(code, offered, would_offer, last, would_last, gains, losses))
    return found
