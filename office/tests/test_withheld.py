"""Which counts are withheld: what an attacker can work out from the published ones, by going
through all tables that could be behind them.
"""
import random
from collections.abc import Mapping, Sequence

from office.web.figures.withheld import LEAST, is_small, withheld

# what a count is of; and the counts of a sum, each with 1 or -1
Name = tuple[str, int]
Line = list[tuple[Name, int]]


def solutions(
    sums: Sequence[Line], hidden: set[Name], counts: Mapping[Name, int], most: int
) -> list[dict[Name, int]]:
    """All values of the withheld counts that agree with the known sums, as an attacker would find
    them. Each is at least 1, if no count of 0 is withheld.
    """
    lines = [
        (
            [(key, sign) for key, sign in it if key in hidden],
            sum(sign * counts[key] for key, sign in it if key in hidden),
        )
        for it in sums
    ]
    order = sorted(hidden)
    found: list[dict[Name, int]] = []

    def search(values: dict[Name, int]) -> None:
        for line, total in lines:
            there = [sign * values[key] for key, sign in line if key in values]
            if len(there) == len(line) and sum(there) != total:
                return
        if len(values) == len(order):
            found.append(dict(values))
            return
        key = order[len(values)]
        for value in range(int(all(counts[it] for it in hidden)), most + 1):
            search({**values, key: value})

    search({})
    return found


def table(
    chance: random.Random, rows: int, columns: int
) -> tuple[dict[Name, int], list[Line]]:
    """A table of counts with its sums, all of which are published."""
    counts = {
        (str(row), column): chance.choice([0, 1, 2, 3, 4, 5, 6, 7, 9])
        for row in range(rows)
        for column in range(columns)
    }
    sums: list[Line] = [
        [(("row", row), -1), *(((str(row), column), 1) for column in range(columns))]
        for row in range(rows)
    ]
    sums += [
        [(("sum", column), -1), *(((str(row), column), 1) for row in range(rows))]
        for column in range(columns)
    ]
    sums.append([(("all", 0), -1), *((("row", row), 1) for row in range(rows))])
    for line in sums:
        counts[line[0][0]] = sum(counts[key] for key, _ in line[1:])
    return counts, sums


def test_no_small_count_can_be_worked_out() -> None:
    """Random tables with row sums, column sums and a total. Whoever knows all that is published has
    at least two values for each small count.
    """
    chance, checked = random.Random(3), 0
    for _ in range(60):
        counts, sums = table(chance, 2, 3)
        hidden = withheld(counts, sums)
        assert {key for key, it in counts.items() if is_small(it)} <= hidden
        if len(hidden) > 8 or any(counts[it] > 14 for it in hidden):
            continue
        found = solutions(sums, hidden, counts, 17)
        assert {it: counts[it] for it in hidden} in found
        for key in hidden:
            if is_small(counts[key]):
                checked += 1
                assert len({it[key] for it in found}) > 1, (counts, hidden, key)
    assert checked > 40


def test_worked_by_hand() -> None:
    """A total of 12 with parts 2 and 10: the 10 goes with the 2. With 1, 1 and 10 the 10 goes too,
    as two counts whose sum is 2 are known to be 1 each.
    """
    line = [[("total", -1), ("a", 1), ("b", 1), ("c", 1)]]
    assert withheld({"total": 12, "a": 2, "b": 10, "c": 0}, line) == {"a", "b"}
    assert withheld({"total": 12, "a": 1, "b": 1, "c": 10}, line) == {"a", "b", "c"}
    assert withheld({"total": 12, "a": 1, "b": 2, "c": 9}, line) == {"a", "b"}
    assert withheld({"total": 12, "a": 6, "b": 6, "c": 0}, line) == set()
    assert withheld({"total": 3, "a": 3, "b": 0, "c": 0}, line) == {"total", "a"}
    # a school of 21 places that is full: 1 by a plan, 20 by offers
    assert withheld({"plans": 1, "offers": 20}, [[("plans", 1), ("offers", 1)]]) == {
        "plans",
        "offers",
    }
    assert LEAST == 5
