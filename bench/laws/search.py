#!/usr/bin/env python3
"""The rounds of all small problems and of drawn ones, by a search over all allocations alone: search.py outcomes | search.py laws

outcomes  prints what crates/match_runs must print: of each block of problems how many there are, how many children have a place, how many
          entries of their lists are gone through, and a checksum of what each child has; and the same of every list of the two schools that
          a child of a small problem could hand in.
laws      tries each law of a round on these problems: with more places, without a child, with a shorter list, with another list, with lists
          stated by a group, beside all other allocations, and with each child as tenant of what it has. It prints how often, and ends with
          status 1 where one does not hold or was not tried. It takes some minutes.

It shares no code with the program and knows no deferred acceptance: the best allocation is the stable one that no other stable one beats
for any child.
"""
import sys
from functools import lru_cache
from itertools import permutations, product

SMALL, DRAWN, BLOCK = 9, 2000, 500
OPTIONS = [("", ""), ("A", ""), ("B", ""), ("AB", ""), ("BA", ""), ("A", "A"), ("B", "B"), ("AB", "B"), ("BA", "A")]
# the lists of the two schools of a small problem
LISTS = ["", "A", "B", "AB", "BA"]
# what each family has of the rules that its problems broke
broken: list[str] = []


class Entrant(tuple):
    """A list of schools (letters), the school of which the child is a tenant or '', and its rank at each school, smaller first."""

    @property
    def list(self):
        return self[0]

    @property
    def tenant(self):
        return self[1]

    @property
    def ranks(self):
        return self[2]

    def place(self, school):
        return self.list.index(school) if school in self.list and school else 9


def entrant(listed, tenant, ranks):
    return Entrant((listed, tenant, tuple(sorted(ranks.items()))))


@lru_cache(maxsize=None)
def stable_allocations(entrants, quotas):
    """Each stable allocation of a problem, as what each of its entrants (None is absent) has: a letter, or ''."""
    quota = dict(quotas)
    ranks = [e and dict(e.ranks) for e in entrants]
    found = []
    for given in product(*[(tuple(e.list) + ("",)) if e else ("",) for e in entrants]):
        at = {school: [i for i, had in enumerate(given) if had == school] for school in quota}
        guests = {school: [i for i in there if entrants[i].tenant != school] for school, there in at.items()}
        if any(guests[school] and len(at[school]) > quota[school] for school in quota):
            continue
        blocked = False
        for i, e in enumerate(entrants):
            for school in e.list if e else ():
                if school == given[i]:
                    break
                if e.tenant == school or len(at[school]) < quota[school] or any(ranks[j][school] > ranks[i][school] for j in guests[school]):
                    blocked = True
                    break
            if blocked:
                break
        if not blocked:
            found.append(given)
    return tuple(found)


def no_worse(entrants, one, other):
    return all(e.place(one[i]) <= e.place(other[i]) for i, e in enumerate(entrants) if e)


@lru_cache(maxsize=None)
def best(entrants, quotas):
    (one,) = [a for a in stable_allocations(entrants, quotas) if all(no_worse(entrants, a, b) for b in stable_allocations(entrants, quotas))]
    return one


class Law:
    def __init__(self):
        self.tried = self.better = self.worse = 0

    def count(self, before, quotas, after, later):
        """From the entrants and quotas before to those after."""
        self.tried += 1
        was, now = best(before, quotas), best(after, later)
        self.better += sum(e.place(now[i]) < e.place(was[i]) for i, e in enumerate(after) if e)
        self.worse += sum(not no_worse(after, now, other) for other in stable_allocations(before, quotas))

    def count_list(self, before, quotas, after, index):
        self.tried += 1
        true = before[index]
        own = true.place(best(before, quotas)[index])
        for other in stable_allocations(after, quotas):
            self.better += true.place(other[index]) < own
            self.worse += true.place(other[index]) > own


class Groups:
    """Groups of children that state other lists together."""

    def __init__(self):
        self.tried = self.better = self.worse = self.all_better = 0

    def count(self, own, quotas, stated):
        """From the entrants' own lists to those that the members state; None is no member."""
        members = [index for index, other in enumerate(stated) if other]
        if not members:
            return
        self.tried += 1
        after = tuple(other or entrant for entrant, other in zip(own, stated))
        was, now = best(own, quotas), best(after, quotas)
        self.better += sum(own[i].place(now[i]) < own[i].place(was[i]) for i in members)
        self.worse += sum(own[i].place(now[i]) > own[i].place(was[i]) for i in members)
        for other in stable_allocations(after, quotas):
            self.all_better += all(own[i].place(other[i]) < own[i].place(was[i]) for i in members)


def allocations(entrants):
    """Everything that the entrants may have, each a school of its list or none."""
    return product(*[(tuple(e.list) + ("",)) if e else ("",) for e in entrants])


def has_claim(e, had, ranks, index, guests):
    """Whether a school that the entrant wants more than what it has is its own of before, or has a guest that ranks after it."""
    for school in e.list:
        if school == had:
            return False
        if e.tenant == school or any(ranks[j][school] > ranks[index][school] for j in guests[school]):
            return True
    return False


class Others:
    """What other allocations do beside the best one."""

    def __init__(self):
        self.fair = self.fairer = self.better_for_each = self.joined = self.torn = self.rather = self.moved = 0

    def count(self, entrants, quotas):
        chosen, quota = best(entrants, quotas), dict(quotas)
        ranks = [dict(e.ranks) for e in entrants]
        for given in allocations(entrants):
            at = {school: [i for i, had in enumerate(given) if had == school] for school in quota}
            guests = {school: [i for i in there if entrants[i].tenant != school] for school, there in at.items()}
            if any(guests[school] and len(at[school]) > quota[school] for school in quota):
                continue
            better = [e.place(given[i]) < e.place(chosen[i]) for i, e in enumerate(entrants)]
            self.better_for_each += bool(better) and all(better)
            if not any(has_claim(e, given[i], ranks, i, guests) for i, e in enumerate(entrants)):
                self.fair += 1
                self.fairer += any(better)
        stable = stable_allocations(entrants, quotas)
        for one, other in product(stable, repeat=2):
            joined = tuple(min(pair, key=e.place) for e, pair in zip(entrants, zip(one, other)))
            self.joined += 1
            self.torn += joined not in stable
        for other in stable:
            for i, school in enumerate(chosen):
                if school and other[i] != school:
                    there = [j for j, had in enumerate(other) if had == school and entrants[j].tenant != school]
                    self.rather += sum(ranks[j][school] > ranks[i][school] for j in there)
        settled = tuple(Entrant((e.list[: e.place(had) + 1] if had else e.list, had, e.ranks)) for e, had in zip(entrants, chosen))
        self.moved += sum(was != now for was, now in zip(chosen, best(settled, quotas)))


class Counts:
    def __init__(self, kind):
        self.kind = kind
        self.problems = self.stable = self.several = self.placed = self.uneven = 0
        self.laws = {name: Law() for name in ("more places", "a child leaves", "a shorter list", "another list")}
        self.groups = Groups()
        self.others = Others()

    def problem(self, entrants, quotas):
        self.others.count(entrants, quotas)
        stable = stable_allocations(entrants, quotas)
        chosen = best(entrants, quotas)
        self.problems += 1
        self.stable += len(stable)
        self.several += len(stable) > 1
        self.placed += sum(school != "" for school in chosen)
        for other in stable:
            for school, quota in quotas:
                one, two = ({i for i, had in enumerate(a) if had == school} for a in (other, chosen))
                self.uneven += len(one) != len(two) or (len(one) < quota and one != two)

    def print(self):
        print(f"{self.kind}: problems {self.problems}, stable allocations {self.stable}, with several {self.several}, placed {self.placed}")
        self.judge("several stable allocations, schools that fill unevenly", self.several, self.uneven)
        for name, law in self.laws.items():
            print(f"{self.kind}, {name}: tried {law.tried}, better {law.better}, worse {law.worse}")
            # (of another list: no child has by it a school that it wants more; of the other changes: nobody has one that it wants less)
            self.judge(name, law.tried, law.better if name == "another list" else law.worse)
        group = self.groups
        self.judge("lists of a group", group.tried, group.all_better)
        print(f"{self.kind}, lists of a group: tried {group.tried}, better {group.better}, worse {group.worse}, all better {group.all_better}")
        others = self.others
        print(
            f"{self.kind}, others: fair {others.fair}, fairer {others.fairer}, better for each {others.better_for_each}, moved {others.moved}"
        )
        self.judge("fair allocations", others.fair, others.fairer + others.better_for_each + others.moved)
        print(f"{self.kind}, stable together: {others.joined}, not stable {others.torn}, rather had {others.rather}")
        self.judge("stable together", others.joined, others.torn + others.rather)

    def judge(self, law, tried, wrong):
        if tried == 0 or wrong:
            broken.append(f"{self.kind}, {law}: tried {tried}, wrong {wrong}")


def replaced(entrants, index, other):
    return entrants[:index] + (other,) + entrants[index + 1 :]


def with_quota(quotas, school, quota):
    return tuple((s, quota if s == school else q) for s, q in quotas)


def small_problem(options, quotas, rankings):
    """One of three entrants and two schools: a number of OPTIONS for each entrant, and a quota and the entrants' places for each school."""
    chosen = [OPTIONS[number] for number in options]
    entrants = tuple(entrant(chosen[i][0], chosen[i][1], {"A": rankings[0][i], "B": rankings[1][i]}) for i in range(3))
    return entrants, tuple(zip("AB", quotas))


def small():
    """Each problem of three entrants and two schools with quotas 0 to 2, the second and the third entrant in one order alone."""
    counts, groups = Counts("small"), Numbers(12)
    for options in product(range(9), repeat=3):
        if options[1] > options[2]:
            continue
        for numbers in product(range(3), repeat=2):
            for rankings in product(permutations(range(3)), repeat=2):
                entrants, quotas = small_problem(options, numbers, rankings)
                counts.problem(entrants, quotas)
                for school, quota in quotas:
                    counts.laws["more places"].count(entrants, quotas, entrants, with_quota(quotas, school, quota + 1))
                counts.laws["a child leaves"].count(entrants, quotas, replaced(entrants, 0, None), quotas)
                own = entrants[0]
                if not own.tenant:
                    for length in range(len(own.list)):
                        cut = Entrant((own.list[:length], "", own.ranks))
                        counts.laws["a shorter list"].count(entrants, quotas, replaced(entrants, 0, cut), quotas)
                for listed, tenant in OPTIONS:
                    if tenant in ("", own.tenant):
                        other = Entrant((listed, tenant, own.ranks))
                        counts.laws["another list"].count_list(entrants, quotas, replaced(entrants, 0, other), 0)
                is_member = [groups.below(2) == 0 for _ in entrants]
                stated: list = [None] * 3
                for i in range(3):
                    if is_member[i]:
                        listed, tenant = OPTIONS[groups.below(9)]
                        stated[i] = Entrant((listed, tenant if tenant == entrants[i].tenant else "", entrants[i].ranks))
                counts.groups.count(entrants, quotas, stated)
            best.cache_clear()
            stable_allocations.cache_clear()
    counts.print()


class Numbers:
    """The fixed sequence from which problems are drawn."""

    def __init__(self, seed):
        self.state = seed

    def below(self, bound):
        self.state = (self.state * 6_364_136_223_846_793_005 + 1_442_695_040_888_963_407) % 2**64
        return (self.state >> 33) % bound

    def order(self):
        order = list(range(5))
        for last in range(1, 5):
            other = self.below(5) % (last + 1)
            order[last], order[other] = order[other], order[last]
        return order

    def list(self):
        order = [".ABCD"[number] for number in self.order() if number]
        return "".join(order[: self.below(5)])

    def another(self, own):
        """Any list of an entrant, as the list, the tenancy and an even rank at each school, which holds where it does not truly list the school."""
        listed, keeps = self.list(), self.below(2) == 0 and own.tenant != ""
        if keeps:
            listed = listed.replace(own.tenant, "") + own.tenant
        return listed, own.tenant if keeps else "", {school: 2 * self.below(6) for school, _ in own.ranks}


def by_truth(own, other):
    """The entrant's rank at each school: its own if it truly lists the school, and the other one if not."""
    return {school: rank if school in own.list else other[school] for school, rank in own.ranks}


def drawn_group(entrants, numbers):
    """What each member of a group states: any list, and at each school that it does not truly list a rank that no other member has."""
    is_member = [numbers.below(2) == 0 for _ in entrants]
    lists = [numbers.another(own)[:2] if member else None for own, member in zip(entrants, is_member)]
    even: list[dict] = [{} for _ in range(5)]
    for school in "ABCD":
        for row, number in zip(even, numbers.order()):
            row[school] = 2 * number
    return [stated and entrant(stated[0], stated[1], by_truth(own, even[i])) for i, (own, stated) in enumerate(zip(entrants, lists))]


def any_problem(numbers, length):
    """The lists, tenancies, quotas and ranks of a problem in which all are drawn."""
    lists = []
    for _ in range(length):
        listed = numbers.list()
        lists.append((listed, listed[-1:] if numbers.below(3) == 0 else ""))
    numbered: list = []
    ranks: list[dict] = [{} for _ in range(5)]
    for school in "ABCD":
        numbered.append((school, numbers.below(3)))
        for row, number in zip(ranks, numbers.order()):
            row[school] = 2 * number + 1
    return lists, numbered, ranks


def opposed_problem(numbers, length):
    """Those of one in which each child lists all schools, and schools rank those first who want them least."""
    lists = []
    for _ in range(length):
        listed = "".join(".ABCD"[number] for number in numbers.order() if number)
        lists.append((listed, listed[-1:] if numbers.below(6) == 0 else ""))
    numbered: list = []
    ranks: list[dict] = [{} for _ in range(5)]
    for school in "ABCD":
        numbered.append((school, numbers.below(2) + 1))
        for i, number in enumerate(numbers.order()):
            place = lists[i][0].index(school) if i < length else 4
            ranks[i][school] = 2 * (5 * (4 - place) + number) + 1
    return lists, numbered, ranks


def problems(a_problem):
    """The drawn problems of a family."""
    numbers = Numbers(11)
    for _ in range(DRAWN):
        length = numbers.below(5) + 1
        lists, numbered, ranks = a_problem(numbers, length)
        yield tuple(entrant(lists[i][0], lists[i][1], ranks[i]) for i in range(length)), tuple(numbered)


def drawn(kind, a_problem):
    counts, numbers, groups = Counts(kind), Numbers(12), Numbers(13)
    for entrants, quotas in problems(a_problem):
        counts.problem(entrants, quotas)
        school, more = "ABCD"[numbers.below(4)], numbers.below(3)
        counts.laws["more places"].count(entrants, quotas, entrants, with_quota(quotas, school, dict(quotas)[school] + more))
        index = numbers.below(len(entrants))
        counts.laws["a child leaves"].count(entrants, quotas, replaced(entrants, index, None), quotas)
        own, first = entrants[index], numbers.below(4)
        if not own.tenant:
            cut = Entrant((own.list[:first], "", own.ranks))
            counts.laws["a shorter list"].count(entrants, quotas, replaced(entrants, index, cut), quotas)
        listed, tenant, even = numbers.another(own)
        changed = entrant(listed, tenant, by_truth(own, even))
        counts.laws["another list"].count_list(entrants, quotas, replaced(entrants, index, changed), index)
        counts.groups.count(entrants, quotas, drawn_group(entrants, groups))
    counts.print()


FAMILIES = {"drawn": any_problem, "opposed": opposed_problem}


def laws():
    small()
    for kind, a_problem in FAMILIES.items():
        drawn(kind, a_problem)
    for it in broken:
        print(f"BROKEN: {it}")
    return 1 if broken else 0


def checksum(numbers):
    total = 0
    for number in numbers:
        total = (31 * total + number) % 2**64
    return total


def number_of(given):
    """What entrants have as one number: the last digit of five is what the first one has."""
    return sum(5**i * " ABCD".index(school or " ") for i, school in enumerate(given))


def print_block(kind, block, found):
    """What the problems of a block are given: `found` has the entrants and what each of them has."""
    numbers = [number_of(given) for _, given in found]
    placed = sum(school != "" for _, given in found for school in given)
    entries = sum(e.place(school) + 1 if school else len(e.list) for entrants, given in found for e, school in zip(entrants, given))
    print(f"{kind} {block}: problems {len(found)}, placed {placed}, proposals {entries}, checksum {checksum(numbers)}")


def print_lists(block, found, given_by):
    """What children would have by each list of the two schools, of which one may hand in those that it lists and is no tenant of. Where it
    is a tenant its school stays last."""
    answers = []
    for options, numbers, rankings in found:
        for i, listed in product(range(3), LISTS):
            own, tenant = OPTIONS[options[i]]
            if set(listed) <= set(own) - {tenant}:
                other = OPTIONS.index((listed + tenant, tenant))
                answers.append(" AB".index(given_by[replaced(options, i, other), numbers, rankings][i] or " "))
            else:
                answers.append(5)
    refused = answers.count(5)
    print(f"small {block}, other lists: {len(answers) - refused}, refused {refused}, checksum {checksum(answers)}")


def outcomes():
    given_by = {}
    blocks: list[list] = [[] for _ in range(SMALL)]
    for options in product(range(9), repeat=3):
        for one in product([options], product(range(3), repeat=2), product(permutations(range(3)), repeat=2)):
            blocks[options[0]].append(one)
            given_by[one] = best(*small_problem(*one))
        best.cache_clear()
        stable_allocations.cache_clear()
    for block, found in enumerate(blocks):
        print_block("small", block, [(small_problem(*one)[0], given_by[one]) for one in found])
        print_lists(block, found, given_by)
    for kind, a_problem in FAMILIES.items():
        posed = list(problems(a_problem))
        for block in range(DRAWN // BLOCK):
            found = posed[BLOCK * block : BLOCK * (block + 1)]
            print_block(kind, block, [(entrants, best(entrants, quotas)) for entrants, quotas in found])
    return 0


sys.exit({"outcomes": outcomes, "laws": laws}[sys.argv[1]]())
