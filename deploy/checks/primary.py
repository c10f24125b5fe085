"""The register beside the first one: primary 2026, with a site, users and a network of its own."""

from checks.commands import application, child, round_of, school
from checks.office import Account
from checks.world import World

HOST = "primary.admissions.example"
MAIL = "ann.lee+post_1@ysgol-x.example"
# (child 1 is another child than that of the first register, and child 21 is there alone; school A
# has another name)
COMMANDS = [
    school("A", "Ash Infants", 1, 0),
    child(1, "Zoe Zeal", 100),
    child(21, "Yan Yew", 200),
    application(1, "A", day="2026-01-15"),
    application(21, "A", day="2026-01-15"),
    round_of(1, "2026-04-16", [10, 20]),
]


def beside(first: World) -> World:
    """The world of that register."""
    people = {"mary": Account("head"), "alpha": Account("school-A"), MAIL: Account("school-A"),
              "robot": Account("officer", is_program=True),
              "lists": Account("school-A", is_program=True)}
    return World(first.installation, first.room / "beside", "primary-2026", HOST, COMMANDS, people)
