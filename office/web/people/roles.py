"""The roles of people and programs, and the rights of each."""
import dataclasses

from register_files import Refused

from office.core import rules

PERSON, PROGRAM = "person", "program"
OFFICER, HEAD, SUPERVISOR = "officer", "head", "supervisor"
READER, ADMINISTRATOR, SCHOOL = "reader", "administrator", "school-"
ROLES = {
    HEAD: "reads and records everything, runs rounds, restores, and says who may sign in",
    OFFICER: "reads and records everything, and confirms the rounds of somebody else",
    SUPERVISOR: "draws the lots, and nothing else",
    READER: "reads the register, but no applications before they are added to it, notes, files and"
            " Activity; and records nothing",
    ADMINISTRATOR: "says who may sign in, and sees no child",
}
# what a role may do
READ, RECORD, DRAW, CONFIRM, LOTS, PEOPLE = "read", "record", "draw", "confirm", "lots", "people"
# what letters say, which speaks for the whole office
TEMPLATES = "templates"
# the end of a season
END = "end"
# the lists of schools: of all, or for the head of one of that one
LISTS = "lists"
# the notes and files of children, which are for those alone who decide on them
NOTES = "notes"
RIGHTS = {
    HEAD: {READ, LISTS, RECORD, DRAW, CONFIRM, PEOPLE, NOTES, TEMPLATES, END},
    OFFICER: {READ, LISTS, RECORD, CONFIRM, NOTES},
    SUPERVISOR: {LOTS},
    READER: {READ, LISTS},
    ADMINISTRATOR: {PEOPLE},
}
OF_SCHOOL = {LISTS}


def is_role(text: str) -> bool:
    """Whether a text is a role."""
    return text in ROLES or text.startswith(SCHOOL) and rules.is_code(text.removeprefix(SCHOOL))


@dataclasses.dataclass(frozen=True)
class Person:
    """Somebody who is signed in, or a program with a valid token."""

    name: str
    role: str
    must_change: bool = False
    form: str = ""
    is_program: bool = False

    def may(self, right: str) -> bool:
        """Whether the role has a right."""
        return right in (OF_SCHOOL if self.school else RIGHTS[self.role])

    @property
    def school(self) -> str | None:
        """The school of the head of a school."""
        return self.role.removeprefix(SCHOOL) if self.role.startswith(SCHOOL) else None


def see_role(role: str) -> None:
    """Refuses what is no role."""
    if not role:
        raise Refused("choose a role")
    if not is_role(role):
        raise Refused(f"{role} is no role: {', '.join(ROLES)}, or {SCHOOL}CODE")
