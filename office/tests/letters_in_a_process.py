"""An application in a process of its own, which asks for letters and is killed by a test: its
folder and the address of the register are its arguments. It makes four letters at a time.
"""
import pathlib
import sys
import time

from applications import site

from office.web.letters import sets as letters_sets
from office.web.letters.sets import Asked, Sets
from office.web.people import roles

MANY, AT_A_TIME = 12, 4


def main() -> None:
    """Asks for letters, and waits to be killed."""
    letters_sets.BATCH = AT_A_TIME
    with site(pathlib.Path(sys.argv[1]), sys.argv[2]) as office:
        found: Sets = office.parts.letters
        template = found.templates.standard()
        asked = Asked("a try", list(range(1, MANY + 1)), template, 1, "2025-03-03", "pdf")
        print(found.ask(roles.Person("jane", "officer"), "key", asked), flush=True)
        time.sleep(3600)


if __name__ == "__main__":
    main()
