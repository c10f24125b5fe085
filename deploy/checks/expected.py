"""What must be there, by committed lists that are compared both ways: `headers`, of each response
of a site, and `units`, the lines of the units.

As a program it compares the units of a folder: expected.py FOLDER PREFIX. It prints each line that
only one of the two has. Exit status: 0 equal, 1 not.
"""

import collections
import pathlib
import re
import sys

HERE = pathlib.Path(__file__).resolve().parent
# Fields that describe one response, and are not the same for all
OF_ONE = {
    "date", "connection", "content-type", "content-length", "content-encoding", "content-range",
    "retry-after", "allow", "last-modified", "etag", "accept-ranges", "content-disposition",
    "location", "set-cookie", "vary",
}


def lines_of(text: str) -> list[str]:
    """The lines of a text that have a meaning."""
    lines = text.splitlines()
    return [line.rstrip() for line in lines if line.strip() and not line.startswith("#")]


HEADERS = dict(
    line.lower().split(": ", 1)
    for line in lines_of((HERE / "headers").read_text(encoding="utf-8"))
)


def headers_differ(fields: dict[str, str]) -> list[str]:
    """What is missing in the head of a response, or is there and not in the list. The names and
    values of its fields are in small letters.
    """
    own = {name: value for name, value in fields.items() if name not in OF_ONE}
    return sorted(f"{name}: {value}" for name, value in set(own.items()) ^ set(HEADERS.items()))


def directives(text: str) -> list[tuple[str, str]]:
    """The lines of a unit, each with its section."""
    section, found = "", []
    for line in map(str.strip, lines_of(text)):
        if line.startswith("["):
            section = line
        else:
            found.append((section, line))
    return found


def units_differ(folder: pathlib.Path, prefix: str) -> list[str]:
    """The lines of units that are in the folder alone (+), or in the list alone (-). A line may be
    there twice.
    """
    text = "\n".join(lines_of((HERE / "units").read_text(encoding="utf-8"))) + "\n"
    blocks = re.split(r"(?m)^(\S.*)\n", text.replace("/usr/local/", f"{prefix}/"))[1:]
    wanted = [(name, *it) for name, own in zip(blocks[::2], blocks[1::2]) for it in directives(own)]
    suffixes = (".service", ".socket", ".timer", ".path", ".conf")
    paths = [it for it in sorted(folder.rglob("admissions*")) if it.suffix in suffixes]
    found = [
        (str(path.relative_to(folder)), *it) for path in paths
        for it in directives(path.read_text(encoding="utf-8"))]
    missing = collections.Counter(wanted) - collections.Counter(found)
    others = collections.Counter(found) - collections.Counter(wanted)
    return [
        f"{sign} {unit}: {section} {line}" for sign, some in (("-", missing), ("+", others))
        for unit, section, line in some.elements()]


if __name__ == "__main__":
    DIFFERENCES = units_differ(pathlib.Path(sys.argv[1]), sys.argv[2])
    print("\n".join(DIFFERENCES) if DIFFERENCES else "as expected")
    sys.exit(int(bool(DIFFERENCES)))
