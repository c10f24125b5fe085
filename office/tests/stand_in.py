"""The program as if a child had one more field, `later_field`, which it keeps as flag 15.

BEHIND is the program itself, and LAST the last column that it imports. What is imported is added to
the file IMPORTED.
"""
import csv
import json
import os
import subprocess
import sys

PROGRAM, FIELD, FLAG = os.environ["BEHIND"], "later_field", 15
# a line with a field of the wrong kind
WRONG_KIND = b'{"cmd":"accept","child":""}\n'


def line_of(text: bytes) -> bytes:
    """A line as the program takes it."""
    try:
        command = json.loads(text)
    except ValueError:
        return text
    if command.get("cmd") in ("add_child", "amend"):
        value = command.pop(FIELD, False)
        if not isinstance(value, bool):
            return WRONG_KIND
        command["flags"] = command["flags"] + [FLAG] * value
    return json.dumps(command).encode() + b"\n"


def do(register: str) -> int:
    """Answers lines, one after another."""
    with subprocess.Popen(
        [PROGRAM, "do", register], stdin=subprocess.PIPE, stdout=subprocess.PIPE
    ) as run:
        assert run.stdin and run.stdout
        for text in sys.stdin.buffer:
            run.stdin.write(line_of(text))
            run.stdin.flush()
            sys.stdout.buffer.write(run.stdout.readline())
            sys.stdout.buffer.flush()
        run.stdin.close()
        return run.wait()


def import_file(register: str, name: str) -> int:
    """Imports rows, whose last column it may be, after all that the program imports."""
    with open(name, newline="", encoding="utf-8") as file:
        head, *rows = csv.reader(file)
    with open(os.environ["IMPORTED"], "a", encoding="utf-8") as file:
        print(*(",".join(it) for it in (head, *rows)), sep="\n", file=file)
    if head[-2:] != [os.environ["LAST"], FIELD]:
        return subprocess.call([PROGRAM, "import", register, name])
    for at, row in enumerate(rows, 1):
        value = row.pop()
        if value not in ("yes", "no"):
            print(f"fault: row {at}: BadText", file=sys.stderr)
            return 1
        if value == "yes":
            row[5] = ";".join(filter(None, [row[5], str(FLAG)]))
    with open(f"{name}.known", "w", newline="", encoding="utf-8") as file:
        csv.writer(file, lineterminator="\n").writerows([head[:-1], *rows])
    return subprocess.call([PROGRAM, "import", register, f"{name}.known"])


def show(words: list[str]) -> int:
    """Prints a document."""
    ran = subprocess.run([PROGRAM, "show", *words], stdout=subprocess.PIPE, check=False)
    if ran.returncode == 0:
        found = json.loads(ran.stdout)
        for it in found.get("children", []):
            it[FIELD] = FLAG in it["flags"]
            it["flags"] = [flag for flag in it["flags"] if flag != FLAG]
        print(json.dumps(found, ensure_ascii=False))
    return ran.returncode


def main() -> int:
    """Does as the program, or becomes it."""
    match sys.argv[1:]:
        case ["do", register]:
            return do(register)
        case ["import", register, name]:
            return import_file(register, name)
        case ["show", *words]:
            return show(words)
    os.execv(PROGRAM, [PROGRAM, *sys.argv[1:]])


if __name__ == "__main__":
    sys.exit(main())
