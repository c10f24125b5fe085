"""The lines of the pages for administrators: that they are commands, and no programs; and that each
command has the options that are named."""
import re
import subprocess

import pytest
from conftest import ROOT
from machine import admin

PAGES = ("INSTALL", "OPERATE", "RECOVER")
PAGE = "".join((ROOT / f"docs/admin/{it}.md").read_text(encoding="utf-8") for it in PAGES)
COMMAND = ROOT / "office/command"
# what begins a block of lines that are typed; and what only a program of the shell has
PROGRAMS = r"(admissions|age|apt|curl|dpkg|echo|gpg|grep|install|journalctl|mv|rm|sed|systemctl)\b"
SHELL = r"(?m)^(\(|NAME=|TIME=|set -|for .* do$|while |trap |if \[)|\w+\(\) \{"


def parts() -> list[tuple[str, str, str]]:
    """The blocks of the pages: the heading above, the word behind the fence, and the lines."""
    found, heading, label, lines = [], "", "", list[str]()
    is_code = False
    for line in PAGE.splitlines():
        if line.startswith("```"):
            if is_code:
                found.append((heading, label, "".join(f"{it}\n" for it in lines)))
            is_code, label, lines = not is_code, line[3:], []
        elif is_code:
            lines.append(line)
        elif line.startswith("#"):
            heading = line.lstrip("# ")
    return found


def spans() -> list[str]:
    """All that the pages have as code: lines of blocks, and what is between backticks."""
    prose = re.sub(r"(?ms)^```.*?^```$", "", PAGE)
    blocks = "".join(lines for _, _, lines in parts()).replace("\\\n", " ")
    return blocks.splitlines() + [" ".join(it.split()) for it in re.findall(r"`([^`]+)`", prose)]


def test_what_is_typed_is_at_most_two_commands_in_a_block() -> None:
    """And no program of the shell: what has more steps is a verb, which checks, and goes on. (A
    block that shows what is printed, or what a file has, is none.)"""
    typed = [(heading, lines.replace("\\\n", " ")) for heading, _, lines in parts()
             if re.match(PROGRAMS, lines)]
    assert len(typed) > 10
    for heading, lines in typed:
        assert len(lines.splitlines()) <= 2, (heading, lines)
        done = subprocess.run(["bash", "-n"], input=lines, text=True, capture_output=True,
                              check=False)
        assert (done.returncode, done.stderr) == (0, ""), lines
    programs = [lines for _, _, lines in parts() if re.search(SHELL, lines)]
    assert programs == []


@pytest.fixture(name="helps", scope="module")
def helps_fixture(tmp_path_factory: pytest.TempPathFactory) -> dict[str, str]:
    """What each command of an installation prints of itself."""
    room, found = tmp_path_factory.mktemp("commands"), {}
    text = COMMAND.read_text(encoding="utf-8")
    names = re.findall(r'"([a-z-]+)"', text.partition("OFFICE = (")[2].partition("\n\n")[0])
    assert "admin" in names and "audit" in names
    for name in (*names, "backup", "restore"):
        path = room / f"admissions-{name}"
        path.symlink_to(ROOT / "tools" / name if name in ("backup", "restore") else COMMAND)
        # (those of two names print their usage as an error)
        done = subprocess.run([path, "--help"], capture_output=True, text=True, check=False)
        found[path.name] = done.stdout + done.stderr
        assert "usage" in found[path.name], path.name
    for verb in admin.VERBS:
        done = subprocess.run([room / "admissions-admin", verb, "--help"], capture_output=True,
                              text=True, check=True)
        found[f"admissions-admin {verb}"] = done.stdout
    return found


def test_each_command_has_the_options_that_the_page_names(helps: dict[str, str]) -> None:
    seen = set()
    for part in (it for line in spans() for it in re.split(r"[|;]|&&", line)):
        words = part.replace("/usr/lib/admissions/", "admissions-").split()
        for at, word in enumerate(words):
            if word == "admissions-admin" and words[at + 1:] and words[at + 1] != "..":
                word = f"{word} {words[at + 1]}"
                assert word in helps or words[at + 1] == "--help", part
            if re.fullmatch(r"admissions-[a-z-]+( [a-z-]+)?", word) and word in helps:
                options = [it.partition("=")[0] for it in words[at:] if it.startswith("--")]
                assert not [it for it in options if it not in helps[word]], part
                seen |= {(word, it) for it in options}
    assert {("admissions-admin setup", "--copy"), ("admissions-admin takeover", "--copy"),
            ("admissions-admin people", "--new-password"),
            ("admissions-admin takeover", "--history"), ("admissions-admin retire", "--early"),
            ("admissions-audit", "--later"), ("admissions-admin drill", "--identity"),
            ("admissions-admin restore", "--people-alone")} <= seen


def test_each_command_of_the_page_is_one(helps: dict[str, str]) -> None:
    """What begins a line, or what is between backticks, by its name."""
    pattern = re.compile(r"(?:^|[|(] *)(admissions-[a-z-]+)(?= |$)")
    named = {word for line in spans() for word in pattern.findall(line)}
    assert "admissions-admin" in named
    assert named - helps.keys() <= {"admissions-pdf"}


def test_each_unit_of_the_page_is_there() -> None:
    units = {it.name.partition("@")[0] for it in (ROOT / "deploy/systemd").iterdir()}
    found = set(re.findall(r"(admissions[a-z-]*)@", "\n".join(spans())))
    # (an account of another machine has the name of one, too)
    assert len(found) > 5 and found <= units
