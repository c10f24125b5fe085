"""What an auditor takes away (tools/evidence): made from a copy of the repository as it is, and
with something that is missing or that nobody saw; from each sentence to its clauses, from each
clause to what it assumes, what mutants attack and by what they are refused, and how to repeat
it."""
import hashlib
import html
import json
import os
import pathlib
import re
import shutil
import subprocess
import typing

import calls
import claims
import notation
import outcomes
import page_text
import planted
import premises
import promised
import proof_logs
import proved_source
import pytest
import repeats
from by_path import loaded

ROOT = pathlib.Path(__file__).resolve().parents[2]
UNSEEN = "not checked here"
PROVED = "logic=proved functions=16 sum=dac8208d650f15bf incremental=trusted"
REFUSED = "refused, as it must be: note: src/seasons.rt:12:5: `search` found no proof"


def run(
    root: pathlib.Path, *command: object, **environment: str
) -> subprocess.CompletedProcess[str]:
    """Runs a command in the copy."""
    texts = [str(it) for it in command]
    return subprocess.run(texts, cwd=root, capture_output=True, text=True, check=False,
                          env={**os.environ, **environment})


def copy_in(room: pathlib.Path) -> pathlib.Path:
    """The repository as it is, without what builds left."""
    root = room / "copy"
    left = shutil.ignore_patterns(".git", "out", "bin", "__pycache__")
    shutil.copytree(ROOT, root, ignore=left)
    return root


def committed(root: pathlib.Path) -> pathlib.Path:
    """A copy, with all that it has in a commit."""
    who = ("-c", "user.name=Tests", "-c", "user.email=tests@admissions.example")
    for arguments in (("init", "-q"), ("add", "-A"), (*who, "commit", "-q", "-m", "As it is")):
        assert run(root, "git", *arguments).returncode == 0
    return root


@pytest.fixture
def copy(tmp_path: pathlib.Path) -> pathlib.Path:
    """A copy of the repository, to be changed."""
    return copy_in(tmp_path)


@pytest.fixture(name="read")
def read_fixture(copy: pathlib.Path, monkeypatch: pytest.MonkeyPatch) -> typing.Any:
    """What reads the evidence of the copy, with these logs; no page is made."""
    monkeypatch.chdir(copy)
    module = loaded(copy / "tools/evidence")
    return lambda *logs: module.Evidence([str(it) for it in logs])


def made(root: pathlib.Path, *logs: object) -> dict[str, typing.Any]:
    """The evidence of the copy, for programs."""
    done = run(root, "tools/evidence", *logs)
    assert done.returncode == 0, done.stderr
    found: dict[str, typing.Any] = json.loads((root / "out/evidence/evidence.json").read_text())
    return found


Pack = tuple[pathlib.Path, dict[str, typing.Any]]


@pytest.fixture(name="pack", scope="module")
def pack_fixture(tmp_path_factory: pytest.TempPathFactory) -> Pack:
    """A copy where nobody checked anything, with its evidence; not to be changed."""
    root = committed(copy_in(tmp_path_factory.mktemp("pack")))
    return root, made(root)


def files(root: pathlib.Path) -> dict[str, bytes]:
    """The files of the evidence by name."""
    out = root / "out/evidence"
    found = [it for it in out.rglob("*") if it.is_file()]
    return {str(it.relative_to(out)): it.read_bytes() for it in found}


def change(root: pathlib.Path, name: str, old: str, new: str) -> None:
    """Changes a text that is once in a file of the copy."""
    text = (root / name).read_text()
    assert text.count(old) == 1
    (root / name).write_text(text.replace(old, new))


@pytest.fixture(name="rich", scope="module")
def rich_fixture(tmp_path_factory: pytest.TempPathFactory) -> Pack:
    """A copy with what a build left of three crates, a release, a log of the gate, and one of a run
    that was killed while it proved crates; with its evidence; not to be changed."""
    root = committed(copy_in(tmp_path_factory.mktemp("rich")))
    leave(root, "adm_lists", True)
    leave(root, "adm_types", True)
    # (that of adm_rank was over what had been kept)
    leave(root, "adm_rank", False)
    (root / "out/costs").mkdir()
    for name, seconds in (("adm_lists", 20), ("adm_types", 100), ("adm_rank", 60)):
        (root / "out/costs" / name).write_text(f"{seconds}\n")
    (root / "out/unit").write_text("40\n")
    release_in(root)
    source, log = run(root, "tools/proved_source.py").stdout, root.parent / "gate.log"
    log.write_text(GATE.format(source=source, days=gate_of("adm_days")))
    cut = root.parent / "cut.log"
    cut.write_text(f"{source}{gate_of('adm_csv')}\n== adm_wire\nfn adm_wire::f: proved\n")
    return root, made(root, log, cut)


def leave(root: pathlib.Path, crate: str, is_anew: bool) -> None:
    """Leaves the verdict on a crate, as a build does."""
    program = ("import sys; sys.path.insert(0, 'tools'); import proved_source as it, pathlib;"
               f"it.leave('{crate}', it.sum_of(pathlib.Path(), ['{crate}', *it.below("
               f"pathlib.Path(), '{crate}')]), 'so far\\n{PROVED}', {is_anew})")
    assert run(root, "/usr/bin/python3", "-c", program).returncode == 0


def verdicts(found: typing.Any) -> dict[str, str]:
    return {it["crate"]: it["verdict"] for it in found["crates"]}


def seen(found: typing.Any) -> dict[str, str]:
    """The verdicts that are read, but for those that nobody saw."""
    return {crate: text for crate, text in found.verdicts.items() if text != UNSEEN}


def test_each_sentence_leads_to_its_clauses_where_they_are(pack: Pack) -> None:
    copy, found = pack
    assert found["changes_that_are_not_committed"] == []
    assert found["commit"] == run(copy, "git", "rev-parse", "HEAD").stdout.strip()
    names = page_text.parts(copy / "docs/trust/GUARANTEES.md", "What is promised")
    assert [it["claim"] for it in found["claims"]] == [name for name, _ in names]
    pages = {it.name: it.read_text() for it in copy.glob("out/evidence/*.html")}
    clauses = {it["id"]: it for it in found["clauses"]}
    used = set()
    for said in (one for it in (*found["claims"], *found["promises"]) for one in it["sentences"]):
        assert bool(said["clauses"]) == (said["is"] == "promised")
        used |= {it["id"] for it in said["clauses"]}
    assert used == set(clauses)
    for clause in clauses.values():
        assert f'id="{clause["id"]}"' in pages["clauses.html"]
        lines = (copy / clause["file"]).read_text().splitlines()
        head = f"{clause['kind']} {clause['clause']}".strip()
        assert lines[clause["line"] - 1].strip().startswith(f"{head} {{")
        text = " ".join(" ".join(lines[clause["line"] - 1:]).split())
        assert text.startswith(f"{head} {{ {clause['text']} }}")
    assert all(f'id="promise-{it["number"]}"' in pages["promises.html"] for it in found["promises"])
    for name, page in pages.items():
        for target, anchor in re.findall(r'href="([^"#]*)(?:#([^"]*))?"', page):
            path = copy / "out/evidence" / (target or name)
            assert path.is_file()
            # (those of the reference are judged where it is made)
            assert not anchor or "/" in target or f'id="{anchor}"' in pages[path.name]
    assert len(found["mutants"]) == len([*copy.glob("mutants/*/gate/*.edit"),
                                         *copy.glob("mutants/*/*.edit")])
    assert {it["case"] for it in found["cases"]} == {it.name for it in copy.glob("cases/*")}
    # nobody checked anything in this copy
    assert set(verdicts(found).values()) == {UNSEEN}
    assert {it["made"] for it in found["crates"]} == {UNSEEN}
    assert {(it["outcome"], it["refused_by"]) for it in found["mutants"]} == {
        ("not tried here", "not tried")}
    assert found["program"] == {"proved_here": "", "bin/admissions": ""}
    tools = found["toolchain"]
    assert tools["is_of_the_source"] == (tools["here"] in tools["of_the_source"])
    assert all(re.fullmatch(r"\S+ logic [0-9a-f]{16}", it) for it in tools["of_the_source"])
    assert all(it in (copy / "debian/ported.tsv").read_text() for it in tools["of_the_source"])


def test_made_twice_it_is_equal_but_for_the_file_of_times(pack: Pack) -> None:
    first = files(pack[0])
    made(pack[0])
    second = files(pack[0])
    assert first.pop("made.json") and second.pop("made.json") and first == second
    assert not any(re.search(rb"\b20\d\d-\d\d-\d\dT\d\d:\d\d", it) for it in
                   (text for name, text in first.items() if "/" not in name))


def test_a_verdict_counts_for_the_source_that_was_proved(
    copy: pathlib.Path, read: typing.Any
) -> None:
    leave(copy, "adm_rank", False)
    assert seen(read()) == {"adm_rank": PROVED}
    # (with a field that the page has no words for)
    (copy / "out/verdicts/adm_rank").write_text(
        (copy / "out/verdicts/adm_rank").read_text().replace("functions=16", "functions=16 odd=2"))
    with pytest.raises(page_text.Refused, match="verdict_words.json has no words for odd="):
        read()
    # a crate below it is another one, with an older time
    path = copy / "crates/adm_lists/src/lib.rt"
    path.write_text(path.read_text() + "\n")
    os.utime(path, (0, 0))
    assert seen(read()) == {}


@pytest.mark.parametrize("line, is_verdict", [
    (PROVED, True), ("logic=proved functions=4 axioms=63 target=x86_64-unknown-linux-gnu"
                     " cpu=x86-64-v2 sum=dac8208d650f15bf native=nat,char,string", True),
    (PROVED.replace("=proved", "=open"), False), (f"checked {PROVED}", False)])
def test_which_lines_of_the_toolchain_are_verdicts(
    line: str, is_verdict: bool, tmp_path: pathlib.Path, monkeypatch: pytest.MonkeyPatch,
) -> None:
    """Of a library, and of a program, whose line has more."""
    monkeypatch.chdir(tmp_path)
    proved_source.leave("adm_x", "source", f"so far\n{line}\nthe end\n")
    assert proved_source.left("adm_x") == (("source", line, ()) if is_verdict else None)


def test_a_build_leaves_whether_it_began_anew_and_what_was_linked(
    tmp_path: pathlib.Path, monkeypatch: pytest.MonkeyPatch
) -> None:
    monkeypatch.chdir(tmp_path)
    program = tmp_path / "crates/adm_x/out/adm_x"
    program.parent.mkdir(parents=True)
    program.write_bytes(b"a program")
    proved_source.leave("adm_x", "source", PROVED, is_anew=True)
    digest = hashlib.sha256(b"a program").hexdigest()
    assert proved_source.left("adm_x") == ("source", PROVED, ("anew", f"program {digest}"))
    with (tmp_path / "out/verdicts/adm_x").open("a", encoding="utf-8") as file:
        file.write("another line\n")
    assert proved_source.left("adm_x") is None


SOUND = PROVED.removesuffix(" incremental=trusted") + " statements=trusted"


@pytest.mark.parametrize(("verdict", "how"), [
    (UNSEEN, UNSEEN), (SOUND, "from nothing"), (f"{SOUND} incremental=trusted", "had kept"),
    (f"{SOUND} incremental=trusted (anew)", "that was empty of this crate before"),
    (f"{SOUND} crate-checked=trusted", "an earlier check"),
    (f"{SOUND} cache=trusted", "an earlier check"),
    (f"{SOUND} (gate.log)", "from nothing"),
    ("is kept: an earlier run on this machine proved the same files (gate.log)", "kept: "),
])
def test_from_what_a_verdict_was_made(verdict: str, how: str) -> None:
    found = outcomes.made_from(verdict)
    assert how in found and found.startswith("from nothing") == how.startswith("from nothing")


FALSE = "; the facts known there allow values at which this goal is false"


def cut(reason: str) -> str:
    """A refusal for a reason, as `rt` cuts it after 160 letters."""
    return f"refused, as it must be: {reason[:160]}"


@pytest.mark.parametrize(("outcome", "by"), [
    (f"{REFUSED} (`invariant_of-result`){FALSE}", "meaning"),
    (cut("note: src/keys.rt:21:5: it is not proved that what the function ensures holds when it"
         f" returns (`returns`){FALSE}"), "meaning"),
    (cut("x" * (160 - len("; the facts known there")) + FALSE), "meaning"),
    (cut("x" * (160 - len("; the facts known")) + FALSE), "cut short"),
    (cut("x" * 160), "cut short"), (cut("x" * 159), "no proof"),
    ("refused, as it must be: " + "x" * 80 + FALSE[:40], "no proof"),
    (f"{REFUSED}; `search` gave up at one of its limits", "limit"),
    (REFUSED, "no proof"), ("refused, as it must be", "no proof"),
    (REFUSED.replace(": ", " (only because a proof file names what the edit took away, so this says"
                     " little of the contract: change a value and keep the names): ", 1), "names"),
    (REFUSED.replace(": ", " (only by a limit of the prover, as it is): ", 1), "limit"),
    ("NOT REFUSED: the crate is still proved with this edit", "not refused"),
    ("BAD EDIT: it did not reach the prover", "not tried"),
    ("NOT TRIED: its check ended with status 9", "not tried"), ("not tried here", "not tried"),
])
def test_by_what_a_mutant_was_refused(outcome: str, by: str) -> None:
    """Of which a refusal by names, or by a limit, is apart from one by meaning."""
    assert outcomes.refused_by(outcome) == by


def test_each_field_of_a_verdict_of_the_toolchain_has_words() -> None:
    """As `rt` itself names them where it judges the last line."""
    tool = pathlib.Path(shutil.which("rt") or "")
    text = tool.resolve().with_name("rtlib.py").read_text()
    known = re.findall(r'(?m)^KNOWN = "(.*)"', text)[0].split()
    more = re.findall(r"\b([a-z-]+)=(?:trusted|no)\b", text)
    assert {"functions", "may-abort", "hides"} <= set(known) and "incremental" in more
    assert {*known, *more, "logic", "native"} <= set(outcomes.words()) | {"proved"}


LOGIC = "dac8208d650f15bf"


def last_line(functions: int) -> str:
    """The last line of a check of so many functions."""
    return f"logic=proved functions={functions} sum={LOGIC} statements=trusted"


def check_of(crate: str, functions: int = 2) -> str:
    """What a check of a crate prints."""
    items = [f"fn {crate}::keys::f{at}: proved" for at in range(functions)]
    return "\n".join((
        *items, f"empty contracts: 0 found; tried {functions} of {functions} functions",
        f"logic /kit/logic.json: libraries=16 files=2756 sum={LOGIC}3e2d", last_line(functions)))


def gate_of(crate: str) -> str:
    """What `rt ci` prints of a crate that it proves."""
    return f"== {crate}\n{check_of(crate)}\nrt: {crate} proved"


def test_a_log_counts_for_the_source_that_it_is_of(copy: pathlib.Path, read: typing.Any) -> None:
    source, log = run(copy, "tools/proved_source.py").stdout, copy.parent / "log"
    lines = [gate_of("adm_rank"), "rt: adm_types is kept: an earlier run proved the same files",
             f"rt: must-fail adm_types/closes_a_day_early.edit: {REFUSED}", "3 passed, 0 failed"]
    log.write_text(source + "\n".join(lines) + "\n")
    found = read(log)
    assert seen(found) == {"adm_rank": f"{last_line(2)} (log)",
                           "adm_types": "is kept: an earlier run proved the same files (log)"}
    assert found.logs.mutants == {"adm_types/closes_a_day_early": REFUSED}
    for first in ("", "source 0\n"):
        log.write_text(first + "\n".join(lines) + "\n")
        with pytest.raises(page_text.Refused, match="is no log of this source"):
            read(log)


GATE = """part tools/lint: 2 passed, 0 failed
{source}{days}
rt: must-fail adm_types/closes_a_day_early.edit: refused, as it must be
rt: match_runs ran, and wrote what its file stdout has
rt: adm_tests: its tests passed
part tools/proofs: 109 passed, 0 failed
case rounds: NOT as expected (lines with + are of this run)
part tools/cases: 51 passed, 1 failed
part tools/cases: 1 failed
part tools/python-tests office: 700 passed, 0 failed
{source}rt: twin adm_types/closes_a_day_early.edit: NOT REFUSED: it is proved
part tools/mutants --twins: 1 passed, 0 failed
All of it took 4500 seconds of wall-clock time, and 15000 of CPU time
860 passed, 1 failed
"""


def test_a_log_of_the_gate_says_what_came_out_of_tests_and_how_long_it_took(rich: Pack) -> None:
    root, found = rich
    log, out = root.parent / "gate.log", root / "out/evidence"
    parts = [(it["part"], it["passed"], it["failed"]) for it in found["parts"]]
    assert parts == [("tools/lint", 2, 0), ("tools/proofs", 109, 0), ("tools/cases", 51, 1),
                     ("tools/python-tests office", 700, 0), ("tools/mutants --twins", 1, 0)]
    assert {it["outcome"] for it in found["mutants"]} == {"refused, as it must be",
                                                          "not tried here"}
    cases = {it["case"]: it["outcome"] for it in found["cases"]}
    assert cases.pop("rounds").startswith("NOT as expected")
    assert set(cases.values()) == {"passed (gate.log)"}
    ran = {it["crate"]: it["outcome"] for it in found["tests_of_crates"]}
    assert ran["match_runs"] == "ran, and wrote what its file stdout has (gate.log)"
    assert ran["adm_tests"] == "its tests passed (gate.log)"
    assert ran["desk_runs"] == "not tried here"
    searches = {it["search"]: it["outcome"] for it in found["searches"]}
    assert searches["match_runs"].startswith("ran, ")
    times = {it["what"]: (it["seconds"], it["cpu_seconds"]) for it in found["times"]["logs"]}
    assert times == {"All of it": (4500, 15000)}
    about, digest = found["logs"][0], hashlib.sha256(log.read_bytes()).hexdigest()
    assert about == {"log": "gate.log", "last_line": "860 passed, 1 failed", "ended": True,
                     "is_of_the_gate": True, "sha256": digest, "toolchain": [], "logic": [LOGIC]}
    page = (out / "tests.html").read_text()
    assert "NOT as expected" in page and "700" in page and "No log was given" not in page
    # the log goes with the folder, and the whole last line of each check
    assert (out / "logs/gate.log").read_bytes() == log.read_bytes()
    page = (out / "verdicts.html").read_text()
    assert digest in page and f"{last_line(2)} (gate.log)" in page


def test_a_run_of_the_gate_that_did_not_finish_is_said_to_be_that(rich: Pack) -> None:
    out, found = rich[0] / "out/evidence", rich[1]
    assert verdicts(found)["adm_csv"] == f"{last_line(2)} (cut.log)"
    assert verdicts(found)["adm_wire"] == UNSEEN and not found["logs"][1]["ended"]
    page = (out / "index.html").read_text()
    assert "the run did not finish</strong>" in page and "fn adm_wire::f: proved" in page
    without = re.search("Without a verdict here: (.*)</td>", page)
    assert without and re.findall(r"<code>(\w+)</code>", without[1]) == [
        crate for crate, line in verdicts(found).items() if line == UNSEEN]
    assert "The run of cut.log did not finish" in (out / "tests.html").read_text()
    assert "did not finish, or is cut short" in (out / "verdicts.html").read_text()


@pytest.fixture(name="proof_log", scope="module")
def proof_log_fixture(project: typing.Any) -> proof_logs.ProofLog:
    """What reads the proofs of a log."""
    def deep(crate: str) -> set[str]:
        below = [it for it in project.below[crate] if it in project.below]
        return {crate}.union(*map(deep, below))

    return proof_logs.ProofLog("own.log", deep, {it.crate for it in project.functions})


OWN = "\n".join(("source 0", "crate adm_rank", check_of("adm_lists", 0), check_of("adm_types"),
                 check_of("adm_rank"), "exit 0"))


def test_a_log_of_ones_own_proves_the_crates_below_too(proof_log: proof_logs.ProofLog) -> None:
    found = {it.crate: it.verdict for it in proof_log.proved(OWN.split("\n"))}
    assert found == {"adm_lists": last_line(0), "adm_types": last_line(2), "adm_rank": last_line(2)}
    tests = check_of("adm_rank").replace("proved functions", "proved tests=3 functions")
    text = OWN.replace(check_of("adm_rank"), f"{tests}\n{check_of('adm_rank')}")
    assert len([*proof_log.proved(text.split("\n"))]) == 3


RANK = check_of("adm_rank")


@pytest.mark.parametrize(("old", "new", "wanted"), [
    # a run that was cut, or that goes on
    ("\nexit 0", "", "2: crate adm_rank: no line 'exit 0'"),
    (f"\n{RANK}\nexit 0", "", "2: crate adm_rank: no line 'exit 0'"),
    (f"\n{RANK}", "", "not so of adm_rank"),
    ("exit 0", "exit 1", "exit 1: `rt verdict` of adm_rank did not succeed"),
    ("exit 0", "crate adm_types", "crate adm_rank: no line 'exit 0'"),
    ("exit 0", "rt: this fails the verdict\nexit 0", "ends with the line logic=proved"),
    # lines of another crate
    ("crate adm_rank", "crate adm_fairness", "one check of each of adm_commands, adm_cutoffs"),
    ("crate adm_rank", "crate adm_types", "not so of adm_rank"),
    (check_of("adm_types") + "\n", "", "not so of adm_types"),
    ("fn adm_rank::keys::f1", "fn adm_types::keys::f1", "of another crate than those above"),
    (check_of("adm_types") + f"\n{RANK}", f"{RANK}\n{check_of('adm_rank', 0)}",
     "its own as the last"),
    (f"{check_of('adm_lists', 0)}\n{check_of('adm_types')}\n{RANK}", check_of("adm_rank", 0),
     "one check of each of adm_lists, adm_rank, adm_types"),
    # what the page says to look for
    ("fn adm_rank::keys::f0: proved", "fn adm_rank::keys::f0: not proved", "it must be proved"),
    ("fn adm_rank::keys::f0: proved", "fn adm_rank::keys::f0: assumed", "it must be proved"),
    ("fn adm_rank::keys::f0: proved", "fn adm_rank::keys::f0: could not tell", "must be proved"),
    ("fn adm_rank::keys::f0: proved", "fn adm_rank::keys::f0: proved, may abort", "must be proved"),
    ("fn adm_rank::keys::f0: proved\n", "", "tried 1 of 1 functions'"),
    (RANK, RANK.replace("0 found", "3 found"), "3 found; tried 2 of 2 functions: of each check"),
    (RANK, RANK.replace("2 of 2", "1 of 2"), "tried 1 of 2 functions: of each check"),
    (RANK, re.sub("empty.*\n", "", RANK), "there must be 'empty contracts: 0 found"),
    (RANK, f"note: the work of last time is kept\n{RANK}", "something was kept"),
    (RANK, f"{RANK} incremental=trusted", "took up what was there, or says less"),
    (RANK, f"{RANK} hides=2", "took up what was there, or says less"),
    (RANK, RANK.replace("=proved", "=not-proved"), "this is no line logic=proved"),
    (RANK, re.sub("logic /.*\n", "", RANK), "no line 'logic ..' above has this sum"),
    (RANK, RANK.replace(f"sum={LOGIC}3", "sum=00000000000000003"), "no line 'logic ..' above"),
])
def test_a_log_that_lacks_what_the_page_says_to_look_for_is_refused(
    old: str, new: str, wanted: str, proof_log: proof_logs.ProofLog,
) -> None:
    """With the line, and why."""
    assert OWN.count(old) == 1
    with pytest.raises(page_text.Refused, match=re.escape(wanted)):
        list(proof_log.proved(OWN.replace(old, new).split("\n")))


@pytest.mark.parametrize(("old", "new", "wanted"), [
    ("== adm_rank\n", "", "the lines of its check are not above it"),
    ("== adm_rank", "== adm_types", "the lines of its check are not above it"),
    (RANK, "", "is not the one check of this crate"),
    (RANK, check_of("adm_types"), "is not the one check of this crate"),
    (RANK, check_of("adm_rank", 0), "adm_rank has functions, and this check has none"),
    (": proved\nempty", ": not proved\nempty", "f1: not proved: it must be proved"),
    ("rt: adm_rank proved", "rt: adm_rank: its tests are proved", "not above it"),
])
def test_a_log_of_the_gate_is_looked_at_likewise(
    old: str, new: str, wanted: str, proof_log: proof_logs.ProofLog,
) -> None:
    text = gate_of("adm_rank")
    assert [it.crate for it in proof_log.proved(text.split("\n"))] == ["adm_rank"]
    assert text.count(old) == 1
    with pytest.raises(page_text.Refused, match=re.escape(wanted)):
        list(proof_log.proved(text.replace(old, new).split("\n")))


def test_a_log_of_ones_own_has_the_source_and_the_crate_of_each_verdict(
    copy: pathlib.Path, pack: Pack, read: typing.Any
) -> None:
    """As the page says that it is made, by a toolchain that prints this."""
    page = html.unescape((pack[0] / "out/evidence/repeat.html").read_text())
    command = re.findall(r"(?m)^(\{ tools/proved_source.py.*) > \.\./adm_rank\.log", page)
    assert len(command) == 1
    room, log = copy.parent / "toolchain", copy.parent / "own.log"
    room.mkdir()
    printed = OWN.removeprefix("source 0\ncrate adm_rank\n").removesuffix("\nexit 0")
    (room / "printed").write_text(f"{printed}\n")
    kit = f"rattle-kit-13b logic {LOGIC}"
    (room / "rt").write_text('#!/bin/sh\n[ "$1" = version ] && echo "' + kit + '" ||'
                             f' cat "{room}/printed"\n')
    (room / "rt").chmod(0o755)
    done = run(copy, "bash", "-c", command[0], PATH=f"{room}:{os.environ['PATH']}")
    assert done.returncode == 0 and done.stdout.splitlines()[2] == "crate adm_rank"
    log.write_text(done.stdout)
    found = read(log)
    assert {*seen(found)} == {"adm_lists", "adm_types", "adm_rank"}
    assert seen(found)["adm_rank"] == f"{last_line(2)} (own.log)"
    assert {it["made"] for it in found.crates() if it["crate"] == "adm_rank"} == {"from nothing"}
    [about] = found.logs.given
    assert about["ended"] and about["toolchain"] == [kit] and about["logic"] == [LOGIC]
    # cut while the last crate was proved, as the toolchain leaves it
    for text, wanted in (
            (done.stdout.partition("fn adm_rank")[0], "crate adm_rank: no line 'exit 0'"),
            ("\n".join(done.stdout.splitlines()[1:]), "is no log of this source")):
        log.write_text(text)
        with pytest.raises(page_text.Refused, match=wanted):
            read(log)
    (copy / "own.log").write_text(done.stdout)
    log.write_text(done.stdout)
    with pytest.raises(page_text.Refused, match="another log that was given has this name"):
        read(log, copy / "own.log")


def test_times_are_those_of_a_build_from_nothing_in_units_of_the_machine(
    rich: Pack, tmp_path: pathlib.Path, monkeypatch: pytest.MonkeyPatch
) -> None:
    found = {it["crate"]: (it["alone"], it["with_those_below"])
             for it in rich[1]["times"]["crates"]}
    assert repeats.in_units(100, None) == "100 s" and repeats.in_units(None, 40) == ""
    assert found["adm_types"] == ("100 s, 2.50 units", "120 s, 3.00 units")
    assert found["adm_rank"] == found["adm_match"] == ("", "")
    page = (rich[0] / "out/evidence/repeat.html").read_text()
    assert "a unit is 40 CPU seconds" in page and "All times below are of one machine" in page
    (tmp_path / "out").mkdir()
    (tmp_path / "out/unit").write_text("no toolchain\n")
    monkeypatch.chdir(tmp_path)
    with pytest.raises(page_text.Refused, match="out/unit is not what tools/unit prints"):
        repeats.unit()


def release_in(root: pathlib.Path) -> None:
    """Makes a release of the commit of a copy, but for its packages."""
    home, room = root.parent / "gpg", root / "out/release"
    home.mkdir(mode=0o700)
    room.mkdir(parents=True)
    gpg = ("gpg", "--batch", "--quiet", "--homedir", home)
    try:
        done = run(root, *gpg, "--passphrase", "", "--quick-generate-key", "A test", "ed25519",
                   "sign", "never")
        assert done.returncode == 0, done.stderr
        (room / "admissions-archive.asc").write_text(run(root, *gpg, "--armor", "--export").stdout)
    finally:
        run(root, "gpgconf", "--homedir", home, "--kill", "all")
    manifest = {"commit": run(root, "git", "rev-parse", "HEAD").stdout.strip(),
                "package": "admissions 1.2", "verdict_of_the_gate": None,
                "program": {"sha256": "ab" * 32}}
    (room / "manifest.json").write_text(json.dumps(manifest))
    digest = hashlib.sha256((room / "manifest.json").read_bytes()).hexdigest()
    (room / "SHA256SUMS").write_text(f"{digest}  manifest.json\n")


def test_the_fingerprints_of_a_release_of_this_commit_are_there(
    rich: Pack, pack: Pack, monkeypatch: pytest.MonkeyPatch
) -> None:
    assert pack[1]["release"] == {"is": "none"}
    page = (pack[0] / "out/evidence/trust.html").read_text()
    assert "there is no <code>out/release</code>" in page
    found, page = rich[1]["release"], (rich[0] / "out/evidence/trust.html").read_text()
    key = "out/release/admissions-archive.asc"
    shown = run(rich[0], "gpg", "--show-keys", "--with-colons", key,
                GNUPGHOME=str(rich[0].parent / "gpg")).stdout
    assert found["keys"] == re.findall(r"(?m)^fpr:+([0-9A-F]{40}):", shown) and found["keys"]
    assert found["manifest"] in page and found["keys"][0] in page
    assert "null: no gate has judged this program" in page
    monkeypatch.chdir(rich[0])
    commit = rich[1]["commit"]
    assert repeats.release("0" * 40) == {"is": "of another commit", "commit": commit}
    monkeypatch.setattr(repeats, "RELEASE", rich[0].parent / "another")
    shutil.copytree(rich[0] / "out/release", rich[0].parent / "another")
    (rich[0].parent / "another/SHA256SUMS").write_text("0  manifest.json\n")
    with pytest.raises(page_text.Refused, match="is not the file that"):
        repeats.release(commit)


WORD_OF_A_PATH = re.compile(r"(?<![\w/.$<-])(?:crates|mutants|cases|office|deploy|docs|tools|bench"
                            r"|debian|examples)/[\w./*-]*\w")


def texts_of(page: str) -> list[str]:
    """The texts of a page, without its links and marks."""
    return re.sub(r"(?s)<(a|style)\b.*?</\1>", "", page).replace("<", "\n<").split("\n")


def test_what_a_page_names_is_in_the_folder_or_in_the_repository(pack: Pack) -> None:
    copy, _ = pack
    out, guides = copy / "out/evidence", pathlib.Path(shutil.which("rt") or "").resolve().parents[1]
    for page in out.glob("*.html"):
        text = page.read_text()
        for line in texts_of(text):
            words = re.sub(r"<[^>]*>", " ", line)
            for name in WORD_OF_A_PATH.findall(words):
                is_there = "NAME" in name or list(copy.glob(name)) or name in ("tools/cases",)
                assert is_there, f"{page.name}: {name}"
            for name in re.findall(r"\b(?:docs/(?:[a-z]+/)?)?[A-Z][A-Z_-]+\.md\b", words):
                # (a page of the repository is a link)
                assert not (copy / name).exists(), f"{page.name}: {name}"
                assert (guides / "rattle" / name).exists() or (
                    guides / "rattle/docs" / name).exists(), f"{page.name}: {name}"
                assert 'href="verdicts.html#guides"' in text or 'id="guides"' in text
    anchors = {it.name: set(re.findall(r'id="([^"]*)"', it.read_text()))
               for it in out.glob("pages/*.html")}
    for page in out.glob("*.html"):
        found = re.findall(r'\bid="([^"]*)"', page.read_text())
        assert len(found) == len(set(found)), page.name
    for page in (*out.glob("*.html"), *out.glob("*/*.html")):
        for target, anchor in re.findall(r'href="([^"#]*)(?:#([^"]*))?"', page.read_text()):
            path = (page.parent / (target or page.name)).resolve()
            assert path.is_file(), f"{page}: {target}"
            assert not anchor or path.name not in anchors or anchor in anchors[path.name]


@pytest.fixture(name="project", scope="module")
def project_fixture() -> typing.Any:
    """The repository, as tools/reference reads it."""
    before = pathlib.Path.cwd()
    os.chdir(ROOT)
    yield loaded(pathlib.Path("tools/reference")).Project()
    os.chdir(before)


@pytest.fixture(name="promises")
def promises_fixture(project: typing.Any, monkeypatch: pytest.MonkeyPatch) -> typing.Any:
    """What is promised, read anew, with other pages if they were changed."""
    monkeypatch.chdir(ROOT)
    reference = loaded(ROOT / "tools/reference")
    return lambda: promised.Promised(reference, project, {"races", "sweep", "deploy-check"})


def test_a_fill_takes_the_first_as_it_is_claimed(promises: typing.Any) -> None:
    """From the sentence of the promise to the clause, the definition, and what it assumes."""
    it = promises()
    claim = next(
        one for one in it.claims() if one["claim"] == "Waiting lists follow the criteria")
    said = claim["sentences"][1]
    assert said["text"].startswith("A fill offers a vacancy to the first child that waits")
    named = {one["name"]: one["by"] for one in said["clauses"]}
    assert named == {"adm_commands::propose: step": ["adm_commands.html#Fill.IsFillResult"],
                     "adm_waiting::first_by_lot: first": [],
                     "adm_fairness::fill_takes_the_first": []}
    law = it.clause(it.named["adm_fairness.code.fill_takes_the_first:1"], "seen")
    assert law["text"] == "FillTakesTheFirst" and not law["requires"]
    assert [one["text"] for one in law["assumes"]] == [
        "WellFormed old", "Accepts old (Fill draw code day numbers) new"]
    assert {one["of"] for one in law["assumes"]} == {"FillTakesTheFirst"}
    assert law["assumes"][0]["definitions"] == ["adm_register.html#WellFormed.WellFormed"]
    one = it.clause(it.named["adm_waiting.vacancies.first_by_lot:first"], "seen")
    assert [row["name"] for row in one["requires"]] == ["school", "children", "numbers"]


@pytest.mark.parametrize(("function", "assumed"), [
    (("adm_fairness", "plan_is_kept"), {
        ("admits", "has_plan s.places child ≡ false"),
        ("stays", "WellFormed old"), ("stays", "AllByRecursion KeptByTypes commands")}),
    (("adm_fairness", "no_gain_by_declining"), {
        ("", "AreOutcomes old numbers before"), ("", "WellFormed old"),
        ("", "lots_fault new drawn ≡ None")}),
    (("adm_crashes", "handle_all"), {("", "IfOk result"), ("", "desk.old.failed ≡ false")}),
    (("adm_program_laws", "answered_is_found"), {
        ("", "IsFileOf first before"), ("", "RunsOver g before run after")}),
    # (an equation is the first of several premises)
    (("adm_program_laws", "run_once_more"), {
        ("", "HoldsAfterRuns first runs (held_by_named held did.read)"),
        ("", "IsFileOf first (held_by_named held did.read)"),
        ("", "HoldsNone (held_by_named held did.read)"),
        ("", "MayRemain (held_by_named held did.read) end.remains after")}),
    # (in an alternative)
    (("adm_desk", "Desk::handle"), {("", "old.failed ≡ false")}),
])
def test_premises_are_read_from_the_source(
    function: tuple[str, str], assumed: set[tuple[str, str]], project: typing.Any
) -> None:
    """Those of the clause, and of the definition that it names; not of what this concludes."""
    found = premises.Premises(project)
    rows = {(one.field, one.text) for it in project.functions if (it.crate, it.name) == function
            for clause in it.clauses if clause.kind == "ensures"
            for one in found.of_clause(clause) if one.depth < 2}
    assert assumed <= rows
    assert not any("→" in premises.bare(text) and text.startswith("λ") for _, text in rows)


def test_what_a_premise_reaches_is_assumed_where_its_definition_says_so(pack: Pack) -> None:
    """Of the law of crashes: the size of pages, which tools/promises.md calls assumed; and what
    the rows assume in words, as known bytes."""
    copy, found = pack
    key = "adm_program_laws.html#SuccessiveRuns.HavePagesOf"
    assert found["assumed"]["by_definitions"] == [key]
    clauses = {it["name"]: it for it in found["clauses"]}
    for name in ("runs_in_order: runs", "runs_in_order: run", "run_once_more: kept"):
        assert clauses[f"adm_program_laws::{name}"]["assumes_by"] == [key]
    assert clauses["adm_program_laws::runs_in_order: opened"]["assumes_by"] == []
    rows = [it["text"] for it in clauses["adm_program_laws::answered_is_found"]["rows_assume"]]
    assert rows == ["files of a register; known bytes of the connections"]
    assert {it["number"] for it in found["promises"] for title in it["said"]
            if title.startswith("Assumes")} == {
        one["number"] for it in found["clauses"] for one in it["rows_assume"]}
    pages = {name: (copy / f"out/evidence/{name}.html").read_text()
             for name in ("claims", "clauses", "trust")}
    claim = pages["claims"].partition('id="claim-17"')[2].partition("<h3")[0]
    assert "known bytes of the connections" in claim and "known bytes of" in pages["trust"]
    assert "'Known bytes' are those of" in html.unescape(pages["trust"])
    for name in ("clauses", "trust"):
        assert "has pages of this size" in pages[name]
    assert "believes the text of a log" in pages["trust"]
    assert ">1 conditions" not in pages["clauses"]


def test_a_definition_that_assumes_something_is_among_those_that_are_shown(
    promises: typing.Any, monkeypatch: pytest.MonkeyPatch
) -> None:
    monkeypatch.setattr(promised, "ASSUMED", ("SuccessiveRuns.HavePages",))
    wanted = "SuccessiveRuns.MayStay says that something is assumed"
    with pytest.raises(page_text.Refused, match=wanted):
        promises()


def test_a_mutant_is_listed_by_what_it_attacks_with_its_edit_and_its_command(pack: Pack) -> None:
    copy, found = pack
    pages = {name: (copy / f"out/evidence/{name}.html").read_text()
             for name in ("mutants", "definitions")}
    attacked = {it["id"]: it for it in found["attacked"]}
    for it in found["mutants"]:
        assert it["attacks"] and it["command"] == f"tools/mutants {it['mutant']}"
        kinds = {attacked[key]["kind"] for key in it["attacks"]}
        is_of_definition = kinds == {"definition"}
        assert is_of_definition or "definition" not in kinds
        name = "definitions" if is_of_definition else "mutants"
        assert f'id="{it["mutant"]}"' in pages[name]
        assert f'id="{it["mutant"]}"' not in pages["mutants" if is_of_definition else "definitions"]
        for edit in it["edits"]:
            path, _, line = edit["place"].rpartition(":")
            assert "/specs/" in path if is_of_definition else "/src/" in path
            lines = (copy / path).read_text().splitlines()
            # (a line that two edits change is shown as the first one has left it)
            places = [one["place"] for one in it["edits"]]
            assert places.count(edit["place"]) > 1 or (
                lines[int(line) - 1].strip() == edit["before"])
        same = all(edit["before"] == edit["after"] for edit in it["edits"])
        assert it["changes_nothing"] == same
    assert pages["mutants"].count("This edit changes nothing") == len(
        [it for it in found["mutants"] if it["changes_nothing"]])
    assert not [it["name"] for it in found["attacked"]
                if it["kind"] == "function" and not it["clauses"]]
    given = next(it for it in found["attacked"] if it["name"] == "OpenFault::from")
    assert [(it["name"], it["text"]) for it in given["clauses"]] == [
        ("from_gives", "λ fault outer. outer ≡ of_rows fault")]
    assert [it["name"] for it in given["names"]] == ["of_rows"]
    # one of a function that carries a promise, one of a definition that a promise reaches
    clause = next(it for it in found["clauses"]
                  if it["id"] == "adm_types.child_no.ChildNo::new:valid")
    assert clause["mutants"] == ["adm_types/highest_child_number_refused"]
    law = next(it for it in found["clauses"] if it["name"] == "adm_fairness::plan_is_kept")
    assert "adm_fairness/a_second_plan" in law["mutants_of_definitions"]
    assert "adm_fairness/a_second_plan" not in law["mutants"]


def test_each_clause_says_whether_the_program_calls_its_function(pack: Pack) -> None:
    """And leads to the mutants of the functions that it calls, or that a law speaks of."""
    copy, found = pack
    clauses = {it["name"]: it for it in found["clauses"]}

    def far(name: str, how: str) -> dict[str, int]:
        return {one["name"]: one["distance"] for one in clauses[name][how]}

    step = clauses["adm_commands::propose: step"]
    assert step["beside"] == "" and step["speaks_of"] == []
    called = far("adm_commands::propose: step", "calls")
    assert called["allot"] < called["offers"]
    law = clauses["adm_crashes::run_commands: keeps"]
    assert law["beside"] == "a law beside the program"
    assert "Desk::handle" in far("adm_crashes::run_commands: keeps", "calls")
    law = clauses["adm_fairness::fill_takes_the_first"]
    assert law["beside"] == "a law beside the program, and calls nothing"
    assert law["calls"] == [] and "first_by_lot" in far(
        "adm_fairness::fill_takes_the_first", "speaks_of")
    law = clauses["adm_rank::keys_compare_by_rank"]
    assert law["beside"] == "in a crate of the program, which does not call it, and calls nothing"
    counts = {it["id"]: sum(it["id"] in one["attacks"] for one in found["mutants"])
              for it in found["attacked"]}
    for it in found["clauses"]:
        for one in (*it["calls"], *it["speaks_of"]):
            assert one["mutants"] == counts[one["id"]] > 0 and one["id"] != it["function_id"]
            assert one["distance"] >= 1
    claim = (copy / "out/evidence/claims.html").read_text()
    claim = claim.partition('id="claim-17"')[2].partition("<h3")[0]
    assert "; a law beside the program" in claim
    # the types that a clause speaks of, with their fields
    types = {it["name"]: it["page"] for it in clauses["adm_rank::RankKey::ranks_before"]["types"]}
    assert types["RankKey"] == "reference/adm_rank.html#keys.RankKey"
    assert 'id="keys.RankKey"' in (copy / "out/evidence/reference/adm_rank.html").read_text()
    page = (copy / "out/evidence/clauses.html").read_text()
    assert "by how many calls are between" in page and "The program calls this function." in page
    assert "No mutant attacks a function that it calls." in page


def test_calls_are_read_from_bodies_without_their_clauses() -> None:
    text = "fn rank(a: T) -> u8\n  requires { of(a) }\n  ensures one { x { to(a) } }\n{ by(a) }"
    assert calls.body_of(text) == "fn(a: T) -> u8\n  \n  \n{ by(a) }"
    found = [(it["owner"], it["dot"], it["name"], bool(it["called"])) for it in
             calls.CALL.finditer("Key::new(a.get(), plain::<u8>(b), Self::of)")]
    assert found == [("Key", None, "new", True), (None, None, "a", False),
                     (None, ".", "get", True), (None, None, "plain", True),
                     (None, None, "b", False), ("Self", None, "of", False)]


SOURCE = """use std::cmp::Ord;

/// A limit.
pub(crate) const MOST: u64 = 3;

impl<T: Copy> Ranks<T> for (T, Others)
where
    T: Ord,
{
    fn rank(&self, list: [u8; 4]) -> u8
        requires { list ≡ [] }
        ensures first { result ≡ 1 }
        ensures second { (x : ℕ) × (x ≡ result) }
    {
        self.of(|it| {
            it + 1
        })
    }

    fn other() -> u8 {
        2
    }
}
"""


def test_what_an_edit_attacks_is_read_from_the_source(
    project: typing.Any, tmp_path: pathlib.Path, monkeypatch: pytest.MonkeyPatch
) -> None:
    reference = loaded(ROOT / "tools/reference")
    crate = tmp_path / "crates/adm_x"
    (crate / "src").mkdir(parents=True)
    (crate / "src/it.rt").write_text(SOURCE)
    monkeypatch.chdir(tmp_path)
    it = planted.Planted(reference, project)
    edit = tmp_path / "a.edit"
    edit.write_text("file: src/it.rt\nold: it + 1\nnew: it + 2\nold: it + 2\nnew: it + 3\n"
                    "old: Ord;\nnew: Eq;\n")
    edits = planted.edits_of(pathlib.Path("crates/adm_x"), edit)
    assert [(one.line, one.before.strip(), one.after.strip()) for one in edits] == [
        (16, "it + 1", "it + 2"), (16, "it + 2", "it + 3"),
        (1, "use std::cmp::Ord;", "use std::cmp::Eq;")]
    [found] = it.attacked("adm_x", edits)
    assert (found["name"], found["trait"]) == ("(T, Others)::rank", "Ranks")
    assert [(one.kind, one.name, one.text) for one in found["clauses"]] == [
        ("requires", "", "list ≡ []"), ("ensures", "first", "result ≡ 1"),
        ("ensures", "second", "(x : ℕ) × (x ≡ result)")]
    rank, other = "`(T, Others)::rank`", "`(T, Others)::other`"
    for line, place in ((13, f"the clause `ensures second` of {rank}"),
                        (12, f"the clause `ensures first` of {rank}"),
                        (11, f"the clause `requires` of {rank}"), (16, f"the body of {rank}"),
                        (20, f"the body of {other}"), (1, "")):
        outcome = f"refused, as it must be: note: src/it.rt:{line}:5: no"
        assert it.refused_at("adm_x", outcome) == place
    for line in (3, 4):
        part = it.part_at("adm_x", "src/it.rt", line)
        assert part and (part.kind, part.name) == ("item", "MOST")


def test_one_mutant_is_tried_whether_the_gate_tries_it_or_not(copy: pathlib.Path) -> None:
    """By a toolchain that prints which edits it was given."""
    room = copy.parent / "toolchain"
    room.mkdir()
    (room / "rt").write_text('#!/bin/sh\necho "rt $*"\nls crates/*/must-fail/*\nexit 1\n')
    (room / "rt").chmod(0o755)
    path = f"{room}:{os.environ['PATH']}"
    gate, other = "adm_types/closes_a_day_early", "adm_rank/class_from_zero"
    record = (copy / "tools/rejected").read_text()
    done = run(copy, "tools/mutants", gate, other, PATH=path)
    source, *lines, time = done.stdout.splitlines()
    assert done.returncode == 1 and source.startswith("source ")
    assert lines == ["rt must-fail adm_types adm_rank"] + [
        f"crates/{it.replace('/', '/must-fail/')}.edit" for it in (other, gate)]
    assert (copy / "tools/rejected").read_text() == record
    assert re.fullmatch(rf"tools/mutants {gate} {other}: mutants tried: 2, in \d+ seconds of"
                        " wall-clock time", time) and outcomes.TIMES.fullmatch(time)
    # a twin has no outcome by the name of its mutant
    (room / "rt").write_text("#!/bin/sh\necho 'rt: must-fail adm_fields/"
                             "preferences_of_an_application_reversed.edit: NOT REFUSED: so'\n")
    source, *lines = run(copy, "tools/mutants", "--twins", PATH=path).stdout.splitlines()
    assert lines[-1] == "1 passed, 0 failed" and lines[0].startswith("rt: twin adm_fields/")
    done = run(copy, "tools/mutants", "adm_rank/class_from_one", PATH=path)
    assert done.returncode == 2 and "has no edit/class_from_one" in done.stderr


def test_each_sign_of_a_clause_has_words(
    pack: Pack, tmp_path: pathlib.Path, monkeypatch: pytest.MonkeyPatch
) -> None:
    copy, found = pack
    for name in ("claims", "promises", "clauses", "mutants", "definitions"):
        page = (copy / f"out/evidence/{name}.html").read_text().partition("<h1>")[2]
        assert 'href="notation.html"' in page
    page = (copy / "out/evidence/notation.html").read_text()
    for sign in set().union(*(notation.signs_in(it["text"]) for it in found["clauses"])):
        assert sign.replace("&", "&amp;").replace("<", "&lt;").replace(">", "&gt;") in page
    assert {it["name"] for it in found["notation"]["names"] if not it["words"]} == set()
    assert notation.signs_in("a ≢ b -- ⊥\n × \"⊤\"") == {"≢", "×"}
    monkeypatch.chdir(ROOT)
    words = json.loads((ROOT / "tools/notation_words.json").read_text())
    words["signs"] = [it for it in words["signs"] if "⊥" not in it[0]]
    (tmp_path / "words.json").write_text(json.dumps(words))
    monkeypatch.setattr(notation, "WORDS", tmp_path / "words.json")
    with pytest.raises(page_text.Refused, match="has no words for the sign ⊥"):
        notation.Notation().see_signs(["a → ⊥"])


def test_each_name_of_the_toolchain_on_a_page_of_the_reference_has_words(
    pack: Pack, project: typing.Any, tmp_path: pathlib.Path, monkeypatch: pytest.MonkeyPatch
) -> None:
    names = {it["name"] for it in pack[1]["notation"]["names"]}
    assert {"IsStrictlySortedBy", "option_eq", "bytes_eq", "take_while", "option_to_list",
            "is_lt"} <= names
    assert any("suc n" in it["forms"] for it in pack[1]["notation"]["signs"])
    monkeypatch.chdir(ROOT)
    words = json.loads((ROOT / "tools/notation_words.json").read_text())
    del words["names"]["std"]["take_while"]
    (tmp_path / "words.json").write_text(json.dumps(words))
    monkeypatch.setattr(notation, "WORDS", tmp_path / "words.json")
    with pytest.raises(page_text.Refused, match="has no words for take_while of std, which"):
        notation.Notation().document(project, [])


def test_the_first_page_leads_to_the_law_of_crashes_and_counts_claims_by_verdict(
    pack: Pack, rich: Pack
) -> None:
    found, out = pack[1], pack[0] / "out/evidence"
    assert found["claims_by_verdict"] == {"all": 0, "some": 0, "none": len(found["claims"])}
    page = (out / "index.html").read_text()
    assert 'href="reference/headline.txt"' in page and "this folder does not show it" in page
    claim = (out / "claims.html").read_text().partition('id="claim-17"')[2].partition("<h3")[0]
    assert 'href="reference/headline.txt"' in claim
    # (the first has clauses of adm_rank and of adm_fairness)
    counts = rich[1]["claims_by_verdict"]
    assert counts["some"] >= 1 and sum(counts.values()) == len(found["claims"])


@pytest.mark.parametrize(("text", "parts"), [
    ("(a b : State) → P a → (Q → R) → S", ["(a b : State)", "P a", "(Q → R)", "S"]),
    ("IfOk result (λ x. P x → Q)", ["IfOk result (λ x. P x → Q)"]),
    ("All (λ x. P → Q) xs → λ y. R → S", ["All (λ x. P → Q) xs", "λ y. R → S"]),
])
def test_a_statement_is_split_outside_of_brackets(text: str, parts: list[str]) -> None:
    assert premises.split(text, "→") == parts
    assert premises.binders("(a b : State) (c : ℕ)") == ["State", "ℕ"]
    assert [it.body for it in premises.lambdas("Opens a (f b) (λ v. P v → Q) (λ e. (R e))")] == [
        "P v → Q", "(R e)"]
    assert premises.binders("(Q → R)") == [] and premises.bare("((a) × (b))") == "(a) × (b)"


def test_of_each_rule_of_the_code_it_is_said_what_is_not_proved(promises: typing.Any) -> None:
    rules = promises().code()
    page = (ROOT / "docs/trust/GUARANTEES.md").read_text()
    rows = re.findall(r"(?m)^\| .*", page.partition("| The Code |")[2].partition("\n\n")[0])
    assert len(rules) == len(rows) == 12
    assert all(it["proved"] and it["only_tested"] and it["neither"] and it["commands"]
               for it in rules)
    random = next(it for it in rules if it["rule"].startswith("Random allocation"))
    assert "are random" in random["neither"]
    assert not any("random" in said["text"] for said in random["proved"])
    sent = next(it for it in rules if "may be withdrawn" in it["rule"])
    assert "a letter is sent" in sent["neither"]
    fair = next(it for it in rules if "allowed criteria" in it["rule"])
    assert "a criterion is fair" in fair["neither"] and "fair" in fair["proved"][0]["text"]


def test_each_rule_of_the_code_has_its_paragraphs(promises: typing.Any) -> None:
    it = promises()
    rules = it.code()
    given = {rule["rule"]: rule["paragraphs"] for rule in rules}
    assert all(given.values()) and not any("paragraph" in rule for rule in given)
    assert given["Random allocation is supervised by an independent person."] == "1.34 and 1.35"
    first = next(rule for rule in rules if rule["rule"].startswith("Unless the Code"))
    assert first["sections"] == [{"file": "crates/adm_rank/specs/Class.antt",
                                  "sections": "section 1"}]
    for one in (one for rule in rules for one in rule["sections"]):
        assert f"Code 2021, {one['sections']}" in (ROOT / one["file"]).read_text()
    left_out = " ".join(it.points())
    assert all(what in left_out for what in ("appeals", "In-year admissions", "Infant class"))


@pytest.mark.parametrize(("old", "new", "wanted"), [
    ("Every place has a cause\n", "Every place\n", "Every place has a cause: these are not"),
    ("All or nothing\n", "A lie\n  It\n    limit\nAll or nothing\n", "no promise A lie"),
    ("  Nor does a child with a place\n", "  Nor do others\n", "are not the first words of its 4"),
    ("    adm_command_laws::no_better_list\n", "    limit\n    adm_command_laws::no_better_list\n",
     "or 'limit' beside one"),
    ("    adm_command_laws::no_better_list\n", "", "no clause, or 'limit'"),
    ("    adm_command_laws::no_better_list\n", "    adm_command_laws::no_best_list\n",
     "there is no clause adm_command_laws::no_best_list"),
    ("    adm_fairness::no_loss_by_raise\n", "    adm_schema::insert: text\n",
     "there is no clause"),
    ("Round.AreOutcomes, Stability.IsBest\n", "Round.AreOutcome\n",
     "reaches no definition Round.AreOutcome"),
])
def test_a_sentence_without_its_clause_is_an_error(
    old: str, new: str, wanted: str, promises: typing.Any, tmp_path: pathlib.Path,
    monkeypatch: pytest.MonkeyPatch,
) -> None:
    text = (ROOT / "tools/claims.txt").read_text()
    assert text.count(old) == 1
    (tmp_path / "claims.txt").write_text(text.replace(old, new))
    monkeypatch.setattr(claims, "TABLE", tmp_path / "claims.txt")
    with pytest.raises(page_text.Refused, match=re.escape(wanted)):
        promises()


BEST = "`allot`: `best`; `adm_match`::`offers`: `best` |"
SIZES = "`cases/sizes`, `cases/children`"


@pytest.mark.parametrize(("name", "old", "new", "wanted"), [
    ("tools/promises.md", BEST, BEST.replace("`offers`: `best`", "`offers`: `least`"),
     "`least` does not resolve"),
    ("tools/promises.md", f"`adm_commands`::`propose`: `step`; `adm_round`::{BEST}", "|",
     "this promise has no clause: A round gives the child-optimal stable allocation"),
    ("tools/promises.md", SIZES, SIZES.replace("sizes", "lengths"),
     "the test `cases/lengths`, which is not there"),
    ("tools/promises.md", "| each case in which it succeeds; `desk_runs` |", "| each case |",
     "this row names no test: a call that always reports Memory"),
    ("tools/promises.md", "| ranked again |", "| ordered again |",
     "this rule has no 'ordered again'"),
    ("tools/promises.md", "`office/tests/test_lists.py` |", "the tests |",
     "no test is named"),
    ("docs/trust/GUARANTEES.md", "### All or nothing\n", "", "confirmed: these are not the first"),
    ("docs/trust/GUARANTEES.md", "by the same lots, by declining its place first.",
     "by the same lots, by declining its place first. Nor later.", "words of its 2 sentences"),
])
def test_what_is_missing_is_an_error(
    name: str, old: str, new: str, wanted: str, promises: typing.Any, project: typing.Any,
    tmp_path: pathlib.Path, monkeypatch: pytest.MonkeyPatch,
) -> None:
    """Over the repository with one page changed."""
    folders = (ROOT / "docs", ROOT / "docs/trust", ROOT / "tools")
    for folder in (ROOT, *folders):
        (tmp_path / folder.relative_to(ROOT)).mkdir(exist_ok=True)
        for it in folder.iterdir():
            if it not in folders:
                (tmp_path / it.relative_to(ROOT)).symlink_to(it)
    text = (ROOT / name).read_text()
    assert text.count(old) == 1
    (tmp_path / name).unlink()
    (tmp_path / name).write_text(text.replace(old, new))
    monkeypatch.chdir(tmp_path)
    monkeypatch.setattr(project, "failures", [])
    monkeypatch.setattr(project, "rows", project.all_rows())
    found = "\n".join(project.failures)
    if not found:
        with pytest.raises(page_text.Refused) as raised:
            changed = promises()
            changed.code()
            changed.only_tested()
        found = str(raised.value)
    assert wanted in found


def test_a_page_that_does_not_fit_leaves_what_was_there(copy: pathlib.Path) -> None:
    (copy / "out/evidence").mkdir(parents=True)
    (copy / "out/evidence/index.html").write_text("as it was")
    change(copy, "docs/trust/GUARANTEES.md", "### All or nothing\n", "")
    done = run(copy, "tools/evidence")
    assert done.returncode == 1 and done.stdout == ""
    assert "A crash loses nothing that was confirmed: these are not" in done.stderr
    assert files(copy) == {"index.html": b"as it was"}


def test_a_missing_tool_is_named_with_its_package(
    copy: pathlib.Path, tmp_path: pathlib.Path
) -> None:
    (tmp_path / "env").mkdir()
    (tmp_path / "env/python3").symlink_to("/usr/bin/python3")
    done = run(copy, "/usr/bin/python3", "tools/evidence", PATH=str(tmp_path / "env"))
    assert done.returncode == 1 and done.stdout == ""
    assert "apt-get install git graphviz\n" in done.stderr
