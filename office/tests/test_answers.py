"""The batch of answers in the application: what is typed, uploaded or pasted, and recorded."""
import io
import pathlib
import threading
from collections.abc import Iterator
from typing import Any

import openpyxl
import pytest
from applications import Site, child, office_over, site
from conftest import make
from offers import PAGE, enter, offered, pile, record, sent, shown
from pages import Page, press
from register_files import Refused
from served import served

from office.web.answers import piles, rows
from office.web.answers import entries as answers
from office.web.answers.views import answers as screen
from office.web.people.roles import Person
from office.web.register.desk import LOST, Result


@pytest.fixture(name="office")
def office_fixture(tmp_path: pathlib.Path) -> Iterator[Site]:
    """The application over that register."""
    with office_over(tmp_path, offered()) as found:
        yield found


def recorded(page: Page) -> list[list[str]]:
    """The rows of those that were recorded, the last first."""
    return [it[:4] for it in page.tables.get("recorded", [])[1:]]


def kinds(office: Site) -> dict[int, str]:
    """How each child has its place."""
    return {number: it.kind for number, it in office.parts.desk.now().places.items()}


def of_keys(page: Page, field: str, button: str) -> int:
    """How many keys lead from a field to a button: Tab until it is there, and Enter."""
    return abs(page.stops.index(button) - page.stops.index(field)) + 1


def test_before_the_first_round_plans_are_explained(tmp_path: pathlib.Path) -> None:
    """Nobody has an offer: what is typed as the example has it is a plan of the batch."""
    with office_over(tmp_path, [it for it in offered() if it["cmd"] != "round"]) as office:
        jane = office.browser("jane")
        text = jane.get(PAGE).text
        assert Page(text).by_id["heading"] == "EHC plans" and "as 17 OAK plan." in text
        assert "To decline" not in text
        record(jane, enter(jane, "17 A plan"), "Record 1 answer")
        assert kinds(office) == {17: "plan"}
        assert sent(office) == [{"cmd": "name_plan", "child": 17, "school": "A"}]


def test_24_answers_need_few_keys(office: Site) -> None:
    """Two figures and Enter for each, and from the field to the button by the keyboard."""
    jane = office.browser("jane")
    numbers = range(11, 35)
    page = enter(jane, *map(str, numbers))
    assert page.focus == "entry" and "Record 24 answers" in page.buttons()
    keys = sum(len(str(it)) + 1 for it in numbers) + of_keys(page, "entry", "record-all")
    question = Page(press(jane, PAGE, page, "Record 24 answers").text)
    # (Tab from the heading to the button, and Enter)
    assert question.focus == "heading"
    assert question.stops[question.stops.index("confirm") - 1] == PAGE
    assert keys + 2 == 24 * 3 + 4
    found = press(jane, PAGE, question, "Record 24 answers")
    assert found.status_code == 303
    assert sent(office) == [
        {"cmd": "accept", "child": it, "school": "A" if it % 2 else "B"} for it in numbers]
    assert {it for it, kind in kinds(office).items() if kind == "accepted"} == set(numbers)
    page = Page(jane.get(found.location).text)
    assert page.said() == "24 of 24 answers are recorded."
    assert len(recorded(page)) == 24 and not pile(page)
    entry = next(it for it in office.parts.history.entries if it.what == "records a pile")
    assert (entry.who, entry.about) == ("jane", {"answers": 24})


def test_an_entry_is_a_number_or_a_name(office: Site) -> None:
    """With a minus for a decline; a name that several have is chosen from them."""
    jane = office.browser("jane")
    page = enter(jane, "11", "12-", "cole", "O'Dare -", "ada", "nobody", "13 Cyd Cole")
    assert pile(page) == [
        ["13 Cyd Cole", "13", "Cyd <b>Cole</b>", "accept", "A",
         "the batch has this answer already"],
        ["nobody", "", "", "accept", "", "0 children have names like it: enter the number"],
        ["ada", "", "", "accept", "", "2 children have names like it: enter the number"],
        ["O'Dare -", "14", "Dai O'Dare", "decline", "B", ""],
        ["cole", "13", "Cyd <b>Cole</b>", "accept", "A", ""],
        ["12-", "12", "Ben Bell", "decline", "B", ""],
        ["11", "11", "Ada Abel", "accept", "A", ""]]
    assert "<b>Cole" not in page.text and "Record 4 answers" in page.buttons()
    press(jane, PAGE, page, "It is 15 Ada Abbot: accept")
    assert ["ada", "15", "Ada Abbot", "accept", "A", ""] in pile(shown(jane))
    found = jane.post(PAGE, {"entry": "  "})
    assert found.status_code == 400 and Page(found.text).said() == "Enter a number or a name."


def test_an_entry_that_is_not_added_stays_in_its_field(
    office: Site, monkeypatch: pytest.MonkeyPatch
) -> None:
    """A batch that is full takes no more, and what was typed is there."""
    jane = office.browser("jane")
    jane.get(PAGE)
    monkeypatch.setattr(piles, "MOST", 0)
    found = jane.post(PAGE, {"entry": "11-"})
    page = Page(found.text)
    assert found.status_code == 409 and "at most 0 answers" in page.said()
    assert page.fields["entry"]["value"] == "11-" and not pile(page)


def test_declines_are_confirmed_by_name(office: Site) -> None:
    """Nothing is sent before; the final button is not the one with the focus."""
    jane = office.browser("jane")
    page = enter(jane, "11", "12-", "13-")
    office.parts.desk.send(Person("bo", "officer"), {"cmd": "accept", "child": 12, "school": "B"})
    # (the batch was read after it, so that 12 is in conflict, and is added again)
    press(jane, PAGE, shown(jane), "Remove 12-")
    page = enter(jane, "12-")
    before = len(sent(office))
    question = Page(press(jane, PAGE, page, "Record 3 answers").text)
    assert len(sent(office)) == before
    assert question.by_id["final"].split("\n  ") and "Ben Bell" in question.by_id["final"]
    assert "child 13, Cyd <b>Cole</b>, at A Alpha" in " ".join(question.by_id["final"].split())
    assert "child 12, Ben Bell, at B Beta, which was accepted" in " ".join(
        question.by_id["final"].split())
    assert "Ada Abel" not in question.by_id["final"]
    assert question.focus == "heading"
    found = press(jane, PAGE, question, "Record 3 answers")
    assert found.status_code == 303
    assert sent(office)[before:] == [{"cmd": "accept", "child": 11, "school": "A"},
                                     {"cmd": "decline", "child": 13, "school": "A"},
                                     {"cmd": "decline", "child": 12, "school": "B"}]
    assert {12, 13}.isdisjoint(kinds(office))
    page = enter(jane, "14-")
    question = Page(press(jane, PAGE, page, "Record 1 answer").text)
    assert "Record 1 answer, with that of Dai O'Dare" in question.buttons()


def test_accepts_are_confirmed_by_name(office: Site) -> None:
    """Nothing is recorded before a question that names each child. Those whose number alone was
    typed stand first: their names are seen there for the first time.
    """
    jane = office.browser("jane")
    page = enter(jane, "12 Ben Bell", "cole", "14", "15")
    question = Page(press(jane, PAGE, page, "Record 4 answers").text)
    assert sent(office) == [] and "final" not in question.by_id
    assert " ".join(question.by_id["by-number"].split()) == (
        "accept: child 14, Dai O'Dare, at B Beta accept: child 15, Ada Abbot, at A Alpha")
    assert " ".join(question.by_id["accepts"].split()) == (
        "accept: child 12, Ben Bell, at B Beta accept: child 13, Cyd <b>Cole</b>, at A Alpha")
    assert question.text.index("Ada Abbot") < question.text.index("Ben Bell")
    assert question.focus == "heading", "no key confirms at once"
    assert press(jane, PAGE, question, "Record 4 answers").status_code == 303
    assert [it["child"] for it in sent(office)] == [12, 13, 14, 15]
    page = enter(jane, "16")
    question = Page(press(jane, PAGE, page, "Record 1 answer").text)
    assert "Record 1 answer, with that of =1+1" in question.buttons()


def test_a_question_about_a_pile_has_an_address(office: Site) -> None:
    """So that the way back in a browser sends no form again. Of a batch that changed, it shows
    none.
    """
    jane = office.browser("jane")
    page = enter(jane, "11", "12-")
    for button in ("Record 2 answers", "Remove all 2 answers from the batch"):
        assert page.form(button).method == "get"
    question = press(jane, PAGE, page, "Record 2 answers")
    again = jane.get(question.request.full_path)
    assert question.status_code == again.status_code == 200 and "Ben Bell" in again.text
    enter(jane, "13")
    late = jane.get(question.request.full_path)
    assert late.status_code == 409 and "has changed since it was shown" in Page(late.text).said()
    assert jane.get("/answers/remove?number=17").status_code == 303
    assert len(pile(shown(jane))) == 3 and sent(office) == []


def test_conflicts_are_named_and_not_sent(office: Site) -> None:
    """No offer, answered already, no such child, two answers for one child."""
    desk, jane = office.parts.desk, office.browser("jane")
    for command in ({"cmd": "accept", "child": 20, "school": "B"},
                    {"cmd": "name_plan", "child": 21, "school": "B"}):
        assert desk.send(Person("bo", "officer"), command).is_done
    page = enter(jane, "20", "21-", "41", "9999999", "11", "11-", "12")
    against = {row[0]: row[5] for row in pile(page)}
    assert against == {
        "20": "the place is accepted already",
        "21-": "there is no offer to answer: The child has a place at Beta by a plan.",
        "41": "there is no offer to answer: The child has no place.",
        "9999999": "the register has no child 9999999",
        "11": "the batch has another answer for this child",
        "11-": "the batch has another answer for this child", "12": ""}
    before = len(sent(office))
    record(jane, page, "Record 1 answer")
    assert sent(office)[before:] == [{"cmd": "accept", "child": 12, "school": "B"}]
    assert len(pile(shown(jane))) == 6
    press(jane, PAGE, shown(jane), "Remove 11-")
    assert "Record 1 answer" in shown(jane).buttons()
    page = Page(press(jane, PAGE, shown(jane), "Remove all 5 answers from the batch").text)
    press(jane, f"{PAGE}remove", page, "Remove 5 answers")
    assert pile(shown(jane)) == [] and len(recorded(shown(jane))) == 1
    press(jane, PAGE, shown(jane), "Clear this list")
    assert recorded(shown(jane)) == []


def test_all_of_a_pile_is_removed_after_a_question(office: Site) -> None:
    """That shows what is removed, and names how many; what was added since is not removed unseen.
    """
    jane = office.browser("jane")
    page = enter(jane, "11", "12-")
    question = Page(press(jane, PAGE, page, "Remove all 2 answers from the batch").text)
    assert len(pile(shown(jane))) == 2
    assert " ".join(question.by_id["removed"].split()) == (
        "11: accept Ada Abel 12-: decline Ben Bell")
    assert question.buttons()[-1] == "Remove 2 answers"
    enter(jane, "13")
    question = Page(press(jane, f"{PAGE}remove", question, "Remove 2 answers").text)
    assert "Nothing was removed" in question.said() and len(pile(shown(jane))) == 3
    press(jane, f"{PAGE}remove", question, "Remove 3 answers")
    assert pile(shown(jane)) == [] and sent(office) == []


def test_what_a_colleague_did_meanwhile_is_named(office: Site) -> None:
    """Before the batch is shown, and between that and the sending."""
    jane, bo = office.browser("jane"), office.browser("bo")
    page = enter(jane, "11-", "12", "13")
    assert "jane has an answer for this child in a batch too" in pile(enter(bo, "12"))[0][5]
    record(bo, shown(bo), "Record 1 answer")
    found = press(jane, PAGE, page, "Record 3 answers")
    again = Page(found.text)
    assert found.status_code == 409 and "The batch has changed since it was shown" in again.said()
    row = next(it for it in pile(again) if it[0] == "12")
    assert row[5].startswith("Child 12: bo recorded accept at ")
    assert [it["child"] for it in sent(office)] == [12]
    # while the batch is sent
    desk = office.parts.desk
    kept = desk.request

    def late(who: Person, about: dict[str, Any], *more: Any) -> Result:
        if about["command"]["child"] == 13 and who.name == "jane":
            desk.send(Person("bo", "officer"), {"cmd": "accept", "child": 13, "school": "A"})
        return kept(who, about, *more)

    setattr(desk, "request", late)
    question = Page(press(jane, PAGE, again, "Record 2 answers").text)
    press(jane, PAGE, question, "Record 2 answers, with that of Ada Abel")
    page = shown(jane)
    assert "2 answers were not recorded" in page.said() or "1 answer was not" in page.said()
    row = next(it for it in pile(page) if it[0] == "13")
    assert "Child 13: bo recorded accept at " in row[5] and "Nothing was recorded now." in row[5]
    assert recorded(page) == [["11", "Ada Abel", "decline", "A"]]


def test_the_same_pile_is_not_recorded_twice(office: Site) -> None:
    """Neither by a form that is sent again nor by two tabs at once."""
    jane = office.browser("jane")
    page = enter(jane, "11", "12")
    question = Page(press(jane, PAGE, page, "Record 2 answers").text)
    assert press(jane, PAGE, question, "Record 2 answers").status_code == 303
    assert press(jane, PAGE, question, "Record 2 answers").status_code == 409
    assert press(jane, PAGE, page, "Record 2 answers").status_code == 409
    assert len(sent(office)) == 2
    found = office.parts.piles
    page = enter(jane, "13")
    entries = [it for it in found.of("jane") if it.state == "waits"]
    held, kept = threading.Event(), office.parts.desk.request

    def slow(*given: Any) -> Result:
        held.wait(20)
        return kept(*given)

    setattr(office.parts.desk, "request", slow)
    found.record(Person("jane", "officer"), entries, 0)
    page = shown(jane)
    assert "The batch is being recorded. 1 answer is left." in page.text
    assert "Look again" in page.by_id["running"] and "refresh" not in page.text
    assert not any(it.startswith("Record ") for it in page.buttons())
    with pytest.raises(Exception, match="is being recorded already"):
        found.record(Person("jane", "officer"), entries, 0)
    held.set()
    job = office.parts.jobs.last("answer jane")
    assert job and job.is_over.wait(20)
    assert [it["child"] for it in sent(office)] == [11, 12, 13]


def test_a_pile_is_kept_by_person(office: Site) -> None:
    """Over a sign-out, and nobody else has it."""
    jane, bo = office.browser("jane"), office.browser("bo")
    enter(jane, "11", "12-")
    assert pile(shown(bo)) == []
    number = office.parts.piles.of("jane")[0].number
    bo.post("/answers/remove", {"number": str(number)})
    bo.post("/answers/choose", {"number": str(number), "child": "13"})
    jane.post("/sign-out")
    again = office.browser("jane")
    assert [it[0] for it in pile(shown(again))] == ["12-", "11"]


@pytest.mark.filterwarnings("ignore::pytest.PytestUnhandledThreadExceptionWarning")
def test_an_application_that_ends_in_the_middle_goes_on(tmp_path: pathlib.Path) -> None:
    """What was recorded is known by the history; the rest is recorded later; nothing is sent twice.
    """
    make(tmp_path / "reg.db", offered())
    with served(tmp_path / "reg.db") as (address, _):
        with site(tmp_path, address) as office:
            jane = office.browser("jane")
            page = enter(jane, "11", "12", "13", "14")
            sender, count = office.parts.desk.sender, [0]
            kept = sender.send

            def ends(line: bytes) -> bytes:
                count[0] += 1
                if count[0] == 4:
                    raise SystemExit
                answer = kept(line)
                if count[0] == 3:
                    raise SystemExit
                return answer

            setattr(sender, "send", ends)
            with pytest.raises(SystemExit):
                record(jane, page, "Record 4 answers")
            states = [it.state for it in office.parts.piles.of("jane")]
            assert states == ["done", "done", "sending", "waits"]
        with site(tmp_path, address) as office:
            office.passwords["jane"] = "jane of the office"
            jane = office.browser("jane")
            page = shown(jane)
            assert [it[0] for it in recorded(page)] == ["13", "12", "11"]
            assert [it[0] for it in pile(page)] == ["14"]
            record(jane, page, "Record 1 answer")
            assert [it["child"] for it in sent(office)] == [11, 12, 13, 14]
            assert {it for it, kind in kinds(office).items() if kind == "accepted"} == {
                11, 12, 13, 14}
            # and one that was on record and never reached the register
            page = enter(jane, "15")
            sender = office.parts.desk.sender

            def lost(_line: bytes) -> bytes:
                raise SystemExit

            setattr(sender, "send", lost)
            with pytest.raises(SystemExit):
                record(jane, page, "Record 1 answer")
        with site(tmp_path, address) as office:
            office.passwords["jane"] = "jane of the office"
            jane = office.browser("jane")
            page = shown(jane)
            assert "There was no answer: not done." in pile(page)[0][5]
            record(jane, page, "Record 1 answer")
            assert kinds(office)[15] == "accepted"


def test_an_answer_that_is_lost_is_looked_up(office: Site, monkeypatch: pytest.MonkeyPatch) -> None:
    """The batch stops there, and says later which of the two it was."""
    jane, desk = office.browser("jane"), office.parts.desk
    page = enter(jane, "11", "12")
    kept = desk.request

    def unsure(who: Person, about: dict[str, Any], *more: Any) -> Result:
        kept(who, about, *more)
        return Result(LOST, "There was no certain answer.", is_known=False)

    monkeypatch.setattr(desk, "request", unsure)
    record(jane, page, "Record 2 answers")
    assert [it["child"] for it in sent(office)] == [11]
    monkeypatch.setattr(desk, "request", kept)
    page = shown(jane)
    assert recorded(page) == [["11", "Ada Abel", "accept", "A"]]
    assert [it[0] for it in pile(page)] == ["12"]


SHEETS = [
    "reply,child,school,name\naccept,11,A,Ada Abel\ndecline,12,B,Ben Bell\n",
    "accept;11;a;Ada ABEL\ndecline;12;B;Bell, Ben\n",
    "accept\t11\tA\tAda Abel\ndecline\t12\tB\t\n",
    "\ufeffchild,school,reply\n11,A,accept\n12,B,decline\n",
    "11 yes\n12-\n",
    "11,Ada Abel,accepts\n12-,Ben Bell\n",
    "\n  accepted 11 Ada Abel \n\n bell -\n",
    "11\tAda Abel\tAlpha\tYES\nno;12;Ben Bell\n",
    "School\tName\tAnswer\tNumber\tReceived\nAlpha\tAda Abel\taccept\t11\t3 March\n"
    "b\tBen Bell\tDeclined\t12\t\n",
]


def several(office: Site, text: str) -> dict[str, list[str]]:
    """The batch of a person after a paste: what each row is taken for."""
    jane = office.browser("jane")
    pile_of = office.parts.piles
    pile_of.remove("jane", (it.number for it in pile_of.of("jane")))
    jane.get(PAGE)
    found = jane.post("/answers/several", {"pasted": text}, content_type="multipart/form-data")
    assert found.status_code == 303, Page(found.text).said()
    return {row[0]: [row[1], row[3], row[5]] for row in pile(shown(jane))}


def test_a_name_of_signs_is_read_once() -> None:
    """One that is read again from each of its signs on would never be done."""
    assert not rows.SIGNS.findall(f"{'-' * 2_000_000}x")
    assert rows.SIGNS.findall("Bell- St. Ives ., 7") == ["-", ".,", "7"]


def test_no_row_is_an_accept_that_does_not_say_so_alone(office: Site) -> None:
    """A decline is one wherever it stands; what is not understood is marked, and is no accept."""
    assert several(office, "12\tBen Bell\tdecline\n14 Dai O'Dare decline\n16,decline\n"
                   "18;declined\nDECLINE,11,A,Ada Abel\n13\tCyd Cole\n") == {
        "12, Ben Bell, decline": ["12", "decline", ""],
        "14 Dai O'Dare decline": ["14", "decline", ""], "16,decline": ["16", "decline", ""],
        "18;declined": ["18", "decline", ""], "DECLINE,11,A,Ada Abel": ["11", "decline", ""],
        "13, Cyd Cole": ["13", "none", "no answer in this row"]}
    found = several(office, "11\tAda Abel\tmaybe\n12 Ben Bell later\n14\t?\n13,-\n15 16\n15,17\n"
                    "19 Child Number19\n18\n")
    assert {it for it, (_, kind, _) in found.items() if kind == "accept"} == {
        "19 Child Number19", "18"}
    assert all(found[it][2] for it in found if found[it][1] != "accept")
    assert '"16" is not understood' in found["15 16"][2]
    assert found["15,17"][2].startswith("this row has the numbers 15 and 17")
    found = several(office, "11,accept,declined\n12,accept\n12 Ben Bell not accepted\n13,A,B,yes\n")
    assert found["11, accept, declined"][2].startswith(
        "this row has the answers accept and declined")
    assert found["13, A, B, yes"][2].startswith("this row has the schools A and B")
    assert found["12 Ben Bell not accepted"][1] == "none"
    assert found["12 Ben Bell not accepted"][2].startswith("no answer in this row")
    found = several(office, "Number,Name,Answer\n11,Ada Abel,\n12,Ben Bell,perhaps\nx,,yes\n")
    assert found["11, Ada Abel"][1:] == ["none", "no answer in this row"]
    assert found["12, Ben Bell, perhaps"][2].startswith('"perhaps" is not an answer')
    assert found["x, yes"][2].startswith('"x" is not the number of a child')
    jane = office.browser("jane")
    assert not any(it.startswith("Record ") for it in shown(jane).buttons())
    page = enter(jane, "21 decline", "22 no idea", "23")
    assert {row[0]: row[3] for row in pile(page)[:3]} == {
        "21 decline": "decline", "22 no idea": "decline", "23": "accept"}
    assert pile(page)[1][5] == 'the name given is "idea"'
    question = Page(press(jane, PAGE, page, "Record 2 answers").text)
    assert "accept: child 23, Child Number23, at A Alpha" in " ".join(
        question.by_id["by-number"].split())
    assert "child 21," in question.by_id["final"] and "child 21," not in question.by_id["by-number"]


REFUSALS = ["not accepted", "does not accept", "doesn't accept", "doesn’t accept", "DONT ACCEPT",
            "never accepted", "unable to accept", "no accept", "accept? no", "cannot say yes",
            "not yes", "accept, not sure", "will not decline"]


def test_an_answer_that_is_turned_round_is_none(office: Site) -> None:
    """Neither typed nor pasted, and no button makes it one."""
    jane = office.browser("jane")
    rows = [f"{whom} {text}" for text in REFUSALS for whom in ("12", "12 Ben Bell", "Ben Bell")]
    page = enter(jane, *rows)
    pasted = several(office, "\n".join(["11 accept", *rows]))
    assert pasted["11 accept"] == ["11", "accept", ""]
    for typed, *row in [*pile(page), *pile(shown(jane))[:-1]]:
        assert row[2] == "none" or "has the answers" in row[4], (typed, row)
        assert row[2] != "none" or "no answer in this row" in row[4], (typed, row)
    chosen = [it for it in shown(jane).buttons() if it.startswith("It is ")]
    assert chosen and all(it.endswith((": accept", ": decline")) for it in chosen)
    for it in chosen:
        press(jane, PAGE, shown(jane), it)
    assert "Record 1 answer" in shown(jane).buttons(), "the accept of 11 alone is ready"


def test_another_column_may_turn_an_answer_round(office: Site) -> None:
    """A note beside an accept that says the contrary marks its row."""
    found = several(office, "Number,Answer,Note\n11,accept,does not accept\n12,accept,by letter\n")
    assert 'another column has "does not accept"' in found["11, accept, does not accept"][2]
    assert found["12, accept, by letter"] == ["12", "accept", ""]


def test_a_name_with_such_a_word_is_a_name(office: Site) -> None:
    """The words of the child's own name turn nothing round."""
    jane = office.browser("jane")
    amend = {**child(12, "Ana Never", 12), "cmd": "amend"}
    assert office.parts.desk.send(Person("bo", "officer"), amend).is_done
    assert pile(enter(jane, "12 Ana Never accepts"))[0][3:] == ["accept", "B", ""]


def test_a_colon_separates(office: Site) -> None:
    """As a list in a letter has it: the name, a colon, the answer."""
    assert several(office, "12 Ben Bell: yes\n14 Dai O'Dare: no\n11: Ada Abel : accept\n") == {
        "12 Ben Bell: yes": ["12", "accept", ""], "14 Dai O'Dare: no": ["14", "decline", ""],
        "11: Ada Abel : accept": ["11", "accept", ""]}


def test_marked_rows_are_removed_at_once(office: Site) -> None:
    """A row that is not read is no other answer than the same one in a file that comes after it;
    another answer is. All that have a problem go together, and the others stay.
    """
    found = several(office, "12 Ben Bell / yes\n14 Dai O'Dare / no\n11 Ada Abel yes\n13 ? yes\n")
    assert '"/" is not understood' in found["12 Ben Bell / yes"][2]
    assert found["11 Ada Abel yes"] == ["11", "accept", ""]
    jane = office.browser("jane")
    jane.get(PAGE)
    given = {"pasted": "12 Ben Bell accept\n14 Dai O'Dare accept\n"}
    assert jane.post("/answers/several", given).status_code == 303
    found = {row[0]: [row[1], row[3], row[5]] for row in pile(shown(jane))}
    assert found["12 Ben Bell accept"] == ["12", "accept", ""]
    assert found["14 Dai O'Dare accept"][2] == "the batch has another answer for this child"
    page = shown(jane)
    assert "Record 2 answers" in page.buttons()
    question = Page(press(jane, PAGE, page, "Remove the 4 answers with a problem").text)
    assert "Ada Abel" not in question.by_id["removed"] and len(pile(shown(jane))) == 6
    press(jane, f"{PAGE}remove", question, "Remove 4 answers")
    assert sorted(row[0] for row in pile(shown(jane))) == ["11 Ada Abel yes", "12 Ben Bell accept"]
    assert not any("with a problem" in it for it in shown(jane).buttons())


def test_names_that_are_not_all_offered_are_said_to_be_more(office: Site) -> None:
    """Of many children of one name eight are offered, and that is said."""
    jane = office.browser("jane")
    row = pile(enter(jane, "child"))[0]
    count = int(row[5].split()[0])
    assert count > 8 and row[5] == (f"{count} children have names like it, of whom the first 8 are"
                                    " offered here: enter the number")
    assert sum(it.startswith("It is ") for it in shown(jane).buttons()) == 8


def test_what_puts_a_wrong_decline_right_is_said_before_and_after(office: Site) -> None:
    """In the question, below what was recorded, and in the help; not of accepts."""
    jane, said = office.browser("jane"), "depends on who has the place by then"
    assert said not in jane.get(PAGE).text
    page = enter(jane, "12-")
    question = press(jane, PAGE, page, "Record 1 answer")
    assert said in question.text and "plan" not in Page(question.text).by_id["final"]
    press(jane, f"{PAGE}record", Page(question.text), next(
        it for it in Page(question.text).buttons() if it.startswith("Record 1 answer")))
    assert said in " ".join(shown(jane).by_id["wrong-decline"].split())
    assert "/help/a-wrong-accept-or-decline" in shown(jane).stops
    assert "A wrong decline" in jane.get("/help/a-wrong-accept-or-decline").text


@pytest.mark.parametrize("text", SHEETS)
@pytest.mark.parametrize("how", ["pasted", "sheet"])
def test_a_sheet_or_a_column_fills_the_pile(office: Site, text: str, how: str) -> None:
    """Replies, or entries as they are typed, with the names compared."""
    jane = office.browser("jane")
    jane.get(PAGE)
    given: dict[str, Any] = {"pasted": text}
    if how == "sheet":
        given = {"sheet": (io.BytesIO(text.encode()), "replies.csv")}
    found = jane.post("/answers/several", given, content_type="multipart/form-data")
    assert found.status_code == 303, Page(found.text).said()
    # (by which the script of the page keeps the text no more)
    assert 'data-added="yes"' in jane.get(found.location).text
    assert "data-added" not in jane.get(PAGE).text
    assert [row[1:] for row in pile(shown(jane))] == [
        ["12", "Ben Bell", "decline", "B", ""], ["11", "Ada Abel", "accept", "A", ""]]


def test_a_workbook_fills_the_pile(office: Site) -> None:
    """With lists that are left, and plans; each final one is in the question."""
    book = openpyxl.Workbook()
    for row in (["Reply", "Child", "School", "Name"], ["accept", 11, "A", "Ada Abel"],
                ["plan", 41, "B", "Zoe Zander"], ["leave", 13, "B", "Cyd Cole"]):
        book.active.append(row)
    out = io.BytesIO()
    book.save(out)
    jane = office.browser("jane")
    jane.get(PAGE)
    found = jane.post("/answers/several", {"sheet": (io.BytesIO(out.getvalue()), "a.xlsx")},
                      content_type="multipart/form-data")
    assert found.status_code == 303, Page(found.text).said()
    page = shown(jane)
    assert [row[1:] for row in pile(page)] == [
        ["13", "Cyd <b>Cole</b>", "leave the list", "B", "the child does not wait at B"],
        ["41", "Zoe Zander", "plan", "B", ""], ["11", "Ada Abel", "accept", "A", ""]]
    question = Page(press(jane, PAGE, page, "Record 2 answers").text)
    assert "plan: child 41, Zoe Zander, at B Beta" in " ".join(question.by_id["final"].split())
    press(jane, PAGE, question, "Record 2 answers, with that of Zoe Zander")
    assert kinds(office)[41] == "plan" and kinds(office)[11] == "accepted"


def test_a_name_that_is_another_stops_its_answer(office: Site) -> None:
    """Until somebody says that it is this child."""
    jane = office.browser("jane")
    jane.get(PAGE)
    text = "accept,11,A,Ada Abell\naccept,12,B,Zoe Young\naccept,13,B,Cyd Cole\n"
    jane.post("/answers/several", {"pasted": text}, content_type="multipart/form-data")
    page = shown(jane)
    assert {row[1]: row[5] for row in pile(page)} == {
        "11": "", "12": 'the name given is "Zoe Young"',
        "13": "the answer names B: The child was offered a place at Alpha on 3 March 2025."
              " There is no answer yet."}
    press(jane, PAGE, page, "It is Ben Bell all the same: accept")
    assert {row[1]: row[5] for row in pile(shown(jane))}["12"] == ""
    assert "Record 2 answers" in shown(jane).buttons()


REFUSED = [
    ("school,reply\nA,accept\n", "no column has the title of a child's number or name"),
    ("child,school,lot\n11,A,5\n", "this is a sheet of lots."),
    ("child,school,offered,due\n11,A,2025-03-03,2025-03-17\n",
     "this is a list of children, without answers."),
    ("child,name,east,north,looked_after,flags,siblings,day,preferences\n1,A,1,1,no,,,x,A\n",
     "this is a sheet of applications."),
    ("reply,child,school\n", "there is no child below the titles"),
]


@pytest.mark.parametrize("text, said", REFUSED)
def test_another_sheet_is_refused(office: Site, text: str, said: str) -> None:
    """Whole, with the reason, without words for a terminal; what was pasted is still there."""
    jane = office.browser("jane")
    jane.get(PAGE)
    found = jane.post("/answers/several", {"pasted": text}, content_type="multipart/form-data")
    page = Page(found.text)
    assert found.status_code == 400 and said.lower() in page.said().lower(), page.said()
    assert "admissions-" not in page.said() and "--" not in page.said()
    assert text.split("\n")[0] in page.by_id["pasted"] and pile(page) == []


def test_hostile_uploads_are_refused(office: Site) -> None:
    """As of other sheets; and an entry is of a length."""
    jane = office.browser("jane")
    jane.get(PAGE)
    for data in (b"%PDF-1", b"PK\x03\x04xx", b"\0\1\2", b""):
        found = jane.post("/answers/several", {"sheet": (io.BytesIO(data), "a.xlsx")},
                          content_type="multipart/form-data")
        assert found.status_code == 400 and "Nothing was added: " in Page(found.text).said()
    both = {"pasted": "11", "sheet": (io.BytesIO(b"12"), "a.csv")}
    found = jane.post("/answers/several", both, content_type="multipart/form-data")
    assert found.status_code == 400 and "and not both" in Page(found.text).said()
    found = jane.post("/answers/several", {"pasted": "1\n" * 150_000},
                      content_type="multipart/form-data")
    assert found.status_code == 400 and "too much to be pasted" in Page(found.text).said()
    found = jane.post("/answers/several", {"pasted": "11\n" * (piles.MOST + 1)},
                      content_type="multipart/form-data")
    assert found.status_code == 400 and "at most 2,000 answers" in Page(found.text).said()
    found = jane.post("/answers/several", {"sheet": (io.BytesIO(b"Zz Yy,yes\n" * 20_000), "a.csv")},
                      content_type="multipart/form-data")
    assert found.status_code == 400 and "It has 20,000 rows" in Page(found.text).said()
    page = enter(jane, "<script>alert(1)</script>" + "x" * 5000)
    assert "<script>alert" not in page.text and len(pile(page)[0][0]) == answers.MOST_TYPED


def test_only_who_may_record_has_a_pile(office: Site) -> None:
    """A reader, the head of a school and a supervisor do not."""
    for name, role in (("rita", "reader"), ("ann", "school-A"), ("sue", "supervisor")):
        browser = office.browser(name, role)
        assert browser.get(PAGE).status_code == 403, role
        for path in (PAGE, "/answers/several", "/answers/record", "/answers/remove",
                     "/answers/choose"):
            assert browser.post(path, {"entry": "11"}).status_code == 403
    assert office.parts.store.rows("SELECT * FROM answer") == []


def test_a_pile_is_kept_while_the_register_is_closed(office: Site) -> None:
    """Each answer says why it was not recorded, and is recorded later."""
    jane, desk = office.browser("jane"), office.parts.desk
    page = enter(jane, "11", "12")
    desk.closed = lambda: "Recording is paused for round 2 by hal."
    record(jane, page, "Record 2 answers")
    page = shown(jane)
    assert [row[5] for row in pile(page)] == ["", "Recording is paused for round 2 by hal."]
    assert sent(office) == []
    desk.closed = str
    record(jane, page, "Record 2 answers")
    assert len(sent(office)) == 2 and pile(shown(jane)) == []


def test_a_pile_is_shown_while_the_register_is_away(tmp_path: pathlib.Path) -> None:
    """What was typed is kept, and typed again into the field where it could not be added."""
    make(tmp_path / "reg.db", offered())
    with served(tmp_path / "reg.db") as (address, run), site(tmp_path, address) as office:
        jane = office.browser("jane")
        enter(jane, "11", "12-")
        run.terminate()
        run.wait()
        office.parts.desk.copy = None
        found = jane.get(PAGE)
        page = Page(found.text)
        assert found.status_code == 503 and "The register does not answer now" in page.said()
        assert "2 answers are kept: 11, 12-" in " ".join(page.text.split())
        found = jane.post(PAGE, {"entry": "13"})
        page = Page(found.text)
        assert found.status_code == 503 and "13 was not added" in page.said()
        assert page.fields["entry"]["value"] == "13"


def test_a_wait_has_an_end() -> None:
    """A page that records a large batch comes back and shows how far it is."""
    assert 0 < screen.WAIT_SECONDS <= 30


def test_a_pile_of_somebody_who_has_left_is_taken_over(office: Site) -> None:
    """Shown whole, taken over by a button that names whose it is, on record; and then recorded."""
    jane, hal = office.browser("jane"), office.browser("hal", "head")
    enter(office.browser("bo"), "11", "12-", "Ada")
    office.parts.people.lock("bo", True)
    assert "bo, who is locked, has 3 answers not recorded yet" in " ".join(shown(jane).text.split())
    found = Page(jane.get("/answers/of/bo").text)
    assert [it[:5] for it in found.tables["3 answers of bo"][1:]] == [
        ["Ada", "", "not known", "accept", ""], ["12-", "12", "Ben Bell", "decline", "B"],
        ["11", "11", "Ada Abel", "accept", "A"]]
    stale = found.form("Take over 3 answers of bo").sent_by("Take over 3 answers of bo")
    office.parts.people.lock("bo", False)
    assert jane.get("/answers/of/bo").status_code == 403, "who is there records it"
    enter(office.browser("bo"), "13")
    office.parts.people.lock("bo", True)
    late = jane.post("/answers/of/bo", stale)
    assert late.status_code == 409 and "has changed since it was shown" in Page(late.text).said()
    assert not pile(shown(jane)) and len(pile(shown(hal))) == 0
    page = Page(jane.get("/answers/of/bo").text)
    assert press(jane, "/answers/of/bo", page, "Take over 4 answers of bo").status_code == 303
    assert [it[0] for it in pile(shown(jane))] == ["13", "Ada", "12-", "11"]
    assert office.parts.history.entries[-1].about == {
        "person": "bo", "answers": ["11", "12-", "Ada", "13"]}
    assert "The batch of bo is empty." in jane.get("/answers/of/bo").text
    assert hal.change(what="remove", name="bo").status_code == 200
    question = press(jane, PAGE, shown(jane), "Record 3 answers")
    press(jane, PAGE, Page(question.text), "Record 3 answers, with that of Ben Bell")
    assert sent(office) == [{"cmd": "accept", "child": 11, "school": "A"},
                            {"cmd": "decline", "child": 12, "school": "B"},
                            {"cmd": "accept", "child": 13, "school": "A"}]


def test_who_may_take_over_a_pile(office: Site) -> None:
    """An officer that of somebody who cannot record it; a head that of anybody; nobody else any."""
    jane, hal, bo = office.browser("jane"), office.browser("hal", "head"), office.browser("bo")
    enter(bo, "11")
    assert "Batches of colleagues" not in jane.get(PAGE).text
    assert "bo has 1 answer not recorded yet" in " ".join(shown(hal).text.split())
    for name, role in (("rea", "reader"), ("ad", "administrator"), ("sup", "supervisor")):
        other = office.browser(name, role)
        assert other.get("/answers/of/bo").status_code == 403, role
        assert other.post("/answers/of/bo", {"digest": ""}).status_code == 403, role
    assert jane.post("/answers/of/bo", {"digest": ""}).status_code == 403
    assert bo.get("/answers/of/bo").status_code == 403 and not pile(shown(jane))
    assert hal.get("/answers/of/B%3Cb%3E").status_code == 404
    assert hal.post("/answers/of/bo", {"digest": ""}).status_code == 409
    office.parts.people.set_role("bo", "reader")
    assert "has the role reader" in jane.get("/answers/of/bo").text
    # (an entry that is handed over is recorded once, by whom it is now)
    entry = office.parts.piles.of("bo")[0]
    office.parts.piles.hand_over("bo", "hal", [entry])
    assert not office.parts.piles.begin(Person("bo", "officer"), entry)
    assert [it[0] for it in pile(shown(hal))] == ["11"]


def test_without_a_history_no_pile_is_taken_over(office: Site) -> None:
    """The batch stays where it is."""
    hal = office.browser("hal", "head")
    enter(office.browser("bo"), "11")
    page = Page(hal.get("/answers/of/bo").text)
    office.parts.history.fd, kept = -1, office.parts.history.fd
    found = press(hal, "/answers/of/bo", page, "Take over 1 answer of bo")
    office.parts.history.fd = kept
    assert found.status_code == 409 and "Nothing was taken over" in Page(found.text).said()
    assert [it.batch for it in office.parts.piles.of("bo")] == ["bo"]


@pytest.mark.parametrize("who, when", [("jane", "before"), ("bo", "after")])
def test_an_equal_answer_of_before_or_of_a_colleague_is_not_this_one(
    office: Site, who: str, when: str,
) -> None:
    """The application ended before it sent an answer: what was sent before that, or by somebody
    else, does not say that it is recorded.
    """
    jane, desk = office.browser("jane"), office.parts.desk
    enter(jane, "12", "11")
    found = office.parts.piles
    entry = next(it for it in found.of("jane") if it.meant.child == 11)
    accept = {"cmd": "accept", "child": 11, "school": "A"}
    if when == "before":
        assert desk.send(Person(who, "officer"), accept).is_done
    assert found.begin(Person("jane", "officer"), entry)
    if when == "after":
        assert desk.send(Person(who, "officer"), accept).is_done
    page = shown(jane)
    assert [it[0] for it in pile(page)] == ["11", "12"] and recorded(page) == []
    assert "There was no answer" in pile(page)[0][5]


def test_what_is_recorded_fills_no_pile(
    office: Site, monkeypatch: pytest.MonkeyPatch,
) -> None:
    """A batch has room for the answers that wait; the last of those that are recorded are
    listed.
    """
    monkeypatch.setattr(piles, "MOST", 3)
    monkeypatch.setattr(screen, "MOST_RECORDED", 2)
    jane = office.browser("jane")
    record(jane, enter(jane, "11", "12", "13"), "Record 3 answers")
    page = enter(jane, "14", "15", "16")
    assert len(pile(page)) == 3
    assert [it[0] for it in page.tables["recorded"][1:]] == ["13", "12"]
    assert "Recorded: 3 answers, of which the last 2 are here" in " ".join(page.text.split())
    found = jane.post(PAGE, {"entry": "17"})
    assert found.status_code == 409 and "at most 3 answers" in Page(found.text).said()
    counted = office.parts.end.counts()
    assert counted["answers that wait in batches"] == 3


def test_a_copy_is_made_before_plans_are_recorded(
    office: Site, monkeypatch: pytest.MonkeyPatch,
) -> None:
    """By the batch, as a plan is final; without a copy nothing of it is recorded. Not for answers.
    """
    jane = office.browser("jane")
    record(jane, enter(jane, "11"), "Record 1 answer")
    assert office.copied == []
    several(office, "plan,41,B,Zoe Zander\n")

    def none(*_: object) -> int:
        raise Refused("there is no copy: the disk is full")

    before = len(sent(office))
    with monkeypatch.context() as patch:
        patch.setattr(office.parts.copies, "make", none)
        record(jane, shown(jane), "Record 1 answer")
    assert "There is no copy: the disk is full." in pile(shown(jane))[0][5]
    assert len(sent(office)) == before and office.copied == []
    record(jane, shown(jane), "Record 1 answer")
    assert kinds(office)[41] == "plan"
    assert office.copied == ["before EHC plans are recorded"]
